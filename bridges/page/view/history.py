"""All questions about a dump, asked in one call, with the answers put together by transaction and by table."""

from __future__ import annotations

from bisect import bisect_left
from collections.abc import Iterable
from dataclasses import dataclass, field
from pathlib import Path

from gprom import answers as a
from gprom.anomalies import full_name
from gprom.history import Dump
from gprom.history import History as Log
from gprom.people import People, Person
from gprom.program import Answer, Program

# The rows that are kept of an answer of SAW or CHANGES. The page shows fewer.
MOST_KEPT = 200
# The anomalies that are listed, with their arrows.
MOST_CYCLES = 200
# The rows that a table has at most, but for inserts beside one another.
MOST_ROWS = 10_000


@dataclass
class Limits:
    """How much the page shows."""

    transactions: int = 300
    rows: int = 400
    # The rows whose provenance is asked, as far as the sizes of the tables tell.
    provenance: int = 50_000


@dataclass
class Statement:
    """A statement of a transaction, the version that it read, and what is known of it."""

    transaction: int
    number: int
    line: int
    text: str
    read: int
    saw: Answer | None
    changes: Answer | None

    @property
    def name(self) -> str:
        return f"{self.transaction}.{self.number}"


@dataclass
class Transaction:
    listed: a.Listed
    log: Answer
    conflicts: Answer
    begin_line: int = 0
    end_line: int | None = None
    statements: list[Statement] = field(default_factory=list)

    @property
    def number(self) -> int:
        return self.listed.number

    @property
    def kind(self) -> str:
        """The first word of what became of it: committed, lost, rolled or active."""
        return self.listed.fate.partition(" ")[0]

    @property
    def version(self) -> int | None:
        """The version that it made."""
        return self.listed.version

    def met(self) -> list[a.Conflict]:
        return a.lines_of(self.conflicts, a.conflict)

    def reads(self) -> list[int]:
        """The versions that it read, in order."""
        return sorted({self.listed.begin, *(statement.read for statement in self.statements)})


@dataclass
class Table:
    name: str
    columns: list[str]
    versions: Answer
    history: Answer
    provenance: dict[int, Answer]
    _polynomials: dict[int, dict[a.Row, str]] = field(default_factory=dict)

    def spans(self) -> list[a.Span]:
        return a.lines_of(self.versions, a.span)

    def lives(self, wanted: set[str]) -> list[a.Life]:
        """The lines of HISTORY about these rows."""
        lines = (line for line in self.history.lines if line.partition(" ")[0] in wanted)
        return [life for life in map(a.life, lines) if life]

    def polynomial(self, version: int, row: a.Row) -> str | None:
        """What rows with these cells came from at a version, where it was asked."""
        if version not in self._polynomials:
            answer = self.provenance.get(version)
            self._polynomials[version] = {line.row: line.value or "" for line in a.lines_of(answer, a.plain)} if answer else {}
        return self._polynomials[version].get(row)


@dataclass(frozen=True)
class Cycle:
    """A cycle that is shown: an anomaly, or the shortest one where the program has this alone."""

    edges: tuple[a.Edge, ...]
    anomaly: a.Anomaly | None = None

    @property
    def transactions(self) -> tuple[int, ...]:
        return tuple(edge.first for edge in self.edges)

    @property
    def key(self) -> str:
        """Its part of an address."""
        return "-".join(map(str, self.transactions))

    @property
    def name(self) -> str:
        return full_name(self.anomaly).capitalize() if self.anomaly else "Cycle"


class Questions:
    """The questions of one call, each once, with the lines that are kept of its answer. The log decides which there are."""

    def __init__(self, log: Log, most: int, anomalies: bool):
        self._log = log
        self._kept: dict[str, int | None] = {}
        self.add("CHECK", "SERIAL", "TRANSACTIONS", *(["ANOMALIES"] if anomalies else []))
        for table in log.tables:
            self.add(f"VERSIONS OF {table}", f"HISTORY OF {table}")
        self.provenance: dict[str, list[int]] = {**{table: [] for table in log.tables}, **self._of_versions(most)}
        for it in log.transactions:
            self.add(f"LOG {it.number}")
            self.add(f"CONFLICTS {it.number}", *(about(it.number, one.number, one.text) for one in it.statements), most=MOST_KEPT)

    def add(self, *questions: str, most: int | None = None) -> None:
        self._kept.update(dict.fromkeys(questions, most))

    def _of_versions(self, most: int) -> dict[str, list[int]]:
        """The versions of each table whose rows are asked where they came from: of too many the last ones, which have what stands now."""
        wrote = [(it.version, table) for it in self._log.makers if it.version for table in sorted(it.tables()) if table in self._log.tables]
        chosen: dict[str, list[int]] = {}
        for version, table in sorted(wrote, reverse=True):
            most -= min(self._log.sizes[table], MOST_ROWS)
            if most < 0:
                break
            chosen.setdefault(table, []).append(version)
            self.add(came_from(version, table))
        return chosen

    def ask(self, program: Program, dump: Path) -> dict[str, Answer]:
        return {answer.question: answer for answer in program.ask(dump, list(self._kept), most=list(self._kept.values()))}


def about(transaction: int, statement: int, text: str) -> str:
    """The question about what a statement did."""
    return f"SAW {transaction} AFTER {statement} {text}" if text.startswith("SELECT") else f"CHANGES {transaction} {statement}"


def came_from(version: int, table: str) -> str:
    return f"PROVENANCE OF AS OF {version} SELECT * FROM {table}"


class History:
    """The answers about a dump."""

    def __init__(self, program: Program, dump: Path, limits: Limits, people: People | None = None):
        log = _log_of(dump)
        self.people = people or People()
        self.people.name_sessions(log)
        questions = Questions(log, limits.provenance, program.knows("ANOMALIES"))
        self._answers = questions.ask(program, dump)
        self.answers = list(self._answers.values())
        self.check, self.serial, self.listing = self.answers[:3]
        self.tables = {
            name: Table(
                name,
                table.names,
                self._answers[f"VERSIONS OF {name}"],
                self._answers[f"HISTORY OF {name}"],
                {version: self._answers[came_from(version, name)] for version in questions.provenance[name]},
            )
            for name, table in log.tables.items()
        }
        self.anomalies = self._answers.get("ANOMALIES")
        # All anomalies, and those that are shown.
        self.found = a.anomalies(self.anomalies) if self.anomalies else []
        self.cycles = [Cycle(it.edges, it) for it in self.found[:MOST_CYCLES]] or self._cycle()
        self.transactions = [self._transaction(line) for line in a.lines_of(self.listing, a.listed)]
        self._find_reads()
        self.makers = {it.version: it.number for it in self.transactions if it.version is not None}
        self.last = max(self.makers, default=0)
        self.shown = self._cut(limits.transactions)

    def _cycle(self) -> list[Cycle]:
        """That of SERIAL."""
        return [Cycle(tuple(a.lines_of(self.serial, a.edge)))] if self.serial.head.startswith("cycle ") else []

    def person(self, transaction: int) -> Person | None:
        """Who ran a transaction, where it is known."""
        return self.people.transactions.get(transaction)

    def idle(self) -> list[int]:
        """The committed transactions that wrote nothing, by the row versions of all tables."""
        wrote = {version for table in self.tables.values() for span in table.spans() for version in (span.start, span.end)}
        return [number for version, number in self.makers.items() if version not in wrote]

    def _transaction(self, listed: a.Listed) -> Transaction:
        log = self._answers[f"LOG {listed.number}"]
        lines = a.lines_of(log, a.logged)
        made = Transaction(listed, log, self._answers[f"CONFLICTS {listed.number}"])
        if not lines:
            return made
        made.begin_line = lines[0].line
        made.end_line = lines[-1].line if made.kind != "active" else None
        for k, line in enumerate(lines[1 : 1 + listed.statements], 1):
            answer = self._answers.get(about(listed.number, k, line.text))
            saw, changes = (answer, None) if line.text.startswith("SELECT") else (None, answer)
            made.statements.append(Statement(listed.number, k, line.line, line.text, listed.begin, saw, changes))
        return made

    def _find_reads(self) -> None:
        """A statement of a read committed transaction reads the version that is the newest at its line; others read that of the BEGIN."""
        ends = sorted((it.end_line, it.version) for it in self.transactions if it.version is not None and it.end_line is not None)
        for it in self.transactions:
            for statement in it.statements:
                before = bisect_left(ends, (statement.line, 0))
                if it.listed.level == "READ COMMITTED":
                    statement.read = ends[before - 1][1] if before else 0

    def _cut(self, most: int) -> list[Transaction]:
        """The transactions that are shown: those of the first cycles, as many as have room, and the first others."""
        cycle = set(self.cycles[0].transactions) if self.cycles else set[int]()
        for it in self.cycles:
            if len(cycle.union(it.transactions)) <= most:
                cycle.update(it.transactions)
        room = max(0, most - len(cycle))
        first = [it.number for it in self.transactions if it.number not in cycle][:room]
        kept = cycle.union(first)
        return [it for it in self.transactions if it.number in kept]


def _log_of(dump: Path) -> Log:
    """The log of a dump. Of a file that cannot be read it is empty: then the program says what is wrong with it."""
    try:
        return Dump.open(dump).history
    except OSError:
        return Log()


def refused(answers: Iterable[Answer]) -> list[Answer]:
    return [it for it in answers if it.refused]
