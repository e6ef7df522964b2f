"""Which of the committed transactions comes before which, by each of the three kinds, with what shows it."""

from __future__ import annotations

from dataclasses import dataclass
from functools import cached_property

from gprom.answers import Span
from gprom.history import History, Transaction

from .looks import Change, Look, looks

# A table and an identity, by their places: tables in the order of creation, identities in that of the row lines.
Pair = tuple[int, int]


@dataclass(frozen=True, order=True)
class Read:
    """A read that puts a before b, least first: statement k of the reader looked at the changed row of this pair."""

    k: int
    pair: Pair
    version: int
    phantom: bool


@dataclass(frozen=True)
class Kinds:
    """What puts a before b. A witness of each kind is the least of these."""

    # a read what was before b.
    antis: tuple[Read, ...]
    # b read what a made.
    reads: tuple[Read, ...]
    # Both wrote it, a in the lesser version.
    writes: tuple[Pair, ...]

    @property
    def holds(self) -> bool:
        return bool(self.antis or self.reads or self.writes)

    @property
    def by_anti_alone(self) -> bool:
        return bool(self.antis) and not self.reads and not self.writes


class Relation:
    """The relation of a history, by the log and the row lines of its dump."""

    def __init__(self, history: History, spans: dict[str, list[Span]]):
        self.history = history
        self.tables = {name: table.names for name, table in history.tables.items()}
        self._spans = spans
        self._names = list(self.tables)
        self._places = {table: {it.identity: at for at, it in reversed(list(enumerate(lines)))} for table, lines in spans.items()}
        self.committed = {it.number: it for it in history.transactions if it.version is not None}
        self._kinds: dict[tuple[int, int], Kinds] = {}

    def version(self, number: int) -> int:
        found = self.committed[number].version
        assert found is not None
        return found

    def name(self, pair: Pair) -> tuple[str, str]:
        """The table and the identity of a pair."""
        table = self._names[pair[0]]
        return table, self._spans[table][pair[1]].identity

    @cached_property
    def changes(self) -> dict[int, list[tuple[Pair, Change]]]:
        """The rows that each commit wrote, those that it left equal too."""
        return {number: self._written(self.version(number)) for number in self.committed}

    def _written(self, version: int) -> list[tuple[Pair, Change]]:
        found: list[tuple[Pair, Change]] = []
        for at, table in enumerate(self._names):
            ended = {it.identity: it.row for it in self._spans[table] if it.end == version}
            begun = {it.identity: it.row for it in self._spans[table] if it.start == version}
            for identity in {**ended, **begun}:
                found.append(((at, self._places[table][identity]), Change(table, identity, ended.get(identity), begun.get(identity))))
        return found

    @cached_property
    def _looks(self) -> dict[int, list[tuple[int, int, list[Look]]]]:
        """Of each committed transaction its statements: number, version that was read, looks."""
        return {number: [(one.number, one.read, looks(one.text, self.tables)) for one in it.statements] for number, it in self.committed.items()}

    def _met(self, reader: int, writer: int) -> list[Read]:
        """The reads of one transaction that changes of another one meet."""
        return [
            Read(k, pair, version, change.comes_or_goes)
            for k, version, found in self._looks[reader]
            for pair, change in self.changes[writer]
            if change.before != change.after and any(look.meets(change) for look in found)
        ]

    def kinds(self, a: int, b: int) -> Kinds:
        """What puts a before b."""
        if (a, b) not in self._kinds:
            antis = tuple(sorted(it for it in self._met(a, b) if self.version(b) > it.version))
            reads = tuple(sorted(it for it in self._met(b, a) if self.version(a) <= it.version))
            common = {pair for pair, _ in self.changes[a]} & {pair for pair, _ in self.changes[b]}
            self._kinds[a, b] = Kinds(antis, reads, tuple(sorted(common)) if self.version(a) < self.version(b) else ())
        return self._kinds[a, b]

    def edges(self) -> dict[int, list[int]]:
        """Of each committed transaction those that it comes before, in order."""
        numbers = sorted(self.committed)
        return {a: [b for b in numbers if b != a and self.kinds(a, b).holds] for a in numbers}

    def goes_back(self, a: int, b: int) -> bool:
        """Whether a comes before b though b committed first."""
        return self.kinds(a, b).holds and self.version(b) < self.version(a)

    def read_text(self, reader: int, it: Read, writer: int) -> str:
        table, identity = self.name(it.pair)
        return f"{reader}.{it.k} read {table} {identity} at {it.version}, {writer} wrote it as {self.version(writer)}"

    def write_text(self, a: int, pair: Pair, b: int) -> str:
        table, identity = self.name(pair)
        return f"{a} wrote {table} {identity} as {self.version(a)}, {b} as {self.version(b)}"

    def witness(self, a: int, b: int) -> str:
        """The first kind that holds, with the least of what shows it."""
        kinds = self.kinds(a, b)
        if kinds.antis:
            return self.read_text(a, kinds.antis[0], b)
        return self.read_text(b, kinds.reads[0], a) if kinds.reads else self.write_text(a, kinds.writes[0], b)

    def order(self) -> list[Transaction]:
        """Again and again, of the transactions all of whose predecessors are taken, the one with the least version. Where there is a cycle, not all are taken."""
        edges, left, taken = self.edges(), sorted(self.committed, key=self.version), list[Transaction]()
        while True:
            free = next((it for it in left if not any(it in edges[other] for other in left)), None)
            if free is None:
                return taken
            left.remove(free)
            taken.append(self.committed[free])
