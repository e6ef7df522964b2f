"""Compares what engines make of the text of `gprom sql` with the answers of `gprom ask`."""

from __future__ import annotations

import collections
import re
from collections.abc import Sequence
from dataclasses import dataclass, field
from pathlib import Path

from gprom.answers import Row, Span, lines_of, row_values, span
from gprom.program import Program

from . import Edit, Engine, Failure, Rows, dump, printed
from .histories import History, questions_of, transactions_of

EXPLAIN = re.compile(r'^\s*EXPLAIN\s+', re.I)
PLAIN = re.compile(r'\s*(?:AS\s+OF|REENACT)\s', re.I)
NOT_EXPORTED = 'E30 not exported'
REFUSAL = re.compile(r'E\d\d ')
TEXT = re.compile(r'E(?:01|02|03|14|16) ')              # refusals of a question's text, whose columns count an EXPLAIN in front of it
COMPUTED = re.compile(r'E2[567] ')                      # refusals of an answer that is computed: the query is printed all the same
NO_MISTAKE = re.compile(r'E1[123] ')                    # of a random script: lost commits, too many rows, sources of too many rows


@dataclass
class Counts:
    """What was compared, and each difference as a line."""
    rows: int = 0                                       # queries, by their rows
    refusals: int = 0                                   # questions that are refused alike
    others: int = 0                                     # tables of row versions, and texts of dumps without rows
    left_out: int = 0                                   # queries whose rows `ask` does not print, for a limit
    failures: list[str] = field(default_factory=list)

    def add(self, other: Counts) -> None:
        """Adds what another history gave."""
        self.rows += other.rows
        self.refusals += other.refusals
        self.others += other.others
        self.left_out += other.left_out
        self.failures += other.failures


def as_it_is(text: str) -> str:
    """The edit that makes no fault."""
    return text


def history(given: History, program: Program, engines: Sequence[Engine], folder: Path, edit: Edit = as_it_is) -> Counts:
    """Compares all questions of a history. `edit` makes faults in the text."""
    counts = Counts()
    made, refusals = dump.run(program, folder, given.script)
    if given.made:
        counts.failures += [f'a line is refused: {text}' for text in refusals if not NO_MISTAKE.match(text)]
    questions = questions_of(given, made.tables, transactions_of(made))
    whole = made.sql(questions)
    text = printed.read(edit(whole))
    if [part.number for part in text.parts] != list(range(1, len(questions) + 1)) or text.table_names() != made.tables:
        counts.failures.append('the text has not the tables and questions of the dump')
        return counts
    counts.add(of_log_alone(made, questions, whole))
    expected = expected_rows(made, questions, text.parts, counts)
    texts = [part.text for part in text.parts] + [f'-- {table}\nSELECT * FROM {table}_versions;\n' for table in made.tables]
    results = [(engine.name, run(engine, text.tables, texts)) for engine in engines]
    names = questions + [f'the row versions of {table}' for table in made.tables]
    for at, (name, rows) in enumerate(zip(names, expected)):
        if rows is not None:
            differences = [f'{name}: {engine}: {fault}' for engine, found in results if (fault := difference(rows, found[at]))]
            counts.failures += differences
            counts.rows += not differences and at < len(questions)
            counts.others += not differences and at >= len(questions)
    return counts


def run(engine: Engine, tables: str, texts: Sequence[str]) -> Sequence[Rows]:
    """What an engine gives for each text: rows, or a Failure."""
    try:
        return engine.run(tables, texts)
    except Failure as failure:
        return [failure] * len(texts)


def of_log_alone(made: dump.Dump, questions: Sequence[str], whole: str) -> Counts:
    """The queries are those of the log, whatever rows the dump has."""
    bare = made.without_rows().sql(questions)
    return Counts(others=1) if printed.read(bare).parts == printed.read(whole).parts else Counts(failures=['the dump without its rows has other queries'])


def expected_rows(made: dump.Dump, questions: Sequence[str], parts: Sequence[printed.Part], counts: Counts) -> list[list[Row] | None]:
    """The rows that `ask` prints for each question, None where there is nothing to run, and those of each table of row versions."""
    bare = [EXPLAIN.sub('', question, count=1) for question in questions]
    explained = [f'EXPLAIN {question}' if PLAIN.match(question) else question for question in questions]
    answers = made.ask([*bare, *explained, *(f'VERSIONS OF {table}' for table in made.tables)])
    rows: list[list[Row] | None] = [None] * len(parts)
    for at, part in enumerate(parts):
        head, said = answers[at].head, answers[len(parts) + at].head
        if part.refusal is not None or REFUSAL.match(said):
            allowed = [head if PLAIN.match(questions[at]) and TEXT.match(head) else said, *([] if PLAIN.match(bare[at]) else [NOT_EXPORTED])]
            counts.refusals += part.refusal in allowed
            counts.failures += [] if part.refusal in allowed else [f'{questions[at]}: {part.refusal or "a query"} in place of {allowed[-1]}']
        elif COMPUTED.match(head):
            counts.left_out += 1
        else:
            rows[at] = [row_values(line) for line in answers[at].lines]
    return [*rows, *(list(map(version, lines_of(answer, span))) for answer in answers[2 * len(parts):])]


def version(it: Span) -> Row:
    """A row version as a row: its identity, the version that wrote it, the one that ended it or NULL, and its cells."""
    return (it.identity, it.start, it.end, *it.row)


def difference(expected: Sequence[Row], found: Rows) -> str | None:
    """The first difference of two bags of rows, or None."""
    if isinstance(found, Failure):
        return str(found)
    ours, theirs = collections.Counter(expected), collections.Counter(found)
    for side, rows in (('gprom', ours - theirs), ('the engine', theirs - ours)):
        if rows:
            return f'{side} alone has {min(rows, key=repr)}'
    return None
