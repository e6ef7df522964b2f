"""The records of pgAudit in the place of durations.

pgAudit tells of a statement when it begins, and not when it has ended: that is before the next record of its session, if that is of the same
transaction. So a record is given when the next one is there. Of statements inside of others, as of a function, the outer one is taken.
In a transaction that failed it tells of nothing, so a ROLLBACK stands where the next record of the session is of another transaction. One of
the same transaction comes behind a ROLLBACK TO the last savepoint.
"""
import csv
from collections.abc import Callable, Iterator
from dataclasses import dataclass, replace
from typing import Any

from . import NotCovered, UserError, files
from .statements import parse
from .translate import text_constant

SIGN = 'AUDIT: SESSION,'
BLOCK = 1 << 22
HIDDEN = '<not logged>'
ENDS = ('COMMIT', 'ROLLBACK')
SLACK = 0.005                     # seconds by which a time of the log may be off
WAIT = 60.0                       # seconds that a statement takes at most, where no record says when it ended


def is_audited(file: str | files.Names) -> bool:
    """Whether a log begins with records of pgAudit, and without durations."""
    with files.opened(file) as opened:
        start = opened.read(BLOCK)
    return SIGN.encode() in start and b'"duration: ' not in start


@dataclass
class Part:
    """A record of pgAudit: the number of its statement in the session and in that, its command, its text and its parameters."""
    statement: str
    inner: str
    command: str
    text: str
    parameters: dict[int, Any]


def part_of(message: str, file: str | files.Names, line: int) -> Part:
    fields: list[str] = next(csv.reader([message.removeprefix('AUDIT: ')], strict=False), [])
    if '\n' in message:                               # a text of several lines is one field
        fields = next(csv.reader(iter(message.removeprefix('AUDIT: ').splitlines(keepends=True))), [])
    if len(fields) < 9:
        raise UserError(f'{file}, line {line}: the record of pgAudit is cut off')
    if HIDDEN in (fields[7], fields[8]):
        raise UserError(f'{file}, line {line}: a record of pgAudit without its text or parameters: set pgaudit.log_parameter = on')
    given: list[str] = [] if fields[8] == '<none>' else next(csv.reader([fields[8]]), [])
    return Part(fields[1], fields[2], fields[4], fields[7], {at: text_constant(text or None) for at, text in enumerate(given, 1)})


@dataclass
class Open:
    """The last message of a session: its record, as far as it is known, the statement that it began with, and how many more its text has."""
    record: Any
    part: Part
    more: int


class Audit:
    """Makes records of a log's rows. `make` gives one, of a row, a text and its parameters."""

    def __init__(self, file: str | files.Names, make: Callable[..., Any]) -> None:
        self.file, self.make = file, make
        self.open: dict[str, Open] = {}
        self.blocks: dict[str, str] = {}              # session -> the transaction that its BEGIN began
        self.savepoints: dict[str, list[str]] = {}    # session -> the names of its savepoints
        self.broken: dict[str, Any] = {}              # session -> the record by which its transaction failed

    def add(self, line: int, fields: list[str]) -> Iterator[Any]:
        """The record of the message before, if this row is of another one."""
        part, session = part_of(fields[13], self.file, line), fields[5]
        last = self.open.get(session)
        if last and part.statement == last.part.statement:
            if part.command == 'EXECUTE' and last.part.text != part.text:         # its record is behind that of what it runs
                last.record = replace(last.record, text=part.text, prepared=last.part.text, parameters={}, tag='EXECUTE')
            return
        if last and last.more and part.text == last.part.text and fields[9] == last.record.virtual:
            last.more, last.part = last.more - 1, part
            last.record = replace(last.record, xid=fields[10] if fields[10] != '0' else last.record.xid, tag=part.command)
            return
        record = self.make(line, fields, part.text, part.parameters)
        yield from self.ended(session, fields[9], record.start)
        yield from self.mended(session, fields[9])
        self.note(session, fields[9], part)
        self.open[session] = Open(replace(record, tag=part.command), part, statements_in(part.text) - 1)

    def failed(self, record: Any) -> Iterator[Any]:
        """The record of the message before, unless it is the one that failed."""
        last = self.open.get(record.session)
        if last and last.record.virtual == record.virtual and last.record.text == record.text:
            del self.open[record.session]
        yield from self.ended(record.session, record.virtual, record.start)
        yield from self.mended(record.session, record.virtual)
        if self.blocks.get(record.session) == record.virtual:
            self.broken[record.session] = record

    def note(self, session: str, virtual: str, part: Part) -> None:
        """Notes what began a transaction, and its savepoints."""
        if part.command in ('BEGIN', 'START TRANSACTION'):
            self.blocks[session], self.savepoints[session] = virtual, []
        name = part.text.rstrip(' ;').split()[-1:]
        points = self.savepoints.setdefault(session, [])
        if part.command == 'SAVEPOINT':
            points += name
        elif part.command == 'RELEASE' and name and name[0] in points:
            del points[points.index(name[0]):]

    def mended(self, session: str, virtual: str) -> Iterator[Any]:
        """What a session did behind a failure, before a record of this transaction."""
        record = self.broken.pop(session, None)
        if record is None:
            return
        is_same = record.virtual == virtual
        points = self.savepoints.get(session) or ['']
        command, now = (f'ROLLBACK TO {points[-1]}', virtual) if is_same else ('ROLLBACK', record.virtual.partition('/')[0] + '/0')
        yield replace(record, start=record.end, opened=record.end, virtual=now, text=command, tag='ROLLBACK', failed='', state='', parameters={}, prepared='')

    def ended(self, session: str, virtual: str, time: float) -> Iterator[Any]:
        """The last record of a session, whose next one is of this transaction."""
        last = self.open.pop(session, None)
        if last is None:
            return
        record = last.record
        end = max(record.end, min(time - SLACK, record.end + WAIT))       # the commit may be a little later
        if record.virtual == virtual:
            yield replace(record, end=end)
        else:                                         # one that writes may have waited, and commits when it has ended
            yield replace(record, virtual=record.virtual.partition('/')[0] + '/0', end=record.end if record.tag in (*ENDS, 'SELECT') else end)

    def finish(self) -> Iterator[Any]:
        """The last record of each session."""
        for session, last in list(self.open.items()):
            is_in_block = self.blocks.get(session) == last.record.virtual and last.part.command not in ENDS
            yield from self.ended(session, last.record.virtual if is_in_block else '', last.record.end if is_in_block else float('inf'))
        for session in list(self.broken):
            yield from self.mended(session, '')


def statements_in(text: str) -> int:
    """How many statements a message has."""
    if ';' not in text.rstrip('; \n'):
        return 1
    try:
        return len(parse(text))
    except NotCovered:
        return 1
