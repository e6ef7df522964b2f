"""The transactions of a log or of a capture as a stream, before their statements are parsed.

A `Light` grows while its records are read, and is given with each of them. So memory grows with what is kept of the stream, and not with the file.
"""
import re
from collections.abc import Iterable, Iterator
from dataclasses import dataclass, field
from typing import Any, NamedTuple, Protocol

from . import UserError, csvlog, files, stream, times
from .csvlog import Left, Name, Record
from .translate import text_constant

LEAD = 2.0               # seconds before a time in which the begin of an open transaction is looked for
LATE = 1.0               # seconds by which records may stand out of order
CONTROL = {'BEGIN', 'START TRANSACTION', 'COMMIT', 'ROLLBACK', 'SAVEPOINT', 'RELEASE', 'SET', 'RESET', 'SHOW', 'PREPARE', 'DEALLOCATE',
           'DISCARD ALL', 'PREPARE TRANSACTION'}
FIRSTS = {tag.split()[0] for tag in CONTROL} | {'END', 'ABORT'}         # the first words of such statements
ENDS = ('COMMIT', 'ROLLBACK')
TIMED = re.compile(rb'duration: (\d+\.\d+) ms')


@dataclass
class Light:
    """A transaction of the log or of the capture, before its statements are parsed."""
    start: float
    line: int
    session: str = ''
    virtual: str = ''
    end: float = 0.0
    xid: str = '0'
    begun: bool = True                                # its begin is known
    statements: int = 0
    parts: list[Any] = field(default_factory=list)    # its Records, or what a capture has of it
    ended: bool = False

    @property
    def last_line(self) -> int:
        last = self.parts[-1]
        return int(getattr(last, 'end_line', 0) or getattr(last, 'line', self.line))

    @property
    def is_alone(self) -> bool:
        """Whether it is a statement outside of a block. The record of one is written behind its commit, and does not name it."""
        return self.ended and len(self.parts) == 1 and self.xid == '0' and self.statements > 0


class Grown(NamedTuple):
    """What a record made of a transaction: whether it begins there, and how many statements came to it."""
    light: Light
    is_new: bool
    more: int


class Said(NamedTuple):
    """A statement as its record has it."""
    begin: float
    end: float
    text: str
    parameters: dict[int, Any]
    tag: str


class Source(Protocol):
    """What a window is read from."""
    noted: list[list[str]]                            # records before what was read that set a level for their session

    def transactions(self, low: str, high: str | None = None) -> Iterator[Grown]:
        """The transactions of the records from a time on, and those of the LEAD before it, up to another time."""

    def newest(self, light: Light) -> list[Said]:
        """The statements that a transaction got last."""

    def begin_of(self, light: Light) -> float:
        """When a transaction began."""

    def at_line(self, line: int) -> tuple[float, float]:
        """Begin and end of what is at a line of the file."""

    def gaps(self) -> Left:
        """Where records are missing in what was read."""


class LogSource:
    """The CSV log."""

    def __init__(self, file: Name, database: str | None) -> None:
        self.file, self.database = file, database
        self.noted: list[list[str]] = []
        self.numbers: list[tuple[int, list[Any]]] = []
        self.cut: Left = []

    def transactions(self, low: str, high: str | None = None) -> Iterator[Grown]:
        """Transactions in the order of their first records, while they are read: each grows until it has ended."""
        self.noted.clear()
        self.cut.clear()
        found = csvlog.rows(self.file, low and times.moved(low, -LEAD), times.moved(high, LATE) if high else '', self.noted, self.cut)
        return lights(csvlog.read(self.file, self.database, self.counted(found)))

    def counted(self, found: Iterable[tuple[int, list[str]]]) -> Iterator[tuple[int, list[str]]]:
        """Keeps what `gaps` needs."""
        self.numbers = []
        for line, fields in found:
            self.numbers.append((line, [*[None] * 5, fields[5], fields[6]]))
            yield line, fields

    def gaps(self) -> Left:
        return [*csvlog.gaps(self.numbers), *self.cut]

    @staticmethod
    def newest(light: Light) -> list[Said]:
        record = light.parts[-1]
        return [Said(record.start, record.end, record.text, record.parameters, record.tag)]

    def begin_of(self, light: Light) -> float:
        """When a transaction began whose begin is before what was read of it: its records have the number of the transaction in its backend."""
        needle = f',{light.virtual},'.encode()
        for line in lines_with(self.file, needle):
            if f',{light.session},'.encode() in line:
                match = TIMED.search(line)
                end = csvlog.seconds(line[:line.find(b',')].decode())
                return end - float(match[1]) / 1000 if match else end
        return light.start

    def at_line(self, line: int) -> tuple[float, float]:
        fields = csvlog.record_at(self.file, line)
        if len(fields) < csvlog.FIELDS:
            raise UserError(f'{self.file}, line {line}: no record of a CSV log')
        end, match = csvlog.seconds(fields[0]), csvlog.DURATION.match(fields[13])
        return end - float(match[1]) / 1000 if match else end, end + 2 * csvlog.HALF


def lines_with(file: Name, needle: bytes) -> Iterator[bytes]:
    """The lines of a file that have these bytes, the first one of each block alone."""
    rest = b''
    with files.opened(file) as opened:
        while block := opened.read(csvlog.BLOCK):
            text = rest + block
            at = text.find(needle, max(0, len(rest) - len(needle)))
            if at >= 0 and text.find(b'\n', at) >= 0:
                yield text[text.rfind(b'\n', 0, at) + 1:text.find(b'\n', at)]
            rest = text[text.rfind(b'\n') + 1:]


def lights(records: Iterable[Record]) -> Iterator[Grown]:
    """What each record makes of its transaction."""
    active: dict[str, Light] = {}
    seen: set[str] = set()
    for record in records:
        live = bool(record.virtual) and not record.virtual.endswith('/0')
        light = active.get(record.session)
        if light is not None and live and light.virtual != record.virtual:
            if record.tag in ENDS:                    # COMMIT AND CHAIN: its record has the number of the next transaction
                light.end = max(light.end, record.end)
                yield Grown(light, False, 0)
            light = None
        is_new = light is None
        if light is None:
            begun = not live or record.tag in ('BEGIN', 'START TRANSACTION') or record.session in seen
            light = active[record.session] = Light(min(record.start, record.opened), record.line, record.session, record.virtual, begun=begun)
        seen.add(record.session)
        light.parts.append(record)
        light.end = max(light.end, record.end)
        more = statements_in(record)
        light.statements += more
        if record.xid != '0':
            light.xid = record.xid
        if not live:
            light.ended = True
            del active[record.session]
        yield Grown(light, is_new, more)


def statements_in(record: Record) -> int:
    """How many statements a message has, as far as its text shows. The tag is that of its last one."""
    if ';' not in record.text:
        return int(record.tag not in CONTROL)
    firsts = (part.split(None, 1)[0].upper() for part in record.text.split(';') if part.strip())
    return sum(first not in FIRSTS for first in firsts)


class CaptureSource:
    """The file of gprom_capture."""

    def __init__(self, file: Name, database: str | None) -> None:
        self.file, self.database = file, database
        self.noted: list[list[str]] = []

    def transactions(self, low: str, high: str | None = None) -> Iterator[Grown]:
        self.stream = stream.Stream(self.file, self.database)
        for found in self.stream.read(times.to_seconds(low) - LATE if low else 0.0, times.to_seconds(high) + LATE if high else float('inf')):
            count = sum(entry.fields['k'] == 'S' for entry in found.entries)
            begin = stream.seconds(min(entry.fields['t'] for entry in found.entries))
            yield Grown(Light(begin, found.entries[0].line, found.session, end=stream.seconds(found.end['z']) if found.end else float('inf'),
                              xid=found.xid, statements=count, parts=[found], ended=found.end is not None), True, count)

    @staticmethod
    def newest(light: Light) -> list[Said]:
        return [Said(stream.seconds(entry.fields['t']), stream.seconds(entry.fields['z']), entry.text, values_of(entry), '')
                for entry in light.parts[0].entries if 'z' in entry.fields]

    @staticmethod
    def begin_of(light: Light) -> float:
        return light.start

    def gaps(self) -> Left:
        return self.stream.gaps()

    def at_line(self, line: int) -> tuple[float, float]:
        return stream.at_line(self.file, stream.lines_from(self.file, line))


def values_of(entry: stream.Entry) -> dict[int, Any]:
    """The values of the parameters of a captured statement, but for those that the capture cut."""
    return {int(name): text_constant(value) for name, value in entry.fields.get('v', {}).items() if name.isdigit() and not isinstance(value, dict)}
