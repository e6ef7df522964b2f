"""The file of gprom_capture as a stream of transactions, each given where it ends. One line of JSON is a statement or the end of a transaction."""
import json
from collections.abc import Iterator
from dataclasses import dataclass, field, replace
from itertools import islice
from typing import Any

from . import UserError, files

BLOCK = 1 << 22
EPOCH = 946684800                 # seconds from 1970 to the year 2000, where the times of a server begin


@dataclass
class Entry:
    """A statement of the capture."""
    line: int
    fields: dict[str, Any]
    children: list['Entry'] = field(default_factory=list)

    @property
    def text(self) -> str:
        return str(self.fields.get('q', ''))

    @property
    def operation(self) -> str:
        """The command of its plan; a utility statement has none."""
        return str(self.fields.get('o', ''))

    def tables(self, *names: str) -> list[tuple[str, str]]:
        """(table, schema) of its plan: those that it reads (r) or writes (w)."""
        texts = [text for name in names for text in self.fields.get(name, ())]
        return [(text.split('.', 1)[1], text.split('.', 1)[0]) for text in dict.fromkeys(texts)]


@dataclass
class Found:
    """A transaction of the capture, before its statements are read."""
    session: str
    entries: list[Entry] = field(default_factory=list)
    undone: list[tuple[int, int]] = field(default_factory=list)       # (number of the line, subtransaction)
    end: dict[str, Any] | None = None
    end_line: int = 0

    @property
    def xid(self) -> str:
        """The number of the transaction, or '0'. One that is open has it in its statements."""
        return str(self.end['X'] if self.end else next((entry.fields['X'] for entry in reversed(self.entries) if entry.fields.get('X')), 0))


def seconds(microseconds: int) -> float:
    return microseconds / 1e6 + EPOCH


def ended(line: bytes) -> float:
    """When the statement or transaction of a line ended; the end of a subtransaction has no time."""
    try:
        return seconds(json.loads(line)['z'])
    except (ValueError, KeyError, TypeError):
        return float('inf')


def lines_of(file: str | files.Names, low: float) -> Iterator[tuple[int, str]]:
    """(number, text) of the lines of a file, without most of those whose transactions ended before `low`, in seconds."""
    offset, number, rest = 0, 1, b''
    with files.opened(file) as opened:
        while low and (block := opened.read(BLOCK)):
            text = rest + block
            last = text.rfind(b'\n{"k":"', 0, text.rfind(b'\n')) + 1
            if last == 0 or ended(text[last:text.find(b'\n', last)]) >= low:
                break
            offset, number, rest = offset + last, number + text.count(b'\n', 0, last), text[last:]
    with files.opened(file, offset) as opened:
        for number, line in enumerate(opened, number):
            yield number, line.decode('utf-8', 'replace')


def lines_from(file: str | files.Names, line: int) -> Iterator[bytes]:
    """The lines of a file from one on. Those before it are counted and not read."""
    offset, left = 0, line - 1
    with files.opened(file) as opened:
        while block := opened.read(BLOCK):
            count = block.count(b'\n')
            if count >= left:
                break
            offset, left = offset + len(block), left - count
    with files.opened(file, offset) as opened:
        yield from islice(opened, left, None)


def at_line(file: str | files.Names, lines: Iterator[bytes]) -> tuple[float, float]:
    """Begin and end of what the first of these lines has, in seconds. The end of a subtransaction has no time, so the line behind it stands for it."""
    text = b''
    try:
        for text in lines:
            fields = json.loads(text)
            if fields['k'] != 'B':
                return seconds(fields.get('t', fields['z'])), seconds(fields['z'])
    except (ValueError, KeyError, TypeError):
        pass
    raise UserError(f'{file}: {text[:40]!r} is no line with a time')


class Stream:
    """The transactions of one database in a file."""

    def __init__(self, file: str | files.Names, database: str | None) -> None:
        self.file, self.database = file, database
        self.numbers: dict[str, dict[int, int]] = {}              # session -> number of a line of it -> its line in the file
        self.cut: list[tuple[int, str]] = []
        self.databases: dict[str, str] = {}                       # session -> its database, which the end of a transaction has

    def read(self, low: float = 0.0, high: float = float('inf')) -> Iterator[Found]:
        """The transactions that end between these times, and without an end those that are open then."""
        active: dict[tuple[str, int], Found] = {}
        for number, text in lines_of(self.file, low):
            fields = self.fields_of(number, text)
            if not fields:
                continue
            key = fields['p'], fields['x']
            part = active.setdefault(key, Found(fields['p']))
            self.numbers.setdefault(fields['p'], {})[fields['n']] = number
            match fields['k']:
                case 'S' | 'U':
                    part.entries.append(Entry(number, fields))
                case 'B':
                    part.undone.append((fields['n'], fields['sub']))
                case _:
                    part.end, part.end_line = fields, number
                    del active[key]
                    self.note_database(fields['p'], fields.get('db', ''))
                    if seconds(fields['z']) > high:
                        active[key] = replace(part, end=None, end_line=0)
                        break
                    if part.entries and self.database in (None, fields.get('db', '')):
                        yield part
        yield from (part for part in active.values() if part.entries and self.may_be_meant(part.session))

    def fields_of(self, number: int, text: str) -> dict[str, Any]:
        """The fields of a line; none of one that is cut off, which is noted."""
        try:
            fields = json.loads(text)
            if all(name in fields for name in 'kpxn'):
                return dict(fields)
        except (ValueError, TypeError):
            pass
        if number == 1:
            raise UserError(f'{self.file} is no capture of gprom_capture')
        if text.strip():
            self.cut.append((number, 'a line that is cut off'))
        return {}

    def note_database(self, session: str, name: str) -> None:
        self.databases[session] = name
        if self.database is None and len(self.named()) > 1:
            raise UserError(f'{self.file} has statements of the databases {", ".join(sorted(self.named()))}: choose one with --database')

    def may_be_meant(self, session: str) -> bool:
        """Whether a session is of the database that is read, as far as that is known."""
        return self.database is None or self.databases.get(session, self.database) == self.database

    def named(self) -> set[str]:
        """The names of the databases so far."""
        return set(self.databases.values()) - {''}

    def gaps(self) -> list[tuple[int, str]]:
        """Where lines are missing: a session numbers its lines, in the order in which statements begin."""
        return self.cut + [(lines[at], f'records of this session are missing: number {at} comes behind {before}')
                           for lines in self.numbers.values()
                           for before, at in zip(sorted(lines), sorted(lines)[1:]) if at != before + 1]
