"""What `convert` reads: the transactions and commits of a whole log, or of a window of it, and the rows where it begins."""
from collections.abc import Callable, Iterable
from copy import deepcopy
from dataclasses import dataclass
from pathlib import Path
from typing import Any

from . import UserError, capture as captured, csvlog, edges, shape as shapes, slots
from .beginning import Rows, rows_at
from .csvlog import Left
from .decoding import Commit
from .definitions import Tables
from .history import History
from .lights import Source
from .schema import Table, holder, read_rows
from .shape import Shape
from .slots import Slot
from .steps import Transaction
from .stream import Stream
from .terms import inserts
from .window import BEGAN, Asked, Room, Window
from .windows import Chooser, source_of
from .words import counted

HELD = 10_000            # rows that a table of gprom may have


@dataclass
class Given:
    """What a user gave: files, and what of them is asked for."""
    log: Any                                          # the name of the log, or of its files; None with a capture
    rows: list[tuple[str, str]]                       # (table or partition, file)
    slot: str | None
    level: str
    database: str | None
    capture: str | None
    asked: Asked
    say: Callable[[str], None]

    @property
    def source(self) -> Source:
        return source_of(self.log, self.capture, self.database)


@dataclass
class Read:
    """What was read."""
    tables: Tables
    start: Rows
    transactions: list[Transaction]
    commits: list[Commit]
    left: Left                                        # (line, reason) of what is not covered, or not in full
    shape: Shape
    window: Window | None = None


def fitted(tables: Tables, start: Rows, commits: list[Commit], texts: list[str]) -> Shape:
    """Brings tables and rows into the form that they have in gprom."""
    found = shapes.shape_of(tables, start, commits, texts)
    found.apply(tables, start, commits)
    return found


# A whole log

def whole(given: Given, tables: Tables) -> Read:
    """What a log or a capture has from its begin to its end."""
    start = starting(tables, given.rows, HELD)
    commits = slots.read(given.slot, tables) if given.slot else []
    if given.capture:
        return whole_capture(given, tables, start, commits)
    records = sorted(csvlog.read(given.log, given.database), key=lambda record: record.line)
    shape = fitted(tables, start, commits, [record.text for record in records])
    history = History(tables, given.level)
    cut: Left = []
    transactions = history.read(records)
    left = [*history.left, *csvlog.gaps(csvlog.rows(given.log, cut=cut)), *cut]
    return Read(tables, start, transactions, commits, left, shape)


def whole_capture(given: Given, tables: Tables, start: Rows, commits: list[Commit]) -> Read:
    stream = Stream(given.capture or '', given.database)
    parts = list(stream.read())
    shape = fitted(tables, start, commits, [entry.text for part in parts for entry in part.entries])
    transactions, commits, left = captured.of_slot(parts, stream.gaps(), tables, commits)
    return Read(tables, start, transactions, commits, left, shape)


# A window

class Windows:
    """Reads the windows of a log, one for each Room."""

    def __init__(self, given: Given, tables: Tables) -> None:
        self.given, self.tables, self.slot = given, tables, slots.opened(given.slot or '')
        self.source = given.source
        self.chooser = Chooser(given.asked, self.source, self.slot, tables, given.say)
        versions = given.asked.versions               # of tables of any length
        self.rows = starting(tables, [pair for pair in given.rows if not versions or is_held(pair[1])], None)

    @property
    def room(self) -> Room:
        """The room beside the starting rows, as far as they are known before there is a window."""
        return Room().beside(sum(len(inserts(name, rows)) for name, rows in self.rows.items() if len(rows) <= HELD))

    def read(self, room: Room) -> Read:
        """The window with this room. The tables are copies, since those of each window have a form of their own."""
        given, asked = self.given, self.given.asked
        window = self.chooser.window(room)
        if asked.versions and window.folded:
            raise UserError('--versions: others are folded in this window, so it does not have what they make of rows: give --from and --to')
        given.say('making the rows where the window begins')
        rows = {} if window.folded else self.rows     # what became of the rows of folded transactions is not known
        is_whole = not (asked.is_window or asked.touched)
        window.beginning = rows_at(self.slot, self.tables, rows, window.first, window.commits, is_whole and not window.folded)
        given.say('')
        tables = deepcopy(self.tables)
        parts = [part for light in window.lights for part in light.parts]
        texts = [entry.text for part in parts for entry in part.entries] if given.capture else [record.text for record in parts]
        shape = fitted(tables, window.beginning.rows, window.commits, texts)
        transactions, commits, left = self.transactions(window, tables, parts)
        transactions += edges.standing_for_folded(commits)
        left += self.source.gaps() if not window.folded else fold_notes(window)
        left += [(0, f'table {name} has more than 10,000 rows where the window begins: it has those that the window writes')
                 for name in window.beginning.too_long]
        left += [(0, f'table {name} has too many rows where the window begins, with those of other tables: it has those that the window writes')
                 for name in window.beginning.too_many]
        return Read(tables, window.beginning.rows, transactions, commits, left, shape, window)

    def transactions(self, window: Window, tables: Tables, parts: list[Any]) -> tuple[list[Transaction], list[Commit], Left]:
        """(transactions, commits, [(line, reason)]) of a window, before its edges are cut."""
        if self.given.capture and self.given.asked.is_window:
            return captured.transactions_of(parts, [], tables, window.commits, window.earlier)
        if self.given.capture:
            return captured.of_slot(parts, [], tables, window.commits)
        history = history_of(window, tables, self.given.level)
        return history.read(sorted(parts, key=lambda record: record.line)), window.commits, history.left


def history_of(window: Window, tables: Tables, level: str) -> History:
    """A History with what stands before a window."""
    history = History(tables, level)
    for record in csvlog.levels(window.noted):
        history.level_of(record)
    for light in window.lights:
        if not light.begun:
            history.resume(light.parts[0], BEGAN)
    return history


def fold_notes(window: Window) -> Left:
    """[(line, reason)] of what is folded."""
    fold = window.folded
    if fold is None:
        return []
    told = [(0, f'{counted(fold.count, "transaction of the slot is", "transactions of the slot are")} folded, for lack of room: what is folded does not '
             'write rows of the incident, nor read what it changes, as far as the log tells')]
    return told + ([(0, f'of these {counted(fold.near, "writes", "write")} rows of the incident, and found no room')] if fold.near else [])


# Starting rows

def files_of(tables: Tables, rows: Iterable[tuple[str, str]]) -> list[tuple[str, str]]:
    """(table or partition, file) of what a user gave: of a folder, which has no table, those of its files that are named after one."""
    found = []
    for name, file in rows:
        if name:
            found.append((name, file))
            continue
        mine = [(path.stem, str(path)) for path in sorted(Path(file).glob('*.csv')) if holder(tables, path.stem)]
        if not mine:
            raise UserError(f'--rows {file}: no file of this folder is TABLE.csv of a table of the definitions')
        found += mine
    return found


def is_held(file: str, most: int = HELD) -> bool:
    """Whether a file of rows has as many as gprom holds, but for line feeds in texts."""
    with open(file, 'rb') as opened:
        return sum(1 for _ in zip(opened, range(most + 2))) <= most + 1


def starting(tables: Tables, rows: Iterable[tuple[str, str]], most: int | None) -> Rows:
    """The rows of the given files, by their tables."""
    found: Rows = {}
    for name, file in rows:
        table, part = starting_rows(tables, name, file, most)
        found.setdefault(table.name, []).extend(part)
    return found


def starting_rows(tables: Tables, name: str, file: str, most: int | None) -> tuple[Table, list[Any]]:
    """The table of a file and its rows."""
    table = holder(tables, name)
    if table is None:
        raise UserError(f'--rows {name}={file}: table {name} is not in the definitions')
    found = list(read_rows(file, table))
    if most is not None and len(found) > most:
        raise UserError(f'{file}: {len(found)} rows, where a table of gprom has at most 10,000: give --rows touched')
    return table, found
