"""All row versions of a window for another engine, as files that COPY takes: one for each table, with the columns of what `gprom sql` prints.

A script has the rows that fit into gprom. What it asks runs in an engine over all rows: those where the window begins, from version 0 on, and
those that the commits of the script write, with its versions. What the slot does not touch goes from the given file to the written one, so
memory grows with the rows that the slot writes.
"""
from collections import Counter, defaultdict
from collections.abc import Callable, Iterable, Iterator
from dataclasses import dataclass, field
from itertools import chain
from pathlib import Path
from typing import IO, Any

from . import NotCovered, UserError
from .decoding import Commit
from .schema import Table, read_rows, safe_name
from .slots import Slot

OWNER = 1001                      # no transaction of a script has this number, so no row that a query inserts has such an identity
MOST = 1 << 32                    # numbers of an identity are below
ESCAPES = str.maketrans({'\\': '\\\\', '\t': '\\t', '\n': '\\n', '\r': '\\r'})
Row = tuple[Any, ...]
Change = tuple[int, Row | None, Row | None]         # (version, cells before, cells behind)


class Touched(dict[Any, Any]):
    """Rows that the slot writes, by their keys, as it shows them; None for one that is gone."""

    is_emptied = False

    def pop(self, key: Any, *_: Any) -> Any:
        self[key] = None

    def clear(self) -> None:
        super().clear()
        self.is_emptied = True


@dataclass
class Before:
    """What the slot made of rows up to the window, in the form that `Slot.replay` takes."""
    tables: dict[str, Table]
    keyed: dict[str, Touched] = field(default_factory=dict)
    plain: dict[str, Counter[Row]] = field(default_factory=dict)
    emptied: set[str] = field(default_factory=set)        # tables without a key whose rows a TRUNCATE took

    def __post_init__(self) -> None:
        for name, table in self.tables.items():
            if table.key:
                self.keyed[name] = Touched()
            else:
                self.plain[name] = Counter()

    def change(self, name: str, old: Row | None, new: Row | None) -> None:
        """Notes a change; a TRUNCATE has neither row."""
        if old is None and new is None and name in self.keyed:
            self.keyed[name].clear()
        elif old is None and new is None:
            self.plain[name].clear()
            self.emptied.add(name)
        for row, count in ((old, -1), (new, 1)):
            if row is not None and name in self.keyed:
                self.keyed[name][self.tables[name].key_of(row)] = row if count > 0 else None
            elif row is not None:
                self.plain[name][row] += count


def before(slot: Slot, tables: dict[str, Table], first: int) -> Before:
    """The same, of the commits before the one at a place of the slot."""
    found = Before(tables)
    for span in slot.spans():
        if span.at >= first:
            break
        slot.replay(span, tables, found)
    return found


class Writer:
    """Writes the files. `makers` bring rows of the definitions into the form of the script's tables."""

    def __init__(self, folder: str, slot: Slot, tables: dict[str, Table], shaped: dict[str, Table], makers: dict[str, Callable[[Row], Row]]) -> None:
        self.folder, self.slot, self.tables, self.shaped, self.makers = Path(folder), slot, tables, shaped, makers
        self.folder.mkdir(parents=True, exist_ok=True)

    def write(self, found: Before, given: dict[str, list[tuple[str, str]]], commits: Iterable[tuple[int, Commit]], names: Iterable[str]) -> int:
        """Writes the row versions of some tables. `commits` are (version, commit) of those in the script. Gives how many they are."""
        changes: dict[str, list[Change]] = defaultdict(list)
        emptied: dict[str, int] = {}
        for version, commit in commits:
            for name in commit.emptied:
                emptied.setdefault(name, version)
            for name, old, new in commit.changes:
                changes[name].append((version, old, new))
        total = 0
        for name in names:
            keys = {self.key(name, row) for _, *both in changes[name] for row in both if row is not None}
            with open(self.folder / f'{safe_name(name)}_versions.copy', 'w', encoding='utf-8', newline='\n') as file:
                of = Lives(file)
                for row in self.start(name, found, given.get(name, []), changes[name], keys):
                    of.begin(row, self.key(name, row), keys, emptied.get(name))
                for version, old, new in changes[name]:
                    of.change(version, *((row, self.key(name, row)) if row is not None else None for row in (old, new)))
                of.finish()
                total += of.count
        return total

    def key(self, name: str, row: Row) -> Row:
        """What tells a row from others: its key, or all of its cells."""
        table = self.shaped[name]
        return tuple(table.key_of(row)) if table.key else row

    def shape(self, name: str, row: Row) -> Row:
        try:
            return self.makers[name](row) if name in self.makers else row
        except NotCovered as reason:
            raise UserError(f'--versions: a row of {name} is none of the tables of the script: {reason}') from reason

    def start(self, name: str, found: Before, files: list[tuple[str, str]], changes: list[Change], keys: set[Row]) -> Iterator[Row]:
        """The rows where the window begins: those of the given files that the slot does not write before, what it makes of others, and what the window shows.

        `keys` are those of the rows that the window writes.
        """
        table = self.tables[name]
        rows = (row for _, file in files for row in read_rows(file, table))
        if not table.key:
            for row, count in (Counter(() if name in found.emptied else rows) + found.plain[name]).items():
                yield from [self.shape(name, row)] * count
            return
        seen, touched = set(), found.keyed[name]
        kept = (row for row in rows if not touched.is_emptied and table.key_of(row) not in touched)
        later = (row if isinstance(row, tuple) else self.slot.written(self.tables, row) for row in touched.values() if row is not None)
        for row in chain(kept, (row for row in later if row is not None)):
            made = self.shape(name, row)
            seen |= {self.key(name, made)} & keys
            yield made
        for _, old, new in changes:
            if old is not None and self.key(name, old) not in seen:
                yield old
            seen |= {self.key(name, row) for row in (old, new) if row is not None}


class Lives:
    """The row versions of a table, each written when it ends. What is there at the end has no last version."""

    def __init__(self, file: IO[str]) -> None:
        self.file, self.count, self.last = file, 0, 0
        self.alive: dict[Row, list[tuple[str, int, Row]]] = defaultdict(list)      # by keys: (identity, first version, cells)

    def identity(self) -> str:
        self.last += 1
        if self.last >= MOST:
            raise UserError('--versions: a table has too many rows')
        return f'{OWNER}.1.{self.last}'

    def begin(self, row: Row, key: Row, keys: set[Row], end: int | None) -> None:
        """Takes a row that is there from the start. Unless its key is among these, nothing happens to it but that it may end with all."""
        if key in keys:
            self.alive[key].append((self.identity(), 0, row))
        else:
            self.line(self.identity(), 0, end, row)

    def change(self, version: int, old: tuple[Row, Row] | None, new: tuple[Row, Row] | None) -> None:
        """Makes a change of a row, given as (cells, key)."""
        identity = self.end(old[1], version) if old else ''
        if new:
            self.alive[new[1]].append((identity or self.identity(), version, new[0]))

    def end(self, key: Row, version: int) -> str:
        """Ends the row with a key, and gives its identity; '' if there is none."""
        if not self.alive.get(key):
            return ''
        identity, first, row = self.alive[key].pop()
        if first < version:
            self.line(identity, first, version, row)
        return identity

    def finish(self) -> None:
        for found in self.alive.values():
            for identity, first, row in found:
                self.line(identity, first, None, row)

    def line(self, identity: str, first: int, end: int | None, row: Row) -> None:
        self.count += 1
        self.file.write('\t'.join(map(text_of, (identity, first, end, *row))) + '\n')


def text_of(cell: Any) -> str:
    """A cell in the text format of COPY."""
    return r'\N' if cell is None else str(cell).translate(ESCAPES)
