"""The rows of the tables where a window begins.

Of a table whose rows are given, where the slot begins, the slot's images up to the window are added: it is whole. Of another table the window has
the rows that it writes, each as its first old image shows it: touched rows.
"""
from collections import Counter, deque
from collections.abc import Iterable
from dataclasses import dataclass, field
from typing import Any

from .decoding import Commit
from .schema import Table
from .slots import Slot
from .terms import inserts
from .versions import ROW_VERSIONS, ROWS

Cells = tuple[Any, ...]
Rows = dict[str, list[Cells]]
MOST_STATEMENTS = 1000            # of a script for the starting rows of whole tables: the window's own statements need as many
MOST_ROWS = ROW_VERSIONS // 2     # of all tables at the start: what the window writes needs as many row versions


@dataclass
class Beginning:
    """The rows where a window begins; the tables of which it has the rows that it writes alone; and those of these that would not fit."""
    rows: Rows = field(default_factory=dict)
    partial: set[str] = field(default_factory=set)
    too_long: list[str] = field(default_factory=list)         # more rows than gprom holds of a table
    too_many: list[str] = field(default_factory=list)         # too many together with those of other tables


def rows_at(slot: Slot, tables: dict[str, Table], given: Rows, first: int, commits: list[Commit], is_whole: bool = False) -> Beginning:
    """The rows behind the first commits of a slot, where the window has the next ones.

    `given` has the rows of tables where the slot begins; all others are empty there, if `is_whole`.
    """
    if is_whole:
        given = {name: given.get(name, []) for name in tables}
    whole = replayed(slot, tables, given, first)
    found = Beginning(partial=set(tables) - set(given))
    found.too_long = sorted(name for name, rows in whole.items() if len(rows) > ROWS)
    found.too_many = beyond_limits({name: rows for name, rows in whole.items() if name not in found.too_long})
    found.partial |= {*found.too_long, *found.too_many}
    shown = touched(tables, commits)
    found.rows = {name: shown[name] if name in found.partial else whole[name] for name in tables
                  if shown[name] or name not in found.partial and (whole[name] or not is_whole)}
    return found


def beyond_limits(whole: Rows) -> list[str]:
    """The longest tables, as many as have to be left out so that the others fit in a script, with room for the window's own statements."""
    sizes = {name: (len(inserts(name, rows)), len(rows)) for name, rows in whole.items()}
    left_out = []
    while sizes and (sum(count for count, _ in sizes.values()) > MOST_STATEMENTS or sum(count for _, count in sizes.values()) > MOST_ROWS):
        name = max(sizes, key=lambda name: (sizes[name], name))
        left_out.append(name)
        del sizes[name]
    return sorted(left_out)


# Touched rows

def touched(tables: dict[str, Table], commits: Iterable[Commit]) -> Rows:
    """The rows at the beginning of these commits that they write, in the order of their keys."""
    found = FirstImages(tables)
    for commit in commits:
        found.add(commit)
    return {name: in_order(tables[name], rows) for name, rows in found.rows.items()}


class FirstImages:
    """The first old image of each row that commits write. A row that they made, or that gprom cannot hold at first, has none."""

    def __init__(self, tables: dict[str, Table]) -> None:
        self.tables = tables
        self.rows: Rows = {name: [] for name in tables}
        self.seen: set[tuple[str, Cells]] = set()               # keys of rows that were written
        self.made: dict[str, Counter[Cells]] = {name: Counter() for name in tables}     # rows of tables without a key that commits made

    def add(self, commit: Commit) -> None:
        """Notes the changes of a commit, and the rows that gprom cannot hold at their places among them."""
        hidden = deque(commit.hidden)
        for number, (name, old, new) in enumerate(commit.changes):
            self.hide(hidden, number)
            if name in self.tables and self.tables[name].key:
                self.with_key(name, old, new)
            elif name in self.tables:
                self.without_key(name, old, new)
        self.hide(hidden, len(commit.changes))

    def hide(self, hidden: deque[tuple[int, str, Cells]], number: int) -> None:
        while hidden and hidden[0][0] <= number:
            _, name, key = hidden.popleft()
            self.seen.add((name, key))

    def with_key(self, name: str, old: Cells | None, new: Cells | None) -> None:
        key_of = self.tables[name].key_of
        if old is not None and (name, key_of(old)) not in self.seen:
            self.rows[name].append(old)
        self.seen |= {(name, key_of(row)) for row in (old, new) if row is not None}

    def without_key(self, name: str, old: Cells | None, new: Cells | None) -> None:
        made = self.made[name]
        if old is not None and made[old]:
            made[old] -= 1
        elif old is not None:
            self.rows[name].append(old)
        if new is not None:
            made[new] += 1


def in_order(table: Table, rows: list[Cells]) -> list[Cells]:
    """The rows in the order of their keys: numbers as such, all else as texts. Without a key they stay as they are."""
    if not table.key:
        return rows
    keys = [table.key_of(row) for row in rows]
    is_number = all(isinstance(cell, int) for key in keys for cell in key)
    return sorted(rows, key=table.key_of if is_number else lambda row: repr(table.key_of(row)))


# Whole tables

def replayed(slot: Slot, tables: dict[str, Table], given: Rows, first: int) -> Rows:
    """The rows of these tables behind the first commits of a slot."""
    if not given:
        return {}
    rows = Replay(tables, given)
    for span in slot.spans():
        if span.at >= first:
            break
        slot.replay(span, tables, rows)
    return rows.result(slot)


class Replay:
    """Rows of tables with a key by it, and of others by their cells. What a row was written with is parsed at the end."""

    def __init__(self, tables: dict[str, Table], given: Rows) -> None:
        self.tables = tables
        self.keyed: dict[str, dict[Cells, Any]] = {name: {tables[name].key_of(row): row for row in rows}
                                                   for name, rows in given.items() if tables[name].key}
        self.plain = {name: Counter(rows) for name, rows in given.items() if not tables[name].key}

    def change(self, name: str, old: Cells | None, new: Cells | None) -> None:
        """Makes a change; a TRUNCATE has neither row."""
        if name in self.keyed:
            self.change_keyed(self.keyed[name], self.tables[name], old, new)
        elif name in self.plain:
            self.change_plain(self.plain[name], old, new)

    @staticmethod
    def change_keyed(rows: dict[Cells, Any], table: Table, old: Cells | None, new: Cells | None) -> None:
        if old is None and new is None:
            rows.clear()
        if old is not None:
            rows.pop(table.key_of(old), None)
        if new is not None:
            rows[table.key_of(new)] = new

    @staticmethod
    def change_plain(rows: Counter[Cells], old: Cells | None, new: Cells | None) -> None:
        if old is None and new is None:
            rows.clear()
        if old is not None:
            rows[old] -= 1
        if new is not None:
            rows[new] += 1

    def result(self, slot: Slot) -> Rows:
        found = {name: list((+rows).elements()) for name, rows in self.plain.items()}
        for name, rows in self.keyed.items():
            parsed = (row if isinstance(row, tuple) else slot.written(self.tables, row) for row in rows.values())
            found[name] = [row for row in parsed if row is not None]
        return {name: found[name] for name in self.tables if name in found}
