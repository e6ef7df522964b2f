"""Statements that gprom's dialect has no words for, and whose row images say what they did.

An UPDATE or DELETE with a condition that gprom cannot express, such as a subquery, stands as one that names the rows that it wrote. An INSERT
with ON CONFLICT stands as INSERT of the rows that were not there, and UPDATE of those that were; a COPY is an INSERT of its rows. What an
UPDATE computed stays a term, so it has to give the row images; a value that comes from elsewhere, such as from a trigger or another table,
is taken from them.
"""
from __future__ import annotations

from dataclasses import dataclass, replace
from typing import Any

from .evaluate import cells, value
from .schema import Table
from .terms import HOLE, Statement, chain, inserts, row_is


Row = tuple[Any, ...]
Image = tuple[int, Row | None, Row | None]            # its place, and the rows before and after it


@dataclass
class Resolved:
    """`written` has (identity or None, old row or None, new row or None) in the order of the images; `parts` the statements that write them."""
    written: list[tuple[Any, Row | None, Row | None]]
    parts: list[Statement]
    taken: list[int]                # the places of the images among those that were offered

    def over_limit(self) -> bool:
        return any(part.over_limit() for part in self.parts)


def resolve(statement: Statement, table: Table, rows: dict[Any, Row], images: list[Image], most: int | None = None,
            skips: bool = False) -> Resolved | None:
    """The Resolved of a statement over `rows` (identity -> row), or None if it cannot have written such images.

    `images` are (place, old row or None, new row or None), of which it takes `most`, or as many as it may have written: those in front, or
    any where it `skips` others.
    """
    way = {'upsert': upsert, 'insert': copied}.get(statement.kind, chosen)
    found = way(statement, table, rows, images, most, skips)
    return None if found is None or most not in (None, len(found.written)) or found.over_limit() else found


# UPDATE and DELETE

def chosen(statement: Statement, table: Table, rows: dict[Any, Row], images: list[Image], most: int | None, skips: bool) -> Resolved | None:
    """An UPDATE or DELETE of the rows that the images name."""
    there: dict[Row, list[Any]] = {}
    for identity, row in rows.items():
        there.setdefault(row, []).append(identity)
    written: list[tuple[Any, Row | None, Row | None]] = []
    taken: list[int] = []
    groups: dict[tuple[tuple[str, Any], ...], list[Row]] = {}
    for place, old, new in images:
        if len(written) == most:
            break
        given = values_of(statement, table, old, new) if old is not None and there.get(old) else None
        if old is None or given is None:
            if skips:
                continue
            break
        written.append((there[old].pop(0), old, new))
        taken.append(place)
        groups.setdefault(given, []).append(old)
    twins = {old for _, old, _ in written if old is not None and there[old]}
    if twins and not table.key:                       # no condition tells the rows that were written from those that were not
        return None
    parts = [part for given, olds in groups.items() for part in divided(statement, table, given, list(dict.fromkeys(olds)))]
    keeps_keys = table.key and not any(name in table.key for name, _ in statement.sets or ())
    return Resolved(written, parts, taken) if len(parts) < 2 or keeps_keys else None       # else a part might write a row of the one before


def values_of(statement: Statement, table: Table, old: Row | None, new: Row | None) -> tuple[tuple[str, Any], ...] | None:
    """The (column, cell) that an UPDATE took from elsewhere to make this image, or None if it is no image of the statement."""
    if old is None or (new is None) != (statement.kind == 'delete'):
        return None
    named = cells(table, old)
    if statement.where is not None and value(statement.where, named) is not True:
        return None
    if new is None:
        return ()
    sets, given = dict(statement.sets), []
    for column, before, after in zip(table.columns, old, new):
        term = sets.get(column.name)
        if term is HOLE or term is None and column.name in statement.free and before != after:
            given.append((column.name, after))
        elif after != (before if term is None else value(term, named)):
            return None
    return tuple(given)


def divided(statement: Statement, table: Table, given: tuple[tuple[str, Any], ...], olds: list[Row]) -> list[Statement]:
    """The statement on these rows, as often as their conditions need."""
    whole = narrowed(statement, table, given, olds)
    if len(olds) == 1 or not whole.over_limit():
        return [whole]
    middle = len(olds) // 2
    return divided(statement, table, given, olds[:middle]) + divided(statement, table, given, olds[middle:])


def narrowed(statement: Statement, table: Table, given: tuple[tuple[str, Any], ...], olds: list[Row]) -> Statement:
    """The statement on these rows alone, with the values that it took from elsewhere."""
    names = table.key or [column.name for column in table.columns]
    condition = chain('or', [row_is(table, old, names) for old in olds])
    sets = None
    if statement.kind == 'update':
        kept = [(column, term) for column, term in statement.sets if term is not HOLE]
        sets = kept + [(column, ('literal', cell)) for column, cell in given]
    return replace(statement, sets=sets, where=('and', statement.where, condition) if statement.where else condition, open='', free=frozenset())


# COPY

def copied(_: Statement, table: Table, __: dict[Any, Row], images: list[Image], most: int | None, skips: bool) -> Resolved:
    """An INSERT of the rows that a COPY brought."""
    found: list[tuple[int, Row]] = []
    for place, old, new in images:
        if len(found) == most or old is not None and not skips:
            break
        if old is None and new is not None:
            found.append((place, new))
    return Resolved([(None, None, new) for _, new in found], inserts(table.name, [new for _, new in found]), [place for place, _ in found])


# INSERT with ON CONFLICT

def upsert(statement: Statement, table: Table, rows: dict[Any, Row], images: list[Image], _: int | None, skips: bool) -> Resolved | None:
    """INSERT of the tuples whose keys are not there, and UPDATE of the rows that have them."""
    found = Upsert(statement, table, rows, images)
    if not all(map(found.given, statement.rows)):
        return None
    taken = sorted(found.taken)
    if not skips and taken != [image[0] for image in images[:len(taken)]]:
        return None
    return Resolved(found.written, inserts(table.name, found.inserted) + found.updates, taken)


class Upsert:
    """An INSERT with ON CONFLICT on its way through its tuples."""

    def __init__(self, statement: Statement, table: Table, rows: dict[Any, Row], images: list[Image]) -> None:
        self.statement, self.table, self.rows, self.offered = statement, table, dict(rows), list(images)
        self.keys = [Key([table.index(name) for name in names], rows) for names in statement.keys]
        self.written: list[tuple[Any, Row | None, Row | None]] = []
        self.taken: list[int] = []
        self.inserted: list[Row] = []
        self.updates: list[Statement] = []

    def given(self, given: Row) -> bool:
        """Goes on by a tuple. False if the statement cannot have written the images."""
        identity = next((found for key in self.keys if (found := key.find(given, self.offered)) is not None), None)
        if identity is None:
            return self.insert(given)
        if self.statement.sets is None or not applies(self.statement, self.table, self.rows[identity], given):
            return True
        return self.update(identity, given)

    def insert(self, given: Row) -> bool:
        """A tuple whose key is not there. One without an image has a key that is not known here, or the row of it is none of the window."""
        image = next((image for image in self.offered if image[1] is None and fits(given, image[2])), None)
        if image is None or image[2] is None:
            return self.statement.sets is None
        self.inserted.append(image[2])
        self.take(image, None, f'tuple {len(self.written)}')
        return True

    def update(self, identity: Any, given: Row) -> bool:
        """A tuple whose key a row has."""
        row = self.rows[identity]
        image = next((image for image in self.offered if image[1] == row and image[2] is not None), None)
        if image is None or image[2] is None:
            return False
        sets = updated(self.statement, self.table, row, given, image[2])
        if sets is None:
            return False
        key = self.table.key or self.statement.keys[0]
        self.updates.append(Statement('update', self.table.name, sets=sets, where=row_is(self.table, row, key)))
        self.take(image, identity, identity)
        return True

    def take(self, image: Image, identity: Any, name: Any) -> None:
        """Notes an image as that of the statement; `name` is what its row is called from then on."""
        self.offered.remove(image)
        self.taken.append(image[0])
        self.written.append((identity, image[1], image[2]))
        if image[2] is not None:
            self.rows[name] = image[2]
            for key in self.keys:
                key.add(name, image[2])


def fits(given: Row, new: Row | None) -> bool:
    """Whether a tuple became this row. What the server computed may be anything."""
    return new is not None and all(cell is HOLE or cell == other for cell, other in zip(given, new))


class Key:
    """The rows of a table by the cells of a key."""

    def __init__(self, places: list[int], rows: dict[Any, Row]) -> None:
        self.places = places
        self.known: dict[Row, Any] = {}
        for identity, row in rows.items():
            self.add(identity, row)

    def add(self, identity: Any, row: Row) -> None:
        self.known[tuple(row[at] for at in self.places)] = identity

    def find(self, given: Row, offered: list[Image]) -> Any:
        """The row that has the key of a tuple, or None. Where the server computed a part of the key, the row of the next image."""
        key = tuple(given[at] for at in self.places)
        if HOLE in key:
            old = next((old for _, old, new in offered if old is not None or fits(given, new)), None)
            if old is None or not all(cell in (HOLE, old[at]) for at, cell in zip(self.places, key)):
                return None
            key = tuple(old[at] for at in self.places)
        return None if None in key else self.known.get(key)


def applies(statement: Statement, table: Table, row: Row, given: Row) -> bool:
    """Whether DO UPDATE .. WHERE is true of a row and a tuple."""
    condition = statement.where and excluded(statement.where, table, given)
    return condition is None or value(condition, cells(table, row)) is True


def updated(statement: Statement, table: Table, row: Row, given: Row, new: Row) -> list[tuple[str, Any]] | None:
    """What DO UPDATE sets in a row, as terms over it; None if they do not make the image of it."""
    sets, made = [], list(row)
    for column, term in statement.sets:
        at = table.index(column)
        term = HOLE if term is HOLE else excluded(term, table, given)
        term = ('literal', new[at]) if term is HOLE else term
        if term is None:
            return None
        sets.append((column, term))
        made[at] = value(term, cells(table, row))
    for at, column in enumerate(table.columns):
        if column.name in statement.free and column.name not in dict(sets) and made[at] != new[at]:
            sets.append((column.name, ('literal', new[at])))
            made[at] = new[at]
    return sets if tuple(made) == new else None


def excluded(term: Any, table: Table, given: Row) -> Any:
    """A term over a row and the tuple (EXCLUDED) as one over the row; HOLE or None where the tuple's value is not known before the image."""
    match term:
        case ('column', 'excluded', name):
            cell = given[table.index(name)]
            return HOLE if cell is HOLE else ('literal', cell)
        case tuple():
            parts = [excluded(part, table, given) if isinstance(part, tuple) else part for part in term]
            return None if any(part is HOLE or part is None for part, whole in zip(parts, term) if isinstance(whole, tuple)) else tuple(parts)
    return term
