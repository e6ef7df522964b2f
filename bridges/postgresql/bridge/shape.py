"""How the tables of a window are held where gprom has limits: with how many decimals, and which of many columns.

A `numeric` without a scale has that of the values which the window has of it, if there is one within 64 bits. Of a table with more columns
than gprom takes, those stay which the window's statements use: the key, what is in conditions, what is set, what is computed with, and what is selected, in
this order. `convert` writes both into OUT.tsv, and `verify` takes them from there.
"""
from collections import Counter
from collections.abc import Callable
from dataclasses import dataclass, field
from decimal import Decimal, InvalidOperation
from typing import Any

from pglast import ast

from . import NotCovered
from .schema import Table, Type, cell
from .statements import parse
from .translate import walk

Row = tuple[Any, ...]
COLUMNS, DECIMALS = 16, 9
LEFT_OUT = 'left out'
IN_CONDITION, SET, COMPUTED, NAMED = 1_000_000, 10_000, 100, 1         # weights of a use of a column


@dataclass
class Shape:
    """The scale of each number without one, and the columns that are left out, by table and column."""
    scales: dict[tuple[str, str], int] = field(default_factory=dict)
    dropped: set[tuple[str, str]] = field(default_factory=set)
    makers: dict[str, Callable[[Row], Row]] = field(default_factory=dict)     # table -> what brings a row of it into this form

    @classmethod
    def read(cls, entries: list[dict[str, str]]) -> 'Shape':
        """What a table of lines says of columns."""
        found = cls()
        for entry in entries:
            if entry['kind'] == 'column':
                name = entry['session'], entry['patch']
                if entry['cover'] == LEFT_OUT:
                    found.dropped.add(name)
                else:
                    found.scales[name] = int(entry['rows'])
        return found

    def entries(self) -> list[tuple[Any, ...]]:
        """The same, for that table."""
        return [('column', '', table, '', '', '', '', name, LEFT_OUT) for table, name in sorted(self.dropped)] + \
               [('column', '', table, '', '', '', '', name, 'decimals', scale) for (table, name), scale in sorted(self.scales.items())]

    def notes(self) -> list[tuple[int, str]]:
        """What is said of it in the list of what is not in full."""
        return [(0, f'column {name} of {table} is left out: a table of gprom has at most {COLUMNS}') for table, name in sorted(self.dropped)]

    def apply(self, tables: dict[str, Table], start: dict[str, list[Row]], commits: list[Any]) -> None:
        """Brings the tables into this form, with their rows."""
        makers = self.makers
        for table in tables.values():
            if any(name == table.name for name, _ in (*self.scales, *self.dropped)):
                makers[table.name] = self.maker(table)
        for name, make in makers.items():
            if name in start:
                start[name] = [make(row) for row in start[name]]
        for commit in commits if makers else ():
            commit.changes = [(name, *(row and makers[name](row) for row in rows)) if name in makers else (name, *rows)
                              for name, *rows in commit.changes]

    def maker(self, table: Table) -> Callable[[Row], Row]:
        """What makes a row of the table as it was one as it is then."""
        kept = [at for at, column in enumerate(table.columns) if (table.name, column.name) not in self.dropped]
        types = {}
        for at in kept:
            column = table.columns[at]
            if (scale := self.scales.get((table.name, column.name))) is not None:
                column.type = types[at] = Type('int', scale, form='free')
        table.dropped = {column.name for column in table.columns} - {table.columns[at].name for at in kept}
        table.columns = [table.columns[at] for at in kept]
        return lambda row: tuple(cell(row[at], types[at]) if at in types else row[at] for at in kept)


def shape_of(tables: dict[str, Table], start: dict[str, list[Row]], commits: list[Any], texts: list[str]) -> Shape:
    """The Shape of a window, for its rows, commits and the texts of its statements."""
    found = Shape(scales(tables, start, commits))
    wide = [table for table in tables.values() if len(table.columns) > COLUMNS]
    uses = used(wide, texts) if wide else {}
    for table in wide:
        order = sorted(table.columns, key=lambda column: (column.name not in table.key, -uses[table.name, column.name]))
        found.dropped |= {(table.name, column.name) for column in order[COLUMNS:]}
    return found


# Decimals

def scales(tables: dict[str, Table], start: dict[str, list[Row]], commits: list[Any]) -> dict[tuple[str, str], int]:
    """The scale of each numeric without one whose values have one."""
    places = {table.name: [at for at, column in enumerate(table.columns) if column.type == Type('numeric')] for table in tables.values()}
    places = {name: found for name, found in places.items() if found}
    texts: dict[tuple[str, int], set[Any]] = {(name, at): set() for name, found in places.items() for at in found}
    rows = [(name, row) for name in places for row in start.get(name, ())]
    rows += [(name, row) for commit in commits for name, *both in commit.changes if name in places for row in both if row]
    for name, row in rows:
        for at in places[name]:
            texts[name, at].add(row[at])
    return {(name, tables[name].columns[at].name): scale for (name, at), found in texts.items() if (scale := scale_of(found - {None})) is not None}


def scale_of(texts: set[str]) -> int | None:
    """How many decimals these numbers have, or None if they are no numbers of gprom with as many."""
    try:
        scale = max((len(text.partition('.')[2].rstrip('0')) for text in texts), default=None)
        if scale is None or scale > DECIMALS or any(abs(Decimal(text).scaleb(scale)) >= 2 ** 63 for text in texts):
            return None
    except InvalidOperation:
        return None
    return scale if all(text.lstrip('-')[:1].isdigit() for text in texts) else None        # none is NaN or Infinity


# Columns

def used(wide: list[Table], texts: list[str]) -> dict[tuple[str, str], int]:
    """How much each column of these tables is used: (table, column) -> weight."""
    weights: Counter[tuple[str, str]] = Counter()
    for text, count in Counter(texts).items():
        if any(table.name in text for table in wide):
            try:
                nodes = parse(text)
            except NotCovered:
                continue
            for node in nodes:
                for name, weight in names(node).items():
                    weights.update({(table.name, name): weight * count for table in wide})
    return weights


def names(node: Any) -> Counter[str]:
    """The names of columns in a statement with their weights."""
    found: Counter[str] = Counter()
    for part in walk(node):
        match part:
            case ast.ResTarget(name=name) if name:
                found[name] += SET if isinstance(node, ast.UpdateStmt) else NAMED
            case ast.ColumnRef(fields=fields) if isinstance(fields[-1], ast.String):
                found[fields[-1].sval] += NAMED if isinstance(node, ast.SelectStmt) else COMPUTED
        for condition in (getattr(part, 'whereClause', None), getattr(part, 'quals', None)):
            for inner in walk(condition):
                if isinstance(inner, ast.ColumnRef) and isinstance(inner.fields[-1], ast.String):
                    found[inner.fields[-1].sval] += IN_CONDITION
    return found
