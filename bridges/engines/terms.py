"""Random terms, conditions and queries of gprom's language, all well typed."""

from __future__ import annotations

import random
from collections.abc import Sequence
from dataclasses import dataclass

from gprom.answers import Cell, cell_text

# A column, or another term that can stand in a scope: its text and its type.
Typed = tuple[str, str]

INT, TEXT = 'INT', 'TEXT'
COMPARISONS = ('=', '<>', '<', '<=', '>', '>=')
# Texts that are easily taken for something else: quotes, comments, ends of statements, parameters, escapes, other scripts.
TEXTS = ('', 'Ann', 'Bob', 'ann', "O'Hara", "''", '"', 'a b ', '-- 1', ';', '%_', '\\', "\\'", '$1', ':x', '{1.1.1}', 'NULL', '5', 'Zoë', '\u2028', '木')
COMMON = ('Ann', 'Bob')
NULLS = 0.12                                            # how often a term is the literal NULL
ALIASES = 'xyzw'


@dataclass
class Table:
    """A table: its name, and its columns as names and types."""
    name: str
    columns: list[Typed]

    def types(self) -> list[str]:
        """The types of its columns."""
        return [kind for _, kind in self.columns]


class Terms:
    """Writes terms over a scope: the columns of the FROM items, as texts with their types."""

    def __init__(self, chance: random.Random):
        self.random = chance

    def cell(self, kind: str) -> Cell:
        """A random cell. Numbers are small, so that no result passes 64 bits, where engines differ."""
        if self.random.random() < NULLS:
            return None
        return self.random.randint(-20, 60) if kind == INT else self.random.choice(TEXTS)

    def leaf(self, kind: str, scope: Sequence[Typed]) -> str:
        """A column, or a literal where the scope has none of the type."""
        columns = [text for text, its in scope if its == kind]
        if columns and self.random.random() < 0.75:
            return self.random.choice(columns)
        value = self.cell(kind)
        return f'({value})' if isinstance(value, int) and value < 0 else cell_text(value)

    def term(self, kind: str, scope: Sequence[Typed], depth: int = 2) -> str:
        """A term of this type. `NULL` is one of either."""
        if self.random.random() < NULLS:
            return 'NULL'
        if depth == 0 or self.random.random() < 0.45:
            return self.leaf(kind, scope)
        if kind == TEXT or self.random.random() < 0.35:
            then, other = self.term(kind, scope, depth - 1), self.term(kind, scope, depth - 1)
            return f'CASE WHEN {self.condition(scope, depth - 1)} THEN {then} ELSE {other} END'
        operand = self.term(INT, scope, depth - 1)
        form = self.random.choice(('({} + {})', '({} - {})', '({} * {})', '(-{})'))
        return form.format(f'({operand})', self.random.randint(0, 3) if '*' in form else self.term(INT, scope, depth - 1))

    def condition(self, scope: Sequence[Typed], depth: int = 2) -> str:
        """A condition of three values."""
        form = self.random.random()
        if depth > 0 and form < 0.25:
            return f"({self.condition(scope, depth - 1)} {self.random.choice(('AND', 'OR'))} {self.condition(scope, depth - 1)})"
        if depth > 0 and form < 0.32:
            return f'NOT ({self.condition(scope, depth - 1)})'
        if depth > 0 and form < 0.4:
            return f"({self.condition(scope, depth - 1)}) IS {self.random.choice(('', 'NOT '))}TRUE"
        kind = self.random.choice((INT, INT, TEXT))
        if form < 0.5:
            return f"({self.term(kind, scope, depth)}) IS {self.random.choice(('', 'NOT '))}NULL"
        return f'{self.term(kind, scope, depth)} {self.random.choice(COMPARISONS)} {self.term(kind, scope, depth)}'

    def likely(self, scope: Sequence[Typed]) -> str:
        """A condition that most rows fulfil."""
        column, kind = self.random.choice(scope)
        return f'{column} > ({self.random.randint(-20, 5)})' if kind == INT else f"({column} = '{self.random.choice(COMMON)}') IS NOT TRUE"

    def where(self, scope: Sequence[Typed], chance: float = 0.7, also: Sequence[str] = ()) -> str:
        """A WHERE with these conditions, or none. Every second condition is one that leaves rows."""
        conditions = list(also)
        if self.random.random() < chance:
            conditions.append(self.condition(scope) if self.random.choice((True, False)) else self.likely(scope))
        return f" WHERE {' AND '.join(conditions)}" if conditions else ''

    def block(self, types: Sequence[str], tables: Sequence[Table]) -> str:
        """A block of a query, whose columns have these types. Of two items two columns are equal: else the answers grow."""
        items = [self.random.choice(tables) for _ in range(self.random.choice((1, 1, 1, 2, 2, 3)))]
        if len(items) == 1 and items[0].types() == types and self.random.random() < 0.4:
            return f'SELECT * FROM {items[0].name}{self.where(items[0].columns)}'
        named = [(f'{alias}.{column}', kind) for alias, item in zip(ALIASES, items) for column, kind in item.columns]
        scope = items[0].columns if len(items) == 1 else named
        lists = ', '.join(self.term(kind, scope) for kind in types)
        source = items[0].name if len(items) == 1 else ', '.join(f'{item.name} {alias}' for item, alias in zip(items, ALIASES))
        return f'SELECT {lists} FROM {source}{self.where(scope, also=self.joins(items))}'

    def joins(self, items: Sequence[Table]) -> list[str]:
        """An equality of each item with the one before, where both have a column of one type."""
        equal = []
        for at in range(1, len(items)):
            pairs = [(left, right) for left, its in items[at - 1].columns for right, other in items[at].columns if its == other]
            left, right = self.random.choice(pairs)
            equal.append(f'{ALIASES[at - 1]}.{left} = {ALIASES[at]}.{right}')
        return equal

    def query(self, tables: Sequence[Table], types: Sequence[str] | None = None) -> str:
        """A query of up to three blocks, with columns of these types or of random ones."""
        types = types or [self.random.choice((INT, TEXT)) for _ in range(self.random.randint(1, 4))]
        return ' UNION ALL '.join(self.block(types, tables) for _ in range(self.random.choice((1, 1, 2, 3))))
