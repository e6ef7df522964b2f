"""Random scripts: sessions side by side under both levels, whose transactions commit, are rolled back, lose, or stay open."""

from __future__ import annotations

import random

from gprom.answers import row_text

from .terms import INT, TEXT, Table, Terms

TABLES = ('acct', 'note', 'value', 'log')
# Names that mean something in SQL, or in the text that is printed.
COLUMNS = ('id', 'a', 'b', 'c1', 'c2', 'x', 'q1', 'order', 'group', 'user', 'limit', 'step_1')
SESSIONS = 4
FIRST_ROWS = 6
MOST_COPIES = 3                                         # INSERTs of a query


class Script:
    """A script as it is written, line by line."""

    def __init__(self, chance: random.Random, length: int):
        self.random, self.terms = chance, Terms(chance)
        self.lines: list[str] = []
        self.tables: list[Table] = []
        self.open: set[int] = set()
        self.copies = 0
        for name in TABLES[:chance.randint(1, 3)]:
            self.create(name)
        self.fill()
        for _ in range(length):
            self.step()

    def say(self, session: int, command: str) -> None:
        """The next line is this command of this session."""
        self.lines.append(f's{session}: {command}')

    def create(self, name: str) -> None:
        """A table with a column of each type at least."""
        names = self.random.sample(COLUMNS, self.random.randint(2, 4))
        table = Table(name, list(zip(names, [INT, TEXT, *(self.random.choice((INT, TEXT)) for _ in names[2:])])))
        self.tables.append(table)
        columns = ', '.join(f'{column} {kind}' for column, kind in table.columns)
        self.say(SESSIONS + 1, f'CREATE TABLE {name} ({columns})')

    def fill(self) -> None:
        """The first transaction: some rows in each table."""
        self.say(1, 'BEGIN')
        for table in self.tables:
            self.say(1, f'INSERT INTO {table.name} VALUES {self.tuples(table, FIRST_ROWS)}')
        self.say(1, 'COMMIT')

    def tuples(self, table: Table, count: int) -> str:
        """So many random rows, as VALUES has them."""
        rows = [tuple(self.terms.cell(kind) for kind in table.types()) for _ in range(count)]
        return ', '.join(f'({row_text(row)})' for row in rows)

    def step(self) -> None:
        """The next line. A table may be created between the transactions."""
        session = self.random.randint(1, SESSIONS)
        if self.random.random() < 0.01 and len(self.tables) < len(TABLES):
            self.create(TABLES[len(self.tables)])
        elif session not in self.open:
            self.say(session, self.random.choice(('BEGIN', 'BEGIN READ COMMITTED')))
            self.open.add(session)
        elif self.random.random() < 0.22:
            self.say(session, self.random.choice(('COMMIT', 'COMMIT', 'COMMIT', 'ROLLBACK')))
            self.open.discard(session)
        else:
            self.say(session, self.statement())

    def statement(self) -> str:
        """A random statement. An INSERT of a query is only made while there are few, since each can double a table."""
        table, form = self.random.choice(self.tables), self.random.random()
        if form < 0.45:
            columns = self.random.sample(table.columns, self.random.randint(1, 2))
            sets = ', '.join(f'{column} = {self.terms.term(kind, table.columns)}' for column, kind in columns)
            return f'UPDATE {table.name} SET {sets}{self.terms.where(table.columns, 0.7)}'
        if form < 0.57:
            return f'DELETE FROM {table.name}{self.terms.where(table.columns, 1, [self.rare(table)])}'
        if form < 0.7 and self.copies < MOST_COPIES:
            self.copies += 1
            return f'INSERT INTO {table.name} {self.terms.query(self.tables, table.types())}'
        if form < 0.85:
            return f'INSERT INTO {table.name} VALUES {self.tuples(table, self.random.randint(1, 3))}'
        return self.terms.query(self.tables)

    def rare(self, table: Table) -> str:
        """A condition that few rows fulfil, so that a DELETE leaves some."""
        column = next(column for column, kind in table.columns if kind == INT)
        least = self.random.randint(-20, 50)
        return f'{column} > {least}' if self.random.random() < 0.1 else f'({column} > ({least}) AND {column} < {least + 15})'
