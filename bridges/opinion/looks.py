"""What statements look at: a table, a condition on its rows, and the columns that the statement uses of it."""

from __future__ import annotations

from collections.abc import Mapping, Sequence
from dataclasses import dataclass

from .terms import Cell, Lexemes, Name, Term, term

Row = tuple[Cell, ...]
# The columns of each table.
Tables = Mapping[str, Sequence[str]]


@dataclass(frozen=True)
class Change:
    """A row that a commit wrote, before and after it. One that it inserted has no cells before, one that it deleted none after."""

    table: str
    identity: str
    before: Row | None
    after: Row | None

    @property
    def comes_or_goes(self) -> bool:
        return self.before is None or self.after is None


@dataclass(frozen=True)
class Item:
    """A FROM item: its name and its table."""

    name: str
    table: str


@dataclass(frozen=True)
class Look:
    """Rows of a table for which all conditions are true, and what is used of them."""

    item: Item
    names: tuple[str, ...]
    conditions: tuple[Term, ...]
    columns: frozenset[str]

    def sees(self, row: Row | None) -> bool:
        """Whether the conditions are true of a row. Of a row that is missing they are not."""
        if row is None:
            return False
        scope = {(name, column): cell for column, cell in zip(self.names, row) for name in ("", self.item.name)}
        return all(condition.is_true(scope) for condition in self.conditions)

    def meets(self, change: Change) -> bool:
        """Whether a change of a row could show in what the statement does: the row comes or goes, or has another cell in a column that is used."""
        if change.table != self.item.table or not (self.sees(change.before) or self.sees(change.after)):
            return False
        if change.before is None or change.after is None:
            return True
        return any(change.before[at] != change.after[at] for at, column in enumerate(self.names) if column in self.columns)


def looks(text: str, tables: Tables) -> list[Look]:
    """The looks of a statement in canonical text."""
    lexemes = Lexemes(text)
    word = lexemes.take("SELECT", "INSERT", "UPDATE", "DELETE")
    if word == "SELECT":
        return _query(lexemes, tables)
    if word == "INSERT":
        lexemes.take("INTO")
        lexemes.name()
        return _query(lexemes, tables) if lexemes.take("SELECT", "VALUES") == "SELECT" else []
    if word == "DELETE":
        lexemes.take("FROM")
    table = lexemes.name()
    used = _sets(lexemes) if word == "UPDATE" else []
    item = Item(table, table)
    return [_look(item, [item], _where(lexemes), used, tables)]


def _sets(lexemes: Lexemes) -> list[Name]:
    """The columns on the right of SET. What stands on the left is written, and not looked at."""
    used: list[Name] = []
    lexemes.take("SET")
    while True:
        lexemes.name()
        lexemes.take("=")
        used += term(lexemes).columns
        if not lexemes.passes(","):
            return used


def _where(lexemes: Lexemes) -> list[Term]:
    return list(term(lexemes).members()) if lexemes.passes("WHERE") else []


def _query(lexemes: Lexemes, tables: Tables) -> list[Look]:
    """The looks of a query behind its first SELECT: one for each FROM item of each block."""
    found: list[Look] = []
    while True:
        everything, selected = lexemes.passes("*"), list[Name]()
        while not everything:
            selected += term(lexemes).columns
            if not lexemes.passes(","):
                break
        items, where = _from(lexemes), _where(lexemes)
        for item in items:
            stars = [(item.name, column) for column in tables[item.table]] if everything else []
            found.append(_look(item, items, where, [*stars, *selected], tables))
        if not lexemes.passes("UNION"):
            return found
        lexemes.take("ALL")
        lexemes.take("SELECT")


def _from(lexemes: Lexemes) -> list[Item]:
    items: list[Item] = []
    lexemes.take("FROM")
    while True:
        table = lexemes.name()
        named = lexemes.passes("AS") or lexemes.next not in ("", ",", "WHERE", "UNION")
        items.append(Item(lexemes.name() if named else table, table))
        if not lexemes.passes(","):
            return items


def _look(item: Item, items: Sequence[Item], where: Sequence[Term], used: Sequence[Name], tables: Tables) -> Look:
    """The look at one item: the members of WHERE about it alone, or about none, and all of its columns that are used anywhere."""

    def owner(name: Name) -> Item:
        return next(it for it in items if (it.name == name[0] if name[0] else name[1] in tables[it.table]))

    about = tuple(one for one in where if all(owner(name) == item for name in one.columns))
    names = [*used, *(name for one in where for name in one.columns)]
    return Look(item, tuple(tables[item.table]), about, frozenset(column for name, column in names if owner((name, column)) == item))
