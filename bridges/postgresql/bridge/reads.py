"""Which rows a statement may read, as far as its text shows: of each table the key that its condition needs, or all rows.

A log has few texts that differ in more than their constants, so a text is parsed once for all that have its form.
"""
import re
from collections.abc import Iterable
from typing import Any, NamedTuple

from pglast import ast

from . import NotCovered
from .evaluate import fixed
from .express import express
from .schema import Table, cell
from .session import text_of
from .statements import is_quiet, parse
from .terms import Statement
from .translate import text_constant

CONSTANT = re.compile(r"'(?:[^']|'')*'|(?<![\w.$\"])\d+(?:\.\d+)?(?![\w.])")
WORD = re.compile(r'\w+')
FIRST = 1_900_000_000             # numbers from here on stand for the constants of a text while it is parsed
Key = tuple[Any, ...]


class Read(NamedTuple):
    """Rows of a table: those with a key, or any."""
    table: str
    key: Key | None


class Form(NamedTuple):
    """A text without its constants: what it reads, where the cells of a key are places of constants or names of parameters."""
    reads: list[tuple[str, list[tuple[int, str]] | None]]
    tables: set[str]                  # that it names


class Readers:
    """Reads of the statements of a log, whose tables are as in the definitions."""

    def __init__(self, tables: dict[str, Table]) -> None:
        self.tables, self.forms = tables, dict[tuple[str, int], Form]()
        parts = getattr(tables, 'parts', {})
        self.names = {name.lower(): name for name in tables} | {name.lower(): whole for name, whole in parts.items()}
        self.odd = {name: whole for name, whole in self.names.items() if not WORD.fullmatch(name)}

    def of(self, text: str, parameters: dict[int, Any]) -> tuple[list[Read], set[str]]:
        """What a statement may read, and the tables that it names."""
        constants = CONSTANT.findall(text)
        form = CONSTANT.sub(lambda match: "'?'" if match[0][0] == "'" else '?', text), len(parameters)
        if form not in self.forms:
            self.forms[form] = self.form(text, len(parameters))
        known = self.forms[form]
        return [Read(name, None if places is None else self.key(name, places, constants, parameters)) for name, places in known.reads], known.tables

    def key(self, name: str, places: list[tuple[int, str]], constants: list[str], parameters: dict[int, Any]) -> Key | None:
        """The key in the constants of a text, or None where it is no key of gprom."""
        found: list[Any] = []
        table = self.tables[name]
        for column, (place, kind) in zip(table.key, places):
            text = text_of(parameters[place]) if kind == 'parameter' else unquoted(constants[place])
            try:
                found.append(cell(text, table.columns[table.index(column)].type))
            except NotCovered:
                return None
        return tuple(found)

    def form(self, text: str, parameters: int) -> Form:
        names = self.named(text)
        marked = marks(text)
        given = {number: text_constant(str(FIRST + 100_000 + number)) for number in range(1, parameters + 1)}
        reads: list[tuple[str, list[tuple[int, str]] | None]] = []
        try:
            for node in parse(marked):
                reads += self.reads(node, given, names)
        except NotCovered:
            reads = [(name, None) for name in sorted(names)]
        return Form(reads, names)

    def named(self, text: str) -> set[str]:
        """The tables whose names a text has."""
        lower = text.lower()
        return {self.names[word] for word in set(WORD.findall(lower)) & self.names.keys()} | {whole for name, whole in self.odd.items() if name in lower}

    def reads(self, node: Any, parameters: dict[int, Any], names: set[str]) -> Iterable[tuple[str, list[tuple[int, str]] | None]]:
        """What a statement reads, by the marks in its conditions. What is not known of it may read all of the tables that it names."""
        if is_quiet(node) or isinstance(node, (ast.TransactionStmt, ast.VariableSetStmt, ast.PrepareStmt)):
            return
        found = express(node, self.tables, parameters)
        statements = [*found.looks, *found.statements]
        said = {name for statement in statements for name in tables_of(statement)}
        for statement in statements:
            yield from self.of_statement(statement)
        if found.unsaid or not found.statements:
            yield from ((name, None) for name in sorted(names - said if found.looks and not found.unsaid else names))

    def of_statement(self, statement: Statement) -> Iterable[tuple[str, list[tuple[int, str]] | None]]:
        for _, items, where in statement.blocks or ():
            for name, alias in items:
                yield name, self.places(name, where, alias)
        if statement.kind in ('update', 'delete'):
            yield statement.table, self.places(statement.table, statement.where, None)

    def places(self, name: str, where: Any, alias: str | None) -> list[tuple[int, str]] | None:
        """Where the constants stand that a condition compares the key of a table with."""
        table = self.tables[name]
        given = dict(fixed(where, alias)) if where else {}
        found = [mark_of(given.get(column)) for column in table.key]
        return None if not found or None in found else [place for place in found if place is not None]


def tables_of(statement: Statement) -> set[str]:
    return {name for _, items, _ in statement.blocks or () for name, _ in items} | ({statement.table} - {''})


def marks(text: str) -> str:
    """The text with numbers in the place of its constants, each another one."""
    count = -1

    def mark(match: re.Match[str]) -> str:
        nonlocal count
        count += 1
        return f"'{FIRST + count}'" if match[0][0] == "'" else str(FIRST + count)

    return CONSTANT.sub(mark, text)


def mark_of(value: Any) -> tuple[int, str] | None:
    """(place, kind) of the constant or the parameter that a mark stands for."""
    text = str(value)
    if not text.isdigit() or int(text) < FIRST:
        return None
    place = int(text) - FIRST
    return (place - 100_000, 'parameter') if place > 100_000 else (place, 'constant')


def unquoted(constant: str) -> str:
    return constant[1:-1].replace("''", "'") if constant.startswith("'") else constant
