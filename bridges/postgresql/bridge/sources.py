"""The text of a captured statement as a syntax tree, with values in the place of its parameters and of PL/pgSQL's variables."""
from collections.abc import Iterable
from typing import Any

from pglast import ast

from . import NotCovered
from .statements import parse
from .translate import text_constant, walk

QUERIES = (ast.PrepareStmt, ast.DeclareCursorStmt, ast.ExplainStmt, ast.CreateTableAsStmt, ast.CopyStmt)
CUT = 1 << 20          # numbers of parameters from here on stand for variables whose value the capture cut


def tree(fields: dict[str, Any]) -> Any:
    """The syntax tree of a statement as its session read it. NotCovered, if that is not known."""
    text = str(fields.get('q', ''))
    if 'qb' in fields:
        raise NotCovered(f"a text of {fields['qb']} bytes, which the capture has in part")
    if 'bs' in fields and '\\' in text:
        raise NotCovered('a backslash where standard_conforming_strings is off')
    return parsed(text)


def parsed(text: str) -> Any:
    """The statement of a text. PL/pgSQL has terms and assignments too."""
    for attempt in (text, 'SELECT ' + text, 'SELECT ' + text.partition(':=')[2], 'SELECT ' + text.partition('=')[2]):
        try:
            nodes = parse(attempt)
        except NotCovered as error:
            reason = error
            continue
        if len(nodes) == 1:
            return nodes[0]
        reason = NotCovered('several statements in one')
    raise reason


def inner(node: Any) -> Any:
    """The query in a PREPARE, a DECLARE, an EXPLAIN, a COPY or a CREATE TABLE AS."""
    while isinstance(node, QUERIES) and node.query:
        node = node.query
    if isinstance(node, ast.SelectStmt) and node.intoClause:
        node.intoClause = None
    return node


class Values:
    """The values of a statement, by the numbers of its parameters and by the names of variables. `cut` has the lengths of those that were cut."""

    def __init__(self, given: dict[str, Any], positions: Iterable[str | None]) -> None:
        self.cut = [value['bytes'] for value in given.values() if isinstance(value, dict)]
        nodes = {name: self.node(at, value) for at, (name, value) in enumerate(given.items())}
        self.parameters: dict[Any, Any] = {int(name): node for name, node in nodes.items() if name.isdigit() and not isinstance(given[name], dict)}
        self.names = {name.lower(): node for name, node in nodes.items() if not name.isdigit()}
        self.names |= {name: nodes[str(at)] for at, name in enumerate(positions, 1) if name and str(at) in nodes}
        self.only = next(iter(nodes.values())) if len(nodes) == 1 else None

    @staticmethod
    def node(at: int, value: Any) -> Any:
        return ast.ParamRef(number=CUT + at) if isinstance(value, dict) else text_constant(value)

    def reason(self, reason: str) -> str:
        """Why a statement cannot be expressed, where that is a value that was cut."""
        return f'a value of {max(self.cut)} bytes, which the capture cut' if self.cut and reason.endswith('without a value') else reason

    def put_into(self, node: Any, columns: set[str]) -> None:
        """Puts the values in the place of the names in a syntax tree."""
        names = self.names
        if not names and self.only is not None and not any(isinstance(part, ast.ParamRef) for part in walk(node)):
            unknown = {dotted(part) for part in walk(node) if isinstance(part, ast.ColumnRef)} - columns
            names = dict.fromkeys(unknown, self.only) if len(unknown) == 1 else {}           # of a FOR loop, whose names are lost
        if names:
            replace_names(node, names, sources_of(node))


def replace_names(node: Any, names: dict[str, Any], sources: set[str]) -> None:
    """Replaces column references that are names of variables, also behind the label of a block or the name of the function."""

    def put(value: Any) -> Any:
        if isinstance(value, ast.ColumnRef):
            first, _, last = dotted(value).rpartition('.')
            return names.get(dotted(value)) or (names.get(last) if first and first not in sources else None) or value
        return tuple(map(put, value)) if isinstance(value, tuple) else value

    for part in walk(node):
        for name in part:
            value = getattr(part, name)
            if isinstance(value, (ast.ColumnRef, tuple)) and not (isinstance(part, ast.ColumnRef) or put(value) == value):
                setattr(part, name, put(value))


def sources_of(node: Any) -> set[str]:
    """The names that columns of a statement may have before them."""
    names = {'excluded'}
    for part in walk(node):
        alias = getattr(part, 'alias', None)
        names |= {alias.aliasname} if isinstance(alias, ast.Alias) else set()
        names |= {part.relname} if isinstance(part, ast.RangeVar) else {part.ctename} if isinstance(part, ast.CommonTableExpr) else set()
    return names


def dotted(column: Any) -> str:
    return '.'.join(part.sval if isinstance(part, ast.String) else '*' for part in column.fields)
