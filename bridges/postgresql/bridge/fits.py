"""Whether a row image may be that of a statement, as far as the statement's text is sure.

An old row has to meet the condition, a new one to have what SET or VALUES gives it, and the columns that SET does not name stay. What a
trigger changes, what gprom cannot express, and the order of texts, which a collation decides, are not tested.
"""
from dataclasses import dataclass, field, replace

from pglast import ast

from . import NotCovered
from .definitions import is_clock
from .evaluate import cells, value
from .looks import members
from .terms import HOLE, parts
from .translate import Terms, assign

ORDERS = ('<', '<=', '>', '>=')
UNKNOWN = object()               # a value that the text does not give


@dataclass
class Fits:
    """The test. `sets` has the term of each column by its place, or UNKNOWN; `rows` the cells of each tuple."""
    table: object
    conditions: list = field(default_factory=list)
    sets: dict = None
    rows: list = None

    def __call__(self, old, new):
        if old is None:
            return self.rows is None or any(all(a is UNKNOWN or a == b for a, b in zip(row, new)) for row in self.rows)
        named = cells(self.table, old)
        if any(value(condition, named) is not True for condition in self.conditions):
            return False
        return new is None or self.sets is None or all(self.agrees(at, named, new[at]) for at in range(len(new)))

    def agrees(self, at, named, cell):
        column = self.table.columns[at]
        term = self.sets.get(at, ('column', None, column.name))
        if term is UNKNOWN or column.generated:
            return True
        found = value(term, named)                    # NULL may stand for a number that passed 64 bits on the way
        return found == cell or found is None and term[0] not in ('literal', 'column')


def of_statement(statement, tables):
    """The Fits of a statement of gprom."""
    table = tables[statement.table]
    found = Fits(table, [] if statement.kind == 'upsert' else sure(statement.where, table))
    if not table.rewrites and statement.kind == 'update':
        found.sets = {table.index(name): UNKNOWN for name in statement.free}
        found.sets |= {table.index(name): UNKNOWN if term is HOLE else term for name, term in statement.sets}
    if not table.rewrites and statement.kind in ('insert', 'upsert') and statement.rows is not None:
        found.rows = [[UNKNOWN if cell is HOLE else cell for cell in row] for row in statement.rows]
    return found


def tested(target, node, tables, parameters):
    """The Target of a statement that gprom cannot express, with the Fits of its text."""
    table = tables.get(target.table)
    if table is None or table.reacts == 'a rule':
        return target
    try:
        return replace(target, test=test_of(node, table, parameters))
    except NotCovered:                                # it names a column that came later
        return target


def test_of(node, table, parameters):
    """The Fits of the text of a statement."""
    alias = node.relation.alias.aliasname if node.relation.alias else node.relation.relname
    terms = Terms([(table, alias)], parameters, qualified=False)
    found = Fits(table)
    if isinstance(node, (ast.UpdateStmt, ast.DeleteStmt)) and node.whereClause:
        for member in members(node.whereClause):
            term = attempt(terms.condition, member)
            found.conditions += [] if term is UNKNOWN else sure(term, table)
    if isinstance(node, ast.UpdateStmt) and not table.rewrites:
        found.sets = {table.index(part.name): set_term(terms, table, part) for part in node.targetList}
    if isinstance(node, ast.InsertStmt) and not table.rewrites:
        found.rows = tuples(node, table, parameters)
    return found


def set_term(terms, table, part):
    """The term of a column in SET."""
    if part.indirection or isinstance(part.val, (ast.MultiAssignRef, ast.SetToDefault)):
        return UNKNOWN
    column = table.columns[table.index(part.name)]
    return attempt(lambda node: assign(*terms.value(node), column.type), part.val)


def tuples(node, table, parameters):
    """The cells of the tuples of VALUES, or None if there are none."""
    query = node.selectStmt
    if not query or not query.valuesLists:
        return None
    names = [column.name for column in node.cols or ()] or [column.name for column in table.columns]
    terms, rows = Terms([], parameters), []
    for given in query.valuesLists:
        row = [UNKNOWN if column.computed or column.generated else column.default for column in table.columns]
        for name, part in zip(names, given):
            column = table.columns[table.index(name)]
            term = attempt(lambda node, column=column: assign(*terms.value(node), column.type), part)
            row[table.index(name)] = term[1] if term is not UNKNOWN and term[0] == 'literal' else UNKNOWN
        rows.append(row)
    return rows


def attempt(translate, node):
    """What a term is in gprom, or UNKNOWN."""
    try:
        return translate(node)
    except (NotCovered, RecursionError):
        return UNKNOWN


def sure(term, table):
    """The members of a condition whose value no collation decides."""
    if term is None:
        return []
    if term[0] == 'and':
        return sure(term[1], table) + sure(term[2], table)
    return [] if orders_texts(term, table) else [term]


def orders_texts(term, table):
    if term[0] == 'compare' and term[1] in ORDERS and any(has_text(part, table) for part in parts(term)):
        return True
    return any(orders_texts(part, table) for part in parts(term))


def has_text(term, table):
    if term[0] == 'column':
        return table.columns[table.index(term[2])].type.kind == 'text'
    return any(has_text(part, table) for part in parts(term))


# The time of the transaction

def clocks(node, tables):
    """(table, place of a column, whether in new rows) of the columns that a statement gives the time at which its transaction began."""
    relation = getattr(node, 'relation', None)
    table = tables.get(relation.relname) if isinstance(relation, ast.RangeVar) else None
    if table is None or table.rewrites:
        return []
    if isinstance(node, ast.UpdateStmt):
        names = [part.name for part in node.targetList if is_clock(part.val)]
    elif isinstance(node, ast.InsertStmt):
        query = node.selectStmt
        given = [column.name for column in node.cols or ()] or [column.name for column in table.columns]
        tuples_of = (query.valuesLists or [[target.val for target in query.targetList or ()]]) if query else [()]
        names = [name for at, name in enumerate(given) if all(at < len(row) and is_clock(row[at]) for row in tuples_of)]
        names += [column.name for column in table.columns if column.clock and (column.name not in given or not query)]
    else:
        return []
    places = {column.name: at for at, column in enumerate(table.columns)}
    return [(table.name, places[name], isinstance(node, ast.InsertStmt)) for name in names
            if name in places and table.columns[places[name]].type.kind in ('timestamp', 'timestamptz')]
