"""What a session has set that gives its statements another meaning: names, rows that a policy hides, and a time zone.

A SET of a transaction that is rolled back is undone, as is that of a savepoint; SET LOCAL ends with its transaction. Temporary tables hide
others in the same way. What a role or a database sets for its sessions is in no record of the log.
"""
from pglast import ast, enums

from .schema import holder
from .translate import walk
from .zones import UTC

Kind, Discard = enums.VariableSetKind, enums.DiscardMode
TRACKED = ('search_path', 'timezone', 'role', 'session_authorization', 'row_security')
TEMPORARY, ELSEWHERE = 'pg_temp', 'elsewhere'


class Session:
    """`now` has what is set, `lasting` what stays behind the COMMIT, `before` what stays behind a ROLLBACK. Temporary tables are keys of two parts."""

    def __init__(self):
        self.now, self.lasting, self.before, self.marks = {}, {}, {}, []

    # Transactions

    def begin(self):
        self.lasting, self.before, self.marks = dict(self.now), dict(self.now), []

    def end(self, is_committed):
        self.now = self.lasting = dict(self.lasting if is_committed else self.before)
        self.marks = []

    def mark(self, name):
        self.marks.append((name, dict(self.now), dict(self.lasting)))

    def undo(self, name):
        """ROLLBACK TO a savepoint, which stays."""
        found = next((mark for mark in reversed(self.marks) if mark[0] == name), None)
        if found is not None:
            del self.marks[self.marks.index(found) + 1:]
            self.now, self.lasting = dict(found[1]), dict(found[2])

    # What statements set

    def put(self, key, value, is_local=False):
        """Notes a setting; None takes it back."""
        for settings in (self.now,) if is_local else (self.now, self.lasting):
            settings.pop(key, None)
            if value is not None:
                settings[key] = value

    def set(self, node):
        """SET and RESET."""
        name = (node.name or '').lower()
        if node.kind == Kind.VAR_RESET_ALL:
            self.forget(lambda key: key in TRACKED)
        elif name in TRACKED:
            values = None if node.kind in (Kind.VAR_SET_DEFAULT, Kind.VAR_RESET) else [text_of(part) for part in node.args or ()]
            self.put(name, values and (values if name == 'search_path' else values[0]), node.is_local)

    def forget(self, chosen):
        for key in [key for key in self.now if chosen(key)]:
            self.put(key, None)

    def note(self, node, parameters):
        """Notes what else a statement that succeeded set. Gives a line for the user, if that is not known, or ''."""
        match node:
            case ast.DiscardStmt(target=target):
                self.forget(lambda key: target == Discard.DISCARD_ALL or target == Discard.DISCARD_TEMP and isinstance(key, tuple))
            case ast.CreateStmt(relation=relation, oncommit=action) if is_temporary(relation):
                self.put((TEMPORARY, relation.relname), True, action == enums.OnCommitAction.ONCOMMIT_DROP)
            case ast.CreateTableAsStmt(into=into) | ast.SelectStmt(intoClause=into) if into and is_temporary(into.rel):
                self.put((TEMPORARY, into.rel.relname), True, into.onCommit == enums.OnCommitAction.ONCOMMIT_DROP)
            case ast.ViewStmt(view=view) if is_temporary(view):
                self.put((TEMPORARY, view.relname), True)
            case ast.DropStmt(objects=objects):
                for names in objects:
                    if isinstance(names, tuple) and isinstance(names[-1], ast.String) and len(names) == 1 or names[0].sval == TEMPORARY:
                        self.put((TEMPORARY, names[-1].sval), None)
        calls = [part for part in walk(node) if isinstance(part, ast.FuncCall) and part.funcname[-1].sval == 'set_config']
        return '; '.join(filter(None, (self.configure(call, parameters) for call in calls)))

    def configure(self, call, parameters):
        """set_config(name, value, is_local)"""
        given = [text_of(parameters.get(part.number, part) if isinstance(part, ast.ParamRef) else part) for part in call.args or ()]
        if len(given) != 3 or None in given:
            return 'set_config with values that the text does not show'
        name, value, is_local = given[0].lower(), given[1], given[2].lower() in ('t', 'true', '1', 'on')
        if name in TRACKED:
            self.put(name, identifiers(value) if name == 'search_path' else value, is_local)
        return ''

    # What statements mean

    @property
    def zone(self):
        """The time zone, if it is not UTC, or ''."""
        zone = self.now.get('timezone') or 'utc'
        return '' if zone.lower() in UTC else zone

    def meaning(self, node, tables, user):
        """Why a statement is not about the tables that its text names, or ''; and whether rows may be hidden. Names get their schemas in it."""
        others, hidden = [], []
        commons = {part.ctename for part in walk(node) if isinstance(part, ast.CommonTableExpr)}
        for part in walk(node):
            if not isinstance(part, ast.RangeVar) or part.schemaname is None and part.relname in commons or is_temporary(part):
                continue
            table = holder(tables, part.relname)
            schema = self.schema_of(part.relname, tables, user) if part.schemaname is None else ''
            if schema and (table is None or schema != (table.schema or 'public')):
                part.relname, part.schemaname = f'{schema}.{part.relname}', TEMPORARY if schema == TEMPORARY else None
                others.append(part.relname)
            elif table is not None and self.may_hide(table, user):
                hidden.append(f'row level security of {table.name}')
        if others:
            return f'{", ".join(dict.fromkeys(others))} in this session', False
        return '; '.join(dict.fromkeys(hidden)), bool(hidden)

    def schema_of(self, name, tables, user):
        """The schema of the table that a name without one means, or '' where nothing was set."""
        if (TEMPORARY, name) in self.now:
            return TEMPORARY
        path, schemas = self.now.get('search_path'), tables.schemas.get(name)
        if path is None or not schemas:
            return ''
        path = [self.role(user) if schema == '$user' else schema for schema in path]
        return next((schema for schema in path if schema in schemas), path[0] if path and path[0] else 'no schema')

    def role(self, user):
        role = self.now.get('role', 'none')
        return self.now.get('session_authorization', user) if role == 'none' else role

    def may_hide(self, table, user):
        """Whether a policy of a table may hide rows: its owner sees all, unless that is forced."""
        owns = table.owner in ('', self.role(user)) and not table.is_forced
        return table.is_secured and not owns and self.now.get('row_security') not in ('off', 'false')


def aim(node, session):
    """What a statement writes or defines: TEMPORARY, a table that is ELSEWHERE, or '' for another one. Its names have their schemas."""
    match node:
        case ast.CreateTableAsStmt(into=into) | ast.SelectStmt(intoClause=into) if into:
            relations = [into.rel]
        case ast.ViewStmt(view=view):
            relations = [view]
        case ast.TruncateStmt(relations=found):
            relations = found
        case ast.DropStmt(objects=objects) if all(isinstance(names, tuple) for names in objects):
            temporary = [(TEMPORARY, names[-1].sval) in session.now and (len(names) == 1 or names[0].sval == TEMPORARY) for names in objects]
            return TEMPORARY if all(temporary) else ''
        case _:
            relation = getattr(node, 'relation', None)
            relations = [relation] if isinstance(relation, ast.RangeVar) else []
    if relations and all(is_temporary(relation) for relation in relations):
        return TEMPORARY
    return ELSEWHERE if relations and all('.' in relation.relname for relation in relations) else ''


def is_temporary(relation):
    return relation.relpersistence == 't' or relation.schemaname == TEMPORARY


def text_of(node):
    """The text of a constant, or None."""
    match node:
        case ast.TypeCast(arg=arg):
            return text_of(arg)
        case ast.A_Const(val=ast.String(sval=text)):
            return text
        case ast.A_Const(val=ast.Boolean(boolval=value)):
            return 'true' if value else 'false'
        case ast.A_Const(val=ast.Integer(ival=value)) | ast.A_Const(val=ast.Float(fval=value)):
            return str(value)
    return None


def identifiers(text):
    """The names in a list of a search_path."""
    names = [name.strip() for name in text.split(',')]
    return [name[1:-1].replace('""', '"') if name.startswith('"') else name.lower() for name in names]
