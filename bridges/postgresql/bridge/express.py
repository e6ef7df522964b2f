"""What a statement of the server is in gprom, for the log's reader and that of a capture: statements, or what stands for its reads."""
from dataclasses import dataclass, field

from pglast import ast

from . import NotCovered
from .fits import clocks, tested
from .looks import Looks
from .statements import Target, Translator, only_reads, target_of
from .terms import Statement
from .translate import walk


@dataclass
class Expressed:
    """A statement of the server: its `statements` in gprom, or the reason why there are none."""
    statements: list[Statement] = field(default_factory=list)
    notes: list[str] = field(default_factory=list)          # what they do not say in full
    reason: str = ''
    looks: list[Statement] = field(default_factory=list)    # SELECTs that stand for what the statements do not look at themselves
    unsaid: list[str] = field(default_factory=list)         # why other reads of it cannot be said
    target: Target = field(default_factory=Target)          # which row images may be its own
    only_reads: bool = False                                # it writes nothing, but for the functions that it calls
    calls: bool = True                                      # it calls functions, as far as is known
    harmless: bool = False                                  # it only reads, and the functions that it calls are the server's own
    commits: bool = False                                   # it may commit itself
    clocks: list = field(default_factory=list)              # of what gets the time of the transaction, as `fits.clocks` has it


def express(node, tables, parameters, reason=''):
    """The Expressed of a parsed statement. With a reason it is known to be inexpressible."""
    if not reason:
        translator = Translator(tables, parameters)
        try:
            found = Expressed(translator.statements(node), translator.notes, clocks=clocks(node, tables))
            if translator.looks_further:
                looks = Looks(tables, parameters).of(node)
                found.looks, found.unsaid = looks.made, looks.unsaid
            return found
        except NotCovered as error:
            reason = str(error)
    functions = [part.funcname[-1].sval for part in walk(node) if isinstance(part, ast.FuncCall)]
    if functions and functions[0] not in reason:
        reason += f', with the function {functions[0]}'
    looks = Looks(tables, parameters).of(node)
    reads, own = only_reads(node), set(functions) & set(getattr(tables, 'functions', ()))
    return Expressed(reason=reason, looks=looks.made, unsaid=looks.unsaid, target=tested(target_of(node, tables), node, tables, parameters),
                     only_reads=reads, calls=bool(functions), harmless=reads and not own,
                     commits=isinstance(node, (ast.CallStmt, ast.DoStmt)), clocks=clocks(node, tables))


def unread(reason, target=Target()):
    """The Expressed of a statement whose text nothing reads: it may have written what the target takes."""
    return Expressed(reason=reason, unsaid=['what the statement read'], target=target)
