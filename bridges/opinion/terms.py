"""Terms and conditions as the log of a dump has them, in canonical text: every operator stands in brackets with its operands."""

from __future__ import annotations

import re
from collections.abc import Callable, Iterator, Mapping
from dataclasses import dataclass
from typing import Union

Cell = Union[int, str, None]
# The name of a FROM item, or nothing, and that of a column.
Name = tuple[str, str]
Scope = Mapping[Name, Cell]

LEXEME = re.compile(r"\s*('(?:[^']|'')*'|\w+|<>|<=|>=|\S)")
LEAST, GREATEST = -(2**63), 2**63 - 1
RESERVED = frozenset("ALL AND AS CASE ELSE END FROM IS NOT NULL OR SELECT SET THEN TRUE UNION VALUES WHEN WHERE".split())


class Lexemes:
    """The lexemes of a text, taken one after another."""

    def __init__(self, text: str):
        self._all: list[str] = LEXEME.findall(text)
        self._at = 0

    @property
    def next(self) -> str:
        """The next lexeme, or nothing behind the last one."""
        return self._all[self._at] if self._at < len(self._all) else ""

    def take(self, *expected: str) -> str:
        """Takes the next lexeme, which has to be one of these, if any are given."""
        found = self.next
        if not found or (expected and found not in expected):
            raise ValueError(f"{found!r} in place of {expected or 'a lexeme'}: {' '.join(self._all)}")
        self._at += 1
        return found

    def passes(self, lexeme: str) -> bool:
        """Takes the next lexeme if it is this one."""
        if self.next != lexeme:
            return False
        self._at += 1
        return True

    def name(self) -> str:
        """Takes a name, which is no reserved word."""
        found = self.take()
        if found in RESERVED or not (found[0].isalpha() or found[0] == "_"):
            raise ValueError(f"{found!r} is no name")
        return found


@dataclass(frozen=True)
class Term:
    """A term or a condition: the columns that stand in it, and its value or truth over cells. Unknown is None, as NULL is."""

    columns: tuple[Name, ...]
    of: Callable[[Scope], Cell]
    # Of an AND: its two sides.
    both: tuple["Term", "Term"] | None = None

    def members(self) -> Iterator["Term"]:
        """The conditions that AND joins at the top."""
        if self.both:
            for side in self.both:
                yield from side.members()
        else:
            yield self

    def is_true(self, scope: Scope) -> bool:
        return self.of(scope) is True


def term(lexemes: Lexemes) -> Term:
    """Reads a term or a condition."""
    if lexemes.passes("("):
        found = _in_brackets(lexemes)
        lexemes.take(")")
        return found
    if lexemes.passes("CASE"):
        return _case(lexemes)
    if lexemes.passes("NULL"):
        return Term((), lambda scope: None)
    if lexemes.next.startswith("'"):
        text = lexemes.take()[1:-1].replace("''", "'")
        return Term((), lambda scope: text)
    if lexemes.next.isdecimal():
        number = int(lexemes.take())
        return Term((), lambda scope: number)
    return _column(lexemes)


def _column(lexemes: Lexemes) -> Term:
    first = lexemes.name()
    name = (first, lexemes.name()) if lexemes.passes(".") else ("", first)
    return Term((name,), lambda scope: scope[name])


def _case(lexemes: Lexemes) -> Term:
    lexemes.take("WHEN")
    condition = term(lexemes)
    lexemes.take("THEN")
    then = term(lexemes)
    lexemes.take("ELSE")
    other = term(lexemes)
    lexemes.take("END")
    return Term(condition.columns + then.columns + other.columns, lambda scope: (then if condition.is_true(scope) else other).of(scope))


def _in_brackets(lexemes: Lexemes) -> Term:
    if lexemes.passes("-"):
        one = term(lexemes)
        return Term(one.columns, lambda scope: _fits(None if one.of(scope) is None else -_number(one.of(scope))))
    if lexemes.passes("NOT"):
        one = term(lexemes)
        return Term(one.columns, lambda scope: None if one.of(scope) is None else one.of(scope) is not True)
    left = term(lexemes)
    if lexemes.passes("IS"):
        return _test(left, not lexemes.passes("NOT"), lexemes.take("NULL", "TRUE"))
    operator = lexemes.take(*ARITHMETIC, *COMPARISONS, "AND", "OR")
    return _joined(left, operator, term(lexemes))


def _test(one: Term, wanted: bool, word: str) -> Term:
    """IS NULL or IS TRUE, or with NOT the opposite. It is never unknown."""
    held = None if word == "NULL" else True
    return Term(one.columns, lambda scope: (one.of(scope) is held) is wanted)


ARITHMETIC: dict[str, Callable[[int, int], int]] = {"+": lambda x, y: x + y, "-": lambda x, y: x - y, "*": lambda x, y: x * y}
# Of the sign of a comparison: -1, 0 or 1.
COMPARISONS: dict[str, frozenset[int]] = {
    "=": frozenset({0}), "<>": frozenset({-1, 1}), "<": frozenset({-1}), "<=": frozenset({-1, 0}), ">": frozenset({1}), ">=": frozenset({0, 1}),
}  # fmt: skip


def _joined(left: Term, operator: str, right: Term) -> Term:
    columns = left.columns + right.columns
    if operator == "AND":
        return Term(columns, lambda scope: _and(left.of(scope), right.of(scope)), (left, right))
    if operator == "OR":
        return Term(columns, lambda scope: _or(left.of(scope), right.of(scope)))
    if operator in ARITHMETIC:
        return Term(columns, lambda scope: _computed(ARITHMETIC[operator], left.of(scope), right.of(scope)))
    return Term(columns, lambda scope: _compared(COMPARISONS[operator], left.of(scope), right.of(scope)))


def _and(left: Cell, right: Cell) -> Cell:
    return False if False in (left, right) else None if None in (left, right) else True


def _or(left: Cell, right: Cell) -> Cell:
    return True if True in (left, right) else None if None in (left, right) else False


def _computed(operation: Callable[[int, int], int], left: Cell, right: Cell) -> Cell:
    return None if left is None or right is None else _fits(operation(_number(left), _number(right)))


def _compared(wanted: frozenset[int], left: Cell, right: Cell) -> Cell:
    """Texts are compared by their bytes."""
    if left is None or right is None:
        return None
    if isinstance(left, str) and isinstance(right, str):
        one, other = left.encode(), right.encode()
        return ((one > other) - (one < other)) in wanted
    return ((_number(left) > _number(right)) - (_number(left) < _number(right))) in wanted


def _number(cell: Cell) -> int:
    if not isinstance(cell, int):
        raise ValueError(f"{cell!r} is no number")
    return cell


def _fits(number: int | None) -> int | None:
    """A number that does not fit 64 bits is NULL."""
    return number if number is not None and LEAST <= number <= GREATEST else None
