"""Terms of totals: whole numbers, texts and columns of an answer, with + - * and brackets. NULL makes NULL, as in the program's own terms."""

from __future__ import annotations

from collections.abc import Sequence
from dataclasses import dataclass
from typing import Union

from gprom.answers import Cell, Row, cell_value

from .lexer import Lexeme


class TermError(Exception):
    """No term, with the place of the fault in the line; or one that has no value in a row."""

    def __init__(self, message: str, at: int = 0):
        super().__init__(message)
        self.at = at


@dataclass(frozen=True)
class Name:
    """A column of the answer."""

    name: str
    start: int


@dataclass(frozen=True)
class Literal:
    value: Cell


@dataclass(frozen=True)
class Operation:
    sign: str
    left: Node
    right: Node


Node = Union[Name, Literal, Operation]


@dataclass(frozen=True)
class Term:
    """A term, with the words that were typed."""

    text: str
    node: Node

    def names(self) -> list[Name]:
        return _names(self.node)

    def value(self, row: Row, places: dict[str, int]) -> Cell:
        return _value(self.node, row, places)


def read_term(text: str, found: Sequence[Lexeme], at: int) -> tuple[Term, int]:
    """The term that begins at a lexeme, and the place behind it."""
    node, end = _sum(text, found, at)
    return Term(text[found[at].start : found[end - 1].end], node), end


def _sum(text: str, found: Sequence[Lexeme], at: int) -> tuple[Node, int]:
    node, at = _product(text, found, at)
    while at < len(found) and found[at].text in ("+", "-"):
        sign = found[at].text
        right, at = _product(text, found, at + 1)
        node = Operation(sign, node, right)
    return node, at


def _product(text: str, found: Sequence[Lexeme], at: int) -> tuple[Node, int]:
    node, at = _factor(text, found, at)
    while at < len(found) and found[at].text == "*":
        right, at = _factor(text, found, at + 1)
        node = Operation("*", node, right)
    return node, at


def _factor(text: str, found: Sequence[Lexeme], at: int) -> tuple[Node, int]:
    if at >= len(found):
        raise TermError("a term is missing", len(text))
    it = found[at]
    if it.text == "-":
        node, end = _factor(text, found, at + 1)
        return Operation("-", Literal(0), node), end
    if it.text == "(":
        node, end = _sum(text, found, at + 1)
        if end >= len(found) or found[end].text != ")":
            raise TermError("a bracket is not closed", it.start)
        return node, end + 1
    if it.kind == "number" or it.kind == "text":
        return Literal(cell_value(it.text)), at + 1
    if it.kind == "word":
        return (Literal(None) if it.upper == "NULL" else Name(it.text.lower(), it.start)), at + 1
    raise TermError("a term is a column, a number, or such with + - * and brackets", it.start)


def _names(node: Node) -> list[Name]:
    if isinstance(node, Operation):
        return _names(node.left) + _names(node.right)
    return [node] if isinstance(node, Name) else []


def _value(node: Node, row: Row, places: dict[str, int]) -> Cell:
    if isinstance(node, Name):
        return row[places[node.name]]
    if isinstance(node, Literal):
        return node.value
    left, right = _value(node.left, row, places), _value(node.right, row, places)
    if left is None or right is None:
        return None
    if isinstance(left, str) or isinstance(right, str):
        raise TermError(f"a text has no {node.sign}")
    return left + right if node.sign == "+" else left - right if node.sign == "-" else left * right
