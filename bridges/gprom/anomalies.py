"""Anomalies in plain words, for all who show them. A sentence is about the lines of an anomaly, and says nothing that they do not."""

from __future__ import annotations

from collections import Counter
from collections.abc import Iterable, Sequence
from dataclasses import dataclass
from typing import Union

from .answers import Anomaly, Edge

# What a cycle is, and what it is not.
NO_ORDER = "No order of the transactions keeps who read and wrote which rows before whom. That a result would differ is not said."

# A transaction; a row, by its table and identity; or a word.
Named = Union[int, tuple[str, str], str]


@dataclass(frozen=True)
class Said:
    """A sentence: a pattern, and what stands at its places."""

    pattern: str
    names: tuple[Named, ...] = ()

    def __add__(self, other: "Said") -> "Said":
        return Said(self.pattern + other.pattern, self.names + other.names)

    def text(self) -> str:
        return self.pattern.format(*(it[1] if isinstance(it, tuple) else it for it in self.names))


def full_name(it: Anomaly) -> str:
    """The name as the program gives it."""
    return it.name + " phantom" * it.phantom


def by_name(found: Iterable[Anomaly]) -> str:
    """How many there are of each name, most first."""
    counts = Counter(map(full_name, found))
    return ", ".join(f"{number:,} {name}" for name, number in sorted(counts.items(), key=lambda it: (-it[1], it[0])))


def sentence(it: Anomaly, idle: Sequence[int] = ()) -> Said:
    """An anomaly in plain words. `idle` are transactions that wrote nothing."""
    edges = it.edges
    if it.name == "lost update":
        said = overwrote(next((edge for edge in edges if edge.kind == "rw"), edges[0]))
    elif it.name == "read skew" and len(edges) == 2:
        said = read_skew(edges[0], edges[1])
    elif it.name == "write skew" and len(edges) == 2:
        said = write_skew(edges[0], edges[1])
    else:
        said = _cycle(it, [number for number in it.transactions if number in idle] if it.name == "read-only anomaly" else [])
    return said + Said(" A row that one looked for was not there yet, or not any more.") if it.phantom else said


def overwrote(read: Edge) -> Said:
    """A lost update, by its step from the one who read to the one who wrote meanwhile."""
    a, b, row = read.first, read.second, (read.table, read.identity)
    if _made(read):
        return Said("{} overwrote row {} of {}, which {} had inserted after {} looked for such rows.", (a, row, read.table, b, a))
    return Said("{} overwrote row {} of {}, which {} had changed after {} read it.", (a, row, read.table, b, a))


def read_skew(one: Edge, two: Edge) -> Said:
    """A cycle of two in which one reads before and after the other."""
    read, other = (one, two) if one.kind == "rw" else (two, one)
    a, b = read.first, read.second
    if other.kind == "rw":
        return _one(one) + Said("; and ") + _one(two) + Said(". No order has both.")
    row, after = (read.table, read.identity), (other.table, other.identity)
    early = Said("{} looked where {} then put row {} of {}", (a, b, row, read.table)) if _made(read) else Said("{} read row {} of {} before {} changed it", (a, row, read.table, b))
    if other.kind == "ww":
        return early + Said(", and wrote row {} of {} after {} had written it.", (after, other.table, b))
    if row == after:
        return early + Said(", and again after that.")
    return early + Said(", and row {} of {} after: it saw one half of what {} did.", (after, other.table, b))


def write_skew(one: Edge, two: Edge) -> Said:
    """A cycle of two in which each reads what the other one then changes."""
    return _one(one) + Said("; and ") + _one(two) + Said(". Each relied on what the other one was changing.")


def _one(it: Edge) -> Said:
    """A step in which the first one read what was before the second."""
    row = (it.table, it.identity)
    if _made(it):
        return Said("{} looked where {} then put row {} of {}", (it.first, it.second, row, it.table))
    return Said("{} read row {} of {}, which {} then changed", (it.first, row, it.table, it.second))


def _made(it: Edge) -> bool:
    """Whether the second one inserted the row: its identity begins with the transaction that made it."""
    return it.identity.partition(".")[0] == str(it.second)


def _cycle(it: Anomaly, idle: Sequence[int]) -> Said:
    all_ = Said("No order explains " + ", ".join(["{}"] * len(it.transactions)), it.transactions)
    if idle:
        return all_ + Said(": {} wrote nothing, and saw the others in an order that they cannot have had.", (idle[0],))
    return all_ + Said(": each has to come before the next one, and the last before the first.")
