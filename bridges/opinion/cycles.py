"""All cycles of the relation, those that are anomalies, and the answers that follow."""

from __future__ import annotations

from collections.abc import Iterator, Mapping, Sequence
from dataclasses import dataclass

from .relation import Pair, Read, Relation

Cycle = tuple[int, ...]


class TooMany(Exception):
    """There are more cycles than can be listed."""


def all_cycles(edges: Mapping[int, Sequence[int]], most: int) -> list[Cycle]:
    """Every cycle in which no transaction occurs twice, begun at its least one, by length and then by numbers."""
    found: list[Cycle] = []
    for first in edges:
        for cycle in _from(edges, (first,)):
            found.append(cycle)
            if len(found) > most:
                raise TooMany
    return sorted(found, key=lambda it: (len(it), it))


def _from(edges: Mapping[int, Sequence[int]], path: Cycle) -> Iterator[Cycle]:
    for number in edges[path[-1]]:
        if number == path[0]:
            yield path
        elif number > path[0] and number not in path:
            yield from _from(edges, (*path, number))


def steps(cycle: Cycle) -> list[tuple[int, int]]:
    """Each transaction with the next one, and the last with the first."""
    return list(zip(cycle, (*cycle[1:], cycle[0])))


def anomalies(relation: Relation, cycles: Sequence[Cycle]) -> list[Cycle]:
    """For each pair that goes back and is on a cycle, the first of the shortest cycles that have it; each once."""
    numbers = relation.committed
    back = [(a, b) for a in numbers for b in numbers if a != b and relation.goes_back(a, b)]
    # The cycles stand by length and then by numbers, so the first one that has the pair is the one that is wanted.
    chosen = {next((cycle for cycle in cycles if pair in steps(cycle)), None) for pair in back}
    return [cycle for cycle in cycles if cycle in chosen]


@dataclass(frozen=True)
class Lost:
    """A lost update: a read a row, b wrote it, and a wrote over that without having looked at it."""

    a: int
    b: int
    pair: Pair
    read: Read


def lost_update(relation: Relation, cycle: Cycle) -> Lost | None:
    """The least pair by which a cycle of two is a lost update."""
    if len(cycle) != 2:
        return None
    for a, b in (cycle, cycle[::-1]):
        there, back = relation.kinds(a, b), relation.kinds(b, a)
        looked_at = {it.pair for it in back.reads}
        lost = sorted((it.pair, it) for it in there.antis if it.pair in back.writes and it.pair not in looked_at)
        if lost:
            return Lost(a, b, *lost[0])
    return None


def name(relation: Relation, cycle: Cycle) -> str:
    """The name of a cycle: the first that fits."""
    lost = lost_update(relation, cycle)
    alone = [(a, b) for a, b in steps(cycle) if relation.kinds(a, b).by_anti_alone]
    phantom = any((lost.read if lost and (lost.a, lost.b) == (a, b) else relation.kinds(a, b).antis[0]).phantom for a, b in alone)
    if lost:
        found = "lost update"
    elif len(alone) == 1:
        found = "read skew"
    elif len(cycle) > 2 and any(not relation.changes[number] for number in cycle):
        found = "read-only anomaly"
    else:
        found = "write skew"
    return found + " phantom" * phantom


def _lines(relation: Relation, cycle: Cycle) -> Iterator[str]:
    lost = lost_update(relation, cycle)
    yield f"{name(relation, cycle)} : {' '.join(map(str, cycle))}"
    for a, b in steps(cycle):
        witness = relation.witness(a, b)
        if lost:
            witness = relation.read_text(a, lost.read, b) if a == lost.a else relation.write_text(a, lost.pair, b)
        yield f"  {a} before {b} : {witness}"


def anomalies_answer(relation: Relation, cycles: Sequence[Cycle]) -> list[str]:
    """The lines of the answer to ANOMALIES, the first one without its number and the others without their two blanks."""
    found = anomalies(relation, cycles)
    lines = [line for cycle in found for line in _lines(relation, cycle)]
    return [f"anomalies {len(found)}", *lines] if len(lines) <= 50_000 else ["E27 more than 50000 rows"]


def serial_answer(relation: Relation, cycles: Sequence[Cycle]) -> list[str]:
    """Those of the answer to SERIAL, if each transaction does the same in the serial order."""
    if cycles:
        first = cycles[0]
        return [f"cycle {len(first)}", *(f"{a} before {b} : {relation.witness(a, b)}" for a, b in steps(first))]
    order = relation.order()
    return [f"serial {len(order)}", *(str(it.number) for it in order)]
