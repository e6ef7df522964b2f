"""The arrows of a cycle. Each leads from what one transaction did to what the next one did, as its witness says, and has a letter."""

from __future__ import annotations

from collections.abc import Sequence
from dataclasses import dataclass
from typing import TYPE_CHECKING, ClassVar

from gprom.answers import Edge

from .markup import escape

if TYPE_CHECKING:
    from .history import Cycle
    from .timeline import Timeline

BOX = 80
# The height of a mark below the upper edge of its box.
MARK = 40
# How far an arrow leaves a box before it turns.
TURN = 30
# Where on the arrow its letter lies, as a part of its length.
LETTER_AT = 0.26


def letter(number: int) -> str:
    return chr(ord("a") + number - 1) if number <= 26 else str(number)


@dataclass(frozen=True)
class Place:
    """Where an arrow begins or ends: the column, the upper edge of the box, and whether it is at the mark of a statement."""

    x: float
    top: float
    mark: bool


@dataclass(frozen=True)
class Arrow:
    path: str
    letter: str

    HEAD: ClassVar[str] = (
        '<defs><marker id="head" viewBox="0 0 8 8" refX="7" refY="4" markerWidth="8" markerHeight="8" orient="auto-start-reverse" '
        'markerUnits="userSpaceOnUse"><path d="M0 0L8 4L0 8z"/></marker></defs>'
    )


@dataclass(frozen=True)
class Curve:
    """A cubic curve between two lanes, with the straight pieces inside of the boxes at its ends."""

    start: tuple[float, float]
    first: tuple[float, float]
    second: tuple[float, float]
    end: tuple[float, float]
    before: str
    behind: str

    def path(self) -> str:
        (a, b), (c, d), (e, f) = self.first, self.second, self.end
        return f"{self.before}C{a:.1f} {b:.1f} {c:.1f} {d:.1f} {e:.1f} {f:.1f}{self.behind}"

    def point(self, u: float) -> tuple[float, float]:
        def along(i: int) -> float:
            p, q, r, s = self.start[i], self.first[i], self.second[i], self.end[i]
            return (1 - u) ** 3 * p + 3 * (1 - u) ** 2 * u * q + 3 * (1 - u) * u * u * r + u**3 * s

        return along(0), along(1)


def arrows(timeline: Timeline, cycles: Sequence[Cycle]) -> list[Arrow]:
    """The arrows of all cycles. The script shows those of the chosen one, and without it all are there."""
    return [_arrow(timeline, number, edge, cycle.key, at == 0) for at, cycle in enumerate(cycles) for number, edge in enumerate(cycle.edges, 1)]


def _arrow(timeline: Timeline, number: int, edge: Edge, key: str, picked: bool) -> Arrow:
    start, end = _place(timeline, edge, edge.first), _place(timeline, edge, edge.second)
    if not start or not end:
        return Arrow("", "")
    curve = _curve(timeline.lane, start, end)
    x, y = curve.point(LETTER_AT)
    between = f'data-a="{edge.first}" data-b="{edge.second}" data-of="{key}"'
    name = "arrow picked" if picked else "arrow"
    title = escape(f"{edge.first} before {edge.second} : {edge.witness}")
    return Arrow(
        f'<path class="{name}" {between} d="{curve.path()}" marker-end="url(#head)"/>',
        f'<g class="{name}" {between}><title>{title}</title><circle cx="{x:.1f}" cy="{y:.1f}" r="9"/>'
        f'<text x="{x:.1f}" y="{y + 4:.1f}">{letter(number)}</text></g>',
    )


def _place(timeline: Timeline, edge: Edge, number: int) -> Place | None:
    """At the statement that the witness names, else at the COMMIT."""
    it = timeline.boxes.get(number)
    if it is None:
        return None
    if edge.reader == number and 1 <= edge.statement <= len(it.statements):
        return Place(timeline.x(it.statements[edge.statement - 1].line), timeline.y(it), True)
    return Place(timeline.x(it.end_line), timeline.y(it), False) if it.end_line else None


def _curve(lane: int, start: Place, end: Place) -> Curve:
    """Between boxes it is a curve, and in a box a straight piece between the mark and an edge.

    The curve stays in the space beside the lane that it leaves, and goes straight to a lane farther off. In one lane it runs below.
    """
    same, down = start.top == end.top, end.top >= start.top
    y1 = start.top + (BOX if down else 0)
    y2 = end.top + (BOX if start.top >= end.top else 0)
    before = f"M{start.x:.1f} {start.top + MARK:.1f}L{start.x:.1f} {y1:.1f}" if start.mark and not down else f"M{start.x:.1f} {y1:.1f}"
    behind = f"L{end.x:.1f} {end.top + MARK:.1f}" if end.mark and start.top < end.top else ""
    bend = y1 if same else y1 + (lane - BOX if down else BOX - lane)
    if bend != y2 and not same:
        behind = f"L{end.x:.1f} {y2:.1f}" + behind
    # The two arrows of a pair turn at other heights, so that they cross rather than lie on each other.
    turn = TURN if down else -TURN
    return Curve((start.x, y1), (start.x, y1 + turn), (end.x, y1 + turn if same else bend - turn), (end.x, bend), before, behind)
