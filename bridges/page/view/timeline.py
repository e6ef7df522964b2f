"""The timeline as SVG: a lane for each session, a box for each transaction, a mark for each statement, a line for each version."""

from __future__ import annotations

import math

from .arrows import Arrow, arrows
from .history import History, Statement, Transaction
from .markup import count, escape, shortened, sign

LEFT, TOP, BOX = 8, 44, 80
# The names of the lanes are a picture of their own, which stays in place when the lanes are scrolled. Those of users make it wider.
NAMES, MOST_NAMES, LETTER = 58, 150, 7.2
# The least width of the lanes, that of the page, so that a short history fills it.
LEAST_WIDTH = 1052
LEVELS = {"SNAPSHOT": "SI", "READ COMMITTED": "RC"}


def _at(value: float) -> str:
    return f"{value:.1f}".removesuffix(".0")


class Timeline:
    """Where everything lies, and how it is drawn. One column for each line of the script that a shown transaction has."""

    def __init__(self, history: History):
        self.history, self.shown = history, history.shown
        # Arrows need room between the lanes.
        self.lane = 126 if history.cycles else 100
        self.sessions = sorted({it.listed.session for it in self.shown})
        self.users = {session: history.people.sessions.get(session, "") for session in self.sessions}
        self.names = math.ceil(min(MOST_NAMES, max(NAMES, 24 + LETTER * max(map(len, self.users.values()), default=0))))
        self.boxes = {it.number: it for it in self.shown}
        self.marked = set(history.cycles[0].transactions) if history.cycles else set[int]()
        lines = sorted({line for it in self.shown for line in _lines(it)})
        longest = max((len(f"{it.number}.{len(it.statements)}") for it in self.shown), default=0)
        self.step = max(28, 6.6 * longest + 5, min(92, (LEAST_WIDTH - LEFT - 20) / max(1, len(lines))))
        self.gaps: list[float] = []
        self.columns = self._place(lines)
        self.width = max(LEAST_WIDTH, math.ceil(LEFT + (max(self.columns.values(), default=0) + 1) * self.step + 20))
        self.bottom = TOP + self.lane * len(self.sessions)
        self.height = self.bottom + 28

    def _place(self, lines: list[int]) -> dict[int, float]:
        """The column of each line. Where transactions behind the cut began there is a gap of one column."""
        shown = {it.number for it in self.shown}
        hidden = sorted(it.begin_line for it in self.history.transactions if it.number not in shown)
        columns: dict[int, float] = {}
        at = seen = 0
        for line in lines:
            before = seen
            while seen < len(hidden) and hidden[seen] < line:
                seen += 1
            if seen > before:
                self.gaps.append(at)
                at += 1
            columns[line] = at
            at += 1
        return columns

    def x(self, line: int) -> float:
        return LEFT + (self.columns[line] + 0.5) * self.step

    def y(self, transaction: Transaction) -> float:
        """The upper edge of its box."""
        return TOP + self.lane * self.sessions.index(transaction.listed.session) + (self.lane - BOX) / 2

    def ends(self, transaction: Transaction) -> tuple[float, float]:
        """The left and the right edge of its box. The least one has BEGIN and its end side by side."""
        left = self.x(transaction.begin_line) - self.step * 0.42
        return left, self.width - 12 if transaction.end_line is None else self.x(transaction.end_line) + self.step * 0.42

    def draw(self) -> str:
        """Both pictures, from back to front: lanes, versions, boxes, arrows, writing, letters. So no arrow hides a number."""
        drawn = arrows(self, self.history.cycles)
        out = [self._names(), self._open(), self._lanes(0, self.width), self._gaps(), *map(self._version, self.shown), self._ticks()]
        out += map(self._back, self.shown)
        out += [arrow.path for arrow in drawn]
        out += map(self._session, self.sessions)
        out += [arrow.letter for arrow in drawn]
        return "".join(out) + "</svg>"

    def _open(self) -> str:
        label = "Transactions by lines of the script, one list for each session"
        return (
            f'<svg id="lanes" style="--wide: {self.width}" width="{self.width}" height="{self.height}" viewBox="0 0 {self.width} {self.height}" '
            f'data-left="{LEFT}" data-step="{self.step:.3f}" role="group" aria-label="{label}">'
            f"{Arrow.HEAD}"
        )

    def _lanes(self, left: float, width: float) -> str:
        return "".join(
            f'<rect class="lane" x="{_at(left)}" y="{_at(TOP + self.lane * at + 4)}" width="{_at(width)}" height="{self.lane - 8}"/>'
            for at in range(len(self.sessions))
        )

    def _names(self) -> str:
        words = "".join(
            f'<text class="session" x="12" y="{_at(TOP + self.lane * (at + 0.5) + 5)}">s{session}</text>{self._user(session, TOP + self.lane * (at + 0.5) + 22)}'
            for at, session in enumerate(self.sessions)
        )
        return (
            f'<svg id="names" style="--wide: {self.names}" width="{self.names}" height="{self.height}" viewBox="0 0 {self.names} {self.height}" aria-hidden="true">'
            f'{self._lanes(0, self.names)}'
            f'{words}<text class="axis" x="12" y="{TOP - 20}">version</text><text class="axis" x="12" y="{self.bottom + 18}">line</text></svg>'
        )

    def _user(self, session: int, y: float) -> str:
        """The one user of a session, as far as there is room."""
        user, most = self.users[session], int((self.names - 24) / LETTER)
        short = user if len(user) <= most else user[: most - 1] + "…"
        return f'<text class="user" x="12" y="{_at(y)}"><title>{escape(user)}</title>{escape(short)}</text>' if user else ""

    def _gaps(self) -> str:
        return "".join(
            f'<g class="gap"><title>Transactions that are cut</title><rect x="{_at(LEFT + at * self.step + 4)}" y="{TOP}" '
            f'width="{_at(self.step - 8)}" height="{self.bottom - TOP}"/><text x="{_at(LEFT + (at + 0.5) * self.step)}" y="{TOP - 6}">cut</text></g>'
            for at in self.gaps
        )

    def _version(self, it: Transaction) -> str:
        if it.version is None or it.end_line is None:
            return ""
        x = _at(self.x(it.end_line))
        title = f"version {it.version}, made by transaction {it.number} in line {it.end_line}"
        return (
            f'<g class="version" data-v="{it.version}"><title>{title}</title><line x1="{x}" y1="{TOP - 14}" x2="{x}" y2="{self.bottom}"/>'
            f'<text x="{x}" y="{TOP - 20}">v{it.version}</text></g>'
        )

    def _ticks(self) -> str:
        """The lines of the script, as many as have room."""
        every = math.ceil(54 / self.step)
        return "".join(
            f'<text class="axis tick" x="{_at(self.x(line))}" y="{self.bottom + 18}">{line}</text>'
            for at, line in enumerate(self.columns)
            if at % every == 0
        )

    def _back(self, it: Transaction) -> str:
        left, right = self.ends(it)
        return (
            f'<rect class="box {it.kind}{" of" if it.number in self.marked else ""}" data-t="{it.number}" x="{_at(left)}" y="{_at(self.y(it))}" width="{_at(right - left)}" '
            f'height="{BOX}" rx="5"/>'
        )

    def _session(self, session: int) -> str:
        boxes = "".join(f'<g role="listitem">{self._box(it)}</g>' for it in self.shown if it.listed.session == session)
        user = f", {escape(self.users[session])}" if self.users[session] else ""
        return f'<g role="list" class="session" aria-label="session {session}{user}">{boxes}</g>'

    def _box(self, it: Transaction) -> str:
        """What is written in a box, and the link that it is."""
        left, right = self.ends(it)
        top, width = self.y(it), right - left
        fate = sign(it.kind, it.version, it.listed.became)
        level = it.listed.level if width > 122 else LEVELS[it.listed.level]
        short = fate if width > 34 + 7.4 * len(fate) else fate.split()[0]
        person = self.history.person(it.number)
        who = f"; {escape(person.whole)}" if person else ""
        label = f"transaction {it.number}, {it.listed.level}, begun at version {it.listed.begin}, {count(len(it.statements), 'statement')}, {it.listed.became}"
        return (
            f'<a href="#t{it.number}" class="tx {it.kind}" data-t="{it.number}" aria-label="{label}"><title>{label}{who}</title>'
            f'<rect class="hit" x="{_at(left)}" y="{_at(top)}" width="{_at(width)}" height="{BOX}" rx="5"/>'
            f'<text class="name" x="{_at(left + 7)}" y="{_at(top + 17)}">{it.number} <tspan class="fate">{short}</tspan></text>'
            f'<text class="level" x="{_at(left + 7)}" y="{_at(top + 31)}">{level}</text>'
            f"{''.join(self._mark(statement, top) for statement in it.statements)}</a>"
        )

    def _mark(self, statement: Statement, top: float) -> str:
        x = _at(self.x(statement.line))
        return (
            f'<g class="mark" data-k="{statement.number}"><title>{statement.name}, line {statement.line}: {escape(shortened(statement.text))}</title>'
            f'<circle cx="{x}" cy="{_at(top + 49)}" r="8"/><text class="kind" x="{x}" y="{_at(top + 52.6)}">{escape(statement.text[:1])}</text>'
            f'<text class="number" x="{x}" y="{_at(top + 71)}">{statement.name}</text></g>'
        )


def _lines(it: Transaction) -> list[int]:
    lines = [it.begin_line, *(statement.line for statement in it.statements)]
    return lines if it.end_line is None else [*lines, it.end_line]
