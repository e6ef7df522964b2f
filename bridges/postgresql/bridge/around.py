"""A window around the writes of a row: what ran before and after them, as far as there is room."""
from collections import deque
from collections.abc import Callable, Iterable

from . import UserError, keys, times
from .csvlog import HALF
from .fold import Fold, rows_of
from .history import SLACK
from .lights import LATE, Grown, Light, Source
from .schema import Table
from .script import STATEMENTS, TRANSACTIONS
from .slots import Slot, Span
from .window import NEAR, Asked, Room, Window

KEPT = 4 * TRANSACTIONS  # transactions before an incident that are kept while the log is read
Say = Callable[[str], None]


class Incident:
    """The transactions that wrote a row, and those that ran near them."""

    def __init__(self, asked: Asked, source: Source, slot: Slot, tables: dict[str, Table], say: Say) -> None:
        self.source, self.slot, self.tables, self.say = source, slot, tables, say
        self.want = keys.wanted(asked.around, tables, slot)
        say(f'looking for {self.want.text} in the slot')
        self.best, self.before, self.near, goes_on = nearest(slot, tables, self.want, asked.at)
        self.early = times.to_seconds(self.near[0].time) if self.near[0].at else float('-inf')      # the bounds of the commits that are near
        self.late = times.to_seconds(self.near[-1].time) if goes_on else float('inf')
        say('reading the log around it')
        self.read(self.near[0].time)
        if not self.near[0].at and self.low < times.to_seconds(self.near[0].time):
            self.read(times.to_text(self.low))

    def read(self, begin: str) -> None:
        """Reads the log from a time on, and finds the transactions that wrote the row in it."""
        wrote = {span.xid for span in (self.before, self.best) if span}
        at = times.to_seconds(self.best.time)
        self.lights = beside(self.source.transactions(begin, self.near[-1].time), wrote, at)
        self.core = [*self.writer_of(self.best), *self.writer_before()]
        for light in self.core:
            if not light.begun and light.parts:       # its first records were not read
                light.start = min(light.start, self.source.begin_of(light))
        self.low = min(light.start for light in self.core)
        self.high = max(at, *(light.end + HALF for light in self.core))

    def writer_of(self, span: Span) -> list[Light]:
        """The transaction of a commit. The record of a statement outside of a block has no xid: then all that may have made it."""
        at = times.to_seconds(span.time)
        named = [light for light in self.lights if light.xid == span.xid]
        running = [light for light in self.lights if light.start - HALF <= at <= light.end + SLACK and light.xid == '0']
        return named or [light for light in running if light.is_alone] or running or [Light(at - SLACK, 0, end=at)]

    def writer_before(self) -> list[Light]:
        """The transaction that wrote the row before, if it is near, or was committed after the other one began."""
        before = self.before
        if before is None:
            return []
        if before.at >= self.near[0].at:
            return [light for light in self.lights if light.xid == before.xid]
        if times.to_seconds(before.time) <= min(light.start for light in self.writer_of(self.best)):
            return []
        found = [light for light, is_new, _ in self.source.transactions(before.time, before.time) if is_new]
        return [light for light in found if light.xid == before.xid]

    # Its window

    def window(self, room: Room) -> Window:
        """The transactions of the incident, and as many before and after it as there is room for; or with others folded, if these are too many."""
        inside = [light for light in self.lights if self.low <= light.start <= self.high]
        statements = room.statements - sum(light.statements for light in inside)
        if self.low < self.early or statements < 0 or len(inside) > room.transactions:
            return self.folded(room)
        low, high = self.filled(statements, room.transactions - len(inside))
        since = max(low - SLACK, self.early)
        return Window(low, high, [light for light in self.lights if light.start <= high + 2 * HALF and light.end + HALF >= since],
                      since=since, near=self.near)

    def filled(self, statements: int, transactions: int) -> tuple[float, float]:
        """Begin and end of a window that has so many more, by turns from before and from after the incident."""
        low, high, turn = self.low, self.high, 0
        order = sorted(self.lights, key=lambda light: light.start)
        sides = [deque(light for light in reversed(order) if self.early <= light.start < low), deque(light for light in order if high < light.start <= self.late)]
        while any(sides) and transactions > 0:
            light = (sides[turn % 2] or sides[(turn + 1) % 2]).popleft()
            if light.statements > statements:
                break
            statements, transactions, turn = statements - light.statements, transactions - 1, turn + 1
            low, high = min(low, light.start), max(high, light.start)
        return low, high

    def folded(self, room: Room) -> Window:
        """The window of an incident that is too long for all that ran meanwhile."""
        xids = {light.xid for light in self.core}
        spans = [span for span in (self.before, self.best) if span and span.xid in xids] or [self.best]
        commits = [self.slot.commit(span, self.tables) for span in spans]
        meant = rows_of(self.tables, [(self.want.table.name, old, new) for commit in commits for old, new in self.want.changes(commit)])
        wrote = rows_of(self.tables, [change for commit in commits for change in commit.changes])
        fold = Fold(self.source, self.slot, self.tables, self.say, (room.statements, room.transactions))
        high = max(self.high, *(commit.time for commit in commits))
        found = fold.make(self.low, high, {span.xid for span in spans}, meant, wrote)
        return Window(self.low, high, found.lights, found.commits, found.first, since=float('inf'), earlier=found.earlier, folded=found)


def beside(pairs: Iterable[Grown], xids: set[str], middle: float) -> list[Light]:
    """The transactions near a time: as many before it as a window may have, with those that have these xids, and after it."""
    kept: deque[Light] = deque()
    held: list[Light] = []
    after = statements = 0
    stop = float('inf')                               # when there are enough; records that stand out of order come a little later
    for light, is_new, more in pairs:
        if light.parts and light.start > stop:
            if light.start > stop + LATE:
                break
            continue
        if is_new:
            kept.append(light)
        if light.start > middle:
            after, statements = after + is_new, statements + more
            if after > TRANSACTIONS or statements > STATEMENTS:
                stop = min(stop, light.start)
        while len(kept) > KEPT and stop == float('inf'):
            gone = kept.popleft()
            if gone.xid in xids or not gone.ended:
                held.append(gone)
    return [*held, *kept]


def nearest(slot: Slot, tables: dict[str, Table], want: keys.Wanted, at: str) -> tuple[Span, Span | None, list[Span], bool]:
    """The span that is meant by a row, the one that wrote the row before it, the spans near it, and whether others come behind them."""
    at = times.canonical(at) if at else ''
    best: Span | None = None
    before: Span | None = None
    last: Span | None = None
    recent: deque[Span] = deque(maxlen=NEAR)
    near: list[Span] = []
    goes_on = False
    for span in slot.spans():
        recent.append(span)
        wrote = (want.needle or b'') in span.text and bool(want.changes(slot.commit(span, tables)))
        if wrote and is_meant(span, best, want.xid, at):
            best, before, near, goes_on = span, last, list(recent), False
        elif best is not None and span.at <= best.at + NEAR:
            near.append(span)
        elif best is not None:
            goes_on = True
            if want.xid:
                break
        last = span if wrote else last
    if best is None:
        raise UserError(f'the slot has no transaction that wrote {want.text}')
    return best, before, near, goes_on


def is_meant(span: Span, best: Span | None, xid: str, at: str) -> bool:
    """Whether a span that wrote the row is the one with an xid, or nearer to a time than the best so far; without both the last one is meant."""
    if xid:
        return span.xid == xid
    return best is None or not at or closer(span.time, best.time, at)


def closer(one: str, other: str, at: str) -> bool:
    return abs(times.to_seconds(one) - times.to_seconds(at)) < abs(times.to_seconds(other) - times.to_seconds(at))
