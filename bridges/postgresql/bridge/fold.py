"""Folding: an incident that lasts longer than a window may be is taken without the transactions beside it.

Kept are the transactions that make the incident, and those that write or may read rows that it writes. All others are folded: of what they
leave behind, the rows that a kept transaction writes are brought to their values where it needs them, by transactions of their own. Such a
change is that of many commits at once, so it stands where none of the kept statements could have seen a part of it.
"""
from bisect import bisect_left, bisect_right
from collections import defaultdict
from collections.abc import Callable, Iterable, Iterator
from dataclasses import dataclass, field
from typing import Any, NamedTuple

from . import times
from .decoding import Commit
from .reads import Readers
from .schema import Table
from .slots import Slot, Span
from .words import counted

SLACK = 0.005                     # seconds by which a time of the log may be off
BESIDE = 64                       # commits among which the times may not stand in order
REPORT = 20_000                   # transactions of the log after which it is told how far it is
CORE, WRITES, READS, BESIDE_IT, UNTOUCHED = range(5)              # how near a transaction is to the incident
CONTROL = ('SET', 'RESET', 'DISCARD', 'DISCARD ALL')              # tags of records that matter to what comes later in their session
Row = tuple[str, tuple[Any, ...]]                                 # a table and a key
Interval = tuple[float, float]


class Change(NamedTuple):
    """A change of a row by a commit of the slot."""
    at: int                       # how many commits stand before it
    time: float
    xid: str
    old: tuple[Any, ...] | None
    new: tuple[Any, ...] | None


@dataclass
class Need:
    """A kept statement: when it ran, the tables that it names, and the rows that it may read."""
    begin: float
    end: float
    tables: set[str]
    reads: list[Any]


@dataclass
class Chosen:
    """A transaction of the log that may be kept."""
    light: Any
    rank: int = UNTOUCHED
    needs: list[Need] = field(default_factory=list)


@dataclass
class Entry:
    """What folded transactions leave behind of a row, and where a kept statement needs it."""
    row: Row
    first: Change
    last: Change
    before: float = float('inf')  # the time, and the place of a commit, that it has to stand before
    place: int = 1 << 62
    alone: bool = False


@dataclass
class Folded:
    """What a window has of an incident, where others are folded."""
    lights: list[Any]
    commits: list[Commit]
    first: int
    earlier: list[str]
    count: int                    # how many commits are folded
    near: int                     # of these: those that write rows of the incident and found no room


class Finder:
    """Finds the changes of some rows in the text of a slot, most of which it does not parse."""

    def __init__(self, slot: Slot, tables: dict[str, Table], rows: set[Row]) -> None:
        self.slot, self.tables, self.rows = slot, tables, rows
        self.heads = slot.heads_of(tables, sorted({name for name, _ in rows}))

    def changes(self, span: Span) -> Iterator[tuple[str, Any, Any]]:
        """(table, old row, new row) of the changes of lines that may write one of the rows."""
        if not self.slot.can_replay_lines(span.text):
            yield from self.slot.commit(span, self.tables).changes
            return
        for line in span.text.split(b'\n'):
            start, _ = self.slot.line(line)
            name, pattern = self.heads.get(start, ('', None))
            if not name:
                continue
            if pattern is not None:
                old, new = self.slot.old_and_new(pattern.findall(line))
                if (name, (int(old),)) not in self.rows and (name, (int(new),)) not in self.rows:
                    continue
            commit = Commit('', 0.0)
            self.slot.fill_line(commit, line, self.tables)
            yield from commit.changes

    def of(self, span: Span) -> Iterator[tuple[Row, Any, Any]]:
        """(row, its cells before or None, its cells behind or None) of the rows. A change of a key is two."""
        for name, old, new in self.changes(span):
            table = self.tables[name]
            one, other = (None if cells is None else (name, table.key_of(cells)) for cells in (old, new))
            if one == other and one in self.rows:
                yield one, old, new
                continue
            if one in self.rows:
                yield one, old, None
            if other in self.rows:
                yield other, None, new


def rows_of(tables: dict[str, Table], changes: Iterable[tuple[str, Any, Any]]) -> set[Row]:
    """The rows of tables with a key that are written."""
    return {(name, tables[name].key_of(cells)) for name, old, new in changes if tables[name].key for cells in (old, new) if cells is not None}


class Fold:
    """Chooses the transactions to keep, and makes commits of the others."""

    def __init__(self, source: Any, slot: Slot, tables: dict[str, Table], say: Callable[[str], None], most: tuple[int, int]) -> None:
        self.source, self.slot, self.tables, self.say = source, slot, tables, say
        self.statements, self.transactions = most
        self.readers = Readers(tables)

    def make(self, low: float, high: float, core: set[str], meant: set[Row], wrote: set[Row]) -> Folded:
        """The window of an incident between two times: of the transactions with the xids `core`, which wrote `wrote`, among it the rows that are meant."""
        self.meant, self.wrote, self.core = meant, wrote, core
        self.spans = list(self.between(low, high))
        ranks = self.writers()
        chosen = self.nearest_first(self.of_log(low, high, ranks), low, high)
        always = self.always(ranks, chosen)
        kept, xids, commits = self.fitting(self.within(chosen, self.statements, self.transactions), always)
        near = sum(rank < UNTOUCHED and xid not in xids for xid, rank in ranks.items())
        return Folded([one.light for one in kept], commits, self.spans[0].at if self.spans else 0, self.earlier, len(self.spans) - len(xids), near)

    @staticmethod
    def nearest_first(chosen: list[Chosen], low: float, high: float) -> list[Chosen]:
        """Those that touch the incident more before others, and of these the nearest in time."""
        middles = [t for one in chosen if one.rank == CORE for t in (one.light.start, one.light.end)] or [low, high]
        return sorted(chosen, key=lambda one: (one.rank, min(abs(one.light.start - t) for t in middles)))

    def always(self, ranks: dict[str, int], chosen: list[Chosen]) -> set[str]:
        """The xids that are kept in any case: those of the incident, and those that write rows of it and have no record in the log, or one without an xid."""
        unlogged = {xid for xid, rank in ranks.items() if rank == WRITES} - {one.light.xid for one in chosen}
        return (self.core | unlogged if len(unlogged) < self.transactions // 2 else self.core) & self.places.keys()

    def fitting(self, kept: list[Chosen], always: set[str]) -> tuple[list[Chosen], set[str], list[Commit]]:
        """As many of the first transactions as fit with what stands for the others; the xids of all that are kept, and the commits."""
        changes = self.changes({one.light.xid for one in kept} | always)
        while True:
            xids = {one.light.xid for one in kept if one.light.xid in self.places} | always
            commits = self.commits(kept, xids, {row: found for row, found in changes.items() if any(change.xid in xids for change in found)})
            folds = [commit for commit in commits if commit.folded]
            statements = sum(one.light.statements for one in kept) + sum(len(commit.changes) for commit in folds)
            if statements <= self.statements and len(kept) + len(folds) <= self.transactions or len(kept) <= len(self.core):
                return kept, xids, commits
            kept = kept[:max(len(self.core), len(kept) * 3 // 4)]

    @staticmethod
    def within(chosen: list[Chosen], statements: int, transactions: int) -> list[Chosen]:
        """The first ones, as far as there is room."""
        kept: list[Chosen] = []
        for one in chosen:
            statements -= one.light.statements
            if one.rank != CORE and (statements < 0 or len(kept) >= transactions):
                break
            kept.append(one)
        return kept

    # The slot

    def between(self, low: float, high: float) -> Iterator[Span]:
        """The spans between two times, from the slack before. Those before it are noted."""
        begin, end = times.to_text(low - SLACK).encode(), times.to_text(high + 1e-6).encode()
        self.earlier: list[str] = []
        recent: list[Span] = []
        late = 0
        for span in self.slot.spans():
            if not self.earlier and not late and recent is not None and span.is_before(begin):
                recent.append(span)
                if len(recent) > 4000:
                    del recent[:2000]
                continue
            if recent:
                self.earlier, recent = [one.xid for one in recent[-2000:]], []
            late = 0 if span.is_before(end) else late + 1
            if late > BESIDE:
                return
            if late == 0:
                yield span

    def writers(self) -> dict[str, int]:
        """xid -> how near its transaction is to the incident, of those that write rows of it. Notes where each commit stands."""
        self.say(f'reading {len(self.spans)} commits beside the incident')
        finder, ranks = Finder(self.slot, self.tables, self.wrote), dict.fromkeys(self.core, CORE)
        self.places = {span.xid: place for place, span in enumerate(self.spans)}
        self.times: list[float] = []
        for span in self.spans:
            self.times.append(max(times.to_seconds(span.time), self.times[-1] if self.times else 0.0))
            rows = {row for row, _, _ in finder.of(span)}
            if span.xid not in self.core and (rows or self.empties(span)):
                ranks[span.xid] = WRITES if rows & self.meant or not rows else BESIDE_IT
        return ranks

    def empties(self, span: Span) -> bool:
        """Whether a transaction empties a table of the incident, whose rows the slot then does not show."""
        if self.slot.can_replay_lines(span.text):
            return False
        return bool(self.slot.commit(span, self.tables).emptied & {name for name, _ in self.wrote})

    def changes(self, xids: set[str]) -> dict[Row, list[Change]]:
        """The changes of all rows that some transactions write, in the order of the slot."""
        mine = [change for span in self.spans if span.xid in xids for change in self.slot.commit(span, self.tables).changes]
        rows = rows_of(self.tables, mine)
        found: dict[Row, list[Change]] = defaultdict(list)
        finder = Finder(self.slot, self.tables, rows)
        for place, span in enumerate(self.spans):
            for row, old, new in finder.of(span):
                found[row].append(Change(place, self.times[place], span.xid, old, new))
        return found

    # The log

    def of_log(self, low: float, high: float, ranks: dict[str, int]) -> list[Chosen]:
        """The transactions that began between two times and touch the incident. Of the others nothing is kept."""
        found: dict[int, Chosen] = {}
        count = 0
        for light, is_new, _ in self.source.transactions(times.to_text(low), times.to_text(high)):
            if light.start > high + 2 * SLACK:
                continue
            if is_new:
                found[id(light)] = Chosen(light)
                count += 1
                if count % REPORT == 0:
                    self.say(f'{count} transactions of the log are read, {len(found)} touch the incident')
            one = found.get(id(light))
            if one is None:
                continue
            self.look(one, ranks)
            if light.ended and one.rank == UNTOUCHED:
                light.parts.clear()
                del found[id(light)]
        return [one for one in found.values() if one.rank < UNTOUCHED and one.light.end >= low - SLACK]

    def look(self, one: Chosen, ranks: dict[str, int]) -> None:
        """Gives a transaction the rank of what it has run last, if it is a nearer one."""
        one.rank = min(one.rank, ranks.get(one.light.xid, UNTOUCHED))
        for begin, end, text, parameters, tag in self.source.newest(one.light):
            if tag in CONTROL:
                one.rank = min(one.rank, READS)
                continue
            reads, names = self.readers.of(text, parameters)
            if names:
                one.needs.append(Need(begin, end, names, reads))
            for name, key in reads:
                if any(name == table and key in (None, at) for table, at in self.meant):
                    one.rank = min(one.rank, READS)
                elif any(name == table and key in (None, at) for table, at in self.wrote):
                    one.rank = min(one.rank, BESIDE_IT)

    # Commits

    def commits(self, kept: list[Chosen], xids: set[str], changes: dict[Row, list[Change]]) -> list[Commit]:
        """The commits of kept transactions, and those that stand for the others."""
        needs = self.needs(kept, changes)
        made = [entry for row, found in changes.items() for entry in entries(row, found, xids, needs.get(row, []))]
        folded = [place for place, span in enumerate(self.spans) if span.xid not in xids]
        placed: dict[int, list[Entry]] = defaultdict(list)
        for place, entry in self.placed(made, folded):
            placed[place].append(entry)
        found, since = [], 0
        for place, span in enumerate(self.spans):
            if span.xid in xids:
                found.append(self.slot.commit(span, self.tables))
            elif place in placed:
                others = [other.xid for other in self.spans[since:place + 1] if other.xid not in xids]
                found.append(self.standing_for(others, span, self.times[place], placed[place]))
                since = place + 1
        return found

    @staticmethod
    def standing_for(others: list[str], span: Span, time: float, made: list[Entry]) -> Commit:
        """The commit that stands for others, the last of which is that of a span."""
        commit = Commit(span.xid, time, folded=f'{counted(len(others), "transaction")}, xid {others[0]} to {others[-1]}')
        commit.changes = [(entry.row[0], entry.first.old, entry.last.new) for entry in made]
        commit.tables = {entry.row[0] for entry in made}
        return commit

    def placed(self, made: list[Entry], folded: list[int]) -> Iterator[tuple[int, Entry]]:
        """(place of a folded commit, entry). As many entries as can stand at one place do."""
        yield from ((entry.last.at, entry) for entry in made if entry.alone)
        point = -1
        latest = {id(entry): min(entry.place, bisect_left(self.times, entry.before)) for entry in made}
        for entry in sorted((entry for entry in made if not entry.alone), key=lambda entry: latest[id(entry)]):
            if entry.last.at > point:
                point = folded[bisect_left(folded, latest[id(entry)]) - 1]
            yield point, entry

    def needs(self, kept: list[Chosen], changes: dict[Row, list[Change]]) -> dict[Row, list[Interval]]:
        """When kept statements need each row: what their transaction writes of the tables that they name, and what they may read."""
        of_xid: dict[str, set[Row]] = defaultdict(set)
        of_table: dict[str, set[Row]] = defaultdict(set)
        for row, found in changes.items():
            of_table[row[0]].add(row)
            for change in found:
                of_xid[change.xid].add(row)
        needed: dict[Row, list[Interval]] = defaultdict(list)
        for one in kept:
            names = {name for need in one.needs for name in need.tables}
            for need in one.needs:
                rows = {row for row in of_xid.get(one.light.xid, ()) if row[0] in need.tables or row[0] not in names}
                for name, key in need.reads:
                    rows |= of_table[name] if key is None else {(name, key)} & of_table[name]
                for row in rows:
                    needed[row].append((need.begin - SLACK, need.end + SLACK))
        return {row: joined(found) for row, found in needed.items()}


def joined(intervals: list[Interval]) -> list[Interval]:
    """Intervals in their order, those that overlap as one."""
    found: list[Interval] = []
    for begin, end in sorted(intervals):
        if found and begin <= found[-1][1]:
            found[-1] = found[-1][0], max(end, found[-1][1])
        else:
            found.append((begin, end))
    return found


def entries(row: Row, changes: list[Change], xids: set[str], needed: list[Interval]) -> Iterator[Entry]:
    """What stands for the folded changes of a row: those that no kept statement can tell apart as one, if it is needed at all."""
    begins = [begin for begin, _ in needed]
    pending: Entry | None = None
    for change in changes:
        if change.xid in xids:
            if pending:
                pending.place = change.at
                yield from closed(pending, begins)
            pending = None
            continue
        at = bisect_right(begins, change.time)
        if pending and at > bisect_right(begins, pending.last.time):
            yield from closed(pending, begins)
            pending = None
        if at and change.time <= needed[at - 1][1]:
            if pending:
                yield from closed(pending, begins)
                pending = None
            yield Entry(row, change, change, alone=True)
        elif pending:
            pending.last = change
        else:
            pending = Entry(row, change, change)
    if pending and bisect_right(begins, pending.last.time) < len(begins):
        yield from closed(pending, begins)


def closed(entry: Entry, begins: list[float]) -> Iterator[Entry]:
    """An entry that stands before what needs it next; none where nothing changed."""
    at = bisect_right(begins, entry.last.time)
    entry.before = begins[at] if at < len(begins) else float('inf')
    if entry.first.old != entry.last.new:
        yield entry
