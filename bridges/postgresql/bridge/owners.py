"""Which transaction made a commit whose xid is in no record of the log.

The record of a statement that is a transaction by itself is written behind its commit, and then has no xid. Such a commit may be that of each
session that ran a statement then. What tells them apart: the record was written behind the commit, and its statement began before it; the
statement writes the row images; `now()` among them is the time at which it began; and the commits of a session stand in the order of its
statements, each of which commits once, but for a CALL or a DO.

All of this is asked of the commits together: `Owners` gives them transactions in the cheapest way, where a cost is a sign that something is
wrong. If the cheapest ways differ in who made a commit, nothing tells, and the transactions that may have made it are in doubt.
"""
from collections import defaultdict, deque
from collections.abc import Iterable
from dataclasses import dataclass, replace
from itertools import accumulate
from typing import Any

from .csvlog import HALF
from .decoding import Commit
from .evaluate import changes
from .fits import of_statement
from .history import SLACK
from .places import Search
from .schema import Table
from .steps import Step, Transaction, reaction
from .times import to_seconds
from .versions import Versions

LATE = 0.0003          # seconds that a server may take from the duration of a message to the time of its record, without being held up
NARROWED, HELD_UP, WEAK, UNSEEN = 1, 1, 3, 4            # costs: narrowed or set off something, a record late, other rows, by a built-in function
UNUSED, UNLOGGED = 10, 20                               # a statement that writes made no commit; a commit without a record
Place = tuple[int, ...]                                 # how far each session is in its transactions
Choice = tuple[Transaction | None, int]                 # a transaction that a commit may be given, and what speaks against it
Edge = tuple[Place, Place, Transaction | None, int]     # from where to where a commit leads, as that of a transaction, and the cost
STATES, MARGIN, SURE = 200, 6, 50       # how many States are followed, and how much worse than the best; how many versions are tried to find out that a statement writes


@dataclass
class State:
    """A way to give the commits so far their transactions, the cheapest of those that go on alike."""
    cost: float
    far: float                      # how far the records are from their commits, which decides among equal costs
    before: 'State | None' = None   # the State before it
    owner: Transaction | None = None        # of the last commit

    def worth(self) -> tuple[float, float]:
        return self.cost, self.far


class Queue:
    """The transactions of a session that may have a commit, in order."""

    def __init__(self, last: list[int], known: Iterable[bool], writes: Iterable[bool]) -> None:
        self.last, self.ends = last, set(last)        # the last commits that may be theirs
        self.known = list(accumulate(known, initial=0))
        self.writing = list(accumulate(writes, initial=0))

    def unused(self, first: int, own: int) -> int | None:
        """How many transactions that surely wrote are left without a commit, from one on to another one. None if that is no way to go on."""
        return None if own < first or self.known[own] > self.known[first] else self.writing[own] - self.writing[first]

    def passed(self, first: int, at: int) -> tuple[int, int]:
        """The first transaction, from one on, that may make a commit from `at` on; and how many before it surely wrote."""
        there = first
        while there < len(self.last) and self.last[there] < at:
            there += 1
        return there, self.writing[there] - self.writing[first]


class Owners:
    """`find` gives transactions their commits. Those with an xid have them before.

    All commits between the times `since` and `until` are known. A statement that ran across one of them may have committed beside them.
    """

    def __init__(self, tables: dict[str, Table], start: dict[str, list[Any]], transactions: list[Transaction], commits: list[Commit],
                 since: float = float('-inf'), until: float = float('inf')) -> None:
        self.tables, self.transactions, self.commits, self.since, self.until = tables, transactions, commits, since, until
        self.versions = Versions(tables, start)
        self.times: list[float] = []
        self.known = {t.commit: t for t in transactions if t.commit is not None}
        self.ways: dict[int, list[tuple[Transaction, int]]] = {}          # commit -> [(transaction, cost)]
        self.edges: list[list[Edge]] = []
        self.unnamed = [t for t in transactions if is_unnamed(t)]

    def find(self) -> None:
        if not self.unnamed or not self.look():
            return
        queues: dict[str, list[Transaction]] = defaultdict(list)          # the transactions of each session that may have a commit, in order
        for transaction in self.transactions:
            if transaction.commit is not None or is_unnamed(transaction):
                queues[transaction.session].append(transaction)
        last: dict[int, int] = {}                     # transaction -> the last commit that may be its own
        for at in range(len(self.commits)):
            last |= {id(owner): at for owner, _ in self.choices(at) if owner is not None}
        self.queues = [Queue([last.get(id(t), -1) for t in queue], [t.commit is not None for t in queue], [self.surely_writes(t) for t in queue])
                       for queue in queues.values()]
        self.places = {id(t): (number, at) for number, queue in enumerate(queues.values()) for at, t in enumerate(queue)}
        self.choose(self.layers())

    # What each may have made

    def look(self) -> bool:
        """Finds the transactions that may have made each commit without a name. False if there is no such commit."""
        for at, commit in enumerate(self.commits):
            self.times.append(max(commit.time, self.times[-1] if self.times else 0.0))
            self.versions.expand(commit)
            if commit.tables and at not in self.known:
                costs = ((t, self.cost(t, commit, at)) for t in self.unnamed)
                self.ways[at] = [(t, cost) for t, cost in costs if cost is not None]
            self.versions.publish(commit)
        return any(self.ways.values())

    def cost(self, transaction: Transaction, commit: Commit, at: int) -> int | None:
        """What speaks against a transaction as the one that made a commit, or None if it cannot have."""
        late = transaction.end + HALF - commit.time, commit.time - (transaction.started or 0.0) + HALF
        if min(late) < -SLACK or transaction.commit is not None and transaction.commit < at:
            return None
        if (clock := self.clock(transaction, commit)) is None or (rows := self.rows(transaction, commit, at)) is None:
            return None
        return rows + clock + HELD_UP * (min(late) < 0)

    @staticmethod
    def clock(transaction: Transaction, commit: Commit) -> int | None:
        """The cost of the times in the images: when the transaction began is that of its message, to a millisecond."""
        cost = 0
        for name, at, is_new in {place for step in transaction.steps for place in step.clocks}:
            for row in (new for table, old, new in commit.changes if table == name and new is not None and (old is None) == is_new):
                early = (transaction.started or 0.0) - to_seconds(row[at].removesuffix('+00')) if row[at] else None
                if early is None or not -HALF - 2e-6 <= early <= HALF + SLACK:
                    return None
                cost = max(cost, HELD_UP * (early > HALF + LATE))
        return cost

    def rows(self, transaction: Transaction, commit: Commit, at: int) -> int | None:
        """The cost of the images, or None if the statements cannot have written them."""
        steps = transaction.writes()
        if all(step.harmless for step in steps):
            return UNSEEN
        if all(self.refutes(step, commit) for step in steps):
            return None
        if not transaction.reason and not commit.reason:
            transaction.lowest = 0
            search = Search(self.tables, self.versions, self.times, transaction, commit.changes, at)
            patched = {number: step.target for number, step in enumerate(steps) if step.statement is None}
            if search.places(patched, False) is not None:
                return 0 if all(step.statement or step.target.table for step in steps) else NARROWED
            if search.places(patched, True) is not None:
                return NARROWED
        if not transaction.may_write(commit.tables):
            return None
        return NARROWED if any(self.reacts(step) for step in steps) else WEAK

    def reacts(self, step: Step) -> bool:
        """Whether a statement may have written other rows than its text says."""
        return step.statement is not None and bool(reaction(step, self.tables))

    def refutes(self, step: Step, commit: Commit) -> bool:
        """Whether a statement surely wrote other images than these."""
        name = step.statement.table if step.statement else step.target.table
        if name not in self.tables or commit.reason:
            return False
        mine = [change for change in commit.changes if change[0] == name]
        fits = of_statement(step.statement, self.tables) if step.statement else step.target.test or (lambda *_: True)
        if self.tables[name].rewrites:
            return bool(mine) and not any(fits(old, new) for _, old, new in mine)
        return not mine or not any(fits(old, new) for _, old, new in mine)

    def surely_writes(self, transaction: Transaction) -> bool:
        """Whether a transaction without a commit made one of the commits that are known: it wrote rows, whichever version it read."""
        if transaction.commit is not None or (transaction.started or 0.0) - HALF < self.since or transaction.end + HALF > self.until:
            return False
        for step in transaction.steps:
            statement = step.statement
            if not step.writes or statement is None or statement.deferred or self.tables[statement.table].rewrites:
                continue
            if statement.kind == 'insert':
                return True
            search = Search(self.tables, self.versions, self.times, transaction, [], self.versions.newest)
            near = search.near(transaction.started, transaction.end, 0)
            if len(near) <= SURE and all(changes(statement, self.tables, lambda name, version=version: self.versions.state(name, version)) for version in near):
                return True
        return False

    # All together

    def layers(self) -> list[dict[Place, State]]:
        """For each number of commits the States, by how far each session is in its transactions."""
        place, _ = self.passed(tuple(0 for _ in self.queues), 0, range(len(self.queues)))
        layers, self.edges = [{place: State(0, 0.0)}], []
        for at in range(len(self.commits)):
            found, edges = self.after(layers[-1], at, self.choices(at))
            if not found:                             # the log contradicts itself, as where it has a line twice
                found, edges = self.after(layers[-1], at, [self.nobody(at)])
            least = min(state.cost for state in found.values())
            kept = sorted(found.items(), key=lambda item: item[1].worth())[:STATES]
            layers.append({then: state for then, state in kept if state.cost <= least + MARGIN})
            self.edges.append([edge for edge in edges if edge[1] in layers[-1]])
        return layers

    def after(self, layer: dict[Place, State], at: int, choices: list[Choice]) -> tuple[dict[Place, State], list[Edge]]:
        """The States behind a commit, given those before it and whose it may be; and the steps from one to the other."""
        commit = self.commits[at]
        ways = [(owner, cost, distance(commit, owner) if owner else 0.0, *self.places.get(id(owner), (None, 0))) for owner, cost in choices]
        ending = {number for number, queue in enumerate(self.queues) if at in queue.ends}
        found: dict[Place, State] = {}
        edges: list[Edge] = []
        for place, state in layer.items():
            for owner, cost, far, number, own in ways:
                after, unused = place, 0
                if number is not None:
                    if (unused := self.queues[number].unused(place[number], own)) is None:
                        continue
                    after = *place[:number], own if owner.commits_itself else own + 1, *place[number + 1:]
                then, more = self.passed(after, at + 1, ending if number is None else ending | {number})
                cost_of_all = cost + UNUSED * (unused + more)
                edges.append((place, then, owner, cost_of_all))
                worth = state.cost + cost_of_all, state.far + far
                if then not in found or worth < found[then].worth():
                    found[then] = State(*worth, state, owner)
        return found, edges

    def choices(self, at: int) -> list[Choice]:
        """The transactions that a commit may be given, with their costs."""
        if at in self.known:
            return [(self.known[at], 0)]
        return [*self.ways.get(at, ()), self.nobody(at)]

    def nobody(self, at: int) -> Choice:
        """A commit that the log has no statements of, and its cost."""
        return None, UNLOGGED if self.commits[at].tables else 0

    def passed(self, place: Place, at: int, numbers: Iterable[int]) -> tuple[Place, int]:
        """How far the sessions are, where some of them pass the transactions that can make no commit from one on; and how many wrote for nothing."""
        unused = 0
        for number in numbers:
            there, more = self.queues[number].passed(place[number], at)
            if there != place[number]:
                place, unused = (*place[:number], there, *place[number + 1:]), unused + more
        return place, unused

    def choose(self, layers: list[dict[Place, State]]) -> None:
        """Gives the commits their transactions, and says of which there is a doubt."""
        chosen: dict[int, list[int]] = defaultdict(list)
        owners: dict[int, Transaction] = {}
        state = min(layers[-1].values(), key=State.worth)
        best, at = state.cost, len(self.commits)
        while state.before is not None:
            at -= 1
            if state.owner is not None:
                chosen[id(state.owner)].insert(0, at)
                owners[at] = state.owner
            state = state.before
        self.note_doubts(layers, best)
        self.note_missing(owners)
        for transaction in list(self.transactions):
            if id(transaction) in chosen:
                self.give(transaction, chosen[id(transaction)])

    def note_doubts(self, layers: list[dict[Place, State]], best: float) -> None:
        """Notes the transactions of which each may have made a commit, by ways that are equally cheap."""
        rest: dict[Place, int] = dict.fromkeys(layers[-1], 0)           # the costs from there on
        for at in range(len(self.commits) - 1, -1, -1):
            costs: dict[Place, int] = {}
            owners: dict[int, Transaction] = {}
            for place, then, owner, cost in self.edges[at]:
                if then in rest and place in layers[at]:
                    total = cost + rest[then]
                    costs[place] = min(total, costs.get(place, total))
                    if layers[at][place].cost + total <= best and owner is not None:
                        owners[id(owner)] = owner
            rest = costs
            if len({self.told(owner) for owner in owners.values()}) > 1:
                lines = sorted(owner.line for owner in owners.values())
                for owner in owners.values():
                    owner.doubt = owner.doubt or f'log lines {", ".join(map(str, lines))}: which of them committed xid {self.commits[at].xid} is not known'

    def note_missing(self, owners: dict[int, Transaction]) -> None:
        """Notes the transactions that may have made another commit than their own, given by `owners`: one that is nobody's, since the log lacks a record.

        Then their own commit is nobody's, which another transaction may have made in its turn.
        """
        mine = {id(owner): at for at, owner in owners.items() if at in self.ways}
        free = deque((at, 0) for at in self.ways if at not in owners)
        while free:
            at, more = free.popleft()
            for owner, cost in self.ways[at]:
                if (own := mine.get(id(owner))) is None or not self.may_move(owners, own, at):
                    continue
                rest = more + cost - dict((id(one), price) for one, price in self.ways[own])[id(owner)]
                if rest <= 0:
                    owner.doubt = owner.doubt or (f'log line {owner.line}: whether it committed xid {self.commits[own].xid} or {self.commits[at].xid} '
                                                  'is not known, since a record is missing')
                    del mine[id(owner)]
                    free.append((own, rest))

    @staticmethod
    def may_move(owners: dict[int, Transaction], own: int, at: int) -> bool:
        """Whether no other commit of its session stands between the commit of a transaction and another one."""
        owner = owners[own]
        between = range(min(own, at), max(own, at) + 1)
        return not owner.commits_itself and not any(owners[place].session == owner.session for place in between if place in owners and place != own)

    @staticmethod
    def told(transaction: Transaction) -> tuple[Any, ...]:
        """What is told of the transaction of a commit: who it is of, and what it ran."""
        return transaction.session, tuple(step.statement.text() if step.statement and not step.statement.needs_images else step.line
                                          for step in transaction.steps)

    def give(self, transaction: Transaction, commits: list[int]) -> None:
        """Gives a transaction its commit. A CALL or a DO that made several becomes as many transactions."""
        at = self.transactions.index(transaction)
        parts = [replace(transaction, steps=[replace(step) for step in transaction.steps], unsaid=[], literals=[]) for _ in commits[1:]]
        for part, commit in zip([transaction, *parts], commits):
            part.commit, part.xid = commit, self.commits[commit].xid
        self.transactions[at + 1:at + 1] = parts


def is_unnamed(transaction: Transaction) -> bool:
    """Whether a transaction committed, may have written rows, and made commits that the log does not name."""
    return (transaction.fate == 'committed' and not transaction.exact and transaction.started is not None and bool(transaction.writes()) and
            (transaction.commit is None and transaction.xid == '0' or transaction.commits_itself))


def distance(commit: Commit, transaction: Transaction) -> float:
    """The seconds between a commit and the millisecond of the log in which the record of its message was written."""
    return max(abs(commit.time - transaction.end) - HALF, 0.0)
