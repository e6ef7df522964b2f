"""Asks SERIAL and ANOMALIES of a random run: whether its committed transactions could have run one after another, and every cycle.

PostgreSQL promises it under SERIALIZABLE. If there is a cycle, the bridge may have put the start of a transaction on the wrong side
of a COMMIT, so that is tried (`starts`); or the log's times do not show the order in which a server under load did things, which the
capture of the same run knows. Under REPEATABLE READ there can be cycles, and each has a write skew: two lines in a row,
A before B and B before C, where both read what the next one, running beside them, then wrote. So none is a lost update or a read
skew, which snapshot isolation forbids: that is a check of the server, of gprom and of the names at once. Under READ COMMITTED
they are counted by name.
"""
import collections
import itertools
import os
import re
from dataclasses import dataclass, field

from gprom.anomalies import by_name, full_name
from gprom.answers import Anomaly, anomalies
from gprom.program import Answer

from .judge import CAPTURE, LOG, ask, convert, sources_of, verify
from .starts import Starts

MOVED = 'serial with a start on the other side of a COMMIT'
BY_CAPTURE = 'serial by the capture of the same run'
ANSWERS = ('serial', MOVED, BY_CAPTURE, 'cycle', 'undecided')
STEP = re.compile(r'(\d+) before (\d+) : .*')
READ_BEFORE = re.compile(r'(\d+) before (\d+) : \1\.\d+ read .* at \d+, \2 wrote it as \d+')
FORBIDDEN = ('lost update', 'read skew')                # under snapshot isolation
NOT_ASKED = 'ANOMALIES: not asked, since this gprom does not have it'
COMMITTED = re.compile(r'(\d+) .* at (\d+) statements \d+ committed as (\d+)')


@dataclass
class Asked:
    """The answer for a run: one of ANSWERS, its lines, and of each committed transaction the version that it read first and its own."""
    level: str
    source: str                                         # of its script: the log or the capture
    answer: str
    lines: list[str]
    versions: dict[str, tuple[int, int]]
    is_covered: bool = True                             # whether `verify` found the transactions of a cycle to be as on the server
    anomalies: list[Anomaly] | None = None              # None where the program does not have the question
    covered: set[str] = field(default_factory=set)      # the transactions that are as on the server

    def cycle(self):
        """The transactions of a cycle."""
        return [match.group(1) for match in map(STEP.fullmatch, self.lines) if match]

    def has_write_skew(self, lines):
        """Whether two lines in a row are reads of what was then written, each by transactions that ran beside each other."""
        pairs = [match.groups() if (match := READ_BEFORE.fullmatch(line)) else None for line in lines]
        return any(first and second and self.overlap(*first) and self.overlap(*second)
                   for first, second in itertools.pairwise([*pairs, pairs[0]]))

    def overlap(self, one, other):
        """Whether neither of two transactions could see the other."""
        (read, made), (other_read, other_made) = self.versions[one], self.versions[other]
        return read < other_made and other_read < made


def check(window, found, gprom, level, made):
    """What is wrong with a run, and with the answer for it, which goes to `made`."""
    questions = ['SERIAL', 'TRANSACTIONS', 'ANOMALIES']
    (head, lines), (_, transactions), (counted, cycles) = ask(gprom, window.path(f'{found.source.out}.dump'), questions)
    committed = [match.groups() for match in map(COMMITTED.fullmatch, transactions) if match]
    asked = Asked(level, found.source.name, head.split()[0], lines, {number: (int(read), int(own)) for number, read, own in committed})
    asked.covered = {verdict.transaction for verdict in found.verdicts if verdict.kind() == 'same'}
    asked.is_covered = all(verdict.kind() == 'same' for verdict in found.verdicts if verdict.transaction in asked.cycle())
    if not counted.startswith('E03 '):
        asked.anomalies = anomalies(Answer('ANOMALIES', counted, tuple(cycles)))
    made.append(asked)
    return wrong_answer(asked, window, gprom) + wrong_anomalies(asked)


def wrong_anomalies(asked):
    """What is wrong with the anomalies of a run: there are some where SERIAL has an order, the first is another cycle, or the level forbids one."""
    if asked.anomalies is None:
        return []
    firsts = [[str(number) for number in it.transactions] for it in asked.anomalies[:1]]
    cycles = [asked.cycle()] if asked.answer in ('cycle', MOVED, BY_CAPTURE) else []
    if firsts != cycles:
        return [f'ANOMALIES: the first of {len(asked.anomalies)} is {firsts}, and that of SERIAL {cycles}']
    if asked.level != 'REPEATABLE READ':
        return []
    of_covered = [it for it in asked.anomalies if {str(number) for number in it.transactions} <= asked.covered]
    return [f"ANOMALIES: {full_name(it)}: {'; '.join(steps(it))}" for it in of_covered if it.name in FORBIDDEN or not asked.has_write_skew(steps(it))]


def steps(it):
    """The steps of an anomaly, as SERIAL has them."""
    return [f'{edge.first} before {edge.second} : {edge.witness}' for edge in it.edges]


def wrong_answer(asked, window, gprom):
    """A failure, if this is no answer for a run under its level. Where another start makes it serial, that is printed."""
    if asked.answer == 'serial' and sorted(asked.lines, key=int) == sorted(asked.versions, key=int):
        return []
    if asked.answer == 'cycle' and (asked.level not in ('REPEATABLE READ', 'SERIALIZABLE') or asked.level == 'REPEATABLE READ' and asked.has_write_skew(asked.lines)):
        return []
    cycle = f"SERIAL: {asked.answer}: {'; '.join(asked.lines)}"
    is_guessed = asked.source == LOG.name and asked.level == 'SERIALIZABLE'
    if asked.answer == 'cycle' and is_guessed and (moves := Starts(window, gprom).serial()):
        print(f"{os.path.basename(window.folder)}: {cycle}; serial, if {' and '.join(moves)}", flush=True)
        asked.answer = MOVED
        return []
    if asked.answer == 'cycle' and is_guessed and is_serial_by_capture(window, gprom):
        print(f"{os.path.basename(window.folder)}: {cycle}; serial by the capture", flush=True)
        asked.answer = BY_CAPTURE
        return []
    return [cycle]


def is_serial_by_capture(window, gprom):
    """Whether the exact record of the same run has an order: then the log's script has a statement in another place than the server."""
    if CAPTURE not in sources_of(window):
        return False
    convert(window, CAPTURE, out='exact')
    verify(window, gprom, 'exact')
    (head, _), = ask(gprom, window.path('exact.dump'), ['SERIAL'])
    return head.split()[0] == 'serial'


def summary(made):
    """How often each answer was given, by level and source, as lines."""
    for level, source in sorted({(asked.level, asked.source) for asked in made}):
        of_level = [asked for asked in made if (asked.level, asked.source) == (level, source)]
        counts = collections.Counter(asked.answer for asked in of_level)
        parts = [f'{counts[answer]} {answer}' for answer in ANSWERS if counts[answer]]
        if counts['cycle']:
            parts.append(f"{sum(asked.answer == 'cycle' and asked.is_covered for asked in of_level)} of the cycles of covered transactions alone")
        yield f"SERIAL, {level}, by {source}: {', '.join(parts)}"
        if known := [asked.anomalies for asked in of_level if asked.anomalies is not None]:
            all_ = [it for one in known for it in one]
            yield f"ANOMALIES, {level}, by {source}: {by_name(all_) or 'none'}, in {sum(map(bool, known))} of {len(known)} runs"
    if made and all(asked.anomalies is None for asked in made):
        yield NOT_ASKED
