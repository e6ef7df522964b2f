"""Runs the isolation cases of examples/ on gprom and on a private server, and compares what happened.

The comments of a script say what it shows, when the case counts as allowed, and what is expected:

    -- Read skew (G-single): of two rows, one is read before and one after a commit that wrote both.
    -- allowed if line 14 rows 2, 18
    -- gprom prevented, PostgreSQL prevented, equal

The last part is `equal`, or `line N differs`: the first line in which a transaction ends otherwise or, if it was not
refused, reads other rows. `line N waits` stands before it, where that line waits for another session on the server.
"""
import re
import tempfile
from dataclasses import dataclass

from .judge import call
from .protocol import TEXT_TYPES, ServerError
from .window import EVERYTHING

LEVELS = {'BEGIN': 'BEGIN ISOLATION LEVEL REPEATABLE READ', 'BEGIN READ COMMITTED': 'BEGIN ISOLATION LEVEL READ COMMITTED'}
KINDS = {'rows': 'rows', 'committed': 'committed', 'rolled': 'rolled back', 'E11': 'refused'}
PATIENCE = 10                                           # seconds that a line may wait where the script has nothing else to run


@dataclass
class Line:
    """A line of a script: its number, its session and its command."""
    number: int
    session: str
    text: str


@dataclass
class Case:
    """A script, with the condition of its comments by lines, and what they expect."""
    file: str
    lines: list[Line]
    allowed_if: dict[int, str]
    expected: str


@dataclass
class Found:
    """What happened in a case: the outcome of each line on either side, and the lines that waited on the server."""
    ours: dict[int, str]
    theirs: dict[int, str]
    waited: list[int]


def read_case(file):
    """Reads a script with its comments."""
    with open(file, encoding='utf-8') as opened:
        text = opened.read()
    lines = [Line(number, *line.split(': ', 1)) for number, line in enumerate(text.splitlines(), 1) if not line.startswith('--')]
    conditions = re.search(r'^-- allowed if (.*)$', text, re.M)[1]
    allowed_if = {int(line): ordered(outcome) for line, outcome in re.findall(r'line (\d+) (.*?)(?= and line |$)', conditions)}
    return Case(file, lines, allowed_if, re.search(r'^-- (gprom .*)$', text, re.M)[1])


def ordered(outcome):
    """An outcome with its rows in one order: that of their texts."""
    return 'rows ' + '; '.join(sorted(outcome[5:].split('; '))) if outcome.startswith('rows') else outcome


def run_case(case, program, cluster):
    """Runs a case on both sides."""
    session = OnServer(cluster)
    for line in case.lines:
        session.run(line)
    session.end()
    return Found(on_gprom(case.file, program), session.found, session.waited)


def on_gprom(file, program):
    """The outcome of each line on gprom."""
    with tempfile.NamedTemporaryFile() as dump:
        replies = call([program, 'run', file, dump.name], (0, 1))
    found, rows = {}, {}
    for reply in replies:
        if reply.startswith('  '):
            rows.setdefault(number, []).append(reply[2:])
            continue
        number, text = int(reply.split()[0]), reply.split(' ', 1)[1]
        found[number] = KINDS.get(text.split()[0], text)
    return {number: 'rows ' + '; '.join(sorted(rows.get(number, []))) if outcome == 'rows' else outcome
            for number, outcome in found.items()}


class OnServer:
    """The sessions of a script on the server. A line that waits is left waiting while the other sessions go on."""

    def __init__(self, cluster):
        self.cluster, self.control = cluster, cluster.control
        self.sessions, self.pending, self.found, self.waited = {}, {}, {}, []
        self.control.execute(EVERYTHING)

    def run(self, line):
        """Runs a line, unless the one before it in its session still waits and cannot go on."""
        if line.session not in self.sessions:
            self.sessions[line.session] = self.cluster.connect()
        if line.session in self.pending:
            raise RuntimeError(f'line {line.number} comes while its session waits')
        self.sessions[line.session].send(LEVELS.get(line.text, line.text))
        self.pending[line.session] = line
        self.settle()
        if line.session in self.pending:
            self.waited.append(line.number)

    def settle(self):
        """Takes replies until each session has replied or waits for a lock. A reply may end the wait of another one."""
        while any([self.has_ended(session) for session in list(self.pending)]):
            pass

    def has_ended(self, session):
        """Whether the line of a session has ended; it has not where the session waits for a lock."""
        connection = self.sessions[session]
        while not connection.has_reply(0.002):
            if self.control.execute(f'SELECT cardinality(pg_blocking_pids({connection.process}))').rows != [('0',)]:
                return False
        line = self.pending.pop(session)
        self.found[line.number] = outcome(connection, line.text)
        return True

    def end(self):
        """Waits for what still runs, and ends the sessions."""
        for session, connection in self.sessions.items():
            if session in self.pending and not connection.has_reply(PATIENCE):
                raise RuntimeError(f'line {self.pending[session].number} waits at the end of the script')
        self.settle()
        for connection in self.sessions.values():
            connection.close()


def outcome(connection, text):
    """What a statement did on the server, in the words of the cases."""
    try:
        result = connection.receive()
    except ServerError:
        return 'refused'
    if text == 'COMMIT':
        return 'committed' if result.tag == 'COMMIT' else 'refused'
    if text == 'ROLLBACK':
        return 'rolled back'
    if not text.startswith('SELECT'):
        return result.tag
    types = [column.type for column in result.columns]
    return 'rows ' + '; '.join(sorted(', '.join(map(cell_of, row, types)) for row in result.rows))


def cell_of(cell, kind):
    """A cell as gprom prints it."""
    return 'NULL' if cell is None else f"'{cell}'" if kind in TEXT_TYPES else cell


def transactions(case):
    """The lines of each transaction, from its BEGIN to its end."""
    begun, ended = {}, []
    for line in case.lines:
        if line.text in LEVELS:
            begun[line.session] = []
        if line.session in begun:
            begun[line.session].append(line)
            if line.text in ('COMMIT', 'ROLLBACK'):
                ended.append(begun.pop(line.session))
    return ended


def first_difference(case, found):
    """The first line in which a transaction ends otherwise or, if it was not refused, reads other rows; or None."""
    differing = []
    for lines in transactions(case):
        end = lines[-1].number
        if found.ours[end] != found.theirs[end]:
            differing.append(end)
        elif found.ours[end] != 'refused':
            differing += [line.number for line in lines if line.text.startswith('SELECT')
                          and found.ours[line.number] != found.theirs[line.number]]
    return min(differing, default=None)


def verdict(case, outcomes):
    """Whether what the case looks for happened."""
    return 'allowed' if all(outcomes[line] == wanted for line, wanted in case.allowed_if.items()) else 'prevented'


def summary(case, found):
    """What happened, in the words of the comment that says what is expected."""
    at = first_difference(case, found)
    parts = [f'gprom {verdict(case, found.ours)}', f'PostgreSQL {verdict(case, found.theirs)}',
             *(f'line {line} waits' for line in found.waited), 'equal' if at is None else f'line {at} differs']
    return ', '.join(parts)
