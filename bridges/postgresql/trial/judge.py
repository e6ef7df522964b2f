"""Converts a window, verifies the result, and asks gprom whether its dump is that of a history with the rows of the server."""
import collections
import os
import re
import subprocess
from dataclasses import dataclass, field

from .window import LEFT_OUT

HERE = os.path.dirname(os.path.dirname(os.path.abspath(__file__)))
VERDICT = re.compile(r'transaction (\S+) \(log line (\d+), xid (\d*), ([a-z ]+)\): (same|not covered|differs)(?:: (.*))?')
MISSING = 'records of this session are missing'         # in a line of OUT.left
PATCHED = 'patched'                                     # in the reason where the rows were taken from the write-ahead log


@dataclass(frozen=True)
class Source:
    """What a script is made of: the log or the capture of a window, and the name of the files that `convert` makes of it."""
    name: str
    file: str
    out: str


LOG, CAPTURE = Source('the log', 'log.csv', 'out'), Source('the capture', 'capture.jsonl', 'captured')


@dataclass
class Verdict:
    """What `verify` says of a transaction."""
    transaction: str
    log_line: int
    xid: str
    fate: str
    verdict: str
    reason: str

    def kind(self):
        """What it counts as: same, rolled back (which is as on the server too), patched, not covered or differs."""
        if self.verdict == 'not covered' and PATCHED in self.reason:
            return 'patched'
        return 'rolled back' if self.verdict == 'same' and self.fate != 'committed' else self.verdict

    def __str__(self):
        return f'transaction {self.transaction} (log line {self.log_line}, xid {self.xid}) {self.verdict}: {self.reason}'


@dataclass
class Judgement:
    """What was found of a window."""
    source: Source
    verdicts: list[Verdict] = field(default_factory=list)
    failures: list[str] = field(default_factory=list)
    narrowed: int = 0
    summary: str = ''                                   # the last line of `verify`

    def counts(self):
        """How many transactions got each verdict, and how many statements were narrowed."""
        return collections.Counter(verdict.kind() for verdict in self.verdicts) + collections.Counter(narrowed=self.narrowed)


def sources_of(window):
    """What scripts can be made of."""
    return [LOG, CAPTURE] if os.path.exists(window.path(CAPTURE.file)) else [LOG]


def judge(window, gprom, source=LOG):
    """Converts and verifies a window. A failure is a line that says what is not as it has to be."""
    left = convert(window, source)
    verdicts, summary = verified(window, gprom, source.out)
    found = Judgement(source, verdicts, summary=summary, narrowed=sum('narrowed' in line for line in left))
    found.failures += [line for line in left if MISSING in line]
    found.failures += [str(verdict) for verdict in verdicts if verdict.verdict == 'differs']
    times = collections.Counter(verdict.xid for verdict in verdicts)
    found.failures += [f'xid {xid} has {times[xid]} verdicts' for xid in commits_of(window) if times[xid] != 1]
    found.failures += wrong_dump(window, gprom, source)
    return found


def convert(window, source=LOG, file=None, out=None):
    """Runs `convert` on the window, as a user would. Gives the lines of OUT.left."""
    rows = [word for table in window.started for word in ('--rows', f'{table}={window.path(table)}.csv')]
    file, out = window.path(file or source.file), window.path(out or source.out)
    words = ['--capture', file, out] if source is CAPTURE else [file, out, '--level', window.level]
    call([f'{HERE}/convert', *words, *common(window), *rows], (0,))
    with open(f'{out}.left', encoding='utf-8') as opened:
        return opened.read().split('\n')[:-1]


def verify(window, gprom, out='out'):
    """Runs `verify`, and gives its verdicts."""
    return verified(window, gprom, out)[0]


def verified(window, gprom, out='out'):
    """Runs `verify`, and gives its verdicts and its last line."""
    *lines, last = call([f'{HERE}/verify', window.path(out), *common(window), '--gprom', gprom], (0, 1))
    if last.split()[0] != str(len(lines)):
        raise RuntimeError(f'verify counts wrongly: {len(lines)} lines, {last}')
    verdicts = []
    for line in lines:
        if not (found := VERDICT.fullmatch(line)):
            raise RuntimeError(f'verify says: {line}')
        number, log_line, xid, fate, verdict, reason = found.groups()
        verdicts.append(Verdict(number, int(log_line), xid, fate, verdict, reason or ''))
    return verdicts, last


def common(window):
    """The options that `convert` and `verify` share."""
    return ['--tables', window.path('tables.sql'), '--slot', window.path('slot.txt')]


def call(command, statuses, text=None, folder=None):
    """The lines of a command, which has to end with one of these statuses and without a word on the standard error."""
    done = subprocess.run(command, input=text, cwd=folder, capture_output=True, encoding='utf-8', check=False)
    if done.returncode not in statuses or done.stderr:
        raise RuntimeError(f'{os.path.basename(command[0])}: status {done.returncode}: {(done.stderr or done.stdout).strip()}')
    return done.stdout.split('\n')[:-1]


def commits_of(window):
    """The xids of the commits that wrote rows, by the slot."""
    xids, wrote = [], False
    with open(window.path('slot.txt'), encoding='utf-8', newline='\n') as file:
        for line in file:
            word, _, rest = line.partition(' ')
            if word == 'COMMIT' and wrote:
                xids.append(rest.split()[0])
            wrote = word == 'table' or wrote and word not in ('BEGIN', 'COMMIT')
    return xids


def ask(gprom, dump, questions):
    """The answers of gprom: for each question the text of its first line, and the lines under it."""
    answers = []
    for line in call([gprom, 'ask', dump, '/dev/stdin'], (0, 1), ''.join(f'{question}\n' for question in questions)):
        if line.startswith('  '):
            answers[-1][1].append(line[2:])
        else:
            answers.append((line.split(' ', 1)[1], []))
    return answers


def wrong_dump(window, gprom, source):
    """What is wrong with the dump: it is not that of a history, or its last version has other rows than the server."""
    dump = window.path(f'{source.out}.dump')
    (check, _), (_, transactions) = ask(gprom, dump, ['CHECK', 'TRANSACTIONS'])
    if check != 'history':
        return [f'CHECK of the dump: {check}']
    last, tables = sum(' committed' in line for line in transactions), sorted(window.ended)
    wrong = []
    for table, (head, rows) in zip(tables, ask(gprom, dump, [f'AS OF {last} SELECT * FROM {table}' for table in tables])):
        theirs = window.ended[table].in_gprom(shape_of(window, table, source))
        if head.startswith('rows') and sorted(rows) != sorted(theirs):
            wrong.append(f'the last version of {table} differs: {difference(rows, theirs)}')
    return wrong


def shape_of(window, table, source):
    """What OUT.tsv says of the columns of a table: that one is left out, or how many decimals it has."""
    with open(window.path(f'{source.out}.tsv'), encoding='utf-8') as file:
        lines = [line.rstrip('\n').split('\t') for line in file if line.startswith('column\t')]
    return {name: how if how == LEFT_OUT else int(decimals) for _, _, of, _, _, _, _, name, how, decimals in lines if of == table}


def difference(ours, theirs):
    """The first row that only one side has."""
    ours, theirs = collections.Counter(ours), collections.Counter(theirs)
    return next((f'{side} alone has {min(rows)}' for side, rows in (('gprom', ours - theirs), ('the server', theirs - ours)) if rows))
