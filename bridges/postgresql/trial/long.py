"""Windows of long logs: the way from a row to its incident by `find` and `convert --around`, and random windows beside a replay of other code."""
import collections
import contextlib
import csv
import gzip
import os
import pty
import random
import re
import subprocess
import time
from concurrent.futures import ThreadPoolExecutor
from dataclasses import dataclass, field
from functools import partial

from bridge import lacks

from . import bench, events, moments as known, workload
from .judge import CAPTURE, HERE, LOG, ask, call, commits_of, verified
from .replay import Begun, Replay
from .window import record

ACCOUNTS, CLIENTS = 20_000, 3                           # gprom holds 10,000 rows of a table
KEY, GIVES = 4711, {'ann': 100, 'bob': 250}             # the account of the incident, and what each adds to what both have read
SLOW_KEY, SLOW_GIVES = 1234, {'cat': 7, 'dan': 70}      # the same of an incident that lasts long: cat begins first and writes last
SLOW_BRANCH = 3                                         # which both write too, as each tenth transaction does
SLOW_FROM, SLOW_SHARE, SLOW_LEAST = 0.05, 0.1, 1000     # when it begins, and which share of all transactions it lasts, or how many
INDEXED = {f'enable_{way}': 'on' for way in ('indexscan', 'indexonlyscan', 'bitmapscan')}
ROW, GUIDE = f'pgbench_accounts:{KEY}', os.path.normpath(f'{HERE}/../../docs/GUIDE.md')
USERS = 'DO $$ BEGIN ' + ' '.join(f'CREATE ROLE {name} LOGIN SUPERUSER;' for name in (*GIVES, *SLOW_GIVES)) + \
    ' EXCEPTION WHEN duplicate_object THEN NULL; END $$'
BENCH_KEYS = {'pgbench_accounts': 'aid', 'pgbench_tellers': 'tid', 'pgbench_branches': 'bid'}
WORK_KEYS = {'acct': 'id', 'item': 'id'}
JSON, JSON_SLOT, EVENTS = 'slot.wal2json', 'json', 'slot.debezium'
JSON_OPTIONS = ('format-version=2', 'include-xids=on', 'include-timestamp=on')
CUT = re.compile('began before the window|does not see all that was committed before the window')
BESIDE = 'values that the server computed'              # of a transaction that is open where the window ends
FAULTS = 2                                              # changes of folded transactions that are made others, at least
FEW, SHARE = 2, 50                                      # transactions at the edges of a window, or one in so many, may be told as not covered
FOUND = re.compile(ROW + r'@(\d+)\t[-\d]+T[:.\d]+\t(\S+)\tUPDATE abalance (-?\d+) -> (-?\d+)')


@dataclass
class Long:
    """A long run: its window, the keys of its tables, whether it has the output of wal2json, and what ann and bob have read."""
    window: object
    keys: dict[str, str]
    has_json: bool
    read: dict[str, int] = field(default_factory=dict)
    slow: dict[str, object] = field(default_factory=dict)       # the sessions of the slow incident
    moments: list[known.Moment] = field(default_factory=list)

    def given(self, number):
        """The tables whose rows a window of this number gets: by turns all, and those alone that have no key, of which equal rows are told apart by nothing."""
        return [name for name in self.window.started if number % 3 or name not in self.keys]


@dataclass
class Asked:
    """The options of one window, by the log or the capture and one of the slots."""
    name: str
    source: object
    slot: str
    options: list[str]
    rows: list[str]                                     # the tables that are given


# Recording

def with_json(cluster, window, work):
    """Runs `work`, and keeps what a slot of wal2json has of it too, if the server has that plugin."""
    if not cluster.has_wal2json:
        work(cluster)
        return
    session = cluster.watcher                           # of which nothing is in the log
    session.execute(f"SELECT pg_create_logical_replication_slot('{JSON_SLOT}', 'wal2json')")
    try:
        work(cluster)
        cluster.copy_changes(window.path(JSON), JSON_SLOT, JSON_OPTIONS)
    finally:
        session.execute(f"SELECT pg_drop_replication_slot('{JSON_SLOT}')")


def record_bench(cluster, window, transactions, count, seed):
    """Records pgbench, with the incident when half is done, and at random moments what the server's rows are."""
    found = Long(window, BENCH_KEYS, cluster.has_wal2json)
    cluster.control.execute(USERS)
    cluster.use(INDEXED)
    chance = random.Random(seed)
    due = [(chance.random() * 0.95, take_moment) for _ in range(count)] + [(0.5, take_incident), (SLOW_FROM, begin_slowly)]
    due.append((SLOW_FROM + max(SLOW_SHARE, min(0.5, SLOW_LEAST / transactions)), end_slowly))
    work = partial(bench_work, transactions=transactions, found=found, due=sorted(due, key=lambda pair: pair[0]))
    record(cluster, window, bench.setup(ACCOUNTS), lambda _: with_json(cluster, window, work), is_long=True)
    return found


def bench_work(cluster, transactions, found, due):
    run = partial(bench.run, cluster, transactions // CLIENTS, 'simple', 'read committed', seed=7, accounts=ACCOUNTS, clients=CLIENTS)
    first = next_xid(cluster)
    with ThreadPoolExecutor(1) as pool:
        running = pool.submit(run)
        for share, act in due:
            while not running.done() and next_xid(cluster) - first < share * transactions:
                time.sleep(0.02)
            if act is not take_moment or not running.done():
                act(cluster, found)
        running.result()


def next_xid(cluster):
    """The xid of the next transaction that writes: each one of pgbench has one."""
    return int(cluster.watcher.execute('SELECT pg_snapshot_xmax(pg_current_snapshot())').rows[0][0])


def take_moment(cluster, found):
    found.moments.append(known.take(cluster, found.window))


def take_incident(cluster, found):
    found.read |= incident(cluster)


def begin_slowly(cluster, found):
    """Both read the same balance, and dan writes it."""
    for name in SLOW_GIVES:
        found.slow[name] = session = cluster.connect(user=name)
        session.execute('BEGIN')
        found.read[name] = int(session.execute(f'SELECT abalance FROM pgbench_accounts WHERE aid = {SLOW_KEY}').rows[0][0])
    write_slowly(found, 'dan')


def end_slowly(_, found):
    """cat writes what it read long before, with its own amount more."""
    write_slowly(found, 'cat')


def write_slowly(found, name):
    session = found.slow.pop(name)
    session.execute(f'UPDATE pgbench_accounts SET abalance = {found.read[name] + SLOW_GIVES[name]} WHERE aid = {SLOW_KEY}')
    session.execute(f'UPDATE pgbench_branches SET bbalance = bbalance + {SLOW_GIVES[name]} WHERE bid = {SLOW_BRANCH}')
    session.execute('COMMIT')
    session.close()


def incident(cluster):
    """Both read the same balance, and each writes it with its own amount more. Gives what they have read."""
    sessions, read = {name: cluster.connect(user=name) for name in GIVES}, {}
    for name, session in sessions.items():
        session.execute('BEGIN')
        read[name] = int(session.execute(f'SELECT abalance FROM pgbench_accounts WHERE aid = {KEY}').rows[0][0])
    for name, session in sessions.items():
        time.sleep(0.02)
        session.execute(f'UPDATE pgbench_accounts SET abalance = {read[name] + GIVES[name]} WHERE aid = {KEY}')
        session.execute('COMMIT')
        session.close()
    return read


def record_workload(cluster, window, transactions, seed):
    """Records the random workload of eight sessions, which has a table without a key."""
    settings = workload.Settings(seed, None, transactions)
    record(cluster, window, workload.SETUP, lambda _: with_json(cluster, window, lambda cluster: workload.run(cluster, settings, {})))
    return Long(window, WORK_KEYS, cluster.has_wal2json)


def record_chain(cluster, window):
    """Records a transaction that waits before its COMMIT AND CHAIN, and the one that it is chained to."""
    record(cluster, window, workload.SETUP, chain)
    return Long(window, WORK_KEYS, False)


def chain(cluster):
    session = cluster.connect()
    for text in ('BEGIN', 'UPDATE acct SET bal = bal + 1 WHERE id = 1'):
        session.execute(text)
    time.sleep(0.05)
    for text in ('COMMIT AND CHAIN', 'UPDATE acct SET bal = bal + 1 WHERE id = 2', 'COMMIT'):
        session.execute(text)
    session.close()


# From a row to its incident

def check_incident(found, gprom, source):
    """What is wrong on the way from the row to an answer, as a user goes it."""
    window, out = found.window, 'incident' if source is LOG else 'captured-incident'
    tables = ['--tables', 'tables.sql', '--slot', 'slot.txt']
    by = [[source.file, out], ['--log', source.file]] if source is LOG else [['--capture', source.file, out], ['--capture', source.file]]
    finding = ['find', ROW, *tables, *by[1]]
    listed = [FOUND.fullmatch(line) for line in call_in(window, finding, (0,))]
    if not all(listed):
        return [f'find lists {len(listed)} lines, some in another form']
    wrote = {line[2]: line for line in listed if line[2] in GIVES}
    wanted = {name: str(found.read[name] + GIVES[name]) for name in GIVES}
    if {name: line[4] for name, line in wrote.items()} != wanted:
        return [f'find gives {[line[0] for line in listed]}, where {wanted} were written']
    converting, verifying = ['convert', *by[0], *tables, '--around', f"{ROW}@{wrote['bob'][1]}"], ['verify', out, *tables]
    if source is LOG and (missing := missing_in_guide(finding, converting, verifying)):
        return [f'{GUIDE} does not have the command {missing}']
    call_in(window, converting, (0,))
    verdicts, _ = verified(window, gprom, out)
    numbers = {verdict.xid: verdict.transaction for verdict in verdicts if verdict.verdict == 'same'}
    failures = [str(verdict) for verdict in unexpected(verdicts)]
    if missing := [name for name in GIVES if wrote[name][1] not in numbers]:
        return [*failures, f'{missing} not same in the window of {len(verdicts)} transactions']
    bob = numbers[wrote['bob'][1]]
    (_, rows), (_, versions) = ask(gprom, window.path(f'{out}.dump'), [f'SAW {bob} AFTER 1 SELECT abalance FROM pgbench_accounts WHERE aid = {KEY}',
                                                                       f'HISTORY OF pgbench_accounts WHERE aid = {KEY}'])
    if rows != [str(found.read['bob'])]:
        failures.append(f"bob saw {rows}, where the server gave him {found.read['bob']}")
    if not all(any(f' {value},' in version for version in versions) for value in wanted.values()):
        failures.append(f'HISTORY OF has {versions}, where {wanted} were written')
    return failures


def check_slow(found, gprom, source):
    """What is wrong with the incident that lasts longer than a window may be: those that have nothing to do with it are folded, and all others the same."""
    window, out, row = found.window, f'{source.out}-slow', f'pgbench_accounts:{SLOW_KEY}'
    tables = ['--tables', 'tables.sql', '--slot', 'slot.txt']
    by = [[source.file, out], ['--log', source.file]] if source is LOG else [['--capture', source.file, out], ['--capture', source.file]]
    listed = [line.split('\t') for line in call_in(window, ['find', row, *tables, *by[1]], (0,))]
    xids = {line[2]: line[0].partition('@')[2] for line in listed if line[2] in SLOW_GIVES}
    call_in(window, ['convert', *by[0], *tables, '--around', f"{row}@{xids['cat']}"], (0,))
    verdicts, last = verified(window, gprom, out)
    failures = [str(verdict) for verdict in unexpected(verdicts)]
    numbers = {verdict.xid: verdict.transaction for verdict in verdicts if verdict.verdict == 'same'}
    if missing := [name for name, xid in xids.items() if xid not in numbers]:
        return [*failures, f'{missing} not same in the window of {len(verdicts)} transactions: {last}']
    told = re.search(r'^0\t(\d+) transactions of the slot are folded', open_text(window.path(f'{out}.left')), re.M)
    if not told or int(told[1]) < SLOW_LEAST // 2 or not re.search(' others? (?:is|are) folded into ', last):
        failures.append(f'{told and told[0]!r} is told, and {last}')
    (_, rows), (_, versions) = ask(gprom, window.path(f'{out}.dump'), [
        f"SAW {numbers[xids['cat']]} AFTER 1 SELECT abalance FROM pgbench_accounts WHERE aid = {SLOW_KEY}",
        f'HISTORY OF pgbench_accounts WHERE aid = {SLOW_KEY}'])
    wanted = {name: found.read[name] + gives for name, gives in SLOW_GIVES.items()}
    if rows != [str(found.read['cat'])] or not all(any(f' {value},' in version for version in versions) for value in wanted.values()):
        failures.append(f"cat saw {rows}, where the server gave {found.read['cat']}, and HISTORY OF has {versions}")
    return failures + check_faults_in_folds(window, gprom, out)


def check_faults_in_folds(window, gprom, out):
    """What is wrong where a change that stands for folded transactions is another one, and `verify` does not find that."""
    script = open_text(window.path(f'{out}.script'))
    with open(window.path(f'{out}.tsv'), newline='', encoding='utf-8') as lines:
        entries = list(csv.DictReader(lines, delimiter='\t', quoting=csv.QUOTE_NONE))
    folds = {entry['transaction'] for entry in entries if entry['kind'] == 'folded'}
    places = [int(entry['script_line']) for entry in entries if entry['kind'] == 'line' and entry['transaction'] in folds]
    texts, failures = script.split('\n'), []
    for place in [place for place in places if ' SET ' in texts[place - 1]][::max(1, len(places) // FAULTS)]:
        changed = [*texts]
        changed[place - 1] = re.sub(r'( SET \w+ = \(?-?)', r'\g<1>1', changed[place - 1], count=1)
        window.save(f'{out}-fault.script', '\n'.join(changed))
        for end in ('tsv', 'left'):
            window.save(f'{out}-fault.{end}', open_text(window.path(f'{out}.{end}')))
        lines = call([f'{HERE}/verify', window.path(f'{out}-fault'), '--tables', window.path('tables.sql'), '--slot', window.path('slot.txt'),
                      '--gprom', gprom], (0, 1))
        if not any('(folded: ' in line and ': differs: ' in line for line in lines) or 'of which differ' not in lines[-1]:
            failures.append(f'verify does not find that {texts[place - 1]!r} became {changed[place - 1]!r}')
    return failures


def call_in(window, words, statuses):
    """The lines of a command of this folder that names files of the window."""
    return call([f'{HERE}/{words[0]}', *words[1:]], statuses, folder=window.folder)


def missing_in_guide(*commands):
    """The first of these commands that the guide does not have, but for the transaction."""
    with open(GUIDE, encoding='utf-8') as opened:
        lines = {re.sub(r'@\d+', '@', line.removeprefix('$ ').rstrip('\n')) for line in opened if line.startswith('$ ')}
    return next((text for text in (re.sub(r'@\d+', '@', ' '.join(words)) for words in commands) if text not in lines), '')


def source_of(window, source, out):
    """The log and OUT, or the capture and OUT, as words of `convert`."""
    return ['--capture', window.path(source.file), window.path(out)] if source is CAPTURE else [window.path(source.file), window.path(out)]


def is_expected(verdict):
    """Whether a transaction is the same, cut, or open where the window ends."""
    return verdict.verdict == 'same' or verdict.verdict == 'not covered' and bool(
        CUT.search(verdict.reason) or verdict.fate == 'active' and BESIDE in verdict.reason)


def unexpected(verdicts, allowed=is_expected):
    """The verdicts that are not expected: all that differ. At the edges of a window a commit and its record may lie on different sides, and then the
    transaction is told as not covered; where these are a few, they are left out."""
    wrong = [verdict for verdict in verdicts if not allowed(verdict)]
    is_few = len(wrong) <= max(FEW, len(verdicts) // SHARE)
    return [verdict for verdict in wrong if not is_few or verdict.verdict != 'not covered']


def check_readers(found):
    """What is wrong where the same window is read from several files, packed ones, or another slot: the script and its tables are the same."""
    window, failures = found.window, []
    with open(window.path('log.csv'), 'rb') as opened:
        lines = opened.readlines()
    third, packed = len(lines) // 3, ['log.1.csv', 'log.2.csv.gz', 'log.3.csv']
    for name, part in zip(packed, (lines[:third], lines[third:2 * third], lines[2 * third:])):
        window.save(name, gzip.compress(b''.join(part), 1) if name.endswith('.gz') else b''.join(part))
    with open(window.path('slot.txt'), 'rb') as opened:
        window.save('slot.txt.gz', gzip.compress(opened.read(), 1))
    middle = Commits(window.path('slot.txt')).all[len(lines) // 20][0]
    if found.has_json:
        window.save(EVENTS, ''.join(event + '\n' for event in events.events(window.path(JSON))))
    made = {}
    for logs, slot in (['log.csv'], 'slot.txt'), (packed, 'slot.txt.gz'), *[(['log.csv'], other) for other in (JSON, EVENTS) if found.has_json]:
        call_in(window, ['convert', *logs, 'read', '--tables', 'tables.sql', '--slot', slot, '--from', f'xid:{middle}', '--rows', 'touched'], (0,))
        texts = [open_text(window.path(f'read.{end}')) for end in ('script', 'tsv', 'people')]
        if texts != made.setdefault('first', texts):
            failures.append(f'convert makes another script of {logs} and {slot}')
    return failures


def check_chain(found, gprom):
    """What is wrong with the window that begins with a chained transaction: the one before it has a record, though its end has the number of the next one."""
    window = found.window
    last = commits_of(window)[-1]                       # behind it may be one of the server's own, which writes no rows
    call_in(window, ['convert', 'log.csv', 'out', '--tables', 'tables.sql', '--slot', 'slot.txt', '--from', f'xid:{last}'], (0,))
    verdicts, _ = verified(window, gprom)
    kinds = {(verdict.verdict, verdict.log_line > 0) for verdict in verdicts if verdict.xid == last}
    return [str(verdict) for verdict in verdicts if not is_expected(verdict) or not verdict.log_line] or ([] if kinds == {('same', True)} else [
        f'the transaction is not the same: {verdicts}'])


def check_whole(found, gprom, source):
    """What is wrong where a long log is converted without bounds: its begin, up to the limits of gprom, each transaction of which is as expected."""
    window, out = found.window, f'{source.out}-whole'
    rows = [word for name in window.started for word in ('--rows', f'{name}={name}.csv')]
    files = [source.file, out] if source is LOG else ['--capture', source.file, out]
    last = call_in(window, ['convert', *files, '--tables', 'tables.sql', '--slot', 'slot.txt', *rows], (0,))[-1]
    verdicts, _ = verified(window, gprom, out)
    failures = [str(verdict) for verdict in unexpected(verdicts)]
    return failures + ([] if re.search('^stopped at the limit of .* give --to ', last) and len(verdicts) > 100 else
                       [f'{len(verdicts)} transactions, and the last line is {last}'])


def check_progress(found):
    """What is wrong with the line that tells on a terminal how far `convert` is, and is gone at its end."""
    window, (reader, writer) = found.window, pty.openpty()
    last = Commits(window.path('slot.txt')).all[-1][0]
    words = ['convert', 'log.csv', 'told', '--tables', 'tables.sql', '--slot', 'slot.txt', '--from', f'xid:{last}']
    with subprocess.Popen([f'{HERE}/{words[0]}', *words[1:]], cwd=window.folder, stdout=subprocess.DEVNULL, stderr=writer) as running:
        os.close(writer)
        told = b''
        with contextlib.suppress(OSError):              # which ends a terminal
            while part := os.read(reader, 1 << 16):
                told += part
    os.close(reader)
    is_told = re.search(rb'looking for the transactions in the slot: slot\.txt, \d+ of \d+ MB', told) and told.endswith(b'\r\x1b[K')
    return [] if is_told and not running.returncode else [f'the terminal has {told[-300:]!r}']


def open_text(name):
    """The text of a file."""
    with open(name, encoding='utf-8') as opened:
        return opened.read()


# Random windows

class Commits:
    """The transactions of the slot, as (xid, time), by their places."""

    def __init__(self, file):
        with open(file, encoding='utf-8', newline='\n') as lines:
            found = [re.match(r'COMMIT (\d+) \(at (\S+ \S+)\+00\)', line) for line in lines if line.startswith('COMMIT ')]
        self.all = [(match[1], match[2].replace(' ', 'T')) for match in found if match]
        self.places = {xid: at for at, (xid, _) in enumerate(self.all)}


def windows_of(found, source, count, seed):
    """Random windows by one source: begin and end by a time, an xid or a line, or open at the end; by turns from both slots."""
    window, chance = found.window, random.Random(seed)
    commits, slots = Commits(window.path('slot.txt')), ['slot.txt', *[JSON] * found.has_json]
    with open(window.path(source.file), 'rb') as lines:
        length = sum(1 for _ in lines)
    for number in range(count):
        kind, span = chance.choice(('time', 'xid', 'line', 'open')), chance.randrange(20, 300)
        low = chance.randrange(max(1, len(commits.all) - 20))
        ends = commits.all[low], commits.all[min(len(commits.all) - 1, low + span)]
        if kind == 'line':
            line = chance.randrange(1, max(2, length - 100))
            options = ['--from', f'line:{line}', '--to', f'line:{min(length, line + 4 * span)}']
        else:
            texts = [f'xid:{xid}' if kind == 'xid' else moment for xid, moment in ends]
            options = ['--from', texts[0]] + ([] if kind == 'open' else ['--to', texts[1]])
        yield Asked(f'{source.out}-window-{number}', source, slots[number % len(slots)], options, found.given(number))


def check_windows(found, gprom, source, count, seed, allowed=None):
    """What is wrong with random windows: a verdict that is not expected, or rows that are not those of the replay where a window begins."""
    begun, failures = [], []
    for asked in windows_of(found, source, count, seed):
        try:
            window, wrong = check_window(found, gprom, asked, allowed or is_expected)
        except RuntimeError as fault:
            failures.append(f"{asked.name} ({' '.join(asked.options)}): {fault}")
            continue
        begun += [window] if window else []
        failures += [f"{asked.name} ({' '.join(asked.options)}): {verdict}" for verdict in wrong]
    return failures + (rows_differ(found, begun) if found.has_json else [])


def check_window(found, gprom, asked, allowed):
    """(where the window begins, the verdicts that are not expected)"""
    window = found.window
    rows = [word for name in asked.rows for word in ('--rows', f"{name}={window.path(name)}.csv")] or ['--rows', 'touched']
    call([f'{HERE}/convert', *source_of(window, asked.source, asked.name), '--tables', window.path('tables.sql'), '--slot', window.path(asked.slot),
          *asked.options, *rows], (0,))
    verdicts, _ = verified(window, gprom, asked.name)
    return begin_of(found, gprom, asked), unexpected(verdicts, allowed)


def begin_of(found, gprom, asked):
    """Where a window begins among the commits, and the rows that the script has there; None without a commit."""
    path, places = found.window.path, Commits(found.window.path('slot.txt')).places
    with open(path(f'{asked.name}.tsv'), newline='', encoding='utf-8') as lines:
        entries = list(csv.DictReader(lines, delimiter='\t', quoting=csv.QUOTE_NONE))
    mine = [places[entry['xid']] for entry in entries
            if entry['kind'] == 'transaction' and entry['transaction'] and entry['fate'] == 'committed' and entry['xid'] in places]
    if not mine:
        return None
    script = open_text(path(f'{asked.name}.script')).split('\n')
    first = min((int(entry['script_line']) for entry in entries if entry['kind'] == 'line'), default=len(script) + 1)
    version = script[:first - 1].count('s1: BEGIN')     # of the starting rows
    names = [match[1] for line in script if (match := re.match(r's1: CREATE TABLE (\w+) ', line))]
    answers = ask(gprom, path(f'{asked.name}.dump'), [f'AS OF {version} SELECT * FROM {name}' for name in names])
    left = open_text(path(f'{asked.name}.left'))
    partial_tables = {name for name in found.window.ended if name not in asked.rows or f'table {name} has more than' in left}
    return Begun(asked.name, min(mine), max(mine), partial_tables, {name: lines for name, (_, lines) in zip(names, answers)})


def rows_differ(found, begun):
    """What is wrong with the rows where windows begin, and with the replay at the server's end."""
    window = found.window
    replay = Replay({name: ended.columns for name, ended in window.ended.items()}, found.keys)
    for name in window.started:
        replay.start(name, window.path(f'{name}.csv'))
    failures = list(replay.wrong(window.path(JSON), begun))
    return failures + [f'the replay has other rows of {name} than the server at the end' for name, ended in window.ended.items()
                       if replay.rows(name) != sorted(ended.in_gprom({}))]


# Windows that begin at moments whose rows are known

def windows_at(found, sources):
    """A window from each moment on, by the sources and the slots by turns."""
    slots = ['slot.txt', *[JSON] * found.has_json]
    for number, moment in enumerate(found.moments):
        source = sources[number % len(sources)]
        yield moment, Asked(f'{source.out}-moment-{number}', source, slots[number // 2 % len(slots)], ['--from', moment.time], found.given(number))


def check_moments(found, gprom, sources, counts=None):
    """What is wrong with the rows where a window begins, beside those that the server had then, in a snapshot that it exported."""
    failures, begun = [], []
    for moment, asked in windows_at(found, sources):
        name = f"{asked.name} ({' '.join(asked.options)})"
        try:
            window, wrong = check_window(found, gprom, asked, is_expected)
        except RuntimeError as fault:
            failures.append(f'{name}: {fault}')
            continue
        failures += [f'{name}: {verdict}' for verdict in wrong]
        if window is None:
            failures.append(f'{name}: no transaction is in it')
            continue
        begun.append(window)
        for table, rows in window.rows.items():
            if table in moment.files:
                ended = found.window.ended[table]
                theirs = known.rows_of(found.window.path(moment.files[table]), ended)
                failures += [f'{name}: {table}: {what}' for what in known.differences(rows, theirs, table in window.partial)]
                if counts is not None:
                    counts['touched' if table in window.partial else 'whole'] += len(rows)
    return failures + (rows_differ(found, begun) if found.has_json else [])


def is_expected_of_workload(verdict):
    """The same of the random workload, which has statements that gprom cannot express."""
    return is_expected(verdict) or verdict.verdict == 'not covered' and bool(workload.REASONS.search(verdict.reason) or lacks.REASON in verdict.reason)


# The trials

def run(cluster, report, transactions, windows, seed):
    """Records a run of pgbench and one of the random workload. What is made of them is judged later."""
    long = record_bench(cluster, report.window('a long log'), transactions, windows, seed)
    work = record_workload(cluster, report.window('a log of random transactions'), max(8, transactions // 100), seed)
    run_moments(cluster, report, long)
    report.later(report.check, 'files and plugins of a long log', check_readers, long)
    report.later(report.check, 'how far a long log is read', check_progress, long)
    report.later(report.check, 'a window from a chained transaction on', check_chain, record_chain(cluster, report.window('a chain')), report.gprom)
    for source in (LOG, CAPTURE) if cluster.library else (LOG,):
        report.later(report.check, f'an incident in a long log, by {source.name}', check_incident, long, report.gprom, source)
        report.later(report.check, f'an incident that lasts long, by {source.name}', check_slow, long, report.gprom, source)
        report.later(report.check, f'a long log without bounds, by {source.name}', check_whole, long, report.gprom, source)
        report.later(report.check, f'windows of a long log, by {source.name}', check_windows, long, report.gprom, source, windows, seed)
        report.later(report.check, f'windows of random transactions, by {source.name}', check_windows, work, report.gprom, source, windows, seed,
                     is_expected_of_workload)
    return said_of(long)


def moments_alone(cluster, report, transactions, count, seed):
    """Records a run of pgbench, and looks at windows that begin at moments whose rows are known."""
    long = record_bench(cluster, report.window('a long log'), transactions, count, seed)
    counts = collections.Counter()
    run_moments(cluster, report, long, counts)
    report.finish()
    return f"moments: {len(long.moments)} windows, {counts['whole']} rows of whole tables and {counts['touched']} touched rows compared\n" + said_of(long)


def run_moments(cluster, report, long, counts=None):
    sources = (LOG, CAPTURE) if cluster.library else (LOG,)
    report.later(report.check, 'rows of a snapshot where windows begin', check_moments, long, report.gprom, sources, counts)
    if long.moments:
        report.later(report.check, 'all row versions in another engine', known.check_versions, long.window, long.moments[len(long.moments) // 2], report.gprom)


def said_of(long):
    return '' if long.has_json else 'windows: the rows where they begin are not compared, since wal2json is not installed'
