"""Moments of a long run at which the rows of the server are known, and windows that begin there."""
import csv
import re
import sqlite3
import subprocess
import time
from collections import Counter
from collections.abc import Iterator
from dataclasses import dataclass
from pathlib import Path

from bridge import everything
from bridge.decoding import Commit
from bridge.schema import INT, Column, Table
from bridge.slots import TestDecoding

from .cluster import Cluster
from .judge import HERE, ask, call
from .window import Ended, Window, cell_of

PAUSE = 0.02                                            # seconds before and behind a moment in which nothing is committed
LOCKED = 'pgbench_accounts'                             # which each transaction writes first


@dataclass
class Moment:
    """A time in UTC, and the rows of tables then: the names of their files."""
    time: str
    files: dict[str, str]


def take(cluster: Cluster, window: Window) -> Moment:
    """Stops all writers for a moment, exports a snapshot, and keeps the rows that another session sees in it when they go on.

    The lock is given when nobody has an uncommitted row, so the snapshot has all that was committed before the moment.
    """
    locker, exporter = cluster.connect(options=cluster.unseen), cluster.connect(options=cluster.unseen)
    locker.execute(f'BEGIN; LOCK TABLE {LOCKED} IN EXCLUSIVE MODE')
    exporter.execute('BEGIN ISOLATION LEVEL REPEATABLE READ')
    [(snapshot,)] = exporter.execute('SELECT pg_export_snapshot()').rows
    time.sleep(PAUSE)
    [(moment,)] = locker.execute("SELECT to_char(clock_timestamp(), 'YYYY-MM-DD\"T\"HH24:MI:SS.US')").rows
    time.sleep(PAUSE)
    locker.execute('COMMIT')
    reader, files = cluster.watcher, {}
    reader.execute(f"BEGIN ISOLATION LEVEL REPEATABLE READ READ ONLY; SET TRANSACTION SNAPSHOT '{snapshot}'")
    for name in window.started:
        files[name] = f"{name}.{moment.replace(':', '')}.csv"
        window.save(files[name], reader.execute(f"COPY (SELECT * FROM {name}) TO STDOUT WITH (FORMAT csv, HEADER, NULL '\\N')").copied)
    reader.execute('COMMIT')
    exporter.execute('COMMIT')
    for session in (locker, exporter):
        session.close()
    return Moment(moment, files)


def rows_of(file: str, ended: Ended) -> list[str]:
    """The rows of such a file, as gprom prints them."""
    with open(file, newline='', encoding='utf-8') as opened:
        return [', '.join(cell_of(None if (text := record[column.name]) == '\\N' else text, column) for column in ended.columns)
                for record in csv.DictReader(opened)]


def differences(ours: list[str], theirs: list[str], is_partial: bool) -> Iterator[str]:
    """The first row that only one side has. Of a table of which a window has the rows that it writes alone, the server has more."""
    script, server = Counter(ours), Counter(theirs)
    if rows := script - server:
        yield f'the script alone has {min(rows)}'
    if (rows := server - script) and not is_partial:
        yield f'the server alone has {min(rows)}'


# All row versions, in another engine

def check_versions(window: Window, moment: Moment, gprom: str) -> list[str]:
    """What is wrong with the row versions of all rows from a moment on, in SQLite: the rows at the moment are those of the snapshot, and what the
    script asks of rows that it has gives the same there."""
    rows = [word for name in window.started for word in ('--rows', f'{name}={name}.csv')]
    call([f'{HERE}/convert', 'log.csv', 'all', '--tables', 'tables.sql', '--slot', 'slot.txt', '--from', moment.time, *rows, '--versions', 'versions'],
         (0,), folder=window.folder)
    call([f'{HERE}/verify', 'all', '--tables', 'tables.sql', '--slot', 'slot.txt', '--gprom', gprom], (0,), folder=window.folder)
    with open(window.path('all.script'), encoding='utf-8') as script, open(window.path('all.tsv'), encoding='utf-8') as lines:
        starts, last = first_and_last(script.read().split('\n'), list(csv.DictReader(lines, delimiter='\t', quoting=csv.QUOTE_NONE)))
    columns = {name: ', '.join(column.name for column in window.ended[name].columns) for name in moment.files}
    whole = [f'AS OF {starts} SELECT {listed} FROM {name}' for name, listed in columns.items()]
    asked = [f'REENACT {last} COMMIT SELECT bid, bbalance FROM pgbench_branches', f'AS OF {starts + 1} SELECT bid, bbalance FROM pgbench_branches']
    found = in_sqlite(window, gprom, [*whole, *asked])
    failures = [f'{name} at {moment.time}: {what}' for name, rows in zip(columns, found)
                for what in differences(rows, rows_of(window.path(moment.files[name]), window.ended[name]), False)]
    answers = ask(gprom, window.path('all.dump'), asked)
    return failures + [f'{question}: {sorted(rows)[:2]}, where gprom has {sorted(lines)[:2]}'
                       for question, rows, (_, lines) in zip(asked, found[len(whole):], answers) if sorted(rows) != sorted(lines)]


def first_and_last(script: list[str], entries: list[dict[str, str]]) -> tuple[int, str]:
    """How many versions the starting rows make, and the last transaction that committed in full."""
    begin = min(int(entry['script_line']) for entry in entries if entry['kind'] == 'line')
    return sum(line == 's1: COMMIT' for line in script[:begin - 1]), max(
        (entry['transaction'] for entry in entries if entry['kind'] == 'transaction' and entry['fate'] == 'committed' and entry['transaction']
         and not entry['cover']), key=int)


def in_sqlite(window: Window, gprom: str, questions: list[str]) -> list[list[str]]:
    """The rows of what `gprom sql` prints for questions, over the files of all row versions, as gprom prints them."""
    window.save('asked', ''.join(f'{question}\n' for question in questions))
    text = subprocess.run([gprom, 'sql', window.path('all.dump'), window.path('asked')], capture_output=True, encoding='utf-8', check=True).stdout
    tables, *queries = re.split(r'^-- \d+\n', text, flags=re.M)
    engine = sqlite3.connect(':memory:')
    for found in re.finditer(r'^CREATE TABLE (\w+)_versions .*;$', tables, re.M):
        engine.execute(found[0])
        with open(window.path(f'versions/{found[1]}_versions.copy'), encoding='utf-8', newline='\n') as lines:
            rows = [[None if cell == '\\N' else cell for cell in line.rstrip('\n').split('\t')] for line in lines]
        if rows:
            engine.executemany(f"INSERT INTO {found[1]}_versions VALUES ({', '.join('?' * len(rows[0]))})", rows)
    return [[', '.join('NULL' if cell is None else quoted(cell) for cell in row) for row in engine.execute(query)] for query in queries]


def quoted(cell: object) -> str:
    return "'" + cell.replace("'", "''") + "'" if isinstance(cell, str) else str(cell)


def check_emptied(folder: str) -> list[str]:
    """What is wrong with the row versions of a table that a TRUNCATE emptied before the window: the given rows are gone."""
    tables = {'acct': Table('acct', [Column('id', INT)], ['id'])}
    before = everything.Before(tables)
    for new in None, (3,):
        before.change('acct', None, new)
    given = Path(folder, 'acct.csv')
    given.write_text('id\n1\n2\n', encoding='utf-8')
    commit = Commit('9', 0.0, [('acct', None, (4,))])
    everything.Writer(folder, TestDecoding(''), tables, tables, {}).write(before, {'acct': [('acct', str(given))]}, [(2, commit)], ['acct'])
    lines = Path(folder, 'acct_versions.copy').read_text(encoding='utf-8')
    return [] if lines == '1001.1.1\t0\t\\N\t3\n1001.1.2\t2\t\\N\t4\n' else [f'the versions are {lines!r}']
