"""Windows by hand of what snapshots see, which a log cannot show: commits that become visible in another order than that of the WAL, snapshots
that are not nested, and many subtransactions.

A commit that waits for a standby is in the WAL and not visible, so such an order is made for sure, by a standby that never comes.
"""
import time
from collections.abc import Callable
from dataclasses import dataclass, field

from .given import Given

SETUP = 'CREATE TABLE acct (id INTEGER PRIMARY KEY, bal INTEGER); INSERT INTO acct VALUES (1, 10), (2, 20);'
NO_STANDBY = {'synchronous_standby_names': 'nobody', 'synchronous_commit': 'local'}
WAITS = "pid = {0} AND EXISTS (SELECT 1 FROM pg_locks l WHERE l.pid = {0} AND NOT granted AND transactionid = '{1}')"
ALL = 'SELECT id, bal FROM acct'
FEW = 'SELECT id, bal FROM acct WHERE id < 110'


@dataclass
class Case:
    """A window, and what OUT.left has to say of it by a capture."""
    name: str
    run: Callable
    settings: dict = field(default_factory=dict)
    noted: str = ''


def wait_for(cluster, condition):
    """Waits until a session of the server is as this condition on pg_stat_activity says."""
    for _ in range(500):
        if not cluster.has_no(condition):
            return
        time.sleep(0.02)
    raise TimeoutError(f'no session with {condition}')


def waits_for_standby(cluster, session):
    """Lets a session commit an UPDATE that waits for the standby."""
    session.execute('SET synchronous_commit = on')
    session.send('UPDATE acct SET bal = 1 WHERE id = 1')
    wait_for(cluster, f"pid = {session.process} AND wait_event = 'SyncRep'")


def in_another_order(cluster, given):
    """A commit is visible before another one that stands before it in the WAL."""
    slow, quick, reader = (cluster.connect() for _ in range(3))
    reads = Given(1)
    waits_for_standby(cluster, slow)
    quick.execute('UPDATE acct SET bal = 2 WHERE id = 2')
    reads.execute(reader, ALL)
    cluster.control.execute(f'SELECT pg_cancel_backend({slow.process})')
    slow.receive()
    reads.execute(reader, ALL)
    quick.execute('UPDATE acct SET bal = 5 WHERE id = 1')
    finish(given, reads, slow, quick, reader)


def not_nested(cluster, given):
    """The snapshot of a new slot is made of the WAL: it sees the commit that waits, and not the one behind it, which others see instead."""
    first, second, slow, quick, reader, other = (cluster.connect() for _ in range(6))
    maker = cluster.connect(replication='database')
    reads = Given(1)
    xid = running(first)
    maker.send('CREATE_REPLICATION_SLOT second LOGICAL test_decoding')
    wait_for(cluster, WAITS.format(maker.process, xid))
    xid = running(second)
    first.execute('COMMIT')
    wait_for(cluster, WAITS.format(maker.process, xid))
    waits_for_standby(cluster, slow)
    xid = cluster.watcher.execute(f'SELECT backend_xid FROM pg_stat_activity WHERE pid = {slow.process}').rows[0][0]
    second.execute('COMMIT')
    wait_for(cluster, WAITS.format(maker.process, xid))     # its snapshot is decided now
    quick.execute('UPDATE acct SET bal = 2 WHERE id = 2')
    reads.execute(reader, ALL)
    cluster.control.execute(f'SELECT pg_cancel_backend({slow.process})')
    slow.receive()
    snapshot = maker.receive().rows[0][2]
    other.execute('BEGIN ISOLATION LEVEL REPEATABLE READ')
    other.execute(f"SET TRANSACTION SNAPSHOT '{snapshot}'")
    reads.execute(other, ALL)
    other.execute('COMMIT')
    reads.execute(reader, ALL)
    quick.execute('UPDATE acct SET bal = 5 WHERE id = 1')
    finish(given, reads, first, second, slow, quick, reader, other, maker)
    cluster.wait_for_sessions()
    cluster.control.execute("SELECT pg_drop_replication_slot('second')")


def running(session):
    """Lets a session be in a transaction, and gives its xid."""
    session.execute('BEGIN')
    return session.execute('SELECT txid_current()').rows[0][0]


def many_subtransactions(cluster, given):
    """A hundred subtransactions that write: more than a snapshot lists (64 of a session)."""
    writer, reader, other = (cluster.connect() for _ in range(3))
    reads = Given(1)
    writer.execute('BEGIN')
    for number in range(100):
        writer.execute(f'SAVEPOINT s{number}')
        writer.execute(f'INSERT INTO acct VALUES ({100 + number}, {number})')
        if number in (20, 90):
            reads.execute(reader, ALL)
    other.execute('UPDATE acct SET bal = 7 WHERE id = 1')
    writer.execute('ROLLBACK TO s90')
    reads.execute(reader, ALL)
    reader.execute('BEGIN ISOLATION LEVEL REPEATABLE READ')
    reads.execute(reader, FEW)
    writer.execute('COMMIT')
    reads.execute(reader, FEW)
    reader.execute('COMMIT')
    reads.execute(reader, ALL)
    finish(given, reads, writer, reader, other)


def finish(given, reads, *sessions):
    given.update(reads.reads)
    for session in sessions:
        session.close()


CASES = [
    Case('commits are seen in another order', in_another_order, NO_STANDBY, 'in another order than that of the WAL'),
    Case('snapshots are not nested', not_nested, NO_STANDBY, 'its snapshot is no version'),
    Case('a hundred subtransactions', many_subtransactions),
]


def check(window, found, case):
    """A failure, if OUT.left does not say what happened: then the window was not as it should be."""
    with open(window.path(f'{found.source.out}.left'), encoding='utf-8') as file:
        return [] if case.noted in file.read() else [f'nothing says: {case.noted}']
