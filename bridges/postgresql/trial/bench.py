"""pgbench's own transaction, over as many rows as gprom's tables may have, or over more accounts."""
import os

CLIENTS, ACCOUNTS = 6, 60
PROTOCOLS = ('simple', 'extended', 'prepared')
LEVELS = ('read committed', 'repeatable read')
TABLES = """
CREATE TABLE pgbench_branches (bid INTEGER NOT NULL PRIMARY KEY, bbalance INTEGER, filler CHAR(88));
CREATE TABLE pgbench_tellers (tid INTEGER NOT NULL PRIMARY KEY, bid INTEGER, tbalance INTEGER, filler CHAR(84));
CREATE TABLE pgbench_accounts (aid INTEGER NOT NULL PRIMARY KEY, bid INTEGER, abalance INTEGER, filler CHAR(84));
CREATE TABLE pgbench_history (tid INTEGER, bid INTEGER, aid INTEGER, delta INTEGER, mtime TIMESTAMP, filler CHAR(22));
INSERT INTO pgbench_branches SELECT n, 0 FROM generate_series(1, 10) n;
INSERT INTO pgbench_tellers SELECT n, 1 + n % 10, 0 FROM generate_series(1, 40) n;
INSERT INTO pgbench_accounts SELECT n, 1 + n % 10, 0, '' FROM generate_series(1, {accounts}) n;
"""
SCRIPT = r"""
\set aid random(1, {accounts})
\set bid random(1, 10)
\set tid random(1, 40)
\set delta random(-5000, 5000)
BEGIN;
UPDATE pgbench_accounts SET abalance = abalance + :delta WHERE aid = :aid;
SELECT abalance FROM pgbench_accounts WHERE aid = :aid;
UPDATE pgbench_tellers SET tbalance = tbalance + :delta WHERE tid = :tid;
UPDATE pgbench_branches SET bbalance = bbalance + :delta WHERE bid = :bid;
INSERT INTO pgbench_history (tid, bid, aid, delta, mtime) VALUES (:tid, :bid, :aid, :delta, CURRENT_TIMESTAMP);
END;
"""


def setup(accounts=ACCOUNTS):
    """The statements that make the tables."""
    return TABLES.format(accounts=accounts)


def run(cluster, transactions, protocol, level, seed, accounts=ACCOUNTS, clients=CLIENTS):
    """Runs pgbench until each client has this many commits. What cannot be serialized is rolled back and tried again."""
    file = os.path.join(cluster.folder, 'transaction.sql')
    with open(file, 'w', encoding='utf-8') as opened:
        opened.write(SCRIPT.format(accounts=accounts))
    os.chmod(file, 0o644)
    options = {'PGOPTIONS': f"-c default_transaction_isolation={level.replace(' ', chr(92) + ' ')}"}
    cluster.command('pgbench', '-h', cluster.folder, '-U', 'postgres', '-n', '-f', file, '-M', protocol, '-c', str(clients),
                    '-t', str(transactions), '--max-tries=1000', f'--random-seed={seed}', 'postgres', environment=options)


def check(_, found, transactions):
    """What is wrong: each commit has to be the same, and nothing may be not covered."""
    same, commits = found.counts()['same'], CLIENTS * transactions
    failures = [str(verdict) for verdict in found.verdicts if verdict.verdict == 'not covered']
    return failures + ([] if same == commits else [f'{same} of {commits} commits are the same'])
