"""Random transactions of eight concurrent sessions on three tables, with errors, rollbacks, waits and savepoints."""
import random
import re
import threading
import time
from dataclasses import dataclass

from .given import Given, together
from .protocol import ServerError

SESSIONS = 8
LEVELS = ('READ COMMITTED', 'REPEATABLE READ', 'SERIALIZABLE')
SETUP = """
CREATE TABLE acct (id INTEGER PRIMARY KEY, owner TEXT NOT NULL, bal NUMERIC(10,2), active BOOLEAN DEFAULT true);
CREATE TABLE public.item (id BIGINT PRIMARY KEY, name VARCHAR(40) DEFAULT 'none', qty INTEGER CHECK (qty >= 0), added DATE);
CREATE TABLE note (who TEXT, amount INTEGER);
INSERT INTO acct SELECT n, 'owner ' || n % 4, n * 10.25, n % 2 = 0 FROM generate_series(1, 8) n;
INSERT INTO item SELECT n, 'it''s ' || n, n % 5, CASE WHEN n % 3 > 0 THEN date '2026-01-01' + n END FROM generate_series(1, 6) n;
INSERT INTO note VALUES ('first', 1), ('first', 1), (NULL, 2);
"""
WRITES = (
    "UPDATE acct SET bal = bal + {cents} WHERE id = {k}",
    "UPDATE acct SET bal = bal - {cents}, owner = 'moved' WHERE id IN ({k}, {j})",
    "UPDATE public.acct AS a SET active = NOT a.active WHERE a.bal BETWEEN {k} AND {j}0.5",
    "UPDATE acct SET bal = bal * 2 WHERE active AND bal < {j}5",
    "UPDATE acct SET bal = CASE WHEN bal > {j}0 THEN bal - {k} ELSE bal + 1 END WHERE owner = 'owner {k}'",
    "UPDATE acct\n   SET bal = bal + {cents}  -- interest\n WHERE id = {j}",
    "UPDATE acct SET (bal, owner) = (bal + 1, 'pair {k}') WHERE id = {j}",
    "UPDATE item SET qty = qty - 1 WHERE id = {k}",
    "UPDATE item SET qty = COALESCE(qty, 0) + 1 WHERE id = ANY (ARRAY[{k}, {j}]::bigint[])",
    "UPDATE item SET added = current_date WHERE id = {j} RETURNING id, added",
    "UPDATE item i SET qty = i.qty + {k}, added = '2026-03-0{k}'::date WHERE qty < {j} OR added IS NULL",
    "UPDATE note SET amount = amount + 1 WHERE who = 'session {k}' OR amount <= {j}",
    "UPDATE note SET who = NULLIF(who, 'O''Brien') WHERE amount IS DISTINCT FROM {k}",
    "INSERT INTO item (id, qty) VALUES ({j}, {k})",
    "INSERT INTO item (name, id, added) VALUES ('new', {new}, DATE '2026-02-1{k}'), (DEFAULT, {new} + 0, NULL)",
    "INSERT INTO item VALUES ({new}, 'x', {k}, NULL)",
    "INSERT INTO item (id, name, added, qty) VALUES ({new}, upper('computed'), DATE '2026-01-01' + 3, 2 * {j})",
    "INSERT INTO note VALUES ('session {k}', {j}), ('O''Brien', NULL)",
    "INSERT INTO note SELECT owner, id FROM acct WHERE bal >= {j}0",
    "INSERT INTO note (amount, who) SELECT i.qty, a.owner FROM acct a JOIN item AS i ON a.id = i.id WHERE i.qty > {k}",
    "DELETE FROM note WHERE amount < {k}",
    "DELETE FROM item WHERE id = {j}",
    "DELETE FROM acct AS a WHERE a.bal > {j}00",
    "EXECUTE pay({cents}, {k})",
)
READS = (
    "SELECT * FROM acct WHERE id = {k} FOR UPDATE",
    "SELECT owner, count(*), sum(bal) AS total FROM acct GROUP BY owner ORDER BY 2 DESC",
    "SELECT a.id, i.name FROM acct a JOIN item i ON a.id = i.id WHERE i.qty > {k} ORDER BY a.id",
    "SELECT name FROM item ORDER BY id LIMIT {k}",
    "SELECT max(amount) FROM note",
)
MORE_READS = (                                          # of the windows whose reads matter most
    "SELECT * FROM acct WHERE id = {k}",
    "SELECT id, owner, bal FROM acct",
    "SELECT id, qty FROM item WHERE qty > {k}",
    "SELECT who, amount FROM note",
    "SELECT id, owner FROM acct WHERE bal > {j}0 FOR UPDATE",
    "SELECT id, qty FROM item FOR SHARE",
)
NOT_COVERED = (
    "UPDATE acct SET bal = bal / 2 WHERE id = {k}",
    "INSERT INTO item (id, qty) VALUES ({k}, 1) ON CONFLICT (id) DO UPDATE SET qty = item.qty + 1",
    "UPDATE item SET qty = (SELECT count(*) FROM note) WHERE id = {k}",
)
REASONS = re.compile(                                   # why a transaction of the workload may be not covered:
    r'the operator /|ON CONFLICT|a subquery'            # by NOT_COVERED,
    r'|some of equal rows'                              # by a write of one of two equal rows of note,
    r'|values that the server computed')                # or rolled back, so that nothing shows what it computed
DOUBT = re.compile(r'(; )?log lines [\d, ]+: which of them committed xid \d+ is not known$')
ENDS = {'COMMIT': 80, 'END': 4, 'COMMIT AND CHAIN': 4, 'ROLLBACK': 12}           # how often a transaction ends so
PREPARED = 'PREPARE pay (numeric, int) AS UPDATE acct SET bal = bal + $1 WHERE id = $2'
VALUE = re.compile(r"(?<![\w'.$])\{(\w+)\}(?![\w'.])")           # a value that stands alone, so that it can be a parameter


@dataclass
class Settings:
    """What the sessions of a run do. Without a level each transaction has one at random."""
    seed: int
    level: str | None
    transactions: int
    more_reads: float = 0.0                             # this share of the statements are SELECTs more


class Session(threading.Thread):
    """One session. Statements that the server refuses are a part of the workload."""

    def __init__(self, connection, number, settings):
        super().__init__()
        self.connection, self.settings, self.given = connection, settings, Given(number)
        self.random = random.Random(settings.seed * SESSIONS + number)
        self.new = (settings.seed * SESSIONS + number) % 1000 * 1000
        self.fault = None

    def run(self):
        try:
            if self.settings.level:                     # of statements outside of a block too
                self.execute(f"SET default_transaction_isolation = '{self.settings.level.lower()}'")
            self.execute(PREPARED)
            for _ in range(self.settings.transactions):
                if self.random.random() < 0.12:
                    self.execute(*self.statement())
                elif self.random.random() < 0.04:
                    self.execute('; '.join(self.text() for _ in range(2)))      # one message, so one transaction
                else:
                    self.transaction()
            if self.random.random() < 0.2:              # the session is cut off, which no line of the log says
                self.execute('BEGIN')
                self.execute(*self.statement())
            self.connection.close()
        except Exception as fault:                      # kept for the thread that waits for this one
            self.fault = fault

    def transaction(self):
        """A block of one to four statements, and perhaps another one that it is chained to."""
        self.execute('BEGIN ISOLATION LEVEL ' + (self.settings.level or self.random.choice(LEVELS)))
        end = 'COMMIT AND CHAIN'
        while end == 'COMMIT AND CHAIN':
            self.block()
            end = self.random.choices(list(ENDS), ENDS.values())[0]
            self.execute(end)

    def block(self):
        """The statements of a block. A fault takes it back to the savepoint, if it has one."""
        saved = False
        for _ in range(self.random.randint(1, 4)):
            if self.random.random() < 0.1:
                saved = self.execute('SAVEPOINT here')
            if not self.execute(*self.statement()):
                if not saved:
                    break
                self.execute('ROLLBACK TO SAVEPOINT here')
            elif saved and self.random.random() < 0.3:
                self.execute('ROLLBACK TO here')

    def text(self):
        """A random statement with its values."""
        return self.statement(0)[0]

    def statement(self, share=0.3):
        """A random statement and its parameters. This share of the statements has parameters, the others have values."""
        self.new += 1
        texts = self.random.choices((WRITES, READS, NOT_COVERED), (70, 27, 3))[0]
        if self.settings.more_reads and self.random.random() < self.settings.more_reads:
            texts = READS + MORE_READS
        text = self.random.choice(texts)
        values = {'k': self.random.randint(1, 4), 'j': self.random.randint(2, 9), 'new': 100 + self.new,
                  'cents': f'{self.random.randint(1, 30)}.{self.random.randint(0, 99):02}'}
        parameters = []
        if self.random.random() < share and not text.startswith('EXECUTE'):
            parameters = [values[name] for name in VALUE.findall(text)]
            places = iter(range(1, len(parameters) + 1))
            text = VALUE.sub(lambda _: f'${next(places)}', text)
        return text.format(**values), *parameters

    def execute(self, text, *parameters):
        """Whether the server took a statement."""
        try:
            prepared = bool(parameters) and self.random.random() < 0.5
            self.given.execute(self.connection, text, *parameters, prepared=prepared)
            return True
        except ServerError:
            return False
        finally:
            time.sleep(self.random.choice((0, 0, 0.001, 0.004)))


def run(cluster, settings, given):
    """Runs the sessions of a workload beside each other, to their ends. What they read goes to `given`."""
    sessions = [Session(cluster.connect(), number, settings) for number in range(SESSIONS)]
    for session in sessions:
        session.start()
    for session in sessions:
        session.join()
    given.update(together(sessions))
    if fault := next((session.fault for session in sessions if session.fault), None):
        raise fault


def check(_, found):
    """What is wrong: a transaction is not covered for a reason that the workload does not have, as where no place was found for it."""
    covers = ((verdict, DOUBT.sub('', verdict.reason)) for verdict in found.verdicts if verdict.verdict == 'not covered')
    return [str(verdict) for verdict, cover in covers if cover and not REASONS.search(cover)]
