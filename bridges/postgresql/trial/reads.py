"""Sessions that read and write four rows beside each other, without or with pauses: where a log is most often wrong about reads.

A SELECT that locks its rows may have waited for their writer, and then gave them as that one left them.
"""
import random
import threading
import time
from dataclasses import dataclass

from .given import Given, together
from .judge import LOG
from .protocol import ServerError

SETUP = 'CREATE TABLE acct (id INTEGER PRIMARY KEY, bal INTEGER); INSERT INTO acct SELECT n, 100 FROM generate_series(1, 4) n;'
STATEMENTS = ('SELECT id, bal FROM acct WHERE id = {k}', 'SELECT id, bal FROM acct', 'SELECT id, bal FROM acct WHERE id = {k} FOR UPDATE',
              'UPDATE acct SET bal = bal + {n} WHERE id = {k}', 'UPDATE acct SET bal = {n} WHERE id = {k}')
SESSIONS, TRANSACTIONS = 8, 12
MOST = 0.2             # of the SELECTs that lock, how many may be wrong by the log: if they stood where they began, half of them would be


@dataclass
class Settings:
    """What the sessions of a run do: their level, and how many seconds they wait at most between two statements."""
    seed: int
    level: str
    pause: float


class Session(threading.Thread):
    """One session, which keeps what its SELECTs gave."""

    def __init__(self, connection, number, settings):
        super().__init__()
        self.connection, self.settings, self.given = connection, settings, Given(number)
        self.random = random.Random(settings.seed * SESSIONS + number)

    def run(self):
        for _ in range(TRANSACTIONS):
            statements = [self.random.choice(STATEMENTS) for _ in range(self.random.randint(1, 3))]
            for text in (f'BEGIN ISOLATION LEVEL {self.settings.level}', *statements, 'COMMIT'):
                self.execute(text.format(k=self.random.randint(1, 4), n=self.random.randint(1, 900)))
        self.connection.close()

    def execute(self, text):
        """Runs a statement. What the server refuses is a part of the run."""
        try:
            self.given.execute(self.connection, text)
        except ServerError:
            pass
        time.sleep(self.random.random() * self.settings.pause)


def run(cluster, settings, given):
    """Runs the sessions beside each other. What they read goes to `given`."""
    sessions = [Session(cluster.connect(), number, settings) for number in range(SESSIONS)]
    for session in sessions:
        session.start()
    for session in sessions:
        session.join()
    given.update(together(sessions))


def too_many(made):
    """A failure, if too many of the SELECTs that lock stand at the wrong place by the log."""
    locked = [read.is_same for read in made if read.locks and read.source == LOG.name]
    wrong = locked.count(False)
    return [f'{wrong} of {len(locked)} SELECTs that lock give other rows'] if wrong > MOST * len(locked) else []
