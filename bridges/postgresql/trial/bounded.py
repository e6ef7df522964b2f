"""The search for places in a table without a key: it stops, and says so, where there are many places and many rows."""
import time

from bridge.decoding import Commit
from bridge.places import LOOKED, STOPPED
from bridge.schema import INT, TEXT, Column, Table
from bridge.settle import Settling
from bridge.steps import Step, Transaction
from bridge.terms import Statement

ROWS, COMMITS, STEPS, LONG = 2000, 200, 4, 30.0         # seconds of a processor that it may take


def check() -> list[str]:
    """What is wrong: a transaction of statements that waited long, none of which writes what the slot shows, takes long or is not told."""
    table = Table('note', [Column('who', TEXT), Column('amount', INT)], [])
    start = [(f'n{number % 50}', number) for number in range(ROWS)]
    commits = [Commit(str(100 + at), 1.0 + at / 1000, [('note', (f'n{at % 50}', at), (f'n{at % 50}', -at))], tables={'note'}) for at in range(1, COMMITS)]
    last = Commit('999', 2.0, [('note', (f'n{step}', 1000 + step), (f'n{step}', 7)) for step in range(STEPS)], tables={'note'})
    sets = [('amount', ('arithmetic', '+', ('column', None, 'amount'), ('literal', 1)))]
    steps = [Step(1 + step, 1.0, 1.9, Statement('update', 'note', sets=sets, where=('compare', '<', ('column', None, 'amount'), ('literal', 900))))
             for step in range(STEPS)]
    transaction = Transaction('s', 'read committed', 1, steps=steps, started=1.0, first_end=1.9, xid='999', fate='committed', end=2.0, commit=len(commits))
    began = time.process_time()
    Settling({'note': table}, {'note': start}, [transaction], [*commits, last]).run()
    took = time.process_time() - began
    return ([f'the search took {took:.0f} seconds'] if took > LONG else []) + (
        [] if transaction.reason == STOPPED and transaction.literals else [f'the reason is {transaction.reason!r}, beyond {LOOKED} rows'])
