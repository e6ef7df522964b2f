"""The records of pgAudit in the place of durations: the same script is made of the same run."""
import csv
import io
import os
import threading
import time
from functools import partial
from typing import Any, cast

from .cluster import Cluster
from .judge import HERE, call, verified
from .protocol import ServerError
from .window import Window, record

SETUP = '''
CREATE TABLE acct (id INTEGER PRIMARY KEY, bal INTEGER CHECK (bal > -1000));
CREATE TABLE note (who TEXT, said TEXT);
INSERT INTO acct SELECT n, 100 FROM generate_series(1, 8) n;
CREATE FUNCTION pay(payer INTEGER, payee INTEGER, amount INTEGER) RETURNS void LANGUAGE plpgsql AS $$ BEGIN
  UPDATE acct SET bal = bal - amount WHERE id = payer; UPDATE acct SET bal = bal + amount WHERE id = payee; END $$;
'''
PAUSES = (0.03, 0.1, 0.3)                               # between statements, so that the times of both kinds of records give one order: on a machine under load longer ones
ONE, OTHER = 0, 1
STATEMENTS = [                                          # (session, text, parameters)
    (ONE, 'BEGIN'), (ONE, 'SELECT bal FROM acct WHERE id = 1'), (OTHER, 'UPDATE acct SET bal = bal + 5 WHERE id = 2'),
    (ONE, 'UPDATE acct SET bal = 70 WHERE id = 1'), (ONE, 'SAVEPOINT a'), (ONE, "INSERT INTO note VALUES ('ann', 'a, \"b\"\nand c')"), (ONE, 'ROLLBACK TO a'),
    (ONE, 'COMMIT'), (ONE, 'UPDATE acct SET bal = 8 WHERE id = 2; UPDATE acct SET bal = 9 WHERE id = 3'),
    (OTHER, 'BEGIN; UPDATE acct SET bal = 1 WHERE id = 4; ROLLBACK'), (OTHER, 'UPDATE acct SET bal = $1 WHERE id = $2', '9', '1'),
    (OTHER, 'INSERT INTO note VALUES ($1, $2)', "o'neil, ann", None), (ONE, 'UPDATE acct SET bal = -5000 WHERE id = 1'),
    (ONE, 'PREPARE p AS UPDATE acct SET bal = $1 WHERE id = $2'), (ONE, 'EXECUTE p(4, 5)'), (ONE, 'EXECUTE p(4, 5)'),
    (ONE, 'DO $$ BEGIN UPDATE acct SET bal = 3 WHERE id = 2; END $$'), (ONE, 'SELECT pay(1, 2, 3)'),
    (ONE, 'BEGIN ISOLATION LEVEL REPEATABLE READ'), (ONE, 'SELECT bal FROM acct WHERE id = 6'), (OTHER, 'UPDATE acct SET bal = 6 WHERE id = 6'),
    (ONE, 'UPDATE acct SET bal = 7 WHERE id = 6'), (ONE, 'ROLLBACK'), (ONE, 'DELETE FROM acct WHERE id = 8'), (OTHER, 'UPDATE acct SET bal = bal + 1'),
]
WAITING = [(ONE, 'BEGIN'), (ONE, 'UPDATE acct SET bal = bal + 1 WHERE id = 7'), (OTHER, 'UPDATE acct SET bal = bal + 10 WHERE id = 7'), (ONE, 'COMMIT')]


def work(cluster: Cluster, pause: float) -> None:
    """What two sessions do, one statement after another, and at last one waits for the other."""
    sessions = [cluster.connect(), cluster.connect()]
    for at, text, *parameters in cast(list[Any], STATEMENTS):
        time.sleep(pause)
        try:
            sessions[at].send(text, *parameters)
            sessions[at].receive()
        except ServerError:
            pass                                        # which the log has too
    waits = threading.Thread(target=lambda: sessions[OTHER].execute(WAITING[2][1]))
    for at, text in WAITING:
        time.sleep(pause)
        if at == OTHER:
            waits.start()
        else:
            sessions[at].execute(text)
    waits.join()
    for session in sessions:
        session.close()


def without_durations(log: bytes) -> str:
    """The log as pgAudit alone would have it: without durations, and what they tell of prepared statements."""
    kept = io.StringIO()
    rows = csv.writer(kept, lineterminator='\n')
    rows.writerows(fields for fields in csv.reader(io.StringIO(log.decode(), newline='')) if not fields[13].startswith('duration: '))
    return kept.getvalue()


def check(folder: str, gprom: str) -> list[str]:
    """What is wrong: the scripts of both kinds of records differ, or one has a transaction that is not as the other tells. A record without a duration
    tells only when a statement began, so where each pause is too short for the machine, the run with the next one decides."""
    failures: list[str] = []
    for pause in PAUSES:
        own = os.path.join(folder, str(pause))
        os.makedirs(own)
        failures = check_run(own, gprom, pause)
        if not failures:
            break
    return failures


def check_run(folder: str, gprom: str, pause: float) -> list[str]:
    """What is wrong with one run."""
    window = Window(folder)
    with Cluster(audits=True) as cluster:
        record(cluster, window, SETUP, partial(work, pause=pause))
    with open(window.path('log.csv'), 'rb') as opened:
        window.save('audit.csv', without_durations(opened.read()))
    made = []
    for log, out in ('log.csv', 'out'), ('audit.csv', 'audited'):
        call([f'{HERE}/convert', log, out, '--tables', 'tables.sql', '--slot', 'slot.txt', '--rows', 'acct=acct.csv'], (0,), folder=folder)
        verdicts, _ = verified(window, gprom, out)
        with open(window.path(f'{out}.script'), encoding='utf-8') as script:
            made.append((script.read(), [(one.transaction, one.fate, one.verdict) for one in verdicts]))
    return [f'pgAudit gives another script or other verdicts: {window.path("audited.script")}'] if made[0] != made[1] else []
