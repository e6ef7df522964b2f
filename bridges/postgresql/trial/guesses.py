"""What a log alone leaves open, and the bridge once guessed: who committed, what a session's settings change, what a server refused.

The cases are as in `cases`. Besides, sessions write the same rows beside each other without BEGIN, where the log names no transaction. What
made each commit is known here: RETURNING xmin gives it to the client. So no transaction may be `same` that another session made.
"""
import threading
from dataclasses import dataclass

from bridge.compare import read_map

from .cases import ACCOUNTS, NEXT, PARENTS, Case

LOOP = [statement.format(k=k) for k in range(3, 33) for statement in
        ('DELETE FROM parent WHERE id = 99', 'UPDATE child SET parent = parent WHERE id = 12', 'DELETE FROM parent WHERE id = {k}')]
HIGH = 'CREATE TABLE amount (id INTEGER PRIMARY KEY, v NUMERIC(38,18), n INTEGER); INSERT INTO amount VALUES (1, 1.5, 0), (20, 2.5, 0);'
ENTRIES = """CREATE TABLE entry (id INTEGER PRIMARY KEY, n INTEGER, double INTEGER GENERATED ALWAYS AS (n * 2) STORED);
             INSERT INTO entry VALUES (1, 10), (2, 20), (3, 30);"""
VISITS = """CREATE TABLE place (id INTEGER PRIMARY KEY); INSERT INTO place VALUES (1), (2);
            CREATE TABLE visit (id INTEGER PRIMARY KEY, at TIMESTAMP(3), zoned TIMESTAMPTZ, n INTEGER,
                                place INTEGER REFERENCES place ON DELETE CASCADE);
            CREATE TABLE note (visit INTEGER REFERENCES visit ON UPDATE CASCADE);
            INSERT INTO visit VALUES (1, '2026-03-01 08:00:00.5', '2026-03-01 08:00+00', 0, 1);"""
COMMITTING = """CREATE PROCEDURE thrice() LANGUAGE plpgsql AS $$ BEGIN
                UPDATE acct SET bal = bal + 5 WHERE id = 1; COMMIT; UPDATE acct SET bal = bal + 5 WHERE id = 2; ROLLBACK;
                UPDATE acct SET bal = bal + 5 WHERE id = 2; COMMIT; UPDATE acct SET bal = bal + 5 WHERE id = 3; END $$;"""
OTHER = """DROP SCHEMA IF EXISTS zoo CASCADE; CREATE SCHEMA zoo; CREATE TABLE zoo.acct (id INTEGER PRIMARY KEY, bal INTEGER);
           INSERT INTO zoo.acct VALUES (1, 1), (2, 2);"""
POLICY = """DO $$ BEGIN IF NOT EXISTS (SELECT FROM pg_roles WHERE rolname = 'clerk') THEN CREATE ROLE clerk; END IF; END $$;
            ALTER TABLE acct ENABLE ROW LEVEL SECURITY; CREATE POLICY own ON acct USING (id = 1 OR id = 3);
            GRANT USAGE ON SCHEMA public TO clerk; GRANT ALL ON acct TO clerk;"""
DOUBT = 'is not known'                                  # in the reason where the log does not say who committed
INNOCENT = ['BEGIN ISOLATION LEVEL REPEATABLE READ', 'SELECT bal FROM acct WHERE id = 1',       # not of public.acct
            'b: BEGIN ISOLATION LEVEL REPEATABLE READ', 'b: SELECT bal FROM acct WHERE id = 2',
            'UPDATE public.acct SET bal = 0 WHERE id = 2', 'b: UPDATE acct SET bal = 0 WHERE id = 1', 'COMMIT', 'b: COMMIT']
EQUALS = 'CREATE TABLE many (n INTEGER); INSERT INTO many SELECT 7 FROM generate_series(1, 5000);'

CASES = [
    Case('a session in a loop', PARENTS.format(rule='ON DELETE CASCADE') +
         'INSERT INTO parent SELECT n FROM generate_series(3, 40) n; INSERT INTO child SELECT 100 + n, n FROM generate_series(3, 40) n;',
         LOOP, ', '.join(['same, same, patched'] * 30)),
    Case('a procedure that commits', ACCOUNTS + COMMITTING,
         [NEXT, 'CALL thrice()', NEXT, 'UPDATE acct SET bal = bal + 1 WHERE id = 2', 'DO $$ BEGIN UPDATE acct SET bal = 0 WHERE id = 1; COMMIT; END $$',
          NEXT],
         'same, patched, patched, patched, same, same, patched, same', unsaid=3),
    Case('starting rows with a generated column', ENTRIES,
         ['UPDATE entry SET n = n + 1 WHERE id < 3', 'DELETE FROM entry WHERE double = 22', 'UPDATE entry SET n = 1 WHERE double = 42'],
         'same, same, same'),
    Case('numbers that are scaled beyond the limits', HIGH,
         ['UPDATE amount SET n = 1 WHERE v < 100', 'UPDATE amount SET n = n + 1 WHERE id > v', 'BEGIN', 'SELECT id FROM amount WHERE v < 1000',
          'UPDATE amount SET n = n + 1 WHERE id = 1', 'COMMIT', 'UPDATE amount SET v = 3 WHERE v * 10 > id'],
         'same, same, same, same'),
    Case('a row that comes back within the limits', HIGH,
         ['INSERT INTO amount VALUES (2, 100, 0)', 'UPDATE amount SET v = 1 WHERE id = 2', 'UPDATE amount SET n = n + 1 WHERE id = 2',
          'UPDATE amount SET v = 200 WHERE id = 1', 'UPDATE amount SET n = 5 WHERE id = 1', 'UPDATE amount SET n = 6, v = 1 WHERE id = 1',
          'UPDATE amount SET n = n + 1 WHERE id = 1'],
         'patched, patched, same, patched, patched, patched, same'),
    Case('fractions of seconds', VISITS,
         ["INSERT INTO visit VALUES (2, '2026-03-01 09:00:00.123456', NULL, 0, 1)", "UPDATE visit SET at = '2026-03-01 09:00:00.9996' WHERE id = 1",
          "DELETE FROM visit WHERE at = '2026-03-01 09:00:00.123'", "UPDATE visit SET n = 1 WHERE at < '2026-03-01 09:00:01.0001'"],
         'same, same, same, same'),
    Case('patches write more row versions than the server', EQUALS,
         [f'UPDATE many SET n = {n} WHERE ctid = (SELECT min(ctid) FROM many)' for n in range(8, 32)] + ['ALTER TABLE many ADD m INTEGER'],
         ', '.join(['patched'] * 19 + ['not covered'] * 6)),
    Case('a session with a time zone', VISITS,
         ["SET TIME ZONE 'America/New_York'", "UPDATE visit SET n = 1 WHERE zoned = '2026-03-01 03:00'",
          "INSERT INTO visit VALUES (2, '2026-03-01 09:00', '2026-03-01 09:00', 0, 1)", 'RESET TIME ZONE',
          "UPDATE visit SET n = 2 WHERE zoned > '2026-03-01 13:00'", 'BEGIN', "SET LOCAL timezone = 'America/New_York'",
          "UPDATE visit SET n = 3 WHERE zoned > '2026-03-01 05:00'", 'COMMIT', "UPDATE visit SET n = 4 WHERE zoned > '2026-03-01 05:00'"],
         'same, same, same, same, same', left=["time zone 'America/New_York'"]),
    Case('a search path', ACCOUNTS + OTHER, ['SET search_path = zoo, public', *INNOCENT], 'same, same',
         {'SERIAL': ['1', '3', '2']}, unsaid=1, left=['zoo.acct']),
    Case('a search path that a function sets', ACCOUNTS + OTHER, ["SELECT set_config('search_path', 'zoo', false)", *INNOCENT], 'same, same',
         {'SERIAL': ['1', '3', '2']}, unsaid=1, left=['zoo.acct']),
    Case('a search path of a transaction', ACCOUNTS + OTHER,
         ['BEGIN', 'SET LOCAL search_path = zoo', 'DELETE FROM acct', 'COMMIT', NEXT, 'BEGIN', 'SET search_path = zoo', 'ROLLBACK', NEXT,
          'BEGIN', 'SAVEPOINT one', 'SET search_path = zoo', 'ROLLBACK TO one', NEXT, 'COMMIT', NEXT],
         'patched, same, same, same, same', unsaid=1),
    Case('a temporary table that hides another', ACCOUNTS,
         ['CREATE TEMP TABLE acct AS SELECT * FROM acct', *INNOCENT, 'DROP TABLE acct', NEXT, 'BEGIN',
          'CREATE TEMP TABLE acct (id INTEGER, bal INTEGER) ON COMMIT DROP', 'INSERT INTO acct VALUES (7, 7)', 'COMMIT', NEXT],
         'same, same, same, same, same, same', {'SERIAL': ['1', '2', '4', '3', '5', '6', '7']}),
    Case('row level security', ACCOUNTS + POLICY,
         ['SET ROLE clerk', 'BEGIN ISOLATION LEVEL REPEATABLE READ', 'SELECT sum(bal) FROM acct',
          'b: BEGIN ISOLATION LEVEL REPEATABLE READ', 'b: SELECT bal FROM acct WHERE id = 1', 'UPDATE acct SET bal = 0 WHERE id = 1',
          'b: UPDATE acct SET bal = 0 WHERE id = 2', 'COMMIT', 'b: COMMIT', 'RESET ROLE', NEXT],
         'patched, same, same', {'SERIAL': ['1', '3', '2', '4']}, unsaid=2, left=['row level security of acct']),
    Case('an UPDATE that could not be serialized', ACCOUNTS,
         ['BEGIN ISOLATION LEVEL REPEATABLE READ', 'SELECT * FROM acct', f'b: {NEXT}', 'UPDATE acct SET bal = bal - 1 WHERE id = 1', 'ROLLBACK',
          "SET default_transaction_isolation = 'repeatable read'", NEXT, 'BEGIN', 'SELECT * FROM acct', 'b: DELETE FROM acct WHERE id = 2',
          'SELECT * FROM acct WHERE id = 2 FOR UPDATE', 'COMMIT'],
         'rolled back, same, same, rolled back, same',
         {'CONFLICTS 2': ['acct 1.1.1 at 1 : 3 wrote it as 2']}),
]


@dataclass
class Writers:
    """Sessions that write the same rows beside each other, each statement by itself."""
    name: str
    setup: str
    statements: list[str]           # of each session in turn, {k}: the number of the session, {n}: of the round; those that write give their xmin
    sessions: int = 6
    rounds: int = 15
    certain: float = 0.0            # which share of the commits has to be told of one session


COUNTERS = 'CREATE TABLE d (id INTEGER PRIMARY KEY, v INTEGER, at TIMESTAMPTZ, day TIMESTAMPTZ);'
WRITERS = [
    Writers('six rows by six sessions', COUNTERS + 'INSERT INTO d SELECT n, 0 FROM generate_series(0, 5) n;',
            ["UPDATE d SET at = now(), day = date_trunc('day', now()) WHERE id = {row} RETURNING xmin"], certain=0.5),
    Writers('one counter by six sessions', COUNTERS + 'INSERT INTO d VALUES (1, 0);', ['UPDATE d SET v = v + 1 WHERE id = 1 RETURNING xmin']),
    Writers('statements that find no row', COUNTERS + """INSERT INTO d VALUES (1, 0), (2, 0);
            CREATE FUNCTION more() RETURNS trigger LANGUAGE plpgsql AS $$ BEGIN NEW.v := NEW.v + 1; RETURN NEW; END $$;
            CREATE TRIGGER more BEFORE UPDATE ON d FOR EACH ROW EXECUTE FUNCTION more();""",
            ['UPDATE d SET v = 1 WHERE id = 9{k} RETURNING xmin', 'UPDATE d SET v = {n} WHERE id = {k} RETURNING xmin',
             'UPDATE d SET v = v / 1 WHERE id = 9{k} RETURNING xmin', 'UPDATE d SET v = v / 1 WHERE id = {k} RETURNING xmin'], 3, certain=0.9),
]


class Writer(threading.Thread):
    """A session of Writers. It knows the xids of its commits."""

    def __init__(self, connection, number, writers):
        super().__init__()
        self.connection, self.number, self.writers, self.xids, self.fault = connection, number, writers, [], None

    def run(self):
        try:
            for n in range(self.writers.rounds):
                for statement in self.writers.statements:
                    rows = self.connection.execute(statement.format(k=self.number, n=n, row=(self.number + n) % 6)).rows
                    self.xids += sorted({xid for xid, in rows})
            self.connection.close()
        except Exception as fault:                      # kept for the thread that waits for this one
            self.fault = fault


def write(cluster, writers, made):
    """Runs the sessions of Writers. `made` then has the process of each xid."""
    sessions = [Writer(cluster.connect(), number, writers) for number in range(writers.sessions)]
    for session in sessions:
        session.start()
    for session in sessions:
        session.join()
        if session.fault:
            raise session.fault
        made |= dict.fromkeys(session.xids, session.connection.process)


def check_owners(window, found, writers, made, counts):
    """What is wrong: a transaction of which no doubt is told, and that another session made; or too few without a doubt."""
    told = {entry['xid']: int(entry['session'].rpartition('.')[2], 16) for entry in read_map(window.path('out.tsv'))
            if entry['kind'] == 'transaction' and not entry['session'].startswith('xid ')}
    sure = {verdict.xid for verdict in found.verdicts if DOUBT not in verdict.reason}
    wrong = [f'xid {xid} is told of process {told.get(xid)}, and process {process} made it' for xid, process in made.items()
             if xid in sure and told.get(xid) != process]
    certain = sum(xid in sure for xid in made)
    counts.append((writers.name, len(made), certain))
    if certain < writers.certain * len(made):
        wrong.append(f'{certain} of {len(made)} commits are told of one session')
    return wrong


def summary(counts):
    """How many commits are told of one session."""
    return [f'{name}: {certain} of {commits} commits are told of one session' for name, commits, certain in counts]
