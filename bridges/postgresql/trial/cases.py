"""Small cases by hand: what an application does to a server, and gprom cannot say or says in other words.

Each case has its own tables and a few statements, of session a unless they begin with `b: `. Statements may fail, or wait
for the other session. In the end every transaction has to be `same`, or `not covered` with its reason, and the rows of the
last version those of the server. `expected` says which, so that nothing gets worse unseen: the kind of each transaction that
`verify` lists. What no verdict tells, such as what was read, `answers` says.
"""
import re
import time
from dataclasses import dataclass, field

from .judge import CAPTURE, ask
from .protocol import ServerError

ACCOUNTS = "CREATE TABLE acct (id INTEGER PRIMARY KEY, bal INTEGER); INSERT INTO acct VALUES (1, 100), (2, 50), (3, 7);"
PAIRS = "CREATE TABLE pair (name TEXT, n INTEGER); INSERT INTO pair VALUES ('x', 1), ('x', 1), ('y', 2);"
HISTORY = 'CREATE TABLE history (id INTEGER, bal INTEGER);'
PARENTS = """CREATE TABLE parent (id INTEGER PRIMARY KEY); INSERT INTO parent VALUES (1), (2);
             CREATE TABLE child (id INTEGER PRIMARY KEY, parent INTEGER REFERENCES parent {rule});
             INSERT INTO child VALUES (10, 1), (11, 1), (12, 2);"""
DOCTORS = """CREATE TYPE duty AS ENUM ('on call', 'off call');
             CREATE TABLE doctor (id INTEGER PRIMARY KEY, state duty); INSERT INTO doctor VALUES (1, 'on call'), (2, 'on call');
             CREATE TABLE shift (doctor INTEGER, hours INTEGER); INSERT INTO shift VALUES (1, 8);"""
NEXT = 'UPDATE acct SET bal = bal + 1 WHERE id = 1'     # shows that later transactions find the rows that they found on the server
UNSAID = re.compile(r'; (\d+) reads? cannot be said, so SERIAL and ANOMALIES of this history are incomplete')
PATIENCE = 1.0         # seconds without a reply, after which a statement is taken to wait
PAUSE = 0.003          # between statements, so that the log's milliseconds tell who committed first where two sessions run the same statement


@dataclass
class Case:
    """Tables, statements, what `verify` is to say of the transactions, and what gprom is to answer about them."""
    name: str
    setup: str
    statements: list[str]
    expected: str = ''
    answers: dict[str, list[str]] = field(default_factory=dict)     # by the question, the lines under the first
    unsaid: int = 0                                     # reads of functions and triggers, which no log has, by the last line of `verify`
    captured: str = ''                                  # what is expected by a capture, where that is other than by the log
    told: int = 0                                       # reads that cannot be said by a capture
    left: list[str] = field(default_factory=list)       # what OUT.left has to tell


def write_skews():
    """Write skews whose reads are in statements that are patched, or in conditions that gprom has no words for."""
    off = "UPDATE doctor SET state = 'off call' WHERE id = {}"
    pay = 'UPDATE acct SET bal = 0 WHERE id = {}'
    for name, setup, look, write, table, reads in (           # by which of its statements each one reads what the other writes
            ('ON CONFLICT', ACCOUNTS, 'INSERT INTO acct VALUES ({}, 0) ON CONFLICT (id) DO NOTHING', pay, 'acct', 1),
            # the first SELECT, of the ids outside, uses no column that is written
            ('EXISTS', ACCOUNTS, 'SELECT id FROM acct WHERE EXISTS (SELECT 1 FROM acct o WHERE o.id = {} AND o.bal > 5)', pay, 'acct', 2),
            ('an enum', DOCTORS, "SELECT count(*) FROM doctor WHERE state = 'on call' AND id = {}", off, 'doctor', 1),
            ('a LEFT JOIN', DOCTORS, 'SELECT d.state, s.hours FROM doctor d LEFT JOIN shift s ON s.doctor = d.id WHERE d.id = {}', off, 'doctor', 1)):
        begin = 'BEGIN ISOLATION LEVEL REPEATABLE READ'
        yield Case(f'a write skew through {name}', setup,
                   [begin, look.format(1), f'b: {begin}', f'b: {look.format(2)}', write.format(2), f'b: {write.format(1)}', 'COMMIT', 'b: COMMIT'],
                   'same, same', {'SERIAL': [f'2 before 3 : 2.{reads} read {table} 1.1.1 at 1, 3 wrote it as 3',
                                             f'3 before 2 : 3.{reads} read {table} 1.1.2 at 1, 2 wrote it as 2']})


CASES = [
    Case('a trigger writes another table', ACCOUNTS + HISTORY + """
         CREATE FUNCTION keep() RETURNS trigger LANGUAGE plpgsql AS
         $$ BEGIN INSERT INTO history VALUES (OLD.id, OLD.bal); RETURN NEW; END $$;
         CREATE TRIGGER keep BEFORE UPDATE ON acct FOR EACH ROW EXECUTE FUNCTION keep();""",
         ['UPDATE acct SET bal = bal - 30 WHERE id < 3', NEXT],
         'patched, patched', unsaid=2, captured='same, same'),
    Case('a trigger changes the row', ACCOUNTS + """
         CREATE FUNCTION round() RETURNS trigger LANGUAGE plpgsql AS $$ BEGIN NEW.bal := NEW.bal / 10 * 10; RETURN NEW; END $$;
         CREATE TRIGGER round BEFORE UPDATE ON acct FOR EACH ROW EXECUTE FUNCTION round();""",
         ['UPDATE acct SET bal = bal + 5', NEXT],
         'patched, patched', unsaid=2),
    Case('a rule writes another table', ACCOUNTS + HISTORY + """
         CREATE RULE keep AS ON UPDATE TO acct DO ALSO INSERT INTO history VALUES (OLD.id, OLD.bal);""",
         ['UPDATE acct SET bal = bal - 30 WHERE id = 2', NEXT],
         'patched, patched'),
    Case('a DELETE cascades', PARENTS.format(rule='ON DELETE CASCADE'),
         ['DELETE FROM parent WHERE id = 1', "INSERT INTO child VALUES (13, 2)"],
         'patched, same', captured='same, same'),
    Case('a DELETE sets references to NULL', PARENTS.format(rule='ON DELETE SET NULL'),
         ['BEGIN', 'DELETE FROM parent WHERE id = 1', 'UPDATE child SET id = id + 10 WHERE parent IS NULL', 'COMMIT'],
         'patched', captured='same'),
    Case('an UPDATE cascades', PARENTS.format(rule='ON UPDATE CASCADE'),
         ['UPDATE parent SET id = 5 WHERE id = 1', 'DELETE FROM child WHERE parent = 5'],
         'patched, same', captured='same, same'),
    Case('a constraint is deferred and fails', PARENTS.format(rule='DEFERRABLE INITIALLY DEFERRED'),
         ['BEGIN', 'INSERT INTO child VALUES (20, 9)', 'COMMIT', 'INSERT INTO child VALUES (21, 2)'],
         'rolled back, same'),
    Case('a DO block writes', ACCOUNTS, ['DO $$ BEGIN UPDATE acct SET bal = 0 WHERE id = 3; END $$', NEXT],
         'patched, same', unsaid=1, captured='same, same'),
    Case('a function writes', ACCOUNTS + """
         CREATE FUNCTION pay(integer) RETURNS integer LANGUAGE sql AS $$ UPDATE acct SET bal = bal - $1 RETURNING bal $$;""",
         ['SELECT pay(5)', 'BEGIN', 'SELECT pay(5)', NEXT, 'COMMIT'],
         'patched, patched', unsaid=2, captured='same, same'),
    Case('tables are truncated', ACCOUNTS + HISTORY,
         ['INSERT INTO history VALUES (1, 1)', 'TRUNCATE history, acct', 'INSERT INTO acct VALUES (1, 5)', NEXT],
         'same, same, same, same'),
    Case('texts are compared under a collation', """
         CREATE TABLE word (id INTEGER PRIMARY KEY, w TEXT COLLATE "und-x-icu", n INTEGER);
         INSERT INTO word VALUES (1, 'a', 0), (2, 'B', 0), (3, 'c', 0);""",
         ["UPDATE word SET n = 1 WHERE w < 'b'", "UPDATE word SET n = n + 1 WHERE w = 'B'"],
         'patched, same'),
    Case('one of two equal rows is written', PAIRS,
         ["UPDATE pair SET n = 5 WHERE ctid = (SELECT min(ctid) FROM pair)", "UPDATE pair SET n = n + 1 WHERE name = 'x'"],
         'patched, same'),
    Case('equal rows are written together', PAIRS,
         ["UPDATE pair SET n = n + 1 WHERE name = 'x'", "DELETE FROM pair WHERE n = 2", "INSERT INTO pair VALUES ('x', 1), ('x', 1)"],
         'same, same, same'),
    Case('dates in other forms', """
         CREATE TABLE visit (id INTEGER PRIMARY KEY, at DATE, since TIMESTAMP);
         INSERT INTO visit VALUES (1, '2026-03-01', '2026-03-01 08:00'), (2, '2026-11-02', '2026-11-02 23:59:59.5');""",
         ["DELETE FROM visit WHERE at = '1 Mar 2026'", "UPDATE visit SET since = '2026-3-1T9:00' WHERE at > '2026-3-9'",
          "INSERT INTO visit VALUES (3, 'March 5, 2026', '20260305 12:30')",
          "UPDATE visit SET at = date '2026-01-01' WHERE since < 'tomorrow'"],
         'same, same, same, same'),
    Case('a list of sixty', ACCOUNTS + 'INSERT INTO acct SELECT n, n FROM generate_series(4, 90) n;',
         [f"UPDATE acct SET bal = bal + 1 WHERE id IN ({', '.join(map(str, range(1, 61)))})", NEXT,
          'DELETE FROM acct WHERE bal IN (SELECT bal FROM acct WHERE id BETWEEN 5 AND 85)'],
         'same, same, same', {'AS OF 4 SELECT id FROM acct': ['1', '4', '86', '87', '88', '89', '90']}),
    Case('several statements in a message', ACCOUNTS,
         [f'{NEXT}; UPDATE acct SET bal = bal - 1 WHERE id = 2', f'BEGIN; {NEXT}; COMMIT',
          'DELETE FROM acct WHERE id = 3; SELECT 1 / 0', NEXT],
         'same, same, same', captured='same, same, rolled back, same'),
    Case('values of the server', """
         CREATE TABLE entry (id SERIAL PRIMARY KEY, made TIMESTAMPTZ DEFAULT now(), n INTEGER,
                             double INTEGER GENERATED ALWAYS AS (n * 2) STORED);""",
         ['INSERT INTO entry (n) VALUES (1), (2)', 'UPDATE entry SET n = n + 1', 'UPDATE entry SET made = now() WHERE n = 2'],
         'same, same, same'),
    Case('rows that are there already', ACCOUNTS,
         ['INSERT INTO acct VALUES (3, 0), (4, 0) ON CONFLICT DO NOTHING', 'INSERT INTO acct VALUES (1, 0)', NEXT],
         'same, same', {'AS OF 2 SELECT * FROM acct WHERE id > 2': ['3, 7', '4, 0']}),
    Case('rows that are inserted or updated', """
         CREATE TABLE stock (id SERIAL PRIMARY KEY, sku TEXT, place TEXT DEFAULT 'main', n INTEGER, made TIMESTAMPTZ DEFAULT now(),
                             CONSTRAINT one_place UNIQUE (sku, place));
         INSERT INTO stock (sku, n) VALUES ('nail', 5), ('bolt', 7);""",
         ["INSERT INTO stock (sku, n) VALUES ('nail', 3), ('nut', 9) ON CONFLICT (sku, place) DO UPDATE SET n = stock.n + EXCLUDED.n",
          "INSERT INTO stock AS s (sku, n) VALUES ('bolt', 1) ON CONFLICT ON CONSTRAINT one_place DO UPDATE SET n = s.n * 2, made = now() WHERE s.n > 5",
          "INSERT INTO stock (sku, n) VALUES ('bolt', 1) ON CONFLICT ON CONSTRAINT one_place DO UPDATE SET n = 0 WHERE stock.n > 50",
          "INSERT INTO stock (id, sku, n) VALUES (2, 'bolt', 1), (40, 'nut', 1), (41, 'pin', 1) ON CONFLICT DO NOTHING",
          'BEGIN', "INSERT INTO stock (sku, n) VALUES ('nail', 3) ON CONFLICT (sku, place) DO UPDATE SET n = 1", 'ROLLBACK',
          "UPDATE stock SET n = n + 1 WHERE sku = 'nail'"],
         'same, same, same, same, not covered, same',
         {'AS OF 2 SELECT sku, n FROM stock': ["'bolt', 7", "'nail', 8", "'nut', 9"], 'AS OF 3 SELECT n FROM stock WHERE id = 2': ['14'],
          'AS OF 5 SELECT sku, n FROM stock WHERE id > 5': ["'pin', 1"]}),
    Case('rows that others insert and that wait', ACCOUNTS,
         ['b: BEGIN', 'b: INSERT INTO acct VALUES (4, 1)', 'INSERT INTO acct VALUES (4, 0) ON CONFLICT (id) DO UPDATE SET bal = acct.bal + 10',
          'b: COMMIT', NEXT],
         'same, same, same', {'AS OF 3 SELECT * FROM acct WHERE id = 4': ['4, 11']}),
    Case('writes of joined tables', ACCOUNTS + PAIRS,
         ['UPDATE acct SET bal = pair.n FROM pair WHERE acct.id = pair.n',
          "DELETE FROM pair USING acct WHERE acct.bal = pair.n AND name = 'y'", NEXT],
         'same, same, same'),
    Case('rows that subqueries choose', ACCOUNTS + PAIRS + HISTORY,
         ["UPDATE acct SET bal = bal + 1 WHERE id IN (SELECT n FROM pair WHERE name = 'y') AND bal > 10",
          'DELETE FROM pair WHERE EXISTS (SELECT 1 FROM acct WHERE acct.id = pair.n AND bal > 99)',
          'UPDATE acct SET bal = (SELECT max(n) FROM pair) WHERE id = 3',
          'UPDATE acct SET bal = (SELECT count(*) FROM acct o WHERE o.id <= acct.id)',
          'INSERT INTO history VALUES (1, (SELECT sum(bal) FROM acct)), (2, 0)',
          'UPDATE acct SET bal = bal - 1 WHERE id = (SELECT id FROM acct ORDER BY id LIMIT 1 FOR UPDATE SKIP LOCKED)',
          "UPDATE pair SET n = n + 1 FROM acct LEFT JOIN history ON history.id = acct.id WHERE acct.id = pair.n AND history.bal IS NULL",
          'BEGIN', 'DELETE FROM acct WHERE id NOT IN (SELECT n FROM pair)', 'ROLLBACK',
          "UPDATE acct SET bal = 9 WHERE bal::text LIKE '2%'", NEXT,
          'WITH low AS (SELECT min(bal) AS b FROM acct) UPDATE acct SET bal = 0 FROM low WHERE bal = low.b',
          'INSERT INTO history SELECT id + 10, sum(bal) FROM acct LEFT JOIN pair ON pair.n = acct.id GROUP BY id'],
         'same, same, same, same, same, same, same, not covered, same, same, same, same',
         {'AS OF 2 SELECT * FROM acct WHERE id < 3': ['1, 100', '2, 51'], 'AS OF 5 SELECT bal FROM acct': ['1', '2', '3'],
          'AS OF 6 SELECT bal FROM history WHERE id = 1': ['6']}),
    Case('a trigger sets a column', """
         CREATE TABLE page (id SERIAL PRIMARY KEY, title TEXT, n INTEGER DEFAULT 0, updated TIMESTAMP);
         CREATE FUNCTION touch() RETURNS trigger LANGUAGE plpgsql AS $$ BEGIN NEW.updated := clock_timestamp(); RETURN NEW; END $$;
         CREATE TRIGGER touch BEFORE INSERT OR UPDATE ON page FOR EACH ROW EXECUTE FUNCTION touch();""",
         ["INSERT INTO page (title) VALUES ('one'), ('two')", 'UPDATE page SET n = n + 1', 'BEGIN', "UPDATE page SET title = 'three' WHERE id = 2",
          "INSERT INTO page (id, title) VALUES (1, 'x') ON CONFLICT (id) DO UPDATE SET title = EXCLUDED.title || ' again'", 'COMMIT',
          'UPDATE page SET n = n * 2 WHERE n = 1'],
         'same, same, patched, same', unsaid=4),
    Case('writes in WITH, and MERGE', ACCOUNTS + HISTORY,
         ['WITH gone AS (DELETE FROM acct WHERE id = 2 RETURNING *) INSERT INTO history SELECT * FROM gone',
          'MERGE INTO acct USING history ON acct.id = history.id WHEN NOT MATCHED THEN INSERT VALUES (history.id, history.bal)', NEXT],
         'patched, patched, same'),
    Case('a view is written', ACCOUNTS + 'CREATE VIEW rich AS SELECT * FROM acct WHERE bal > 40;',
         ['UPDATE rich SET bal = bal - 20', 'INSERT INTO rich VALUES (9, 90)', NEXT],
         'patched, patched, same'),
    Case('names in quotes', """
         CREATE TABLE "Order" ("from" INTEGER PRIMARY KEY, "to Do" TEXT, café INTEGER);
         INSERT INTO "Order" VALUES (1, 'x', 1), (2, 'y', 2);""",
         ['UPDATE "Order" SET café = café + 1 WHERE "from" = 1', 'DELETE FROM public."Order" WHERE "to Do" = \'y\''],
         'same, same'),
    Case('texts beyond the limits', """
         CREATE TABLE paper (id INTEGER PRIMARY KEY, body TEXT, n INTEGER); INSERT INTO paper VALUES (1, 'short', 0), (9, repeat('long ', 60), 0);""",
         ["INSERT INTO paper VALUES (2, repeat('long ', 100), 0), (3, E'two\\nlines', 0)", 'UPDATE paper SET n = n + 1',
          "INSERT INTO paper VALUES (4, $$it's ü \\n$$, 0), (5, '', NULL)", "DELETE FROM paper WHERE body = ''",
          f"UPDATE paper SET n = 5 WHERE body = '{'long ' * 60}'", "UPDATE paper SET n = 6 WHERE body IN (E'two\\nlines', E'two lines')",
          f"UPDATE paper SET n = 7 WHERE body > '{'long ' * 60}'", f"INSERT INTO paper VALUES (6, '{'other ' * 60}', 1)",
          'UPDATE paper SET body = body || n WHERE id = 9',
          "INSERT INTO paper VALUES (7, (SELECT string_agg(md5(n::text), ' ') FROM generate_series(1, 300) n), 0)",
          'UPDATE paper SET n = n + 1 WHERE id = 7'],
         'same, same, same, same, same, same, same, same, patched, same, same',
         {'AS OF 6 SELECT id, n FROM paper WHERE n = 5': ['9, 5'], 'AS OF 7 SELECT id FROM paper WHERE n = 6': ['3']}),
    Case('types that are compared by equality alone', """
         CREATE TYPE duty AS ENUM ('on call', 'off', 'Off'); CREATE DOMAIN amount AS NUMERIC(8,2) CHECK (VALUE >= 0);
         CREATE TABLE doctor (id INTEGER PRIMARY KEY, state duty DEFAULT 'off', code CHAR(4), mark BYTEA, rate DOUBLE PRECISION, pay amount, seen INET);
         INSERT INTO doctor VALUES (1, 'on call', 'ab', '\\xAB01', 0.1, 10, '10.0.0.1'), (2, 'off', 'cd', '\\x00', 2.5, 20.5, '10.0.0.2');""",
         ["UPDATE doctor SET state = 'Off' WHERE state = 'on call'", "INSERT INTO doctor (id, code, rate) VALUES (3, 'ab', 1e2), (4, 'x', 0.25)",
          "UPDATE doctor SET rate = 3.0 WHERE code = 'ab  '", "UPDATE doctor SET pay = pay + 1.5 WHERE rate = 3", "DELETE FROM doctor WHERE state IN ('on call', 'Off')",
          "UPDATE doctor SET state = 'on call'::duty WHERE state::text = 'off' AND rate <> 0.25", "UPDATE doctor SET code = 'new' WHERE mark = '\\x00'",
          "UPDATE doctor SET code = 'old' WHERE state > 'on call'", "UPDATE doctor SET rate = rate * 2 WHERE id = 2",
          "UPDATE doctor SET pay = 0 WHERE seen = '10.0.0.2'", "BEGIN", "INSERT INTO doctor VALUES (9, 'off', 'a', '\\x01', 1.5, 1.25, NULL)", 'ROLLBACK'],
         'same, same, same, same, same, same, same, same, patched, same, rolled back',
         {"AS OF 2 SELECT id FROM doctor WHERE state = 'Off'": ['1'], "AS OF 4 SELECT id, code FROM doctor WHERE rate = '3'": ["1, 'ab  '", "3, 'ab  '"],
          "AS OF 7 SELECT id FROM doctor WHERE state = 'on call'": ['2', '3']}),
    Case('names with the same beginning', """
         CREATE TABLE a_name_of_more_than_thirty_characters_one (id INTEGER PRIMARY KEY, another_name_of_more_than_thirty_one INTEGER,
                                                                 another_name_of_more_than_thirty_two INTEGER);
         CREATE TABLE a_name_of_more_than_thirty_characters_two (id INTEGER PRIMARY KEY);
         INSERT INTO a_name_of_more_than_thirty_characters_one VALUES (1, 2, 3);""",
         ['UPDATE a_name_of_more_than_thirty_characters_one SET another_name_of_more_than_thirty_one = another_name_of_more_than_thirty_two',
          'INSERT INTO a_name_of_more_than_thirty_characters_two SELECT id FROM a_name_of_more_than_thirty_characters_one',
          'DELETE FROM a_name_of_more_than_thirty_characters_two'],
         'same, same, same'),
    Case('numbers without a scale', """
         CREATE TABLE reading (id INTEGER PRIMARY KEY, n NUMERIC, m NUMERIC DEFAULT 0.5, big NUMERIC);
         INSERT INTO reading VALUES (1, 1.5, 2, 'NaN'), (2, 10, NULL, 1e20);""",
         ['UPDATE reading SET n = n + 0.25 WHERE n < 9.5', 'UPDATE reading SET n = n * 2, m = 3', 'INSERT INTO reading (id, n) VALUES (3, -0.125)',
          'DELETE FROM reading WHERE n = 20.00', 'UPDATE reading SET big = big + 1 WHERE id = 1', 'UPDATE reading SET m = m / 2 WHERE id = 3',
          'BEGIN', 'UPDATE reading SET n = 0.1234567', 'ROLLBACK', 'UPDATE reading SET m = n WHERE n = -0.125'],
         'same, same, same, same, patched, patched, not covered, same',
         {'AS OF 3 SELECT id, n, m FROM reading': ['1, 3500, 3000', '2, 20000, 3000'], 'AS OF 4 SELECT n, m FROM reading WHERE id = 3': ['-125, 500']}),
    Case('a table of many columns', f"""
         CREATE TABLE wide (id INTEGER PRIMARY KEY, {', '.join(f'c{n} INTEGER DEFAULT {n}' for n in range(1, 22))}, note TEXT);
         CREATE TABLE narrow (id INTEGER); INSERT INTO wide (id, note) VALUES (1, 'one'), (2, 'two');""",
         ["UPDATE wide SET c21 = c21 + c20 WHERE note = 'one'", 'UPDATE wide SET c2 = 5 WHERE c18 > 3', 'INSERT INTO wide (id, c1, c18) VALUES (3, 7, 8)',
          'UPDATE wide SET c3 = c4, c18 = 0 WHERE id = 3', 'INSERT INTO narrow SELECT c20 FROM wide WHERE c17 = 17', 'UPDATE wide SET c9 = c10 WHERE c11 = 11',
          'UPDATE wide SET c13 = c14 WHERE c15 = 15 AND c16 = 16', 'SELECT c5, c6, c7, c8 FROM wide WHERE id = 1', 'DELETE FROM wide WHERE c18 = 0'],
         'same, same, same, same, same, same, same, same, same',
         {'AS OF 2 SELECT id, c21 FROM wide': ['1, 41', '2, 21'], 'AS OF 4 SELECT c18 FROM wide WHERE id = 3': ['8']}),
    Case('numbers beyond the limits', """
         CREATE TABLE amount (id INTEGER PRIMARY KEY, n NUMERIC, r DOUBLE PRECISION, p NUMERIC(6,2), i BIGINT);
         INSERT INTO amount VALUES (1, 1.5, 0.1, 10.05, 9223372036854775807);""",
         ['UPDATE amount SET p = p * 1.5', 'UPDATE amount SET n = n * 2, r = r + 0.2', 'UPDATE amount SET i = i + 1',
          'UPDATE amount SET p = p + 0.01'],
         'patched, patched, same'),
    Case('unknown values', ACCOUNTS + 'INSERT INTO acct VALUES (4, NULL);',
         ['DELETE FROM acct WHERE bal NOT IN (100, NULL)', 'UPDATE acct SET bal = 0 WHERE bal = NULL',
          'UPDATE acct SET bal = COALESCE(bal, 0) + 1', 'DELETE FROM acct WHERE bal IS NOT DISTINCT FROM 8'],
         'same, same, same, same'),
    Case('rows of NULL alone', 'CREATE TABLE blank (a INTEGER, b TEXT); INSERT INTO blank VALUES (NULL, NULL), (1, NULL);',
         ['UPDATE blank SET a = 1 WHERE a IS NULL', 'UPDATE blank SET a = NULL', 'INSERT INTO blank VALUES (NULL)',
          'DELETE FROM blank WHERE b IS NULL'],
         'same, same, same, same'),
    Case('savepoints', ACCOUNTS,
         ['BEGIN', NEXT, 'SAVEPOINT one', 'UPDATE acct SET bal = 0', 'SAVEPOINT two', 'DELETE FROM acct', 'ROLLBACK TO two',
          'ROLLBACK TO one', NEXT, 'SAVEPOINT three', 'SELECT 1 / 0', 'ROLLBACK TO three', 'RELEASE one', NEXT, 'COMMIT', NEXT],
         'same, same'),
    Case('ends of transactions', ACCOUNTS,
         ['START TRANSACTION', NEXT, 'END', 'BEGIN', NEXT, 'ABORT', 'BEGIN', NEXT, 'COMMIT AND CHAIN', NEXT, 'COMMIT',
          'BEGIN', NEXT, 'SELECT 1 / 0', 'COMMIT', 'COMMIT', NEXT],
         'same, rolled back, same, same, rolled back, same'),
    Case('levels by SET', ACCOUNTS,
         ['BEGIN', 'SET TRANSACTION ISOLATION LEVEL REPEATABLE READ', 'SELECT * FROM acct', f'b: {NEXT}',
          'UPDATE acct SET bal = bal * 2 WHERE bal = 50', 'COMMIT',
          'SET SESSION CHARACTERISTICS AS TRANSACTION ISOLATION LEVEL SERIALIZABLE', 'BEGIN', 'SELECT * FROM acct', f'b: {NEXT}',
          NEXT, 'COMMIT', NEXT],
         'same, same, rolled back, same, same'),
    Case('chained behind an error', ACCOUNTS,           # an error outside of savepoints ends the level of the block too
         ['BEGIN ISOLATION LEVEL REPEATABLE READ', 'SELECT 1 / 0', 'COMMIT AND CHAIN', 'SELECT * FROM acct', f'b: {NEXT}', NEXT, 'COMMIT',
          'BEGIN ISOLATION LEVEL REPEATABLE READ', 'SAVEPOINT one', 'SELECT 1 / 0', 'ROLLBACK AND CHAIN', 'SELECT * FROM acct',
          f'b: {NEXT}', NEXT, 'COMMIT'],
         'same, same, rolled back, same'),
    Case('a session is cut off', ACCOUNTS,
         ['b: BEGIN', f'b: {NEXT}', "SELECT pg_terminate_backend(pid) FROM pg_stat_activity WHERE state = 'idle in transaction'", NEXT],
         'rolled back, same'),
    Case('an EXPLAIN that runs, and cursors', ACCOUNTS,
         ['EXPLAIN (ANALYZE, COSTS OFF) DELETE FROM acct WHERE id = 3', 'BEGIN',
          'DECLARE c CURSOR FOR SELECT * FROM acct ORDER BY id FOR UPDATE', 'FETCH 1 FROM c', 'UPDATE acct SET bal = 1 WHERE CURRENT OF c',
          'COMMIT', NEXT],
         'patched, same, same', captured='same, same, same'),
    Case('rows are copied in, and two phases', ACCOUNTS,
         ["COPY acct FROM PROGRAM 'echo 8,80' WITH (FORMAT csv)", 'BEGIN', NEXT, "PREPARE TRANSACTION 'one'", "COMMIT PREPARED 'one'", NEXT,
          'BEGIN', NEXT, "PREPARE TRANSACTION 'two'", "ROLLBACK PREPARED 'two'", NEXT],
         'same, patched, same, not covered, same', captured='same, same, same, rolled back, same'),
    Case('rows are copied in between others', ACCOUNTS,
         ['BEGIN', 'INSERT INTO acct VALUES (4, 40)', "COPY acct (id) FROM PROGRAM 'seq 5 7'", 'INSERT INTO acct VALUES (8, 80)', NEXT, 'COMMIT',
          'DELETE FROM acct WHERE bal IS NULL'],
         'same, same', {'AS OF 2 SELECT id FROM acct WHERE id > 3': ['4', '5', '6', '7', '8']}),
    Case('partitions are one table', """
         CREATE TABLE sale (id INTEGER, at DATE, n INTEGER, PRIMARY KEY (id, at)) PARTITION BY RANGE (at);
         CREATE TABLE sale_1 PARTITION OF sale FOR VALUES FROM ('2026-01-01') TO ('2026-02-01');
         CREATE TABLE sale_2 (n INTEGER, id INTEGER NOT NULL, at DATE NOT NULL); ALTER TABLE sale ATTACH PARTITION sale_2 DEFAULT;
         INSERT INTO sale VALUES (1, '2026-01-05', 10), (2, '2026-02-05', 20);""",
         ["INSERT INTO sale VALUES (3, '2026-01-20', 30), (4, '2026-03-01', 40)", 'UPDATE sale SET n = n + 1 WHERE id > 1', 'UPDATE sale_1 SET n = 0',
          "INSERT INTO sale_2 (id, at, n) VALUES (5, '2026-05-05', 50)", 'SELECT * FROM sale_2', "UPDATE sale SET at = '2026-02-02' WHERE id = 1",
          'DELETE FROM sale WHERE n = 41', 'BEGIN', 'TRUNCATE sale', "INSERT INTO sale VALUES (6, '2026-01-01', 60)", 'COMMIT'],
         'same, same, same, same, same, same, same, same',
         {'AS OF 4 SELECT id, n FROM sale': ['1, 0', '2, 21', '3, 0', '4, 41'], 'AS OF 9 SELECT * FROM sale': ["6, '2026-01-01', 60"]}),
    Case('terms of constants', """
         CREATE TABLE task (id INTEGER PRIMARY KEY, n INTEGER, name TEXT, due TIMESTAMPTZ, day DATE);
         INSERT INTO task VALUES (1, 7, 'ab', now() - interval '1 day', '2026-03-01'), (2, 9, 'AB', now() + interval '1 day', '2026-03-08'),
                                 (3, 3, 'aab', now() - interval '9 days', '2026-02-01');""",
         ['UPDATE task SET n = n + 7 / 2 WHERE n > 20 % 6 + 10 / 4', "UPDATE task SET n = n * 2 WHERE name = lower('A') || 'b'", 'DELETE FROM task WHERE due < now() - interval \'7 days\'',
          'UPDATE task SET n = 0 WHERE due > now()', "UPDATE task SET due = now() WHERE day < date '2026-03-01' + 7 AND due < CURRENT_TIMESTAMP",
          'UPDATE task SET n = n - 2 WHERE n >= 7.5 / 2.5 AND day + 1 > day', 'UPDATE task SET n = 1 WHERE id = CAST(\'1\' AS integer) * length(\'a\')',
          'SELECT * FROM task WHERE due > now() AND day = CURRENT_DATE', 'UPDATE task SET n = n / 2',
          'BEGIN', 'SELECT pg_sleep(0.1)', "b: INSERT INTO task VALUES (8, 80, 'x', clock_timestamp(), NULL)",
          'UPDATE task SET n = 88 WHERE due > now() AND id = 8', 'COMMIT'],
         'same, same, same, same, same, same, same, same, patched, same, same',
         {'AS OF 2 SELECT id, n FROM task': ['1, 10', '2, 12', '3, 3'], 'AS OF 3 SELECT id, n FROM task': ['1, 20', '2, 12', '3, 3'],
          'AS OF 5 SELECT id, n FROM task': ['1, 20', '2, 0']}),
    Case('tables come and go', ACCOUNTS,
         ['CREATE TABLE other AS SELECT * FROM acct', 'BEGIN', 'INSERT INTO other VALUES (1, 1)', NEXT, 'COMMIT',
          'CREATE TEMP TABLE mine (id INTEGER)', 'INSERT INTO mine VALUES (1)', 'DROP TABLE other', NEXT],
         'patched, patched, not covered, same', captured='patched, patched, same, same, same'),
    Case('rows are locked, and then read', ACCOUNTS,    # a SELECT that waited gives the newest rows
         ['BEGIN', 'SELECT bal FROM acct WHERE id = 1 FOR UPDATE', 'b: BEGIN', 'b: SELECT bal FROM acct WHERE id = 1 FOR UPDATE',
          'UPDATE acct SET bal = 120 WHERE id = 1', 'COMMIT', 'b: UPDATE acct SET bal = 150 WHERE id = 1', 'b: COMMIT'],
         'same, same',
         {'SAW 2 AFTER 1 SELECT bal FROM acct WHERE id = 1': ['100'], 'SAW 3 AFTER 1 SELECT bal FROM acct WHERE id = 1': ['120'],
          'SERIAL': ['1', '2', '3']}),
    Case('an UPDATE that sets the time is refused', """
         CREATE TABLE acct (id INTEGER PRIMARY KEY, bal INTEGER, at TIMESTAMP); INSERT INTO acct VALUES (1, 100, NULL), (2, 50, NULL);""",
         ['BEGIN ISOLATION LEVEL REPEATABLE READ', 'UPDATE acct SET at = CURRENT_TIMESTAMP WHERE id = 2', 'b: UPDATE acct SET bal = 90 WHERE id = 1',
          'UPDATE acct SET bal = 80, at = now() WHERE id = 1', 'ROLLBACK'],
         'rolled back, same', {'CONFLICTS 2': ['acct 1.1.1 at 1 : 3 wrote it as 2']}),
    *write_skews(),
    Case('a column comes', ACCOUNTS, [NEXT, 'ALTER TABLE acct ADD COLUMN note TEXT', "UPDATE acct SET note = 'new' WHERE id = 2", NEXT],
         'same, not covered, patched, patched', captured='same, same, patched, patched'),
]


def check(window, found, case, gprom):
    """What is wrong: other verdicts or answers than the case expects."""
    kinds = ', '.join(verdict.kind() for verdict in found.verdicts)
    by_capture = found.source is CAPTURE
    expected, unsaid = by_capture and case.captured or case.expected, case.told if by_capture else case.unsaid
    wrong = [] if kinds == expected else [f'expected {expected}; found {kinds}']
    if (match := UNSAID.search(found.summary)) and int(match[1]) != unsaid or not match and unsaid:
        wrong.append(f'expected {unsaid} reads that cannot be said; verify: {found.summary}')
    for question, (_, lines) in zip(case.answers, ask(gprom, window.path(f'{found.source.out}.dump'), case.answers)):
        if lines != case.answers[question]:
            wrong.append(f'{question}: expected {case.answers[question]}; found {lines}')
    if case.left:
        with open(window.path(f'{found.source.out}.left'), encoding='utf-8') as file:
            told = file.read()
        wrong += [f'out.left does not tell of {words}' for words in case.left if words not in told]
    return wrong


def run(cluster, case):
    """Runs the statements of a case. What the server refuses is a part of it. One that waits is left, and the others go on."""
    sessions = {}
    for statement in case.statements:
        name, text = ('b', statement[3:]) if statement.startswith('b: ') else ('a', statement)
        if name not in sessions:
            sessions[name] = cluster.connect()
        take_reply(sessions[name])
        time.sleep(PAUSE)
        try:
            sessions[name].send(text)
        except ConnectionError:                         # the server has ended the session
            continue
        if sessions[name].has_reply(PATIENCE):
            take_reply(sessions[name])
    for session in sessions.values():
        take_reply(session)
        session.close()


def take_reply(session):
    """Takes the reply that a session has not taken yet, if there is one."""
    try:
        if session.busy:
            session.receive()
    except (ServerError, ConnectionError):
        pass
