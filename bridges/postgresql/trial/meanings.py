"""Cases by hand of a capture: statements that say something else in their session than by their text, values that were cut, and refusals."""
from .cases import ACCOUNTS, NEXT, Case

OWN = """CREATE TABLE own (id INTEGER PRIMARY KEY, who TEXT, n INTEGER); INSERT INTO own VALUES (1, 'member', 0), (2, 'postgres', 0);
         ALTER TABLE own ENABLE ROW LEVEL SECURITY; CREATE POLICY mine ON own USING (who = current_user);
         DO $$ BEGIN CREATE ROLE member LOGIN; EXCEPTION WHEN duplicate_object THEN NULL; END $$;
         GRANT USAGE ON SCHEMA public TO member; GRANT ALL ON own TO member;"""
ZOO = """DROP SCHEMA IF EXISTS zoo CASCADE; CREATE SCHEMA zoo; CREATE TABLE zoo.acct (id INTEGER PRIMARY KEY, bal INTEGER); INSERT INTO zoo.acct VALUES (1, 7);"""
TASKS = """CREATE TABLE task (id INTEGER PRIMARY KEY, due TIMESTAMPTZ, n INTEGER);
           INSERT INTO task VALUES (1, '2026-03-01 00:30+00', 0), (2, '2026-02-28 20:00+00', 0);"""
WORDS = "CREATE TABLE word (id INTEGER PRIMARY KEY, w TEXT, n INTEGER); INSERT INTO word VALUES (1, 'short', 0), (2, 'a longer word', 0);"
LABELS = ACCOUNTS + """
    CREATE FUNCTION move(who INTEGER, cents INTEGER) RETURNS integer LANGUAGE plpgsql AS $$
    <<outside>> DECLARE half INTEGER := cents / 2; BEGIN
      UPDATE acct SET bal = bal - outside.half WHERE id = move.who;
      UPDATE acct SET bal = bal - half WHERE acct.id = who;
      RETURN half; END $$;"""
BEGIN = 'BEGIN ISOLATION LEVEL REPEATABLE READ'

CASES = [
    Case('another search_path', ACCOUNTS + ZOO,
         ['SET search_path = zoo', 'SELECT bal FROM acct WHERE id = 1', 'UPDATE acct SET bal = bal + 1 WHERE id = 1', 'RESET search_path', NEXT,
          'DROP SCHEMA zoo CASCADE'],
         'patched, same, same', {'AS OF 3 SELECT bal FROM acct WHERE id = 1': ['101']}, told=1),
    Case('a temporary table hides another', ACCOUNTS,
         ['CREATE TEMP TABLE acct (id INTEGER PRIMARY KEY, bal INTEGER)', 'INSERT INTO acct VALUES (1, 5)', 'SELECT bal FROM acct',
          'BEGIN', 'DELETE FROM acct', 'UPDATE public.acct SET bal = bal + 1 WHERE id = 2', 'COMMIT', 'DROP TABLE pg_temp.acct', NEXT],
         'same, same, same, same', {'AS OF 3 SELECT bal FROM acct': ['7', '51', '100']}),
    Case('rows that a policy hides', OWN,
         ['SET ROLE member', 'SELECT id FROM own', 'UPDATE own SET n = n + 1', 'RESET ROLE', 'UPDATE own SET n = n + 10'],
         'same, patched, same', {'AS OF 4 SELECT id, n FROM own': ['1, 11', '2, 10']}),
    Case('times of another zone', TASKS,
         ["SET TIME ZONE 'Asia/Kolkata'", "UPDATE task SET n = 1 WHERE due < '2026-03-01 00:00'", "UPDATE task SET n = 2 WHERE due < '2026-03-01 00:00+00'",
          "PREPARE p(TIMESTAMPTZ) AS UPDATE task SET n = n + 3 WHERE due < $1", "EXECUTE p('2026-03-01 00:00')"],
         'patched, same, same', {'AS OF 4 SELECT id, n FROM task': ['1, 0', '2, 2']}),
    Case('values that are cut', WORDS,
         ['SET gprom_capture.max_value = 10', 'SET gprom_capture.max_text = 100', 'PREPARE p(TEXT) AS UPDATE word SET n = n + 1 WHERE w = $1',
          'PREPARE q(INTEGER, TEXT) AS INSERT INTO word VALUES ($1, $2, 0)', "EXECUTE p('short')", "EXECUTE p('a longer word')", "EXECUTE q(3, 'a third of them')",
          "UPDATE word SET n = n + 1 WHERE id = 3 AND w <> 'a text by which the statement has more than a hundred bytes in all'", 'SELECT n FROM word'],
         'same, same, same, patched, same', {'AS OF 5 SELECT id, n FROM word': ['1, 1', '2, 1', '3, 1']}),
    Case('names behind a label', LABELS, ['SELECT move(1, 10)', NEXT], 'same, same', {'AS OF 2 SELECT bal FROM acct WHERE id = 1': ['90']}),
    Case('an update that is refused', ACCOUNTS,
         [BEGIN, 'SELECT bal FROM acct WHERE id = 3', f'b: {NEXT}', NEXT, 'ROLLBACK',
          BEGIN, 'SELECT bal FROM acct', f'b: {NEXT}', 'SELECT bal FROM acct WHERE id = 1 FOR UPDATE', 'ROLLBACK'],
         'rolled back, same, rolled back, same', {'CONFLICTS 2': ['acct 1.1.1 at 1 : 3 wrote it as 2'], 'CONFLICTS 4': []}),
]
