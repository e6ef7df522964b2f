"""A window of statements inside of others: procedures that commit, exceptions, loops, cursors, WITH that writes, rules of views."""
from .protocol import ServerError

SETUP = """
CREATE TABLE parent (id INTEGER PRIMARY KEY, bal NUMERIC(10,2));
CREATE TABLE child (id INTEGER PRIMARY KEY, p INTEGER REFERENCES parent ON DELETE CASCADE);
CREATE TABLE hist (id INTEGER, bal NUMERIC(10,2));
CREATE FUNCTION keep() RETURNS trigger LANGUAGE plpgsql AS $$ BEGIN INSERT INTO hist VALUES (OLD.id, OLD.bal); RETURN NEW; END $$;
CREATE TRIGGER keep BEFORE UPDATE ON parent FOR EACH ROW EXECUTE FUNCTION keep();
CREATE FUNCTION pay(who INTEGER, cents NUMERIC) RETURNS numeric LANGUAGE plpgsql AS $$
DECLARE b NUMERIC; n INTEGER := 3; BEGIN
  SELECT bal INTO b FROM parent WHERE id = who;
  IF b > 1 THEN UPDATE parent SET bal = bal - cents WHERE id = who; END IF;
  BEGIN INSERT INTO parent VALUES (who, 0); EXCEPTION WHEN unique_violation THEN n := 4; END;
  FOR b IN SELECT bal FROM parent WHERE id < n LOOP NULL; END LOOP;
  IF (SELECT count(*) FROM child WHERE p = who) > 1 THEN n := (SELECT max(id) FROM child); END IF;
  EXECUTE 'UPDATE parent SET bal = bal + $1 WHERE id = $2' USING 1, who;
  RETURN b; END $$;
CREATE FUNCTION sq(a INTEGER) RETURNS bigint LANGUAGE sql AS $$ UPDATE parent SET bal = bal + 1 WHERE id = a; SELECT count(*) FROM child WHERE p = a $$;
CREATE VIEW rich AS SELECT * FROM parent WHERE bal > 5;
INSERT INTO parent VALUES (1, 10), (2, 20), (3, 30);
INSERT INTO child VALUES (10, 1), (11, 1), (12, 2);
CREATE PROCEDURE pp() LANGUAGE plpgsql AS $$ BEGIN
  UPDATE parent SET bal = 1 WHERE id = 2; COMMIT;
  UPDATE parent SET bal = 2 WHERE id = 2; ROLLBACK;
  PERFORM 1 FROM parent; UPDATE parent SET bal = 3 WHERE id = 3; END $$;
"""
STATEMENTS = """
UPDATE parent SET bal = bal + 1 WHERE id = 1
BEGIN
SELECT pay(1, 2.5)
SAVEPOINT s
SELECT sq(2)
ROLLBACK TO s
UPDATE rich SET bal = 7
COMMIT
SELECT sq(2)
DELETE FROM parent WHERE id = 1
PREPARE q(INTEGER) AS SELECT * FROM parent WHERE id = $1
EXECUTE q(2)
BEGIN
DECLARE c CURSOR FOR SELECT * FROM parent ORDER BY id FOR UPDATE
FETCH 1 FROM c
UPDATE parent SET bal = 99 WHERE CURRENT OF c
COMMIT
SELECT * FROM parent WHERE id = 2; UPDATE parent SET bal = bal * 2 WHERE id = 2
WITH g AS (DELETE FROM hist WHERE id = 2 RETURNING *) INSERT INTO hist SELECT * FROM g
CALL pp()
SELECT DISTINCT p FROM child
SELECT count(*) FROM rich
BEGIN
UPDATE parent SET bal = 12.5 WHERE id = 2
PREPARE TRANSACTION 'x'
COMMIT PREPARED 'x'
CREATE TABLE x AS SELECT * FROM parent
TRUNCATE hist
""".strip().split('\n')
NAME = 'statements inside of others'
SAME, PATCHED = 13, 3


def run(cluster):
    """Runs the statements. That some fail is a part of the window."""
    session = cluster.connect()
    for statement in STATEMENTS:
        try:
            session.execute(statement)
        except ServerError:
            pass
    session.close()


def check(_, found):
    """What is wrong: fewer transactions are the same than are known to be."""
    counts = found.counts()
    same, patched = counts['same'] + counts['rolled back'], counts['patched']
    return [] if same >= SAME and patched <= PATCHED else [f'{same} same and {patched} patched, where {SAME} and {PATCHED} are known']
