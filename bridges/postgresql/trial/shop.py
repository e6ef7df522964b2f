"""A shop whose application has triggers, cascades, a view, DO blocks and functions in PL/pgSQL: most of its statements run inside of others."""
import random
import threading
import time
from dataclasses import dataclass

from .given import Given, together
from .protocol import ServerError

SESSIONS, TRANSACTIONS = 8, 7
SETUP = """
CREATE TABLE customer (id INTEGER PRIMARY KEY, name TEXT, credit INTEGER, orders INTEGER DEFAULT 0);
CREATE TABLE orders (id INTEGER PRIMARY KEY, customer INTEGER REFERENCES customer ON DELETE CASCADE, total INTEGER DEFAULT 0);
CREATE TABLE line (id INTEGER PRIMARY KEY, orders INTEGER REFERENCES orders ON DELETE CASCADE, item INTEGER, qty INTEGER);
CREATE TABLE stock (item INTEGER PRIMARY KEY, qty INTEGER CHECK (qty >= 0), price INTEGER);
CREATE TABLE audit (what TEXT, who INTEGER, old INTEGER, new INTEGER);
INSERT INTO customer SELECT n, 'c' || n, 1000, 0 FROM generate_series(1, 6) n;
INSERT INTO stock SELECT n, 100, n * 3 FROM generate_series(1, 5) n;
CREATE FUNCTION audit_credit() RETURNS trigger LANGUAGE plpgsql AS $$
BEGIN INSERT INTO audit VALUES ('credit', OLD.id, OLD.credit, NEW.credit); RETURN NEW; END $$;
CREATE TRIGGER credit BEFORE UPDATE ON customer FOR EACH ROW WHEN (OLD.credit IS DISTINCT FROM NEW.credit) EXECUTE FUNCTION audit_credit();
CREATE FUNCTION add_up() RETURNS trigger LANGUAGE plpgsql AS $$
DECLARE p INTEGER; BEGIN
  SELECT price INTO p FROM stock WHERE item = NEW.item;
  UPDATE stock SET qty = qty - NEW.qty WHERE item = NEW.item;
  UPDATE orders SET total = total + p * NEW.qty WHERE id = NEW.orders;
  RETURN NULL; END $$;
CREATE TRIGGER add_up AFTER INSERT ON line FOR EACH ROW EXECUTE FUNCTION add_up();
CREATE FUNCTION place(o INTEGER, c INTEGER, i INTEGER, n INTEGER) RETURNS INTEGER LANGUAGE plpgsql AS $$
DECLARE money INTEGER; sum INTEGER; BEGIN
  SELECT credit INTO money FROM customer WHERE id = c;
  IF money < 50 THEN RETURN 0; END IF;
  INSERT INTO orders (id, customer) VALUES (o, c);
  INSERT INTO line VALUES (o * 10, o, i, n);
  SELECT total INTO sum FROM orders WHERE id = o;
  UPDATE customer SET credit = credit - sum, orders = customer.orders + 1 WHERE id = c;
  RETURN sum; END $$;
CREATE FUNCTION owed(c INTEGER) RETURNS BIGINT LANGUAGE sql STABLE AS $$ SELECT sum(total) FROM orders WHERE customer = c $$;
CREATE VIEW poor AS SELECT id, credit FROM customer WHERE credit < 900;
"""
STATEMENTS = (
    *["SELECT place({new}, {k}, {j}, {n})"] * 3,
    "SELECT id, credit FROM customer WHERE id = {k}",
    "SELECT id, credit, orders FROM customer",
    "SELECT item, qty FROM stock WHERE item = {j}",
    "SELECT id, customer, total FROM orders WHERE customer = {k}",
    "SELECT what, who, old, new FROM audit WHERE who = {k}",
    "SELECT id, credit FROM customer WHERE id = {k} FOR UPDATE",
    "SELECT owed({k})",
    "SELECT id, credit FROM poor",
    "UPDATE customer SET credit = credit + {n} WHERE id = {k}",
    "UPDATE customer SET name = 'n{n}' WHERE id = {k}",
    "UPDATE stock SET qty = qty + {n} WHERE item IN ({j}, {k})",
    "DELETE FROM orders WHERE customer = {k} AND total < {n}0",
    "DELETE FROM customer WHERE id = {k} AND orders > 3",
    "INSERT INTO customer VALUES ({k}, 'again', 500, 0) ON CONFLICT (id) DO UPDATE SET credit = customer.credit + 1",
    "DO $$ BEGIN UPDATE stock SET price = price + 1 WHERE item = {j}; UPDATE customer SET credit = credit - 1 WHERE id = {k}; END $$",
    "INSERT INTO orders VALUES ({new}, {k}, 0)",
    "INSERT INTO line VALUES ({new}, (SELECT max(id) FROM orders), {j}, 1)",
    "UPDATE poor SET credit = credit + 10 WHERE id = {k}",
)
VIEW = ' FROM poor'


@dataclass
class Settings:
    """What the sessions of a run do."""
    seed: int
    level: str


class Session(threading.Thread):
    """One session. Statements that the server refuses are a part of the run."""

    def __init__(self, connection, number, settings):
        super().__init__()
        self.connection, self.settings, self.given = connection, settings, Given(number)
        self.random = random.Random(settings.seed * SESSIONS + number)
        self.new = 100 + number * 1000

    def run(self):
        for _ in range(TRANSACTIONS):
            self.execute(f'BEGIN ISOLATION LEVEL {self.settings.level}')
            for _ in range(self.random.randint(1, 3)):
                if not self.execute(self.statement()):
                    break
            self.execute('COMMIT' if self.random.random() < 0.9 else 'ROLLBACK')
        self.connection.close()

    def statement(self):
        self.new += 1
        return self.random.choice(STATEMENTS).format(k=self.random.randint(1, 6), j=self.random.randint(1, 5), n=self.random.randint(1, 5), new=self.new)

    def execute(self, text):
        """Whether the server took a statement."""
        try:
            self.given.execute(self.connection, text)
            return True
        except ServerError:
            return False
        finally:
            time.sleep(self.random.random() * 0.004)


def run(cluster, settings, given):
    """Runs the sessions beside each other. What they read of tables goes to `given`: of a view the script has the tables."""
    sessions = [Session(cluster.connect(), number, settings) for number in range(SESSIONS)]
    for session in sessions:
        session.start()
    for session in sessions:
        session.join()
    given.update({tag: read for tag, read in together(sessions).items() if VIEW not in read.text})
