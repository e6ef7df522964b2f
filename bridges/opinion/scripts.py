"""Small random histories in which transactions get into each other's way: few rows, few values, looks at some columns, both levels."""

from __future__ import annotations

import random

SESSIONS = 3
# So few that every cycle can be listed.
MOST_TRANSACTIONS = 8
MOST_STATEMENTS = 3
TABLES = ("CREATE TABLE acct (id INT, name TEXT, bal INT)", "CREATE TABLE note (id INT, what INT)")
ROWS = ("INSERT INTO acct VALUES (1, 'a', 1), (2, 'b', 2), (3, NULL, 0)", "INSERT INTO note VALUES (1, 1), (2, NULL)")
# Statements whose numbers {i} and values {v} are drawn. Many leave a cell as it is, use a column on one side alone, or look for a row that is not there.
WRITES = (
    "UPDATE acct SET bal = {v} WHERE id = {i}",
    "UPDATE acct SET bal = bal + {v} WHERE id = {i}",
    "UPDATE acct SET bal = bal - bal WHERE name = 'a'",
    "UPDATE acct SET name = 'a' WHERE bal > {v}",
    "UPDATE acct SET name = CASE WHEN bal = {v} THEN 'b' ELSE name END",
    "UPDATE acct SET id = id, bal = {v} WHERE (bal < {v} AND id >= {i}) IS NOT TRUE",
    "UPDATE note SET what = {v}",
    "UPDATE note SET what = id WHERE what IS NULL OR id = {i}",
    "UPDATE note SET id = id + 1 WHERE id = {i}",
    "INSERT INTO acct VALUES ({i}, 'b', {v})",
    "INSERT INTO note VALUES ({i}, {v}), (NULL, {i})",
    "INSERT INTO note SELECT id, bal FROM acct WHERE id = {i}",
    "INSERT INTO note SELECT x.id, y.what FROM acct x, note y WHERE x.id = y.id AND x.bal > {v}",
    "INSERT INTO acct SELECT id, 'a', what FROM note WHERE what = {v}",
    "DELETE FROM acct WHERE bal = {v}",
    "DELETE FROM acct WHERE id = {i} AND name = 'b'",
    "DELETE FROM note WHERE id = {i}",
    "DELETE FROM note",
)
READS = (
    "SELECT * FROM acct WHERE id = {i}",
    "SELECT name FROM acct",
    "SELECT bal FROM acct WHERE id = {i}",
    "SELECT bal FROM acct WHERE id = {i} AND {v} < 2",
    "SELECT id FROM acct WHERE NOT bal = {v}",
    "SELECT {v} FROM acct",
    "SELECT x.name FROM acct x, note y WHERE x.id = y.id",
    "SELECT x.bal, y.bal FROM acct x, acct y WHERE x.id = {i} AND x.bal < y.bal",
    "SELECT x.id FROM acct x, note y WHERE y.what > {v}",
    "SELECT y.what FROM acct x, note y WHERE x.bal = {v} OR y.id = {i}",
    "SELECT id FROM note WHERE what * {v} IS NULL UNION ALL SELECT bal FROM acct WHERE name <> 'a'",
    "SELECT CASE WHEN what = {v} THEN id ELSE {i} END FROM note WHERE id > {i}",
)
# Every second history is of these alone, on two rows, so that most transactions meet.
FEW_WRITES = (
    "UPDATE acct SET bal = {v} WHERE id = {i}",
    "UPDATE acct SET bal = {v} + 3 WHERE id = {i}",
    "UPDATE acct SET bal = {v}, name = 'c' WHERE id = {i}",
    "UPDATE acct SET bal = bal + 1 WHERE id = {i}",
    "DELETE FROM acct WHERE id = {i} AND bal = {v}",
    "INSERT INTO acct VALUES ({i}, 'a', {v})",
)
FEW_READS = (
    "SELECT bal FROM acct WHERE id = {i}",
    "SELECT * FROM acct WHERE id <= 2",
    "SELECT name FROM acct WHERE id = {i}",
    "SELECT id FROM acct WHERE bal = {v}",
)


def random_script(seed: int) -> list[str]:
    """The lines of the history of this number."""
    return _Writer(random.Random(seed)).write()


class _Writer:
    def __init__(self, drawn: random.Random):
        self._random = drawn
        self._lines: list[str] = []
        # The statements that each open transaction has left, the next one last.
        self._open: dict[int, list[str]] = {}
        self._begun = 1
        self._few = drawn.random() < 0.5
        # How often a transaction is read committed, and a statement a read.
        self._committed = drawn.choice((0.0, 0.6, 1.0))
        self._reading = drawn.choice((0.35, 0.5, 0.65))

    def write(self) -> list[str]:
        for command in (*TABLES, "BEGIN", *ROWS, "COMMIT"):
            self._say(1, command)
        most = self._random.randint(4, MOST_TRANSACTIONS)
        while self._begun < most or self._open:
            self._step(self._random.randint(1, SESSIONS), most)
        return self._lines

    def _say(self, session: int, command: str) -> None:
        self._lines.append(f"s{session}: {command}")

    def _step(self, session: int, most: int) -> None:
        if session not in self._open:
            if self._begun < most:
                self._begun += 1
                self._say(session, "BEGIN READ COMMITTED" if self._random.random() < self._committed else "BEGIN")
                self._open[session] = self._statements()
        elif self._open[session]:
            self._say(session, self._open[session].pop())
        else:
            del self._open[session]
            self._say(session, "ROLLBACK" if self._random.random() < 0.06 else "COMMIT")

    def _statements(self) -> list[str]:
        if self._few and self._random.random() < 0.5:
            # A row that is read and then written, most often without a look at it.
            number = self._random.randint(1, 2)
            return [self._filled(self._random.choice(texts), number) for texts in (FEW_WRITES[:4], FEW_READS[:3])]
        return [self._statement() for _ in range(self._random.randint(1, MOST_STATEMENTS))]

    def _statement(self) -> str:
        reads, writes = (FEW_READS, FEW_WRITES) if self._few else (READS, WRITES)
        text = self._random.choice(reads if self._random.random() < self._reading else writes)
        return self._filled(text, self._random.randint(1, 2 if self._few else 3))

    def _filled(self, text: str, number: int) -> str:
        return text.format(i=number, v=self._random.randint(0, 2))
