"""A program that has the questions which the one under test may not have yet: it answers these by texts, and all others by the real one.

The texts are answers about the histories of the tests, as the definitions of these questions have them.
"""

from __future__ import annotations

import re
from collections.abc import Sequence
from pathlib import Path

from desk.gpdesk.desk import Desk
from gprom.client import Client, open_source
from gprom.program import Answer, Job, Program

from .support import program, written

# Two anomalies in one history: a lost update of row 1 by transactions 2 and 3, and a write skew of 4 and 5 over rows 2 and 3.
TWO = """s1: CREATE TABLE acct (id INT, bal INT)
s1: BEGIN
s1: INSERT INTO acct VALUES (1, 100), (2, 50), (3, 50)
s1: COMMIT
s1: BEGIN READ COMMITTED
s1: SELECT bal FROM acct WHERE id = 1
s2: BEGIN
s2: UPDATE acct SET bal = 130 WHERE id = 1
s2: COMMIT
s1: UPDATE acct SET bal = 150 WHERE id = 1
s1: COMMIT
s1: BEGIN
s2: BEGIN
s1: SELECT bal FROM acct WHERE id = 2
s2: SELECT bal FROM acct WHERE id = 3
s1: UPDATE acct SET bal = 0 WHERE id = 3
s2: UPDATE acct SET bal = 0 WHERE id = 2
s1: COMMIT
s2: COMMIT
"""
TEXTS = {
    "ANOMALIES": """anomalies 2
  lost update : 2 3
    2 before 3 : 2.1 read acct 1.1.1 at 1, 3 wrote it as 2
    3 before 2 : 3 wrote acct 1.1.1 as 2, 2 as 3
  write skew : 4 5
    4 before 5 : 4.1 read acct 1.1.2 at 3, 5 wrote it as 5
    5 before 4 : 5.1 read acct 1.1.3 at 3, 4 wrote it as 4""",
    "AFFECTED BY 3": """affected 2
  3
  2 by 2.2 : - acct 1.1.1 : 1, 130 -> 1, 150""",
    "AFFECTED BY 1": """affected 5
  1
  3 by 3.1 : - acct 1.1.1 : 1, 100 -> 1, 130
  2 by 2.1 : - 100
  4 by 4.1 : - 50
  5 by 5.1 : - 50""",
    "ANOMALIES x": "E03 syntax fault at column 11",
    "AFFECTED BY x": "E03 syntax fault at column 13",
    "WHATIF UNDO x": "E03 syntax fault at column 13",
}
# Nothing acted on what transactions 4 and 5 did, so to undo them is to drop them.
UNDO = re.compile(r"UNDO ([45](?:, [45])?) OF ")


class Newer(Program):
    """Answers the questions of TEXTS about the history TWO."""

    def ask(self, dump: Path, questions: Sequence[str], job: Job | None = None, most: Sequence[int | None] = ()) -> list[Answer]:
        real = [it for it in questions if it not in TEXTS]
        asked = [UNDO.sub(lambda found: f"{', '.join(f'DROP {it}' for it in found[1].split(', '))} OF ", it) for it in real]
        found = {question: Answer(question, answer.head, answer.lines) for question, answer in zip(real, super().ask(dump, asked, job))}
        for question in questions:
            if question in TEXTS:
                head, *lines = TEXTS[question].split("\n")
                found[question] = Answer(question, head, tuple(line[2:] for line in lines))
        return [found[question] for question in questions]


def newer() -> Desk:
    it = Newer(program().words)
    return Desk(Client(it, open_source(written("two.script", TWO), it)))
