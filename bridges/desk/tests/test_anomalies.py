"""Anomalies in plain words: what is said of each is what its lines say."""

from __future__ import annotations

import unittest
from collections.abc import Sequence
from pathlib import Path

from desk.gpdesk.desk import Desk
from desk.gpdesk.reproduce import ReproduceError, lines_of_log, reproduce
from desk.gpdesk.verdicts import anomaly_verdicts, verdicts
from gprom.anomalies import by_name, full_name, sentence
from gprom.answers import Anomaly, anomalies
from gprom.client import Client, open_source
from gprom.program import Answer, Job

from .newer import Newer, newer
from .support import program, written

# As a report that is read only, but for an UPDATE that finds no row: transaction 4 wrote nothing.
REPORT = """s1: CREATE TABLE acct (id INT, bal INT)
s1: BEGIN
s1: INSERT INTO acct VALUES (1, 0), (2, 0)
s1: COMMIT
s1: BEGIN
s1: SELECT bal FROM acct WHERE id <= 2
s2: BEGIN
s2: UPDATE acct SET bal = bal + 20 WHERE id = 2
s2: COMMIT
s3: BEGIN
s3: SELECT bal FROM acct WHERE id <= 2
s3: UPDATE acct SET bal = 0 WHERE id = 9
s3: COMMIT
s1: UPDATE acct SET bal = 0 - 11 WHERE id = 1
s1: COMMIT
"""
READ_ONLY = """read-only anomaly : 2 3 4
  2 before 3 : 2.1 read acct 1.1.2 at 1, 3 wrote it as 2
  3 before 4 : 4.1 read acct 1.1.2 at 2, 3 wrote it as 2
  4 before 2 : 4.1 read acct 1.1.1 at 2, 2 wrote it as 4"""


def read(text: str) -> list[Anomaly]:
    return anomalies(answer(text))


def answer(text: str) -> Answer:
    lines = text.split("\n")
    return Answer("ANOMALIES", f"anomalies {sum(not line.startswith(' ') for line in lines)}", tuple(lines))


class Sentences(unittest.TestCase):
    def says(self, text: str, expected: str) -> None:
        [found] = read(text)
        self.assertEqual(sentence(found).text(), expected)

    def test_lost_update(self) -> None:
        self.says(
            "lost update : 2 3\n  2 before 3 : 2.1 read acct 1.1.1 at 1, 3 wrote it as 2\n  3 before 2 : 3 wrote acct 1.1.1 as 2, 2 as 3",
            "2 overwrote row 1.1.1 of acct, which 3 had changed after 2 read it.",
        )
        # The one who overwrote may have the greater number.
        self.says(
            "lost update : 2 3\n  2 before 3 : 2 wrote acct 1.1.1 as 2, 3 as 3\n  3 before 2 : 3.1 read acct 1.1.1 at 1, 2 wrote it as 2",
            "3 overwrote row 1.1.1 of acct, which 2 had changed after 3 read it.",
        )

    def test_a_lost_update_of_a_row_that_was_not_there(self) -> None:
        self.says(
            "lost update phantom : 2 3\n  2 before 3 : 2.1 read acct 3.1.1 at 1, 3 wrote it as 2\n  3 before 2 : 3 wrote acct 3.1.1 as 2, 2 as 3",
            "2 overwrote row 3.1.1 of acct, which 3 had inserted after 2 looked for such rows. A row that one looked for was not there yet, or not any more.",
        )

    def test_read_skew(self) -> None:
        self.says(
            "read skew : 2 3\n  2 before 3 : 2.1 read acct 1.1.1 at 1, 3 wrote it as 2\n  3 before 2 : 2.2 read acct 1.1.2 at 2, 3 wrote it as 2",
            "2 read row 1.1.1 of acct before 3 changed it, and row 1.1.2 of acct after: it saw one half of what 3 did.",
        )
        self.says(
            "read skew : 2 3\n  2 before 3 : 2.1 read acct 1.1.1 at 1, 3 wrote it as 2\n  3 before 2 : 2.2 read acct 1.1.1 at 2, 3 wrote it as 2",
            "2 read row 1.1.1 of acct before 3 changed it, and again after that.",
        )
        self.says(
            "read skew : 2 3\n  2 before 3 : 2.1 read acct 1.1.1 at 1, 3 wrote it as 2\n  3 before 2 : 3 wrote acct 1.1.2 as 2, 2 as 3",
            "2 read row 1.1.1 of acct before 3 changed it, and wrote row 1.1.2 of acct after 3 had written it.",
        )

    def test_a_read_skew_whose_witnesses_are_both_reads_of_what_was_before(self) -> None:
        """Its second step is held by another kind too, which the line does not say: nothing is said to be overwritten or relied on."""
        self.says(
            "read skew : 2 3\n  2 before 3 : 2.1 read acct 1.1.1 at 1, 3 wrote it as 2\n  3 before 2 : 3.1 read acct 1.1.1 at 1, 2 wrote it as 3",
            "2 read row 1.1.1 of acct, which 3 then changed; and 3 read row 1.1.1 of acct, which 2 then changed. No order has both.",
        )

    def test_write_skew(self) -> None:
        self.says(
            "write skew phantom : 1 2\n  1 before 2 : 1.1 read duty 2.2.1 at 0, 2 wrote it as 2\n  2 before 1 : 2.1 read duty 1.2.1 at 0, 1 wrote it as 1",
            "1 looked where 2 then put row 2.2.1 of duty; and 2 looked where 1 then put row 1.2.1 of duty. Each relied on what the other one was changing."
            " A row that one looked for was not there yet, or not any more.",
        )

    def test_longer_ones(self) -> None:
        [found] = read(READ_ONLY)
        self.assertEqual(sentence(found, [4]).text(), "No order explains 2, 3, 4: 4 wrote nothing, and saw the others in an order that they cannot have had.")
        self.assertEqual(sentence(found).text(), "No order explains 2, 3, 4: each has to come before the next one, and the last before the first.")

    def test_names(self) -> None:
        found = read(READ_ONLY) + read("write skew phantom : 1 2") * 2 + read("read skew : 3 4")
        self.assertEqual(by_name(found), "2 write skew phantom, 1 read skew, 1 read-only anomaly")
        self.assertEqual(full_name(found[1]), "write skew phantom")


class Shown(unittest.TestCase):
    def test_who_wrote_nothing(self) -> None:
        """An UPDATE that found no row wrote nothing, and the others did not write nothing."""
        it = Desk(Client(program(), open_source(written("report.script", REPORT), program())))
        text = answer(READ_ONLY)
        [found] = anomaly_verdicts(anomalies(text), text, it.client)
        self.assertIn("4 wrote nothing", found.sentences[0].text())
        self.assertEqual((found.title, found.transactions), ("Read-only anomaly", (2, 3, 4)))

    def test_a_list_by_name_stands_above(self) -> None:
        found = verdicts(newer().client)
        self.assertEqual(found[1].title, "2 anomalies: 1 lost update, 1 write skew")
        self.assertIn("That a result would differ is not said.", found[1].sentences[0].text())
        self.assertEqual([it.transactions for it in found], [(), (), (2, 3), (4, 5)])
        few = verdicts(newer().client, 1)
        self.assertEqual([it.title for it in few[2:]], ["Lost update", "1 more anomaly"])

    def test_a_refused_question_is_said(self) -> None:
        """Of more than 50,000 lines there is the shortest cycle, and why not all."""

        class Refusing(Newer):
            def ask(self, dump: Path, questions: Sequence[str], job: Job | None = None, most: Sequence[int | None] = ()) -> list[Answer]:
                found = super().ask(dump, questions, job, most)
                return [Answer(it.question, "E27 more than 50000 rows") if it.question == "ANOMALIES" else it for it in found]

        source = newer().client.source
        found = verdicts(Client(Refusing(program().words), source))
        self.assertEqual([it.title for it in found], ["The record of a history", "Lost update", "Not all anomalies are told"])

    def test_the_least_script_of_a_name(self) -> None:
        lines = lines_of_log(newer().history)
        with self.assertRaisesRegex(ReproduceError, "no anomaly of it is a read skew"):
            reproduce(Newer(program().words), lines, "ANOMALIES", name="read skew")


if __name__ == "__main__":
    unittest.main()
