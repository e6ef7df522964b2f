"""ANOMALIES, AFFECTED BY and WHATIF UNDO: used where the program answers them, and done without where it does not."""

from __future__ import annotations

import contextlib
import io
import unittest
from unittest import mock

from desk.gpdesk import cli
from desk.gpdesk.audit import audit
from desk.gpdesk.completion import candidates
from desk.gpdesk.desk import Desk
from desk.gpdesk.reproduce import lines_of_log, reproduce
from desk.gpdesk.verdicts import verdicts
from desk.gpdesk.web.api import Api
from gprom import answers as a
from gprom.client import Client, open_source
from gprom.program import Answer, Job

from .newer import TEXTS, TWO, Newer, newer
from .support import desk, program, written

ANOMALIES, AFFECTED, UNDO = (program().knows(it) for it in ("ANOMALIES", "AFFECTED", "UNDO"))


class Readers(unittest.TestCase):
    def test_anomalies(self) -> None:
        head, *lines = TEXTS["ANOMALIES"].split("\n")
        first, second = a.anomalies(Answer("ANOMALIES", head, tuple(line[2:] for line in lines)))
        self.assertEqual((first.name, first.phantom, first.transactions, [it.kind for it in first.edges]), ("lost update", False, (2, 3), ["rw", "ww"]))
        self.assertEqual((second.name, second.transactions, second.edges[1].statement), ("write skew", (4, 5), 1))
        for line, name, phantom in (("read skew phantom : 2 3", "read skew", True), ("read-only anomaly : 2 3 4", "read-only anomaly", False)):
            found = a.anomaly(line)
            assert isinstance(found, a.Anomaly)
            self.assertEqual((found.name, found.phantom), (name, phantom))

    def test_affected(self) -> None:
        for line, read in (
            ("2", a.Affected(2, None)),
            ("3 by 3.1 : - acct 1.1.1 : 1, 'Anna', 100 -> 1, 'Anna', 101", a.Affected(3, 1, "- acct 1.1.1 : 1, 'Anna', 100 -> 1, 'Anna', 101")),
            ("4 by 4.1 : + 100", a.Affected(4, 1, "+ 100")),
            ("3 by 3.2 : E25 rows over limit in transaction 3 at 2", a.Affected(3, 2, "E25 rows over limit in transaction 3 at 2")),
        ):
            self.assertEqual(a.affected(line), read)
        self.assertIsNone(a.affected("3 by 4.1 : + 100"))


class Known(unittest.TestCase):
    """With a program that has the questions."""

    def test_an_audit_finds_both_anomalies_in_one_command(self) -> None:
        out = io.StringIO()
        with mock.patch.object(cli, "Program", Newer), contextlib.redirect_stdout(out):
            status = cli.main(["--no-cache", str(written("two.script", TWO)), "audit"])
        self.assertEqual(status, 1)
        self.assertIn("NO  2 anomalies: 1 lost update, 1 write skew  [ANOMALIES: anomalies 2]", out.getvalue())
        self.assertIn("NO  Lost update  [ANOMALIES: anomalies 2]\n      2 overwrote row 1.1.1 of acct, which 3 had changed after 2 read it.", out.getvalue())
        self.assertIn("NO  Write skew  [ANOMALIES: anomalies 2]\n      4 read row 1.1.2 of acct, which 5 then changed; and 5 read row 1.1.3 of acct, which 4 then changed.", out.getvalue())

    def test_answers(self) -> None:
        it = newer()
        result = it.ask_one("ANOMALIES")
        self.assertEqual([block.title for block in result.blocks], ["by name", "lost update: 2 3", "write skew: 4 5"])
        self.assertEqual([note.text()[:13] for note in result.notes], ["Lost update: ", "Write skew: 4"])
        rows = it.ask_one("AFFECTED BY 1").blocks[0].rows
        self.assertEqual([cell.text() for cell in rows[0]], ["1", "undone", "", ""])
        self.assertEqual([cell.text() for cell in rows[1]], ["3", "3.1", "- acct 1.1.1 : 1, 100 -> 1, 130", "UPDATE acct SET bal = 130 WHERE (id = 1)"])
        self.assertEqual(it.ask_one("WHATIF UNDO 4, 5 OF SELECT * FROM acct").blocks[0].rows[1][1].plain(), 50)

    def test_the_page(self) -> None:
        api = Api(newer())
        self.assertEqual(api.answer("history", {}, Job())["knows"], ["ANOMALIES", "AFFECTED", "UNDO"])
        self.assertEqual([it["title"] for it in api.answer("verdicts", {}, Job())["verdicts"]], ["The record of a history", "2 anomalies: 1 lost update, 1 write skew", "Lost update", "Write skew"])
        self.assertEqual(api.answer("affected", {"t": 1}, Job())["result"]["head"], "affected 5")
        undone = api.answer("whatif", {"changes": [{"kind": "undo", "t": 4}, {"kind": "undo", "t": 5}], "version": 5}, Job())
        self.assertEqual((undone["words"], len(undone["result"]["blocks"][0]["rows"])), ("UNDO 4, 5", 2))

    def test_completion(self) -> None:
        for text, word in (("ANO", "ANOMALIES"), ("AFFECTED ", "BY"), ("WHATIF U", "UNDO")):
            self.assertIn(word, list(candidates(newer(), text)))


@unittest.skipIf(ANOMALIES, "the program has ANOMALIES")
class Unknown(unittest.TestCase):
    """With a program that has them not."""

    def test_serial_stands_in(self) -> None:
        it = Desk(Client(program(), open_source(written("two.script", TWO), program())))
        self.assertEqual([one.title for one in verdicts(it.client)], ["The record of a history", "Lost update"])
        self.assertFalse(audit(it).clean)
        self.assertEqual(list(candidates(it, "ANO")), [])
        found = it.ask_one("ANOMALIES").explanation
        assert found
        self.assertIn("this gprom has no ANOMALIES: SERIAL finds the shortest cycle", found.message)


class Real(unittest.TestCase):
    """With the program under test, as far as it has them."""

    @unittest.skipUnless(ANOMALIES, "ANOMALIES: this gprom does not have it")
    def test_anomalies(self) -> None:
        self.same("ANOMALIES", "ANOMALIES x")
        for name in ("stock", "write-skew", "isolation-g2", "pay"):
            self.assertEqual(desk(name).ask_one("ANOMALIES").kind, "anomalies", name)

    @unittest.skipUnless(ANOMALIES, "ANOMALIES: this gprom does not have it")
    def test_two_anomalies_are_found_by_one_command(self) -> None:
        out = io.StringIO()
        with contextlib.redirect_stdout(out):
            status = cli.main(["--no-cache", "--gprom", program().words[0], str(written("two.script", TWO)), "audit"])
        self.assertEqual(status, 1)
        for line in ("2 anomalies: 1 lost update, 1 write skew", "2 overwrote row 1.1.1 of acct, which 3 had changed after 2 read it.", "4 read row 1.1.2 of acct, which 5 then changed"):
            self.assertIn(line, out.getvalue())

    @unittest.skipUnless(ANOMALIES, "ANOMALIES: this gprom does not have it")
    def test_an_anomaly_stays_in_the_least_script(self) -> None:
        two = Desk(Client(program(), open_source(written("two.script", TWO), program())))
        for name, left in (("", "lost update"), ("write skew", "write skew")):
            found = reproduce(program(), lines_of_log(two.history), "ANOMALIES", name=name)
            self.assertEqual([it.name for it in a.anomalies(found.answer)], [left])
            self.assertLess(len(found.lines), 13)

    @unittest.skipUnless(AFFECTED and UNDO, "AFFECTED BY and WHATIF UNDO: this gprom does not have them")
    def test_affected_and_undo(self) -> None:
        self.same(*(question for question in TEXTS if not question.startswith("ANOMALIES")))
        it = Desk(Client(program(), open_source(written("two.script", TWO), program())))
        undo, drop = it.client.ask(["WHATIF UNDO 4, 5 OF AS OF 5 SELECT * FROM acct", "WHATIF DROP 4, DROP 5 OF AS OF 5 SELECT * FROM acct"])
        self.assertEqual(undo.lines, drop.lines)
        for name in ("stock", "write-skew", "isolation-g2", "pay"):
            self.assertEqual(desk(name).ask_one("AFFECTED BY 1").kind, "affected", name)

    def same(self, *questions: str) -> None:
        """The texts of the tests are answers of the program."""
        it = Desk(Client(program(), open_source(written("two.script", TWO), program())))
        for question in questions:
            self.assertEqual(it.client.ask_one(question).text(), TEXTS[question], question)


if __name__ == "__main__":
    unittest.main()
