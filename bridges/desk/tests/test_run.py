"""`desk SCRIPT run`: what it says, what it writes, what it never replaces; and the traps of a script."""

from __future__ import annotations

import contextlib
import io
import shutil
import subprocess
import tempfile
import unittest
from pathlib import Path

from desk.gpdesk.cli import main

from .support import script

GOOD = "s1: CREATE TABLE t (a INT, b TEXT)\ns1: BEGIN\ns1: INSERT INTO t VALUES (1, 'x')\ns1: COMMIT\n"
TRAPS = GOOD + """s1: BEGIN
s1: UPDATE t SET a = 2 -- a note
s1: UPDATE t SET b = 'y
s1: UPDATE t SET b = 'it's'
s1: COMMIT
s1: DELETE FROM t WHERE a = 1 -- all
s2: BEGIN
s2: SELEKT * FROM t
s3: BEGIN
s3: UPDATE t SET a = 5
s4: BEGIN
s4: UPDATE t SET a = 6
s4: COMMIT
s3: COMMIT
"""


class Run(unittest.TestCase):
    def setUp(self) -> None:
        folder = tempfile.TemporaryDirectory(prefix="desk-run-")
        self.addCleanup(folder.cleanup)
        self.folder = Path(folder.name)

    def script(self, text: str | bytes, name: str = "a.script") -> Path:
        path = self.folder / name
        path.write_bytes(text if isinstance(text, bytes) else text.encode())
        return path

    def run_it(self, path: Path, *more: str) -> tuple[int, str, str]:
        out, err = io.StringIO(), io.StringIO()
        with contextlib.redirect_stdout(out), contextlib.redirect_stderr(err):
            status = main([str(path), "run", *more])
        return status, out.getvalue(), err.getvalue()

    def test_what_it_says(self) -> None:
        self.assertEqual(self.run_it(self.script(GOOD)), (0, f"{self.folder / 'a.dump'}: 4 lines, 1 versions: 0 refused, 0 lost, 0 left open\n", ""))
        status, out, err = self.run_it(self.script(TRAPS))
        self.assertEqual(status, 1)
        self.assertIn("18 lines, 3 versions: 5 refused, 1 lost, 1 left open (3)\n", out)
        for text in (
            "line 6: a trailing -- is no comment here: a comment has a line of its own",
            "It is a line of transaction 2, which then committed without it.",
            "line 7: a quote is missing: the text that begins here is not closed. A quote in a text is written twice",
            "line 8: a quote is missing",
            'line 12: at "SELEKT": did you mean SELECT?',
            "It is a line of transaction 3, which was left open.",
            "line 18: transaction 4 lost to 5 on t 1.1.1: the first committer of a row wins",
        ):
            self.assertIn(text, err)

    def test_what_people_of_other_dialects_write(self) -> None:
        for line, said in (
            ("s1: UPDAT t SET a = 0", "did you mean UPDATE?"),
            ("s1: SELECT * FORM t", "did you mean FROM?"),
            ("BEGIN", "expected a session, s1 to s64"),
            ("s65: BEGIN", "expected a session, s1 to s64"),
            ("# a note", "a comment begins with --"),
            ("/* a note */", "a comment begins with --"),
            ("s1: BEGIN; COMMIT", "one command a line"),
            ("s1: INSERT INTO t VALUES (1, 'O'Brien')", "A quote in a text is written twice"),
            ("s1: DELETE FROM t WHERE b = \"Ann\"", "texts are in single quotes, names in none"),
            ("s1: UPDATE t SET a = 12.50", "numbers are whole numbers: enter cents"),
            ("s1: UPDATE t SET a = a / 2", "there is no division"),
            ("s1: DELETE FROM t WHERE a == 1", "a comparison is one ="),
            ("s1: INSERT INTO t (a, b) VALUES (1, 'x')", "no list of columns: VALUES gives a value for each"),
            ("s1: CREATE TABLE u (a INTEGER)", "expected INT or TEXT"),
            ("s1: SELECT SUM(a) FROM t", "a query has no aggregates; TOTAL SUM(..) OF a question has"),
            ("s1: SELECT * FROM t WHERE b LIKE 'A%'", "this dialect has no LIKE"),
            ("s1: SELECT * FROM t JOIN u ON a = c", "this dialect has no JOIN: it was read as a name"),
            ("s1: SELECT * FROM t ORDER BY a", "this dialect has no ORDER"),
            ("s1: SELECT DISTINCT a FROM t", "this dialect has no DISTINCT"),
            ("s1: SELECT a AS x FROM t", "columns of a query have no names of their own"),
            ("s1: SELECT x.* FROM t x", "there is no x.*"),
            ("s1: SELECT b || b FROM t", "there is no ||"),
            ("s1: UPDATE t SET a = (SELECT 1 FROM t)", "there are no subqueries"),
            ("s1: DELETE FROM t WHERE TRUE", "for all rows leave WHERE out"),
        ):
            self.assertIn(said, self.run_it(self.script(f"{GOOD}s1: BEGIN\n{line}\n"))[2], line)

    def test_the_digests_are_checked_by_sha256sum(self) -> None:
        for name in ("a.script", "odd name.script", "back\\slash.script"):
            self.run_it(self.script(GOOD, name))
            sums = self.script(GOOD, name).with_suffix(".dump.sha256")
            self.assertEqual(len(sums.read_text().splitlines()), 2)
            if shutil.which("sha256sum"):
                done = subprocess.run(["sha256sum", "-c", "--strict", sums.name], cwd=self.folder, capture_output=True, text=True)
                self.assertEqual((done.returncode, done.stdout.count("OK")), (0, 2), done)
                self.script(GOOD + "-- more\n", name)
                self.assertEqual(subprocess.run(["sha256sum", "-c", sums.name], cwd=self.folder, capture_output=True).returncode, 1)
        self.assertTrue((self.folder / "back\\slash.dump.sha256").read_text().startswith("\\"))

    def test_an_audit_compares_the_digest(self) -> None:
        self.run_it(script("pay"), str(self.folder / "p.dump"))
        dump = self.folder / "p.dump"
        self.assertIn("ok  The SHA-256 is that of the file of digests beside the dump", self.audit(dump)[1])
        forged = dump.read_text().replace("UPDATE acct SET bal = (bal + 7)", "UPDATE acct SET bal = (bal + 8)").replace("57", "58")
        dump.write_text(forged)
        status, out = self.audit(dump)
        # The log and its rows were changed together: CHECK finds nothing, the digest does.
        self.assertIn("ok  The record of a history", out)
        self.assertIn("NO  The SHA-256 is not that", out)
        self.assertEqual(status, 1)

    def audit(self, dump: Path) -> tuple[int, str]:
        out = io.StringIO()
        with contextlib.redirect_stdout(out):
            status = main(["--no-cache", str(dump), "audit"])
        return status, out.getvalue()

    def test_the_script_may_lie_elsewhere(self) -> None:
        other = self.folder / "other"
        other.mkdir()
        self.run_it(self.script(GOOD), str(other / "b.dump"))
        self.assertIn("  ../a.script\n", (other / "b.dump.sha256").read_text())

    def test_what_is_no_dump_is_not_replaced(self) -> None:
        path = self.script(GOOD)
        letter = self.script("Dear Ann,\n", "letter.txt")
        notes = self.script("my notes\n", "c.dump.sha256")
        for more, said in (((str(letter),), "is there and is no dump: it is not replaced"), ((str(path),), "are one file"), ((str(self.folder),), "is no dump"), ((str(self.folder / "c.dump"),), "has no digests")):
            status, _, err = self.run_it(path, *more)
            self.assertEqual(status, 2, err)
            self.assertIn(said, err)
        self.assertEqual((path.read_text(), letter.read_text(), notes.read_text(), (self.folder / "c.dump").exists()), (GOOD, "Dear Ann,\n", "my notes\n", False))
        link = self.folder / "link.dump"
        link.symlink_to(letter)
        self.assertEqual(self.run_it(path, str(link))[0], 2)
        self.assertEqual(letter.read_text(), "Dear Ann,\n")

    def test_a_dump_is_replaced_by_a_whole_one(self) -> None:
        path, dump = self.script(GOOD), self.folder / "a.dump"
        self.run_it(path)
        first = dump.read_bytes()
        self.run_it(script("stock"), str(dump))
        self.assertNotEqual(dump.read_bytes(), first)
        # A script that cannot be read leaves the dump that was there.
        self.assertEqual(self.run_it(self.folder / "none.script", str(dump))[0], 3)
        self.assertNotEqual(dump.read_bytes(), first)
        self.assertEqual(self.run_it(dump, str(self.folder / "d.dump"))[2].count("is a dump, and no script"), 1)
        self.assertEqual(sorted(it.name for it in self.folder.iterdir()), ["a.dump", "a.dump.sha256", "a.script"])

    def test_encodings(self) -> None:
        for name, data, text in (
            ("u.script", GOOD.encode("utf-16"), "u.script is UTF-16: save it as UTF-8"),
            ("v.script", GOOD.encode("utf-16-be"), "v.script is UTF-16"),
            ("w.script", b"\xef\xbb\xbf" + GOOD.encode(), "w.script begins with a byte order mark"),
        ):
            self.assertIn(text, self.run_it(self.script(data, name))[2])
        self.assertNotIn("UTF-16", self.run_it(self.script("-- \u4e2d\u6587 caf\u00e9\n" + GOOD))[2])


if __name__ == "__main__":
    unittest.main()
