"""What is to be read in the pages: of each script a part that is chosen in the address, and texts of the document that are seen then."""

from __future__ import annotations

from dataclasses import dataclass


@dataclass(frozen=True)
class Case:
    script: str
    chosen: str
    expected: tuple[tuple[str, str], ...]


# The rows that are seen, and what the table's heading says of them.
SEEN = ".rows tbody tr"

CASES = [
    Case("accounts", "#t2", (("#t2", "2.2 DELETE FROM acct WHERE (bal = 50) line 9, read v1"), ("#t2", "acct 1.1.1 1, 'Ann', 100 → 1, 'Ann', 70"))),
    Case("accounts", "#v1", ((SEEN, "• written 1.1.2 2 'Bob' 50 v1 to v2"), (".count", "2 rows at v1, 2 written by it"))),
    Case("bank", "#t3", (("#t3", "session 2, SNAPSHOT, begun at version 1, committed as 2"), (".version.read", "v1"))),
    Case("bank", "#v3", ((SEEN, "'Bob' 80 v3 to now"), (".makers", "v3 was made by transaction 2"))),
    Case("bank-read-committed", "#t2", (("#t2", "2.2 UPDATE acct SET bal = (bal + 30) WHERE (owner = 'Bob') line 10, read v2"), ("#t2", "2.1 UPDATE acct SET bal = (bal - 30) WHERE (owner = 'Ann') line 7, read v1"))),
    Case("bank-read-committed", "#v2", ((".count", "3 rows at v2, 1 written by it"),)),
    Case("conflicts", "#t5", (("#t5", "lost"), ("#t5", "acct 1.1.1 1, 10 → 1, 11"))),
    Case("conflicts", "#v2", ((SEEN, "• written 2.1.1 3 30 v2 to now"), (".count", "3 rows at v2, 1 written by it"))),
    Case("copies", "#life-rich-2.1.1(1.1.1)", ((".life", "v2"), (".life", "i1.1.1*q2.1"))),
    Case("copies", "#v2", ((SEEN, "− deleted 1.1.2 2 'Bob' 50 v1 to v2"), (SEEN, "• written 2.1.1(1.1.2) 'Bob' 50 v2 to now"))),
    Case("deposits", "#v2", ((SEEN, "• written 2.1.1(1.1.1) 'Ann' 70 v2 to now"), (".count", "3 rows at v2, 3 written by it"))),
    Case("fees", "#t5", (("#t5", "lost"), ("#t5", "acct 1.1.1 'Ann', 70 → 'Ann', 140"))),
    Case("fees", "#v4", ((SEEN, "'Ann' 71 v4 to now"), (".makers", "v4 was made by transaction 4"))),
    Case("pay", "#t2", (("#t2", "acct 1.1.1 'Ann', 100 → 'Ann', 70"), ("#t2", "committed as 3"))),
    Case("pay", "#v2", ((SEEN, "1.1.2 'Bob' 57"), (".count", "2 rows at v2, 1 written by it"))),
    Case("read-committed", "#t2", (("#t2", "line 11, read v2"), ("#t2", "saw 130"))),
    Case("refusals", "", (("[aria-labelledby=verdicts]", "The rows are what the lines make"),)),
    Case("stock", "#v8", ((SEEN, "− deleted 8.1.1(1.1.1) 1 38"), (SEEN, "• written 9.2.1(7.1.4) 4 7"))),
    Case("tutorial", "#t3", (("#t3", "3.1 UPDATE payment SET amount = (amount + 400) WHERE (id = 2)"), ("#t3", "payment 1.1.2 2, 'Birch, Ltd', 80 → 2, 'Birch, Ltd', 480"))),
    Case("write-skew", "#t3", (("#t3", "saw 1, 50 2, 50"), ("#t3", "acct 1.1.2 2, 50 → 2, -30"))),
    Case("lost-update", "#t3", (("#t3", "Lost to transaction 2: row acct 1.1.1, read at version 1, was written by transaction 2 in version 2"), ("#t3", "saw 100"))),
    Case("lost-update", "#life-acct-1.1.1", ((".order", "1 2 4"), (".life", "v3 4.2 1, 120 → 1, 150 i1.1.1*u2.2*u4.2"))),
    Case("write-skew", "", ((".cycle", "a 2 before 3: 2.1 read acct 1.1.2 at 1, 3 wrote it as 3"),)),
    Case("write-skew", "#t2", (("#t2", "2 before 3: 2.1 read acct 1.1.2 at 1, 3 wrote it as 3"), ("g.arrow text", "a b"))),
    Case("stock", "#t5", (("#t5", "session 3, READ COMMITTED, begun at version 3, lost"), ("#t5", "was written by transaction 4 in version 4"))),
    Case("stock", "#life-item-1.1.1", ((".life", "v3 2.2 1, 'Rope', 36, 250 → 1, 'Rope', 38, 250 i1.1.1*u2.2*u3.1"),)),
    Case("circle", "", ((".cycle", "4.1 read duty 1.1.3 at 1, 3 wrote it as 3"), ("g.arrow text", "a b c"))),
    Case("circle", "#t7", (("#t7", "active"), ("#t7", "No statement."))),
    # A text is shown as it is, whatever it looks like.
    Case("hostile", "#t1", (("#t1", "<script>alert(1)</script>"), ("#t1", "{{verdicts}} {{hash}}"), ("#t1", "</code></pre></details></script><h1>Broken</h1>"))),
    Case("hostile", "#v1", ((SEEN, "1.1.1 1 '<script>alert(1)</script>'"), (SEEN, "' -> 7, ''x'' : y &lt;&amp;'"))),
    Case("hostile", "#t2", (("#t2", "lost"), ("#t2", "'<b onclick=\"alert(3)\">bold</b>'"))),
    Case("hostile", "#life-note-1.2.3", ((".life", "no row → 6, ' -> 7, ''x'' : y &lt;&amp;' i1.2.3"),)),
    Case("hostile", "#t4", (("#t4", "active"), ("#t4", "DELETE FROM note WHERE (id = 6)"))),
]

NO_ORDER = "No order of the transactions keeps who read and wrote which rows before whom. That a result would differ is not said."

# Where the program has the shortest cycle alone.
CYCLES = [
    Case("write-skew", "", (("[aria-labelledby=verdicts]", "a cycle of 2"), ("[aria-labelledby=verdicts]", NO_ORDER))),
    Case("write-skew", "#t2", (("#t2", "In the cycle: 2 before 3: 2.1 read acct"),)),
    Case("circle", "", (("[aria-labelledby=verdicts]", "a cycle of 3"),)),
]

# Where it has all of them.
ANOMALIES = [
    Case("write-skew", "", ((".anomaly.chosen", "Write skew: 2 read row 1.1.2 of acct, which 3 then changed; and 3 read row 1.1.1 of acct, which 2 then changed."), ("[aria-labelledby=verdicts]", NO_ORDER))),
    Case("write-skew", "#t2", (("#t2", "Write skew 2, 3: 2 before 3: 2.1 read acct"),)),
    Case("circle", "", ((".anomaly.chosen", "Write skew: No order explains 2, 4, 3: each has to come before the next one"),)),
    Case("anomalies", "", (("[aria-labelledby=verdicts]", "2 anomalies: 1 lost update, 1 write skew"), (".anomaly.chosen", "Lost update: 2 overwrote row 1.1.1 of acct, which 3 had changed after 2 read it."), (".anomaly.chosen", "b 3 before 2: 3 wrote acct 1.1.1 as 2, 2 as 3"))),
    Case("anomalies", "#a4-5", ((".anomaly.chosen", "Write skew: 4 read row 1.1.2 of acct, which 5 then changed"), ("#t4", "Transaction 4"))),
]
