"""Scripts that are too long to be written by hand."""

from __future__ import annotations

from collections.abc import Iterator

ACCOUNTS = 40


def overlapping(transactions: int, sessions: int = 8) -> str:
    """A bank: rounds of transactions beside one another, each with an UPDATE and a SELECT, some of which meet and lose. The last two are a cycle."""
    lines = [*_create(), *(_insert(1, ACCOUNTS)), "s1: COMMIT"]
    for number in range(1, transactions - 2, sessions):
        running = range(1, min(sessions, transactions - 2 - number) + 1)
        accounts = {s: (7 * number + s * s) % ACCOUNTS + 1 for s in running}
        lines += [f"s{s}: BEGIN{' READ COMMITTED' if s % 2 else ''}" for s in running]
        lines += [f"s{s}: UPDATE acct SET bal = bal + {s} WHERE id = {accounts[s]}" for s in running]
        lines += [f"s{s}: SELECT bal FROM acct WHERE id = {accounts[s] % ACCOUNTS + 1}" for s in running]
        lines += [f"s{s}: COMMIT" for s in running]
    lines += ["s2: BEGIN", "s4: BEGIN", "s2: SELECT bal FROM acct WHERE id = 1", "s4: SELECT bal FROM acct WHERE id = 2"]
    lines += ["s2: UPDATE acct SET bal = 0 WHERE id = 2", "s4: UPDATE acct SET bal = 0 WHERE id = 1", "s2: COMMIT", "s4: COMMIT"]
    return "\n".join(lines) + "\n"


def large() -> str:
    """The limits of a script: 1,000 transactions, and nearly 100,000 row versions."""
    lines = ["s1: CREATE TABLE big (id INT, owner TEXT, bal INT)", *_create(), *_insert(1, ACCOUNTS)]
    lines += [line.replace("acct", "big") for line in _insert(1, 4800)] + ["s1: COMMIT"]
    for step in range(18):
        lines += ["s1: BEGIN", f"s1: UPDATE big SET bal = bal + {step}", "s1: COMMIT"]
    for step in range(981):
        lines += ["s2: BEGIN", f"s2: UPDATE acct SET bal = {step} WHERE id <= 8", "s2: COMMIT"]
    return "\n".join(lines) + "\n"


def _create() -> list[str]:
    return ["s1: CREATE TABLE acct (id INT, owner TEXT, bal INT)", "s1: BEGIN"]


def _insert(first: int, last: int) -> Iterator[str]:
    for start in range(first, last + 1, 100):
        rows = ", ".join(f"({number}, 'Owner {number}', 100)" for number in range(start, min(start + 99, last) + 1))
        yield f"s1: INSERT INTO acct VALUES {rows}"
