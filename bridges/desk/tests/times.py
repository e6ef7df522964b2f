"""Wall times of the page: how soon it opens, and how soon a what-if is there. They mean something on a machine that does nothing else."""

from __future__ import annotations

import os
import statistics
import time
from collections.abc import Iterator

from browser import Browser, BrowserError, installed
from desk.gpdesk.desk import Desk
from gprom.client import Client, Source, open_source

from .support import Serving, overlapping, program, written

RUNS = 5
# Seconds after which nothing is waited for any more.
MOST = 120.0
# What is on the page when it is open, when all verdicts are there, and when a what-if is.
OPEN = "document.querySelectorAll('.tx').length > 0 && document.querySelectorAll('#rows tr').length > 0"
READY = "document.documentElement.dataset.ready === 'yes'"
DIFFERENCE = "document.getElementById('difference').innerText.includes('would be otherwise')"


def print_times() -> None:
    """The median of some runs for each, by a server that was asked nothing before, and the processes that wanted to run meanwhile."""
    print(f"load {os.getloadavg()[0]:.1f} before; seconds, the median of {RUNS} and the greatest")
    histories = (("800 transactions beside one another", overlapping(800)), ("1,000 transactions and 100,000 row versions", large()))
    with Browser(installed() or "chromium") as browser:
        for name, text in histories:
            source = open_source(written("times.script", text), program())
            versions = sum(source.dump.history.sizes.values())
            made = [_one(browser, source) for _ in range(RUNS)]
            print(f"{name} ({len(source.dump.history.transactions):,} transactions, {versions:,} row versions)")
            for what, values in zip(("the page is open", "with all verdicts", "a what-if, from the click to the difference"), zip(*made)):
                print(f"  {what}: {statistics.median(values):.2f}, {max(values):.2f}")
            source.close()
    print(f"load {os.getloadavg()[0]:.1f} behind")


def _one(browser: Browser, source: Source) -> tuple[float, float, float]:
    last = source.dump.history.makers[-1]
    with Serving(Desk(Client(program(), source))) as server:
        began = time.monotonic()
        browser.open(f"{server.address}#t={last.number}")
        opened, ready = _until(browser, OPEN, began), _until(browser, READY, began)
        _until(browser, "document.querySelector('.statement .drop') !== null", began)
        began = time.monotonic()
        browser.ask("[...document.querySelectorAll('.statement')].find((it) => !it.innerText.includes('SELECT')).querySelector('.drop').click()")
        return opened, ready, _until(browser, DIFFERENCE, began)


def _until(browser: Browser, condition: str, began: float) -> float:
    while not browser.ask(condition):
        if time.monotonic() - began > MOST:
            raise BrowserError(f"not so after {MOST:.0f} seconds: {condition}")
        time.sleep(0.005)
    return time.monotonic() - began


def large() -> str:
    """The limits of a script: 1,000 transactions, and as many row versions as there can be."""
    lines = ["s1: CREATE TABLE big (id INT, owner TEXT, bal INT)", "s1: CREATE TABLE acct (id INT, owner TEXT, bal INT)", "s1: BEGIN", *_rows("big", 4800), *_rows("acct", 40), "s1: COMMIT"]
    for step in range(18):
        lines += ["s1: BEGIN", f"s1: UPDATE big SET bal = bal + {step}", "s1: COMMIT"]
    for step in range(981):
        lines += ["s2: BEGIN", f"s2: UPDATE acct SET bal = {step} WHERE id <= 8", "s2: COMMIT"]
    return "\n".join(lines) + "\n"


def _rows(table: str, count: int) -> Iterator[str]:
    for start in range(1, count + 1, 100):
        rows = ", ".join(f"({number}, 'Owner {number}', 100)" for number in range(start, min(start + 99, count) + 1))
        yield f"s1: INSERT INTO {table} VALUES {rows}"
