"""The command `test`: opens pages of dumps in headless Chromium, and reads, clicks and types in them."""

from __future__ import annotations

import argparse
import os
import sys
import tempfile
from pathlib import Path

from browser import SLOW, Browser, BrowserError, installed
from gprom.program import Program, ProgramError, find_program

from .checks import CHECKS
from .pages import Pages
from .pictures import take_pictures


def main() -> int:
    parser = argparse.ArgumentParser(prog="test", description="Tests the pages of all examples in headless Chromium.")
    parser.add_argument("--gprom", metavar="PROGRAM", help="the program, or the words that call it (GPROM, that of the checkout, else of the path)")
    parser.add_argument("--pictures", type=Path, metavar="FOLDER", help="puts pictures of some pages there, for the eye")
    parser.add_argument("--slow", type=float, metavar="N", help="slows the browser down N times, as a busy machine does")
    given = parser.parse_args()
    if given.slow:
        os.environ[SLOW] = str(given.slow)
    chromium = installed()
    if not chromium:
        print("bridges/page/test: not run: Chromium is not installed")
        return 0
    try:
        with tempfile.TemporaryDirectory(prefix="page-test-") as folder, Browser(chromium) as browser:
            pages = Pages(Program(find_program(given.gprom)), Path(folder))
            passed, failed = check_all(browser, pages)
            if given.pictures:
                take_pictures(browser, pages, given.pictures)
    except (BrowserError, ProgramError, OSError) as error:
        print(f"bridges/page/test: stopped: {error}")
        return 1
    print(f"bridges/page/test: {passed} passed, {failed} failed")
    return 1 if failed else 0


def check_all(browser: Browser, pages: Pages) -> tuple[int, int]:
    """Makes all checks, and writes a line for each that fails."""
    passed, failed = 0, 0
    for check in CHECKS:
        for name, fault in check(browser, pages):
            passed, failed = passed + (not fault), failed + bool(fault)
            if fault:
                print(f"{name}: {fault}")
    return passed, failed


if __name__ == "__main__":
    sys.exit(main())
