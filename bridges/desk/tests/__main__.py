"""Tests the desk over the real program, in a terminal and in headless Chromium.

What is missing of the packages is said in a line, and what is there is tested. NAME is a test, such as test_desk.Command.
"""

from __future__ import annotations

import argparse
import importlib.util
import os
import shlex
import shutil
import sys
import unittest
from pathlib import Path

from browser import SLOW
from gprom.program import ProgramError, find_program

HERE = Path(__file__).resolve().parent
BRIDGES = HERE.parents[1]
PACKAGES = {"prompt_toolkit": "lines are read by readline", "rich": "tables are plain"}


def main() -> int:
    parser = argparse.ArgumentParser(prog="test", description=__doc__, formatter_class=argparse.RawDescriptionHelpFormatter)
    parser.add_argument("names", nargs="*", metavar="NAME")
    parser.add_argument("--gprom", metavar="PROGRAM", help="the program (GPROM, that of the checkout, else of the path)")
    parser.add_argument("--pictures", type=Path, metavar="FOLDER", help="makes pictures of the page there, to be looked at, and tests nothing")
    parser.add_argument("--times", action="store_true", help="measures how soon the page opens and a what-if is there, and tests nothing")
    parser.add_argument("--slow", type=float, metavar="N", help="slows the browser down N times, as a busy machine does")
    given = parser.parse_args()
    if given.slow:
        os.environ[SLOW] = str(given.slow)
    try:
        program, *words = find_program(given.gprom)
    except ProgramError as error:
        print(f"bridges/desk/test: {error}")
        return 1
    found = shutil.which(program)
    if not found:
        print(f"bridges/desk/test: there is no program {program}")
        return 1
    # Some tests run it elsewhere.
    os.environ["GPROM"] = shlex.join([os.path.abspath(found), *words])
    if given.pictures:
        from .pictures import take_pictures

        take_pictures(given.pictures)
        return 0
    if given.times:
        from .times import print_times

        print_times()
        return 0
    for line in missing():
        print(f"bridges/desk/test: {line}")
    return run(given.names)


def missing() -> list[str]:
    """What is not installed, and what is not tested for that."""
    return [f"{name} is not installed: {instead}" for name, instead in PACKAGES.items() if not importlib.util.find_spec(name)]


def run(names: list[str]) -> int:
    """Runs the tests. Prints what failed and the counts."""
    loader = unittest.defaultTestLoader
    suite = loader.loadTestsFromNames([f"{__package__}.{name}" for name in names]) if names else loader.discover(str(HERE), top_level_dir=str(BRIDGES))
    result = unittest.TextTestRunner(sys.stdout, verbosity=0).run(suite)
    for reason in dict.fromkeys(reason for _, reason in result.skipped):
        print(f"bridges/desk/test: not tested: {reason}")
    failed = len(result.failures) + len(result.errors)
    print(f"bridges/desk/test: {result.testsRun - failed - len(result.skipped)} passed, {len(result.skipped)} skipped, {failed} failed")
    return 1 if failed else 0


if __name__ == "__main__":
    sys.exit(main())
