"""The options and the work of both checks: which histories are compared, what is counted, and what is printed."""

from __future__ import annotations

import argparse
import itertools
import shutil
import tempfile
from collections.abc import Iterator, Mapping, Sequence
from pathlib import Path

from gprom.answers import AnswerError
from gprom.program import Program, ProgramError, built_program, find_program

from . import Edit, Engine, compare
from .compare import Counts, as_it_is
from .faults import Fault, edit_of
from .histories import CASES, EXAMPLES, History, by_hand, random_history

# For commands that name a program in their help.
PROGRAM = built_program() or 'gprom'
MOST_FAILURES = 10                                      # after which no other random script is made
MOST_SCRIPTS = 40                                       # random ones in which a fault is looked for


def arguments(description: str | None, questions: int, flags: Sequence[tuple[str, str]] = ()) -> argparse.Namespace:
    """The options. `questions` is the number that the gate compares, besides those of the examples; `flags` are more of them: (name, what it does)."""
    parser = argparse.ArgumentParser(prog='check', description=description, formatter_class=argparse.RawDescriptionHelpFormatter)
    parser.add_argument('--questions', type=int, default=questions, metavar='N',
                        help='compare the rows of so many questions about random scripts (%(default)s)')
    parser.add_argument('--seed', type=int, default=1, help='of the first random script; the next one has the next number (%(default)s)')
    parser.add_argument('--faults', action='store_true', help='make faults in the text instead, each of which has to be found')
    parser.add_argument('--keep', type=Path, metavar='FOLDER', help='keep all files there; those of a failure are always kept')
    for flag, does in flags:
        parser.add_argument(flag, action='store_true', help=does)
    parser.add_argument('--gprom', metavar='PROGRAM', help='the program (GPROM, that of the checkout, else of the path)')
    return parser.parse_args()


def run(name: str, given: argparse.Namespace, engines: Sequence[Engine], faults: Mapping[str, Fault]) -> int:
    """Compares, prints what differs and the counts, and gives the exit status."""
    folder: Path = given.keep or Path(tempfile.mkdtemp(prefix='gprom-sql-'))
    folder.mkdir(parents=True, exist_ok=True)
    try:
        found = Check(given, Program(find_program(given.gprom)), engines, folder)
        passed, failed = found.find(faults) if given.faults else found.compare_all()
    except (ProgramError, AnswerError) as error:
        print(f'{name}: {error}')
        return 1
    finally:
        if not given.keep and not any(folder.iterdir()):
            folder.rmdir()
    print(f'{passed} passed, {failed} failed')
    return int(failed > 0)


class Check:
    """The histories of a check, each compared in a folder of its own."""

    def __init__(self, given: argparse.Namespace, program: Program, engines: Sequence[Engine], folder: Path):
        self.given, self.program, self.engines, self.folder = given, program, engines, folder

    def written(self) -> Iterator[History]:
        """The examples and the cases by hand."""
        return itertools.chain(by_hand(EXAMPLES), by_hand(CASES))

    def random(self) -> Iterator[History]:
        """Random histories, without end."""
        return map(random_history, itertools.count(self.given.seed))

    def compare(self, history: History, edit: Edit = as_it_is) -> Counts:
        """Compares a history. Its files stay if it fails."""
        folder = self.folder / history.name.replace(' ', '-')
        folder.mkdir(exist_ok=True)
        counts = compare.history(history, self.program, self.engines, folder, edit)
        if not self.given.keep and (self.given.faults or not counts.failures):
            shutil.rmtree(folder)
        return counts

    def compare_all(self) -> tuple[int, int]:
        """All histories, with a line for each difference. Gives how many comparisons passed and failed."""
        written, drawn = Counts(), Counts()
        for history in self.written():
            self.count(written, history)
        for history in self.random():
            if drawn.rows >= self.given.questions or len(drawn.failures) >= MOST_FAILURES:
                break
            self.count(drawn, history)
        print(f"{', '.join(engine.name for engine in self.engines)}: {written.rows} questions of examples and {drawn.rows} of random "
              f'scripts compared, {written.refusals + drawn.refusals} refused alike, {written.left_out + drawn.left_out} past a limit of ask')
        both = (written, drawn)
        return sum(it.rows + it.refusals + it.others for it in both), sum(len(it.failures) for it in both)

    def count(self, counts: Counts, history: History) -> None:
        found = self.compare(history)
        for failure in found.failures:
            print(f'FAILED {history.name}: {failure}', flush=True)
        counts.add(found)

    def find(self, faults: Mapping[str, Fault]) -> tuple[int, int]:
        """Makes each fault until a question differs. Gives how many faults were found and how many not."""
        missed = 0
        for name, fault in faults.items():
            histories = itertools.chain(self.written(), itertools.islice(self.random(), MOST_SCRIPTS))
            found = next((history.name for history in histories if self.compare(history, edit_of(fault)).failures), None)
            print(f'{name}: found by {found}' if found else f'FAILED {name}: not found')
            missed += not found
        return len(faults) - missed, missed
