"""The command `page`: writes one self-contained page about a dump."""

from __future__ import annotations

import argparse
import sys
from pathlib import Path

from gprom.people import PeopleError, people_beside, read_people
from gprom.program import Program, ProgramError, find_program

from .document import write_page
from .history import History, Limits


def arguments() -> argparse.Namespace:
    limits = Limits()
    parser = argparse.ArgumentParser(prog="page", description="Writes a page about a dump to the standard output.")
    parser.add_argument("dump", metavar="DUMP")
    parser.add_argument("--gprom", metavar="PROGRAM", help="the program, or the words that call it (GPROM, that of the checkout, else of the path)")
    parser.add_argument("--people", type=Path, metavar="FILE", help="who ran each transaction, as convert writes it (the file DUMP.people beside the dump)")
    parser.add_argument("--title", help="the title of the page (the name of the dump)")
    parser.add_argument("--transactions", type=int, default=limits.transactions, metavar="N", help="shows at most N transactions (%(default)s)")
    parser.add_argument("--rows", type=int, default=limits.rows, metavar="N", help="shows at most N row versions (%(default)s)")
    parser.add_argument("--provenance", type=int, default=limits.provenance, metavar="N", help="asks for the provenance of at most N rows (%(default)s)")
    return parser.parse_args()


def main() -> int:
    given = arguments()
    limits = Limits(given.transactions, given.rows, given.provenance)
    try:
        people = read_people([], None, None, given.people or people_beside(Path(given.dump)))
        history = History(Program(find_program(given.gprom)), Path(given.dump), limits, people)
    except ProgramError as error:
        print(error, file=sys.stderr)
        return error.status
    except (PeopleError, OSError) as error:
        print(f"page: {error}", file=sys.stderr)
        return 2
    sys.stdout.buffer.write(write_page(history, given.title or Path(given.dump).name, limits).encode())
    return 0


if __name__ == "__main__":
    sys.exit(main())
