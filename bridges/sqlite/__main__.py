"""Runs what `gprom sql` prints in SQLite, as it is, and compares the rows with those that `gprom ask` answers.

The histories are the examples of the repository, cases by hand, and random scripts. The text is run twice where both are there: by
Python's module `sqlite3`, question by question, and as one script by the shell `sqlite3`.
"""

from __future__ import annotations

import sys

from engines import command, sqlite
from engines.faults import FAULTS

QUESTIONS = 150                                         # in the gate


def main() -> int:
    given = command.arguments(__doc__, QUESTIONS)
    engines = sqlite.installed()
    if not engines:
        print('bridges/sqlite/check: not run: SQLite is not installed')
        return 0
    return command.run('bridges/sqlite/check', given, engines, FAULTS)


if __name__ == '__main__':
    sys.exit(main())
