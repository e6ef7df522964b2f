"""SQLite, by Python's module and by its shell. Both have a database in memory for each text."""

from __future__ import annotations

import contextlib
import importlib.util
import re
import shutil
import subprocess
from collections.abc import Sequence
from typing import TYPE_CHECKING

from gprom.answers import plain

from . import Engine, Failure, Rows

if TYPE_CHECKING:
    import sqlite3

SECONDS = 600                                           # after which the shell is taken for stuck; a busy machine is slow
ERROR = re.compile(r'near line (\d+): (.*)')


def installed() -> list[Engine]:
    """What is there of SQLite."""
    shell = shutil.which('sqlite3')
    return [*([Module()] if importlib.util.find_spec('_sqlite3') else []), *([Shell(shell)] if shell else [])]


class Module:
    """Python's module, one question after another."""

    def __init__(self) -> None:
        import sqlite3                                  # a Python may be built without it
        self.module, self.name = sqlite3, f"Python's sqlite3 {sqlite3.sqlite_version}"

    def run(self, tables: str, texts: Sequence[str]) -> list[Rows]:
        """The rows of each text, over these tables."""
        with contextlib.closing(self.module.connect(':memory:')) as database:
            try:
                database.executescript(tables)
            except self.module.Error as error:
                raise Failure(f'the tables: {error}') from error
            return [self.rows(database, text) for text in texts]

    def rows(self, database: sqlite3.Connection, text: str) -> Rows:
        try:
            return database.execute(text).fetchall()
        except self.module.Error as error:
            return Failure(str(error))


class Shell:
    """The program, which reads all as one script, repeats each line of it, and prints rows as SQL literals."""

    def __init__(self, program: str):
        self.program = program
        self.name = f"shell {self.call('--version').stdout.split()[0]}"

    def call(self, *options: str, text: str = '') -> subprocess.CompletedProcess[str]:
        return subprocess.run([self.program, *options], input=text, stdout=subprocess.PIPE, stderr=subprocess.PIPE, encoding='utf-8',
                              timeout=SECONDS, check=False)

    def run(self, tables: str, texts: Sequence[str]) -> list[Rows]:
        """The rows of each text, over these tables."""
        try:
            done = self.call('-batch', '-init', '/dev/null', '-echo', '-quote', '-separator', ', ', ':memory:', text=tables + ''.join(texts))
        except subprocess.TimeoutExpired as error:
            raise Failure(f'no end within {SECONDS} seconds') from error
        return with_errors(split(done.stdout, tables, texts), done.stderr, tables, texts)


def split(output: str, tables: str, texts: Sequence[str]) -> list[Rows]:
    """The rows of each text in the output of the shell: the lines between a text, which is repeated, and the next one."""
    at = len(tables)
    results: list[Rows] = []
    for here, text in enumerate(texts):
        if not output.startswith(text, at):
            raise Failure(f'the shell does not repeat what it reads: {output[at:at + 80]!r}')
        at += len(text)
        end = len(output) if here + 1 == len(texts) else next_text(output, at, texts[here + 1])
        results.append(rows_of(output[at:end]))
        at = end
    return results


def next_text(output: str, at: int, text: str) -> int:
    """Where the next text is repeated, behind the rows that begin here. No row begins with the two signs of a comment."""
    head = text.partition('\n')[0] + '\n'
    return at if output.startswith(head, at) else output.find(f'\n{head}', at) + 1 or len(output)


def rows_of(lines: str) -> Rows:
    """The rows of these lines, or a Failure if one is none."""
    rows = []
    for line in lines.split('\n')[:-1]:
        found = plain(line)
        if found is None or found.value is not None:
            return Failure(line)
        rows.append(found.row)
    return rows


def with_errors(results: list[Rows], errors: str, tables: str, texts: Sequence[str]) -> list[Rows]:
    """The results, and a Failure in the place of each text in whose lines the shell reports an error."""
    for number, message in ERROR.findall(errors):
        line, at = int(number) - 1 - tables.count('\n'), 0
        if line < 0:
            raise Failure(f'the tables: {message}')
        while line >= texts[at].count('\n'):
            line, at = line - texts[at].count('\n'), at + 1
        results[at] = Failure(message)
    return results
