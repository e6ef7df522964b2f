"""A dump in a folder, and the calls of the program on it."""

from __future__ import annotations

import re
from collections.abc import Sequence
from pathlib import Path

from gprom.program import Answer, Program

TABLE = re.compile(r'table (\w+) \d+')


def run(program: Program, folder: Path, script: str) -> tuple[Dump, list[str]]:
    """The dump of a script, and the refusals of its lines. The folder keeps the files."""
    path = folder / 'script'
    path.write_text(script, encoding='utf-8', newline='\n')
    replies = program.run(path, folder / 'dump')
    return Dump(program, folder / 'dump'), [reply.head for reply in replies if reply.refused]


class Dump:
    """The lines of a dump, and its tables in order of creation."""

    def __init__(self, program: Program, path: Path):
        self.program, self.path = program, path
        self.lines = path.read_text(encoding='utf-8').split('\n')[:-1]
        self.tables = [found[1] for line in self.lines if (found := TABLE.fullmatch(line))]

    def ask(self, questions: Sequence[str]) -> list[Answer]:
        """The answers to these questions."""
        return self.program.ask(self.path, questions)

    def sql(self, questions: Sequence[str]) -> str:
        """What `gprom sql` prints of these questions. The text stays beside the dump."""
        asked = self.path.with_suffix('.questions')
        asked.write_text(''.join(f'{question}\n' for question in questions), encoding='utf-8', newline='\n')
        text = self.program.text(['sql', str(self.path), str(asked)])
        self.path.with_suffix('.sql').write_text(text, encoding='utf-8', newline='\n')
        return text

    def without_rows(self) -> Dump:
        """The dump of the same log, without a row line."""
        first = next((at for at, line in enumerate(self.lines) if TABLE.fullmatch(line)), len(self.lines) - 1)
        lines = [*self.lines[:first], *(f'table {name} 0' for name in self.tables), 'end']
        path = self.path.with_name('log')
        path.write_text(''.join(f'{line}\n' for line in lines), encoding='utf-8', newline='\n')
        return Dump(self.program, path)
