"""What `gprom sql` prints, taken apart at its comments: tables, and the text of each question. Nothing of it is changed."""

from __future__ import annotations

import re
from dataclasses import dataclass

QUESTION = re.compile(r'-- (\d+)(?: (.*))?')
TABLE = re.compile(r'CREATE TABLE (\w+)_versions \(')


@dataclass
class Part:
    """A question: the number of its line, its refusal or None, and the lines of the text, its comment among them."""
    number: int
    refusal: str | None
    text: str


@dataclass
class Printed:
    """The text in front of the first question, and the questions in order."""
    tables: str
    parts: list[Part]

    def table_names(self) -> list[str]:
        """The tables of the dump, in order of creation."""
        return [found[1] for line in self.tables.split('\n') if (found := TABLE.match(line))]


def read(text: str) -> Printed:
    """The parts of a text. Lines end at line feeds alone: a text in it may have other characters at which `splitlines` cuts."""
    printed = Printed('', [])
    for line in text.split('\n')[:-1]:
        if found := QUESTION.fullmatch(line):
            printed.parts.append(Part(int(found[1]), found[2], ''))
        if printed.parts:
            printed.parts[-1].text += f'{line}\n'
        else:
            printed.tables += f'{line}\n'
    return printed
