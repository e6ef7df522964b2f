"""What an SQL engine makes of the text that `gprom sql` prints, beside the rows that `gprom ask` answers.

Shared by `bridges/sqlite/check` and `bridges/postgresql/check`, with Python's standard library alone. In reading order: `printed`
(the text), `terms` and `scripts` (random queries and scripts), `histories` (what is compared: examples, cases by hand, random
ones), `compare` (rows as bags), `faults` (a wrong text has to be found), `command` (options and counts). An engine is an object
with a `name` and a `run`, which takes the text of the tables and a list of texts, and gives the rows of each, or a Failure.
"""

from __future__ import annotations

from collections.abc import Callable, Sequence
from typing import Protocol, Union

from gprom.answers import Row



class Failure(Exception):
    """What an engine reported in place of rows."""


# What an engine gives for a text.
Rows = Union[list[Row], Failure]
# Makes a fault in a text, or hands it on.
Edit = Callable[[str], str]


class Engine(Protocol):
    """An engine, with a name for the reports."""

    @property
    def name(self) -> str: ...

    def run(self, tables: str, texts: Sequence[str]) -> Sequence[Rows]:
        """The rows of each text, over these tables."""
