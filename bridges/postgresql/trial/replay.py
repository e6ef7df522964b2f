"""The rows of the tables behind each commit, from what wal2json wrote. It shares no code with the bridge, whose starting rows it checks."""
import collections
import csv
import json
from collections.abc import Iterator
from dataclasses import dataclass, field
from typing import Any

from .window import Column, cell_of

TRUTH = {True: 't', False: 'f'}
Values = dict[str, str | None]    # of a row, by columns, as the server prints them


@dataclass
class Begun:
    """Where a window begins in the slot: how many commits stand before its first and its last one. `partial` are tables of which it has the rows
    alone that it writes."""
    name: str
    first: int
    last: int
    partial: set[str]
    rows: dict[str, list[str]] = field(default_factory=dict)      # what the script has there, by tables, as gprom prints it


@dataclass
class Open:
    """A window that the replay is in: the whole tables where it begins, and the first old images of the others."""
    begun: Begun
    whole: dict[str, list[str]]
    old: dict[str, list[str]]
    seen: set[tuple[str, str | None]] = field(default_factory=set)       # keys that it wrote
    made: collections.Counter[tuple[str, str]] = field(default_factory=collections.Counter)      # rows without a key that it made


class Replay:
    """Rows of tables with a key by it, of others how often each is there."""

    def __init__(self, columns: dict[str, list[Column]], keys: dict[str, str]):
        self.columns, self.keys = columns, keys
        self.keyed: dict[str, dict[str, str]] = {name: {} for name in columns if name in keys}
        self.plain: dict[str, collections.Counter[str]] = {name: collections.Counter() for name in columns if name not in keys}

    def start(self, name: str, file: str) -> None:
        """Takes the rows of a table from a CSV file with headings."""
        with open(file, newline='', encoding='utf-8') as opened:
            for record in csv.DictReader(opened):
                self.put(name, {column: None if text == r'\N' else text for column, text in record.items()})

    def text(self, name: str, values: Values) -> str:
        return ', '.join(cell_of(values[column.name], column) for column in self.columns[name])

    def put(self, name: str, values: Values) -> None:
        if name in self.keys:
            self.keyed[name][str(values[self.keys[name]])] = self.text(name, values)
        else:
            self.plain[name][self.text(name, values)] += 1

    def take(self, name: str, values: Values) -> None:
        if name in self.keys:
            del self.keyed[name][str(values[self.keys[name]])]
        else:
            self.plain[name][self.text(name, values)] -= 1

    def rows(self, name: str) -> list[str]:
        """The rows of a table, in the order of their texts."""
        return sorted(self.keyed[name].values() if name in self.keys else self.plain[name].elements())

    def wrong(self, file: str, windows: list[Begun]) -> Iterator[str]:
        """Where the rows of windows are not those of the replay of a file. Behind it the replay has the rows at the end."""
        waiting, at = sorted(windows, key=lambda window: window.first), -1
        inside: list[Open] = []
        with open(file, encoding='utf-8', newline='\n') as lines:
            for line in lines:
                entry = json.loads(line, parse_int=str, parse_float=str)
                if entry['action'] == 'B':
                    at += 1
                    for window in [window for window in inside if window.begun.last < at]:
                        yield from difference(window)
                    inside = [window for window in inside if window.begun.last >= at]
                    while waiting and waiting[0].first <= at:
                        inside.append(self.opened(waiting.pop(0)))
                elif entry['action'] in 'IUD':
                    self.change(entry, inside)
        for window in inside:
            yield from difference(window)

    def opened(self, begun: Begun) -> Open:
        names = begun.rows.keys()
        return Open(begun, {name: self.rows(name) for name in names - begun.partial}, {name: [] for name in names & begun.partial})

    def change(self, entry: dict[str, Any], inside: list[Open]) -> None:
        """Makes the change of a row, and notes what it is in the windows."""
        name = entry['table']
        old, new = (None if part not in entry else {column['name']: printed(column['value']) for column in entry[part]}
                    for part in ('identity', 'columns'))
        for window in inside:
            if name in window.old:
                self.note(window, name, old, new)
        if old is not None:
            self.take(name, old)
        if new is not None:
            self.put(name, new)

    def note(self, window: Open, name: str, old: Values | None, new: Values | None) -> None:
        """Notes the old image of a row that the window did not make, and has not seen before."""
        if name in self.keys:
            if old is not None and (name, old[self.keys[name]]) not in window.seen:
                window.old[name].append(self.text(name, old))
            window.seen |= {(name, row[self.keys[name]]) for row in (old, new) if row is not None}
            return
        if old is not None:
            text = self.text(name, old)
            if window.made[name, text]:
                window.made[name, text] -= 1
            else:
                window.old[name].append(text)
        if new is not None:
            window.made[name, self.text(name, new)] += 1


def printed(value: bool | str | None) -> str | None:
    """A value of wal2json as the server prints it."""
    return TRUTH[value] if isinstance(value, bool) else value


def difference(window: Open) -> Iterator[str]:
    """The first row of each table that one side alone has."""
    for name, ours in window.begun.rows.items():
        theirs = window.old.get(name, window.whole.get(name, []))
        mine, replayed = collections.Counter(ours), collections.Counter(theirs)
        for side, rows in (('the script', mine - replayed), ('the replay', replayed - mine)):
            if rows:
                yield f'{window.begun.name}: table {name} begins with other rows: {side} alone has {min(rows)}'
