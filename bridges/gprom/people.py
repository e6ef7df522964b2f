"""Who a session is: names that were given, and of a history of a PostgreSQL server the user, the application, the client and the times."""

from __future__ import annotations

import csv
import re
from collections.abc import Iterable
from dataclasses import dataclass, field
from pathlib import Path

from .history import History, Transaction

_NAME = re.compile(r"s?(\d+)=(.+)")
# The places of fields of a record of a PostgreSQL CSV log.
TIME, USER, CLIENT, APPLICATION = 0, 1, 4, 22


class PeopleError(Exception):
    """A file that says who it was cannot be read."""


@dataclass(frozen=True)
class Person:
    """Who ran a transaction, with what and from where, when it began and ended, and its line of the log. What is not known is empty."""

    user: str
    application: str = ""
    begin: str = ""
    client: str = ""
    end: str = ""
    line: str = ""
    zone: str = "UTC"

    def __str__(self) -> str:
        return self.at(self.begin.partition(".")[0])

    def at(self, time: str) -> str:
        """The same at a time: where one answer has many lines, it stands in each."""
        return ", ".join(filter(None, (self.user, self.application, time)))

    @property
    def period(self) -> str:
        """From its begin to its end. The day stands once, and no digits that say nothing."""
        begin, end = (it.removesuffix("000") if "." in it else it for it in (self.begin, self.end))
        if not begin or not end:
            return begin and f"since {begin} {self.zone}"
        day = begin.partition(" ")[0]
        return f"{begin} to {end.removeprefix(f'{day} ')} {self.zone}"

    @property
    def details(self) -> str:
        """What `__str__` leaves out."""
        parts = (self.client and f"from {self.client}", self.period, self.line and f"line {self.line} of the server's log")
        return "; ".join(filter(None, parts))

    @property
    def whole(self) -> str:
        """All that is known, for a place where one transaction is shown."""
        return "; ".join(filter(None, (" with ".join(filter(None, (self.user, self.application))), self.details)))


@dataclass
class People:
    sessions: dict[int, str] = field(default_factory=dict)
    transactions: dict[int, Person] = field(default_factory=dict)
    # When the statement of a line of the script was done.
    times: dict[int, str] = field(default_factory=dict)

    def session(self, number: int) -> str:
        name = self.sessions.get(number)
        return f"s{number} {name}" if name else f"s{number}"

    def person(self, transaction: Transaction) -> Person | None:
        return self.transactions.get(transaction.number)

    def whole(self, transaction: Transaction) -> str:
        """All that is known of who ran it."""
        person = self.person(transaction)
        return person.whole if person else self.session(transaction.session)

    def of(self, transaction: Transaction, line: int = 0) -> str:
        """Who ran it, or its statement of this line, as far as it is known."""
        person = self.person(transaction)
        if not person:
            return self.session(transaction.session)
        return person.at(self.times[line]) if line in self.times else str(person)

    def name_sessions(self, history: History) -> None:
        """A session without a name that one user alone used has the user's."""
        for session in history.sessions():
            name = self.user(it.number for it in history.transactions if it.session == session)
            if name:
                self.sessions.setdefault(session, name)

    def user(self, transactions: Iterable[int]) -> str:
        """The one user of these transactions, as far as it is known."""
        users = {self.transactions[it].user for it in transactions if it in self.transactions}
        return users.pop() if len(users) == 1 else ""


def people_beside(dump: Path) -> Path | None:
    """The file of who it was that `convert` wrote beside the script of a dump."""
    file = dump.with_suffix(".people")
    return file if file.exists() else None


def read_people(names: list[str], table: Path | None, log: Path | None, known: Path | None = None) -> People:
    """`names` are as s1=Mia; `table` and `known` are the out.tsv and the out.people of `convert`, and `log` is the CSV log that they were made of."""
    people = People(transactions=_known(known) if known else {})
    for name in names:
        found = _NAME.fullmatch(name)
        if not found:
            raise PeopleError(f"{name}: a name is given as s1=Mia")
        people.sessions[int(found[1])] = found[2]
    if log and table:
        transactions, lines = _numbers(table)
        for line, record in _records(log):
            if len(record) <= APPLICATION:
                continue
            if line in transactions:
                begin, _, zone = record[TIME].rpartition(" ")
                person = Person(record[USER], record[APPLICATION], begin, record[CLIENT], line=str(line), zone=zone)
                people.transactions.setdefault(transactions[line], person)
            people.times.update(dict.fromkeys(lines.get(line, ()), record[TIME].removesuffix(" UTC")))
    return people


def _known(file: Path) -> dict[int, Person]:
    """Who ran each transaction."""
    with file.open(newline="", encoding="utf-8") as opened:
        rows = csv.DictReader(opened, delimiter="\t", quoting=csv.QUOTE_NONE)
        try:
            return {int(it["transaction"]): _person(it) for it in rows}
        except (KeyError, TypeError, ValueError) as error:
            raise PeopleError(f"{file} is no file of convert that says who it was: {error}") from error


def _person(row: dict[str, str | None]) -> Person:
    parts = {name: row[name] for name in ("user", "application", "begin", "client", "end", "line")}
    missing = [name for name, text in parts.items() if text is None]
    if missing:
        raise ValueError(f"a line has no {missing[0]}")
    return Person(**{name: text for name, text in parts.items() if text is not None})


def _numbers(table: Path) -> tuple[dict[int, int], dict[int, list[int]]]:
    """The transaction that begins in each line of the log, and the lines of the script that became of it."""
    transactions: dict[int, int] = {}
    lines: dict[int, list[int]] = {}
    with table.open(newline="", encoding="utf-8") as file:
        rows = csv.DictReader(file, delimiter="\t", quoting=csv.QUOTE_NONE)
        try:
            for it in rows:
                if it["kind"] == "transaction" and it["transaction"]:
                    transactions[int(it["log_line"])] = int(it["transaction"])
                elif it["kind"] == "line" and it["log_line"] and it["script_line"]:
                    lines.setdefault(int(it["log_line"]), []).append(int(it["script_line"]))
            return transactions, lines
        except (KeyError, TypeError, ValueError) as error:
            raise PeopleError(f"{table} is no table of convert: {error}") from error


def _records(log: Path) -> list[tuple[int, list[str]]]:
    """The records of the log, each with its first line: a statement may take several."""
    csv.field_size_limit(1 << 30)
    out = []
    with log.open(newline="", encoding="utf-8") as file:
        reader = csv.reader(file)
        line = 1
        for record in reader:
            out.append((line, record))
            line = reader.line_num + 1
    return out
