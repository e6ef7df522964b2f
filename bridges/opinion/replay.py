"""A serial order as a script: its transactions one after another. What each of them does has to be what it did in the history."""

from __future__ import annotations

import re
from collections import Counter
from collections.abc import Sequence
from pathlib import Path

from gprom import answers as a
from gprom.history import Dump, History, Statement
from gprom.program import Answer, Program

# The transaction of each node of an identity.
NODE = re.compile(r"(^|[(,])(\d+)\.")


def differences(program: Program, dump: Dump, order: Sequence[int], folder: Path) -> list[str]:
    """What is otherwise where the transactions run in this order, each from its BEGIN to its COMMIT."""
    script, again = folder / "serial.script", folder / "serial.dump"
    script.write_text("".join(f"{line}\n" for line in serial_script(dump.history, order)), encoding="utf-8")
    refused = [reply for reply in program.run(script, again) if reply.refused]
    if refused:
        return [f"line {refused[0].line} of the serial history is refused: {refused[0].head}"]
    return _compare(program, dump, Dump.open(again), order)


def serial_script(history: History, order: Sequence[int]) -> list[str]:
    """The lines of the serial history: all tables, then the transactions."""
    lines = [f"s1: {line.text}" for line in history.lines if line.text.startswith("CREATE TABLE")]
    for number in order:
        it = history.transactions[number - 1]
        begin = "BEGIN READ COMMITTED" if it.level == "READ COMMITTED" else "BEGIN"
        lines += [f"s1: {text}" for text in (begin, *(one.text for one in it.statements), "COMMIT")]
    return lines


def _compare(program: Program, dump: Dump, again: Dump, order: Sequence[int]) -> list[str]:
    numbers = dict(enumerate(order, 1))
    new = {old: number for number, old in numbers.items()}
    statements = [one for number in order for one in dump.history.transactions[number - 1].statements]
    tables = [f"VERSIONS OF {table}" for table in dump.history.tables]
    ours = program.ask(dump.path, [*(_about(one, one.transaction) for one in statements), *tables])
    theirs = program.ask(again.path, [*(_about(one, new[one.transaction]) for one in statements), *tables])
    same = dict(zip(numbers.values(), numbers.values()))
    return [f"{mine.question}: {mine.text()} in place of {other.text()}" for mine, other in zip(ours, theirs) if _shown(mine, same) != _shown(other, numbers)]


def _about(one: Statement, transaction: int) -> str:
    """The question for what a statement did."""
    return f"CHANGES {transaction} {one.number}" if one.writes else f"SAW {transaction} AFTER {one.number} {one.text}"


def _shown(answer: Answer, numbers: dict[int, int]) -> object:
    """What has to be equal: the rows of a SELECT, the changes of another statement, the last version of a table. Identities have the numbers of the history."""
    if answer.head.startswith("changes"):
        return Counter((it.table, _renamed(it.identity, numbers), it.before, it.after) for it in a.lines_of(answer, a.change))
    if answer.head.startswith("versions"):
        return Counter((_renamed(it.identity, numbers), it.row) for it in a.lines_of(answer, a.span) if it.end is None)
    return answer.head, answer.lines


def _renamed(identity: str, numbers: dict[int, int]) -> str:
    return NODE.sub(lambda found: f"{found[1]}{numbers[int(found[2])]}.", identity)
