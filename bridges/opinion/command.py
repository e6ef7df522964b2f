"""What `check` does: it compares the answers of the program with those of the rules, and runs serial orders again."""

from __future__ import annotations

import argparse
import itertools
import tempfile
from collections import Counter
from dataclasses import dataclass, field
from pathlib import Path

from gprom.answers import lines_of, numbered, span
from gprom.history import Dump
from gprom.program import Answer, Program, ProgramError, find_program

from .cycles import TooMany, all_cycles, anomalies, anomalies_answer, name, serial_answer
from .faults import FAULTS, made
from .relation import Relation
from .replay import differences
from .scripts import random_script

CASES = Path(__file__).resolve().parent / "cases"
# In the gate.
HISTORIES = 100
# Cycles that are listed of a history. One with more is left out.
MOST_CYCLES = 100_000
MOST_FAILURES = 10


@dataclass
class Counts:
    """What was compared, each difference as a line, and the anomalies by name."""

    answers: int = 0
    replays: int = 0
    left_out: int = 0
    failures: list[str] = field(default_factory=list)
    names: Counter[str] = field(default_factory=Counter)


def arguments() -> argparse.Namespace:
    parser = argparse.ArgumentParser(prog="check", description="Compares SERIAL and ANOMALIES with a reading of their rules by brute force, and runs serial orders again.")
    parser.add_argument("--histories", type=int, default=HISTORIES, metavar="N", help="compare so many random histories, besides the cases by hand (%(default)s)")
    parser.add_argument("--seed", type=int, default=1, help="of the first random history; the next one has the next number (%(default)s)")
    parser.add_argument("--dump", type=Path, metavar="DUMP", help="print both answers about this dump instead, by the rules alone")
    parser.add_argument("--faults", action="store_true", help="read the rules wrongly instead, in several ways, each of which has to give another answer for some history")
    parser.add_argument("--gprom", metavar="PROGRAM", help="the program (that of the checkout, else of the path)")
    return parser.parse_args()


def main() -> int:
    given = arguments()
    try:
        program = Program(find_program(given.gprom))
        if given.dump:
            print("\n".join(of_dump(program, Dump.open(given.dump))))
            return 0
        if given.faults:
            return find_faults(program, given.seed, given.histories)
        counts = compare_all(program, given.seed, given.histories)
    except (ProgramError, OSError) as error:
        print(f"bridges/opinion/check: {error}")
        return 1
    for failure in counts.failures:
        print(f"FAILED {failure}")
    if not program.knows("ANOMALIES"):
        print("bridges/opinion/check: not compared: ANOMALIES, which this gprom does not have")
    found = ", ".join(f"{number} {what}" for what, number in sorted(counts.names.items())) or "none"
    print(f"{given.histories} random histories, {counts.left_out} left out for their cycles; {counts.replays} serial orders run again; anomalies: {found}")
    print(f"{counts.answers + counts.replays} passed, {len(counts.failures)} failed")
    return int(bool(counts.failures))


def of_dump(program: Program, dump: Dump) -> list[str]:
    """Both answers about a dump, as the rules have them."""
    relation = relation_of(program, dump)
    cycles = all_cycles(relation.edges(), MOST_CYCLES)
    return [*anomalies_answer(relation, cycles), *serial_answer(relation, cycles)]


def relation_of(program: Program, dump: Dump) -> Relation:
    answers = program.ask(dump.path, [f"VERSIONS OF {table}" for table in dump.history.tables])
    return Relation(dump.history, {table: lines_of(answer, span) for table, answer in zip(dump.history.tables, answers)})


def compare_all(program: Program, seed: int, histories: int) -> Counts:
    """The cases by hand, whose answers stand beside them, and random histories."""
    counts = Counts()
    with tempfile.TemporaryDirectory(prefix="gprom-opinion-") as folder:
        for path in sorted(CASES.glob("*.script")):
            compare(program, path.stem, path.read_text(encoding="utf-8"), Path(folder), counts, path.with_suffix(".answer").read_text(encoding="utf-8"))
        for number in range(seed, seed + histories):
            if len(counts.failures) >= MOST_FAILURES:
                break
            compare(program, f"--seed {number}", "".join(f"{line}\n" for line in random_script(number)), Path(folder), counts)
    return counts


def compare(program: Program, what: str, text: str, folder: Path, counts: Counts, expected: str | None = None) -> None:
    """Compares one history. `expected` are the lines of ANOMALIES, where they were written by hand."""
    script, path = folder / "case.script", folder / "case.dump"
    script.write_text(text, encoding="utf-8")
    mistakes = [reply for reply in program.run(script, path) if reply.mistaken]
    if mistakes:
        counts.failures.append(f"{what}: line {mistakes[0].line} is refused: {mistakes[0].head}")
        return
    dump = Dump.open(path)
    relation = relation_of(program, dump)
    try:
        cycles = all_cycles(relation.edges(), MOST_CYCLES)
    except TooMany:
        counts.left_out += 1
        return
    counts.names.update(name(relation, cycle) for cycle in anomalies(relation, cycles))
    by_rules = anomalies_answer(relation, cycles)
    if expected is not None:
        _equal(counts, f"{what}, by hand", by_rules, expected.rstrip("\n").split("\n"))
    knows = program.knows("ANOMALIES")
    serial, *others = program.ask(path, ["SERIAL", *(["ANOMALIES"] if knows else [])])
    _equal(counts, f"{what}: SERIAL", _lines(serial), serial_answer(relation, cycles))
    for other in others:
        _equal(counts, f"{what}: ANOMALIES", _lines(other), by_rules)
    if serial.head.startswith("serial"):
        found = differences(program, dump, [it.number for it in lines_of(serial, numbered)], folder)
        counts.replays += not found
        counts.failures += [f"{what}: {difference}" for difference in found]


def find_faults(program: Program, seed: int, histories: int) -> int:
    """Says by which history each wrong reading is found. The status is 1 where one is not."""
    left = dict.fromkeys(FAULTS, "")
    with tempfile.TemporaryDirectory(prefix="gprom-opinion-") as folder:
        script, path = Path(folder) / "case.script", Path(folder) / "case.dump"
        written = [(it.stem, it.read_text(encoding="utf-8")) for it in sorted(CASES.glob("*.script"))]
        drawn = ((f"--seed {number}", "".join(f"{line}\n" for line in random_script(number))) for number in range(seed, seed + histories))
        for what, text in itertools.chain(drawn, written):
            script.write_text(text, encoding="utf-8")
            program.run(script, path)
            dump = Dump.open(path)
            right = of_dump(program, dump)
            for fault in [fault for fault, by in left.items() if not by]:
                with made(fault):
                    left[fault] = "" if of_dump(program, dump) == right else what
            if all(left.values()):
                break
    for fault, by in left.items():
        print(f"{fault}: found by {by}" if by else f"FAILED {fault}: not found")
    print(f"{sum(map(bool, left.values()))} passed, {sum(not by for by in left.values())} failed")
    return int(not all(left.values()))


def _lines(answer: Answer) -> list[str]:
    return [answer.head, *answer.lines]


def _equal(counts: Counts, what: str, found: list[str], expected: list[str]) -> None:
    counts.answers += found == expected
    if found != expected:
        at = next((at for at, (one, other) in enumerate(zip(found, expected)) if one != other), min(len(found), len(expected)))
        one, other = (lines[at] if at < len(lines) else "nothing" for lines in (found, expected))
        counts.failures.append(f"{what}: {one!r} in place of {other!r}")

