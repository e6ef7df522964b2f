"""What is compared: the examples of the repository, cases by hand, and random scripts with random questions."""

from __future__ import annotations

import random
from collections.abc import Iterator, Sequence
from dataclasses import dataclass, field
from pathlib import Path

from gprom.answers import lines_of, listed

from .dump import Dump
from .scripts import Script

HERE = Path(__file__).resolve().parent
EXAMPLES = HERE.parents[1] / 'examples'
CASES = HERE / 'cases'
LENGTH = 45                                             # lines of a random script, after its first transaction
QUESTIONS = 20                                          # of a random script
MOST_STATES = 40                                        # that are asked of an example


@dataclass
class History:
    """A script, its questions by hand, and for a random one what writes more of them."""
    name: str
    script: str
    questions: list[str] = field(default_factory=list)
    made: Script | None = None


@dataclass
class Transaction:
    """A transaction of a dump: its number, the number of its statements, and whether it committed."""
    number: int
    statements: int
    committed: bool


def by_hand(folder: Path) -> Iterator[History]:
    """The scripts of a folder, with their questions."""
    for path in sorted(folder.glob('*.script')):
        questions = path.with_suffix('.questions')
        lines = questions.read_text(encoding='utf-8').split('\n') if questions.exists() else []
        yield History(path.stem, path.read_text(encoding='utf-8'), [line for line in lines if line.strip() and not line.strip().startswith('--')])


def random_history(seed: int) -> History:
    """The random script of this number."""
    made = Script(random.Random(seed), LENGTH)
    return History(f'random {seed}', ''.join(f'{line}\n' for line in made.lines), made=made)


def transactions_of(dump: Dump) -> list[Transaction]:
    """The transactions of a dump, by their numbers."""
    [listing] = dump.ask(['TRANSACTIONS'])
    return [Transaction(it.number, it.statements, it.version is not None) for it in lines_of(listing, listed)]


def states_of(transactions: Sequence[Transaction]) -> list[str]:
    """Every state that can be explained: each version, and what each committed transaction saw and made."""
    committed = [it for it in transactions if it.committed]
    return [*(f'AS OF {version}' for version in range(len(committed) + 1)),
            *(f'REENACT {it.number} {end}' for it in committed for end in (*(f'AFTER {k + 1}' for k in range(it.statements)), 'COMMIT'))]


def refused_states(transactions: Sequence[Transaction]) -> Iterator[str]:
    """States that are refused: of no version, of no transaction, of no statement, and of a transaction that did not commit."""
    yield f'AS OF {sum(it.committed for it in transactions) + 1}'
    yield f'REENACT {len(transactions) + 1} COMMIT'
    if ended := [it for it in transactions if it.committed]:
        yield f'REENACT {ended[-1].number} AFTER {ended[-1].statements + 1}'
    if others := [it for it in transactions if not it.committed]:
        yield f'REENACT {others[-1].number} COMMIT'


def questions_of(history: History, tables: Sequence[str], transactions: Sequence[Transaction]) -> list[str]:
    """The questions of a history: those by hand and its states with each whole table, or random ones. Every second has EXPLAIN."""
    states = states_of(transactions)
    if history.made:
        asked = list(random_questions(history.made, states))
    else:
        step = -(-len(states) // MOST_STATES)
        asked = [f'{state} SELECT * FROM {table}' for state in states[::step] for table in tables]
    asked += [f'{state} SELECT * FROM {table}' for state in refused_states(transactions) for table in tables[:1]]
    return history.questions + [f"{'EXPLAIN ' * (at % 2)}{question}" for at, question in enumerate(asked)]


def random_questions(made: Script, states: Sequence[str]) -> Iterator[str]:
    """Random queries over random states. Those inside of a transaction are asked more often than versions."""
    inside = [state for state in states if state.startswith('REENACT')]
    for _ in range(QUESTIONS):
        state = made.random.choice(inside if inside and made.random.random() < 0.8 else states)
        whole = made.random.random() < 0.4
        yield f"{state} {f'SELECT * FROM {made.random.choice(made.tables).name}' if whole else made.terms.query(made.tables)}"
