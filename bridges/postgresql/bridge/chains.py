"""Whether the transactions that stand for folded ones leave each row as the slot has it there.

Of each row the slot gives a chain of changes. Those of kept transactions have to stand in the script as they are, and what stands between two of
them has to lead from the one to the other by values that the row had meanwhile.
"""
import re
from collections import defaultdict
from collections.abc import Iterable, Iterator
from typing import Any, NamedTuple

from .decoding import Commit
from .fold import Finder, rows_of
from .schema import Table, safe_name
from .slots import Slot

FIRST = re.compile(r'xid (\d+) to ')
Row = tuple[str, Any]                                 # a table and a key


class Link(NamedTuple):
    """What a transaction of the script makes of a row: with the xid of a kept one, and else '' for what stands for others."""
    number: str
    xid: str
    before: Any
    after: Any


def changes(slot: Slot, tables: dict[str, Table], commits: list[Commit], entries: list[dict[str, str]]) -> list[Commit]:
    """The commits of the slot beside kept ones, with those changes alone that write rows of these."""
    kept = {entry['xid'] for entry in entries if entry['kind'] == 'transaction'}
    firsts = [match[1] for entry in entries if entry['kind'] == 'folded' and (match := FIRST.search(entry['cover']))]
    ends = {entry['xid'] for entry in entries if entry['kind'] in ('transaction', 'folded')} | set(firsts)
    finder = Finder(slot, tables, rows_of(tables, [change for commit in commits if commit.xid in kept for change in commit.changes]))
    found, left = [], set(ends)
    for span in slot.spans() if firsts else ():
        if len(left) == len(ends) and span.xid not in left:
            continue
        left.discard(span.xid)
        commit = Commit(span.xid, 0.0, [(row[0], old, new) for row, old, new in finder.of(span)])
        found += [commit] if commit.changes else []
        if not left & {commit.xid for commit in commits}:
            break
    return found


def by_row(tables: dict[str, Table], found: Iterable[tuple[str, Iterable[tuple[str, Any, Any]]]]) -> dict[Row, list[tuple[str, Any, Any]]]:
    """row -> [(name of a transaction, before, after)] of the changes of transactions."""
    rows: dict[Row, list[tuple[str, Any, Any]]] = defaultdict(list)
    for name, made in found:
        for table, old, new in made:
            rows[safe_name(table), tables[table].key_of(old if old is not None else new)].append((name, old, new))
    return rows


def wrong(chain: list[tuple[str, Any, Any]], links: Iterable[Link], kept: set[str]) -> Iterator[tuple[str, str]]:
    """(number, what is wrong) of the transactions of the script that leave a row otherwise than its chain has it."""
    at, value = 0, chain[0][1] if chain else None
    for link in links:
        if link.before != value:
            yield link.number, f'finds {link.before}, where the row is {value}'
        if link.xid:
            places = [place for place in range(at, len(chain)) if chain[place][0] == link.xid]
            if not places or chain[places[0]][1] != value:
                yield link.number, f'finds {value}, where the server had {chain[places[0]][1] if places else "no such change"}'
            at = places[-1] + 1 if places else at
        else:
            place = next((place for place in range(at, len(chain)) if chain[place][2] == link.after or chain[place][0] in kept), len(chain))
            if place == len(chain) or chain[place][0] in kept:
                yield link.number, f'leaves {link.after}, which the row was not there'
            else:
                at = place + 1
        value = link.after
