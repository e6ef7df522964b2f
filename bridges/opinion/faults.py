"""Wrong readings of the rules, each of which random histories have to tell from the right one: else equal answers would mean little."""

from __future__ import annotations

from collections.abc import Callable, Iterator, Sequence
from contextlib import contextmanager
from typing import Any
from unittest import mock

from . import cycles, looks, relation
from .cycles import Cycle, Lost
from .looks import Change, Item, Look
from .relation import Kinds, Relation
from .terms import Term


def _meets_in_any_column(it: Look, change: Change) -> bool:
    return change.table == it.item.table and change.before != change.after and (it.sees(change.before) or it.sees(change.after))


def _look_without_joins(item: Item, items: Sequence[Item], where: Sequence[Term], used: Any, tables: Any) -> Look:
    """Forgets the columns of conditions over several items."""
    single = [one for one in where if len({name for name, _ in one.columns}) < 2]
    return _look(item, items, single, used, tables)


def _look_of_written(item: Item, items: Sequence[Item], where: Sequence[Term], used: Any, tables: Any) -> Look:
    """Takes every column of an UPDATE for one that it uses."""
    return _look(item, items, where, [*used, *(("", column) for column in tables[item.table])] if len(items) == 1 and used else used, tables)


def _least_alone(it: Relation, all_: Sequence[Cycle]) -> list[Cycle]:
    return list(all_[:1])


def _every_cycle(it: Relation, all_: Sequence[Cycle]) -> list[Cycle]:
    return list(all_)


def _longest(it: Relation, all_: Sequence[Cycle]) -> list[Cycle]:
    """For each pair the last of the cycles that have it."""
    return sorted(_anomalies(it, list(reversed(all_))), key=lambda one: (len(one), one))


def _lost_though_seen(it: Relation, cycle: Cycle) -> Lost | None:
    """Does not ask whether the row was looked at again."""
    whole = relation.Relation.kinds

    def without_reads(of: Relation, a: int, b: int) -> Kinds:
        found = whole(of, a, b)
        return Kinds(found.antis, (), found.writes)

    with mock.patch.object(relation.Relation, "kinds", without_reads):
        return _lost_update(it, cycle)


def _never_lost(it: Relation, cycle: Cycle) -> None:
    return None


def _goes_back_by_number(it: Relation, a: int, b: int) -> bool:
    return it.kinds(a, b).holds and b < a


def _alone_by_witness(it: Kinds) -> bool:
    """Takes the kind of the witness for the only one that holds."""
    return bool(it.antis)


_look, _anomalies, _lost_update = looks._look, cycles.anomalies, cycles.lost_update
# By name: where it stands, and what stands there instead.
FAULTS: dict[str, tuple[Any, str, Callable[..., Any] | property]] = {
    "a look uses all columns": (looks.Look, "meets", _meets_in_any_column),
    "a look forgets the columns of a join": (looks, "_look", _look_without_joins),
    "an UPDATE looks at all columns": (looks, "_look", _look_of_written),
    "the least cycle alone": (cycles, "anomalies", _least_alone),
    "every cycle": (cycles, "anomalies", _every_cycle),
    "the longest cycle of a pair": (cycles, "anomalies", _longest),
    "a lost update whose row was looked at again": (cycles, "lost_update", _lost_though_seen),
    "no lost update": (cycles, "lost_update", _never_lost),
    "a pair goes back by its numbers": (relation.Relation, "goes_back", _goes_back_by_number),
    "a step is held alone by its witness": (relation.Kinds, "by_anti_alone", property(_alone_by_witness)),
    "every change is a phantom": (looks.Change, "comes_or_goes", property(lambda it: True)),
}


@contextmanager
def made(name: str) -> Iterator[None]:
    """The rules with this fault."""
    where, what, instead = FAULTS[name]
    with mock.patch.object(where, what, instead):
        yield
