"""The order of the statements of a captured transaction, of which some set others off."""
from collections.abc import Iterable, Iterator

from .snapshots import Snapshots
from .stream import Entry

WRITES = ('INSERT', 'UPDATE', 'DELETE', 'MERGE')


def in_order(entries: Iterable[Entry], snapshots: Snapshots, own: int) -> Iterator[Entry]:
    """The statements in the order of the script: each before those that it set off, but for what ran before its rows were written."""
    listed = list(entries)
    known = {entry.fields['n']: entry for entry in listed}
    top: list[Entry] = []
    for entry in listed:
        entry.children.clear()
    for entry in listed:
        parent = known.get(entry.fields.get('u'))
        (parent.children if parent else top).append(entry)
    for entry in top:
        yield from with_children(entry, snapshots, own)


def with_children(entry: Entry, snapshots: Snapshots, own: int) -> Iterator[Entry]:
    first = before(entry, snapshots, own)
    for child in first:
        yield from with_children(child, snapshots, own)
    yield entry
    for child in entry.children:
        if child not in first:
            yield from with_children(child, snapshots, own)


def before(entry: Entry, snapshots: Snapshots, own: int) -> list[Entry]:
    """The statements that go before the one that set them off.

    A statement does not see what it sets off, so it stands first. A BEFORE trigger or a function in a statement that writes runs before the
    row is written: where it has the same version, it goes before, unless it writes a table that the statement reads.
    """
    if entry.operation not in WRITES or 's' not in entry.fields:
        return []
    mine, seen = set(entry.tables('r', 'w')), snapshots.sees(entry.fields['s'], own)
    early = [child for child in entry.children if child.fields.get('f') == 0]
    fits = all('s' in child.fields and snapshots.sees(child.fields['s'], own) == seen and not mine & set(child.tables('w')) for child in early)
    return early if fits else []
