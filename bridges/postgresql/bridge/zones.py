"""Times that a session's time zone gives another meaning than UTC does."""
import re
from collections.abc import Iterable
from copy import copy
from dataclasses import replace
from typing import Any

from .schema import Column, Type

ZONED = re.compile(r'timestamptz|with time zone', re.I)
LOCAL_TIME = re.compile(r"'\d{4}-\d\d-\d\d(?![^']*(?:Z|[+-]\d\d(?::?\d\d)?)')[^']*'")       # a literal of a time, without a zone
UTC = ('utc', 'gmt', 'uct', 'zulu', 'etc/utc', 'etc/gmt', 'etc/uct', '0', '+00', '+00:00')


def is_local(text: str, columns: Iterable[Column]) -> bool:
    """Whether a statement has a time without a zone, beside a column or a cast of times with one."""
    zoned = ZONED.search(text) or any(column.type.kind == 'timestamptz' for column in columns)
    return bool(zoned and LOCAL_TIME.search(text))


def zoned(tables: Any, zone: str) -> Any:
    """The tables of a session with a time zone, where nothing is known of its times with one."""
    found = copy(tables)
    for name, table in tables.items():
        columns = [replace(column, type=Type(f"timestamptz in the time zone '{zone}'")) if column.type.kind == 'timestamptz' else column
                   for column in table.columns]
        found[name] = replace(table, columns=columns)
    return found
