"""What a slot of wal2json has, as the events of Debezium's connector for PostgreSQL: in the form that its documentation gives, with its default settings.

Debezium itself is not run here. The types are those of pgbench.
"""
import json
from collections.abc import Iterator
from datetime import datetime, timezone
from typing import Any

OPERATIONS = {'I': 'c', 'U': 'u', 'D': 'd'}
Columns = list[dict[str, Any]]


def events(file: str) -> Iterator[str]:
    """A line for each change, and one behind a DELETE that is a tombstone."""
    with open(file, encoding='utf-8') as lines:
        for at, line in enumerate(lines):
            entry = json.loads(line)
            if entry['action'] in OPERATIONS:
                yield event(entry, at)
            if entry['action'] == 'D':
                yield 'null'


def event(entry: dict[str, Any], at: int) -> str:
    microseconds = since_1970(entry['timestamp'])
    source = {'version': '2.7.0.Final', 'connector': 'postgresql', 'name': 'shop', 'ts_ms': microseconds // 1000, 'snapshot': 'false', 'db': 'postgres',
              'sequence': f'["{at}","{at}"]', 'ts_us': microseconds, 'ts_ns': microseconds * 1000, 'schema': entry['schema'], 'table': entry['table'],
              'txId': entry['xid'], 'lsn': at, 'xmin': None}
    payload = {'before': row(entry.get('identity')), 'after': row(entry.get('columns')), 'source': source, 'transaction': None,
               'op': OPERATIONS[entry['action']], 'ts_ms': microseconds // 1000 + 200}
    return json.dumps(payload, separators=(',', ':'), ensure_ascii=False)


def row(columns: Columns | None) -> dict[str, Any] | None:
    return None if columns is None else {column['name']: value(column['value'], column['type']) for column in columns}


def value(cell: Any, kind: str) -> Any:
    return since_1970(cell) if kind.startswith('timestamp') and cell is not None else cell


def since_1970(text: str) -> int:
    """Microseconds."""
    moment = datetime.fromisoformat(text.removesuffix('+00')).replace(tzinfo=timezone.utc)
    return int(moment.timestamp()) * 1_000_000 + moment.microsecond
