"""Debezium's events of changes as JSON, one a line, in the place of a slot's output: with or without their schemas, of all tables, in the order of the WAL.

Old rows need REPLICA IDENTITY FULL here too. The connector has `decimal.handling.mode=string`, and else what it has by default. The time of a commit
is that of its events, in microseconds where the connector gives them.
"""
import base64
import json
import re
from collections.abc import Iterator
from datetime import date, datetime, timedelta
from typing import Any

from . import UserError, decoding, files
from .decoding import Commit
from .schema import Table, Type, holder
from .slots import Slot, quoted

SOURCE = b'"source":{'
XID = re.compile(rb'"txId":(\d+)')
KINDS = {'c': 'INSERT', 'u': 'UPDATE', 'd': 'DELETE'}
READ, EMPTIED = 'r', 't'                                # an event of the first snapshot; a TRUNCATE
UNCHANGED = '__debezium_unavailable_value'
MILLISECONDS = 3                                        # digits of a time up to which it is given in milliseconds
EPOCH = datetime(1970, 1, 1)


class Debezium(Slot):
    """The file of a consumer."""

    def pieces(self) -> Iterator[bytes]:
        """The lines of each transaction."""
        lines: list[bytes] = []
        xid, done = b'', set[bytes]()
        with files.opened(self.file) as opened:
            for number, line in enumerate(opened, 1):
                mine = self.xid_in(line, number)
                if not mine:
                    continue
                if lines and mine != xid:
                    yield b''.join(lines)
                    lines = []
                if mine != xid and mine in done:
                    raise UserError(f'{self.file}, line {number}: the events of transaction {mine.decode()} are not beside each other: '
                                    'give those of all tables in one file, in the order of their lsn')
                xid = mine
                done.add(xid)
                lines.append(line)
        if lines:
            yield b''.join(lines)

    def xid_in(self, line: bytes, number: int) -> bytes:
        """The transaction of an event; b'' of a line that is none, such as a tombstone or a heartbeat."""
        at = line.find(SOURCE)                          # no text has these signs, since its quotes are escaped
        if at < 0 or b'"op":"r"' in line:
            return b''
        found = XID.search(line, at)
        if found is None:
            raise UserError(f'{self.file}, line {number}: an event without a txId')
        return found[1]

    def head(self, piece: bytes) -> tuple[str, str]:
        source = event_of(piece[:piece.index(b'\n')])['source']
        microseconds = int(source.get('ts_us') or int(source['ts_ms']) * 1000)
        return str(source['txId']), (EPOCH + timedelta(microseconds=microseconds)).isoformat(' ', 'microseconds')

    def time_in(self, piece: bytes) -> bytes:
        return self.head(piece)[1].encode()

    def fill(self, commit: Commit, text: bytes, tables: dict[str, Table]) -> None:
        for line in text.split(b'\n'):
            if line:
                self.fill_event(commit, event_of(line), tables)

    @staticmethod
    def fill_event(commit: Commit, event: dict[str, Any], tables: dict[str, Table]) -> None:
        if event['op'] not in KINDS and event['op'] != EMPTIED:
            return
        schema, name = event['source']['schema'], event['source']['table']
        table = holder(tables, name)
        commit.tables.add(table.name if table else name)
        if event['op'] == EMPTIED:
            decoding.empty(commit, tables, schema, name, {name, *commit.emptied})
        elif decoding.is_other(table, schema, name):
            commit.reason = commit.reason or decoding.other(schema, name)
        else:
            old, new = (values(table, event.get(part)) for part in ('before', 'after'))
            decoding.change(commit, table, KINDS[event['op']], old, new, name)

    @staticmethod
    def needle(column: str, number: int) -> bytes:
        return f'{quoted(column)}:{number}'.encode()

    @staticmethod
    def needle_of_table(name: str) -> bytes:
        return f'"table":{quoted(name)}'.encode()


def event_of(line: bytes) -> dict[str, Any]:
    """An event without the schemas around it. Numbers are texts."""
    event = json.loads(line, parse_int=str, parse_float=str)
    return dict(event.get('payload', event))


def values(table: Table, row: dict[str, Any] | None) -> dict[str, Any] | None:
    """{column: text or None} of a row, as a slot of test_decoding has them."""
    if row is None:
        return None
    kinds = {column.name: column.type for column in table.columns}
    return {name: text_of(value, kinds.get(name)) for name, value in row.items()}


def text_of(value: Any, kind: Type | None) -> Any:
    """A value as the server prints it."""
    if isinstance(value, bool):
        return 't' if value else 'f'
    if value is None or kind is None:
        return value
    if value == UNCHANGED:
        return decoding.LEFT_OUT
    if kind.form == 'bytea':
        return '\\x' + base64.b64decode(value).hex()
    if kind.kind in ('date', 'time', 'timestamp') and value.lstrip('-').isdigit():
        return moment(int(value), kind)
    return value


def moment(number: int, kind: Type) -> str:
    """A date in days, a time or a timestamp in milli- or microseconds, from 1970 on."""
    if kind.kind == 'date':
        return (date(1970, 1, 1) + timedelta(days=number)).isoformat()
    found = EPOCH + timedelta(microseconds=number * (1000 if kind.digits <= MILLISECONDS else 1))
    return found.time().isoformat('microseconds') if kind.kind == 'time' else found.isoformat(' ', 'microseconds')
