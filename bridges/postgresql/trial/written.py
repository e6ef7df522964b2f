"""A log and a slot that are written by hand, for what a server does once in a thousand runs: the time of each record and of each commit is given."""
import csv
import io
from collections import Counter
from datetime import datetime, timedelta

from .judge import HERE, call
from .window import Window

BEGIN = datetime(2026, 3, 1, 12)
TABLES = 'CREATE TABLE public.t (id integer NOT NULL, n integer);\nALTER TABLE ONLY public.t ADD CONSTRAINT t_pkey PRIMARY KEY (id);\n'
NONE = '0'                                              # the xid of what wrote nothing so far
Row = tuple[int, int] | None


def moment(milliseconds: float) -> str:
    """A time, in milliseconds from the begin."""
    return (BEGIN + timedelta(microseconds=round(milliseconds * 1000))).isoformat(' ', 'microseconds')


class Written:
    """The log and the slot of a table t (id, n) in the order in which they are written. Times are milliseconds from the begin."""

    def __init__(self, window: Window, more: str = '') -> None:
        self.window, self.log, self.slot = window, '', ''
        self.numbers: Counter[str] = Counter()          # how many records each session has
        window.save('tables.sql', TABLES + more)        # with the definitions of more tables

    def record(self, session: str, end: float, took: float, text: str, tag: str, virtual: str = '0', xid: str = NONE) -> None:
        """The record of a message that took so long. A server cuts its time to milliseconds. `virtual` is the number of the transaction in its session."""
        self.numbers[session] += 1
        number = ord(session[0])
        fields = [f'{moment(end)[:-3]} UTC', 'user', 'postgres', 100 + number, '[local]', f'5e.{number:x}', self.numbers[session], tag,
                  '2026-03-01 11:00:00 UTC', f'{number}/{virtual}', xid, 'LOG', '00000', f'duration: {took:.3f} ms  statement: {text}', *[''] * 8,
                  session, 'client backend', '', '0']
        line = io.StringIO()
        csv.writer(line, lineterminator='\n').writerow(fields)
        self.log += line.getvalue()

    def commit(self, xid: str, at: float, *changes: tuple[Row, Row]) -> None:
        """A transaction of the slot: the old row and the new one of each change."""
        lines = [f'BEGIN {xid}', *(change_of(old, new) for old, new in changes), f'COMMIT {xid} (at {moment(at)}+00)']
        self.slot += ''.join(line + '\n' for line in lines)

    def convert(self, *options: str, log: str | None = None) -> dict[str, list[str]]:
        """The entries of OUT.tsv that are transactions, by their xids: (session, number, fate, patch, cover), where the session is the name of that in `record`."""
        self.window.save('log.csv', self.log if log is None else log)
        self.window.save('slot.txt', self.slot)
        call([f'{HERE}/convert', 'log.csv', 'out', '--tables', 'tables.sql', '--slot', 'slot.txt', *options], (0,), folder=self.window.folder)
        return {entry[5]: [session_of(entry[2]), entry[4], entry[6], entry[7], entry[8]] for entry in self.entries() if entry[0] == 'transaction'}

    def entries(self) -> list[list[str]]:
        """The lines of OUT.tsv."""
        return [line.split('\t') for line in self.text('tsv').split('\n')[1:-1]]

    def text(self, end: str) -> str:
        with open(self.window.path(f'out.{end}'), encoding='utf-8') as opened:
            return opened.read()


def session_of(name: str) -> str:
    """The letter of a session of the log; other names stay."""
    return chr(int(name.removeprefix('5e.'), 16)) if name.startswith('5e.') else name


def change_of(old: Row, new: Row) -> str:
    """A line of test_decoding."""
    texts = [f'id[integer]:{row[0]} n[integer]:{row[1]}' for row in (old, new) if row is not None]
    if old is None:
        return f'table public.t: INSERT: {texts[0]}'
    return f'table public.t: DELETE: {texts[0]}' if new is None else f'table public.t: UPDATE: old-key: {texts[0]} new-tuple: {texts[1]}'
