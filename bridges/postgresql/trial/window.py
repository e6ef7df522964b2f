"""A window of a server's life: what a user keeps of it for `convert`, and what the tables have at its end."""
import hashlib
import os
from dataclasses import dataclass, field, replace

EVERYTHING = 'DROP SCHEMA IF EXISTS zoo CASCADE; DROP SCHEMA public CASCADE; CREATE SCHEMA public'
TABLES = """SELECT relname, oid::regclass FROM pg_class
            WHERE relkind IN ('r', 'p') AND NOT relispartition AND relnamespace = 'public'::regnamespace ORDER BY relname"""
PARTITIONS = "SELECT oid::regclass FROM pg_class WHERE relkind = 'r' AND relispartition"
COLUMNS = """SELECT quote_ident(attname), format_type(base, NULL), CASE WHEN modifier > 0 THEN (modifier - 4) & 65535 END
             FROM (SELECT attname, attnum, CASE typtype WHEN 'd' THEN typbasetype ELSE atttypid END AS base,
                          CASE typtype WHEN 'd' THEN typtypmod ELSE atttypmod END AS modifier
                   FROM pg_attribute JOIN pg_type ON pg_type.oid = atttypid
                   WHERE attrelid = '{table}'::regclass AND attnum > 0 AND NOT attisdropped) AS found ORDER BY attnum"""
LEFT_OUT = 'left out'                                   # said of a column in OUT.tsv
BLOCK = 1 << 22
INTEGERS = ('smallint', 'integer', 'bigint')


@dataclass
class Column:
    """A column: its name as SQL has it, its type, and the decimals of a numeric that has a number of them."""
    name: str
    type: str
    decimals: int | None


@dataclass
class Table:
    """A table: its name, the name as SQL has it, and its columns when the window begins."""
    name: str
    quoted: str
    columns: list[Column]


@dataclass
class Ended:
    """The rows of a table at the end, as the server prints their cells."""
    columns: list[Column]
    rows: list[tuple]

    def in_gprom(self, shape):
        """The rows as gprom prints them, where `shape` says of a column how many decimals it has, or that it is left out.

        How a value is written in gprom is said once more here, as a check of what `convert` says.
        """
        kept = [(at, replace(column, decimals=shape.get(column.name, column.decimals))) for at, column in enumerate(self.columns)
                if shape.get(column.name) != LEFT_OUT]
        return [', '.join(cell_of(row[at], column) for at, column in kept) for row in self.rows]


@dataclass
class Window:
    """The files of a window, in a folder of its own."""
    folder: str
    level: str = 'read committed'                       # default_transaction_isolation of the server
    started: list[str] = field(default_factory=list)    # the tables that have rows when the window begins
    ended: dict[str, Ended] = field(default_factory=dict)    # the rows of each table at the end, unless it has other columns then

    def path(self, name):
        """A file of the window."""
        return os.path.join(self.folder, name)

    def save(self, name, content):
        """Writes a file of the window."""
        with open(self.path(name), 'wb') as file:
            file.write(content if isinstance(content, (bytes, bytearray)) else content.encode())


def record(cluster, window, setup, work, is_long=False):
    """Makes new tables by the statements of `setup`, and keeps what `work` does with them. What is long is copied from file to file."""
    control = cluster.control
    control.execute(EVERYTHING)
    control.execute(setup)
    tables = [Table(name, quoted, columns_of(control, quoted)) for name, quoted in control.execute(TABLES).rows]
    for name, in control.execute(PARTITIONS).rows:
        control.execute(f'ALTER TABLE {name} REPLICA IDENTITY FULL')
    for table in tables:
        control.execute(f'ALTER TABLE {table.quoted} REPLICA IDENTITY FULL')
        rows = control.execute(f"COPY (SELECT * FROM {table.quoted}) TO STDOUT WITH (FORMAT csv, HEADER, NULL '\\N')").copied
        if rows.count(b'\n') > 1:
            window.started.append(table.name)
            window.save(f'{table.name}.csv', rows)
    window.save('tables.sql', cluster.command('pg_dump', '-h', cluster.folder, '-U', 'postgres', '--schema-only', 'postgres'))
    cluster.wait_for_sessions()
    cluster.take_changes()
    cluster.take_log('the window begins')
    cluster.take_capture()
    work(cluster)
    cluster.wait_for_sessions()
    copy_part(*cluster.log_part('the window ends'), window.path('log.csv'))
    file, begin, end = cluster.capture_part() if cluster.library else ('', 0, 0)
    if end > begin:
        copy_part(file, begin, end, window.path('capture.jsonl'))
    if is_long:
        cluster.copy_changes(window.path('slot.txt'))
    else:
        window.save('slot.txt', cluster.take_changes())
    window.ended = {table.name: rows_of(control, table) for table in tables if columns_of(control, table.quoted) == table.columns}


def copy_part(file, begin, end, to):
    """Copies a part of a file to another one."""
    with open(file, 'rb') as opened, open(to, 'wb') as output:
        opened.seek(begin)
        while opened.tell() < end:
            output.write(opened.read(min(BLOCK, end - opened.tell())))


def columns_of(control, table):
    """The columns of a table."""
    rows = control.execute(COLUMNS.format(table=table)).rows
    return [Column(name, kind, None if scale is None else int(scale)) for name, kind, scale in rows]


def rows_of(control, table):
    """The rows of a table."""
    rows = control.execute(f"SELECT {', '.join(column.name for column in table.columns)} FROM {table.quoted}").rows
    return Ended(table.columns, rows)


def fits(cell):
    """Whether a text of gprom can hold this."""
    return len(cell.encode()) <= 255 and all(' ' <= character and not '\x7f' <= character < '\xa0' for character in cell)


def digest_of(cell):
    """What stands for a text that does not fit."""
    head = ''.join(character if fits(character) else ' ' for character in cell).encode()[:100].decode(errors='ignore')
    return f'{head} .. [{len(cell)} characters, sha256 {hashlib.sha256(cell.encode()).hexdigest()[:32]}]'


def cell_of(cell, column):
    """A cell of the server in gprom's form: numbers without a point, truth as 0 or 1, all else as a text."""
    if cell is None:
        return 'NULL'
    if column.type in INTEGERS:
        return cell
    if column.type == 'numeric' and column.decimals is not None:
        whole, _, decimals = cell.partition('.')
        return str(int(whole + decimals[:column.decimals].ljust(column.decimals, '0')))
    if column.type == 'boolean':
        return '1' if cell == 't' else '0'
    return "'" + (cell if fits(cell) else digest_of(cell)).replace("'", "''") + "'"
