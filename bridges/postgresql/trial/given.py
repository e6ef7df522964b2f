"""What SELECTs gave on the server, beside what they give in a script.

No log has the rows that a statement read, and a capture has only their number. Here the client keeps them: a session puts a tag in the text of each
SELECT, which the log and the capture repeat, so its line in the script is known.
"""
import collections
import csv
import json
import re
from dataclasses import dataclass

from bridge import csvlog

from .judge import CAPTURE, LOG, call

TAG = re.compile(r'/\*(read \d+\.\d+)\*/ ')
LOCKS = re.compile(r' FOR (UPDATE|SHARE|NO KEY UPDATE|KEY SHARE)$')
NUMBERS, NUMERIC, BOOLEAN = (20, 21, 23), 1700, 16      # the OIDs of types
BY_OWNER = re.compile(r"(NULL|'(?:[^']|'')*'), (-?\d+|NULL), .*")


@dataclass
class Read:
    """A SELECT: its text without the tag, and what it gave."""
    text: str
    columns: list
    rows: list

    @property
    def locks(self):
        return bool(LOCKS.search(self.text))


@dataclass
class Compared:
    """Whether a SELECT gives the same rows in the script of a log or a capture."""
    kind: str                                           # of the window
    source: str
    locks: bool
    is_same: bool


class Given:
    """The SELECTs of a session, by their tags."""

    def __init__(self, number):
        self.number, self.count, self.reads = number, 0, {}

    def execute(self, connection, text, *parameters, prepared=False):
        """Runs a statement. What a SELECT gives is kept, if the message has no other statement."""
        tag = f'read {self.number}.{self.count}' if text.startswith('SELECT ') and ';' not in text else ''
        self.count += bool(tag)                         # one that fails has a tag too, and may stand in the script
        sent = f'SELECT /*{tag}*/ {text[7:]}' if tag else text
        if prepared:
            connection.send_prepared(sent, *parameters)
        else:
            connection.send(sent, *parameters)
        result = connection.receive()
        if tag:
            self.reads[tag] = Read(text, result.columns, result.rows)
        return result


def together(sessions):
    """The reads of all sessions."""
    return {tag: read for session in sessions for tag, read in session.given.reads.items()}


def compare(window, source, gprom, reads):
    """[(Read, whether it gives the same rows in the script, its line and its rows there)] of the reads that are in the script."""
    replies, found = replies_of(window, source, gprom), []
    for tag, line in lines_of(window, source).items():
        read = reads.get(tag)
        if read and (is_same := same_rows(read, replies[line])) is not None:
            found.append((read, is_same, line, replies[line]))
    return found


def check(window, judgement, gprom, reads, kind, made):
    """The SELECTs that give other rows in the script of a capture, as failures. All that were compared go to `made`."""
    found = compare(window, judgement.source, gprom, reads)
    made += [Compared(kind, judgement.source.name, read.locks, is_same) for read, is_same, _, _ in found]
    if judgement.source is not CAPTURE:
        return []
    return [f'line {line} of the script gives {rows[:4]}, the server gave {read.rows[:4]}: {read.text}' for read, is_same, line, rows in found if not is_same]


def summary(made):
    """How many SELECTs give other rows in the script, as lines."""
    kinds = collections.Counter((read.kind, read.source, read.locks) for read in made)
    for (kind, source, locks), count in sorted(kinds.items()):
        wrong = sum(not read.is_same for read in made if (read.kind, read.source, read.locks) == (kind, source, locks))
        yield f"reads, {kind}, by {source}: {wrong} of {count} {'SELECTs that lock' if locks else 'SELECTs'} give other rows"


def replies_of(window, source, gprom):
    """The rows of each SELECT of the script, by its line."""
    found, line = {}, 0
    for reply in call([gprom, 'run', window.path(f'{source.out}.script'), window.path('reads.dump')], (0, 1)):
        if reply.startswith('  '):
            found[line].append(reply[2:])
        else:
            line = int(reply.split()[0])
            found[line] = []
    return found


def lines_of(window, source):
    """tag -> its line of the script. Where a SELECT became several lines, as of a view, it has none."""
    texts = texts_of(window, source)
    with open(window.path(f'{source.out}.script'), encoding='utf-8') as file:
        script = file.read().split('\n')
    found = collections.defaultdict(list)
    with open(window.path(f'{source.out}.tsv'), encoding='utf-8', newline='') as file:
        for entry in csv.DictReader(file, delimiter='\t', quoting=csv.QUOTE_NONE):
            if entry['kind'] == 'line' and (tag := TAG.search(texts.get(int(entry['log_line']), ''))):
                line = int(entry['script_line'])
                found[tag[1]] += [line] if script[line - 1].partition(': ')[2].startswith('SELECT ') else []
    return {tag: lines[0] for tag, lines in found.items() if len(lines) == 1}


def texts_of(window, source):
    """The statements of the log or of the capture, by their lines."""
    if source is LOG:
        return {line: fields[13] for line, fields in csvlog.rows(window.path('log.csv'))}
    with open(window.path('capture.jsonl'), encoding='utf-8') as file:
        return {line: json.loads(text).get('q', '') for line, text in enumerate(file, 1)}


# The same rows, in two forms


def same_rows(read, lines):
    """Whether the rows of the script are those of the server, or None where that cannot be said."""
    if ' LIMIT ' in read.text:                          # the script has all rows that it chooses from
        return not collections.Counter(map(row_of(read), read.rows)) - collections.Counter(lines)
    if ' GROUP BY ' in read.text:
        return sums(read.rows) == sums_of(lines)
    if '(' in read.text.partition(' FROM ')[0]:         # an aggregate or a function: the script has the columns that it reads
        return greatest(read, lines) if 'max(' in read.text else None
    return collections.Counter(map(row_of(read), read.rows)) == collections.Counter(lines)


def row_of(read):
    """How gprom prints a row of the server."""
    return lambda row: ', '.join(map(cell_of, row, read.columns))


def cell_of(cell, column):
    if cell is None:
        return 'NULL'
    if column.type in NUMBERS:
        return cell
    if column.type == BOOLEAN:
        return '1' if cell == 't' else '0'
    if column.type == NUMERIC and column.modifier > 4:
        return str(int(cell.replace('.', '')))
    return "'" + cell.replace("'", "''") + "'"


def sums(rows):
    """owner -> (how many rows, the sum of their cents), of `SELECT owner, count(*), sum(bal) .. GROUP BY owner` on the server."""
    return {owner: (int(count), None if total is None else int(total.replace('.', ''))) for owner, count, total in rows}


def sums_of(lines):
    """The same, of the rows that the script reads."""
    groups = collections.defaultdict(list)
    for owner, cents in (BY_OWNER.fullmatch(line).groups() for line in lines):
        groups[None if owner == 'NULL' else owner[1:-1].replace("''", "'")].append(None if cents == 'NULL' else int(cents))
    return {owner: (len(cents), sum(filter(None, cents)) if any(cent is not None for cent in cents) else None) for owner, cents in groups.items()}


def greatest(read, lines):
    """Whether the greatest of the values in the script is what max() gave."""
    values = [int(line) for line in lines if line != 'NULL']
    return read.rows == [(str(max(values)) if values else None,)]
