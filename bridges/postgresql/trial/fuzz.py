"""Logs and slots that were cut or changed: neither `convert` nor `verify` may end in a traceback, whatever is in them.

A file that is not as the bridge needs it is an error of the user, told in one line. All else is converted, and verified.
"""
import collections
import csv
import os
import random
import re
import traceback
from dataclasses import dataclass

from bridge import UserError, definitions, slots
from bridge.compare import Comparison, read_map
from bridge.convert import convert
from bridge.shape import Shape

from .judge import LOG

TOLD = (UserError, UnicodeDecodeError, csv.Error, OSError)      # what `command` tells in one line
NUMBER = re.compile(rb'\d+')
FILES = ('log.csv', 'slot.txt')


@dataclass
class Fuzzed:
    """A mutation: the file, what was done to it, and what came of it: verdicts, told, or a traceback."""
    file: str
    mutation: str
    outcome: str


def check(window, found, gprom, count, seed, made):
    """The tracebacks of this many mutations of the files of a window. All go to `made`."""
    if found.source is not LOG:
        return []
    chosen, failures = random.Random(seed), []
    for _ in range(count):
        name = chosen.choice(FILES)
        with open(window.path(name), 'rb') as file:
            mutate = chosen.choice(MUTATIONS)
            window.save(f'fuzzed-{name}', mutate(file.read(), chosen))
        fault = attempt(window.path, gprom, {name: f'fuzzed-{name}'}, window.started, window.level)
        made.append(Fuzzed(name, mutate.__name__, 'told' if fault is None else 'a traceback' if fault else 'verdicts'))
        if fault:
            kept = f'fuzzed-{len(made)}-{name}'
            os.rename(window.path(f'fuzzed-{name}'), window.path(kept))
            failures.append(f'{kept}, {mutate.__name__}: {fault}')
    return failures


def attempt(path, gprom, names, started, level='read committed'):
    """Converts and verifies files, some under other names. Gives '', None if a user is told of an error, or the end of a traceback."""
    log, slot = (path(names.get(name, name)) for name in FILES)
    try:
        convert(log, path('tables.sql'), path('fuzzed'), [(table, f'{path(table)}.csv') for table in started], slot, level)
        tables, _ = definitions.read(path('tables.sql'))
        entries = read_map(path('fuzzed.tsv'))
        commits = slots.read(slot, tables, {entry['xid'] for entry in entries})
        Shape.read(entries).apply(tables, {}, commits)
        collections.deque(Comparison(gprom, path('fuzzed'), tables, commits, entries).verdicts(), maxlen=0)
    except TOLD:
        return None
    except Exception as fault:                          # what the commands would end with
        last = traceback.extract_tb(fault.__traceback__)[-1]
        return f'{type(fault).__name__}: {fault} ({os.path.basename(last.filename)}, line {last.lineno}: {last.line})'
    return ''


def summary(made):
    """What came of the mutations."""
    counts = collections.Counter(one.outcome for one in made)
    return [f'fuzzed files: {len(made)}: ' + ', '.join(f'{count} {outcome}' for outcome, count in sorted(counts.items()))] if made else []


# Mutations

def cut_end(text, chosen):
    return text[:chosen.randrange(len(text))]


def cut_begin(text, chosen):
    return text[chosen.randrange(len(text)):]


def drop_bytes(text, chosen):
    at = chosen.randrange(len(text))
    return text[:at] + text[at + chosen.randint(1, 60):]


def change_byte(text, chosen):
    at = chosen.randrange(len(text))
    return text[:at] + bytes([chosen.choice(b"0123456789'\",:()[]\\ \nabcxyzA\x00\xff")]) + text[at + 1:]


def change_number(text, chosen):
    found = chosen.choice(list(NUMBER.finditer(text)))
    number = chosen.choice((b'0', b'1', b'-1', b'99999999999999999999', b'', str(int(found[0]) + 1).encode()))
    return text[:found.start()] + number + text[found.end():]


def drop_line(text, chosen):
    lines = text.splitlines(True)
    del lines[chosen.randrange(len(lines))]
    return b''.join(lines)


def drop_lines(text, chosen):
    lines = text.splitlines(True)
    at = chosen.randrange(len(lines))
    del lines[at:at + chosen.randint(2, 12)]
    return b''.join(lines)


def repeat_line(text, chosen):
    lines = text.splitlines(True)
    lines.insert(chosen.randrange(len(lines)), chosen.choice(lines))
    return b''.join(lines)


def swap_lines(text, chosen):
    lines = text.splitlines(True)
    a, b = chosen.randrange(len(lines)), chosen.randrange(len(lines))
    lines[a], lines[b] = lines[b], lines[a]
    return b''.join(lines)


def swap_fields(text, chosen):
    """Gives a line a part of another one, between commas or blanks."""
    lines = text.splitlines(True)
    at, other = chosen.randrange(len(lines)), chosen.choice(lines)
    sign = b',' if b',' in lines[at] else b' '
    fields, given = lines[at].split(sign), other.split(sign)
    place = chosen.randrange(len(fields))
    fields[place] = given[place] if place < len(given) else b''
    lines[at] = sign.join(fields)
    return b''.join(lines)


MUTATIONS = (cut_end, cut_begin, drop_bytes, change_byte, change_number, drop_line, drop_lines, repeat_line, swap_lines, swap_fields)
