"""Scripts with one fault each, to see that `verify` is not blind, and logs that lack a record, to see that `convert` is not.

In a script that `verify` found right, one statement of a covered transaction is dropped or one number of it is changed.
A fault matters if it changes the rows of some version, which the dumps show; then `verify` has to find it. A log with other
capitals in its DETAILs, as newer servers may write it, is no fault: `convert` has to make the same script of it.
"""
import collections
import csv
import filecmp
import json
import random
import re
import shutil
from dataclasses import dataclass

from bridge.capture import EARLY

from .judge import CAPTURE, MISSING, convert, verify
from .workload import check as check_workload

NUMBER = re.compile(r"'(?:[^']|'')*'|(?<![\w.])(\d+)(?!\w)")     # a text, or a number that stands outside of texts
WRITES = ('INSERT', 'UPDATE', 'DELETE')
ATTEMPTS = 100                                          # for each mutation
DROPPED = '-- dropped'
LATER = 4                                               # commits of the capture behind the end of a slot


@dataclass
class Mutation:
    """A fault: the line of the script, what it says instead, whether that matters, and whether `verify` found it."""
    line: int
    text: str
    matters: bool
    is_found: bool


def check(window, found, gprom, count, seed, made):
    """The faults that matter and that `verify` does not find, among this many in the script of a window. All go to `made`."""
    failures = check_workload(window, found)
    if found.source is CAPTURE:
        chosen = random.Random(seed)
        more = () if found.failures else (without_a_line(window, chosen), with_another_count(window, gprom, chosen), with_a_shorter_slot(window, gprom))
        return failures + [failure for part in more for failure in part]
    if found.failures or failures:
        return failures
    chosen = random.Random(seed)
    mutations = mutate(window, found.verdicts, gprom, count, chosen)
    made += mutations
    failures = [f'line {mutation.line} as {mutation.text!r} is not found' for mutation in mutations if mutation.matters and not mutation.is_found]
    return failures + without_a_record(window, chosen) + of_a_newer_server(window)


def summary(made):
    """How many statements were dropped and numbers changed, how many of them matter, and how many were found."""
    dropped = [mutation for mutation in made if mutation.text == DROPPED]
    changed = [mutation for mutation in made if mutation.text != DROPPED]
    return ', '.join(f'{len(some)} {what}, {sum(mutation.matters for mutation in some)} of them matter, '
                     f'{sum(mutation.is_found for mutation in some)} are found'
                     for what, some in (('statements dropped', dropped), ('numbers changed', changed)))


def mutate(window, verdicts, gprom, count, chosen):
    """This many mutations, half of them dropped statements. A dropped statement is one that matters."""
    with open(window.path('out.script'), encoding='utf-8') as file:
        lines = file.read().split('\n')[:-1]
    shutil.copy(window.path('out.tsv'), window.path('mutant.tsv'))
    right, found = contents(window.path('out.dump')), []
    places = covered_writes(lines, {verdict.transaction for verdict in verdicts if verdict.kind() == 'same'})
    for _ in range(ATTEMPTS * count if places else 0):
        at = chosen.choice(places)
        text = DROPPED if len(found) % 2 == 0 else with_other_number(lines[at], chosen)
        if text:
            mutation = try_mutation(window, gprom, lines, at, text, right)
            found += [mutation] * (mutation.matters or text != DROPPED)
        if len(found) == count:
            break
    return found


def without_a_record(window, chosen):
    """Takes a record out of the log, between others of its session. Gives a line if `convert` does not notice it."""
    with open(window.path('log.csv'), newline='', encoding='utf-8') as file:
        records = list(csv.reader(file))
    sessions = [record[5] for record in records]
    at = chosen.choice([at for at, session in enumerate(sessions) if session in sessions[:at] and session in sessions[at + 1:]])
    with open(window.path('cut.csv'), 'w', newline='', encoding='utf-8') as file:
        csv.writer(file).writerows(records[:at] + records[at + 1:])
    noticed = any(MISSING in line for line in convert(window, file='cut.csv', out='cut'))
    return [] if noticed else [f'that record {at + 1} of the log is missing is not noticed']


def without_a_line(window, chosen):
    """Takes a line out of the capture, between others of its session. Gives a line if `convert` does not notice it."""
    with open(window.path(CAPTURE.file), encoding='utf-8') as file:
        lines = file.read().splitlines(keepends=True)
    numbers = collections.defaultdict(list)
    for line in map(json.loads, lines):
        numbers[line['p']].append(line['n'])
    inner = [at for at, line in enumerate(map(json.loads, lines)) if min(numbers[line['p']]) < line['n'] < max(numbers[line['p']])]
    at = chosen.choice(inner)
    window.save('cut.jsonl', ''.join(lines[:at] + lines[at + 1:]))
    noticed = any(MISSING in line for line in convert(window, CAPTURE, 'cut.jsonl', 'cut'))
    return [] if noticed else [f'that line {at + 1} of the capture is missing is not noticed']


def with_another_count(window, gprom, chosen):
    """Says that a SELECT gave one row more on the server. Gives a line if `verify` does not find it."""
    with open(window.path(f'{CAPTURE.out}.tsv'), encoding='utf-8') as file:
        rows = [line.rstrip('\n').split('\t') for line in file]
    covered = {row[4] for row in rows if row[0] == 'transaction' and not row[8]}
    counted = [row for row in rows if row[0] == 'line' and row[9] and row[4] in covered]
    if not counted:
        return []
    row = chosen.choice(counted)
    row[9] = str(int(row[9]) + 1)
    window.save('counted.tsv', ''.join('\t'.join(row) + '\n' for row in rows))
    shutil.copy(window.path(f'{CAPTURE.out}.script'), window.path('counted.script'))
    is_found = any(verdict.verdict == 'differs' for verdict in verify(window, gprom, 'counted'))
    return [] if is_found else [f'another number of rows at line {row[3]} of the script is not found']


def with_a_shorter_slot(window, gprom):
    """Lets the slot end some commits before the capture does, as on a server that goes on. Gives a line if that disturbs what is in the slot."""
    with open(window.path('slot.txt'), encoding='utf-8', newline='\n') as file:
        text = file.read()
    end = [match.end() for match in re.finditer(r'^COMMIT .*\n', text, re.M)][-1 - LATER]
    window.save('all.txt', text)
    window.save('slot.txt', text[:end])
    left = convert(window, CAPTURE, out='shorter')
    verdicts = verify(window, gprom, 'shorter')
    window.save('slot.txt', text)
    wrong = [str(verdict) for verdict in verdicts if verdict.verdict == 'differs' or EARLY in verdict.reason]
    return wrong + ([] if any('behind its end' in line for line in left) else ['nothing says that the capture goes on behind the slot'])


def of_a_newer_server(window):
    """Begins each DETAIL of the log with a capital, as newer servers may. Gives a line if that makes another script."""
    with open(window.path('log.csv'), newline='', encoding='utf-8') as file:
        records = list(csv.reader(file))
    with open(window.path('newer.csv'), 'w', newline='', encoding='utf-8') as file:
        csv.writer(file).writerows([*record[:14], record[14][:1].upper() + record[14][1:], *record[15:]] for record in records)
    convert(window, file='newer.csv', out='newer')
    is_same = filecmp.cmp(window.path('out.script'), window.path('newer.script'), shallow=False)
    return [] if is_same else ['a DETAIL that begins with a capital makes another script']


def try_mutation(window, gprom, lines, at, text, right):
    """Verifies the script with this text in place of a line."""
    with open(window.path('mutant.script'), 'w', encoding='utf-8') as file:
        file.write('\n'.join(lines[:at] + [text] + lines[at + 1:]) + '\n')
    is_found = any(verdict.verdict == 'differs' for verdict in verify(window, gprom, 'mutant'))
    return Mutation(at + 1, text, contents(window.path('mutant.dump')) != right, is_found)


def covered_writes(lines, covered):
    """The places of the lines of these transactions that write. Transactions are numbered by their BEGINs."""
    places, active, last = [], {}, 0
    for at, line in enumerate(lines):
        session, _, command = line.partition(': ')
        word = command.split(' ', 1)[0]
        if word == 'BEGIN':
            last += 1
            active[session] = last
        elif word in WRITES and str(active[session]) in covered:
            places.append(at)
    return places


def with_other_number(line, chosen):
    """The line with one of its numbers changed by a little, or None if it has none."""
    command = line.index(': ') + 2
    numbers = [found for found in NUMBER.finditer(line, command) if found[1]]
    if not numbers:
        return None
    number = chosen.choice(numbers)
    return line[:number.start(1)] + str(int(number[1]) + chosen.randint(1, 3)) + line[number.end(1):]


def contents(dump):
    """What the versions of a dump have, without identities: how often each row comes to be and goes, by table and version."""
    changes, table, rows = collections.Counter(), '', 0
    with open(dump, encoding='utf-8') as file:
        for line in file:
            if rows:
                _, begin, end, cells = line.rstrip('\n').split(' ', 3)
                changes[table, int(begin), cells] += 1
                if end != '-':
                    changes[table, int(end), cells] -= 1
                rows -= 1
            elif line.startswith('table '):
                _, table, rows = line.split()
                rows = int(rows)
    return {change: times for change, times in changes.items() if times}
