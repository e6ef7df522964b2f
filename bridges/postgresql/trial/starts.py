"""Other places for the starts of transactions, which a log allows as well.

The times of a log are known to a millisecond, and servers commit faster. Where a transaction's writes do not show which of two
versions it read, the bridge takes the likelier one. Here its BEGIN is put on the other side of a COMMIT, with the statements that
stood before it. The place is as good as the first one, if it is within the slack of the bridge, and all commits make the same rows.
"""
import csv
import re
from dataclasses import dataclass

from bridge.csvlog import seconds
from bridge.history import SLACK

from .judge import ask, call

READ = re.compile(r'(\d+) before (\d+) : (\d+)\.\d+ read .*')
RECORD = re.compile(r'(\S+ \S+ UTC).*?duration: ([\d.]+) ms')
DEPTH = 3                                               # of moves


@dataclass
class Line:
    """A line of a script, and the transaction that it is of, by its number in the first script; 0 for none."""
    transaction: int
    text: str

    def session(self):
        return self.text.partition(': ')[0]

    def is_a(self, *words):
        """Whether it begins or ends a transaction in one of these ways."""
        return self.text.partition(': ')[2].split(' ')[0] in words


def script_of(window):
    """The lines of the script of a window."""
    with open(window.path('out.script'), encoding='utf-8') as file:
        texts = file.read().split('\n')[:-1]
    lines, open_now, count = [], {}, 0
    for text in texts:
        line = Line(0, text)
        if line.is_a('BEGIN'):
            count += 1
            open_now[line.session()] = count
        line.transaction = open_now.get(line.session(), 0)
        lines.append(line)
        if line.is_a('COMMIT', 'ROLLBACK'):
            open_now.pop(line.session(), None)
    return lines


class Times:
    """When transactions started and committed, by the log and the slot of a window."""

    def __init__(self, window):
        with open(window.path('log.csv'), encoding='utf-8', newline='\n') as file:
            records = file.read().split('\n')
        with open(window.path('slot.txt'), encoding='utf-8', newline='\n') as file:
            commits = dict(re.findall(r'^COMMIT (\d+) \(at (.*)\)$', file.read(), re.M))
        self.starts, self.commits = {}, {}
        with open(window.path('out.tsv'), encoding='utf-8', newline='') as file:
            for entry in csv.DictReader(file, delimiter='\t', quoting=csv.QUOTE_NONE):
                number = int(entry['transaction'] or 0)
                if entry['kind'] == 'transaction':
                    self.commits[number] = commits.get(entry['xid'])
                elif match := RECORD.match(records[int(entry['log_line']) - 1]):
                    self.starts.setdefault(number, []).append((seconds(match[1]), float(match[2]) / 1000))

    def may_start_beside(self, number, writer):
        """Whether a transaction may have taken its snapshot before or behind the COMMIT of another one: its first statement was then running."""
        records, commit = self.starts.get(number, [])[:2], self.commits.get(writer)
        return bool(records and commit) and records[-1][0] - records[-1][1] - SLACK <= seconds(commit) <= records[-1][0] + SLACK


def moved(lines, number, writer):
    """The script with the start of a transaction on the other side of the COMMIT of another one, or None if that cannot be."""
    begin = next(at for at, line in enumerate(lines) if line.transaction == number)
    end = max(at for at, line in enumerate(lines) if line.transaction == number)
    commit = next(at for at, line in enumerate(lines) if line.transaction == writer and line.is_a('COMMIT'))
    if begin < commit < end:
        before = [line for line in lines[:commit] if line.transaction == number]
        return [*(line for line in lines[:commit] if line.transaction != number), lines[commit], *before, *lines[commit + 1:]]
    if commit < begin and all(line.session() != lines[begin].session() for line in lines[commit:begin]):
        return [*lines[:commit], lines[begin], *lines[commit:begin], *lines[begin + 1:]]
    return None


class Starts:
    """Scripts of a window with moved starts, and what gprom makes of them."""

    def __init__(self, window, gprom):
        self.window, self.gprom, self.times, self.lines = window, gprom, Times(window), script_of(window)

    def run(self, lines):
        """The rows that each commit of a script makes, and the lines of its cycle."""
        script, dump = self.window.path('moved.script'), self.window.path('moved.dump')
        self.window.save('moved.script', ''.join(f'{line.text}\n' for line in lines))
        call([self.gprom, 'run', script, dump], (0, 1))
        (_, transactions), (head, cycle) = ask(self.gprom, dump, ['TRANSACTIONS', 'SERIAL'])
        commits = sorted((int(line.rsplit(' ', 1)[1]), line.split()[0]) for line in transactions if ' committed as ' in line)
        changes = ask(self.gprom, dump, [f'CHANGES {number} COMMIT' for _, number in commits])
        return [sorted(re.sub(r'^(\S+) \S+', r'\1', line) for line in found) for _, found in changes], head.split()[0], cycle

    def serial(self):
        """Moves by which the run is serial, as texts, or None."""
        return self.found(self.lines, self.run(self.lines), DEPTH)

    def found(self, lines, made, depth):
        """The same for a script, and what gprom made of it."""
        rows, answer, cycle = made
        if answer == 'serial' or not depth:
            return [] if answer == 'serial' else None
        numbers = [line.transaction for line in lines if line.is_a('BEGIN')]
        for first, second, reader in (map(int, match.groups()) for match in map(READ.fullmatch, cycle) if match):
            number, writer = (numbers[at - 1] for at in (reader, first + second - reader))
            other = moved(lines, number, writer) if self.times.may_start_beside(number, writer) else None
            again = self.run(other) if other else None
            if again and again[0] == rows and (rest := self.found(other, again, depth - 1)) is not None:
                return [f'{number} starts on the other side of the COMMIT of {writer}', *rest]
        return None
