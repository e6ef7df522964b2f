"""Windows of the applications: how much of what they wrote is in the script in full, and whether SERIAL names what is planted."""
import importlib.util
import re
from collections import Counter
from dataclasses import dataclass
from functools import partial

from ..judge import CAPTURE, ask, commits_of
from ..report import Trial
from . import load

PACKAGES = {'django': 'python3-django', 'sqlalchemy': 'python3-sqlalchemy', 'psycopg2': 'python3-psycopg2'}
PLANTS = {'lost_update': 'a lost update', 'write_skew': 'a write skew'}
LEVELS = {'lost_update': 'READ COMMITTED', 'write_skew': 'REPEATABLE READ'}           # of the sessions of the bank
SESSIONS, LEAST = 6, 0.95                               # besides those that are planted; how much of the writing transactions has to be in full
STEP = re.compile(r'(\d+) before (\d+) : ')


@dataclass
class Made:
    """What a window of an application gave."""
    name: str
    source: str
    writing: int
    full: int
    failed: int


def what_is_missing() -> str:
    """The packages that are not installed, or ''."""
    return ' '.join(package for module, package in PACKAGES.items() if not importlib.util.find_spec(module))


def trials(folder, requests, seed, gprom, made, is_short):
    """A window of each application with each of the plants, or with one, on the server whose socket is in a folder."""
    from .bank import Bank
    from .shop import Shop
    for at, plant in enumerate(PLANTS):
        for turn, (name, application) in enumerate((('Django', Shop(folder)), ('SQLAlchemy', Bank(folder, LEVELS[plant])))):
            if is_short and at != turn:
                continue
            failed = []
            yield Trial(f'{name} with {PLANTS[plant]}', f'ORM, {name}', application.definitions(),
                        partial(work, application=application, plant=plant, requests=requests, seed=seed + at, failed=failed),
                        partial(check, name=name, gprom=gprom, failed=failed, made=made))


def work(_, application, plant, requests, seed, failed):
    """Uses the application beside what is planted."""
    failed += load.run(application, plant, SESSIONS, requests, seed)


def check(window, found, name, gprom, failed, made):
    """What is wrong with the script of a window. By the log, which transactions it has in full is counted alone."""
    xids = set(commits_of(window))
    kinds = Counter(verdict.kind() for verdict in found.verdicts if verdict.xid in xids)
    made.append(Made(name, found.source.name, len(xids), kinds['same'], len(failed)))
    if found.source is not CAPTURE:
        return []
    wrong = [] if kinds['same'] >= LEAST * len(xids) else [f'{kinds["same"]} of {len(xids)} writing transactions are in full: {reasons(found)}']
    [(head, lines)] = ask(gprom, window.path(f'{found.source.out}.dump'), ['SERIAL'])
    named = {number for line in lines if (match := STEP.match(line)) for number in match.groups()}
    planted = {verdict.transaction for verdict in found.verdicts if verdict.xid in planted_in(window)}
    if not head.startswith('cycle') or named != planted:
        wrong.append(f'SERIAL is to name the transactions {sorted(planted)}, and answers {head}: {lines}')
    return wrong


def reasons(found):
    """Why transactions are not in full."""
    return dict(Counter(re.sub(r'log line \d+: ', '', verdict.reason) for verdict in found.verdicts if verdict.kind() == 'patched'))


def planted_in(window):
    """The xids of the transactions that changed a row which is called planted."""
    xids, xid = set(), ''
    with open(window.path('slot.txt'), encoding='utf-8', newline='\n') as file:
        for line in file:
            if line.startswith('BEGIN '):
                xid = line.split()[1]
            elif line.startswith('table ') and ': UPDATE: ' in line and "'planted" in line:
                xids.add(xid)
    return xids


def summary(made):
    """A line for each application and source."""
    totals = {}
    for part in made:
        total = totals.setdefault((part.name, part.source), Counter())
        total.update(windows=1, writing=part.writing, full=part.full, failed=part.failed)
    return [f"ORM, {name}, by {source}: {total['windows']} windows, {total['full']} of {total['writing']} writing transactions in full, "
            f"{total['failed']} requests failed" for (name, source), total in sorted(totals.items())]
