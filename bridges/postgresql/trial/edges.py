"""The edges of windows and of logs, in logs that are written by hand: whose a commit is there, what is open, and what a cut log still tells."""
import re
from collections.abc import Callable

from .report import Report
from .window import Window
from .written import Row, Written, moment

ADD = 'UPDATE t SET n = n + 1 WHERE id = 1'
ADD_TO_ALL = 'UPDATE t SET n = n + 1 WHERE n < 10'
FROM, TO = 1000.0, 1100.0                               # where the window begins and ends: milliseconds
BOUNDS = ('--from', moment(FROM), '--to', moment(TO))
A, B, X = '11', '12', '13'                              # xids: of what session a does, b and x
MESSAGES = 450                                          # each of ten statements in the script
SAME = ['', '']                                         # a transaction is neither patched nor uncovered


def write_narrowed(made: Written, at: float, before: int) -> None:
    """Session b adds to all rows under 10 while x takes row 2 beyond that and inserts row 3: b writes row 1 alone, as no statement does in one version.

    `before` is row 1 before that. So a statement that adds to row 1 alone fits the commit of b better than that of b, but by its time.
    """
    made.record('x', at + 0.3, 0.1, 'BEGIN', 'BEGIN', '7')
    made.record('x', at + 0.5, 0.1, 'UPDATE t SET n = 10 WHERE id = 2', 'UPDATE', '7', X)
    made.record('x', at + 0.7, 0.1, 'INSERT INTO t VALUES (3, 0)', 'INSERT', '7', X)
    made.commit(X, at + 2.0, ((2, 9), (2, 10)), (None, (3, 0)))
    made.record('x', at + 2.1, 0.2, 'COMMIT', 'COMMIT')
    made.commit(B, at + 2.5, ((1, before), (1, before + 1)))
    made.record('b', at + 2.6, 1.6, ADD_TO_ALL, 'UPDATE')


def check_of_b(made: Written, found: dict[str, list[str]]) -> list[str]:
    """What is wrong where the last commit is not that of session b, or a doubt is told."""
    doubts = [entry[8] for entry in made.entries() if entry[0] == 'doubt']
    wrong = [] if found.get(B, ['']) [0] == 'b' and found[B][3:] == SAME else [f'the commit of b is {found.get(B)}']
    return wrong + [f'a doubt: {doubt}' for doubt in doubts]


def check_committed_before(window: Window) -> list[str]:
    """A statement that committed before the window, and whose record was held up: it has no commit in the window."""
    made = Written(window)
    made.commit(A, FROM - 5.2, ((1, 0), (1, 1)))
    write_narrowed(made, FROM, 1)
    made.record('a', FROM + 3.0, 12.0, ADD, 'UPDATE')
    return check_of_b(made, made.convert(*BOUNDS))


def check_committed_in_slack(window: Window) -> list[str]:
    """A statement that committed in the milliseconds before the window: that commit is its own, though no record names it."""
    made = Written(window)
    made.commit(A, FROM - 2.0, ((1, 0), (1, 1)))
    write_narrowed(made, FROM, 1)
    made.record('a', FROM + 3.0, 7.0, ADD, 'UPDATE')
    found = made.convert(*BOUNDS)
    return check_of_b(made, found) + ([] if found.get(A, [''])[0] == 'a' else [f'the commit of a is {found.get(A)}'])


def check_commits_behind(window: Window) -> list[str]:
    """A statement that commits behind the window: it has no commit in the window, and is open at its end."""
    made = Written(window)
    made.record('c', FROM + 1.0, 0.2, 'SELECT n FROM t WHERE id = 1', 'SELECT')
    write_narrowed(made, TO - 4.0, 1)
    made.commit(A, TO + 0.7, ((1, 2), (1, 3)))
    made.record('a', TO + 0.8, 3.0, ADD, 'UPDATE')
    found = made.convert(*BOUNDS)
    return check_of_b(made, found) + ([f'the statement behind the window is {found[A]}'] if A in found else [])


def check_missing_record(window: Window) -> list[str]:
    """Two sessions ran the same statement within a millisecond, and the log ends before the record of the second one: whose a commit is is in doubt."""
    made = Written(window)
    made.record('c', FROM + 1.0, 0.2, 'SELECT n FROM t WHERE id = 1', 'SELECT')
    made.commit(A, FROM + 10.1, ((1, 0), (1, 1)))
    made.commit(B, FROM + 10.4, ((1, 1), (1, 2)))
    made.record('a', FROM + 10.6, 0.7, ADD, 'UPDATE')
    made.convert('--from', moment(FROM))
    doubts = [entry[8] for entry in made.entries() if entry[0] == 'doubt']
    return [] if len(doubts) == 1 and 'a record is missing' in doubts[0] else [f'the doubts are {doubts}']


def check_last_commit(window: Window) -> list[str]:
    """The last commit of a log: its record has the millisecond before it, since a server cuts the time."""
    made = Written(window)
    made.record('c', FROM + 1.0, 0.2, 'SELECT n FROM t WHERE id = 1', 'SELECT')
    made.commit(A, FROM + 10.7, ((1, 0), (1, 1)))
    made.record('a', FROM + 10.9, 0.5, ADD, 'UPDATE')
    failures = []
    for options in (('--from', moment(FROM)), ('--around', f't:1@{A}'), ('--rows', 'touched')):
        found = made.convert(*options)
        failures += [] if found.get(A, [])[2:] == ['committed', *SAME] else [f'{options[0]}: the last commit is {found.get(A)}']
    return failures


def check_cut_log(window: Window) -> list[str]:
    """A log that was copied while its server wrote it: the record of the last COMMIT is cut off, and the slot has the commit."""
    made = Written(window)
    made.record('c', FROM + 1.0, 0.2, 'SELECT n FROM t WHERE id = 1', 'SELECT')
    made.record('a', FROM + 10.0, 0.1, 'BEGIN', 'BEGIN', '8')
    made.record('a', FROM + 12.0, 0.4, ADD, 'UPDATE', '8', A)
    whole = len(made.log)
    made.commit(A, FROM + 20.0, ((1, 0), (1, 1)))
    made.record('a', FROM + 20.2, 0.4, 'COMMIT -- \u20ac', 'COMMIT')
    window.save('t.csv', 'id,n\n1,0\n')
    failures = []
    for options in (('--from', moment(FROM)), ('--around', f't:1@{A}'), ('--rows', 't=t.csv')):
        for size in (0, 60, len(made.log) - whole - 4):
            found = made.convert(*options, log=made.log.encode()[:whole + size])
            if found.get(A, [])[2:] != ['committed', *SAME]:
                failures.append(f'{options}, {size} bytes of the record: the transaction is {found.get(A)}')
            if (size > 0) != ('the last record of the log is cut off' in made.text('left')):
                failures.append(f'{options}, {size} bytes of the record: it is not told, or told wrongly')
    return failures


def check_line_of_text(window: Window) -> list[str]:
    """A line in the text of a statement of several lines: the bound is its record."""
    made = Written(window)
    text = 'UPDATE t\nSET n = n + 1, -- "2026-03-01 12:00:00.000 UTC","user","postgres"\n"id" = id\nWHERE id = 1'
    for number, xid in enumerate(('21', '22', '23')):
        made.commit(xid, FROM + 20 * number, ((1, number), (1, number + 1)))
        made.record('a', FROM + 20 * number + 0.1, 0.5, text, 'UPDATE')
    failures = []
    for line in range(5, 9):
        found = sorted(xid for xid, entry in made.convert('--from', f'line:{line}', '--to', f'line:{line}').items() if entry[3:] == SAME)
        failures += [] if found == ['22'] else [f'line {line} is of {found}']
    return failures


def check_reads_behind(window: Window) -> list[str]:
    """Transactions that began in the window and read behind it: such a read is not in the script, whether they wrote or not, and however long they last."""
    made = Written(window)
    read = 'SELECT n FROM t WHERE id = 1'
    for session in 'abd':
        made.record(session, FROM + 10.0, 0.1, 'BEGIN', 'BEGIN', '8')
        made.record(session, FROM + 12.0, 0.1, read, 'SELECT', '8')
    made.commit('31', TO - 20.0, ((1, 0), (1, 1)))
    made.record('c', TO - 19.9, 0.5, ADD, 'UPDATE')
    made.commit('32', TO + 20.0, ((1, 1), (1, 2)))
    made.record('c', TO + 20.1, 0.5, ADD, 'UPDATE')
    for session in 'abd':
        made.record(session, TO + 30.0, 0.1, read, 'SELECT', '8')
    made.record('a', TO + 40.0, 0.1, 'COMMIT', 'COMMIT')
    made.record('b', TO + 40.0, 0.1, 'ROLLBACK', 'ROLLBACK')
    made.record('d', TO + 5000.0, 0.1, 'COMMIT', 'COMMIT')
    made.convert(*BOUNDS)
    reads = [line for line in made.text('script').split('\n') if 'SELECT' in line]
    ends = [line for line in made.text('script').split('\n') if line.endswith((': COMMIT', ': ROLLBACK'))]
    return [] if len(reads) == 3 and len(ends) == 2 else [f'the script reads {len(reads)} times, and has {len(ends)} ends']


def check_rows_of_folder(window: Window) -> list[str]:
    """The rows of a folder: where the slot begins, with what the slot made of them up to the window. Other files of the folder do not matter."""
    made = Written(window)
    window.save('t.csv', 'id,n\n1,0\n2,20\n3,30\n4,40\n')
    changes = [((1, 0), (1, 5)), ((2, 20), None), ((3, 30), (6, 30)), (None, (2, 21)), (None, (7, 70)), ((7, 70), None), ((1, 5), (1, 6))]
    for number, (old, new) in enumerate(changes):
        made.commit(str(40 + number), FROM + 20 * number, (old, new))
        made.record('a', FROM + 20 * number + 0.1, 0.5, text_of(old, new), 'UPDATE')
    made.convert('--from', 'xid:46', '--rows', '.')
    rows = sorted(re.findall(r'\(\d+, \d+\)', made.text('script').partition('s1: COMMIT')[0]))
    one = [made.text(end) for end in ('script', 'tsv')]
    made.convert('--from', 'xid:46', '--rows', 't=t.csv')
    failures = [] if rows == ['(1, 5)', '(2, 21)', '(4, 40)', '(6, 30)'] else [f'the rows are {rows}']
    return failures + ([] if one == [made.text(end) for end in ('script', 'tsv')] else ['--rows FOLDER makes another script than --rows TABLE=CSV'])


def text_of(old: Row, new: Row) -> str:
    """A statement that makes a change of a row."""
    if old is None:
        return f'INSERT INTO t VALUES {new}'
    if new is None:
        return f'DELETE FROM t WHERE id = {old[0]}'
    return f'UPDATE t SET id = {new[0]}, n = {new[1]} WHERE id = {old[0]}'


# Limits

def statements_of(made: Written) -> int:
    """How many statements the script has."""
    return sum(not line.endswith((': COMMIT', ': ROLLBACK')) and ': BEGIN' not in line and 'CREATE TABLE' not in line
               for line in made.text('script').split('\n')[:-1])


def check_many(window: Window, text: str, tag: str, changes: Callable[[int], list[tuple[Row, Row]]]) -> list[str]:
    """Messages that the log has as one line each, and the script as ten statements: a window has as many as a script takes, and the incident is in it."""
    made = Written(window)
    for number in range(MESSAGES):
        made.commit(str(1000 + number), FROM + 20 * number, *changes(number))
        made.record('a', FROM + 20 * number + 0.1, 0.5, text, tag)
    middle, failures = str(1000 + MESSAGES // 2), []
    for options in (('--around', f't:1@{middle}'), ('--from', f'xid:{middle}')):
        found = made.convert(*options)
        wrong = [xid for xid, entry in found.items() if entry[3:] != SAME]
        failures += [f'{options[0]}: {len(wrong)} of {len(found)} transactions are not the same, such as {found[wrong[0]]}'] if wrong else []
        failures += [] if middle in found else [f'{options[0]}: the transaction is not in its window']
        failures += [] if 1500 < statements_of(made) <= 2000 else [f'{options[0]}: {statements_of(made)} statements']
    return failures


def check_many_in_one(window: Window) -> list[str]:
    """Several statements in a message."""
    return check_many(window, f'BEGIN; {"; ".join([ADD] * 10)}; COMMIT', 'COMMIT',
                      lambda number: [((1, n), (1, n + 1)) for n in range(10 * number, 10 * number + 10)])


def check_many_of_one(window: Window) -> list[str]:
    """A statement that stands as the rows that it wrote."""
    rows = ', '.join(f'({at}, 0)' for at in range(1, 11))
    return check_many(window, f'INSERT INTO t VALUES {rows} ON CONFLICT (id) DO UPDATE SET n = t.n + 1', 'INSERT',
                      lambda number: [((at, number), (at, number + 1)) for at in range(1, 11)])


def check_many_rows(window: Window) -> list[str]:
    """Twelve whole tables of as many rows as gprom holds of one: the longest ones are not taken, so that the others fit."""
    names = [f'w{number:02}' for number in range(12)]
    made = Written(window, ''.join(f'CREATE TABLE public.{name} (id integer NOT NULL, s text);\n'
                                   f'ALTER TABLE ONLY public.{name} ADD CONSTRAINT {name}_pkey PRIMARY KEY (id);\n' for name in names))
    for number, name in enumerate(names):
        window.save(f'{name}.csv', 'id,s\n' + ''.join(f'{at},{"x" * (190 if number < 4 else 1)}\n' for at in range(10_000)))
    made.commit(A, FROM + 10.0, ((1, 0), (1, 1)))
    made.record('a', FROM + 10.1, 0.5, ADD, 'UPDATE')
    found = made.convert('--around', f't:1@{A}', '--rows', '.')
    told = made.text('left').count('has too many rows where the window begins')
    rows = made.text('script').count('), (') + statements_of(made)
    failures = [] if found.get(A, [])[2:] == ['committed', *SAME] else [f'the transaction is {found.get(A)}']
    failures += [] if 30_000 < rows <= 50_010 and statements_of(made) <= 1010 else [f'{rows} rows in {statements_of(made)} statements']
    return failures + ([] if told == len(names) - rows // 10_000 else [f'{told} tables are told not to be taken, with {rows} rows'])


def check_rows_in_between(window: Window) -> list[str]:
    """A transaction that inserts more rows than gprom holds of a table, and deletes them again: it is past a limit, and is told as that."""
    made = Written(window)
    window.save('t.csv', 'id,n\n' + ''.join(f'{at},0\n' for at in range(1, 9_991)))
    rows = [(20_000 + at, 0) for at in range(20)]
    made.commit(A, FROM + 10.0, ((1, 0), (1, 1)))
    made.record('a', FROM + 10.1, 0.5, ADD, 'UPDATE')
    made.record('b', FROM + 20.0, 0.1, 'BEGIN', 'BEGIN', '7')
    made.record('b', FROM + 21.0, 0.1, f'INSERT INTO t VALUES {str(rows)[1:-1]}', 'INSERT', '7', B)
    made.record('b', FROM + 22.0, 0.1, 'DELETE FROM t WHERE id >= 20000', 'DELETE', '7', B)
    made.commit(B, FROM + 23.0, *((None, row) for row in rows), *((row, None) for row in rows))
    made.record('b', FROM + 23.1, 0.1, 'COMMIT', 'COMMIT')
    found = made.convert('--from', moment(FROM), '--rows', 't=t.csv')
    ends = {xid: entry[4] for xid, entry in found.items()}
    return [] if ends == {A: '', B: 'past a limit of gprom'} else [f'the transactions are {found}']


CHECKS: list[tuple[str, Callable[[Window], list[str]]]] = [
    ('a commit before the window', check_committed_before),
    ('a commit in the milliseconds before the window', check_committed_in_slack),
    ('a commit behind the window', check_commits_behind),
    ('a record that is missing at the end', check_missing_record),
    ('the last commit of a log', check_last_commit),
    ('a log that is cut off', check_cut_log),
    ('a bound in a text of several lines', check_line_of_text),
    ('reads behind the window', check_reads_behind),
    ('rows of a folder', check_rows_of_folder),
    ('many statements in a message', check_many_in_one),
    ('many statements for one', check_many_of_one),
    ('many rows where a window begins', check_many_rows),
    ('many rows in between', check_rows_in_between),
]


def run(report: Report) -> None:
    """Judges the checks beside what else is recorded."""
    for name, check in CHECKS:
        report.later(report.check, name, check, report.window(name))
