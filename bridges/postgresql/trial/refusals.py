"""What CONFLICTS says of statements that the server refused for what others had written: it has to name a row."""
import csv
import json

from bridge.compare import read_map

from .judge import LOG, ask

STATE, CONCURRENT = '40001', 'due to concurrent'        # SQLSTATE and words of a serialization failure that a row is the cause of
REPEATABLE_READ = 2                                     # where each such failure is that of a row
GUESSED = 1                                             # of a window by the log: the snapshot of a transaction that was rolled back is placed by its time alone


def check(window, found, gprom):
    """What is wrong: a refused statement is in the script, and CONFLICTS of its transaction names no row."""
    refused, out = (refused_in_log if found.source is LOG else refused_in_capture)(window), found.source.out
    with open(window.path(f'{out}.script'), encoding='utf-8') as file:
        script = file.read().split('\n')
    entries = [entry for entry in read_map(window.path(f'{out}.tsv')) if entry['kind'] == 'line' and entry['log_line'] in refused]
    asked = [entry for entry in entries if script[int(entry['script_line']) - 1].split(' ')[1] in ('UPDATE', 'DELETE')]
    answers = ask(gprom, window.path(f'{out}.dump'), [f"CONFLICTS {entry['transaction']}" for entry in asked]) if asked else []
    failures = [f"line {entry['log_line']} was refused, and CONFLICTS {entry['transaction']}: {head}"
                for entry, (head, _) in zip(asked, answers) if head == 'conflicts 0']
    return [] if found.source is LOG and len(failures) <= GUESSED else failures


def refused_in_log(window):
    """The lines of the records."""
    refused, line = set(), 1
    with open(window.path('log.csv'), newline='', encoding='utf-8') as file:
        for fields in csv.reader(file):
            if fields[12] == STATE and CONCURRENT in fields[13]:
                refused.add(str(line))
            line += 1 + sum(field.count('\n') for field in fields)
    return refused


def refused_in_capture(window):
    """The lines of the statements."""
    with open(window.path('capture.jsonl'), encoding='utf-8') as file:
        lines = [(str(number), json.loads(line)) for number, line in enumerate(file, 1)]
    return {number for number, fields in lines if fields.get('error') == STATE and fields['i'] == REPEATABLE_READ}
