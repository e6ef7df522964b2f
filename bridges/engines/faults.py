"""Faults in the text of `gprom sql`: a comparison that does not find each of them is worth nothing."""

from __future__ import annotations

import re

from . import Edit

# A pattern, and what stands in its place.
Fault = tuple[str, str]
FAULTS: dict[str, Fault] = {
    'a version has the rows that it ended': (r'(\d+) < "\$to"', r'\1 <= "$to"'),
    'a version has not the rows that it wrote': (r'"\$from" <= ', '"$from" < '),
    'a version has only rows that were ended later': (r'"\$to" IS NULL OR ', ''),
    'equal rows are one': ('UNION ALL', 'UNION'),
    'a commit brings back the rows that it deleted': (r' UNION ALL SELECT x\.c\d+ FROM \w+ x WHERE NOT EXISTS \([^()]*\)\)', ')'),
    'a commit has the old rows too': (r'(SELECT \* FROM \w+ x) WHERE NOT EXISTS \([^()]*\)', r'\1'),
    'a DELETE takes rows of which its condition is unknown': (r' IS NOT TRUE\)', ' IS FALSE)'),
    'a row that is written has no mark': (r'THEN 1 ELSE c(\d+) END', r'THEN 0 ELSE c\1 END'),
}
WRONG_TYPE: dict[str, Fault] = {'a NULL is a number among texts': (r'CAST\(NULL AS VARCHAR\(255\)\)', 'CAST(NULL AS BIGINT)')}


def edit_of(fault: Fault) -> Edit:
    """What makes a fault in a text."""
    pattern, replacement = fault
    return lambda text: re.sub(pattern, replacement, text)
