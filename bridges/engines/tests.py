"""Tests the parts of the two checks on texts by hand. It needs no program and no server."""

from __future__ import annotations

import random
import unittest
from collections.abc import Sequence

from gprom.answers import Row, span

from . import Failure, compare, faults, printed, sqlite
from .scripts import Script

TABLES = """CREATE TABLE r_versions ("$id" VARCHAR(2200) NOT NULL, "$from" BIGINT NOT NULL, "$to" BIGINT, "a" BIGINT, "b" VARCHAR(255));
INSERT INTO r_versions VALUES ('1.1.1', 1, 2, 5, '-- 1'), ('1.1.1', 2, NULL, NULL, 'x\u2028, ''y'''), ('1.1.2', 2, NULL, -5, '');
"""
SCAN = 'SELECT "a" AS c1, "b" AS c2 FROM r_versions WHERE "$from" <= {0} AND ("$to" IS NULL OR {0} < "$to")'
ASKED = [f'-- 1\nWITH q1 AS ({SCAN.format(1)})\nSELECT * FROM q1;\n', '-- 2 E20 no transaction 9\n', f'-- 4\n{SCAN.format(2)};\n',
         f'-- 12\n{SCAN.format(0)};\n', f'-- 13\n{SCAN.format(2)} UNION ALL {SCAN.format(2)};\n']
ROWS: list[list[Row]] = [[(5, '-- 1')], [], [(None, "x\u2028, 'y'"), (-5, '')], [], [(None, "x\u2028, 'y'"), (-5, '')] * 2]
WRONG = '-- 5\nSELECT c3\nFROM r_versions;\n'


class Reading(unittest.TestCase):
    def test_parts(self) -> None:
        read = printed.read(TABLES + ''.join(ASKED))
        self.assertEqual((read.tables, read.table_names()), (TABLES, ['r']))
        self.assertEqual([part.text for part in read.parts], ASKED)
        self.assertEqual([(part.number, part.refusal) for part in read.parts], [(1, None), (2, 'E20 no transaction 9'), (4, None), (12, None), (13, None)])

    def test_version(self) -> None:
        read = span("1.1.1(2.1.1) 1 - 5, 'a, b'")
        assert read
        self.assertEqual(compare.version(read), ('1.1.1(2.1.1)', 1, None, 5, 'a, b'))


class Bags(unittest.TestCase):
    def test_equal(self) -> None:
        self.assertIsNone(compare.difference([(1, 'a'), (None,), (1, 'a')], [(None,), (1, 'a'), (1, 'a')]))

    def test_different(self) -> None:
        pairs: list[tuple[Sequence[Row], list[Row]]] = [([(1,), (1,)], [(1,)]), ([], [(None,)]), ([(1,)], [('1',)]), ([('a',)], [('a ',)]), ([(1, 2)], [(1,)])]
        for ours, theirs in pairs:
            self.assertIsNotNone(compare.difference(ours, theirs))

    def test_failure(self) -> None:
        self.assertEqual(compare.difference([], Failure('no such table: s')), 'no such table: s')


class Engines(unittest.TestCase):
    def test_rows(self) -> None:
        for engine in sqlite.installed():
            self.assertEqual(engine.run(TABLES, ASKED), ROWS, engine.name)

    def test_failure(self) -> None:
        for engine in sqlite.installed():
            before, failure, after = engine.run(TABLES, [ASKED[0], WRONG, ASKED[2]])
            self.assertEqual((before, after), (ROWS[0], ROWS[2]), engine.name)
            self.assertIn('c3', str(failure), engine.name)

    def test_failure_of_tables(self) -> None:
        for engine in sqlite.installed():
            with self.assertRaises(Failure):
                engine.run('CREATE TABLE r_versions (;\n', ASKED)


class Faults(unittest.TestCase):
    def test_edits(self) -> None:
        text = ('SELECT * FROM q5 x WHERE NOT EXISTS (SELECT 1 FROM q6 y WHERE y.c4 = x.c4) UNION ALL SELECT * FROM q4 WHERE c5 = 1 '
                '(SELECT c4 FROM q4 WHERE c5 = 1 UNION ALL SELECT x.c4 FROM q1 x WHERE NOT EXISTS (SELECT 1 FROM q4 y WHERE y.c4 = x.c4)) '
                '((c1 = 2) IS NOT TRUE) CASE WHEN (c1 = 1) THEN 1 ELSE c5 END "$from" <= 1 AND ("$to" IS NULL OR 1 < "$to") CAST(NULL AS VARCHAR(255))')
        for name, fault in (faults.FAULTS | faults.WRONG_TYPE).items():
            self.assertNotEqual(faults.edit_of(fault)(text), text, name)


class Scripts(unittest.TestCase):
    def test_seed(self) -> None:
        first, again, other = (Script(random.Random(seed), 40).lines for seed in (1, 1, 2))
        self.assertEqual(first, again)
        self.assertNotEqual(first, other)

    def test_lines(self) -> None:
        for seed in range(50):
            for line in Script(random.Random(seed), 40).lines:
                self.assertLessEqual(len(line.encode()), 4096)


if __name__ == '__main__':
    unittest.main(argv=['test'])
