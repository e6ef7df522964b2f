"""What gprom_capture itself has to do: what a line has, which values are cut, whose settings matter, and where the file goes."""
import json
import os
import stat

from .protocol import ServerError

TABLES = """DROP SCHEMA public CASCADE; CREATE SCHEMA public; CREATE TABLE acct (id INTEGER PRIMARY KEY, bal INTEGER, at TIMESTAMPTZ);
            INSERT INTO acct VALUES (1, 10, NULL), (2, 20, NULL); CREATE TABLE own (who TEXT); ALTER TABLE own ENABLE ROW LEVEL SECURITY;
            CREATE POLICY mine ON own USING (who = current_user); GRANT SELECT ON own TO PUBLIC;"""
MEMBER = "DO $$ BEGIN CREATE ROLE member LOGIN; EXCEPTION WHEN duplicate_object THEN NULL; END $$"
FILE, SECOND = 'gprom_capture.jsonl', 'second.jsonl'


class Check:
    """Runs statements on the server, and looks at the lines that they make. `failures` has what is not as it should be."""

    def __init__(self, cluster):
        self.cluster, self.failures = cluster, []

    def expect(self, is_right, what):
        self.failures += [] if is_right else [what]

    def lines(self, *statements, parameters=(), settings='', file=FILE, **options):
        """The lines that a session makes of these statements."""
        before = self.size(file)
        session = self.cluster.connect(**options)
        if settings:
            session.execute(settings)
        for statement in statements:
            try:
                session.execute(statement, *parameters)
            except ServerError:
                continue
        session.close()
        self.cluster.wait_for_sessions()
        with open(f'{self.cluster.data}/{file}', encoding='utf-8') as opened:
            opened.seek(before)
            return [line for line in map(json.loads, opened) if not line.get('q', '').startswith('SET ')]

    def size(self, file):
        path = f'{self.cluster.data}/{file}'
        return os.path.getsize(path) if os.path.exists(path) else 0

    # What a line has

    def fields(self):
        update, end = self.lines('UPDATE acct SET bal = bal + 1 WHERE id = 1')[:2]
        self.expect(update['k'] == 'S' and update['o'] == 'UPDATE' and update['w'] == ['public.acct'] and update['rows'] == 1, f'an UPDATE: {update}')
        self.expect(update['s'].count(':') == 2 and 'e' in update and update['t'] <= update['z'], f'snapshots and times of an UPDATE: {update}')
        self.expect(end['k'] == 'C' and int(end['X']) > 0 and end['user'] == 'postgres' and end['n'] == update['n'] + 1 and end['T'] <= update['t'], f'a COMMIT: {end}')
        named = self.lines('SELECT id FROM acct', application_name='the "till"')[-1]
        self.expect('app' not in end and end['from'] == '[local]' and named.get('app') == 'the "till"', f'application and client: {end}, {named}')
        lines = self.lines('BEGIN', 'SAVEPOINT one', 'SELECT 1 / (id - id) FROM acct', 'ROLLBACK TO one', 'ROLLBACK')
        self.expect([line['k'] for line in lines] == ['S', 'B', 'B', 'A'], f'a savepoint: {lines}')
        self.expect(lines[0].get('error') == '22012', f'a division by zero: {lines[0]}')
        self.expect(len({line['n'] for line in lines}) == len(lines), 'numbers come twice')

    def mode(self):
        mode = stat.S_IMODE(os.stat(f'{self.cluster.data}/{FILE}').st_mode)
        self.expect(mode == 0o600, f'the file has the mode {mode:o}')

    # Values

    def large_values(self):
        limits = 'SET gprom_capture.max_value = 100; SET gprom_capture.max_text = 60'
        select = 'SELECT id FROM acct WHERE bal::text = $1'
        kept, cut = (self.lines(select, parameters=('x' * length,), settings=limits)[0]['v']['1'] for length in (100, 101))
        self.expect(kept == 'x' * 100 and cut == {'bytes': 101}, f'values of 100 and 101 bytes: {kept}, {cut}')
        line = self.lines(f"{select.replace('$1', chr(39) + 'ü' * 60 + chr(39))}", settings=limits)[0]
        self.expect(len(line['q'].encode()) in (59, 60) and line['qb'] == len(select) - 2 + 122, f'a long text: {line}')
        stored = self.lines("DO $$ DECLARE x TEXT := repeat('y', 5000000); n INTEGER; BEGIN SELECT count(*) INTO n FROM acct WHERE bal::text = x; END $$")
        self.expect(any(line.get('v', {}).get('x') == {'bytes': 5000000} for line in stored), 'a value of a variable is not cut')

    def styles(self):
        select = 'SELECT id FROM acct WHERE at > $1::timestamptz - $2::interval'
        values = [self.lines(select, parameters=('2026-02-03 04:05:06+00', '1 day 2 hours'), settings=settings)[0]
                  for settings in ('', "SET DateStyle = 'SQL, DMY'; SET IntervalStyle = 'iso_8601'; SET TimeZone = 'Asia/Kolkata'")]
        self.expect(values[0]['v'] == values[1]['v'] == {'1': '2026-02-03 04:05:06+00', '2': '1 day 02:00:00'}, f'values by DateStyle: {values}')
        self.expect('tz' not in values[0] and values[1].get('tz') == 'Asia/Kolkata', f'the time zone: {values}')
        line = self.lines(r"SELECT id FROM acct WHERE bal::text = '\\'", settings='SET standard_conforming_strings = off')[0]
        self.expect(line.get('bs') == 1, f'backslashes: {line}')

    def row_security(self):
        mine, owners = self.lines('SELECT who FROM own', user='member')[0], self.lines('SELECT who FROM own')[0]
        self.expect(mine.get('rls') == 1 and 'rls' not in owners, f'row level security: {mine}, {owners}')

    # The file

    def rotation(self):
        """A new name by SIGHUP, and a new file under the old name behind a rename: open sessions go on there with their next transaction."""
        session = self.cluster.connect()
        session.execute('SELECT id FROM acct')
        self.cluster.use({'gprom_capture.file': SECOND})
        session.execute('SELECT bal FROM acct')
        self.expect('SELECT bal' in self.text(SECOND), 'a new name is not taken')
        os.rename(f'{self.cluster.data}/{SECOND}', f'{self.cluster.data}/{SECOND}.1')
        session.execute('SELECT at FROM acct')
        self.expect('SELECT at' in self.text(SECOND) and 'SELECT at' not in self.text(f'{SECOND}.1'), 'a rename is not seen')
        session.close()

    def unwritable(self):
        """A file that cannot be written costs the lines, and one message in the log."""
        self.cluster.use({'gprom_capture.file': 'no/such/folder'})
        session = self.cluster.connect()
        rows = [session.execute('SELECT id FROM acct').rows for _ in range(3)]
        session.close()
        self.cluster.use({})
        log = self.cluster.take_log('an unwritable capture').decode()
        told = [line for line in log.split('\n') if 'gprom_capture: could not write' in line and f',{session.process},' in line]
        self.expect(rows[0] == rows[2] and len(told) == 1, f'{len(told)} messages of a file that cannot be written')

    def text(self, file):
        with open(f'{self.cluster.data}/{file}', encoding='utf-8') as opened:
            return opened.read()


def check(cluster):
    """What is not as it should be."""
    cluster.control.execute(TABLES)
    cluster.control.execute(MEMBER)
    cluster.control.execute('GRANT USAGE ON SCHEMA public TO member')
    found = Check(cluster)
    for part in (found.fields, found.mode, found.large_values, found.styles, found.row_security, found.rotation, found.unwritable):
        part()
        cluster.use({})
    return found.failures
