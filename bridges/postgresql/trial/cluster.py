"""A private PostgreSQL server in a temporary folder, on a unix socket alone, which is gone at the end."""
import glob
import os
import pwd
import shutil
import signal
import subprocess
import tempfile
import time

from . import extension
from .protocol import Connection

# Without indexes a statement reads whole tables. So under SERIALIZABLE the server knows of all reads that SERIAL counts: by an index,
# a join or a LIMIT would spare it some.
SETTINGS = """
enable_indexscan = off
enable_indexonlyscan = off
enable_bitmapscan = off
listen_addresses = ''
unix_socket_directories = '{folder}'
max_connections = 40
max_prepared_transactions = 2
fsync = off
wal_level = logical
logging_collector = on
log_destination = 'csvlog'
log_directory = '{folder}/log'
log_rotation_age = 0
log_rotation_size = 0
log_statement = none
log_min_duration_statement = 0
log_timezone = 'UTC'
timezone = 'UTC'
deadlock_timeout = 50ms
"""
PLAIN = """
listen_addresses = ''
unix_socket_directories = '{folder}'
fsync = off
"""
AUDITS = """
shared_preload_libraries = 'pgaudit'
pgaudit.log = 'all'
pgaudit.log_parameter = on
pgaudit.log_catalog = off
"""
PLUGINS = "output_plugin_libraries = 'pgoutput, test_decoding, wal2json'\n"      # some servers load no other ones
SLOT = 'bridge'
OTHERS = "backend_type = 'client backend' AND pid NOT IN (pg_backend_pid(), {})"
UNLOGGED = '-c log_min_duration_statement=-1'
CHANGES = f"SELECT data FROM pg_logical_slot_get_changes('{SLOT}', NULL, NULL, 'include-timestamp', 'on')"
TAIL = 1 << 16                  # bytes at the end of the log in which a mark is looked for
UNPRIVILEGED = ('postgres', 'nobody')           # whom root starts the server as


def programs_folder():
    """The folder of the server's programs, or None where no server is installed."""
    folders = sorted(glob.glob('/usr/lib/postgresql/*/bin'), key=version_of, reverse=True)
    if found := shutil.which('pg_config'):
        folders.insert(0, subprocess.run([found, '--bindir'], capture_output=True, text=True, check=True).stdout.strip())
    return next((folder for folder in folders if os.access(f'{folder}/initdb', os.X_OK)), None)


def version_of(folder):
    """The number in a folder such as /usr/lib/postgresql/15/bin."""
    part = folder.split('/')[-2]
    return int(part) if part.isdigit() else 0


def as_unprivileged_user():
    """The user whom root starts the server as, and the words before a command that run it so. PostgreSQL refuses root."""
    if os.geteuid() != 0:
        return None, []
    known = {entry.pw_name: entry for entry in pwd.getpwall()}
    user = next(known[name] for name in UNPRIVILEGED if name in known)
    return user, ['setpriv', f'--reuid={user.pw_uid}', f'--regid={user.pw_gid}', '--clear-groups', '--']


class Cluster:
    """The server, as a context: it runs inside of the `with`, and is stopped and removed whatever ends that."""

    def __init__(self, captures=False, is_plain=False, audits=False):
        self.is_plain = is_plain                        # as a server is installed, with no settings but where its socket is
        self.settings = {}                              # what was set since the server started
        self.audits = audits                            # whether pgAudit tells of its statements, beside their durations
        self.captures = captures                        # whether it has the extension, if that can be built
        self.programs = programs_folder()
        self.folder = tempfile.mkdtemp(prefix='gprom-', dir='/tmp')     # the path of a socket may have 107 bytes
        self.data = f'{self.folder}/data'
        self.user, self.prefix = as_unprivileged_user()
        if self.user:
            os.chown(self.folder, self.user.pw_uid, self.user.pw_gid)
        self.read = self.captured = 0                   # how many bytes of the log and of the capture have been taken
        self.library, self.missing = None, ''           # of the extension, or why it could not be built
        self.unseen = ''                                # options of a session of which nothing is in the log or the capture
        self.has_pgaudit = os.path.exists(f'{os.path.dirname(self.programs)}/lib/pgaudit.so')
        self.has_wal2json = os.path.exists(f'{os.path.dirname(self.programs)}/lib/wal2json.so')

    def command(self, program, *arguments, environment=None, output=None):
        """Runs one of the server's programs as the user that the server belongs to, and gives its output, or writes it to a file."""
        done = subprocess.run([*self.prefix, f'{self.programs}/{program}', *arguments], cwd='/', env={**os.environ, **(environment or {})},
                              stdin=subprocess.DEVNULL, stdout=output or subprocess.PIPE, stderr=subprocess.PIPE if output else subprocess.STDOUT,
                              text=True, check=False)
        if done.returncode:
            raise RuntimeError(f'{program}: {(done.stderr or done.stdout).strip()}')
        return done.stdout

    def __enter__(self):
        try:
            self.command('initdb', '-D', self.data, '-A', 'trust', '-U', 'postgres', '--locale=C', '-E', 'UTF8', '--no-sync')
            if self.captures:
                self.library, self.missing = extension.build(self.programs, f'{self.folder}/extension')
            with open(f'{self.data}/postgresql.conf', 'a', encoding='utf-8') as file:
                file.write((PLAIN if self.is_plain else SETTINGS).format(folder=self.folder))
                file.write(f"session_preload_libraries = '{self.library}'\n" if self.library else '')
                file.write(AUDITS if self.audits and self.has_pgaudit else '')
                file.write(PLUGINS if self.has_wal2json and 'output_plugin_libraries' in self.command('postgres', '--describe-config') else '')
            self.command('pg_ctl', '-D', self.data, '-w', '-t', '120', '-l', f'{self.folder}/start.log', 'start')
            self.control = self.connect()
            self.unseen = f'{UNLOGGED} -c gprom_capture.enabled=off' if self.library else UNLOGGED
            self.watcher = self.connect(options=self.unseen)
            if not self.is_plain:
                self.control.execute(f"SELECT pg_create_logical_replication_slot('{SLOT}', 'test_decoding')")
        except BaseException:
            self.remove()
            raise
        return self

    def __exit__(self, *_):
        self.remove()

    def remove(self):
        """Stops the server without regard for its data, which go too. Another Ctrl-C does not stop this."""
        before = signal.signal(signal.SIGINT, signal.SIG_IGN)
        try:
            self.command('pg_ctl', '-D', self.data, '-m', 'immediate', '-w', 'stop')
        except RuntimeError:
            pass                                        # there is none: it did not start
        shutil.rmtree(self.folder, ignore_errors=True)
        signal.signal(signal.SIGINT, before)

    def connect(self, **options):
        """A new session."""
        return Connection(self.folder, **options)

    def use(self, settings):
        """Gives the server these settings, which need no restart, and takes others back that were set so."""
        if settings == self.settings:
            return
        for name in self.settings.keys() - settings.keys():
            self.control.execute(f'ALTER SYSTEM RESET {name}')
        for name, value in settings.items():
            self.control.execute(f"ALTER SYSTEM SET {name} = '{value}'")
        self.control.execute('SELECT pg_reload_conf()')
        self.settings = settings
        time.sleep(0.3)                                 # all processes of the server take them

    def has_no(self, sessions):
        """Whether no session of the server is as this condition on pg_stat_activity says. Nothing of this is in the log or the capture."""
        return not self.watcher.execute(f'SELECT 1 FROM pg_stat_activity WHERE {sessions}').rows

    def wait_for_sessions(self):
        """Waits until the other sessions have ended. What a session did last is written when it ends."""
        for _ in range(500):
            if self.has_no(OTHERS.format(self.control.process)):
                return
            time.sleep(0.02)
        raise TimeoutError('a session of the server does not end')

    def log_part(self, mark):
        """(file, begin, end) of the CSV log since this was asked the last time. The collector writes it a little later than the statements end."""
        self.control.execute(f"SELECT '{mark}'")
        [file] = glob.glob(f'{self.folder}/log/*.csv')
        for _ in range(3000):
            with open(file, 'rb') as opened:
                opened.seek(max(self.read, os.path.getsize(file) - TAIL))
                text = opened.read()
                end = opened.tell()
            if f"SELECT '{mark}'".encode() in text and text.endswith(b'\n'):
                begin, self.read = self.read, end
                return file, begin, end
            time.sleep(0.02)
        raise TimeoutError('the log of the server does not go on')

    def take_log(self, mark):
        """The text of that part."""
        file, begin, end = self.log_part(mark)
        with open(file, 'rb') as opened:
            opened.seek(begin)
            return opened.read(end - begin)

    def take_changes(self):
        """The lines of the slot since this was asked the last time."""
        return ''.join(data + '\n' for data, in self.control.execute(CHANGES).rows)

    def copy_changes(self, file, slot=SLOT, options=('include-timestamp=on',)):
        """Writes these lines, of this slot or another one, to a file, however many they are."""
        [(end,)] = self.watcher.execute('SELECT pg_current_wal_flush_lsn()').rows
        words = [word for option in options for word in ('-o', option)]
        with open(file, 'wb') as output:
            self.command('pg_recvlogical', '-h', self.folder, '-U', 'postgres', '-d', 'postgres', '-S', slot, '--start', '--no-loop', '--endpos', end,
                         *words, '-f', '-', output=output)

    def take_capture(self):
        """The lines of the capture since this was asked the last time, or None without the extension."""
        if self.library is None:
            return None
        file, begin, end = self.capture_part()
        with open(file, 'rb') as opened:
            opened.seek(begin)
            return opened.read(end - begin)

    def capture_part(self):
        """(file, begin, end) of these lines."""
        file = f'{self.data}/gprom_capture.jsonl'
        begin, self.captured = self.captured, os.path.getsize(file)
        return file, begin, self.captured
