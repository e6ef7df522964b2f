"""Runs trials, counts what they found, and says what failed."""
import collections
import os
import re
import shutil
import tempfile
import threading
from collections.abc import Callable
from concurrent.futures import ThreadPoolExecutor
from dataclasses import dataclass, field

from .judge import CAPTURE, LOG, judge, sources_of
from .window import Window, record


@dataclass
class Trial:
    """A window to record, and what has to hold of it: `check` gives its failures, of the window and what `judge` found."""
    name: str
    level: str                                          # under which it is counted
    setup: str
    work: Callable
    check: Callable
    default: str = 'read committed'                     # default_transaction_isolation of the server
    repeat: str = ''                                    # the command that makes this window again
    settings: dict = field(default_factory=dict)        # of the server, while the window is recorded
    sources: tuple = (LOG, CAPTURE)                     # what scripts are made of


class Report:
    """Windows are recorded one after another, and judged beside that, which takes most of the time.

    As a context it removes their files at the end, but for those of trials that failed, and all where they are to be kept.
    """

    def __init__(self, gprom, keep=None, jobs=None):
        self.gprom, self.keep = gprom, keep
        self.folder = keep or tempfile.mkdtemp(prefix='gprom-windows-')
        os.makedirs(self.folder, exist_ok=True)
        self.passed = self.failed = 0
        self.counts = collections.defaultdict(collections.Counter)
        self.pool, self.waiting, self.lock = ThreadPoolExecutor(jobs), [], threading.Lock()

    def __enter__(self):
        return self

    def __exit__(self, *_):
        self.pool.shutdown(cancel_futures=True)
        if not self.keep and not self.failed:
            shutil.rmtree(self.folder)

    def run(self, cluster, trial):
        """Records the window of a trial. It is judged later."""
        window = self.window(trial.name, trial.default)
        try:
            cluster.use(trial.settings)
            record(cluster, window, trial.setup, trial.work)
            self.later(self.judge, trial, window)
        except RuntimeError as fault:
            self.count(trial.name, [str(fault)])

    def window(self, name, level='read committed'):
        """A window without files, in a folder of its own."""
        return Window(tempfile.mkdtemp(prefix=re.sub(r'\W+', '-', name.lower()) + '-', dir=self.folder), level)

    def later(self, work, *arguments):
        """Does something beside the recording of windows."""
        self.waiting.append(self.pool.submit(work, *arguments))

    def judge(self, trial, window):
        """Judges a window by each source, and counts it. Its files stay if something failed."""
        failures = []
        for source in sources_of(window):
            if source in trial.sources:
                failures += [f'by {source.name}: {failure}' for failure in self.judge_by(trial, window, source)]
        if failures:
            failures.append(f'its files are in {window.folder}' + (f'; repeat with {trial.repeat}' if trial.repeat else ''))
        elif not self.keep:
            shutil.rmtree(window.folder)
        self.count(trial.name, failures)

    def judge_by(self, trial, window, source):
        """The failures of a window by one source."""
        try:
            found = judge(window, self.gprom, source)
            failures = found.failures + trial.check(window, found)
        except RuntimeError as fault:
            return [str(fault)]
        with self.lock:
            self.counts[f'{trial.level}, by {source.name}'] += found.counts() + collections.Counter(runs=1, transactions=len(found.verdicts))
        return failures

    def check(self, name, check, *arguments):
        """Counts a check that gives its failures."""
        try:
            failures = check(*arguments)
        except RuntimeError as fault:
            failures = [str(fault)]
        self.count(name, failures + [f'the files are in {self.folder}'] * bool(failures))

    def count(self, name, failures):
        """Counts a test, and prints each of its failures."""
        with self.lock:
            for failure in failures:
                print(f'FAILED {name}: {failure}', flush=True)
            self.passed += not failures
            self.failed += bool(failures)

    def finish(self):
        """Waits until all is judged. An error of the tests themselves is raised here."""
        for future in self.waiting:
            future.result()

    def write(self, seconds):
        """The counts by level, and the last line."""
        for level, counts in sorted(self.counts.items()):
            committed, rolled_back = counts['same'], counts['rolled back']
            print(f"{level}: {counts['runs']} runs, {counts['transactions']} transactions: {committed + rolled_back} covered ({committed} "
                  f"committed, {rolled_back} rolled back), {counts['patched']} patched, {counts['not covered']} not covered, "
                  f"{counts['differs']} differ; {counts['narrowed']} statements narrowed")
        print(f'{self.passed} passed, {self.failed} failed, {seconds:.0f} seconds')
