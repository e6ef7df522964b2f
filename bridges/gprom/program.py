"""The one client of `gprom`: calls go out, blocks of lines come back."""

from __future__ import annotations

import os
import re
import shlex
import shutil
import subprocess
import tempfile
import threading
import time
from collections.abc import Callable, Iterator, Sequence
from dataclasses import dataclass
from pathlib import Path
from typing import IO

# How long one call may take, in seconds. A question about a change of the past takes as long as the script took to run.
PATIENCE = 600.0
# Questions that a program may not have yet, each with a fault behind its words: a program that has it finds this one, and no earlier one.
PROBES = {"ANOMALIES": ("ANOMALIES x", 11), "AFFECTED": ("AFFECTED BY x", 13), "UNDO": ("WHATIF UNDO x", 13)}
REFUSAL = re.compile(r"E\d\d ")
_BLOCK = re.compile(r"(\d+) (.*)", re.S)


class ProgramError(Exception):
    """The program gave no answers: its exit status, and what it said instead."""

    def __init__(self, status: int, message: str):
        super().__init__(message)
        self.status = status


class Stopped(ProgramError):
    """Nobody waits for the answers any more."""

    def __init__(self) -> None:
        super().__init__(9, "nobody waits for the answer any more")


class Job:
    """What somebody waits for: how much of it is done, and a way to end the call that it stands for, now or when it begins."""

    def __init__(self) -> None:
        self._lock = threading.Lock()
        self._process: subprocess.Popen[bytes] | None = None
        self._stopped = False
        self.began = time.monotonic()
        # The questions that were answered, and all of them.
        self.done = self.total = 0

    @property
    def stopped(self) -> bool:
        with self._lock:
            return self._stopped

    @property
    def seconds(self) -> float:
        return time.monotonic() - self.began

    def stop(self) -> None:
        with self._lock:
            self._stopped = True
            if self._process:
                self._process.kill()

    def take(self, process: subprocess.Popen[bytes]) -> None:
        with self._lock:
            self._process = process
            if self._stopped:
                process.kill()

    def check(self) -> None:
        """Raises Stopped where nobody waits any more. No call runs with the job then."""
        with self._lock:
            self._process = None
            if self._stopped:
                raise Stopped


@dataclass(frozen=True)
class Answer:
    """What the program says to one line: the first line without its number, and the lines below without their two spaces."""

    question: str
    head: str
    lines: tuple[str, ...] = ()
    # The lines behind these, which the caller did not want.
    cut: int = 0

    @property
    def refused(self) -> bool:
        return REFUSAL.match(self.head) is not None

    @property
    def total(self) -> int:
        return len(self.lines) + self.cut

    def text(self) -> str:
        return "\n".join((self.head, *("  " + line for line in self.lines)))


@dataclass(frozen=True)
class Reply:
    """What the program says to one line of a script."""

    line: int
    head: str
    lines: tuple[str, ...]

    @property
    def refused(self) -> bool:
        return REFUSAL.match(self.head) is not None

    @property
    def lost(self) -> bool:
        """A COMMIT that lost. It belongs to the history."""
        return self.head.startswith("E11 ")

    @property
    def mistaken(self) -> bool:
        """Refused, and missing from the history."""
        return self.refused and not self.lost


def built_program() -> str | None:
    """The program that this checkout built, if it did."""
    built = Path(__file__).resolve().parents[2] / "crates/gprom/out/gprom"
    return str(built) if os.access(built, os.X_OK) else None


def find_program(given: str | None = None) -> list[str]:
    """The words that call the program: those given, those of the environment, that of this checkout or of the path."""
    words = given or os.environ.get("GPROM")
    if words:
        return shlex.split(words)
    found = built_program() or shutil.which("gprom")
    if not found:
        raise ProgramError(2, "gprom is not in the path: name it with --gprom PROGRAM, or in the variable GPROM")
    return [found]


def is_question(line: str) -> bool:
    """Whether the program answers this line. It passes over blank lines and comments; a line feed would make two of it."""
    bare = line.strip(" \t")
    return bool(bare) and not bare.startswith("--") and "\n" not in line and "\r" not in line and "\0" not in line


class Program:
    """The program, called by these words, with at most so many seconds for a call."""

    def __init__(self, words: Sequence[str], patience: float = PATIENCE):
        self.words, self.patience = list(words), patience
        # The questions and the calls so far, for those who look after the cost.
        self.asked = self.calls = 0
        self._known: frozenset[str] | None = None

    def knows(self, question: str) -> bool:
        """Whether the program has a question of PROBES, by what it says of it over the dump of no history."""
        if self._known is None:
            with tempfile.TemporaryDirectory(prefix="gprom-") as folder:
                script, dump = Path(folder) / "none", Path(folder) / "none.dump"
                script.touch()
                self.run(script, dump)
                answers = self.ask(dump, [text for text, _ in PROBES.values()])
            found = (name for (name, (_, column)), answer in zip(PROBES.items(), answers) if answer.head == f"E03 syntax fault at column {column}")
            self._known = frozenset(found)
        return question in self._known

    def version(self) -> str:
        return self.text(["version"]).strip()

    def run(self, script: Path, dump: Path, job: Job | None = None) -> list[Reply]:
        """Runs a script, and writes its dump."""
        blocks = self._blocks(["run", _path(script), _path(dump)], None, job or Job(), None)
        return [Reply(number, head, lines) for number, head, lines, _ in blocks]

    def ask(self, dump: Path, questions: Sequence[str], job: Job | None = None, most: Sequence[int | None] = ()) -> list[Answer]:
        """The answers to all questions, by one call: the dump is read once.

        `most` has for each question how many of its lines are kept, so that an answer of a million lines takes no memory; None keeps all.
        """
        if not questions:
            return []
        for question in questions:
            if not is_question(question):
                raise ValueError(f"no question: {question!r}")
        job = job or Job()
        self.asked += len(questions)
        job.total += len(questions)
        with tempfile.TemporaryFile() as asked:
            asked.write("".join(f"{question}\n" for question in questions).encode())
            asked.seek(0)
            blocks = self._blocks(["ask", _path(dump), "-"], asked, job, most)
        job.done += bool(blocks)
        if [number for number, *_ in blocks] != list(range(1, len(questions) + 1)):
            raise ProgramError(1, f"{self.words[0]} answered {len(blocks)} of {len(questions)} questions: is it gprom?")
        return [Answer(question, head, lines, cut) for question, (_, head, lines, cut) in zip(questions, blocks)]

    def text(self, arguments: Sequence[str], job: Job | None = None) -> str:
        """All that a call prints."""
        printed: list[str] = []
        self._call(arguments, None, job or Job(), printed.append)
        return "\n".join([*printed, ""]) if printed else ""

    def _blocks(self, arguments: Sequence[str], asked: IO[bytes] | None, job: Job, most: Sequence[int | None] | None) -> list[tuple[int, str, tuple[str, ...], int]]:
        """Numbered first lines, each with the lines below it and how many of these were left out. Blocks of questions are counted while they come."""
        reader = _Reader(job if most is not None else None, most or ())
        self._call(arguments, asked, job, reader.take)
        return list(reader.blocks())

    def _call(self, arguments: Sequence[str], asked: IO[bytes] | None, job: Job, take: Callable[[str], None]) -> None:
        """Hands on each line while the program runs. It ends with the job, after its time, or with whoever called."""
        self.calls += 1
        job.check()
        try:
            process = subprocess.Popen([*self.words, *arguments], stdin=asked or subprocess.DEVNULL, stdout=subprocess.PIPE)
        except OSError as error:
            raise ProgramError(2, f"cannot run {self.words[0]}: {error.strerror}") from error
        late = threading.Event()

        def end() -> None:
            late.set()
            process.kill()

        alarm = threading.Timer(self.patience, end)
        alarm.daemon = True
        alarm.start()
        with process:
            job.take(process)
            last: list[str] = []
            try:
                assert process.stdout
                # Lines end at line feeds alone: a text may hold other ends of lines.
                for raw in process.stdout:
                    line = raw.decode("utf-8", "replace").rstrip("\n")
                    last = [*last[-2:], line]
                    take(line)
            except BaseException:
                process.kill()
                raise
            finally:
                alarm.cancel()
        job.check()
        if late.is_set():
            raise ProgramError(8, f"no answer within {self.patience:.0f} seconds")
        # Status 1 says that a line was refused, which is an answer. Above it the output is a message.
        if process.returncode not in (0, 1):
            raise ProgramError(abs(process.returncode), "\n".join(last)[-300:] or f"{self.words[0]} ended with status {process.returncode}")


class _Reader:
    """Takes the lines of numbered blocks, and counts the blocks for who waits. A line that is none is a message of a call that fails."""

    def __init__(self, job: Job | None, most: Sequence[int | None]):
        self._job, self._most = job, most
        self._found: list[tuple[int, str, list[str]]] = []
        self._cut: list[int] = []
        self._strange: str | None = None

    def take(self, line: str) -> None:
        if line.startswith("  ") and self._found:
            at = len(self._found) - 1
            most = self._most[at] if at < len(self._most) else None
            if most is None or len(self._found[at][2]) < most:
                self._found[at][2].append(line[2:])
            else:
                self._cut[at] += 1
            return
        block = _BLOCK.fullmatch(line)
        if not block:
            self._strange = self._strange or line
            return
        # What was under way is whole.
        if self._job and self._found:
            self._job.done += 1
        self._found.append((int(block[1]), block[2], []))
        self._cut.append(0)

    def blocks(self) -> Iterator[tuple[int, str, tuple[str, ...], int]]:
        if self._strange is not None:
            raise ProgramError(1, f"not a numbered line: {self._strange[:200]}")
        for (number, head, lines), cut in zip(self._found, self._cut):
            yield number, head, tuple(lines), cut


def _path(path: Path) -> str:
    """A file whose name begins with a hyphen would be taken for an option."""
    return str(path if path.is_absolute() else Path.cwd() / path)
