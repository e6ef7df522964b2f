"""What a script is before and after it is run: encodings that the program refuses, what ran on without a refused line, and the run itself."""

from __future__ import annotations

import hashlib
import os
import re
import tempfile
from dataclasses import dataclass
from pathlib import Path

from gprom.client import is_dump, lines_of_script
from gprom.history import Dump, History
from gprom.program import Job, Program, Reply

_SESSION = re.compile(r"\s*s(\d{1,2})\s*:", re.I)
_MARKS = {b"\xff\xfe": "UTF-16", b"\xfe\xff": "UTF-16"}
BOM = b"\xef\xbb\xbf"


class ScriptError(Exception):
    """The script cannot be run, or its dump cannot be put where it was asked for."""


@dataclass(frozen=True)
class Running:
    """The transaction that was under way when a line of its session was refused, and what became of it."""

    transaction: int
    fate: str

    def text(self) -> str:
        became = {"committed": "which then committed without it", "active": "which was left open"}
        return f"It is a line of transaction {self.transaction}, {became.get(self.fate, f'which was {self.fate}')}."


def running_at(text: str, line: int, history: History) -> Running | None:
    """The transaction of the session that a line names, where one was under way."""
    found = _SESSION.match(text)
    if not found:
        return None
    session = int(found[1])
    for it in history.transactions:
        if it.session == session and it.begin_line < line and (it.end_line is None or line < it.end_line):
            return Running(it.number, it.fate)
    return None


def encoding_fault(path: Path) -> str | None:
    """What is wrong with the bytes that a script begins with, in words."""
    with path.open("rb") as file:
        begin = file.read(4096)
    if begin[:2] in _MARKS or (len(begin) > 3 and begin.count(0) * 3 > len(begin)):
        return f"{path.name} is UTF-16: save it as UTF-8, since no line of it can be read"
    if begin.startswith(BOM):
        return f"{path.name} begins with a byte order mark, for which its first line is refused: save it as UTF-8 without a mark"
    return None


@dataclass(frozen=True)
class Run:
    """A script that was run to a dump."""

    script: Path
    dump: Path
    replies: list[Reply]
    history: History
    lines: list[str]

    def refused(self) -> list[Reply]:
        return [reply for reply in self.replies if reply.mistaken]

    def lost(self) -> list[Reply]:
        return [reply for reply in self.replies if reply.lost]

    def left_open(self) -> list[int]:
        return [it.number for it in self.history.transactions if it.fate == "active"]

    def text(self) -> str:
        """The last line: what a history that looks whole may lack."""
        open_ = self.left_open()
        named = f" ({', '.join(map(str, open_[:8]))}{', ..' if len(open_) > 8 else ''})" if open_ else ""
        refused, lost = len(self.refused()), len(self.lost())
        return f"{len(self.replies)} lines, {self.history.last} versions: {refused} refused, {lost} lost, {len(open_)} left open{named}"


def run_script(program: Program, script: Path, dump: Path, job: Job | None = None) -> Run:
    """Runs a script to a dump beside which DUMP.sha256 has the digests of both. No file is replaced but a dump, and that only by a whole one."""
    if not script.exists():
        raise FileNotFoundError(2, "No such file", str(script))
    if is_dump(script):
        raise ScriptError(f"{script} is a dump, and no script")
    target = dump.resolve()
    if target == script.resolve():
        raise ScriptError("the script and the dump are one file")
    if target.exists() and not (target.is_file() and (is_dump(target) or target.stat().st_size == 0)):
        raise ScriptError(f"{dump} is there and is no dump: it is not replaced")
    sums = Path(f"{target}.sha256")
    if sums.exists() and not _are_sums(sums):
        raise ScriptError(f"{sums} is there and has no digests: it is not replaced")
    with tempfile.TemporaryDirectory(prefix=".desk-", dir=target.parent) as folder:
        made = Path(folder) / "made.dump"
        replies = program.run(script, made, job)
        history = Dump.open(made).history
        _write(sums, digests(script, made, target), Path(folder))
        os.replace(made, target)
    return Run(script, dump, replies, history, lines_of_script(script))


def _are_sums(path: Path) -> bool:
    return all(re.fullmatch(r"\\?[0-9a-f]{64}  .+", line) for line in path.read_text(encoding="utf-8", errors="replace").splitlines())


def _write(path: Path, text: str, folder: Path) -> None:
    made = folder / "sums"
    made.write_text(text, encoding="utf-8")
    os.replace(made, path)


def digests(script: Path, made: Path, target: Path) -> str:
    """The digests of script and dump as `sha256sum -c` reads them in the folder of the dump."""
    return "".join(f"{_named(_sha256(data), os.path.relpath(path.resolve(), target.parent))}\n" for data, path in ((script, script), (made, target)))


def _named(digest: str, name: str) -> str:
    """A name with a backslash or a line feed is escaped, and then the line begins with a backslash."""
    escaped = name.replace("\\", "\\\\").replace("\n", "\\n").replace("\r", "\\r")
    return f"{digest}  {name}" if escaped == name else f"\\{digest}  {escaped}"


def recorded(dump: Dump) -> bool | None:
    """Whether the file of digests beside a dump has its digest; None where no such file is there."""
    try:
        text = Path(f"{dump.path.resolve()}.sha256").read_text(encoding="utf-8", errors="replace")
    except OSError:
        return None
    names = (line.lstrip("\\").partition("  ") for line in text.splitlines())
    found = [digest for digest, _, name in names if Path(name.replace("\\\\", "\\")).name == dump.path.resolve().name]
    return dump.sha256 in found if found else None


def _sha256(path: Path) -> str:
    return hashlib.sha256(path.read_bytes()).hexdigest()
