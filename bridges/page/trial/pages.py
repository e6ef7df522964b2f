"""Dumps and pages for the test, each made once."""

from __future__ import annotations

import resource
import shlex
import shutil
import subprocess
from collections.abc import Callable
from pathlib import Path

from gprom.program import Program

HERE = Path(__file__).resolve().parent
PAGE = HERE.parent / "page"
EXAMPLES = HERE.parents[2] / "examples"


class Pages:
    def __init__(self, program: Program, folder: Path):
        self.program, self.folder = program, folder
        # The processor time in seconds that each page took, that of the program included.
        self.seconds: dict[str, float] = {}

    def knows_anomalies(self) -> bool:
        """Whether the program has ANOMALIES."""
        return self.program.knows("ANOMALIES")

    def examples(self) -> list[str]:
        return sorted(path.stem for path in EXAMPLES.glob("*.script"))

    def script(self, name: str) -> Path:
        """A script of the test, else an example."""
        own = HERE / f"{name}.script"
        return own if own.exists() else EXAMPLES / f"{name}.script"

    def dump(self, name: str, text: str | None = None) -> Path:
        """The dump of a script: that of the name, or of a text."""
        dump = self.folder / f"{name}.dump"
        if not dump.exists():
            script = self.script(name)
            if text is not None:
                script = self.folder / f"{name}.script"
                script.write_text(text, encoding="utf-8")
            self.program.run(script, dump)
        return dump

    def forged(self, name: str, change: Callable[[str], str]) -> Path:
        """A dump that somebody changed."""
        dump = self.folder / f"forged-{name}.dump"
        dump.write_text(change(self.dump(name).read_text(encoding="utf-8")), encoding="utf-8")
        return dump

    def copy(self, name: str, other: str) -> Path:
        """The dump of a script under another name."""
        dump = self.folder / f"{other}.dump"
        shutil.copy(self.dump(name), dump)
        return dump

    def page(self, dump: Path, *options: str) -> Path:
        """The page of a dump."""
        name = f"{dump.stem}{''.join(options)}"
        page = self.folder / f"{name.replace('/', '_')}.html"
        if not page.exists():
            before = _spent()
            done = self.make(dump, *options)
            assert done.returncode == 0, done.stderr.decode()
            self.seconds[dump.stem] = _spent() - before
            page.write_bytes(done.stdout)
        return page

    def make(self, dump: Path, *options: str) -> subprocess.CompletedProcess[bytes]:
        return subprocess.run([str(PAGE), "--gprom", shlex.join(self.program.words), *options, str(dump)], capture_output=True)


def _spent() -> float:
    """The processor time of all processes that have ended."""
    used = resource.getrusage(resource.RUSAGE_CHILDREN)
    return used.ru_utime + used.ru_stime
