"""A pseudo-terminal with the interactive desk in it."""

from __future__ import annotations

import codecs
import os
import pty
import select
import signal
import tempfile
import time
from pathlib import Path

from browser import MOST_WAITING

DESK = "desk.gpdesk"
# Where is the cursor? A terminal answers.
ASKED, PLACE = "\x1b[6n", b"\x1b[1;1R"


class Terminal:
    """The desk of a file, run by this Python, with a home of its own: questions that others typed are suggested there."""

    def __init__(self, python: str, file: Path):
        self._python, self._file = python, file
        self._out, self._at, self._told = "", 0, 0
        self._decode = codecs.getincrementaldecoder("utf-8")(errors="replace").decode

    def __enter__(self) -> Terminal:
        self._home = tempfile.TemporaryDirectory(prefix="desk-home-")
        self._child, self._terminal = pty.fork()
        if self._child == 0:
            os.environ.update(TERM="xterm", XDG_CACHE_HOME=self._home.name, COLUMNS="120")
            os.execv(self._python, [self._python, "-P", "-B", "-m", DESK, str(self._file)])
        return self

    def __exit__(self, failed: type[BaseException] | None, *_: object) -> None:
        if failed:
            os.kill(self._child, signal.SIGKILL)
        # Who ends waits until what it printed is read.
        while self._read():
            pass
        os.waitpid(self._child, 0)
        os.close(self._terminal)
        self._home.cleanup()

    def type(self, text: str, *expected: str) -> None:
        """Types a text, and waits for what it brings about, in this order."""
        os.write(self._terminal, text.encode())
        for it in expected:
            self.expect(it)

    def expect(self, text: str) -> None:
        """Waits for a text behind what was waited for before."""
        end = time.monotonic() + MOST_WAITING
        while (found := self._out.find(text, self._at)) < 0:
            if time.monotonic() > end or not self._read():
                raise AssertionError(f"{text!r} does not come behind {self._out[:self._at][-200:]!r}: {self._out[self._at:]!r}")
        self._at = found + len(text)

    def _read(self) -> bool:
        """Takes what is printed, if it is soon. False where the desk has ended."""
        if not select.select([self._terminal], [], [], 0.5)[0]:
            return True
        try:
            self._out += self._decode(os.read(self._terminal, 65536))
        except OSError:
            return False
        while self._out.count(ASKED) > self._told:
            self._told += 1
            os.write(self._terminal, PLACE)
        return True
