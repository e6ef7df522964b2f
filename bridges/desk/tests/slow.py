"""Programs that are slow where a test wants it: one that takes an hour for CAUSES, so that a test sees whether anybody ends it, and one that waits for the test."""

from __future__ import annotations

import threading
from collections.abc import Sequence
from pathlib import Path

from gprom.program import Answer, Job, Program, Stopped

# Longer than any test waits.
HOUR = 3600.0


def endless(patience: float = HOUR) -> Program:
    """A program that answers nothing."""
    return Program(["/bin/sh", "-c", f"exec sleep {HOUR:.0f}", "sh"], patience)


class Slow(Program):
    """`begun` is set when a slow call began, `ended` when it was ended."""

    def __init__(self, words: Sequence[str]):
        super().__init__(words)
        self.begun, self.ended = threading.Event(), threading.Event()

    def ask(self, dump: Path, questions: Sequence[str], job: Job | None = None, most: Sequence[int | None] = ()) -> list[Answer]:
        if not any(it.startswith("CAUSES") for it in questions):
            return super().ask(dump, questions, job, most)
        self.begun.set()
        try:
            return endless().ask(dump, questions, job)
        except Stopped:
            self.ended.set()
            raise


class Held(Program):
    """Answers a call that has the question `held` only after `release`."""

    def __init__(self, words: Sequence[str], held: str):
        super().__init__(words)
        self._held, self._released = held, threading.Event()

    def release(self) -> None:
        self._released.set()

    def ask(self, dump: Path, questions: Sequence[str], job: Job | None = None, most: Sequence[int | None] = ()) -> list[Answer]:
        while self._held in questions and not self._released.wait(0.1):
            if job:
                job.check()
        return super().ask(dump, questions, job, most)
