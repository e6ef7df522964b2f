"""What a terminal shows while a call takes long: the seconds, and how many questions are answered. Ctrl-C ends the call."""

from __future__ import annotations

import sys
import threading
from collections.abc import Iterator
from contextlib import contextmanager

from gprom.client import Client
from gprom.program import Job

# After so many seconds something is said.
PATIENCE = 1.0
CLEAR = "\r\x1b[K"


@contextmanager
def waiting(client: Client) -> Iterator[Job]:
    """All that is asked meanwhile is one job, whose progress a terminal shows on the standard error."""
    job, over = Job(), threading.Event()

    def show() -> None:
        said = False
        while not over.wait(0.5):
            if job.seconds > PATIENCE:
                said = True
                print(f"{CLEAR}{job.seconds:.0f} s" + (f", {job.done} of {job.total} answered" if job.total > 1 else ""), end="", file=sys.stderr, flush=True)
        if said:
            print(CLEAR, end="", file=sys.stderr, flush=True)

    teller = threading.Thread(target=show, daemon=True) if sys.stderr.isatty() else None
    if teller:
        teller.start()
    try:
        with client.waiting(job):
            yield job
    finally:
        over.set()
        if teller:
            teller.join()
