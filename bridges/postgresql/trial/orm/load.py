"""Threads that use an application beside each other, and two of them that do what is planted."""
import random
import threading
from abc import ABC, abstractmethod
from collections.abc import Callable


class Planted:
    """One of two threads that are to disturb each other."""

    def __init__(self, number: int, barrier: threading.Barrier, turns: list[threading.Event]) -> None:
        self.number, self.barrier, self.turns = number, barrier, turns

    def meet(self) -> None:
        """Waits until the other one has read too."""
        self.barrier.wait(30)

    def turn(self) -> None:
        """The second one goes on when the first one is done: its writes would wait for it."""
        if self.number:
            self.turns[0].wait(30)

    def done(self) -> None:
        """Says that its transaction has ended."""
        self.turns[self.number].set()


class Application(ABC):
    """An application over an ORM."""
    views: list[Callable[[random.Random], None]]

    @abstractmethod
    def definitions(self) -> str:
        """The SQL of its tables, and of their rows before the window."""

    @abstractmethod
    def close(self) -> None:
        """Gives back the connection of this thread."""

    def finish(self) -> None:
        """Gives back all connections."""

    @abstractmethod
    def lost_update(self, planted: Planted) -> None:
        """One of two transactions of which the second overwrites what the first wrote."""

    @abstractmethod
    def write_skew(self, planted: Planted) -> None:
        """One of two transactions that each rely on a row that the other one changes."""


class Worker(threading.Thread):
    """A thread of the application's server: some requests, one after another. One that fails is answered with an error, as usual."""

    def __init__(self, application: Application, work: Callable[[], None]) -> None:
        super().__init__()
        self.application, self.work = application, work
        self.fault: Exception | None = None

    def run(self) -> None:
        try:
            self.work()
        except Exception as fault:                    # pylint: disable=broad-except
            self.fault = fault
        finally:
            self.application.close()


def requests(application: Application, number: int, seed: int, failed: list[str]) -> None:
    """Some requests at random."""
    dice = random.Random(seed)
    for _ in range(number):
        try:
            dice.choice(application.views)(dice)
        except Exception as fault:                    # pylint: disable=broad-except
            failed.append(f'{type(fault).__name__}: {fault}')


def run(application: Application, plant: str, sessions: int, number: int, seed: int) -> list[str]:
    """Uses the application with so many sessions beside the two that are planted. Gives the requests that failed."""
    failed: list[str] = []
    barrier, turns = threading.Barrier(2), [threading.Event(), threading.Event()]
    planted = [Worker(application, lambda at=at: getattr(application, plant)(Planted(at, barrier, turns))) for at in range(2)]
    others = [Worker(application, lambda at=at: requests(application, number, seed * 100 + at, failed)) for at in range(sessions)]
    for worker in [*planted, *others]:
        worker.start()
    for worker in [*planted, *others]:
        worker.join()
    application.finish()
    for worker in planted:
        if worker.fault:
            raise RuntimeError(f'what is planted fails: {worker.fault!r}') from worker.fault
    return failed
