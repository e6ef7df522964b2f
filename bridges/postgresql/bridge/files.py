"""Files of a user as streams of bytes: one, or several one behind another, each of which may be packed by gzip."""
import gzip
import io
import os
from collections.abc import Callable, Iterator
from contextlib import contextmanager
from typing import IO, cast

BLOCK = 1 << 22
PACKED = b'\x1f\x8b'              # how a file of gzip begins


class Names(tuple[str, ...]):
    """The names of several files, which are read as one."""

    def __str__(self) -> str:
        return ' '.join(self)


class Watched(io.RawIOBase):
    """A stream whose reader is told how far it is: the name, and the bytes that were read and those that there are, packed ones as they lie there."""

    def __init__(self, stream: IO[bytes], name: str, tell: Callable[[str, int, int], None], done: int) -> None:
        self.stream, self.name, self.tell_how_far, self.done = stream, name, tell, done
        self.size = sum(map(os.path.getsize, name.split(' ') if not os.path.exists(name) else [name]))

    def readable(self) -> bool:
        return True

    def readinto(self, buffer: bytearray) -> int:                         # type: ignore[override]
        block = self.stream.read(len(buffer))
        buffer[:len(block)] = block
        self.done += len(block)
        self.tell_how_far(self.name, self.done, self.size)
        return len(block)


class Watch:
    """Who is told how far files are read, if anybody is."""
    tell: Callable[[str, int, int], None] | None = None


class Joined(io.RawIOBase):
    """Files one behind another. They are opened one by one, and not sought in."""

    def __init__(self, names: tuple[str, ...]) -> None:
        self.waiting = list(names)
        self.part: IO[bytes] | None = None

    def readable(self) -> bool:
        return True

    def readinto(self, buffer: bytearray) -> int:                         # type: ignore[override]
        while self.part is not None or self.waiting:
            if self.part is None:
                self.part = one(self.waiting.pop(0))
            block = self.part.read(len(buffer))
            if block:
                buffer[:len(block)] = block
                return len(block)
            self.part.close()
            self.part = None
        return 0

    def close(self) -> None:
        if self.part is not None:
            self.part.close()
        super().close()


def one(name: str) -> IO[bytes]:
    """A file, unpacked if it is packed."""
    with open(name, 'rb') as opened:
        is_packed = opened.read(len(PACKED)) == PACKED
    return cast(IO[bytes], gzip.open(name)) if is_packed else open(name, 'rb')


@contextmanager
def opened(name: str | Names, offset: int = 0) -> Iterator[IO[bytes]]:
    """A file or several, from this place on."""
    stream: IO[bytes] = io.BufferedReader(Joined(name), BLOCK) if isinstance(name, Names) else one(name)
    with stream:
        if isinstance(name, Names):
            while offset and (block := stream.read(min(BLOCK, offset))):
                offset -= len(block)
        else:
            stream.seek(offset)
        watched = Watch.tell and io.BufferedReader(Watched(stream, str(name), Watch.tell, offset), BLOCK)
        yield watched or stream


def names(given: list[str]) -> str | Names:
    """One name, or several."""
    return given[0] if len(given) == 1 else Names(given)
