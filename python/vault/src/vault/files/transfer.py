"""Bytes on their way between files, always through their SHA-256."""

import itertools
import os
import stat
import time
from contextlib import AbstractContextManager, ExitStack, contextmanager
from pathlib import Path
from typing import TYPE_CHECKING, Any, Callable, Iterator, NamedTuple, Optional, Tuple

from vault.errors import MisusedError, VaultError
from vault.files.hashes import new_hash
from vault.files.looks import same, wait_until_sure
from vault.files.system import AT_ONCE, NO_LINK_FOLLOWED

if TYPE_CHECKING:
    from concurrent.futures import Future, ThreadPoolExecutor

FIRST_PIECE, PIECE = 1 << 16, 1 << 20
# From which piece on a file is long.
LONG = 2
TRIES = 3
Moved = Callable[[int], None]
# A meter shows how far something is. It is given what it is and how many bytes it has, and, while it stands, how many more were moved.
Meter = Callable[[str, int], "AbstractContextManager[Moved]"]


class UnreadError(MisusedError):
    """A file of the designer's can't be read to its end as it is."""


class ChangedNowError(VaultError):
    """A file is changed at this moment."""


@contextmanager
def no_meter(_what: str, _size: int) -> Iterator[Moved]:
    """Shows nothing."""
    yield lambda _bytes: None


def copy_through_hash(source: Any, target: Any, moved: Moved, most: Optional[int] = None) -> Tuple[str, int]:
    """Copies bytes from an unbuffered file to the end, and answers their SHA-256 and how many they are. Of a source that has more than it may
    have, the piece that shows this is the last one. Of a long one, a piece is hashed while it is written, and the next one is read."""
    digest, size = new_hash(), 0
    with ExitStack() as pools:
        beside: Optional["ThreadPoolExecutor"] = None
        hashed: Optional["Future[None]"] = None
        for number, piece in enumerate(room()):
            length = source.readinto(piece)
            if hashed is not None:
                hashed.result()
            if not length:
                return digest.hexdigest(), size
            if number < LONG:
                digest.update(piece[:length])
            else:
                beside = beside or pools.enter_context(one_thread())
                hashed = beside.submit(digest.update, piece[:length])
            target.write(piece[:length])
            size += length
            moved(length)
            if most is not None and size > most:
                if hashed is not None:
                    hashed.result()
                return digest.hexdigest(), size
    raise AssertionError("there is always room")


def room() -> Iterator[memoryview]:
    """Room for one piece after the other: little for the first, since to make much takes longer than to read a short file, and then by turns."""
    yield memoryview(bytearray(FIRST_PIECE))
    one = memoryview(bytearray(PIECE))
    yield one
    yield from itertools.cycle((memoryview(bytearray(PIECE)), one))


def one_thread() -> "ThreadPoolExecutor":
    """A thread that does something beside. The library is loaded once there is something: most files are short."""
    from concurrent.futures import ThreadPoolExecutor
    return ThreadPoolExecutor(1)


class Nowhere:
    """A file that keeps nothing, for bytes that are only to be hashed."""

    @staticmethod
    def write(_piece: memoryview) -> None:
        """Keeps nothing."""


class Whole:
    """A pipe that may take a part of what is written; all of it is written."""

    def __init__(self, pipe: Any):
        self.pipe = pipe

    def write(self, piece: memoryview) -> None:
        """Writes all bytes."""
        while piece:
            piece = piece[self.pipe.write(piece):]


def hash_of(path: Path, moved: Moved = lambda _bytes: None) -> Tuple[str, int]:
    """The SHA-256 of a file and its size."""
    with open(path, "rb", buffering=0) as source:
        return copy_through_hash(source, Nowhere(), moved)


class Read(NamedTuple):
    """What was read of a file, how it looked before and behind, and when it was looked at first."""

    sha256: str
    seen: os.stat_result
    looked: int


def read(path: Path) -> Read:
    """Reads a file through its hash, until that looks the same before and behind."""
    for _ in range(TRIES):
        looked, before = time.time_ns(), os.lstat(path)
        sha256, size = hash_of(path)
        if same(before, os.lstat(path)) and size == before.st_size:
            return Read(sha256, before, looked)
    raise ChangedNowError(f"{path} is changed at this moment. Save it, and say this again.")


class Own:
    """A file of the designer's own, whose faults are reported as such, and not as the store's."""

    def __init__(self, file: Any, name: str):
        self.file, self.name = file, name

    def fileno(self) -> int:
        """The file's descriptor."""
        return int(self.file.fileno())

    def readinto(self, piece: memoryview) -> int:
        """Reads some bytes."""
        try:
            return int(self.file.readinto(piece) or 0)
        except OSError as error:
            raise UnreadError(f"The file {self.name} can't be read: {error.strerror}.") from error

    def begin_again(self) -> None:
        """Drops what was written."""
        self.file.seek(0)
        self.file.truncate()

    def write(self, piece: Any) -> None:
        """Writes all bytes."""
        try:
            self.file.write(piece)
        except OSError as error:
            raise VaultError(f"{self.name} can't be written: {error.strerror}. Make room, and try again.") from error


@contextmanager
def steady(path: Path, follow: bool = True) -> Iterator[Own]:
    """A file to be read from its start to its end. If it changes meanwhile, that is an error. A link is followed only if asked."""
    try:
        if not follow and path.is_symlink():
            raise UnreadError(f"{path} is a link, and is not followed. Put the file that it leads to in its place.")
        descriptor = os.open(path, os.O_RDONLY | AT_ONCE | (0 if follow else NO_LINK_FOLLOWED))
    except OSError as error:
        raise UnreadError(f"The file {path} can't be read: {error.strerror}.") from error
    before = os.fstat(descriptor)
    if not stat.S_ISREG(before.st_mode):
        os.close(descriptor)
        raise UnreadError(f"{path} is no file that can be put: it is a folder, a device or the like.")
    with open(descriptor, "rb", buffering=0) as file:
        wait_until_sure(before)
        before = os.fstat(descriptor)
        yield Own(file, str(path))
        if not same(before, os.fstat(descriptor)):
            raise UnreadError(f"{path} was changed while it was read, so nothing was put. Save it, and put it again.")


@contextmanager
def given(moved: Moved) -> Iterator[Moved]:
    """A meter that runs already."""
    yield moved
