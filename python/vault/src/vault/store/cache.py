"""Bytes that were fetched, kept for the next time if the store is on another disk. They are compared with their name on each use, and
the oldest give way if there are too many."""

import contextlib
import os
from pathlib import Path
from typing import Any, Iterator, List, Optional, Tuple

from vault.errors import MisusedError
from vault.files.transfer import Meter, Own, copy_through_hash
from vault.files.whole import new_file
from vault.store.base import Store, WrongBytesError, compare

MAX_BYTES = 1 << 30
PART_OF_ALL = 4


class Cache:
    """A folder of bytes by their SHA-256. Whatever goes wrong with it only costs time."""

    def __init__(self, folder: Path, most: int = MAX_BYTES):
        self.folder, self.most = folder, most
        self.size: Optional[int] = None

    def fetch(self, store: Store, sha256: str, size: int, target: Own, meter: Meter) -> None:
        """Writes bytes into a file, from here if they are here, and else from the store."""
        if self.most == 0 or size * PART_OF_ALL > self.most or store.near(self.folder):
            store.fetch(sha256, size, target, meter)
        elif not self._take(sha256, size, target, meter):
            with self._beside() as beside:
                store.fetch(sha256, size, Own(Both(target, beside), target.name), meter)
                self._keep(beside, sha256, size)

    def _take(self, sha256: str, size: int, target: Own, meter: Meter) -> bool:
        """Whether bytes are here, and were written. Those that don't match their name are removed."""
        path = self.folder / sha256
        try:
            with open(path, "rb", buffering=0) as source, meter(sha256[:12], size) as moved:
                compare(sha256, size, *copy_through_hash(source, target, moved))
        except OSError:
            target.begin_again()
            return False
        except WrongBytesError:
            target.begin_again()
            with contextlib.suppress(OSError):
                path.unlink()
            return False
        with contextlib.suppress(OSError):
            os.utime(path)
        return True

    @contextlib.contextmanager
    def _beside(self) -> Iterator[Any]:
        """A new file here, or nothing if there can be none; it is gone afterwards."""
        open_files, file = contextlib.ExitStack(), None
        with contextlib.suppress(OSError):
            self.folder.mkdir(mode=0o700, parents=True, exist_ok=True)
            file = open_files.enter_context(new_file(self.folder, "new-"))
        try:
            yield file
        finally:
            with contextlib.suppress(OSError):
                open_files.close()

    def _keep(self, file: Any, sha256: str, size: int) -> None:
        """Gives bytes their name here, and makes room for them."""
        with contextlib.suppress(OSError):
            if file is not None:
                file.flush()
                if os.fstat(file.fileno()).st_size == size:
                    self._make_room(size)
                    file.close()
                    os.replace(file.name, self.folder / sha256)

    def _make_room(self, size: int) -> None:
        """Removes the oldest if there would be too many, down to three quarters of what there may be."""
        if self.size is None:
            self.size = sum(each[1] for each in self._kept())
        self.size += size
        if self.size <= self.most:
            return
        for _, length, path in sorted(self._kept()):
            if self.size <= self.most * 3 // PART_OF_ALL:
                return
            path.unlink()
            self.size -= length

    def _kept(self) -> List[Tuple[float, int, Path]]:
        """All that is here, with its time and its size; what a killed client left among it."""
        return [(seen.st_mtime, seen.st_size, Path(entry.path)) for entry in os.scandir(self.folder) if (seen := entry.stat(follow_symlinks=False))]


class Both:
    """A file, and one beside it that may fail: then it is left as it is."""

    def __init__(self, target: Own, beside: Any):
        self.target, self.beside = target, beside

    def write(self, piece: Any) -> None:
        """Writes bytes to both."""
        self.target.write(piece)
        if self.beside is not None:
            try:
                self.beside.write(piece)
            except OSError:
                self.beside = None


def most_bytes(word: Optional[str]) -> int:
    """How many bytes may be kept, by the word that says so."""
    if word is None:
        return MAX_BYTES
    if not word.isascii() or not word.isdigit():
        raise MisusedError(f"VAULT_CACHE_BYTES is {word!a}, and has to be a number of bytes. 0 keeps none.")
    return int(word)
