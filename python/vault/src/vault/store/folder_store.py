"""A store in a folder, on a disk of this machine or on a share."""

import contextlib
import errno
import os
import re
import stat
import time
from pathlib import Path
from typing import IO, Any, Callable, Iterator, List, Optional, Sequence, TypeVar

from vault.errors import MisusedError
from vault.files.system import replace, set_writable, sync_folder
from vault.files.text import why
from vault.files.transfer import Meter, Moved, Own, copy_through_hash, hash_of, steady
from vault.store.address import FolderAddress
from vault.store.base import (
    GOING, MARK, MARK_NAME, Kept, MissingError, StoreAwayError, StoreFaultError, WrongBytesError, aside_of, compare, place_of, unsafe_name)

INCOMING = "incoming"
OWN = ("sha256", INCOMING, GOING, "lost+found")
CAME = re.compile(r"[0-9a-f]{32}")
Found = TypeVar("Found")


class FolderStore:
    """Bytes come in under a name of their own, are put on disk, and only then get the name by which they are found."""

    def __init__(self, address: FolderAddress):
        self.address, self.folder = address.text, address.folder

    def prepare(self) -> None:
        """Makes the store in a new or an empty folder."""
        try:
            with contextlib.suppress(FileExistsError):
                self.folder.mkdir()
            if not self._is_marked():
                if any(path.name not in OWN and not self._is_piece_of_mark(path) for path in self.folder.iterdir()):
                    raise MisusedError(f"{self.folder} has files, but is no store. Name a new folder, or an empty one.")
                self._write_mark()
            trial = self._new_file()
            os.unlink(trial.name)
            trial.close()
        except OSError as error:
            raise self._fault(error) from error

    def add(self, source: Path, meter: Meter, follow: bool = True) -> Kept:
        """Copies a file into the store while it is hashed. If its bytes are there already, they are read through and made young."""
        with steady(source, follow) as opened, meter(source.name, os.fstat(opened.fileno()).st_size) as moved:
            return self.take_in(opened, moved)

    def take_in(self, source: Any, moved: Moved) -> Kept:
        """The same of bytes that are read by `readinto`, as they come. If that raises, nothing of them is left."""
        self._look()
        try:
            file = self._new_file()
            with file, taken_away_again(Path(file.name)):
                kept = Kept(*copy_through_hash(source, file, moved), time.time())
                if not self._is_there(kept):
                    file.flush()
                    os.fsync(file.fileno())
                    self._give_name(file, kept)
        except OSError as error:
            raise self._fault(error) from error
        return kept

    def find(self, sha256: str) -> Optional[Kept]:
        """What the store has under a name."""
        try:
            return kept_as(sha256, self._at_place(sha256, os.stat))
        except FileNotFoundError:
            self._look()
            return None
        except OSError as error:
            raise self._fault(error) from error

    def fetch(self, sha256: str, size: int, target: Own, meter: Meter) -> None:
        """Writes bytes into a file while they are hashed."""
        kept = self.find(sha256)
        if kept is None:
            raise MissingError()
        compare(sha256, size, sha256, kept.size)
        try:
            with self._at_place(sha256, opened) as source, meter(sha256[:12], size) as moved:
                compare(sha256, size, *copy_through_hash(source, target, moved, size))
        except OSError as error:
            raise self._fault(error) from error

    def all(self) -> Iterator[Kept]:
        """All that the store has, folder by folder."""
        self._look()
        try:
            for path in sorted(self.folder.glob("sha256/??/??/*")):
                if not unsafe_name(path.name):
                    kept = self.find(path.name)
                    if kept is not None:
                        yield kept
        except OSError as error:
            raise self._fault(error) from error

    def going(self) -> Iterator[Kept]:
        """What a sweep set aside."""
        folder = self.folder / GOING
        try:
            for name in sorted(os.listdir(folder)) if folder.is_dir() and not folder.is_symlink() else []:
                if not unsafe_name(name):
                    with contextlib.suppress(FileNotFoundError):
                        yield kept_as(name, os.stat(folder / name))
        except OSError as error:
            raise self._fault(error) from error

    def set_aside(self, kept: Kept, before: float) -> bool:
        """Moves bytes that are still older than that out of their place. If they became young on the way, they are moved back."""
        path, aside = self._path(kept.sha256), self._aside(kept.sha256)
        try:
            found = os.stat(path)
            if found.st_mtime >= before:
                return False
            if stat.S_ISDIR(found.st_mode):
                raise IsADirectoryError(errno.EISDIR, os.strerror(errno.EISDIR))
            self._own_folder(GOING)
            os.replace(path, aside)
            young = os.stat(aside).st_mtime >= before
        except FileNotFoundError:
            return False
        except OSError as error:
            raise unremoved(path, error) from error
        return not (young and self.bring_back(kept.sha256))

    def bring_back(self, sha256: str) -> bool:
        """Moves what a sweep set aside back into its place, makes it young, and puts that on disk."""
        path, aside = self._path(sha256), self._aside(sha256)
        try:
            if aside.parent.is_symlink() or not os.path.lexists(aside):
                return False
            self._make_above(path)
            os.replace(aside, path)
            with contextlib.suppress(PermissionError):
                os.utime(path)
            self._sync_above(path)
        except FileNotFoundError:
            return False
        except OSError as error:
            raise self._fault(error) from error
        return True

    def remove(self, kept: Kept) -> bool:
        """Removes what was set aside, unless it is gone from there."""
        aside = self._aside(kept.sha256)
        try:
            os.unlink(aside)
        except FileNotFoundError:
            return False
        except OSError as error:
            raise unremoved(aside, error) from error
        return True

    def leftovers(self, before: float) -> int:
        """Removes what killed clients left under names of their own; of what can't be removed it names one, behind all others."""
        removed, refused = 0, None
        incoming = self.folder / INCOMING
        for path in list(incoming.iterdir()) if incoming.is_dir() and not incoming.is_symlink() else []:
            try:
                if CAME.fullmatch(path.name) and path.lstat().st_mtime < before:
                    path.unlink()
                    removed += 1
            except FileNotFoundError:
                continue
            except OSError as error:
                refused = unremoved(path, error)
        if refused is not None:
            raise refused
        return removed

    def lacking(self, wanted: Sequence[Kept]) -> List[Kept]:
        """Those of some bytes that the store hasn't of that size."""
        return [kept for kept in wanted if (there := self.find(kept.sha256)) is None or there.size != kept.size]

    def near(self, folder: Path) -> bool:
        """Whether the store is on the disk of a folder, or of what that will stand in."""
        above = next(path for path in (folder, *folder.parents) if path.exists())
        with contextlib.suppress(OSError):
            return self.folder.stat().st_dev == above.stat().st_dev
        return False

    # How it is done.

    def _path(self, sha256: str) -> Path:
        return self.folder / place_of(sha256)

    def _aside(self, sha256: str) -> Path:
        return self.folder / aside_of(sha256)

    def _at_place(self, sha256: str, look: Callable[[Path], Found]) -> Found:
        """Looks at bytes in their place, into which what a sweep set aside is brought back. Who may not do that looks at it where it lies."""
        with contextlib.suppress(FileNotFoundError):
            return look(self._path(sha256))
        with contextlib.suppress(StoreFaultError):
            self.bring_back(sha256)
        with contextlib.suppress(FileNotFoundError):
            if not (self.folder / GOING).is_symlink():
                return look(self._aside(sha256))
        return look(self._path(sha256))

    def _is_marked(self) -> bool:
        try:
            return (self.folder / MARK_NAME).read_bytes() == MARK
        except FileNotFoundError:
            return False

    @staticmethod
    def _is_piece_of_mark(path: Path) -> bool:
        """Whether a file is a mark that was not written to its end, as on a disk that was full; it may be empty."""
        is_file = path.name == MARK_NAME and not path.is_symlink() and path.is_file()
        return is_file and path.stat().st_size < len(MARK) and MARK.startswith(path.read_bytes())

    def _look(self) -> None:
        """Refuses a folder that isn't the store: if a disk isn't mounted, an empty folder may stand in its place."""
        try:
            marked = self._is_marked()
        except OSError as error:
            raise self._fault(error) from error
        if not marked:
            raise StoreAwayError(f"The store {self.address} is not there: {self.folder} has no file {MARK_NAME}. Mount its disk or its share,"
                                 " or ask whoever runs the vault.")

    def _write_mark(self) -> None:
        """Writes the mark, whole or not at all."""
        with self._new_file() as file, taken_away_again(Path(file.name)):
            file.write(MARK)
            file.flush()
            os.fsync(file.fileno())
            file.close()
            replace(Path(file.name), self.folder / MARK_NAME)
        sync_folder(self.folder)

    def _new_file(self) -> IO[bytes]:
        """A new file under a name of its own."""
        return open(self._own_folder(INCOMING) / os.urandom(16).hex(), "xb")

    def _own_folder(self, name: str) -> Path:
        """A folder of the store's own. Where it is missing it is made, with the rights of the store's folder: who may write there may here."""
        folder = self.folder / name
        if folder.is_symlink():
            raise StoreFaultError(f"The store {self.address} has a link in the place of its folder {name}, so nothing was done. Ask whoever runs it.")
        self._make_folder(folder)
        return folder

    def _make_above(self, path: Path) -> None:
        """Makes the folders in which bytes have their place, where they are missing."""
        for folder in (path.parent.parent.parent, path.parent.parent, path.parent):
            self._make_folder(folder)

    def _make_folder(self, folder: Path) -> None:
        """Makes a folder where it is missing, with the rights of the store's folder, whatever this designer's own files have: who may write there
        may here."""
        if not folder.is_dir():
            folder.mkdir(exist_ok=True)
            with contextlib.suppress(PermissionError):
                folder.chmod(stat.S_IMODE(self.folder.stat().st_mode))

    def _is_there(self, kept: Kept) -> bool:
        """Whether bytes are there. If so, they are read through and made young, so that no sweep takes them. If they are in another
        user's file, whose time can't be changed, they count as missing: the same bytes then replace that file."""
        path, there = self._path(kept.sha256), self.find(kept.sha256)
        if there is None:
            return False
        try:
            compare(kept.sha256, kept.size, kept.sha256, there.size)
            compare(kept.sha256, kept.size, *hash_of(path))
            os.utime(path)
        except (FileNotFoundError, PermissionError):
            return False
        except WrongBytesError as wrong:
            raise StoreFaultError(f"The store {self.address} has damaged bytes under {place_of(kept.sha256)}: {wrong}. Nothing was put. Whoever"
                                  " runs the store has to take that file away; then put again.") from wrong
        self._sync_above(path)
        return True

    def _give_name(self, file: IO[bytes], kept: Kept) -> None:
        """Gives bytes that are on disk the name by which they are found, and puts that on disk, too."""
        path = self._path(kept.sha256)
        self._make_above(path)
        file.close()
        set_writable(Path(file.name), False)
        replace(Path(file.name), path)
        self._sync_above(path)

    def _sync_above(self, path: Path) -> None:
        for folder in (path.parent, path.parent.parent, path.parent.parent.parent, self.folder):
            sync_folder(folder)

    def _fault(self, error: OSError) -> StoreFaultError:
        """Why the system refused something."""
        if error.errno in (errno.ENOSPC, errno.EDQUOT, errno.EFBIG):
            advice = "Make room there, and try again"
        elif error.errno in (errno.EROFS, errno.EACCES, errno.EPERM):
            advice = "Ask whoever runs it for the right to write and to read there"
        else:
            advice = "Ask whoever runs it"
        return StoreFaultError(f"The store {self.address} can't be used: {why(error)}. {advice}; no version was made of it.")


@contextlib.contextmanager
def taken_away_again(path: Path) -> Iterator[None]:
    """A file that is gone afterwards in any case, unless it has another name by then."""
    try:
        yield
    finally:
        with contextlib.suppress(OSError):
            os.unlink(path)


def kept_as(sha256: str, found: os.stat_result) -> Kept:
    """What the store has under a name, by what the system says of it."""
    return Kept(sha256, found.st_size if stat.S_ISREG(found.st_mode) else -1, found.st_mtime)


def opened(path: Path) -> IO[bytes]:
    """A file of the store, to be read."""
    return open(path, "rb", buffering=0)


def unremoved(path: Path, error: OSError) -> StoreFaultError:
    """Why a file stays that was to go."""
    return StoreFaultError(f"{path} can't be removed: {why(error)}. Look at the owner and the mode of its folder.")
