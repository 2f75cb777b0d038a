"""The files of a working folder on its disk. None is ever written over: one that gives way to a newer version is moved aside, at the same moment
at which the new one gets its name.
"""

import contextlib
import errno
import os
import stat
import time
from pathlib import Path
from typing import IO, Iterator, List, Optional

from vault.errors import MisusedError
from vault.files.looks import COARSE, same, same_bytes, unsure
from vault.files.system import exchange, is_writable, patiently, set_writable
from vault.files.transfer import ChangedNowError, read
from vault.files.whole import TakenError, end, give_new_name, new_file
from vault.working.before import BEFORE, Before, is_swap, kept_in, name_for, remove_swap, swap_name
from vault.working.days import DAY_SECONDS
from vault.working.remembered import OWN, Entry, Remembered

# How far in the past the time of a new file is set, so that whoever changes it changes that, too.
EARLIER = 2 * COARSE


class Disk(Remembered):
    """The files of a working folder."""

    def make_folder(self, name: str) -> None:
        """Makes the folder of an assembly."""
        path = self.at(name)
        if path.is_symlink() or (path.exists() and not path.is_dir()):
            raise MisusedError(f"{path} is in the way of an assembly's folder. Move it away.")
        if not path.is_dir():
            path.mkdir(exist_ok=True)
            self.unsynced.add(path.parent)
        self._real(path)

    def is_changed(self, name: str) -> bool:
        """Whether a file isn't as it is remembered, or is changed at this moment. One that is missing isn't changed; one that is a link or a
        folder is."""
        entry, seen = self.files[name], self.seen(name)
        if seen is None:
            return False
        if not stat.S_ISREG(seen.st_mode) or (entry.size >= 0 and seen.st_size != entry.size):
            return True
        same = entry.size >= 0 and (seen.st_mtime_ns, seen.st_ctime_ns) == (entry.time, entry.set_at)
        if same and seen.st_mtime_ns + unsure(seen.st_mtime_ns) < entry.looked:
            return False
        try:
            found = read(self.at(name))
        except (ChangedNowError, FileNotFoundError):
            return True
        if found.sha256 != entry.sha256:
            return True
        self.remember_look(name, found.seen, found.looked)
        return False

    def seen(self, name: str) -> Optional[os.stat_result]:
        """How a file looks, or nothing if it isn't there."""
        try:
            return os.lstat(self.to_read(name))
        except FileNotFoundError:
            return None

    def to_read(self, name: str) -> str:
        """The path of a file that is only looked at or read. That there is no link on the way to its folder is looked at once: what writes there
        looks again."""
        above = name.rpartition("/")[0]
        if above not in self.looked_at:
            self.at(name)
            self.looked_at.add(above)
        return f"{self.path}/{name}"

    def set_writable(self, name: str, writable: bool) -> bool:
        """Makes a file writable, or one that isn't changed here read-only, and goes on knowing that it isn't changed. Whether it did."""
        try:
            before = os.lstat(f"{self.path}/{name}")
        except OSError:
            return False
        if not stat.S_ISREG(before.st_mode) or is_writable(before.st_mode) == writable:
            return False
        path, entry = self.at(name), self.files[name]
        known = entry.size >= 0 and (entry.size, entry.time, entry.set_at) == (before.st_size, before.st_mtime_ns, before.st_ctime_ns)
        if not (known or writable):
            return False
        set_writable(path, writable)
        after = self.seen(name)
        if known and after is not None and same_bytes(before, after):
            entry.set_at = after.st_ctime_ns
        return True

    def looks_as(self, name: str, before: os.stat_result) -> bool:
        """Whether a file still looks as it did before."""
        now = self.seen(name)
        return now is not None and same(now, before)

    @contextlib.contextmanager
    def new_file(self, name: str) -> Iterator[IO[bytes]]:
        """A file under a name of its own, on the disk of a file that it is to become; it is gone afterwards, unless it has that name."""
        with new_file(self._own_beside(self.at(name).parent), "new-") as file:
            yield file

    def bring(self, came: Path, name: str, entry: Entry, before: Optional[os.stat_result], covered: bool) -> None:
        """Gives a new file, which is on disk, its name, and remembers it. What stands there, and looks as it did before, is moved aside; if it
        looks otherwise, or something came in between, that stays, and nothing is brought. The new file's time is a little in the past, so that
        whoever changes it changes that, too."""
        path = self.at(name)
        earlier = time.time_ns() - EARLIER
        os.utime(came, ns=(earlier, earlier))
        if not (covered or self.writable):
            set_writable(came, False)
        brought = os.lstat(came)
        if before is None:
            self._name_new(came, path, brought)
        else:
            self._put_in_place(came, name, before, brought)
        self.files[name] = entry
        self._remember_if_same(name, path, brought)

    def _put_in_place(self, came: Path, name: str, before: os.stat_result, brought: os.stat_result) -> None:
        """Has a new file and the one in its place change their names at once, and moves that one aside. If a save turns out to have come in
        between, it gets its name back. Where two files can't change their names, the old one is moved aside first."""
        path, entry = self.at(name), self.files[name]
        if not self.looks_as(name, before):
            raise ChangedNowError(f"{path} was changed right now, and is left as it is.")
        folder = self._before_folder(entry.place, self._own_beside(path.parent))
        swap = folder / swap_name(brought)
        os.rename(came, swap)
        try:
            if not exchange(swap, path):
                aside = self.move_aside(name, before)
                self._name_or_back(swap, path, brought, aside)
                return
            if same_bytes(os.lstat(swap), before):
                self._keep(swap, entry, before)
                return
            exchange(swap, path)
            if os.lstat(swap).st_ino != brought.st_ino:  # a save came for that name once more
                exchange(swap, path)
                self._keep(swap, entry, os.lstat(swap))
            raise ChangedNowError(f"{path} was changed right now, and is left as it is.")
        finally:
            remove_swap(swap)
            self.unsynced |= {path.parent, folder}

    def _name_or_back(self, came: Path, path: Path, brought: os.stat_result, aside: Before) -> None:
        """Gives a new file its name. If that can't be, the one that was moved aside gets its name back, unless something else has it by then."""
        try:
            self._name_new(came, path, brought)
        except BaseException:
            with contextlib.suppress(TakenError, OSError):
                give_new_name(aside.path, path)
                self.moved_aside.remove(aside)
            raise

    def _name_new(self, came: Path, path: Path, brought: os.stat_result) -> None:
        """Gives a new file a name that nothing has."""
        try:
            self._name(came, path, brought)
        except TakenError as error:
            raise ChangedNowError(f"{path} was made anew right now, and is left as it is.") from error

    def _name(self, came: Path, path: Path, brought: os.stat_result) -> None:
        """Gives a new file its name. If that turns out to be on another mount, the file is copied there first."""
        self.unsynced.add(path.parent)
        try:
            give_new_name(came, path)
        except OSError as error:
            if error.errno != errno.EXDEV:
                raise
            import shutil
            self.apart.add(path.parent)
            with new_file(self._own_beside(path.parent), "new-") as file, open(came, "rb") as source:
                shutil.copyfileobj(source, file)
                copied = end(file)
                os.utime(copied, ns=(brought.st_mtime_ns, brought.st_mtime_ns))
                set_writable(copied, is_writable(brought.st_mode))
                give_new_name(copied, path)

    def _remember_if_same(self, name: str, path: Path, brought: os.stat_result) -> None:
        """Remembers how a file looks that was just brought, if nobody has saved it since."""
        looked = time.time_ns()
        with contextlib.suppress(FileNotFoundError):
            seen = os.lstat(path)
            if (seen.st_size, seen.st_mtime_ns) == (brought.st_size, brought.st_mtime_ns):
                self.remember_look(name, seen, looked)

    def move_aside(self, name: str, before: os.stat_result) -> Before:
        """Moves a file aside that looks as it did before, and keeps it there for some days. If it turns out to look otherwise, it gets its name
        back."""
        path, entry = self.at(name), self.files[name]
        if not self.looks_as(name, before):
            raise ChangedNowError(f"{path} was changed right now, and is left as it is.")
        try:
            aside = self._keep(path, entry, before)
        except OSError as error:
            if error.errno != errno.EXDEV:
                raise
            self.apart.add(path.parent)
            aside = self._keep(path, entry, before)
        if not same_bytes(os.lstat(aside.path), before):
            with contextlib.suppress(TakenError):
                give_new_name(aside.path, path)
                self.moved_aside.remove(aside)
            raise ChangedNowError(f"{path} was changed right now, and is left as it is.")
        return aside

    def _keep(self, path: Path, entry: Entry, seen: os.stat_result) -> Before:
        """Moves a file among those that gave way, with how it looked."""
        folder = path.parent if is_swap(path) else self._before_folder(entry.place, self._own_beside(path.parent))
        moved = time.time()
        while os.path.lexists(folder / name_for(entry.version, seen, moved)):
            moved += 1e-6
        kept = folder / name_for(entry.version, seen, moved)
        patiently(lambda: os.rename(path, kept), path)
        self.unsynced |= {path.parent, folder}
        aside = Before(kept, entry.place, entry.version, kept.name.partition("-")[0], seen.st_size, seen.st_mtime_ns)
        self.moved_aside.append(aside)
        return aside

    def _before_folder(self, place: str, own: Path) -> Path:
        """The folder for a part's files that gave way."""
        folder = self._real(own)
        for part in (BEFORE, *place.strip("/").split("/")):
            folder = folder / part
            if not folder.is_dir():
                self._real(folder).mkdir(exist_ok=True)
                self.unsynced.add(folder.parent)
        return self._real(folder)

    def _own_beside(self, parent: Path) -> Path:
        """The client's own folder on the disk of an assembly's folder: the working folder's, or one in it where it is on another mount."""
        own = self._real(self.path / OWN)
        if parent in self.apart or os.lstat(parent).st_dev != os.lstat(own).st_dev:
            own = self._real(parent / OWN)
            own.mkdir(exist_ok=True)
        return own

    def kept_before(self) -> List[Before]:
        """The files that were moved aside and are kept, the earliest first."""
        return sorted((each for own in self._own_folders() for each in kept_in(own)), key=lambda each: (each.stamp, each.place))

    def remove_old(self) -> None:
        """Removes what was moved aside, and saved last, before more days than such files are kept."""
        last = time.time() - self.keep_days * DAY_SECONDS
        for each in self.kept_before():
            with contextlib.suppress(OSError):
                if max(each.moved, os.lstat(each.path).st_mtime if each.saved_since else 0) < last:
                    each.path.unlink()
