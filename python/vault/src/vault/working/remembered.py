"""What the client remembers of a working folder, in `.vault` in that folder."""

import contextlib
import functools
import json
import os
import re
import time
from pathlib import Path
from typing import Any, Dict, Iterator, List, Optional, Set

from vault.errors import MisusedError, VaultError
from vault.files.locks import lock_at
from vault.files.names import usable
from vault.files.system import sync_folder
from vault.files.whole import write_whole
from vault.protocol.grammar import CHECKOUT, PLACE
from vault.working.before import Before, settle_swaps
from vault.working.days import KEEP_DAYS, MOST_DAYS

OWN = ".vault"
FORM = "vault working folder 1"
# What a killed client may leave among them.
LEFT = re.compile(r"new-[0-9a-f]{32}|\.folder\.json.+")
# How long it isn't saved again: so many seconds, and so many times as long as that took.
SAVED_EACH_SECONDS, SAVED_EACH_TIMES = 1.0, 20


class Entry:
    """What is remembered of a part's file: the version that it was, and how it looked then, with its time and when that was set; the name
    in its card; and the draft of it that was put since."""

    def __init__(self, place: str, version: int, sha256: str, size: int = -1, time: int = 0, set_at: int = 0, looked: int = 0,
                 name: str = "", draft: str = "", claim: str = ""):
        self.place, self.version, self.sha256 = place, version, sha256
        self.size, self.time, self.set_at, self.looked = size, time, set_at, looked
        self.name, self.draft, self.claim = name, draft, claim


class Remembered:
    """What is remembered of a working folder of an assembly: its files, its folders, the parts that were being made of files, and the real names
    that projects and assemblies are to have."""

    def __init__(self, path: Path, place: str, server: str):
        self.path, self.place, self.server = path, place, server
        self.files: Dict[str, Entry] = {}
        self.folders: Dict[str, str] = {"": place}
        self.making: Dict[str, str] = {}
        self.naming: Dict[str, str] = {}
        self.keep_days, self.writable = KEEP_DAYS, False
        # When what is remembered was put on disk, how long that took, and as what it was put there or read.
        self.saved_at = self.save_took = 0.0
        self.saved: Optional[bytes] = None
        # Folders to which no link leads, as far as files are only looked at.
        self.looked_at: Set[str] = set()
        # Folders whose entries have to be on disk before what is remembered of them, and those that turned out to be on another mount.
        self.unsynced: Set[Path] = set()
        self.apart: Set[Path] = set()
        # What was moved aside since the lock was had.
        self.moved_aside: List[Before] = []

    @contextlib.contextmanager
    def locked(self) -> Iterator[None]:
        """Keeps other clients away from this folder."""
        own = self.path / OWN
        self._real(own).mkdir(exist_ok=True)
        lock = lock_at(own / "lock")
        if not lock.take():
            raise MisusedError(f"Another `vault` works in {self.path}. Wait until it has ended.")
        try:
            self._remove_leftovers()
            self.read(self.place)
            yield
        finally:
            lock.release()

    def read(self, place: str = "") -> bool:
        """Reads what is remembered on disk, if it is of a place and isn't what was read or put there last: another client may have worked here
        since. Answers whether this is a working folder."""
        kept = self.path / OWN / "folder.json"
        try:
            content = kept.read_bytes()
            if content != self.saved:
                read = json.loads(content.decode("utf-8"))
                if place in ("", read["place"]):
                    self.take(read)
                    self.saved = content
            return True
        except (FileNotFoundError, NotADirectoryError):
            return False
        except (ValueError, KeyError, TypeError, AttributeError) as error:
            raise VaultError(f"{kept} can't be read: {error}. Move {self.path} away, and get the assembly again; then copy your changed files"
                             " over it.") from error

    def take(self, kept: Dict[str, Any]) -> None:
        """Takes over what is remembered, which anybody may have written."""
        if kept["form"] != FORM or not PLACE.fullmatch(kept["place"]) or not isinstance(kept["server"], str):
            raise ValueError("it is of another form")
        files = {name: Entry(**entry) for name, entry in kept["files"].items()}
        folders, making, naming = dict(kept["folders"]), dict(kept.get("making", {})), dict(kept.get("naming", {}))
        keep_days, writable = int(kept.get("keep_days", KEEP_DAYS)), bool(kept.get("writable", False))
        odd = [name for name in (*files, *folders, *making) if name and not is_safe(name)]
        odd += [name for name, entry in files.items() if not is_entry(entry)]
        odd += [name for name, place in (*folders.items(), *making.items()) if not PLACE.fullmatch(place)]
        odd += [name for place, name in naming.items() if not (PLACE.fullmatch(place) and usable(name))]
        if folders.get("") != kept["place"]:
            raise ValueError("it has another place than its folder")
        if not 1 <= keep_days <= MOST_DAYS:
            raise ValueError(f"{keep_days} is no number of days")
        if odd:
            raise ValueError(f"{odd[0]!a} is no file of it")
        self.place, self.server, self.files, self.folders, self.making = kept["place"], kept["server"], files, folders, making
        self.naming, self.keep_days, self.writable = naming, keep_days, writable

    def _remove_leftovers(self) -> None:
        """Removes what killed clients left among the client's own files."""
        for own in self._own_folders():
            for path in own.iterdir():
                if LEFT.fullmatch(path.name):
                    with contextlib.suppress(OSError):
                        path.unlink()
            settle_swaps(own)

    def _own_folders(self) -> Iterator[Path]:
        """The client's own folders: one in the working folder, and one in each assembly's folder that is or was on another mount."""
        for name in self.folders:
            own = self.path.joinpath(*name.split("/")) / OWN if name else self.path / OWN
            if own.is_dir() and os.path.realpath(own) == os.path.join(os.path.realpath(self.path), *own.relative_to(self.path).parts):
                yield own

    def save(self) -> None:
        """Puts what is remembered on disk, behind the files that it is about."""
        began = time.monotonic()
        while self.unsynced:
            with contextlib.suppress(FileNotFoundError):
                sync_folder(next(iter(self.unsynced)))
            self.unsynced.pop()
        kept = {"form": FORM, "place": self.place, "server": self.server, "folders": self.folders, "making": self.making, "naming": self.naming,
                "keep_days": self.keep_days, "writable": self.writable, "files": {name: vars(entry) for name, entry in sorted(self.files.items())}}
        content = json.dumps(kept).encode("utf-8")
        if content != self.saved:
            write_whole(self._real(self.path / OWN) / "folder.json", content)
            self.saved = content
        self.saved_at = time.monotonic()
        self.save_took = self.saved_at - began

    def forget(self) -> None:
        """Has the folder be no working folder any more."""
        with contextlib.suppress(FileNotFoundError):
            os.unlink(self._real(self.path / OWN) / "folder.json")
        self.saved = None

    def save_now_and_then(self) -> None:
        """Puts what is remembered on disk if that was a while ago: it takes longer the more files there are."""
        if time.monotonic() - self.saved_at > max(SAVED_EACH_SECONDS, SAVED_EACH_TIMES * self.save_took):
            self.save()

    def remember_look(self, name: str, seen: os.stat_result, looked: int) -> None:
        """Remembers how a file looks, whose bytes are known and were read behind that look."""
        entry = self.files[name]
        entry.size, entry.time, entry.set_at, entry.looked = seen.st_size, seen.st_mtime_ns, seen.st_ctime_ns, looked

    def at(self, name: str) -> Path:
        """The path of a file. Its folder must be in this one, with no link on the way."""
        path = self.path.joinpath(*name.split("/"))
        if not is_safe(name):
            raise MisusedError(f"`{name!a}` is no file of a working folder.")
        self._real(path.parent)
        return path

    def _real(self, path: Path) -> Path:
        """A path, if neither it nor what is above it in this folder is a link."""
        top = os.path.realpath(self.path)
        wanted = os.path.join(top, *path.relative_to(self.path).parts)
        if os.path.realpath(path) != wanted:
            raise MisusedError(f"{path} is a link, or beneath one, so nothing is written there. Put a folder in its place.")
        return path


def is_safe(name: str) -> bool:
    """Whether a path is one of a working folder."""
    above, slash, own = name.rpartition("/")
    return usable(own) and (not slash or is_safe_above(above))


@functools.lru_cache(maxsize=4096)
def is_safe_above(name: str) -> bool:
    """The same of what files stand in, which is asked again for each of them."""
    return all(usable(part) for part in name.split("/"))


def is_entry(entry: Entry) -> bool:
    """Whether what is remembered of a file has its form."""
    numbers = (entry.version, entry.size, entry.time, entry.set_at, entry.looked)
    return bool(PLACE.fullmatch(entry.place) and all(isinstance(number, int) for number in numbers) and isinstance(entry.sha256, str)
                and isinstance(entry.draft, str) and isinstance(entry.name, str) and (entry.claim == "" or CHECKOUT.fullmatch(entry.claim)))
