"""A file of a working folder that has another name than before is known by its bytes."""

import functools
import stat
from typing import Dict, List

from vault.errors import VaultError
from vault.files.text import quoted, shown
from vault.files.transfer import hash_of
from vault.working.folder import Folder

# The size of a file of which only the bytes' hash is remembered.
UNKNOWN = -1


class Renamed:
    """What the files of a working folder that belong to no part were called before."""

    def __init__(self, folder: Folder):
        self.folder = folder
        self.found: Dict[str, str] = {}

    @functools.cached_property
    def by_size(self) -> Dict[int, List[str]]:
        """The files of parts by their sizes, whether they are here or not. A file without bytes can't be known by these."""
        found: Dict[int, List[str]] = {}
        for name, entry in self.folder.files.items():
            if entry.size and (entry.sha256 or entry.draft):
                found.setdefault(UNKNOWN if entry.draft else entry.size, []).append(name)
        return found

    def before(self, name: str) -> str:
        """The file of a part that is missing here and had the bytes of a file that belongs to no part: one in the same folder, where there is one;
        nothing if there is none."""
        if name not in self.found:
            self.found[name] = self._before(name)
        return self.found[name]

    def _before(self, name: str) -> str:
        seen = self.folder.seen(name)
        if seen is None or not stat.S_ISREG(seen.st_mode) or not seen.st_size:
            return ""
        alike = [each for each in self.by_size.get(seen.st_size, []) + self.by_size.get(UNKNOWN, []) if self.folder.seen(each) is None]
        sha256 = sha256_of(self.folder, name) if alike else ""
        found = [each for each in alike if sha256 and sha256 in (self.folder.files[each].sha256, self.folder.files[each].draft)]
        return min(found, key=lambda each: (not is_beside(each, name), each), default="")

    def renamed(self, name: str) -> str:
        """The same, if it is in the same folder: then that file was renamed."""
        found = self.before(name)
        return found if found and is_beside(found, name) else ""

    def in_words(self, name: str, path: str) -> str:
        """What a file was that has another name now, or stands in another folder, and what its designer does, in words behind its name; nothing
        if it is new. The path is the one by which the designer names it."""
        found = self.before(name)
        if not found:
            return ""
        place = self.folder.files[found].place
        if not is_beside(found, name):
            return (f"has the bytes of {shown(found)}, which is missing here. A part stays in its assembly: move it back, or `vault add {path}` makes"
                    " another part of it")
        own = quoted(shown(name.rpartition("/")[2]))
        return (f"is {shown(found)} by another name, and `vault add` would make a second part of it. In a check-out of it (`vault checkout"
                f" w:{place}`) `vault put {place} {path} --name {own}` keeps it one part, with its history")


def sha256_of(folder: Folder, name: str) -> str:
    """The hash of a file's bytes; nothing if it can't be read, or is changed right now."""
    try:
        return hash_of(folder.at(name))[0]
    except (OSError, VaultError):
        return ""


def is_beside(one: str, other: str) -> bool:
    """Whether two files stand in one folder."""
    return one.rpartition("/")[0] == other.rpartition("/")[0]
