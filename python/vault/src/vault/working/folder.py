"""A working folder: files of parts, and what the client remembers of each, in `.vault` in that folder.

Nothing outside the folder is ever written, whatever stands in `.vault` or in a card, and no link is followed.
"""

import functools
import os
from pathlib import Path
from typing import Dict, List, Optional, Tuple

from vault.errors import MisusedError
from vault.files.names import exact, folded
from vault.working.disk import Disk
from vault.working.remembered import OWN, is_safe

# How many slashes an assembly's place has at least, and at most.
PROJECT_AND_ASSEMBLY = 2
MOST_OF_ASSEMBLY = 6


class Folder(Disk):
    """A working folder of an assembly. Files are named by their path in it, with `/` between names."""

    def others(self) -> List[str]:
        """What is in the folder and not in the vault: files that belong to no part, and folders of no assembly, each with a `/` behind it.
        Hidden ones aren't looked at."""
        found, alike = [], self.alike()
        for folder, inner, files in os.walk(self.path):
            above = "" if Path(folder) == self.path else Path(folder).relative_to(self.path).as_posix()
            known = sorted(name for name in inner if self.joined(above, name) in self.folders)
            found += [self.joined(above, name) + "/" for name in sorted({*inner} - {*known}) if name[:1] != "."]
            found += [name for name in (self.joined(above, file) for file in sorted(files) if file[:1] != ".")
                      if not (is_safe(name) and self.tracked(name, alike))]
            inner[:] = known
        return found

    def missing_folders(self) -> List[str]:
        """The folders of assemblies that aren't there."""
        return sorted(name for name in self.folders if name and not os.path.isdir(self.path / name))

    def uppermost(self, name: str) -> Tuple[str, str]:
        """Of a folder of no assembly, or the uppermost such one above it, its own name, and the place whose folder it stands in."""
        known = max((each for each in self.folders if not each or name.startswith(each + "/")), key=len)
        return name[len(known):].strip("/").partition("/")[0], self.folders[known]

    def uppermost_path(self, name: str) -> str:
        """The path of the same folder."""
        known = max((each for each in self.folders if not each or name.startswith(each + "/")), key=len)
        return self.joined(known, self.uppermost(name)[0])

    def may_have_parts(self, above: str) -> bool:
        """Whether files in a folder may be parts: it is an assembly's."""
        return self.is_assembly(self.folders.get(above, "/"))

    @staticmethod
    def is_assembly(place: str) -> bool:
        """Whether a place with a folder is an assembly's, and neither a project's nor the library's."""
        return place.count("/") >= PROJECT_AND_ASSEMBLY

    @staticmethod
    def may_have_assemblies(place: str) -> bool:
        """Whether assemblies may stand in a place with a folder: only parts have seven names."""
        return place.count("/") < MOST_OF_ASSEMBLY

    def may_be_part(self, name: str) -> bool:
        """Whether `vault add` makes a part of a file: it is in an assembly's folder, and no link."""
        return self.may_have_parts(name.rpartition("/")[0]) and not self.at(name).is_symlink()

    def alike(self) -> Dict[str, str]:
        """The names of files that belong to parts, folded, each with its own form."""
        return {folded(name): name for name in self.files}

    def tracked(self, name: str, alike: Dict[str, str]) -> str:
        """The name by which a part's file is remembered, or nothing. On a disk that ignores capitals a file has many names."""
        known = name if name in self.files else alike.get(folded(name), "")
        return known if known == name or (known and self._is_one_file(known, name)) else ""

    def _is_one_file(self, name: str, other: str) -> bool:
        """Whether two names are of one file."""
        first, second = self.seen(name), self.seen(other)
        return first is not None and second is not None and os.path.samestat(first, second)

    @staticmethod
    def joined(above: str, name: str) -> str:
        """A name in a folder of the working folder."""
        return name if above in ("", ".") else f"{above}/{name}"

    def key(self, name: str) -> str:
        """What tells a name from others on this disk: on some, names that differ only in capitals are of one file."""
        return exact(name) if self.tells_capitals else folded(name)

    @functools.cached_property
    def tells_capitals(self) -> bool:
        """Whether names that differ only in capitals are of two files here."""
        return os.path.lexists(self.path / OWN) and not os.path.lexists(self.path / OWN.upper())


def read_folder(path: Path) -> Optional[Folder]:
    """What is remembered of a working folder, or nothing if it is none."""
    found = Folder(path, "/", "")
    return found if found.read() else None


def find_folder(path: Path) -> Folder:
    """The working folder that a path stands in, or is."""
    path = Path(os.path.abspath(path))
    for above in (path, *path.parents):
        found = read_folder(above)
        if found is not None:
            return found
    raise MisusedError(f"{path} is in no working folder. `vault get PLACE --to FOLDER` makes one.")
