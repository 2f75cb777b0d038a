"""Which part of a working folder is meant: all of it, a folder in it, or a file."""

import os
from pathlib import Path
from typing import NamedTuple

from vault.errors import MisusedError
from vault.files.text import shown
from vault.protocol.grammar import under
from vault.working.folder import Folder


class Scope(NamedTuple):
    """A part of a working folder: its path in that, which is empty for the whole, and its place, which is empty if it has none."""

    name: str
    place: str

    def has(self, name: str) -> bool:
        """Whether a file or a folder is in it, or is the folder in which all of it is. A folder may have a `/` behind it."""
        bare = name.rstrip("/")
        return not self.name or bare == self.name or name.startswith(self.name + "/") or self.name.startswith(bare + "/")

    def has_place(self, place: str) -> bool:
        """Whether a place is its own, or beneath that."""
        return bool(self.place) and under(place, self.place)


def scope_of(folder: Folder, word: str) -> Scope:
    """The part of a working folder that a path names."""
    name = Path(os.path.abspath(word)).relative_to(folder.path).as_posix()
    if name == ".":
        return Scope("", folder.place)
    if name in folder.folders:
        return Scope(name, folder.folders[name])
    if tracked := folder.tracked(name, folder.alike()):
        return Scope(tracked, folder.files[tracked].place)
    if not os.path.lexists(word):
        raise MisusedError(f"{shown(word)} isn't there, and nothing by this name in {folder.path} is in the vault. `vault status {folder.path}` shows"
                           " what is.")
    return Scope(name, "")
