"""What becomes of a folder's files and folders in a vault is found out before anything is changed: the places that they get, what is left out,
and what the vault can't hold."""

import os
import stat
from pathlib import Path
from typing import Dict, List, Set, Tuple

from vault.client.many import Making
from vault.errors import RefusedError
from vault.files.ignoring import IGNORE_FILE, Ignored
from vault.files.names import folded, part_name, usable, why_not
from vault.files.text import quoted, shown, why
from vault.protocol.grammar import BENEATH, DRAFTS, NAMES, PLACES
from vault.store.naming import Surveyed, is_of_names, name_place
from vault.working.folder import Folder
from vault.working.renamed import Renamed
from vault.working.remembered import OWN

MOVE_SOME = "move some of them into a folder of their own"


class Plan:
    """What is made of the files and folders of a working folder: places for folders, each above those in it, with the real names that these get
    where a place can't have them; parts of files, with how many bytes they have; what is ignored; what else is left out, and what the vault can't
    hold, each with the reason; and pairs of names that differ only in capitals."""

    def __init__(self) -> None:
        self.folders: Dict[str, Making] = {}
        self.names: Dict[str, str] = {}
        self.known: Dict[str, str] = {}
        self.files: Dict[str, str] = {}
        self.sizes: Dict[str, int] = {}
        self.ignored: List[str] = []
        self.left: List[Tuple[str, str]] = []
        self.too_much: List[Tuple[str, str]] = []
        self.alike: List[Tuple[str, str]] = []

    @property
    def makings(self) -> List[Making]:
        """All places that are made, each behind the one that it stands in."""
        found = list(self.folders.values())
        for place in self.names:
            kept = name_place(place)
            above = kept.rpartition("/")[0]
            found += [Making("make", each) for each in ([above] if is_of_names(above) else []) + [kept]]
        return found + [Making("make", place) for place in self.files.values()]

    @property
    def drafts(self) -> int:
        """How many drafts it takes to put all."""
        return len(self.files) + len(self.names)


class Planner:
    """Looks at a working folder beside what stands in the vault, of which `places` are all that there are."""

    def __init__(self, folder: Folder, surveyed: Surveyed, places: int, ignored: Ignored):
        self.folder, self.surveyed, self.ignored, self.places = folder, surveyed, ignored, places
        self.plan = Plan()
        self.beneath: Dict[str, Set[str]] = {place: set() for place in surveyed.assemblies}
        for place in (*surveyed.assemblies, *surveyed.numbers, *(name_place(each) for each in surveyed.names)):
            above, _, own = place.rpartition("/")
            self.beneath.setdefault(above or "/", set()).add(own)
        self.beneath.setdefault(folder.place, set())
        self.real = {(place.rpartition("/")[0] or "/", surveyed.names.get(place, place.rpartition("/")[2])): place
                     for place in surveyed.assemblies if place != "/"}
        self.taken = {entry.place for entry in folder.files.values()}
        self.alike, self.renamed = folder.alike(), Renamed(folder)

    def look(self, name: str) -> None:
        """Looks at a file or a folder, and at all in it. Its folder has to be known."""
        path = self.folder.path.joinpath(*name.split("/"))
        try:
            seen = os.lstat(path)
        except OSError as error:
            self.plan.left.append((name, f"can't be read: {why(error)}"))
            return
        self._look_at(name, seen)

    def _look_at(self, name: str, seen: os.stat_result) -> None:
        own, is_folder = name.rpartition("/")[2], stat.S_ISDIR(seen.st_mode)
        if own in (OWN, IGNORE_FILE):
            return
        if self.ignored(name + "/" if is_folder else name):
            self.plan.ignored.append(name)
        elif stat.S_ISLNK(seen.st_mode):
            self.plan.left.append((name, "is a link, and is not followed: put what it leads to in its place"))
        elif not usable(own):
            self.plan.left.append((name, "is hidden" if own[:1] == "." else f"{why_not(own)}: rename it"))
        elif is_folder:
            self._look_at_folder(name)
        elif stat.S_ISREG(seen.st_mode):
            self._look_at_file(name, seen.st_size)
        else:
            self.plan.left.append((name, "is no file: it is a device or the like"))

    def look_into(self, name: str) -> None:
        """Looks at all in a folder that has a place."""
        path = self.folder.path.joinpath(*name.split("/")) if name else self.folder.path
        try:
            with os.scandir(path) as found:
                entries = sorted(found, key=lambda entry: (entry.is_dir(follow_symlinks=False), entry.name))
                seen = [(entry.name, entry.stat(follow_symlinks=False)) for entry in entries]
        except OSError as error:
            self.plan.left.append((name or str(self.folder.path), f"can't be read: {why(error)}"))
            return
        forms: Dict[str, str] = {}
        for own, look in seen:
            other = forms.setdefault(folded(own), own)
            if other != own:
                self.plan.alike.append((Folder.joined(name, other), own))
            self._look_at(Folder.joined(name, own), look)

    def place_of(self, name: str) -> str:
        """The place of a folder, if it has one or gets one."""
        if name in self.plan.folders:
            return self.plan.folders[name].place
        return self.plan.known.get(name, "") or self.folder.folders.get(name, "")

    def _look_at_folder(self, name: str) -> None:
        above, own = self.place_of(name.rpartition("/")[0]), name.rpartition("/")[2]
        place = self.folder.folders.get(name, "") or self.real.get((above, own), "")
        if place in self.surveyed.assemblies:
            self.plan.known[name] = place
        elif above.count("/") == NAMES - 1:
            self.plan.too_much.append((name, f"would be an assembly seven names deep, and a place has at most {NAMES} names, the last of which is a"
                                             f" part's: move it up, beside {above.rpartition('/')[2]}"))
            return
        else:
            place = f"{above.rstrip('/')}/{part_name(own, self.beneath[above])}"
            named = place.rpartition("/")[2] != own
            # a project's name takes an assembly and a part in it
            if not self._has_room(name, above, 1 + named * (1 + (above == "/"))):
                return
            self._take(place)
            self.beneath[place] = set()
            self.plan.folders[name] = Making("nest" if Folder.is_assembly(above) else "make", place)
            if named:
                self.plan.names[place] = own
                self._take(name_place(place))
        self.look_into(name)

    def _look_at_file(self, name: str, size: int) -> None:
        above, own = self.place_of(name.rpartition("/")[0]), name.rpartition("/")[2]
        if self.folder.tracked(name, self.alike):
            return
        if not Folder.is_assembly(above):
            what = "a project" if above == "/" else "an assembly"
            self.plan.left.append((name, f"stands in no assembly's folder, and parts stand in assemblies alone: move it into a folder, which becomes"
                                         f" {what}"))
            return
        if self.renamed.renamed(name):
            self.plan.left.append((name, self.renamed.in_words(name, quoted(shown(str(self.folder.at(name)))))))
            return
        place = self._made_before(name) or f"{above}/{part_name(own, self.beneath[above])}"
        if place.rpartition("/")[2] in self.beneath[above] or self._has_room(name, above, 1):
            self._take(place)
            self.plan.files[name], self.plan.sizes[name] = place, size

    def _made_before(self, name: str) -> str:
        """The part that was being made of a file when the client was stopped, if nobody has put anything there."""
        place = self.folder.making.get(name, "")
        return place if place and place not in self.taken and self.surveyed.numbers.get(place, 0) == 0 else ""

    def _take(self, place: str) -> None:
        """Counts a place that is made."""
        above, _, own = place.rpartition("/")
        if own not in self.beneath.setdefault(above or "/", set()):
            self.beneath[above or "/"].add(own)
            self.places += 1
        self.taken.add(place)

    def _has_room(self, name: str, above: str, more: int) -> bool:
        """Whether the vault has room for places for a file or a folder; else says why not."""
        reason = ""
        if len(self.beneath[above]) >= BENEATH:
            reason = f"has no room: {above} would have more than {BENEATH} places right beneath it, the most that a place has: {MOVE_SOME}"
        elif self.places + more > PLACES:
            reason = (f"has no room: the vault would have more than {PLACES:,} places, the most that it has, for good: ask whoever runs it for"
                      " another vault")
        if reason:
            self.plan.too_much.append((name, reason))
        return not reason


def too_many_drafts(folder: Path, count: int, word: str) -> RefusedError:
    """Says that a check-out can't have so many drafts, and what helps."""
    return RefusedError(f"{folder} has {count:,} drafts to put, and a check-out has at most {DRAFTS}, so nothing was put. `{word} --in-parts` does it"
                        f" in {-(-count // DRAFTS)} check-outs, one behind the other: it isn't one change then, and others may see a part of it.")
