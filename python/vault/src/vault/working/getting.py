"""A working folder is brought up to the vault. Nothing that was changed here is ever written over."""

import contextlib
import errno
import os
from typing import Dict, Optional, Sequence, Tuple

from vault.errors import RefusedError
from vault.files.names import choose_name, folded
from vault.files.system import HeldOpenError
from vault.files.text import shown
from vault.files.transfer import ChangedNowError, Moved, given
from vault.files.whole import end
from vault.store.base import StoreFaultError
from vault.store.naming import Surveyed
from vault.store.parts import Parts, Version
from vault.store.setting import STORE_PLACE
from vault.working.folder import Folder
from vault.working.remembered import Entry
from vault.working.found import Found
from vault.working.modes import covering
from vault.working.opening import server_of
from vault.working.told import Done

NO_ROOM = (errno.ENOSPC, errno.EDQUOT)
# How a disk says that it takes no such name.
NO_NAME = (errno.EINVAL, errno.EILSEQ, errno.ENAMETOOLONG)


class Getting(Found):
    """A working folder that is got."""

    def __init__(self, parts: Parts, folder: Folder):
        super().__init__(parts, folder)
        self.claims: Dict[str, Sequence[str]] = {}
        # The names that are given in each folder, by what tells them apart on this disk, and the folders of assemblies by their places.
        self.given: Dict[str, Dict[str, str]] = {}
        self.folder_of: Dict[str, str] = {}

    def get(self) -> Done:
        """Brings the folder up to the vault: what is new, newer or missing is fetched; what was changed here is left. What gives way is moved
        aside. The folder belongs to the addresses that this designer names from then on."""
        surveyed = self._surveyed()
        numbers = surveyed.numbers
        self.claims = self._claims()
        self.client.remember_folder(str(self.folder.path))
        self.folder.save()
        self._make_folders(surveyed)
        self._settle(numbers)
        names, done = {entry.place: name for name, entry in self.folder.files.items()}, Done()
        wanted = [(place, number) for place, number in sorted(numbers.items())
                  if number and place != STORE_PLACE and self._wants(names.get(place), number)]
        versions = [Version(place, number, content) for (place, number), content in zip(wanted, self.client.contents(wanted))]
        try:
            with self.parts.meter(self.folder.place, sum(version.size for version in versions)) as moved:
                for version in versions:
                    self._get_or_tell(version, names.get(version.place), moved, done)
                    self.folder.save_now_and_then()
            self.folder.server = server_of(self.client)
            self.settle_modes(self.claims)
        finally:
            self.folder.save()
        self.folder.remove_old()
        done.saved_aside = [each for each in self.folder.moved_aside if each.saved_since]
        return done

    def _make_folders(self, surveyed: Surveyed) -> None:
        """Makes the folders of assemblies, each in that of the one that it stands in, by their real names."""
        self.folder_of = names = {place: name for name, place in self.folder.folders.items()}
        for name in (*self.folder.files, *self.folder.folders):
            self._give(name)
        for place in surveyed.assemblies[1:]:
            above, _, own = place.rpartition("/")
            if place not in names:
                inner = names[above or "/"]
                names[place] = Folder.joined(inner, choose_name(surveyed.names.get(place, own), own, self._taken(inner), self.folder.key))
                self.folder.folders[names[place]] = place
                self._give(names[place])
            self.folder.make_folder(names[place])

    def _taken(self, above: str) -> Dict[str, str]:
        """The names that are given in a folder, by what tells them apart on this disk."""
        return self.given.setdefault(above, {})

    def _give(self, name: str) -> None:
        """Notes that a name is given."""
        above, _, own = name.rpartition("/")
        if name:
            self._taken(above)[self.folder.key(own)] = name

    def _wants(self, name: Optional[str], number: int) -> bool:
        """Whether a part's version must be looked at: it is new here, another than the one that was got, or its file is missing."""
        return name is None or self.folder.files[name].version != number or self.folder.seen(name) is None

    def _get_or_tell(self, version: Version, name: Optional[str], moved: Moved, done: Done) -> None:
        """Fetches one version. If its bytes are bad, or can't be written, that is told, and those behind it come all the same."""
        try:
            self._get_one(version, name, moved, done)
        except ChangedNowError:
            done.left.append((name or version.place, f"was changed right now, so it stays, and version {version.number} of {version.place} is in"
                                                     " the vault"))
        except (StoreFaultError, HeldOpenError, OSError) as error:
            if isinstance(error, OSError) and error.errno in NO_ROOM:
                raise
            done.failed += 1
            done.left.append((name or version.place, f"was not fetched: {str(error).rstrip('.')}"))

    def _get_one(self, version: Version, name: Optional[str], moved: Moved, done: Done) -> None:
        """Fetches one version, unless the file in its place was changed here, or has its bytes already."""
        before = self.folder.seen(name) if name is not None else None
        new, entry = self._named(version, name, before is None)
        was = self.folder.files[name] if name is not None else None
        had = was.version if was is not None else 0
        if name is not None and before is not None and had > version.number and not self._has(name, version):
            done.left.append((name, f"is version {had}, and the vault, which came back from a backup, has only version {version.number}:"
                                    f" `vault put {version.place} FILE` puts yours; move it away, and get again, to have the vault's"))
            return
        if name is not None and before is not None and self.folder.is_changed(name):
            if not self._adopted(name, version, entry):
                done.left.append((name, f"was changed here, and version {version.number} of {version.place} is in the vault"))
            return
        if new == name or self.folder.seen(new) is None:
            wanted, new = new, self._fetch(version, new, entry, before if new == name else None, moved)
            done.files.append(new)
            if new != wanted:
                done.told.append((new, f"is {version.place}, whose name {shown(wanted.rpartition('/')[2])} this disk doesn't take"))
        elif not self._adopted(new, version, entry):
            done.left.append((new, f"is there already, and is not version {version.number} of {version.place}"))
            return
        if name is not None and new != name:
            self._give_up(name, new, before, done)
            done.told.append((new, f"was {shown(name)} until now: {version.place} has this name since version {version.number} or before"))
        if was is not None and before is None:
            self._tell_draft(new, was, version, done)

    def _tell_draft(self, name: str, was: Entry, version: Version, done: Done) -> None:
        """Says where a file's draft is, if one stands, since the file is a version again."""
        with contextlib.suppress(RefusedError):
            if was.claim and was.place in self.client.all_drafts(was.claim):
                done.told.append((name, f"is version {version.number} again. What you put of it before is still a draft in {was.claim}: `vault draft"
                                        f" {was.claim} {was.place} --to OTHER-FILE` writes that"))

    def _named(self, version: Version, name: Optional[str], missing: bool) -> Tuple[str, Entry]:
        """The name that a version's file is to have, where it has another one or none, and what is then remembered of it. If it is missing
        here, the draft that was put of it isn't what is here from now on: only its check-out is remembered."""
        own = version.place.rpartition("/")[2]
        wanted = version.card.name if version.card else own
        above = self.folder_of[version.place.rpartition("/")[0]]
        taken = {each for each, full in self._taken(above).items() if full != name}
        new = Folder.joined(above, choose_name(wanted, own, taken, self.folder.key))
        if name is not None and folded(new) == folded(name):
            new = name
        was = self.folder.files[name] if name is not None else Entry(version.place, 0, "")
        draft = "" if missing else was.draft
        return new, Entry(version.place, version.number, version.sha256, name=wanted, draft=draft, claim=was.claim)

    def _fetch(self, version: Version, new: str, entry: Entry, before: Optional[os.stat_result], moved: Moved) -> str:
        """Writes a version into its file, and answers its name: another one than was wanted where the disk refuses that."""
        with self.folder.new_file(new) as file:
            self.parts.write(version, file, str(self.folder.path / new), lambda _what, _size: given(moved))
            came, covered = end(file), bool(covering(self.claims, version.place))
            try:
                self.folder.bring(came, new, entry, before, covered)
                self._give(new)
                return new
            except OSError as error:
                if error.errno not in NO_NAME or before is not None:
                    raise
            inside, _, own = version.place.rpartition("/")
            above = self.folder_of[inside]
            other = Folder.joined(above, choose_name(own, own, {*self._taken(above), folded(new.rpartition("/")[2])}))
            self.folder.bring(came, other, entry, None, covered)
            self._give(other)
            return other

    def _give_up(self, name: str, new: str, before: Optional[os.stat_result], done: Done) -> None:
        """Moves the file aside that a part had before, unless it was changed while the new one came: then it stays."""
        place = self.folder.files[name].place
        try:
            if before is not None:
                self.folder.move_aside(name, before)
        except ChangedNowError:
            pass
        finally:
            del self.folder.files[name]
            above, _, own = name.rpartition("/")
            self._taken(above).pop(self.folder.key(own), None)
        if self.folder.seen(name) is not None:
            done.left.append((name, f"was changed right now, and stays as a file of no part: {place} is {shown(new)} now"))

    def _adopted(self, name: str, version: Version, entry: Entry) -> bool:
        """Remembers that a file is a version, if it has its bytes, by how it looked before these were read. Whether it has them."""
        found = self._read_as(name, version)
        if found is not None:
            self.folder.files[name] = entry
            self.folder.remember_look(name, found.seen, found.looked)
            self._give(name)
        return found is not None
