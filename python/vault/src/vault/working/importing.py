"""A folder of files becomes places and drafts of a vault, and goes on where it was after any break."""

from pathlib import Path
from typing import List, Optional, Sequence, Tuple

from vault.client.many import Making
from vault.errors import MisusedError, RefusedError, VaultError
from vault.files.ignoring import ignored_in
from vault.files.names import usable
from vault.files.transfer import hash_of
from vault.protocol.grammar import DRAFTS, IS_THERE, NAMES
from vault.store.card import note_word
from vault.store.many import side_by_side
from vault.store.naming import Surveyed
from vault.working.adding import Adding
from vault.working.folder import PROJECT_AND_ASSEMBLY
from vault.working.modes import covering
from vault.working.planning import Plan, Planner, too_many_drafts
from vault.working.putting import Putting
from vault.working.putting_many import ToPut
from vault.working.remembered import Entry
from vault.working.told import Done


class Importing(Putting, Adding):
    """A working folder into whose place files and folders go as they are."""

    def plan(self, names: Optional[Sequence[str]] = None) -> Plan:
        """What would become of some files and folders in it, or of all. Nothing is changed."""
        place = self.folder.place
        missing = self.missing_above(place)
        surveyed = Surveyed([place], {}, {}) if missing else self._surveyed()
        self._settle(surveyed.numbers)
        assemblies, parts = self.client.survey("/")
        planner = Planner(self.folder, surveyed, len(assemblies) + len(parts) + len(missing), ignored_in(self.folder.path))
        for name in names or ():
            planner.look(name)
        if names is None:
            planner.look_into("")
        return planner.plan

    def missing_above(self, place: str) -> List[Making]:
        """The places that aren't there of a project or an assembly and of those that it stands in, the uppermost first."""
        names = place.strip("/").split("/")
        above = ["/" + "/".join(names[:count]) for count in range(1, len(names) + 1)] if place != "/" else []
        there = self.client.numbers(above)
        if there:
            raise MisusedError(f"{min(there)} is a part, and nothing stands beneath one. Name a project or an assembly.")
        if len(above) == NAMES:
            raise MisusedError(f"{place} would be a part: an assembly has two to six names.")
        return [Making("nest" if each.count("/") > PROJECT_AND_ASSEMBLY else "make", each) for each in above if not self.client.is_there(each)]

    def make_above(self) -> None:
        """Makes the folder's own place, and those that it stands in, where they aren't there. One that is new gets the folder's real name, which is
        written down before: a try behind this one finds the place there."""
        missing, own, was_none = self.missing_above(self.folder.place), self.folder.path.name, self.folder.saved is None
        if missing and usable(own) and own != self.folder.place.rpartition("/")[2]:
            self.folder.naming[self.folder.place] = own
            self.folder.save()
        for place, error in self.client.make_all(missing).items():
            if error.code != IS_THERE:
                if was_none:
                    self.folder.forget()
                raise RefusedError(f"{place} was not made. {error}", error.code)

    def check_out(self) -> Tuple[str, List[str]]:
        """A held check-out of this designer that covers the folder's place for change, and what it has: one that stands, or a new one."""
        place = self.folder.place
        mine = [holder for holder in self.client.holders(place) if holder.is_check_out_of(self.client.designer) and holder.changes(place)]
        for holder in sorted(mine, key=lambda each: not each.held):
            if not holder.held:
                raise RefusedError(f"{holder.claim} is queued behind {holder.behind}, so nothing was put. `vault wait {holder.claim}` waits; then say"
                                   " it again.")
            return holder.claim, list(holder.items)
        standing = self.client.checkout([f"w:{place}"])
        if not standing.held:
            raise RefusedError(f"{standing.sentence(self.client.designer)} `vault wait {standing.claim}` waits; then say it again.")
        return standing.claim, [f"w:{place}"]

    def make_planned(self, plan: Plan, claim: str) -> None:
        """Makes the places of a plan, in a check-out's name if one is given. It is remembered before what is being made."""
        folder, there = self.folder, self.client.survey(self.folder.place)
        folder.folders.update({name: each.place for name, each in plan.folders.items()})
        folder.folders.update(plan.known)
        folder.naming.update(plan.names)
        folder.making.update(plan.files)
        folder.save()
        wanted = [each for each in plan.makings if each.place not in there[0] and each.place not in there[1]]
        refused = self.client.make_all(wanted, claim)
        files = {place: name for name, place in plan.files.items()}
        for place, name in files.items():
            del folder.making[name]
            if place not in refused:
                folder.files[name] = Entry(place, 0, "")
        folder.save()
        against = [(place, error) for place, error in refused.items() if error.code != IS_THERE or place in files]
        if against:
            more = f" {len(against) - 1} more places were refused." if len(against) > 1 else ""
            raise RefusedError(f"{against[0][0]} was not made. {against[0][1]}{more} Say it again, and it goes on.", against[0][1].code)

    def covering(self, place: str) -> str:
        """A held check-out of this designer that covers a place for change, or nothing."""
        return (covering(self._claims(), place) + [""])[0]

    def waiting(self) -> List[str]:
        """The files that have no version yet, and the real names that aren't in the vault."""
        return [name for name, entry in self.folder.files.items() if not entry.version] + list(self.folder.naming)

    def bring_in(self, claim: str, note: Optional[str], in_parts: bool, asked: List[str], word: str) -> Done:
        """Puts all files that have no version yet, and checks them in: as one change, or in several check-outs with these items."""
        if note is not None:
            note_word(note)
        self.client.remember_folder(str(self.folder.path))
        self._settle_drafts()  # of a try that was broken off behind its check-in
        done, waiting = Done(), len(self.waiting())
        if waiting > DRAFTS and not in_parts:
            raise too_many_drafts(self.folder.path, waiting, word)
        while True:
            before = done.versions
            self._put_waiting(claim, note or "", done)
            if done.files or done.drafts or done.named:
                self._look_for_others([claim], done)
                if claim in done.others:
                    raise RefusedError(f"{claim} has a draft that is not what is here, so it wasn't checked in. {done.others[claim][0]}"
                                       f" {done.others[claim][1]}. `vault checkin {claim}` checks it in as it is.")
                self._check_in(claim, None, done)
                self._settle_checked_in([claim], more=True)
            left = {name for name, _ in done.left}
            if done.versions == before or not [name for name in self.waiting() if name not in left]:
                self._settle_checked_in(done.claims)
                return done
            with done.told_with_errors():
                claim = self._next(asked)
            done.named.clear()

    def _next(self, asked: List[str]) -> str:
        """A further check-out with the same items."""
        standing = self.client.checkout(asked)
        if not standing.held:
            raise RefusedError(f"{standing.sentence(self.client.designer)} So a part is left: say it again once that is held, as `vault wait"
                               f" {standing.claim}` tells.")
        return standing.claim

    def _put_waiting(self, claim: str, note: str, done: Done) -> None:
        """Puts files that have no version yet, as many as a check-out takes, and real names."""
        claims = self._claims()
        mine = {claim: claims[claim]} if claim in claims else {}
        self._put_names(mine, claim, self._saved(mine), done)
        left = {name for name, _ in done.left}
        names = [name for name, entry in sorted(self.folder.files.items())
                 if not entry.version and name not in left and covering(mine, entry.place)][:DRAFTS - len(done.named)]
        sizes = {name: seen.st_size for name in names if (seen := self.folder.seen(name)) is not None}
        done.left += [(name, "is missing here") for name in names if name not in sizes]
        there = [name for name in sizes if self.folder.files[name].claim == claim and self.folder.files[name].draft]
        for name, same in zip(there, side_by_side(self._is_draft, there)):
            if same:
                done.drafts.append(name)
                del sizes[name]
        self._put_wanted([ToPut(name, claim, Path(name).name) for name in sizes], note, done)

    def _is_draft(self, name: str) -> bool:
        """Whether a file that was put before a break is still what was put."""
        try:
            return hash_of(self.folder.at(name))[0] == self.folder.files[name].draft
        except (OSError, VaultError):
            return False
