"""What is found in a working folder: how each file stands beside the vault."""

from typing import Dict, Iterable, List, NamedTuple, Optional, Sequence

from vault.errors import MisusedError
from vault.files.text import quoted, why
from vault.files.transfer import ChangedNowError, Read, read
from vault.protocol.standing import Holder
from vault.store.naming import Surveyed, name_place, read_name, survey
from vault.store.parts import Parts, Version
from vault.store.setting import STORE_PLACE
from vault.working.before import Before
from vault.working.folder import Folder
from vault.working.modes import covering, settle_modes
from vault.working.opening import in_address_words, is_at, server_of
from vault.working.remembered import Entry

# How many of a part's last versions are compared with a draft.
LOOKED_BACK = 64


class Saved(NamedTuple):
    """A draft that the server has: its check-out, what it is, and whether it was put by this designer from this machine."""

    claim: str
    version: Version
    from_here: bool


class State(NamedTuple):
    """How a file stands: whether it is changed or missing here, whether its newest version is another than the one that it was made of,
    whether its part is gone from the vault, and whether it is checked out for change, by this designer, or by others, as far as the server
    says; whether it is a draft, and the check-out that has another draft of it than was put last; and why it can't be read, if it can't."""

    file: str
    place: str
    version: int
    newest: int
    changed: bool
    missing: bool
    claim: str
    draft: bool
    others: List[str]
    gone: bool = False
    other_draft: str = ""
    fault: str = ""


class Look(NamedTuple):
    """How a working folder stands: its files, the parts that have no file here, each with its newest version, and what was moved aside and
    saved since by a program that had it open."""

    files: List[State]
    new: Dict[str, int]
    saved_aside: List[Before]


class Found:
    """A working folder beside the vault: how its files stand. Call its methods within `Folder.locked`."""

    def __init__(self, parts: Parts, folder: Folder):
        self.parts, self.client, self.folder = parts, parts.client, folder
        if not is_at(folder, self.client):
            before, here = in_address_words(folder.server), in_address_words(server_of(self.client))
            raise MisusedError(f"{folder.path} was got from {before}, and you are at {here}. Name the other by `--as`; or, if that vault has moved"
                               f" here, say `vault hello {self.client.designer}@{here},{before}`, and then `vault get {folder.place} --to"
                               f" {quoted(str(folder.path))}`.")

    def states(self) -> List[State]:
        """How each file of a part stands, and which held check-out of this designer covers it for change."""
        return self.look().files

    def look(self) -> Look:
        """How the folder stands: its files, and the parts that have none here."""
        claims = self._claims()
        numbers, saved = self._numbers(), self._saved(claims)
        self.settle_modes(claims)
        self.client.remember_folder(str(self.folder.path))
        here = {entry.place for entry in self.folder.files.values()}
        return Look(self._states(claims, numbers, saved),
                    {place: number for place, number in sorted(numbers.items()) if number and place not in here and place != STORE_PLACE},
                    [each for each in self.folder.kept_before() if each.saved_since])

    def settle_modes(self, claims: Dict[str, Sequence[str]]) -> bool:
        """Settles which files are writable. Whether that changed any."""
        return settle_modes(self.folder, claims)

    def _has(self, name: str, version: Version) -> bool:
        """Whether a file has the bytes of a version."""
        return self._read_as(name, version) is not None

    def _read_as(self, name: str, version: Version) -> Optional[Read]:
        """What was read of a file, if that is the bytes of a version."""
        path = self.folder.at(name)
        if path.is_symlink() or not path.is_file() or path.stat().st_size != version.size:
            return None
        try:
            found = read(path)
        except (ChangedNowError, FileNotFoundError):
            return None
        return found if found.sha256 == version.sha256 else None

    def _claims(self) -> Dict[str, Sequence[str]]:
        """The held check-outs of this designer at the folder's place, each with its items."""
        return self.client.held(self.folder.place)

    def _saved(self, claims: Iterable[str]) -> Dict[str, Saved]:
        """The drafts of some check-outs of this designer, by place, as the server has them."""
        found: Dict[str, Saved] = {}
        for claim in claims:
            kept = self.client.kept_drafts(claim)
            found.update({place: Saved(claim, Version(place, 0, content), kept.get(place) == content)
                          for place, content in self.client.all_drafts(claim).items()})
        return found

    def _numbers(self) -> Dict[str, int]:
        """The parts beneath the folder's place, each with the number of its versions."""
        surveyed = self._surveyed()
        self._settle(surveyed.numbers)
        return surveyed.numbers

    def _surveyed(self) -> Surveyed:
        """What stands from the folder's place on. A real name that is in the vault is none that waits to be put."""
        surveyed = survey(self.client, self.folder.place)
        self._take_names(surveyed.names)
        return surveyed

    def _take_names(self, names: Dict[str, str]) -> None:
        """Real names that are in the vault don't wait to be put."""
        for place, name in names.items():
            if self.folder.naming.get(place) == name:
                del self.folder.naming[place]

    def _settle_names(self) -> None:
        """Finds out which of the real names that wait to be put are in the vault."""
        kept = {name_place(place): place for place in self.folder.naming}
        wanted = [(each, number) for each, number in self.client.numbers(list(kept)).items() if number]
        self._take_names({kept[each]: read_name(content) for (each, _), content in zip(wanted, self.client.contents(wanted))})

    def _settle_drafts(self, claims: Optional[Sequence[str]] = None) -> None:
        """Finds out which drafts of files became versions: those of some check-outs, or all."""
        self._settle(self.client.numbers([entry.place for entry in self.folder.files.values()
                                          if entry.draft and (claims is None or entry.claim in claims)]))

    def _states(self, claims: Dict[str, Sequence[str]], numbers: Dict[str, int], saved: Dict[str, Saved]) -> List[State]:
        """How each file of a part stands, by the check-outs of this designer and their drafts."""
        holders = [holder for holder in self.client.holders(self.folder.place) if holder.held and holder.owner != self.client.designer]
        found = [self._state(name, claims, numbers, saved.get(entry.place), holders) for name, entry in sorted(self.folder.files.items())]
        self.folder.save()
        return found

    def _state(self, name: str, claims: Dict[str, Sequence[str]], numbers: Dict[str, int], there: Optional[Saved],
               holders: List[Holder]) -> State:
        """How a file of a part stands, by the draft of it that there is."""
        entry = self.folder.files[name]
        missing, fault = self.folder.seen(name) is None, ""
        changed = draft = False
        try:
            changed = not missing and self.folder.is_changed(name)
            draft = not missing and there is not None and self._is(name, changed, there.version)
        except OSError as error:
            changed, fault = True, why(error)
        known = draft or there is None or (changed and was_put(entry, there.claim, there.version))
        return State(name, entry.place, entry.version, numbers.get(entry.place, 0), changed, missing, " ".join(covering(claims, entry.place)),
                     draft, [f"{holder.owner} in {holder.claim}" for holder in holders if holder.changes(entry.place)],
                     entry.place not in numbers, "" if there is None or known else there.claim, fault)

    def _is(self, name: str, changed: bool, version: Version) -> bool:
        """Whether a file, of which it is known whether it is changed, has the bytes of a version."""
        return self._has(name, version) if changed else self.folder.files[name].sha256 == version.sha256

    def _is_another(self, state: State) -> bool:
        """Whether the version that a file was made of isn't what the vault has by this number: it came back from a backup since."""
        if not state.version:
            return False
        content = self.client.contents([(state.place, state.version)])[0]
        return Version(state.place, state.version, content).sha256 != self.folder.files[state.file].sha256

    def _settle(self, numbers: Dict[str, int]) -> None:
        """Files whose drafts became versions, by whichever check-in, are made of these from now on."""
        drafts = {entry.place: entry for entry in self.folder.files.values() if entry.draft}
        newest = {place: numbers.get(place, 0) for place in drafts}
        wanted = [(place, number) for place, entry in drafts.items()
                  for number in range(newest[place], max(entry.version, newest[place] - LOOKED_BACK, 0), -1)]
        for (place, number), content in zip(wanted, self.client.contents(wanted)):
            entry, version = drafts[place], Version(place, number, content)
            if version.sha256 == entry.draft:
                entry.version, entry.sha256, entry.size = number, entry.draft, -1
                entry.name = version.card.name if version.card else entry.name
                entry.draft = entry.claim = ""


def was_put(entry: Entry, claim: str, draft: Version) -> bool:
    """Whether a draft in a check-out is the one that was put of a file last."""
    return (draft.sha256, claim) == (entry.draft, entry.claim)
