"""Where the files of a folder go that a browser sends: its folders become assemblies and its files parts, as `vault import` makes them, and what
was made before is found again by its real name."""

from __future__ import annotations

import hashlib
from collections.abc import Sequence
from dataclasses import dataclass, field

from vault.errors import MisusedError, RefusedError
from vault.files.ignoring import LEFT_BY_PROGRAMS
from vault.files.names import part_name, usable, why_not
from vault.protocol.grammar import DRAFTS, IS_THERE, NAMES
from vault.store.card import read_card
from vault.store.naming import name_place, named_by, read_name, spell_name
from vaultd_tools.page.acting import Designer

# An assembly has two names at least; its parts stand in it.
ASSEMBLY = 2
TRIES = 3
PATTERNS = 512
IGNORED = "is ignored"


class LeftOutError(MisusedError):
    """A file that doesn't go into the vault, where others of its folder do."""


@dataclass
class There:
    """What stands in a place: assemblies and parts by the one above and their real names, what each part's last version is, and of which parts the
    check-out has drafts."""

    place: str
    assemblies: dict[tuple[str, str], str] = field(default_factory=dict)
    parts: dict[tuple[str, str], str] = field(default_factory=dict)
    versions: dict[str, tuple[str, str]] = field(default_factory=dict)
    drafts: set[str] = field(default_factory=set)
    made: list[str] = field(default_factory=list)

    @classmethod
    def look(cls, client: Designer, claim: str, place: str, whole: bool) -> There:
        """Looks at a place, and at all beneath it if that is asked. What the check-out has drafts of counts as they are."""
        there, (assemblies, numbers), drafts = cls(place), client.survey(place), client.all_drafts(claim)
        wanted = [(part, number) for part, number in numbers.items() if number and (whole or above_of(part) == place or part == place)]
        contents = {part: content for (part, _), content in zip(wanted, client.contents(wanted))}
        names = {named_by(part): name for part, content in {**contents, **drafts}.items() if named_by(part) and (name := read_name(content))}
        there.assemblies = {(above_of(each), names.get(each, own_of(each))): each for each in assemblies if each != place}
        for part, content in {**contents, **drafts}.items():
            card = read_card(content)
            if card is not None:
                there.parts[above_of(part), card.name] = part
            there.versions[part] = (card.sha256, card.name) if card else (hashlib.sha256(content).hexdigest(), "")
        there.drafts = set(drafts)
        return there

    def is_as_it_was(self, part: str, sha256: str, name: str) -> bool:
        """Whether a part's last version has these bytes and this name, and nothing else is to become of it."""
        return part not in self.drafts and self.versions.get(part, ("", ""))[0] == sha256 and self.versions[part][1] in (name, "")

    def name_of(self, part: str) -> str:
        """The name that a part's file has, if it has one."""
        return self.versions.get(part, ("", ""))[1]

    def look_at(self, folders: Sequence[str]) -> None:
        """Raises for a file in a folder in the place that can have no part."""
        depth = self.place.count("/") + len(folders)
        if depth < ASSEMBLY:
            raise LeftOutError("stands in no assembly's folder, and parts stand in assemblies alone: move it into a folder")
        if depth >= NAMES:
            raise LeftOutError(f"would be a part more than {NAMES} names deep: move it up")

    def assembly_for(self, client: Designer, claim: str, folders: Sequence[str]) -> str:
        """The assembly of a folder in the place, which is made where it isn't there."""
        place = self.place
        for own in folders:
            place = self.assemblies.get((place, own)) or self._made_assembly(client, claim, place, own)
        return place

    def _made_assembly(self, client: Designer, claim: str, above: str, own: str) -> str:
        """Makes the assembly of a folder, and keeps its real name where the place can't have that."""
        place = made_beneath(client, claim, above, own, nested=above.count("/") >= ASSEMBLY)
        if own_of(place) != own:
            self.check_room(claim, name_place(place))
            client.make(name_place(place), claim)
            client.put(name_place(place), spell_name(own), claim, keep=False)
            self.drafts.add(name_place(place))
        self.assemblies[above, own] = place
        self.made.append(place)
        return place

    def part_for(self, client: Designer, claim: str, assembly: str, name: str, bare: bool) -> str:
        """The part of a file in an assembly: the one that has its name, or a new one. A vault without a store keeps no names, so there it is the
        one that a file of this name gets."""
        found = self.parts.get((assembly, name))
        plain = f"{assembly}/{part_name(name, ())}"
        if found is None and bare and plain in self.versions:
            found = plain
        if found is None:
            self.check_room(claim)
            found = self.parts[assembly, name] = made_beneath(client, claim, assembly, name)
        return found

    def check_room(self, claim: str, part: str = "") -> None:
        """Refuses one draft more than a check-out can have."""
        if part not in self.drafts and len(self.drafts) >= DRAFTS:
            raise RefusedError(f"{claim} has {DRAFTS} drafts, and a check-out has no more. Check it in, check out again, and put all once more: what"
                               " is as it was isn't put again.")


def made_beneath(client: Designer, claim: str, above: str, own: str, nested: bool = False) -> str:
    """Makes a place for a real name, in a check-out's name."""
    for _ in range(TRIES):
        place = f"{above}/{part_name(own, client.names(above))}"
        try:
            (client.nest if nested else client.make)(place, claim)
            return place
        except RefusedError as refused:
            if refused.code != IS_THERE:
                raise
    raise RefusedError(f"Others make places of that name in {above} at this moment. Try again.")


def above_of(place: str) -> str:
    """The place that another one stands in."""
    return place.rpartition("/")[0] or "/"


def own_of(place: str) -> str:
    """A place's own name."""
    return place.rpartition("/")[2]


@dataclass
class Rules:
    """What of a folder is no part, by what programs leave and by the folder's own `.vaultignore`, where that comes first."""

    lines: list[str] = field(default_factory=list)

    def take(self, said: bytes) -> None:
        """Takes a `.vaultignore` in."""
        self.lines = said.decode("utf-8", "replace").splitlines()[:PATTERNS]

    def look_at(self, names: Sequence[str]) -> None:
        """Raises for a path in the folder that doesn't go into the vault, with the reason."""
        from pathspec import PathSpec

        try:
            ignored = PathSpec.from_lines("gitwildmatch", [*LEFT_BY_PROGRAMS, *self.lines])
        except ValueError as error:
            raise MisusedError(f"The folder's .vaultignore has a line that is no pattern: {error}. They are as in .gitignore.") from error
        if any(ignored.match_file("/".join(names[:count]) + ("/" if count < len(names) else "")) for count in range(1, len(names) + 1)):
            raise LeftOutError(IGNORED)
        for own in names:
            if not usable(own):
                raise LeftOutError("is hidden" if own[:1] == "." else f"{why_not(own)}: rename it" if own == names[-1] else
                                   f"stands in {own!a}, which {why_not(own)}: rename that")


def path_of(sent: str) -> list[str]:
    """The names of a path that a browser sent of a file in a folder that somebody chose, without that folder's own."""
    names = sent.replace("\\", "/").split("/")[1:]
    if not names or not all(names) or len(names) > 64:
        raise LeftOutError("is no path of a file in a folder")
    return names
