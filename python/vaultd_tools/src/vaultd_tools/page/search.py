"""The search: places, designers and claims that have all the words that were asked for, and where each has them."""

from __future__ import annotations

import functools
import re
from collections.abc import Iterator, Sequence
from dataclasses import dataclass
from typing import Any
from urllib.parse import urlencode

from vaultd_tools.files import Claim
from vaultd_tools.page.model import Model, Place, Version, now
from vaultd_tools.page.render import Pieces
from vaultd_tools.page.view import Source, View
from vaultd_tools.page.watch import Watcher

FOUND_SHOWN = 100
LONGEST_SEARCH = 200
FARTHEST = 100_000
WORD = re.compile(r"[^\w/]")

# A text in pieces, each with whether it is one of the words that were asked for.
Marked = tuple[tuple[str, bool], ...]


@dataclass(frozen=True)
class Why:
    """What of a thing has the words: the thing's part, as "note", and its text."""

    what: str
    text: Marked


@dataclass(frozen=True)
class Found:
    """A place that has the words, where it has them, and in which version if that isn't the last one."""

    place: Place
    path: Marked
    version: Version | None
    why: tuple[Why, ...]


@dataclass(frozen=True)
class Results:
    """What a search came to, and the part of it that a page shows."""

    claims: Sequence[Any] = ()
    designers: Sequence[str] = ()
    places: Sequence[Found] = ()
    count: int = 0
    first: int = 0
    last: int = 0
    looked_at: int = 0
    versions: int = 0


@dataclass(frozen=True)
class SearchView(View):
    """The results of a search, as they were when it was asked for."""

    asked: str
    first: int = 0
    template = "search.html"

    @property
    def address(self) -> str:
        """Where it is."""
        words = {"q": self.asked, **({"from": str(self.first)} if self.first else {})}
        return "/.search" + ("?" + urlencode(words) if self.asked else "")

    async def prepare(self, watcher: Watcher) -> None:
        """Has all versions read, which takes a while in a large vault."""
        if self.asked:
            watcher.want_all_versions()

    def pieces(self, source: Source) -> Pieces:
        """Those of every page: what was found stays as it is."""
        return source.common()

    def words(self, source: Source, pieces: Pieces) -> dict[str, Any]:
        """What was found."""
        return {"title": f"Search · {source.vault}", "asked": self.asked, "time": now(),
                "found": results(source, self.wanted, self.first) if self.wanted else Results(), "search": self}

    @property
    def wanted(self) -> tuple[str, ...]:
        """The words that are looked for."""
        return tuple(as_written(word) for word in self.asked.split())

    def further(self, first: int) -> str:
        """The address of other results of it."""
        return SearchView(self.asked, first).address


def search_for(query: dict[str, str]) -> SearchView:
    """The search that an address asks for."""
    first = query.get("from", "0")
    return SearchView(query.get("q", "")[:LONGEST_SEARCH], min(FARTHEST, int(first)) if first.isascii() and first.isdigit() and len(first) < 7 else 0)


def results(source: Source, wanted: tuple[str, ...], first: int) -> Results:
    """All that has these words; of the places some from this one on."""
    model, rows = source.model, source.rows()
    claims, designers, places = all_found(source, wanted)
    shown = [found(place, version, wanted, model.names.get(place.path, "")) for place, version in places[first:first + FOUND_SHOWN]]
    return Results(rows.claims(claims[:FOUND_SHOWN]) if not first else (), designers[:FOUND_SHOWN] if not first else (), shown,
                   len(places) + len(designers) + len(claims), first, first + len(shown) if first + len(shown) < len(places) else 0,
                   len(model.versions), sum(place.versions for place in model.places.values()))


def all_found(source: Source, wanted: tuple[str, ...]) -> tuple[list[Claim], list[str], list[tuple[Place, Version | None]]]:
    """The claims, the designers and the places that have these words; nothing where there are none."""
    model = source.model
    if not wanted:
        return [], [], []
    names = set(model.owners()) | {place.latest.card.by for place in model.places.values() if place.latest and place.latest.card}
    claims = [claim for claim in model.claims if has_all(wanted, as_written(" ".join(
        [claim.name, claim.owner, claim.note.decode("utf-8", "replace"), *(item[2:] for item in claim.items)])))]
    return claims, sorted(name for name in names if has_all(wanted, as_written(name))), list(places_with(model, wanted))


def places_with(model: Model, wanted: tuple[str, ...]) -> Iterator[tuple[Place, Version | None]]:
    """The places that have these words, by their paths and their last versions, and then those that have them in an earlier version, with the
    newest such."""
    earlier: dict[str, Version] = {}
    for (path, number), version in model.versions.items():
        if (path not in earlier or earlier[path].number < number) and has_all(wanted, text_of(path, version)) and not model.is_hidden(path):
            earlier[path] = version
    last = [place for place in model.places.values() if place.path != "/" and has_all(wanted, text_of(place.path, place.latest, model.names.get(
        place.path, ""))) and not model.is_hidden(place.path)]
    yield from ((place, place.latest) for place in last)
    told = {place.path for place in last}
    yield from ((model.places[path], version) for path, version in earlier.items() if path not in told and path in model.places)


def found(place: Place, version: Version | None, wanted: tuple[str, ...], name: str) -> Found:
    """Where a place has the words: in its path, in its real name, and in its version's card."""
    card = version.card if version else None
    texts = (("file", card.name), ("by", card.by), ("why", card.note)) if card else (("name", name),)
    return Found(place, marked(place.path, wanted), version if version and version.number != place.versions else None,
                 tuple(Why(what, marked(text, wanted)) for what, text in texts if any(word in as_written(text) for word in wanted)))


def marked(text: str, wanted: tuple[str, ...]) -> Marked:
    """A text in pieces, by where it has the words."""
    plain = as_written(text)
    hit = [False] * len(text)
    for word in wanted:
        at = plain.find(word)
        while at >= 0:
            hit[at:at + len(word)] = [True] * len(word)
            at = plain.find(word, at + len(word))
    cuts = [0, *(at for at in range(1, len(text)) if hit[at] != hit[at - 1]), len(text)]
    return tuple((text[start:end], hit[start]) for start, end in zip(cuts, cuts[1:]) if end > start)


def as_written(text: str) -> str:
    """A text as it is compared, letter by letter: a place's name stands for a file's, which may have capitals, spaces and dots."""
    lower = text.lower()
    return WORD.sub("_", lower if len(lower) == len(text) else "".join(letter.lower() if len(letter.lower()) == 1 else letter for letter in text))


def has_all(wanted: Sequence[str], text: str) -> bool:
    """Whether a text has all these words in it."""
    return all(word in text for word in wanted)


@functools.lru_cache(32768)
def text_of(path: str, version: Version | None, name: str = "") -> str:
    """What a place is found by: its path and its real name, and the file's name, author and note of a version."""
    card = version.card if version else None
    return as_written(" ".join([path, name] + ([card.name, card.by, card.note] if card else [])))
