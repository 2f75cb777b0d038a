"""The kinds of page that there are, and what each shows of a vault."""

from __future__ import annotations

from collections import Counter
from collections.abc import Iterator
from dataclasses import dataclass
from typing import Any

from markupsafe import Markup

from vault.protocol.grammar import CLAIM, NAME
from vaultd_tools.files import Claim
from vaultd_tools.page.line import ways
from vaultd_tools.page.model import MAX_BENEATH, MAX_CLAIMS, MAX_PLACES, MAX_VERSIONS, PART_NAMES, Model, Place, depth
from vaultd_tools.page.render import APART, TAKEN, Pieces, address
from vaultd_tools.page.rows import who_is_at
from vaultd_tools.page.search import search_for
from vaultd_tools.page.tree import Tree
from vaultd_tools.page.upkeep import upkeep_at
from vaultd_tools.page.view import Source, View
from vaultd_tools.page.waits import Line
from vaultd_tools.page.watch import Watcher, concerns, is_place

VERSIONS_SHOWN = 40
NEWS_SHOWN = 14
LATEST_SHOWN = 20


@dataclass(frozen=True)
class Gauge:
    """How full something is."""

    what: str
    has: int
    most: int
    place: str = ""

    @property
    def part(self) -> float:
        """In hundredths; at least 0.6 if it isn't empty, so that it shows."""
        return round(max(0.6 if self.has else 0.0, min(100.0, 100.0 * self.has / self.most)), 1)


def put_waits(pieces: Pieces, source: Source, line: Line, here: list[Claim], whole: bool) -> None:
    """Puts in who waits for whom of these claims: who is waited for, and then the others; of the whole vault by designer."""
    renderer, rows = source.renderer, source.rows()
    blockers = rows.blockers(here)
    pieces.lists["blockers"] = renderer.blockers(blockers)
    told = {row.claim.name for row in blockers} | {one.name for row in blockers for one in row.stopped}
    names = {claim.name for claim in here}
    pieces.texts["rings"] = renderer.rings(tuple(ring for ring in rows.rings() if whole or any(one.waiting in names for one in ring)))
    held = sum(claim.behind is None for claim in here)
    if whole:
        pieces.texts["line-words"] = renderer.piece("waits_words", len(blockers), len(here) - held, held)
        pieces.lists["held"] = {name: renderer.piece("free", name, claims) for name, claims in rows.free().items()}
        pieces.texts["held-words"] = renderer.piece("free_words", held - len(blockers))
    else:
        pieces.texts["line-words"] = renderer.piece("line_words", held, len(here) - held, 0, False)
        pieces.lists["line"] = renderer.claims(rows.claims(claim for claim in here if claim.name not in told))


@dataclass(frozen=True)
class PlaceView(View):
    """A place: who is there, and what is beneath it, or its versions."""

    path: str
    below: int = 0
    template = "place.html"

    @property
    def address(self) -> str:
        """Where it is."""
        return address(self.path) + (f"?before={self.below}" if self.below else "")

    def settled(self, model: Model) -> View:
        """`before` says nothing of a place that is no part, nor of a part that has fewer versions."""
        place = model.places.get(self.path)
        if self.below and place is not None and (place.part is False or place.counted and self.below > place.versions):
            return PlaceView(self.path)
        return self

    async def prepare(self, watcher: Watcher) -> None:
        """Asks for the place, and of a part for the versions that are shown."""
        await watcher.learn_place(self.path)
        await watcher.learn_versions(self.missing(watcher.model))

    def missing(self, model: Model) -> list[tuple[str, int]]:
        """Of a part those versions that aren't known."""
        place = model.places.get(self.path)
        wanted = self.shown(place) if place is not None and place.part else ()
        return [(self.path, number) for number in wanted if (self.path, number) not in model.versions]

    def is_there(self, model: Model) -> bool:
        """Whether the place is known, or the library, which is always there."""
        return self.path == "/" or self.path in model.places

    def shown(self, place: Place) -> range:
        """Which versions are shown."""
        last = min(place.versions, self.below - 1) if self.below else place.versions
        return range(max(1, last - VERSIONS_SHOWN + 1), last + 1)

    def pieces(self, source: Source) -> Pieces:
        """What it shows of the queue, and of the place."""
        model, renderer, pieces = source.model, source.renderer, source.common()
        line = Line.of(model.claims)
        whole = self.path == "/"
        here = model.claims if whole else [claim for claim in model.claims if concerns(claim, self.path)]
        place = model.places.get(self.path) or Place(self.path, None)
        pieces.texts["heading"] = self._heading(source, place, here)
        put_waits(pieces, source, line, here, whole)
        if place.part:
            self._put_versions(pieces, source, place)
        else:
            pieces.tree = Tree(renderer, model, self.path)
            pieces.tree.put(pieces)
            pieces.texts["tree-words"] = counts(pieces.tree.bare.kinds)
        if whole:
            pieces.texts["tally"] = renderer.piece("tally", len(model.claims) - line.held, len(line.blockers()), line.held, len(model.owners()))
            pieces.texts["news"] = renderer.piece("news", list(model.news)[:NEWS_SHOWN])
            pieces.texts["full"] = renderer.piece("full", gauges(model), model.read, model.read_bytes)
        return pieces

    def _heading(self, source: Source, place: Place, here: list[Claim]) -> str:
        above = [path for path in reversed(list(ways(self.path))) if path != self.path]
        return source.renderer.piece("heading", source.vault, place, above, source.model.title(self.path), who_is_at(here, self.path))

    def _put_versions(self, pieces: Pieces, source: Source, place: Place) -> None:
        known = source.model.versions
        rows: dict[str, str] = {}
        for number in reversed(self.shown(place)):
            version = known.get((self.path, number))
            rows[str(number)] = source.renderer.piece("version", self.path, version, number == place.versions) if version else (
                source.renderer.piece("unread", number))
        pieces.lists["versions"] = rows
        shown = self.shown(place)
        pieces.texts["versions-words"] = source.renderer.piece("versions_words", self.path, place.versions, shown.start, len(shown), self.below)

    def words(self, source: Source, pieces: Pieces) -> dict[str, Any]:
        """The tree, where it has one."""
        place = source.model.places.get(self.path)
        return {"title": source.vault if self.path == "/" else f"{self.path} · {source.vault}", "whole": self.path == "/",
                "part": bool(place and place.part), "tree": pieces.tree, "see": self.path}


@dataclass(frozen=True)
class DesignerView(View):
    """One designer with all that is theirs."""

    name: str
    template = "designer.html"

    @property
    def address(self) -> str:
        """Where it is."""
        return f"/{TAKEN}/{self.name}"

    def pieces(self, source: Source) -> Pieces:
        """Their claims, who waits for them, and their last versions."""
        model, renderer, pieces = source.model, source.renderer, source.common()
        rows = source.rows()
        theirs = [claim for claim in model.claims if claim.owner == self.name]
        held = sum(claim.behind is None for claim in theirs)
        pieces.lists["line"] = renderer.claims(rows.claims(theirs))
        pieces.texts["heading"] = renderer.piece("designer_heading", self.name, self._place(model))
        pieces.texts["line-words"] = renderer.piece("line_words", held, len(theirs) - held, 0) if theirs else (
            renderer.piece("nothing", self.name))
        pieces.texts["rings"] = renderer.rings(tuple(ring for ring in rows.rings() if self.name in (one.owner for one in ring)))
        pieces.texts["others"] = renderer.piece("others", rows.claims(rows.line.waiters(self.name)))
        pieces.texts["latest"] = renderer.piece("latest", self._latest(model))
        return pieces

    def _place(self, model: Model) -> str:
        path = f"/{TAKEN}/{self.name}"
        return path if path in model.places else ""

    def _latest(self, model: Model) -> list[Place]:
        found = [place for place in model.places.values() if place.latest and place.latest.card and place.latest.card.by == self.name]
        return sorted(found, key=lambda place: (place.latest and place.latest.card and place.latest.card.at) or "", reverse=True)[:LATEST_SHOWN]

    def words(self, source: Source, pieces: Pieces) -> dict[str, Any]:
        """The title."""
        return {"title": f"{self.name} · {source.vault}", "see": self.address, "name": self.name,
                "known_parts": [place.path for place in source.model.places.values() if place.part] if self.name[0] == "c" else []}


@dataclass(frozen=True)
class DesignersView(View):
    """All designers who have claims."""

    template = "designers.html"

    @property
    def address(self) -> str:
        """Where it is."""
        return "/" + TAKEN

    def pieces(self, source: Source) -> Pieces:
        """A row for each."""
        pieces, rows = source.common(), source.rows()
        line = rows.line
        pieces.texts["designers"] = source.renderer.piece("designers", rows.designers())
        pieces.texts["line-words"] = source.renderer.piece("line_words", line.held, len(line.claims) - line.held, line.longest)
        return pieces

    def words(self, source: Source, pieces: Pieces) -> dict[str, Any]:
        """The title."""
        return {"title": f"Designers · {source.vault}", "see": self.address}


def counts(kinds: Counter[str]) -> Markup:
    """How many places of each kind there are."""
    words = [f"{kinds[kind]:,} {kind if kinds[kind] == 1 else plural}"
             for kind, plural in (("project", "projects"), ("assembly", "assemblies"), ("part", "parts")) if kinds[kind]]
    return Markup(", ".join(words) + "." if words else "Nothing stands there yet.")


def gauges(model: Model) -> Iterator[Gauge]:
    """How full the vault is, as far as the page knows."""
    places = model.places.values()
    widest = max(places, key=lambda place: len(place.children), default=Place("/", False))
    most = max(places, key=lambda place: place.versions, default=Place("/", False))
    library = model.places.get("/") or Place("/", False)
    yield Gauge("places, with the library", len(places), MAX_PLACES)
    yield Gauge("projects", len(library.children), MAX_BENEATH)
    yield Gauge("places beneath the one with most", len(widest.children), MAX_BENEATH, widest.path if widest.children else "")
    yield Gauge("claims", len(model.claims), MAX_CLAIMS)
    yield Gauge("versions of the part with most", most.versions, MAX_VERSIONS, most.path if most.versions else "")


@dataclass(frozen=True)
class ClaimView(View):
    """One claim with all that it waits for, and all that waits for it."""

    name: str
    template = "claim.html"

    @property
    def address(self) -> str:
        """Where it is."""
        return "/.claim/" + self.name

    def line(self, source: Source) -> Iterator[tuple[str, Claim]]:
        """The claims before it, itself, and all that wait for it, each with how it stands to it."""
        line = Line.of(source.model.claims)
        claim = next((claim for claim in source.model.claims if claim.name == self.name), None)
        if claim is not None:
            yield from (("in its way", one) for one in line.before(claim))
            yield "itself", claim
            yield from (("waits for it", one.wait.waiting) for one in line.stopped(claim))

    def pieces(self, source: Source) -> Pieces:
        """The claim, what is in its way, and what waits for it."""
        renderer, pieces, rows = source.renderer, source.common(), source.rows()
        claim = next((claim for claim in source.model.claims if claim.name == self.name), None)
        before = rows.line.before(claim) if claim else []
        row = rows.blocker(claim, MAX_CLAIMS) if claim else None
        stopped = row.stopped if row else ()
        pieces.lists["line"] = renderer.claims(rows.claims([claim] if claim else []))
        pieces.lists["ways"] = {one.name: renderer.piece("way_item", one) for one in rows.claims(before)}
        pieces.lists["stopped"] = {f"{self.name}:{one.name}": renderer.piece("stopped", self.name, one) for one in stopped}
        pieces.texts["heading"] = renderer.piece("claim_heading", self.name, rows.claim(claim) if claim else None)
        pieces.texts["ways-words"] = "" if before else "Nothing."
        pieces.texts["stopped-words"] = "" if stopped else "Nobody."
        pieces.texts["rings"] = renderer.rings(tuple(ring for ring in rows.rings() if self.name in {name for one in ring for name in (
            one.name, one.waiting)}))
        return pieces

    def words(self, source: Source, pieces: Pieces) -> dict[str, Any]:
        """The title."""
        return {"title": f"{self.name} · {source.vault}", "see": self.address, "name": self.name,
                "known_parts": [place.path for place in source.model.places.values() if place.part] if self.name[0] == "c" else []}


def view_at(path: str, query: dict[str, str]) -> View | None:
    """The page at an address, by the address as it was sent: no name needs another spelling."""
    if path == "/.search":
        return search_for(query)
    if path.startswith("/."):
        found = upkeep_at(path, query)
        if found is not None:
            return found
    if path.startswith("/.claim/"):
        name = path[len("/.claim/"):]
        return ClaimView(name) if CLAIM.fullmatch(name) else None
    names = path.split("/")
    if names[0] or len(names) < 2:
        return None
    if path == "/" + TAKEN:
        return DesignersView()
    if names[1] == TAKEN and len(names) == 3 and NAME.fullmatch(names[2]):
        return DesignerView(names[2])
    apart = path.startswith(APART + "/" + TAKEN)
    place = path[len(APART):] if apart else path
    if not is_place(place) or depth(place) and (place.split("/")[1] == TAKEN) != apart:
        return None
    below = query.get("before", "0") if depth(place) >= PART_NAMES else "0"
    return PlaceView(place, int(below) if below.isascii() and below.isdigit() and len(below) <= 5 else 0)
