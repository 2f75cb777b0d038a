"""The tree of places as a page shows it. A page has the first level of a large tree; what stands beneath that comes when somebody opens it."""

from __future__ import annotations

import functools
from collections import Counter
from collections.abc import Mapping
from dataclasses import dataclass

from markupsafe import Markup

from vaultd_tools.files import Claim
from vaultd_tools.page.line import ways
from vaultd_tools.page.model import Model
from vaultd_tools.page.render import Pieces, Renderer
from vaultd_tools.page.rows import Beneath, Mark, PlaceRow

WHOLE_PLACES = 120
TREES_KEPT = 64


@dataclass(frozen=True)
class Bare:
    """All beneath a place as it stands where nobody has anything of it: rows and branches, and how many places there are of each kind. It is kept
    until the places change."""

    shape: int
    rows: Mapping[str, str]
    branches: Mapping[str, tuple[str, ...]]
    kinds: Counter[str]


@dataclass(frozen=True)
class Taken:
    """Who has claims at which places, and how many claims there are beneath which."""

    marks: dict[str, list[Mark]]
    held: Counter[str]
    waiting: Counter[str]
    places: frozenset[str]


@functools.lru_cache(4)
def taken_by(claims: tuple[Claim, ...]) -> Taken:
    """The places of these claims, worked out once for all pages that show them."""
    marks: dict[str, list[Mark]] = {}
    held: Counter[str] = Counter()
    waiting: Counter[str] = Counter()
    for claim in claims:
        for item in claim.items:
            marks.setdefault(item[2:], []).append(Mark(claim.owner, item[0] == "w", claim.behind is None))
        (waiting if claim.behind else held).update({above for item in claim.items for above in list(ways(item[2:]))[1:]})
    return Taken(marks, held, waiting, frozenset(marks) | frozenset(held) | frozenset(waiting))


def bare_tree(renderer: Renderer, model: Model, top: str) -> Bare:
    """A part of the tree without its claims."""
    kept: Bare | None = model.trees.get(top)
    if kept is None or kept.shape != model.shape:
        below = [place for place in model.walk(top) if place.path != top]
        rows = {"row:" + place.path: renderer.row(PlaceRow(place.path, place.name, place.kind, place.versions, model.title(place.path), (), None))
                for place in below}
        branches = {place.path: tuple(model.beneath(place.path)) for place in model.walk(top) if not place.part}
        kept = model.trees[top] = Bare(model.shape, rows, branches, Counter(place.kind for place in below))
        while len(model.trees) > TREES_KEPT:
            model.trees.popitem(last=False)
    model.trees.move_to_end(top)
    return kept


class Tree:
    """The places beneath one, with who has claims there. A small tree is there as a whole, and branches with claims are open."""

    def __init__(self, renderer: Renderer, model: Model, top: str = "/"):
        self.renderer, self.model, self.top = renderer, model, top
        self.taken, self.bare = taken_by(tuple(model.claims)), bare_tree(renderer, model, top)
        self.rows: dict[str, PlaceRow] = {}
        self.opens = len(self.bare.rows) < WHOLE_PLACES

    def node(self, path: str) -> PlaceRow:
        """A place as a row."""
        row = self.rows.get(path)
        if row is None:
            place, taken = self.model.place(path), self.taken
            beneath = Beneath(taken.held[path], taken.waiting[path]) if taken.held[path] or taken.waiting[path] else None
            marks = tuple(dict.fromkeys(taken.marks.get(path, ())))
            row = self.rows[path] = PlaceRow(path, place.name, place.kind, place.versions, self.model.title(path), marks, beneath)
        return row

    def html(self, path: str) -> str:
        """A row's HTML."""
        return self.renderer.row(self.node(path))

    def children(self, path: str) -> list[str]:
        """The places right beneath one."""
        return self.model.beneath(path)

    def put(self, pieces: Pieces) -> None:
        """Puts all beneath its top into the pieces of a page."""
        pieces.texts.update(self.bare.rows)
        pieces.branches.update(self.bare.branches)
        for path in self.taken.places:
            if "row:" + path in self.bare.rows:
                pieces.texts["row:" + path] = self.html(path)

    def branch(self, path: str) -> str:
        """A place with all beneath it, as it is put into the tree, or with a link to that."""
        row = self.node(path)
        if row.kind == "part":
            return self.renderer.leaf(row)
        whole = self.opens or not self.children(path)
        return self.renderer.piece("branch", row, self.html(path), self.beneath_of(path) if whole else None, self.opens and row.beneath is not None)

    def beneath_of(self, path: str) -> Markup:
        """All beneath a place."""
        return Markup("".join(map(self.branch, self.children(path))))
