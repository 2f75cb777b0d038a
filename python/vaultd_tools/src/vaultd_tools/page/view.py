"""What every kind of page has: an address, what it needs to know, and its pieces."""

from __future__ import annotations

from dataclasses import dataclass, field
from typing import Any

from vaultd_tools.page.model import Model
from vaultd_tools.page.render import Pieces, Renderer
from vaultd_tools.page.rows import Rows
from vaultd_tools.page.timeline import Timeline
from vaultd_tools.page.tree import Tree
from vaultd_tools.page.waits import Line
from vaultd_tools.page.watch import Watcher


@dataclass(frozen=True)
class Source:
    """What a view is made from."""

    renderer: Renderer
    model: Model
    server: str
    vault: str
    # Of which parts designers who are signed in have drafts, by their check-outs.
    drafts: dict[str, dict[str, tuple[str, ...]]] = field(default_factory=dict)
    timeline: Timeline = field(default_factory=Timeline)

    def rows(self) -> Rows:
        """The queue in rows."""
        return Rows(Line.of(self.model.claims), self.model.since)

    def common(self, asks: bool = True) -> Pieces:
        """The pieces that every page has. Not every one asks again by itself."""
        link = self.model.link
        return Pieces({"state": self.renderer.piece("state", link, self.server, self.model.as_of, asks),
                       "pill": self.renderer.piece("pill", link, self.model.as_of)})


class View:
    """A page that is shown, and that gets changes."""

    template = ""
    live = True

    @property
    def address(self) -> str:
        """Where it is."""
        raise NotImplementedError

    def settled(self, model: Model) -> View:
        """The same page by its own address, where several lead to it."""
        return self

    async def prepare(self, watcher: Watcher) -> None:
        """Makes sure that what it shows besides has been read."""

    def missing(self, model: Model) -> list[tuple[str, int]]:
        """The versions that it shows and that aren't known."""
        return []

    def is_there(self, model: Model) -> bool:
        """Whether the vault has what it shows."""
        return True

    def pieces(self, source: Source) -> Pieces:
        """Its pieces."""
        raise NotImplementedError

    def words(self, source: Source, pieces: Pieces) -> dict[str, Any]:
        """What its template needs besides the pieces."""
        return {}

    def branch(self, source: Source, path: str) -> str:
        """A place that has come into its tree."""
        return Tree(source.renderer, source.model, path).branch(path)
