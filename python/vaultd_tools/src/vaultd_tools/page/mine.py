"""The page of whoever is signed in: all that is theirs, and in whose way they are."""

from __future__ import annotations

from dataclasses import dataclass
from typing import Any

from vaultd_tools.page.render import Pieces
from vaultd_tools.page.rows import BlockerRow, Rows, StoppedRow
from vaultd_tools.page.view import Source, View

MINE = "/.mine"
MOST_STOPPED = 256


@dataclass(frozen=True)
class Told:
    """What an act came to, in a sentence."""

    sentence: str
    done: bool


@dataclass(frozen=True)
class Visitor:
    """Who reads a page: a designer who is signed in and may act by the forms with this token, or nobody that the page knows."""

    name: str = ""
    token: str = ""
    told: Told | None = None
    most_bytes: int = 0


NOBODY = Visitor()


@dataclass(frozen=True)
class InTheWay:
    """A claim of one's own that stops somebody."""

    claim: str
    stopped: StoppedRow


@dataclass(frozen=True)
class MineView(View):
    """All that is a designer's, for that designer."""

    name: str
    template = "mine.html"

    @property
    def address(self) -> str:
        """Where it is."""
        return MINE

    def pieces(self, source: Source) -> Pieces:
        """Whom they stop, and their claims with what may be done with each."""
        renderer, pieces, rows = source.renderer, source.common(), source.rows()
        theirs = [claim for claim in source.model.claims if claim.owner == self.name]
        drafts = source.drafts.get(self.name, {})
        held = sum(claim.behind is None for claim in theirs)
        pieces.texts["line-words"] = renderer.piece("line_words", held, len(theirs) - held, 0) if theirs else renderer.piece("nothing_yet")
        pieces.texts["asked"] = renderer.piece("asked", in_the_way(rows, self.name))
        pieces.texts["rings"] = renderer.rings(tuple(ring for ring in rows.rings() if self.name in (one.owner for one in ring)))
        pieces.lists["mine"] = {claim.name: renderer.piece("mine_item", rows.claim(claim), drafts.get(claim.name, ())) for claim in theirs}
        return pieces

    def words(self, source: Source, pieces: Pieces) -> dict[str, Any]:
        """The title."""
        return {"title": f"My work · {source.vault}", "see": MINE}


def in_the_way(rows: Rows, name: str) -> list[InTheWay]:
    """Where a designer is in somebody's way, the longest first."""
    blockers: list[BlockerRow] = [row for row in rows.blockers(most=MOST_STOPPED) if row.claim.owner == name]
    return [InTheWay(row.claim.name, one) for row in blockers for one in row.stopped if not one.level and one.owner != name]
