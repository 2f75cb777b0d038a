"""Pages for whoever runs the vault: who keeps others waiting for how long, which check-outs are old, and what was done when."""

from __future__ import annotations

import asyncio
from dataclasses import dataclass
from datetime import datetime, timedelta
from typing import Any
from urllib.parse import urlencode

from vault.protocol.grammar import NAME, PLACE
from vaultd_tools.page.model import now
from vaultd_tools.page.render import Pieces
from vaultd_tools.page.rows import BlockerRow, ClaimRow
from vaultd_tools.page.timeline import Event
from vaultd_tools.page.view import Source, View
from vaultd_tools.page.watch import Watcher

DAYS, MOST_DAYS = 7, 9999
EVENTS_SHOWN = 100
FARTHEST = 100_000


@dataclass(frozen=True)
class BlockersView(View):
    """Who keeps others waiting, the longest first."""

    template = "upkeep.html"
    address = "/.blockers"

    def rows(self, source: Source) -> list[BlockerRow]:
        """All of them."""
        return source.rows().blockers()

    def pieces(self, source: Source) -> Pieces:
        """A row for each."""
        pieces, rows = source.common(), self.rows(source)
        pieces.texts["rows"] = source.renderer.piece("blocker_rows", rows)
        held = source.rows().line.held
        pieces.texts["line-words"] = source.renderer.piece("waits_words", len(rows), len(source.model.claims) - held, held)
        return pieces

    def words(self, source: Source, pieces: Pieces) -> dict[str, Any]:
        """The title."""
        return {"title": f"Who keeps others waiting · {source.vault}", "see": self.address, "kind": "blockers", "days": DAYS}


@dataclass(frozen=True)
class OldView(View):
    """The check-outs that are older than so many days, the oldest first."""

    days: int
    template = "upkeep.html"

    @property
    def address(self) -> str:
        """Where it is."""
        return f"/.old?days={self.days}"

    def rows(self, source: Source) -> list[ClaimRow]:
        """All of them."""
        rows, before = source.rows(), now() - timedelta(days=self.days)
        found = [rows.claim(claim) for claim in source.model.claims if claim.name[0] == "c"]
        return sorted((row for row in found if row.since is not None and row.since <= before), key=since_of)

    def pieces(self, source: Source) -> Pieces:
        """A row for each."""
        pieces, rows = source.common(), self.rows(source)
        old = {row.name for row in rows}
        unsure = sum(1 for claim in source.model.claims if claim.name[0] == "c" and claim.name not in old and not source.rows().known(claim)[1])
        pieces.texts["rows"] = source.renderer.piece("old_rows", rows, now())
        pieces.texts["line-words"] = source.renderer.piece("old_words", len(rows), self.days, unsure)
        return pieces

    def words(self, source: Source, pieces: Pieces) -> dict[str, Any]:
        """The title."""
        return {"title": f"Old check-outs · {source.vault}", "see": "/.old", "kind": "old", "days": self.days}


def since_of(row: ClaimRow) -> datetime:
    """Since when a claim is known, where that is known."""
    assert row.since is not None
    return row.since


@dataclass(frozen=True)
class TimelineView(View):
    """What was done, the newest first, as it was when it was asked for."""

    place: str = "/"
    designer: str = ""
    everything: bool = False
    first: int = 0
    template = "timeline.html"
    live = False

    @property
    def address(self) -> str:
        """Where it is."""
        return self.further(self.first)

    def further(self, first: int) -> str:
        """The address of other events of it."""
        asked = {"at": self.place if self.place != "/" else "", "by": self.designer, "all": "1" if self.everything else "", "from": str(first or "")}
        kept = {name: value for name, value in asked.items() if value}
        return "/.timeline" + ("?" + urlencode(kept, safe="/") if kept else "")

    async def prepare(self, watcher: Watcher) -> None:
        """Reads on in the logs."""
        await asyncio.to_thread(watcher.timeline.read_on)

    def events(self, source: Source) -> list[Event]:
        """All that it has."""
        return source.timeline.of(self.place, self.designer, self.everything)

    def pieces(self, source: Source) -> Pieces:
        """Those of every page: it stays as it is."""
        return source.common(False)

    def words(self, source: Source, pieces: Pieces) -> dict[str, Any]:
        """What was done."""
        found = self.events(source)
        last = self.first + EVENTS_SHOWN
        return {"title": f"Timeline · {source.vault}", "see": "/.timeline", "view": self, "events": found[self.first:last], "count": len(found),
                "further": self.further(last) if last < len(found) else "", "before": self.further(max(0, self.first - EVENTS_SHOWN)),
                "logs": bool(source.timeline.files)}


def number_in(text: str, least: int, most: int, usual: int) -> int:
    """A number in an address, if it is one."""
    return min(most, max(least, int(text))) if text.isascii() and text.isdigit() and len(text) < 7 else usual


def upkeep_at(path: str, query: dict[str, str]) -> View | None:
    """The page of these at an address."""
    if path == "/.blockers":
        return BlockersView()
    if path == "/.old":
        return OldView(number_in(query.get("days", ""), 0, MOST_DAYS, DAYS))
    if path == "/.timeline":
        place, designer = query.get("at", "") or "/", query.get("by", "")
        return TimelineView(place if PLACE.fullmatch(place) else "/", designer if NAME.fullmatch(designer) else "", query.get("all") == "1",
                            number_in(query.get("from", ""), 0, FARTHEST, 0))
    return None
