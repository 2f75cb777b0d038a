"""What a page shows, in rows for other programs: as CSV or as JSON."""

from __future__ import annotations

import csv
import io
import json
from collections.abc import Iterator, Sequence
from dataclasses import dataclass

from vault.store.card import TIME
from vaultd_tools.page.rows import BlockerRow, ClaimRow, ItemRow
from vaultd_tools.page.search import SearchView, all_found
from vaultd_tools.page.upkeep import BlockersView, OldView, TimelineView
from vaultd_tools.page.view import Source, View
from vaultd_tools.page.views import ClaimView, DesignersView, DesignerView, PlaceView
from vaultd_tools.page.watch import concerns

KINDS = {"csv": "text/csv", "json": "application/json"}
# What a spreadsheet takes for the beginning of a formula.
FORMULA = ("=", "+", "-", "@", "\t", "\r")
Cell = str | int | bool | None

CLAIMS = ("claim", "designer", "standing", "items", "note", "since", "since_exact", "waits_for", "stops")
BLOCKERS = ("claim", "designer", "items", "note", "stops", "since", "since_exact", "held_since", "held_since_exact", "ring", "waiting")
EVENTS = ("time", "by", "as", "command", "what", "places")
FOUND = ("kind", "name", "place", "version", "title", "by", "why")
DESIGNERS = ("designer", "holds", "waits_with", "stops", "held_items", "waiting_items")
VERSIONS = ("part", "version", "time", "by", "size", "name", "why", "sha256")


@dataclass(frozen=True)
class Table:
    """Rows under heads."""

    heads: Sequence[str]
    rows: Sequence[Sequence[Cell]]

    def spelled(self, kind: str) -> str:
        """The table as CSV or as JSON."""
        if kind == "json":
            return json.dumps([dict(zip(self.heads, row)) for row in self.rows], indent=1) + "\n"
        text = io.StringIO()
        writer = csv.writer(text)
        writer.writerow(self.heads)
        writer.writerows([as_text(cell) for cell in row] for row in self.rows)
        return text.getvalue()


def as_text(cell: Cell) -> str:
    """A cell of CSV, none of which a spreadsheet takes for a formula."""
    text = "" if cell is None else str(cell).lower() if isinstance(cell, bool) else str(cell)
    return "'" + text if text.startswith(FORMULA) else text


def table_of(view: View, source: Source) -> Table | None:
    """The table of a page, if it has one: who has claims, the versions of a part, or the designers."""
    rows, model = source.rows(), source.model
    if isinstance(view, DesignersView):
        return Table(DESIGNERS, [(row.name, row.held, row.queued, row.waiting, items_in(row.holds), items_in(row.waits)) for row in rows.designers()])
    if isinstance(view, DesignerView):
        return Table(CLAIMS, [claim_cells(row) for row in rows.claims(claim for claim in model.claims if claim.owner == view.name)])
    if isinstance(view, BlockersView):
        return Table(BLOCKERS, [blocker_cells(row) for row in view.rows(source)])
    if isinstance(view, OldView):
        return Table(CLAIMS, [claim_cells(row) for row in view.rows(source)])
    if isinstance(view, TimelineView):
        return Table(EVENTS, [(event.when.strftime(TIME), event.by, event.name, event.keyword, event.words, " ".join(event.places))
                              for event in view.events(source)])
    if isinstance(view, ClaimView):
        return Table(("stands", *CLAIMS), [(stands, *claim_cells(rows.claim(claim))) for stands, claim in view.line(source)])
    if isinstance(view, SearchView):
        return Table(FOUND, list(found_cells(view, source)))
    if not isinstance(view, PlaceView):
        return None
    place = model.places.get(view.path)
    if place is None or not place.part:
        return Table(CLAIMS, [claim_cells(row) for row in rows.claims(claim for claim in model.claims if concerns(claim, view.path))])
    known = [model.versions.get((view.path, number)) for number in reversed(view.shown(place))]
    return Table(VERSIONS, [(view.path, one.number, *((one.card.at, one.card.by, one.size, one.card.name, one.card.note, one.card.sha256)
                                                      if one.card else (None, None, one.size, None, None, None))) for one in known if one])


def blocker_cells(row: BlockerRow) -> tuple[Cell, ...]:
    """Who keeps others waiting, in cells."""
    claim = row.claim
    since, held = (when.strftime(TIME) if when else None for when in (row.since, claim.since))
    return (claim.name, claim.owner, items_in(claim.items), claim.note or None, claim.waiting, since, row.exact, held, claim.exact, row.ring,
            " ".join(f"{one.name}={one.owner}" for one in row.stopped))


def found_cells(view: SearchView, source: Source) -> Iterator[tuple[Cell, ...]]:
    """All that a search found, in cells."""
    claims, designers, places = all_found(source, view.wanted)
    for claim in claims:
        yield "claim", claim.name, claim.items[0][2:], None, None, claim.owner, claim.note.decode("utf-8", "replace") or None
    for name in designers:
        yield "designer", name, None, None, None, None, None
    for place, version in places:
        card = version.card if version else None
        yield (place.kind, place.name, place.path, version.number if version else None,
               *((card.name, card.by, card.note or None) if card else (source.model.names.get(place.path), None, None)))


def items_in(items: Sequence[ItemRow]) -> str:
    """What a claim asked for, in a cell."""
    return " ".join(("w:" if item.change else "r:") + item.path for item in items)


def claim_cells(row: ClaimRow) -> tuple[Cell, ...]:
    """A claim in cells."""
    since = row.since.strftime(TIME) if row.since else None
    ways = " ".join(way.name for way in row.ways) or None
    return row.name, row.owner, "held" if row.held else "queued", items_in(row.items), row.note or None, since, row.exact, ways, row.waiting
