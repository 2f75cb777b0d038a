"""Claims, designers and places as they stand on a page, each a row that a template turns into HTML."""

from __future__ import annotations

from collections.abc import Iterable, Mapping
from dataclasses import dataclass
from datetime import datetime

from vault.protocol.grammar import under
from vaultd_tools.files import Claim
from vaultd_tools.page.line import meeting
from vaultd_tools.page.model import Since
from vaultd_tools.page.waits import Line, Stopped, Wait, single

STOPPED_SHOWN = 12
ITEMS_SHOWN = 6


@dataclass(frozen=True)
class ItemRow:
    """What a claim asked for, and whether it meets another claim there."""

    change: bool
    path: str
    contested: bool = False


@dataclass(frozen=True)
class WayRow:
    """A claim that another one waits for, and where they meet."""

    name: str
    owner: str
    place: str


@dataclass(frozen=True)
class ClaimRow:
    """A claim with all that it has."""

    name: str
    owner: str
    held: bool
    ways: tuple[WayRow, ...]
    items: tuple[ItemRow, ...]
    note: str
    since: datetime | None
    exact: bool
    ahead: int
    waiting: int


@dataclass(frozen=True)
class StoppedRow:
    """A claim behind one that is in its way: what it wants of that, where they meet, and what else is in its way."""

    name: str
    owner: str
    wants: ItemRow
    way: WayRow
    others: tuple[WayRow, ...]
    level: int
    since: datetime | None
    exact: bool
    ring: bool


@dataclass(frozen=True)
class BlockerRow:
    """A held claim that others wait for, and since when."""

    claim: ClaimRow
    stopped: tuple[StoppedRow, ...]
    more: int
    since: datetime | None
    exact: bool
    ring: bool


@dataclass(frozen=True)
class RingRow:
    """One wait of a ring of designers."""

    owner: str
    name: str
    held: bool
    place: str
    waits: str
    waiting: str


@dataclass(frozen=True)
class Mark:
    """A claim at the place that it asked for."""

    owner: str
    change: bool
    held: bool


@dataclass(frozen=True)
class Beneath:
    """How many claims have something beneath a place, held and waiting."""

    held: int
    waiting: int


@dataclass(frozen=True)
class PlaceRow:
    """A place as it stands in the tree."""

    path: str
    name: str
    kind: str
    versions: int
    title: str
    marks: tuple[Mark, ...]
    beneath: Beneath | None


@dataclass(frozen=True)
class DesignerRow:
    """A designer with what they hold, and what they wait for."""

    name: str
    held: int
    queued: int
    waiting: int
    holds: tuple[ItemRow, ...]
    waits: tuple[ItemRow, ...]
    more_held: int
    more_queued: int


@dataclass(frozen=True)
class Who:
    """Who is at a place: who has it for change, who looks at it, and who waits, each by name."""

    change: tuple[str, ...]
    look: tuple[str, ...]
    waits: tuple[str, ...]


class Rows:
    """Makes the rows of a queue, with since when each claim is known."""

    def __init__(self, line: Line, since: Mapping[str, Since]):
        self.line, self.since = line, since

    def claims(self, shown: Iterable[Claim]) -> list[ClaimRow]:
        """Some of its claims."""
        return [self.claim(claim) for claim in shown]

    def claim(self, claim: Claim) -> ClaimRow:
        """One claim."""
        at, (when, exact) = self.line.at[claim.name], self.known(claim)
        return ClaimRow(claim.name, claim.owner, claim.behind is None,
                        tuple(WayRow(one.name, one.owner, meeting(one, claim)) for one in self.line.before(claim)), self.items(claim),
                        claim.note.decode("utf-8", "replace"), when, exact, self.line.ahead[at].bit_count(), self.line.waiting[at])

    def items(self, claim: Claim) -> tuple[ItemRow, ...]:
        """What a claim asked for."""
        contested = self.line.contested(claim)
        return tuple(ItemRow(item[0] == "w", item[2:], item in contested) for item in claim.items)

    def known(self, claim: Claim) -> tuple[datetime | None, bool]:
        """Since when a claim is known, and whether it came then."""
        seen = self.since.get(claim.name)
        return (seen.when, seen.exact) if seen else (None, False)

    def blockers(self, shown: Iterable[Claim] | None = None, most: int = STOPPED_SHOWN) -> list[BlockerRow]:
        """Who is waited for, of these claims or of all: first who keeps somebody waiting for longest."""
        names = {claim.name for claim in shown} if shown is not None else set(self.line.at)
        found = [self.blocker(claim, most) for claim in self.line.blockers() if claim.name in names]
        return sorted(found, key=lambda row: (row.since is None, row.since and row.since.timestamp()))

    def blocker(self, claim: Claim, most: int = STOPPED_SHOWN) -> BlockerRow:
        """One held claim with whom it stops."""
        stopped = list(self.line.stopped(claim))
        times = [when for one in stopped for when in (self.known(one.wait.waiting),) if when[0]]
        first = min(times, key=lambda when: (when[0] and when[0].timestamp(), when[1]), default=(None, False))
        return BlockerRow(self.claim(claim), tuple(map(self.stopped, stopped[:most])), max(0, len(stopped) - most), *first,
                          any(self.line.in_ring(one.wait) for one in stopped))

    def stopped(self, stopped: Stopped) -> StoppedRow:
        """A claim behind one that is in its way."""
        wait = stopped.wait
        claim, one = wait.waiting, wait.before
        wants = next(item for item in claim.items if meeting(single(claim, item), one))
        others = tuple(WayRow(other.name, other.owner, meeting(other, claim)) for other in stopped.others)
        return StoppedRow(claim.name, claim.owner, ItemRow(wants[0] == "w", wants[2:], wants[2:] == wait.place),
                          WayRow(one.name, one.owner, wait.place), others, stopped.level, *self.known(claim), self.line.in_ring(wait))

    def rings(self) -> list[tuple[RingRow, ...]]:
        """The rings of designers who wait for each other."""
        return [tuple(map(ring_row, ring)) for ring in self.line.rings]

    def free(self) -> dict[str, list[ClaimRow]]:
        """What is held and stops nobody, by designer."""
        found: dict[str, list[ClaimRow]] = {}
        for claim in sorted(self.line.free(), key=lambda claim: claim.owner):
            found.setdefault(claim.owner, []).append(self.claim(claim))
        return found

    def designers(self) -> list[DesignerRow]:
        """Whoever has claims, by name."""
        theirs: dict[str, list[Claim]] = {}
        for claim in self.line.claims:
            theirs.setdefault(claim.owner, []).append(claim)
        return [self.designer(name, claims) for name, claims in sorted(theirs.items())]

    def designer(self, name: str, claims: list[Claim]) -> DesignerRow:
        """One designer with these claims."""
        holds = [item for claim in claims if claim.behind is None for item in self.items(claim)]
        waits = [item for claim in claims if claim.behind for item in self.items(claim)]
        held = sum(claim.behind is None for claim in claims)
        return DesignerRow(name, held, len(claims) - held, len(self.line.waiters(name)), tuple(holds[:ITEMS_SHOWN]), tuple(waits[:ITEMS_SHOWN]),
                           max(0, len(holds) - ITEMS_SHOWN), max(0, len(waits) - ITEMS_SHOWN))


def ring_row(wait: Wait) -> RingRow:
    """A wait of a ring, by the place of the first claim at which they meet."""
    place = next(item[2:] for item in wait.before.items if meeting(single(wait.before, item), wait.waiting))
    return RingRow(wait.before.owner, wait.before.name, wait.before.behind is None, place, wait.waiting.owner, wait.waiting.name)


def who_is_at(claims: Iterable[Claim], path: str) -> Who:
    """Who has a claim at a place, above it or beneath it. Whoever has it for change isn't named again for a look."""
    change: dict[str, None] = {}
    look: dict[str, None] = {}
    waits: dict[str, None] = {}
    for claim in claims:
        modes = {item[0] for item in claim.items if under(path, item[2:]) or under(item[2:], path)}
        if modes:
            (waits if claim.behind else change if "w" in modes else look)[claim.owner] = None
    return Who(tuple(change), tuple(name for name in look if name not in change), tuple(waits))
