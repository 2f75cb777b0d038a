"""Who waits for whom in the queue of claims: whom each claim stops, where they meet, and which designers wait for each other in a ring."""

from __future__ import annotations

import functools
from collections.abc import Iterable, Iterator, Mapping, Sequence
from dataclasses import dataclass

from vaultd_tools.files import Claim
from vaultd_tools.page.line import before, direct, meeting, numbers, waiting


@dataclass(frozen=True)
class Wait:
    """A claim that waits for one before it, and the place where they meet."""

    before: Claim
    waiting: Claim
    place: str


@dataclass(frozen=True)
class Stopped:
    """A claim as it stands behind one that is in its way: right behind that, or behind others that wait for it."""

    wait: Wait
    level: int
    others: tuple[Claim, ...]


@dataclass(frozen=True)
class Line:
    """The whole queue, with what follows from it. Bits stand for claims by their numbers in the queue."""

    claims: tuple[Claim, ...]
    at: Mapping[str, int]
    # For each claim all that must be gone before it, how many wait for it, those right before it and those right behind it.
    ahead: Sequence[int]
    waiting: Sequence[int]
    ways: Sequence[int]
    followers: Sequence[int]
    ringed: Mapping[str, int]
    rings: tuple[tuple[Wait, ...], ...]

    @classmethod
    def of(cls, claims: Iterable[Claim]) -> Line:
        """Works it out, once for all pages that show it."""
        return line_of(tuple(claims))

    @property
    def held(self) -> int:
        """How many claims are held."""
        return sum(claim.behind is None for claim in self.claims)

    @property
    def longest(self) -> int:
        """The most claims that one claim waits for."""
        return max((bits.bit_count() for bits in self.ahead), default=0)

    def before(self, claim: Claim) -> list[Claim]:
        """The claims that a waiting one meets: those that are held, or where none is, the one that it is queued behind."""
        return [self.claims[number] for number in numbers(self.ways[self.at[claim.name]])]

    def after(self, claim: Claim) -> list[Claim]:
        """The claims that wait right behind one."""
        return [self.claims[number] for number in numbers(self.followers[self.at[claim.name]])]

    def stopped(self, claim: Claim) -> Iterator[Stopped]:
        """All that wait behind a held claim, each before those that wait behind it in turn. What waits for several held claims is behind each."""
        ways = [(Wait(claim, other, meeting(claim, other)), 0) for other in reversed(self.after(claim))]
        seen: set[str] = set()
        while ways:
            wait, level = ways.pop()
            if wait.waiting.name not in seen:
                seen.add(wait.waiting.name)
                yield Stopped(wait, level, tuple(one for one in self.before(wait.waiting) if one != wait.before))
                ways += [(Wait(wait.waiting, other, meeting(wait.waiting, other)), level + 1) for other in reversed(self.after(wait.waiting))]

    def blockers(self) -> list[Claim]:
        """The held claims that others wait for, in the order of the queue."""
        return [claim for claim in self.claims if claim.behind is None and self.waiting[self.at[claim.name]]]

    def free(self) -> list[Claim]:
        """The held claims that nobody waits for."""
        return [claim for claim in self.claims if claim.behind is None and not self.waiting[self.at[claim.name]]]

    def contested(self, claim: Claim) -> frozenset[str]:
        """The items of a claim at which it meets one that it waits for, or that waits for it."""
        others = self.before(claim) + self.after(claim)
        return frozenset(item for item in claim.items if any(meeting(single(claim, item), other) for other in others))

    def in_ring(self, wait: Wait) -> bool:
        """Whether a wait is part of a ring of designers."""
        one, other = wait.before.owner, wait.waiting.owner
        return one != other and one in self.ringed and self.ringed[one] == self.ringed.get(other)

    def waiters(self, owner: str) -> list[Claim]:
        """The claims of others for which a claim of this designer has to be gone."""
        theirs = sum(1 << place for place, claim in enumerate(self.claims) if claim.owner == owner)
        return [claim for claim, bits in zip(self.claims, self.ahead) if bits & theirs and claim.owner != owner]


def single(claim: Claim, item: str) -> Claim:
    """A claim with one of its items alone."""
    return Claim(claim.name, claim.owner, claim.behind, (item,))


@functools.lru_cache(4)
def line_of(claims: tuple[Claim, ...]) -> Line:
    """The queue of these claims."""
    met = direct(claims)
    ahead = before(met)
    held = sum(1 << number for number, claim in enumerate(claims) if claim.behind is None)
    ways = [bits & held or bits & -bits for bits in met]
    return Line(claims, {claim.name: number for number, claim in enumerate(claims)}, ahead, waiting(ahead), ways, turned(ways),
                *rings_of(claims, met))


def turned(ways: Sequence[int]) -> list[int]:
    """For each claim, as bits by number, those that have it among theirs."""
    found = [0] * len(ways)
    for number, bits in enumerate(ways):
        for other in numbers(bits):
            found[other] |= 1 << number
    return found


Graph = dict[str, dict[str, Wait]]


def rings_of(claims: Sequence[Claim], met: Sequence[int]) -> tuple[dict[str, int], tuple[tuple[Wait, ...], ...]]:
    """Each designer who is in a ring, with the number of the group that can't go on; and rings, of which each such designer is in one at
    least. Rings through held claims alone come first."""
    whole = graph(claims, met, False)
    groups = groups_in(whole)
    found: list[tuple[Wait, ...]] = []
    told: set[str] = set()
    for waits in (graph(claims, met, True), whole):
        for name in waits:
            ring = ring_through(waits, name) if name in groups and name not in told else ()
            if ring:
                found.append(ring)
                told.update(wait.waiting.owner for wait in ring)
    return groups, tuple(found)


def graph(claims: Sequence[Claim], met: Sequence[int], held: bool) -> Graph:
    """For each designer who waits the designers that they wait for, each by the first such wait; for held claims alone if that is asked."""
    found: Graph = {}
    for claim, one in ((claim, claims[number]) for claim, bits in zip(claims, met) for number in numbers(bits)):
        if one.owner != claim.owner and (one.behind is None or not held) and one.owner not in found.get(claim.owner, ()):
            found.setdefault(claim.owner, {})[one.owner] = Wait(one, claim, meeting(one, claim))
    return found


def groups_in(waits: Graph) -> dict[str, int]:
    """The designers who wait for each other, by the number of their group."""
    reached = {name: reach(waits, name) for name in waits}
    found: dict[str, int] = {}
    for name in waits:
        if name in reached[name] and name not in found:
            number = len(set(found.values()))
            found.update({other: number for other in waits if other in reached[name] and name in reached[other]})
    return found


def reach(waits: Graph, name: str) -> set[str]:
    """The designers whom one waits for, directly or through others."""
    found: set[str] = set()
    level = list(waits[name])
    while level:
        one = level.pop()
        if one not in found:
            found.add(one)
            level += waits.get(one, {})
    return found


def ring_through(waits: Graph, name: str) -> tuple[Wait, ...]:
    """The shortest ring with a designer in it, or nothing. Each wait is for what the designer of the wait before it has."""
    came: dict[str, Wait] = {}
    level = [name]
    while level and name not in came:
        steps = [(other, wait) for one in level for other, wait in waits.get(one, {}).items() if other not in came]
        came.update(dict(reversed(steps)))
        level = list(dict.fromkeys(other for other, _ in steps))
    if name not in came:
        return ()
    found = [came[name]]
    while found[-1].waiting.owner != name:
        found.append(came[found[-1].waiting.owner])
    return tuple(found)
