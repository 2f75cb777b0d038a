"""The queue of claims as a page shows it: which claims meet, and who must be gone before whom."""

from __future__ import annotations

from collections.abc import Iterator, Sequence

from vault.protocol.grammar import under
from vaultd_tools.files import Claim


def ways(place: str) -> Iterator[str]:
    """A place, and all above it up to the library."""
    while place != "/":
        yield place
        place = place.rpartition("/")[0] or "/"
    yield "/"


def meeting(one: Claim, other: Claim) -> str:
    """The place at which two claims meet, with one of the two for change; empty if they don't. Of two places it is the one beneath."""
    for first in one.items:
        for second in other.items:
            if "w" in first[0] + second[0]:
                if under(first[2:], second[2:]):
                    return first[2:]
                if under(second[2:], first[2:]):
                    return second[2:]
    return ""


class Index:
    """Which claims have an item at a place, and which have one at or beneath it, as bits by their numbers in the queue."""

    def __init__(self) -> None:
        self.at: dict[str, int] = {}
        self.beneath: dict[str, int] = {}

    def add(self, place: str, bit: int) -> None:
        """Notes an item of a claim."""
        self.at[place] = self.at.get(place, 0) | bit
        for above in ways(place):
            self.beneath[above] = self.beneath.get(above, 0) | bit

    def meeting(self, place: str) -> int:
        """The claims with an item that covers this place, or that is beneath it."""
        found = self.beneath.get(place, 0)
        for above in ways(place):
            found |= self.at.get(above, 0)
        return found


def numbers(bits: int) -> Iterator[int]:
    """The numbers whose bits are set."""
    while bits:
        low = bits & -bits
        yield low.bit_length() - 1
        bits ^= low


def direct(claims: Sequence[Claim]) -> list[int]:
    """For each claim, as bits by number, those before it that it meets, with one of the two for change."""
    every, changing = Index(), Index()
    found: list[int] = []
    for number, claim in enumerate(claims):
        bits = 0
        for item in claim.items:
            bits |= (every if item[0] == "w" else changing).meeting(item[2:])
        found.append(bits)
        for item in claim.items:
            for index in (every, changing)[:1 + (item[0] == "w")]:
                index.add(item[2:], 1 << number)
    return found


def before(met: Sequence[int]) -> list[int]:
    """For each claim, as bits by number, all that must be gone before it is held: those before it that it meets, and what these wait for."""
    found: list[int] = []
    for bits in met:
        for earlier in numbers(bits):
            bits |= found[earlier]
        found.append(bits)
    return found


def waiting(found: Sequence[int]) -> list[int]:
    """For each claim the number of claims that wait until it is gone."""
    counted = [0] * len(found)
    for bits in found:
        for number in numbers(bits):
            counted[number] += 1
    return counted
