"""The queue of claims, as a server lists it: who is in whose way, and where designers wait for each other in a ring."""

from typing import Dict, List, Optional, Sequence

from vault.protocol.connection import Link
from vault.protocol.grammar import CLAIM, GONE, UNKNOWN_COMMAND, under
from vault.protocol.replies import holder_in, listed_in, odd
from vault.protocol.standing import Holder, Wait

# No vault server lists more claims than this; its limit is 256.
MAX_CLAIMS = 1024


class Line:
    """Asks who holds what. An older server doesn't know these questions. Whether it does is found out each time, as it may be restarted
    while a client stays."""

    def __init__(self, link: Link):
        self.link, self.older = link, False

    def at(self, place: str) -> Optional[List[Holder]]:
        """The claims at a place, above it or beneath it, in the order of the queue; nothing if the server is older."""
        told = self.link.read("claims " + place)
        self.older = told.code == UNKNOWN_COMMAND
        if self.older:
            return None
        claims = listed_in(told, CLAIM)
        if len(claims) > MAX_CLAIMS:
            raise odd(told)
        return self.of(claims)

    def of(self, claims: Sequence[str]) -> Optional[List[Holder]]:
        """Those of some claims that stand; nothing if the server is older."""
        replies = self.link.asked("show", claims)
        self.older = any(reply.code == UNKNOWN_COMMAND for reply in replies)
        return None if self.older else [holder_in(reply, claim) for claim, reply in zip(claims, replies) if reply.code != GONE]


def chain(line: Sequence[Holder], claim: str) -> List[Holder]:
    """The claims that a claim waits for in turn, each the one that the one before is queued behind."""
    named = {holder.claim: holder for holder in line}
    found: List[Holder] = []
    while claim in named and named[claim].behind in named and len(found) < len(line):
        claim = named[claim].behind
        found.append(named[claim])
    return found


def ring(line: Sequence[Holder], claim: str) -> List[Wait]:
    """Where designers wait for each other: the shortest ring of waits that ends with this claim's wait. Each wait is for what the
    designer of the wait before it has. None if there is no ring. A ring through held claims alone goes before one in which an earlier
    claim waits, too."""
    waiting = next((holder for holder in line if holder.claim == claim), None)
    if waiting is None:
        return []
    return ring_of(line, waiting, True) or ring_of(line, waiting, False)


def ring_of(line: Sequence[Holder], waiting: Holder, held: bool) -> List[Wait]:
    """The shortest such ring; through held claims alone if that is asked. Goes through those whom this claim's designer waits for, then
    those whom these wait for, and so on, until one waits for this designer."""
    came: Dict[str, Wait] = {}
    level = [wait for wait in waits_of(line, waiting, held) if wait.before.owner != waiting.owner]
    while level:
        for wait in level:
            came.setdefault(wait.before.owner, wait)
        owners = dict.fromkeys(wait.before.owner for wait in level if came[wait.before.owner] is wait)
        waits = [wait for owner in owners for holder in line if holder.owner == owner for wait in waits_of(line, holder, held)]
        for wait in waits:
            if wait.before.owner == waiting.owner:
                return [wait, *way_back(came, wait.waiting.owner, waiting.owner)]
        level = [wait for wait in waits if wait.before.owner not in came]
    return []


def way_back(came: Dict[str, Wait], owner: str, last: str) -> List[Wait]:
    """The wait for what a designer has, then the one for what that waiting designer has, and so on, down to the last designer."""
    found: List[Wait] = []
    while owner != last:
        found.append(came[owner])
        owner = came[owner].waiting.owner
    return found


def waits_of(line: Sequence[Holder], waiting: Holder, held: bool) -> List[Wait]:
    """What a claim that is queued waits for: each claim before it that it meets, or each that is held."""
    found: List[Wait] = []
    for before in line if not waiting.held else ():
        if before.claim == waiting.claim:
            return found
        place = meeting(before, waiting) if before.held or not held else ""
        if place:
            found.append(Wait(before, place, waiting))
    return found


def meeting(before: Holder, waiting: Holder) -> str:
    """The place of a claim at which another one meets it, with one of the two items for change; empty if they don't meet."""
    for item in before.items:
        for other in waiting.items:
            if "w" in (item[0], other[0]) and (under(item[2:], other[2:]) or under(other[2:], item[2:])):
                return item[2:]
    return ""
