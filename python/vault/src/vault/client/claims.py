"""What a designer does with claims: they are asked for, looked at, given, and ended."""

import contextlib
from collections import Counter
from typing import Dict, List, Optional, Sequence, Set, Tuple

from vault.client.memory import Claim, Command, Draft, by_number
from vault.client.recovery import MINE, whose
from vault.client.session import Session
from vault.errors import LostError, MisusedError, RefusedError, UnreachableError, VaultError
from vault.protocol.grammar import ANOTHERS, GONE, NOTE_BYTES, PLACE, UNKNOWN_COMMAND
from vault.protocol.queue import chain, ring
from vault.protocol.replies import SENTENCES, Reply, content_in, listed_in, number_in, standing_of
from vault.protocol.standing import Holder, Standing
from vault.protocol.words import checkout_word, claim_word, item_words, name_word, place_word


class ClaimsClient(Session):
    """A designer at a vault's claims."""

    def checkout(self, items: List[str]) -> Standing:
        """Asks for a check-out."""
        line = " ".join(["checkout"] + item_words(items))
        return self._with_way(standing_of(self._change(Command("checkout", line, items=items))))

    def extend(self, claim: str, items: List[str]) -> Standing:
        """Asks for more items for a check-out that is held."""
        line = " ".join(["extend", claim_word(claim)] + item_words(items))
        return standing_of(self._change(Command("extend", line, claim, items=items)))

    def holders(self, place: str) -> List[Holder]:
        """The claims at a place, above it or beneath it, in the order of the queue; none if the server is older and doesn't say."""
        with self._alone():
            return self._line(place_word(place)) or []

    def who(self, place: str) -> List[Tuple[Holder, float]]:
        """The claims at a place, above it or beneath it, in the order of the queue, and since when this client knows each, in seconds."""
        with self._alone():
            line = self.line.at(place_word(place))
            if line is None:
                raise RefusedError(SENTENCES[UNKNOWN_COMMAND], UNKNOWN_COMMAND)
            self.memory.knows(line, place == "/")
            self.memory.save()
            return [(holder, self.memory.known[holder.claim].since) for holder in line]

    def owners(self) -> Set[str]:
        """The designers whose claims stand, and those of claims that this client heard of."""
        with self._alone():
            heard_of = {known.owner for known in self.memory.known.values() if known.owner}
            return heard_of | {holder.owner for holder in self._line("/") or []}

    def held(self, place: str = "/") -> Dict[str, Sequence[str]]:
        """The held check-outs of this designer at a place, above it or beneath it, each with its items."""
        with self._alone():
            line = self._line(place_word(place))
            if line is not None:
                return {holder.claim: holder.items for holder in line if holder.held and holder.is_check_out_of(self.designer)}
            stand = {name: self._standing_and_whose(name) for name in self.memory.claims}
            return {name: claim.items for name, claim in self.memory.claims.items() if stand[name].held and not stand[name].anothers}

    def checkin(self, claim: str) -> int:
        """Makes versions of a check-out's drafts, answers how many, and gives the check-out up."""
        return number_in(self._end(Command("checkin", "checkin " + checkout_word(claim), claim)), 2)

    def abandon(self, claim: str) -> None:
        """Gives a check-out up, with its drafts."""
        self._end(Command("abandon", "abandon " + checkout_word(claim), claim))

    def state(self, claim: str) -> Standing:
        """How a claim stands."""
        claim_word(claim)
        with self._alone():
            return self._standing(claim)

    def standing(self, claim: str) -> Standing:
        """How a claim stands, with who is in its way, as far as the server says."""
        return self._with_way(self.state(claim))

    def turn(self, claim: str, seconds: float) -> Optional[Standing]:
        """How a claim stands, as soon as it is held or gone, or after the time that the server lets one wait. Nothing if the server
        doesn't answer within some seconds, or doesn't know this question. Other commands of this designer may be said meanwhile."""
        reply = self.link.read_within("wait " + claim_word(claim), seconds)
        if reply is not None and reply.code == GONE:
            return Standing(claim, False, gone=True)
        return standing_of(reply) if reply is not None and reply.ok else None

    def chain(self, claim: str) -> List[Standing]:
        """How a claim stands, and each before it that it waits for in turn."""
        found = [self.state(claim)]
        while found[-1].behind and len(found) < 256:
            found.append(self.state(found[-1].behind))
        return found

    def give(self, claim: str, receiver: str) -> None:
        """Gives a check-out to another designer, with its place in the queue, its drafts and its note."""
        if name_word(receiver) == self.designer:
            raise MisusedError(f"You are {receiver}. Name the designer who is to have {claim}.")
        self._end(Command("give", f"give {checkout_word(claim)} {receiver}", claim))

    def set_note(self, claim: str, note: bytes) -> None:
        """Writes a note on a check-out, in place of the one before."""
        if len(note) > NOTE_BYTES:
            raise MisusedError(f"The note has {len(note)} bytes, and a note has at most {NOTE_BYTES}. Say it shorter.")
        self._change(Command("note", f"note {checkout_word(claim)} {note.hex() or '-'}", claim))

    def note(self, claim: str) -> bytes:
        """The note on anyone's check-out."""
        with self._alone():
            return content_in(self.link.read("note " + checkout_word(claim)))

    def mine(self, named: Sequence[str] = ()) -> List[Tuple[Standing, Claim]]:
        """The check-outs of this designer that stand, wherever they were asked for, and those remembered here that are gone or another's.
        Such a one is listed once, and again as long as a copy of a draft that isn't a version is kept for it; one that was given away, until it
        is checked in. At an older server these are the remembered check-outs, and those that are named, which are remembered from then on."""
        with self._alone():
            self._take_up(named)
            line = self._line("/")
            found = self._remembered() if line is None else self._stand(line)
            for standing, claim in found:
                given_and_ended = standing.gone and claim.given and self.recovery.have_newer_versions(claim)
                if given_and_ended or ((standing.gone or standing.anothers) and self.recovery.are_versions(claim)):
                    del self.memory.claims[standing.claim]
                    claim.drafts = {}
            self.memory.save()
        return found

    def forget(self, claim: str) -> None:
        """Forgets a check-out that is gone or another's, and the copies of its drafts."""
        with self._alone():
            standing = self._standing_and_whose(checkout_word(claim))
            if not (standing.gone or standing.anothers):
                raise MisusedError(f"{claim} stands, so it is not forgotten. `vault abandon {claim}` gives it up.")
            self.memory.claims.pop(claim, None)
            self.memory.save()

    def hold(self, items: List[str]) -> Standing:
        """Asks for a claim that ends with this connection. It is asked only once, since a lost connection has ended it."""
        line = " ".join(["hold"] + item_words(items))
        with self._alone():
            try:
                reply = self.link.connected().ask(line)
            except LostError as lost:
                raise UnreachableError(f"The connection ended ({lost}), and the hold with it. Ask again.") from lost
            self.held_on = self.link.connection
            if not reply.ok:
                raise reply.refusal()
            standing = standing_of(reply)
            with contextlib.suppress(VaultError):
                return standing._replace(before=tuple(self.line.of([standing.behind] if standing.behind else []) or []))
        return standing

    def hold_stands(self, claim: str) -> Standing:
        """How a hold of this client stands. It is asked only on the connection of the hold, since after a restart of the server
        its number may be another's."""
        gone = Standing(claim_word(claim), False, gone=True)
        if self.link.connection is None or self.link.connection is not self.held_on:
            return gone
        try:
            reply = self.link.connection.ask("state " + claim)
        except LostError:
            self.link.drop()
            return gone
        if reply.code == GONE:
            return gone
        if not reply.ok:
            raise reply.refusal()
        return standing_of(reply)

    def _end(self, command: Command) -> Reply:
        """Ends a check-out of this designer, or gives it to another. First asks how it stands, and before a check-in which drafts it has: if
        it is gone later, or another's, then by this command."""
        with self._alone(changes=True):
            before = self._done_before(command)
            if before is not None:
                return before
            stands = self.link.read(whose(command.claim))
            if stands.code == GONE:
                raise self.recovery.gone(command.claim, stands)
            if stands.code == ANOTHERS:
                raise stands.refusal()
            if command.kind == "checkin":
                command.drafts = self._drafts_there(command.claim)
            return self._carry_out(command)

    def _drafts_there(self, claim: str) -> Optional[Dict[str, Draft]]:
        """The drafts of a check-out that the server has, wherever they were put; nothing if it is older and doesn't tell them."""
        listed = self.link.read("drafts " + claim)
        if not listed.ok:
            return None
        places = listed_in(listed, PLACE)
        contents, counts = self.link.asked(f"draft {claim}", places), self.link.asked("count", places)
        return {place: Draft(content_in(content).hex(), "", number_in(count, 1) if count.ok else None)
                for place, content, count in zip(places, contents, counts)}

    def _with_way(self, standing: Standing) -> Standing:
        """A standing with who is in the way, as far as the server says."""
        line = None
        if standing.behind:
            with contextlib.suppress(VaultError), self._alone():
                line = self._line("/")
        now = [holder for holder in line or [] if holder.claim == standing.claim]
        if line is None or not now:
            return standing
        return standing._replace(held=now[0].held, behind=now[0].behind, before=tuple(chain(line, standing.claim)),
                                 ring=tuple(ring(line, standing.claim)))

    def _take_up(self, named: Sequence[str]) -> None:
        """Remembers check-outs that are this designer's."""
        for name in named:
            reply = self.link.read(whose(checkout_word(name)))
            if reply.code not in MINE:
                raise reply.refusal()
            self.memory.claims.setdefault(name, Claim([]))

    def _remembered(self) -> List[Tuple[Standing, Claim]]:
        """The check-outs remembered, each asked again."""
        found = [(self._standing_and_whose(name), claim) for name, claim in sorted(self.memory.claims.items(), key=by_number)]
        for standing, claim in found:
            if not (standing.gone or standing.anothers):
                claim.given = ""
        return found

    def _stand(self, line: Sequence[Holder]) -> List[Tuple[Standing, Claim]]:
        """The check-outs of this designer among all claims, which are remembered from now on, and the remembered ones that are gone."""
        named = {holder.claim: holder for holder in line}
        mine = [holder for holder in line if holder.is_check_out_of(self.designer)]
        told = dict(zip((holder.claim for holder in mine), self.link.asked("drafts", [holder.claim for holder in mine])))
        for holder in mine:
            before = self.memory.claims.get(holder.claim, Claim([]))
            if Counter(before.items) - Counter(holder.items):
                self.recovery.put_aside(holder.claim)
            kept = self.memory.claims.setdefault(holder.claim, Claim([]))
            kept.items, kept.given = list(holder.items), ""
        return [(standing_in(named, name, self.designer, told.get(name)), claim)
                for name, claim in sorted(self.memory.claims.items(), key=by_number)]

    def _standing(self, claim: str) -> Standing:
        reply = self.link.read("state " + claim)
        if reply.ok:
            return standing_of(reply)
        if reply.code == GONE:
            return Standing(claim, False, gone=True)
        raise reply.refusal()

    def _standing_and_whose(self, claim: str) -> Standing:
        """How a check-out stands, and whether it is another designer's."""
        standing = self._standing(claim)
        code = self.link.read(whose(claim)).code
        return standing._replace(gone=standing.gone or code == GONE, anothers=code == ANOTHERS)


def standing_in(named: Dict[str, Holder], claim: str, designer: str, drafts: Optional[Reply]) -> Standing:
    """How a check-out stands among all claims, by their names."""
    holder = named.get(claim)
    if holder is None:
        return Standing(claim, False, gone=True)
    before = [named[holder.behind]] if holder.behind in named else []
    return Standing(claim, holder.held, holder.behind, anothers=holder.owner != designer, before=tuple(before),
                    drafts=listed_in(drafts, PLACE) if drafts and drafts.ok else None)
