"""What a designer does with parts: drafts are saved and read, and versions are read."""

from typing import Dict, Iterator, List, Optional, Sequence, Tuple

from vault.client.claims import ClaimsClient
from vault.client.memory import Claim, Command, Draft
from vault.client.recovery import MINE, hash_of_draft, whose
from vault.errors import MisusedError, RefusedError, UnreachableError
from vault.files.text import shown
from vault.protocol.grammar import CONTENT_BYTES, GONE, GREATEST, NO_VERSION, PLACE, UNKNOWN_COMMAND, under
from vault.protocol.replies import content_in, listed_in, number_in, refusal_of
from vault.protocol.words import checkout_word, place_word


# After how many versions of a long history it is said how far it is.
VERSIONS_AT_ONCE = 64


class PartsClient(ClaimsClient):
    """A designer at a vault's parts."""

    def put(self, place: str, content: bytes, claim: str = "", source: Optional[str] = None, keep: bool = True) -> str:
        """Saves a draft of a part, keeps a copy of it if that is asked, and answers the check-out that it belongs to. Where no source is
        given, the one of the draft before stays."""
        place_word(place)
        if len(content) > CONTENT_BYTES:
            raise MisusedError(f"The content has {len(content):,} bytes, and a part has at most {CONTENT_BYTES:,}."
                               " Split it into more parts.")
        with self._alone(changes=True):
            claim = checkout_word(claim) if claim else self._claim_for(place)
            counted, there = self.link.read_all(["count " + place, f"draft {claim} {place}"])
            versions = number_in(counted, 1) if counted.ok else None
            line = f"save {claim} {place} {content.hex() or '-'}"
            command = Command("put", line, claim, place, replaces=hash_of_draft(there) if there.ok or there.code == NO_VERSION else None)
            before = self.memory.claims.get(claim)
            before = before.copy() if before is not None else None
            kept = self.memory.claims.setdefault(claim, Claim([]))
            earlier = kept.drafts[place].source if place in kept.drafts else ""
            if keep:
                kept.drafts[place] = Draft(content.hex(), earlier if source is None else source, versions)
            try:
                self._carry_out(command)
            except (RefusedError, UnreachableError):
                self._take_back(claim, before)
                raise
        return claim

    def claim_for(self, place: str, claim: str = "") -> str:
        """The check-out that a draft of a part would belong to: the one that is named, or else the remembered one that covers the part
        for change. This is found out first, so that nobody sends long files in vain."""
        place_word(place)
        with self._alone():
            self._count(place)
            found = checkout_word(claim) if claim else self._claim_for(place)
            whose_it_is = self.link.read(whose(found))
            if whose_it_is.code != MINE[0]:
                raise refusal_of(whose_it_is, found)
        return found

    def get(self, place: str, version: Optional[int] = None) -> bytes:
        """A version of a part, the last one where none is named."""
        return self.version(place, version)[1]

    def last(self, place: str) -> Optional[Tuple[int, bytes]]:
        """The last version of a part with its number, or nothing if there is no such part, or no version of it."""
        with self._alone():
            counted = self.link.read("count " + place_word(place))
            number = number_in(counted, 1) if counted.ok else 0
            return (number, content_in(self.link.read(f"fetch {place} {number}"))) if number else None

    def latest(self, place: str, claim: str) -> bytes:
        """The draft of a part in a check-out, or else its last version; nothing if there is neither."""
        with self._alone():
            counted, there = self.link.read_all(["count " + place_word(place), f"draft {checkout_word(claim)} {place}"])
            if there.ok:
                return content_in(there)
            number = number_in(counted, 1) if counted.ok else 0
            return content_in(self.link.read(f"fetch {place} {number}")) if number else b""

    def sources(self, claim: str) -> Dict[str, str]:
        """The files from which drafts of a check-out were put here last, by place."""
        with self._alone():
            kept = self.memory.claims.get(checkout_word(claim), Claim([]))
            return {place: draft.source for place, draft in kept.drafts.items() if draft.source}

    def version(self, place: str, version: Optional[int] = None) -> Tuple[int, bytes]:
        """A version of a part with its number, the last one if none is named."""
        place_word(place)
        if version is not None and not 1 <= version <= GREATEST:
            raise MisusedError(f"`{version}` is no version: versions of a part are 1, 2 and so on.")
        with self._alone():
            number = self._count(place) if version is None else version
            if version is None and number == 0:
                raise RefusedError(f"{place} has no version yet. One comes with a `vault put` and a `vault checkin`.", NO_VERSION)
            return number, content_in(self.link.read(f"fetch {place} {number}"))

    def history(self, place: str) -> Iterator[Tuple[int, bytes]]:
        """Each version of a part with its number, from 1 on."""
        place_word(place)
        with self._alone():
            count = self._count(place)
            for first in range(1, count + 1, VERSIONS_AT_ONCE):
                numbers = range(first, min(first + VERSIONS_AT_ONCE, count + 1))
                if first > 1:
                    self.progress(f"{first - 1:,} of {count:,} versions so far")
                replies = self.link.read_all([f"fetch {place} {number}" for number in numbers])
                yield from ((number, content_in(reply)) for number, reply in zip(numbers, replies))

    def contents(self, wanted: Sequence[Tuple[str, int]]) -> List[bytes]:
        """The contents of some versions, each named by its part and its number."""
        with self._alone():
            return [content_in(reply) for reply in self.link.asked("fetch", [f"{place} {number}" for place, number in wanted])]

    def confirmed_store(self, named: str = "") -> Tuple[str, str]:
        """The address of a store that this designer has confirmed here, or nothing, and this machine's own way to it, if it has one. The one that
        the vault names counts, too, where this designer has confirmed it at another vault: it is said once, and remembered."""
        with self._alone():
            way = self.memory.confirmed_elsewhere(self.designer, named) if named and named != self.memory.store else None
            if way is not None:
                self.notice(f"This vault keeps its files at {shown(named)}, too, which you follow already.")
                self.memory.store, self.memory.way = named, way
                self.memory.save()
            return self.memory.store, self.memory.way

    def confirm_store(self, address: str, way: str = "") -> None:
        """Remembers the address of a store that this designer follows from now on, and this machine's own way to it."""
        with self._alone():
            self.memory.store, self.memory.way = address, way
            self.memory.save()

    def drafts(self, claim: str) -> List[str]:
        """The parts of which a check-out of this designer has drafts."""
        with self._alone():
            return list(listed_in(self.link.read("drafts " + checkout_word(claim)), PLACE))

    def draft(self, claim: str, place: str) -> bytes:
        """A draft of a check-out of this designer, as the server has it."""
        with self._alone():
            reply = self.link.read(f"draft {checkout_word(claim)} {place_word(place)}")
        if reply.code == NO_VERSION:
            raise RefusedError(f"{claim} has no draft of {place}. `vault drafts {claim}` shows of which parts it has drafts.", reply.code)
        return content_in(reply)

    def all_drafts(self, claim: str) -> Dict[str, bytes]:
        """The drafts of a check-out of this designer by place, wherever they were put; of a server that is older and doesn't tell them, the
        copies that are kept here."""
        with self._alone():
            listed = self.link.read("drafts " + checkout_word(claim))
            if listed.code == UNKNOWN_COMMAND:
                return self._kept_drafts(claim)
            if listed.code == GONE:
                raise self.recovery.gone(claim, listed)
            places = listed_in(listed, PLACE)
            return {place: content_in(reply) for place, reply in zip(places, self.link.asked(f"draft {claim}", places))}

    def kept_drafts(self, claim: str) -> Dict[str, bytes]:
        """The copies of drafts that this client keeps for a check-out, by place."""
        with self._alone():
            return self._kept_drafts(checkout_word(claim))

    def _kept_drafts(self, claim: str) -> Dict[str, bytes]:
        """The copies of drafts that are kept for a check-out, by place."""
        kept = self.memory.claims.get(claim, Claim([]))
        return {place: bytes.fromhex(draft.content) for place, draft in kept.drafts.items()}

    def _take_back(self, name: str, before: Optional[Claim]) -> None:
        """Forgets the copy of a draft that was refused: what is remembered of the check-out is as it was before."""
        if before is None:
            del self.memory.claims[name]
        else:
            self.memory.claims[name] = before
        self.memory.save()

    def _claim_for(self, place: str) -> str:
        """The check-out of this designer that covers a place for change: the one that is held, or else the first that waits."""
        line = self._line(place)
        if line is not None:
            told = [holder for holder in line if holder.is_check_out_of(self.designer) and holder.changes(place)]
            fitting = [holder.claim for holder in sorted(told, key=lambda holder: not holder.held)][:1]
        else:
            fitting = self._remembered_for(place)
        if len(fitting) == 1:
            return fitting[0]
        if fitting:
            raise MisusedError(f"{' and '.join(fitting)} take in {place}. Name one with `--claim`.")
        if line is not None:
            raise MisusedError(f"No check-out of yours takes in {place} for change. `vault checkout w:{place}` asks for one.")
        raise MisusedError(f"No check-out that this client remembers takes in {place} for change. `vault checkout w:{place}` asks"
                           " for one, and `--claim` names one that was made elsewhere.")

    def _remembered_for(self, place: str) -> List[str]:
        """The remembered check-outs that cover a place for change and stand."""
        fitting = [name for name, claim in self.memory.claims.items()
                   if not claim.given and any(item[0] == "w" and under(place, item[2:]) for item in claim.items)]
        return [name for name in fitting if self.link.read(whose(name)).code in MINE]

    def _count(self, place: str) -> int:
        reply = self.link.read("count " + place)
        if not reply.ok:
            raise reply.refusal()
        return number_in(reply, 1)
