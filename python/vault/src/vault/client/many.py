"""What a designer does with many places at once: all is said on one connection, in a few goes, and said again only where it wasn't done."""

from typing import Callable, Dict, Iterator, List, NamedTuple, Optional, Sequence, Tuple, TypeVar

from vault.client.memory import Claim, Command, Draft
from vault.client.parts import PartsClient
from vault.client.places import PlacesClient
from vault.errors import LostError, NotKnownError, RefusedError, UnreachableError
from vault.protocol.connection import Patience
from vault.protocol.grammar import BROKEN, FULL, NO_MEMORY, NO_PART
from vault.protocol.replies import SENTENCES, Reply, content_in, number_in
from vault.protocol.words import checkout_word, place_word

AT_ONCE = 256
# Of how many drafts copies are written down before they are sent.
KEPT_AT_ONCE = 1024
T = TypeVar("T")


class Making(NamedTuple):
    """A place that is made: by `make` or by `nest`."""

    kind: str
    place: str


class Saving(NamedTuple):
    """A draft that is saved, and the file that it is of."""

    place: str
    content: bytes
    source: str


class ManyClient(PlacesClient, PartsClient):
    """A designer who does the same with many places."""

    def make_all(self, wanted: Sequence[Making], claim: str = "") -> Dict[str, RefusedError]:
        """Makes places, in a check-out's name if one is given; answers those that were refused."""
        behind = f" {checkout_word(claim)}" if claim else ""
        lines = {f"{each.kind} {place_word(each.place)}{behind}": each for each in wanted}

        def not_made(left: List[str]) -> List[str]:
            """Of some lines those whose places aren't there."""
            replies = self.link.asked("count", [lines[line].place for line in left])
            return [line for line, reply in zip(left, replies)
                    if not (reply.code == NO_PART if lines[line].kind == "nest" else reply.ok or reply.code == NO_PART)]

        with self._alone():
            return self._all_told({line: each.place for line, each in lines.items()}, not_made)

    def save_all(self, wanted: Sequence[Saving], claim: str) -> Dict[str, RefusedError]:
        """Saves drafts in a check-out, of each of which a copy is kept first; answers those that were refused. A draft whose reply was lost is
        sent again only if the one before it still stands."""
        checkout_word(claim)
        refused: Dict[str, RefusedError] = {}
        with self._alone():
            for batch in batches(wanted, KEPT_AT_ONCE):
                refused.update(self._save_batch(batch, claim))
        return refused

    def _save_batch(self, wanted: Sequence[Saving], claim: str) -> Dict[str, RefusedError]:
        places = [place_word(each.place) for each in wanted]
        before = {place: reply for place, reply in zip(places, self.link.asked(f"draft {claim}", places))}
        counts = dict(zip(places, self.link.asked("count", places)))
        lines = {f"save {claim} {each.place} {each.content.hex() or '-'}": each for each in wanted}
        kept = self.memory.claims.setdefault(claim, Claim([]))
        earlier = dict(kept.drafts)
        for each in wanted:
            count = counts[each.place]
            kept.drafts[each.place] = Draft(each.content.hex(), each.source, number_in(count, 1) if count.ok else None)
        self.memory.save()

        def not_saved(left: List[str]) -> List[str]:
            """Of some lines those whose drafts aren't there, if none but the one before is."""
            replies = self.link.asked(f"draft {claim}", [lines[line].place for line in left])
            return [line for line, reply in zip(left, replies) if self._to_send(lines[line], reply, before[lines[line].place])]

        refused = self._all_told({line: each.place for line, each in lines.items()}, not_saved)
        for place in refused:
            self._drop_copy(claim, place, earlier.get(place))
        if refused:
            self.memory.save()
        return refused

    @staticmethod
    def _to_send(saving: Saving, now: Reply, before: Reply) -> bool:
        """Whether a draft has to be sent again, by the one that is there now and the one that was before."""
        if now.ok and content_in(now) == saving.content:
            return False
        if now.ok and now.words != before.words:
            raise RefusedError(f"Another draft of {saving.place} came meanwhile, from another machine of yours. Look at it, and put again.")
        return True

    def _drop_copy(self, claim: str, place: str, earlier: Optional[Draft]) -> None:
        """Keeps the copy of a draft that was there before, in the place of one that was refused."""
        drafts = self.memory.claims[claim].drafts
        if earlier is not None:
            drafts[place] = earlier
        else:
            drafts.pop(place, None)

    def _all_told(self, lines: Dict[str, str], not_done: Callable[[List[str]], List[str]]) -> Dict[str, RefusedError]:
        """Says lines that change something, each about a place, whatever breaks in between, and answers by place the refusals. What was
        lost is said again only if it turns out not to be done."""
        refused: List[Tuple[str, Reply]] = []
        for number, batch in enumerate(batches(list(lines), AT_ONCE)):
            if number:
                self.progress(f"{number * AT_ONCE:,} of {len(lines):,} so far")
            refused += self._batch_told(batch, not_done)
        known: Dict[str, Optional[RefusedError]] = {}
        return {lines[line]: self._limit_of(line, lines[line], reply, known) or self._refusal(reply, lines[line]) for line, reply in refused}

    def _limit_of(self, line: str, place: str, reply: Reply, known: Dict[str, Optional[RefusedError]]) -> Optional[RefusedError]:
        """The same as `_limit`, asked once for the places beneath one, and for the drafts of a check-out."""
        kind, claim = ("put", line.split()[1]) if line.startswith("save ") else (line.split()[0], "")
        about = claim or place.rpartition("/")[0]
        if about not in known:
            known[about] = self._limit(reply, Command(kind, line, claim, place))
        return known[about]

    def _batch_told(self, batch: Sequence[str], not_done: Callable[[List[str]], List[str]]) -> List[Tuple[str, Reply]]:
        """The same of some lines that are sent at once: those that were refused, with their replies."""
        left, refused, patience = list(batch), [], Patience(self.patience)
        while left:
            replies = self._told_at_once(left, patience)
            if replies is None or any(reply.code == BROKEN for reply in replies):
                self._start_afresh_elsewhere(replies is not None)
                left = self._still_not_done(left, not_done)
                replies = [Reply(False, (str(FULL),))] * len(left)
            self.changed = self.changed or any(reply.ok for reply in replies)
            later = [line for line, reply in zip(left, replies) if reply.code in (FULL, NO_MEMORY)]
            refused += [(line, reply) for line, reply in zip(left, replies) if not reply.ok and reply.code not in (FULL, NO_MEMORY)]
            if later and patience.over():
                raise UnreachableError(f"{SENTENCES[FULL]} {len(later)} of {len(batch)} commands are left: say it again later, and it goes on.")
            if later:
                patience.pause()
            left = later
        return refused

    def _told_at_once(self, lines: List[str], patience: Patience) -> Optional[List[Reply]]:
        """The replies to lines that are sent at once, or nothing if the connection ended before the last."""
        try:
            return self.link.connected(len(lines)).ask_all(lines)
        except LostError as error:
            if patience.over():
                raise NotKnownError(f"The connection ended ({error}), so it isn't known how many of these commands were done. Say it again once"
                                    " the server answers: it finds out first.") from error
            self.progress(f"the connection ended ({error}); finding out what was done")
            return None

    def _start_afresh_elsewhere(self, broken: bool) -> None:
        """Drops the connection, to a server that is broken for another one, and lets what is under way arrive."""
        if broken:
            self.link.pass_over()
        self._start_afresh()

    def _still_not_done(self, left: List[str], not_done: Callable[[List[str]], List[str]]) -> List[str]:
        """Those of some lines that turn out not to be done."""
        try:
            found = not_done(left)
        except UnreachableError as error:
            raise NotKnownError(f"It isn't known how many of these commands were done. {error} Say it again once the server answers: it finds"
                                " out first.") from error
        self.changed = self.changed or len(found) < len(left)
        return found


def batches(every: Sequence[T], size: int) -> Iterator[Sequence[T]]:
    """Some things, so many at a time."""
    for first in range(0, len(every), size):
        yield every[first:first + size]
