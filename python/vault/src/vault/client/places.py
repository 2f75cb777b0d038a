"""What a designer does with places: they are made, listed and looked for."""

from typing import Dict, Iterator, List, Sequence, Tuple

from vault.client.memory import Command
from vault.client.session import Session
from vault.protocol.grammar import NAMES, NO_PART, NO_PLACE
from vault.protocol.replies import names_in, number_in
from vault.protocol.words import checkout_word, place_word

# From how many places on it is told how many were found so far.
MANY = 512


class PlacesClient(Session):
    """A designer at a vault's places."""

    def make(self, place: str, claim: str = "") -> None:
        """Makes a place, in a check-out's name if one is given."""
        self._make("make", place, claim)

    def nest(self, place: str, claim: str = "") -> None:
        """Makes an assembly inside an assembly, in a check-out's name if one is given."""
        self._make("nest", place, claim)

    def tree(self, place: str = "/") -> Iterator[str]:
        """The places beneath one, each after the one that it stands in."""
        beneath: Dict[str, List[str]] = {}
        level = [place_word(place)]
        with self._alone():
            while level:
                for above, reply in zip(level, self.link.asked("list", level)):
                    beneath[above] = [place_word(above.rstrip("/") + "/" + name) for name in names_in(reply)]
                level = [each for above in level for each in beneath[above] if each.count("/") < NAMES]
                found = sum(map(len, beneath.values()))
                if found >= MANY:
                    self.progress(f"{found:,} places so far")
        yield from in_order(beneath, place)

    def is_assembly(self, place: str) -> bool:
        """Whether a place is there, and is no part."""
        with self._alone():
            return self.link.read("count " + place_word(place)).code == NO_PART

    def is_there(self, place: str) -> bool:
        """Whether there is a place."""
        with self._alone():
            reply = self.link.read("count " + place_word(place))
        if not reply.ok and reply.code not in (NO_PLACE, NO_PART):
            raise reply.refusal()
        return reply.code != NO_PLACE

    def names(self, place: str) -> List[str]:
        """The names of the places right beneath one."""
        with self._alone():
            return list(names_in(self.link.read("list " + place_word(place))))

    def numbers(self, places: Sequence[str]) -> Dict[str, int]:
        """Of some places those that are parts, each with the number of its versions."""
        with self._alone():
            return {place: number_in(reply, 1) for place, reply in zip(places, self.link.asked("count", places)) if reply.ok}

    def survey(self, place: str) -> Tuple[List[str], Dict[str, int]]:
        """The assemblies from a place on, itself first, and the parts in them, each with the number of its versions."""
        assemblies: List[str] = []
        parts: Dict[str, int] = {}
        level = [place_word(place)]
        with self._alone():
            while level:
                inner = []
                for name, reply in zip(level, self.link.asked("count", level)):
                    if reply.ok:
                        parts[name] = number_in(reply, 1)
                    elif reply.code == NO_PART:
                        inner.append(name)
                    else:
                        raise reply.refusal()
                assemblies += inner
                level = [place_word(above.rstrip("/") + "/" + name) for above, reply in zip(inner, self.link.asked("list", inner))
                         for name in names_in(reply)]
        return assemblies, parts

    def _make(self, kind: str, place: str, claim: str) -> None:
        words = [kind, place_word(place)] + ([checkout_word(claim)] if claim else [])
        self._change(Command(kind, " ".join(words), claim, place))


def in_order(beneath: Dict[str, List[str]], place: str) -> Iterator[str]:
    """The places beneath one, each after the one that it stands in, by those that stand right beneath each."""
    for each in beneath.get(place, ()):
        yield each
        yield from in_order(beneath, each)
