"""Claims and how they stand, in words and for --json."""

from typing import Any, Dict, NamedTuple, Optional, Tuple

from vault.protocol.grammar import CHECKOUT, under


class Holder(NamedTuple):
    """A claim with whose it is, whether it is held or queued behind another, and what it asked for."""

    claim: str
    owner: str
    held: bool
    items: Tuple[str, ...]
    behind: str = ""

    def changes(self, place: str) -> bool:
        """Whether the claim covers a place for change."""
        return any(item[0] == "w" and under(place, item[2:]) for item in self.items)

    def fields(self) -> Dict[str, Any]:
        """The claim for --json."""
        return {"claim": self.claim, "owner": self.owner, "standing": "held" if self.held else "queued", "behind": self.behind or None,
                "items": list(self.items)}

    def is_check_out_of(self, designer: str) -> bool:
        """Whether it is a check-out, and this designer's."""
        return self.owner == designer and CHECKOUT.fullmatch(self.claim) is not None

    def in_words(self, designer: str) -> str:
        """The claim, whose it is and what it has, as this designer is told."""
        does = who_does(self.owner, "hold" if self.held else "wait", designer)
        return f"{self.claim}, {'which' if self.held else 'for which'} {does}: {' '.join(self.items)}"


def who_does(owner: str, what: str, designer: str) -> str:
    """A designer and what that one does; `you` if it is the designer who reads it."""
    return f"you {what}" if owner == designer else f"{owner} {what}s"


class Wait(NamedTuple):
    """A claim that another one waits for, by the place of the first at which they meet."""

    before: Holder
    place: str
    waiting: Holder

    def fields(self) -> Dict[str, Any]:
        """The wait for --json."""
        return {"claim": self.before.claim, "owner": self.before.owner, "place": self.place, "waiting": self.waiting.claim,
                "waits": self.waiting.owner}

    def in_words(self, designer: str) -> str:
        """Who holds what, and who waits for it."""
        held = who_does(self.before.owner, "hold" if self.before.held else "wait", designer)
        return (f"{held}{'' if self.before.held else ' earlier for'} {self.place}, for which"
                f" {who_does(self.waiting.owner, 'wait', designer)}")


class Standing(NamedTuple):
    """How a claim stands: held, or queued behind another, or gone if it is neither; and whether it is known to be another designer's. As
    far as the server says, for a queued claim: each claim before it that it waits for in turn, and where designers wait for each other in
    a ring; for a check-out of one's own: the parts that it has drafts of."""

    claim: str
    held: bool
    behind: str = ""
    gone: bool = False
    anothers: bool = False
    before: Tuple[Holder, ...] = ()
    ring: Tuple[Wait, ...] = ()
    drafts: Optional[Tuple[str, ...]] = None

    def sentence(self, designer: str = "") -> str:
        """The standing in words, as this designer is told."""
        if self.gone:
            return f"{self.claim} is gone."
        if self.anothers:
            return f"{self.claim} is another designer's."
        if self.held:
            return f"{self.claim} is held."
        return f"{self.claim} is queued behind {self.before[0].in_words(designer) if self.before else self.behind}."

    def fields(self) -> Dict[str, Any]:
        """The standing for --json."""
        return {"claim": self.claim, "standing": "gone" if self.gone else "held" if self.held else "queued", "behind": self.behind or None,
                "anothers": self.anothers, "before": [holder.fields() for holder in self.before],
                "ring": [wait.fields() for wait in self.ring]}

    def chain_in_words(self, designer: str) -> str:
        """The standing in words, and those of the claims before it that it waits for in turn."""
        queued = [f"{one.claim} is queued behind {other.in_words(designer)}." for one, other in zip(self.before, self.before[1:])]
        return " ".join([self.sentence(designer), *queued])

    def ring_in_words(self, designer: str) -> str:
        """Where designers wait for each other in a ring, if they do."""
        said = "; ".join(wait.in_words(designer) for wait in self.ring)
        return said[:1].upper() + said[1:] + "." if said else ""
