"""Which limit of a vault a refusal is about: how full that is, what helps, and who can."""

from vault.client.memory import Command
from vault.protocol.connection import Link
from vault.protocol.grammar import BENEATH, CLAIMS, DRAFTS, GREATEST, PLACE, PLACES, VERSIONS, WEIGHT
from vault.protocol.replies import Reply, listed_in, number_in

ANOTHER = "Ask whoever runs it for another vault; nothing was changed."


def limit_in_words(link: Link, command: Command) -> str:
    """The limit that keeps a command from being done, in words; nothing if it isn't one that can be counted."""
    if command.kind in ("make", "nest"):
        return limit_of_places(link, command.place.rpartition("/")[0] or "/")
    if command.kind == "put":
        return limit_of_drafts(link, command.claim)
    if command.kind == "checkin":
        return limit_of_versions(link, command.claim)
    return limit_of_claims(link) if command.kind == "checkout" else ""


def limit_of_places(link: Link, above: str) -> str:
    """Why no further place is made in one."""
    if counted(link.read(f"list {above}")) >= BENEATH:
        return (f"{above} has {BENEATH} places right beneath it, and a place has at most that many. Make further ones in"
                f" {'a project' if above == '/' else 'an assembly'} of their own; nothing was changed.")
    return f"The vault has {PLACES:,} places with the library, and has at most that many, for good. {ANOTHER}"


def limit_of_drafts(link: Link, claim: str) -> str:
    """Why a check-out gets no further draft."""
    if counted(link.read(f"drafts {claim}")) >= DRAFTS:
        return (f"{claim} has {DRAFTS} drafts, and a check-out has at most that many. Check it in, and put the others in the next one; nothing was"
                " changed.")
    return (f"With this draft the contents of all versions and drafts would have more than {WEIGHT:,} bytes, the most that a vault has. `vault"
            f" abandon` of a check-out gives back what its drafts take; versions stay for good. {ANOTHER}")


def limit_of_versions(link: Link, claim: str) -> str:
    """Why a check-out isn't checked in: one of its parts has as many versions as it can."""
    listed = link.read(f"drafts {claim}")
    places = listed_in(listed, PLACE) if listed.ok else ()
    full = [place for place, reply in zip(places, link.asked("count", places)) if counted(reply) >= VERSIONS]
    return (f"{full[0]} has {VERSIONS:,} versions, and a part has at most that many, for good. Make another part of it, and put its file there;"
            f" `vault abandon {claim}` gives this check-out up, with its drafts. Nothing was changed.") if full else ""


def limit_of_claims(link: Link) -> str:
    """Why nothing more is checked out."""
    if counted(link.read("claims /")) >= CLAIMS:
        return (f"The vault has {CLAIMS} check-outs and holds, and has at most that many at once. `vault who /` shows whose they are: one has to be"
                " checked in or given up first; nothing was changed.")
    return f"The vault has given check-outs all numbers up to {GREATEST:,}, for good. {ANOTHER}"


def counted(reply: Reply) -> int:
    """How many a reply lists; none if it is a refusal."""
    return number_in(reply, 1) if reply.ok else 0
