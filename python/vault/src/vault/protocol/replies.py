"""The server's lines, taken apart, and the sentences for its refusals."""

import re
from typing import Dict, List, NamedTuple, Optional, Tuple

from vault.errors import LostError, NotUnderstoodError, RefusedError
from vault.protocol.grammar import CLAIM, CODE, CONTENT_BYTES, COVERED, NAME, QUEUED, SHOWN
from vault.protocol.standing import Holder, Standing

# Replies each of whose words may name a claim; in others a designer or a place may be called c3.
NAMING = ("held", "queued", "claims")
SENTENCES: Dict[int, str] = {
    10: "The server does not know this command: it is older than this client. Ask whoever runs it for a newer one; nothing was"
        " changed.",
    11: "The server knows no session on this connection. Run the command again.",
    12: "This connection has a session already. Run the command again.",
    20: "There is no such place. Look with `vault tree`.",
    21: "That place is there already. Look with `vault tree`.",
    22: "That is not possible there: only parts have versions, nothing stands beneath a part, and an assembly inside an assembly has three"
        " to six names.",
    23: "{claim} covers the place above it. Wait until it is gone, or, if it is yours, add `--claim {claim}`.",
    30: "There is no such check-out: it was checked in or given up. `vault mine` shows yours.",
    31: "That check-out is another designer's, or your ssh key only lets you look. `vault mine` shows yours.",
    32: "That check-out is queued, not held. `vault wait` waits for it.",
    33: "{claim} is in the way. Wait until it is gone, or ask its designer; nothing was changed.",
    34: "The check-out does not take in this place for change. `vault extend` asks for it.",
    36: "A check-out has one to eight items, those of its extensions among them. Ask for a place further up.",
    40: "There is no such version. `vault history` lists those that there are.",
    50: "A limit of the vault is reached: so many bytes, versions, places, check-outs or designers. Ask whoever runs it;"
        " docs/PROTOCOL.md has them all. Nothing was changed.",
    80: "The server takes no more commands at this moment. Try again later; nothing was changed.",
    81: "The server has no memory for this now. Try again later; nothing was changed.",
    82: "The server's disk failed. Ask whoever runs it to mend that and to start it again.",
}


class Reply(NamedTuple):
    """One line of the server, taken apart."""

    ok: bool
    words: Tuple[str, ...]

    @property
    def code(self) -> Optional[int]:
        """The number of a refusal."""
        return None if self.ok else int(self.words[0])

    def claims(self) -> List[str]:
        """The claims that the line names."""
        words: Tuple[str, ...] = self.words if not self.ok or self.words[0] in NAMING else ()
        if self.ok and self.words[0] == "claim":
            words = self.words[1:2] + self.words[5:6] if "behind" in self.words[3:5] else self.words[1:2]
        return [word for word in words if CLAIM.fullmatch(word)]

    def refusal(self) -> RefusedError:
        """The refusal as an error with a sentence."""
        named = self.claims()
        sentence = SENTENCES.get(self.code or 0)
        if sentence is None:
            return RefusedError("The server refused with " + " ".join(self.words) + ".", self.code)
        return RefusedError(sentence.format(claim=named[0] if named else "A check-out"), self.code)


def read_reply(line: bytes) -> Reply:
    """Takes a line of the server apart; a line that is none ends the connection."""
    text = line.decode("ascii", "replace").rstrip("\n")
    words = text.split() if text.isascii() and text.isprintable() else []
    if len(words) >= 2 and words[0] == "OK":
        return Reply(True, tuple(words[1:]))
    if len(words) >= 2 and words[0] == "ERR" and CODE.fullmatch(words[1]):
        return Reply(False, tuple(words[1:]))
    raise LostError("what answered is no vault server")


def refusal_of(reply: Reply, claim: str) -> RefusedError:
    """A refusal of what a claim was named for: where it waits still, by its name."""
    if reply.code != QUEUED or not claim:
        return reply.refusal()
    return RefusedError(f"{claim} waits still, so nothing was changed. `vault wait {claim}` tells when it is held.", reply.code)


def refusal_by(reply: Reply, holder: Holder, designer: str, place: str) -> RefusedError:
    """A refusal that names a claim in the way of a command at a place, with whose it is and what it has."""
    own = holder.owner == designer
    advice = "Wait until it is gone" + ("" if own else f", or ask {holder.owner}")
    if reply.code == COVERED and holder.is_check_out_of(designer):
        advice = own_in_the_way(holder, place.rpartition("/")[0] or "/")
    begins = "The place above it is in" if reply.code == COVERED else "In the way is"
    refused = RefusedError(f"{begins} {holder.in_words(designer)}. {advice}; nothing was changed.", reply.code)
    refused.fields = {"in_the_way": holder.fields()}
    return refused


def own_in_the_way(holder: Holder, above: str) -> str:
    """What a designer does whose own check-out covers the place in which something is to be made."""
    if holder.changes(above):
        return f"Add `--claim {holder.claim}`"
    return f"It only looks: `vault extend {holder.claim} w:{above}` has it change that, too, or `vault abandon {holder.claim}` gives it up"


def number_in(reply: Reply, at: int) -> int:
    """The number that is such a word of a reply."""
    word = word_in(reply, at)
    if not re.fullmatch(r"[0-9]{1,10}", word):
        raise odd(reply)
    return int(word)


def word_in(reply: Reply, at: int) -> str:
    """A word of a reply."""
    if at >= len(reply.words):
        raise odd(reply)
    return reply.words[at]


def content_in(reply: Reply) -> bytes:
    """The bytes in a reply, of a version or of a note."""
    if not reply.ok:
        raise reply.refusal()
    word = word_in(reply, 1)
    if word == "-":
        return b""
    if not re.fullmatch(r"([0-9a-f]{2}){1,%d}" % CONTENT_BYTES, word):
        raise odd(reply)
    return bytes.fromhex(word)


def names_in(reply: Reply) -> Tuple[str, ...]:
    """The names that a reply lists."""
    return listed_in(reply, NAME)


def listed_in(reply: Reply, form: "re.Pattern[str]") -> Tuple[str, ...]:
    """The words that a reply lists, each of that form."""
    if not reply.ok:
        raise reply.refusal()
    found = reply.words[2:]
    if number_in(reply, 1) != len(found) or not all(form.fullmatch(word) for word in found):
        raise odd(reply)
    return found


def holder_in(reply: Reply, claim: str) -> Holder:
    """The claim that a reply shows, which must be this one."""
    if not reply.ok:
        raise reply.refusal()
    found = SHOWN.fullmatch(" ".join(reply.words))
    if found is None or found["claim"] != claim:
        raise odd(reply)
    return Holder(claim, found["owner"], found["behind"] is None, tuple(found["items"].split()), found["behind"] or "")


def odd(reply: Reply) -> NotUnderstoodError:
    """Says that a reply is none of the protocol."""
    said = " ".join(reply.words)[:60]
    return NotUnderstoodError(f"The server said {said!a}, which this client does not know: it may be newer than the client, or no vault server.")


def standing_of(reply: Reply) -> Standing:
    """The standing in a reply."""
    named = reply.claims()
    if not named:
        raise odd(reply)
    return Standing(named[0], reply.words[0] == "held", named[1] if len(named) > 1 else "")


def claim_in(reply: Reply) -> str:
    """The claim whose standing a reply tells."""
    return standing_of(reply).claim
