"""What became of a command whose answer was lost: found out by questions that change nothing."""

from typing import Callable, List, Optional, Sequence, Tuple

from vault.client.memory import Claim, Command, Memory, command_word
from vault.errors import NotKnownError, RefusedError, VaultError
from vault.files.hashes import sha256_of
from vault.protocol.connection import Link
from vault.protocol.grammar import ANOTHERS, GONE, IS_THERE, ITEMS, NO_PART, NO_VERSION, PLACE, QUEUED, TOO_MANY_ITEMS, UNKNOWN_COMMAND
from vault.protocol.queue import Line
from vault.protocol.replies import Reply, claim_in, content_in, listed_in, number_in, word_in
from vault.protocol.standing import Holder

LOOK_AHEAD = 64
SENT_AGAIN = ("put", "extend")
SWEEP = 2048
BATCH = 32
# How many claims a vault can have.
CLAIMS = 256
MINE = (NO_PART, QUEUED)


def whose(claim: str) -> str:
    """Asks whose a check-out is, by a save at the library, which is always refused: with 22 if the check-out is one's own and held, 32 if
    it is one's own and queued, 31 if it is another's, and 30 if there is none."""
    return f"save {claim} / -"


class NotYetError(VaultError):
    """A command that was lost wasn't done, and is to be sent again, but not now."""


class Recovery:
    """Finds out what became of a command, for one designer at a server."""

    def __init__(self, link: Link, memory: Memory, notice: Callable[[str], None]):
        self.link, self.memory, self.notice = link, memory, notice
        self.line = Line(link)

    def settled(self, command: Command, again: bool) -> Tuple[str, Optional[Reply]]:
        """What became of an earlier command, in words, and its reply if it was done. What may be sent twice is sent again, if that is asked:
        then by a command that changes something, and not by one that only asks."""
        reply = self.find_out(command)
        if reply is None and command.kind in SENT_AGAIN and not again:
            raise NotYetError(f"Your earlier `{command_word(command)}` was not done. The next command that changes something sends it again"
                              " first.")
        if reply is None and command.kind == "put" and command.replaces is None:
            raise RefusedError(f"whether it was done can't be found out at this server. Put {command.place} again, unless another one of your"
                               " machines has put it since.")
        if reply is None and command.kind in SENT_AGAIN:
            reply = self.told_again(command, self.link.read(command.line))
        if reply is None and command.kind == "checkout" and self.line.older:
            return (f"Your earlier `{command.line}` was not done, as none of c{command.last_number + 1} to"
                    f" c{command.last_number + LOOK_AHEAD} is a new one of yours. Say it again, unless others made more meanwhile:"
                    " then ask whoever runs the server to look with `vaultd inspect` on a copy."), None
        if reply is None:
            return f"Your earlier `{command_word(command)}` was not done. Say it again.", None
        if not reply.ok:
            raise reply.refusal()
        self.memory.saw(reply)
        if command.kind == "checkout":
            self.put_aside(claim_in(reply))
        self.memory.remember(command, reply, self.link.designer)
        return f"Your earlier `{command_word(command)}` was done.", reply

    def find_out(self, command: Command) -> Optional[Reply]:
        """Whether a command was done whose reply was lost: the reply that it would have had, or nothing if it wasn't done or may be sent
        again in any case. Asks only what changes nothing."""
        if command.kind == "checkout" and command.second:
            return self._the_first_of_two(command, self.link.read("state " + command.second))
        if command.kind == "checkout":
            return self._found_checkout(command)
        if command.kind in ("checkin", "abandon"):
            return self._found_ended(command)
        if command.kind == "make":
            parent, _, name = command.place.rpartition("/")
            listed = self.link.read("list " + (parent or "/"))
            return Reply(True, ("place",)) if listed.ok and name in listed.words[2:] else None
        if command.kind == "nest":
            return Reply(True, ("place",)) if self.link.read("count " + command.place).code == NO_PART else None
        if command.kind == "give":
            return self._found_given(command)
        if command.kind == "put":
            return self._found_put(command)
        if command.kind == "note":
            noted = self.link.read("note " + command.claim)
            return Reply(True, ("noted",)) if noted.ok and word_in(noted, 1) == command.line.split()[2] else None
        return None

    def told_again(self, command: Command, reply: Reply) -> Reply:
        """The reply to a command, where an earlier try of it may have been done after all."""
        if command.kind in ("checkin", "abandon") and reply.code == GONE:
            return self._found_ended(command) or reply
        if command.kind == "give" and reply.code in (GONE, ANOTHERS):
            return self._found_given(command) or reply
        if command.kind == "make" and reply.code == IS_THERE:
            return Reply(True, ("place",))
        if command.kind == "nest" and reply.code == IS_THERE:
            return self.find_out(command) or reply
        if command.kind == "extend" and reply.code == TOO_MANY_ITEMS:
            had = self.memory.claims.get(command.claim)
            if had is not None and len(had.items) + len(command.items) <= ITEMS:
                return Reply(True, ("held", command.claim))
        if command.kind == "checkout" and reply.ok:
            command.second = claim_in(reply)
            self.memory.save()
            return self._the_first_of_two(command, reply)
        return reply

    def put_aside(self, claim: str) -> None:
        """Forgets a check-out whose number another one has, except the copies of its drafts."""
        path = self.memory.put_aside(claim)
        if path is not None:
            self.notice(f"{claim} is another check-out than the one that had this number here: the vault came back from a backup, or is another"
                        f" one. The copies of that one's drafts are in {path}.")

    def gone(self, claim: str, reply: Reply) -> RefusedError:
        """The refusal for a check-out that is gone, with what is kept of it here."""
        kept = self.memory.claims.get(claim, Claim([]))
        if not kept.drafts or self.are_versions(kept):
            return reply.refusal()
        return RefusedError(f"{claim} is gone, but not all of the drafts that were put here are versions: it was given up, or ended by"
                            f" somebody else. `vault drafts {claim} FOLDER` writes the copies that are kept.", reply.code)

    def are_versions(self, claim: Claim) -> bool:
        """Whether each draft of a check-out is the version next to those that were there."""
        for place, draft in claim.drafts.items():
            if draft.versions is None:
                return False
            reply = self.link.read(f"fetch {place} {draft.versions + 1}")
            if not reply.ok or word_in(reply, 1) != (draft.content or "-"):
                return False
        return True

    def have_newer_versions(self, claim: Claim) -> bool:
        """Whether each part of which a check-out had a draft has got a version since that was put."""
        counts = self.link.asked("count", list(claim.drafts))
        return all(draft.versions is not None and count.ok and number_in(count, 1) > draft.versions
                   for draft, count in zip(claim.drafts.values(), counts))

    def _found_put(self, command: Command) -> Optional[Reply]:
        """What became of a draft that was sent. It may be sent again only where the server still has the draft that it was to replace: else
        another one was put since, from elsewhere perhaps, and that one stays."""
        there = self.link.read(f"draft {command.claim} {command.place}")
        if there.code == GONE:
            raise self.gone(command.claim, there)
        if there.code not in (None, NO_VERSION, UNKNOWN_COMMAND):
            raise there.refusal()
        if there.ok and (there.words[1:2] or ("",))[0] == command.line.split()[3]:
            return Reply(True, ("saved",))
        if there.code == UNKNOWN_COMMAND or command.replaces is None or hash_of_draft(there) == command.replaces:
            return None
        raise RefusedError(f"{command.claim} has another draft of {command.place} than the one that was to be replaced, put from elsewhere perhaps,"
                           f" and that one stays. `vault draft {command.claim} {command.place} --to OTHER-FILE` writes it; put yours again if it is"
                           " the right one.")

    def _found_ended(self, command: Command) -> Optional[Reply]:
        """What became of a check-in or of giving a check-out up."""
        if self.link.read("state " + command.claim).ok:
            return None
        if command.kind == "abandon":
            return Reply(True, ("abandoned",))
        had = self.memory.claims.get(command.claim, Claim([])) if command.drafts is None else Claim([], command.drafts)
        if self.are_versions(had):
            return Reply(True, ("checked", "in", str(len(had.drafts))))
        raise self.gone(command.claim, Reply(False, (str(GONE),)))

    def _found_given(self, command: Command) -> Optional[Reply]:
        """What became of giving a check-out to another. It was this designer's before, so it is given if it is another's now."""
        reply = self.link.read(whose(command.claim))
        if reply.code in MINE:
            return None
        if reply.code == ANOTHERS:
            return Reply(True, ("given",))
        raise self.gone(command.claim, reply)

    def _found_checkout(self, command: Command) -> Optional[Reply]:
        """The check-out of a lost reply: one of this designer with its items that isn't known. Its number is beyond the last known one, unless
        numbers began anew, since the vault came back from a backup, or is another one."""
        line = self.line.at("/")
        if line is None:
            return self._probed_checkout(command)
        alike = [holder for holder in self._alike(command, line) if not self._is_known(holder)]
        found = [holder for holder in alike if number_of(holder) > command.last_number] or alike
        for other in found[1:]:
            self.notice(f"{other.claim} is yours, too. `vault abandon {other.claim}` gives it up, if it was not made elsewhere.")
        return self.link.read(f"state {found[0].claim}") if found else None

    def _alike(self, command: Command, line: Sequence[Holder]) -> List[Holder]:
        """The check-outs of this designer with the items of a command, by their numbers."""
        alike = [holder for holder in line if holder.is_check_out_of(self.link.designer) and list(holder.items) == command.items]
        return sorted(alike, key=number_of)

    def _is_known(self, holder: Holder) -> bool:
        """Whether a check-out was known before."""
        known = self.memory.known.get(holder.claim)
        return holder.claim in self.memory.claims or (known is not None and known.owner == holder.owner and known.items == list(holder.items))

    def _probed_checkout(self, command: Command) -> Optional[Reply]:
        """The same at a server that doesn't tell whose claims are: the check-out after the last known number that is this designer's and not
        remembered. If more seem to stand than a vault can have, none is told apart: the ssh gate answers so to a key for questions alone."""
        seen, number, standing, known = command.last_number, command.last_number + 1, 0, self.memory.last_number
        while number <= seen + LOOK_AHEAD and standing <= CLAIMS:
            asked = range(number, number + BATCH)
            replies = self._probe(asked)
            mine = [n for n, reply in zip(asked, replies) if self._is_new(n, reply)]
            for other in mine[1:]:
                self.notice(f"c{other} is yours, too. `vault abandon c{other}` gives it up, if it was not made elsewhere.")
            if mine:
                return self.link.read(f"state c{mine[0]}")
            stand = [n for n, reply in zip(asked, replies) if reply.code != GONE]
            seen, standing = max([seen] + stand), standing + len(stand)
            number += BATCH
        if standing > CLAIMS:
            self.memory.last_number = known
        return None

    def _probe(self, numbers: range) -> List[Reply]:
        """Asks whose each of some check-outs is."""
        return self.link.read_all([whose(f"c{number}") for number in numbers]) if numbers else []

    def _is_new(self, number: int, reply: Reply) -> bool:
        mine = reply.code in MINE
        if mine or reply.code == ANOTHERS:
            self.memory.last_number = max(self.memory.last_number, number)
        return mine and f"c{number}" not in self.memory.claims

    def _the_first_of_two(self, command: Command, reply: Reply) -> Reply:
        """Looks before a check-out that was asked for again for the one of the earlier try. If both stand, keeps the first."""
        line = self.line.at("/")
        first = self._probed_first(command) if line is None else self._listed_first(command, line)
        if not first:
            return reply
        self.link.read(f"abandon {command.second}")
        return self.link.read(f"state {first}")

    def _listed_first(self, command: Command, line: Sequence[Holder]) -> str:
        """The check-out of the earlier try among all claims, or nothing. If the second has a number that was given before, numbers began anew,
        and what is remembered of the first one's number may be another's: it is the last alike before the second, and has no drafts yet."""
        second = int(command.second[1:])
        before = [holder for holder in self._alike(command, line) if number_of(holder) < second]
        if second > command.last_number:
            found = [holder.claim for holder in before if number_of(holder) > command.last_number and not self._is_known(holder)]
            return found[0] if found else ""
        told = self.link.asked("drafts", [holder.claim for holder in before])
        bare = [holder.claim for holder, drafts in zip(before, told) if drafts.ok and not listed_in(drafts, PLACE)]
        return bare[-1] if bare else ""

    def _probed_first(self, command: Command) -> str:
        """The same at a server that doesn't tell whose claims are."""
        second = int(command.second[1:])
        lowest = max(command.last_number + 1, second - SWEEP)
        for start in range(lowest, second, BATCH):
            asked = range(start, min(start + BATCH, second))
            new = [f"c{number}" for number, answer in zip(asked, self._probe(asked)) if self._is_new(number, answer)]
            if new:
                return new[0]
        return ""


def hash_of_draft(reply: Reply) -> str:
    """The hash of the draft in a reply, or nothing if there is none."""
    return "" if reply.code == NO_VERSION else sha256_of(content_in(reply))


def number_of(holder: Holder) -> int:
    """A claim's number."""
    return int(holder.claim[1:])


def not_known(command: Command, why: str, code: Optional[int] = None) -> NotKnownError:
    """Says that a command's fate is open, and how it will be found out."""
    return NotKnownError(f"Whether `{command_word(command)}` was done is not known yet. {why} Run `vault mine` once the server answers: it"
                         " finds out first.", code)
