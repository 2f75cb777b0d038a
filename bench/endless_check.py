"""What a server acknowledged to each of its designers, and whether it is found again after a kill."""
import sys
from dataclasses import dataclass
from pathlib import Path
from typing import Dict, Generator, List, Optional, Sequence, Tuple

sys.path[:0] = [str(path) for path in sorted(Path(__file__).resolve().parent.parent.glob("python/*/src"))]

from vaultd_tools.files import Claim, Report  # noqa: E402

# A conversation on a connection: it yields a line and is sent the reply. Its return value says what is sent before the client hangs up
# without waiting, and whether it hangs up by a reset.
Talk = Generator[str, str, Tuple[bytes, bool]]
# A part of it.
Step = Generator[str, str, None]
# A server ends a connection after 4,096 lines.
MAX_LINES = 4000
# The most projects.
PROJECTS = 32


class Difference(Exception):
    """A server acknowledged one thing, and another is found."""


@dataclass
class CheckOut:
    """A check-out that stands, by what was acknowledged."""

    name: str
    items: Tuple[str, ...]
    part: str
    # What its draft may be; None is no draft. There are two possibilities if the reply to a save was lost.
    drafts: Tuple[Optional[str], ...] = (None,)


@dataclass(frozen=True)
class Change:
    """A command whose reply hasn't come yet."""

    kind: str
    part: str = ""
    content: str = ""
    items: Tuple[str, ...] = ()


class Designer:
    """All that was acknowledged to a designer and must be found again: its parts, their versions, its check-out with its draft."""

    def __init__(self, number: int):
        self.number, self.name = number, f"d{number}"
        # Several share a project, since a vault has 64 at most, but no assembly.
        self.project = f"/s{number % PROJECTS}"
        self.assembly = f"{self.project}/a{number}"
        self.versions: Dict[str, List[str]] = {}
        self.found: Dict[str, int] = {}
        self.check_out: Optional[CheckOut] = None
        self.under_way: Optional[Change] = None
        self.maybe_made: Optional[str] = None

    @property
    def parts(self) -> List[str]:
        """Its parts, in the order in which they were made."""
        return list(self.versions)

    def made(self, part: str) -> None:
        """A part is there."""
        self.versions[part], self.found[part] = [], 0

    def checked_in(self, drafts: int) -> None:
        """Its check-out is gone, and this many of its drafts are versions."""
        assert self.check_out is not None
        contents = [draft for draft in self.check_out.drafts if (draft is not None) == (drafts == 1)]
        if drafts > 1 or not contents:
            raise Difference(f"{self.check_out.name} was checked in with {drafts} drafts, and had {self.check_out.drafts}")
        if drafts:
            # Of two possible contents the later one is taken for the version at first.
            self.versions[self.check_out.part].append(str(contents[-1]))
        self.check_out = None

    def settle(self, standing: Sequence[Claim]) -> bool:
        """Finds out from the claims that stand what became of the command under way. Whether there was one that changes something."""
        change, self.under_way = self.under_way, None
        mine = {claim.name: claim.items for claim in standing if claim.owner == self.name}
        if change is not None:
            self._settle(change, mine)
        told = {} if self.check_out is None else {self.check_out.name: self.check_out.items}
        if mine != told:
            raise Difference(f"{self.name} was told of {told}, and found is {mine}")
        return change is not None

    def _settle(self, change: Change, mine: Dict[str, Tuple[str, ...]]) -> None:
        """What may have been done shows where it changes a claim; a draft and a part are asked for later."""
        if change.kind == "make":
            self.maybe_made = change.part
        elif change.kind == "checkout":
            done = [name for name, items in mine.items() if items == change.items]
            self.check_out = CheckOut(done[0], change.items, change.part) if done else None
        elif self.check_out is not None:
            stands = mine.get(self.check_out.name)
            if change.kind == "save":
                self.check_out.drafts += (change.content,)
            elif change.kind == "extend" and stands == self.check_out.items + change.items:
                self.check_out.items = stands
            elif change.kind == "checkin" and stands is None:
                self.checked_in(0 if self.check_out.drafts == (None,) else 1)
            elif change.kind == "abandon" and stands is None:
                self.check_out = None


def expected(line: str, *replies: str) -> Generator[str, str, str]:
    """Says a line, whose reply has to be one of these."""
    reply = yield line
    if reply not in replies:
        raise Difference(f"`{line[:80]}` was told `{reply[:80]}`, and not `{replies[0][:80]}`")
    return reply


def begun(line: str, *beginnings: str) -> Generator[str, str, List[str]]:
    """Says a line, whose reply has to begin with one of these; answers its words."""
    reply = yield line
    if not reply.startswith(beginnings):
        raise Difference(f"`{line[:80]}` was told `{reply[:80]}`, and not `{beginnings[0]} ..`")
    return reply.split()


def greeting(designer: Designer) -> Step:
    """The first line of a connection. Where all sessions stand it is refused, though there are no more connections than sessions."""
    yield from begun(f"hello {designer.name}", "OK session ")


class Search:
    """Looks for all that a designer was told and that wasn't found yet, over as many connections as it takes."""

    def __init__(self, designer: Designer, checks_in: bool):
        self.designer, self.checks_in = designer, checks_in
        self.is_done, self.lines = False, 0

    def visit(self) -> Talk:
        """One connection."""
        designer, self.lines = self.designer, 0
        yield from greeting(designer)
        yield from self._places()
        yield from self._check_out()
        for part in designer.parts:
            yield from self._versions(part)
        self.is_done = self.lines < MAX_LINES
        yield from expected("quit", "OK left")
        return b"", False

    def _places(self) -> Step:
        designer = self.designer
        names = [part.rpartition("/")[2] for part in designer.parts]
        listed = [" ".join(["OK list", str(len(names)), *names])]
        if designer.maybe_made is not None:
            more = names + [designer.maybe_made.rpartition("/")[2]]
            listed.append(" ".join(["OK list", str(len(more)), *more]))
        reply = yield from expected(f"list {designer.assembly}", *listed)
        if designer.maybe_made is not None and reply == listed[1]:
            designer.made(designer.maybe_made)
        designer.maybe_made = None

    def _check_out(self) -> Step:
        """A check-out stands, and is held. Where its draft is to be looked at it is checked in; else it is given up where it isn't known
        which of two drafts it has."""
        check_out = self.designer.check_out
        if check_out is None:
            return
        yield from expected(f"state {check_out.name}", f"OK held {check_out.name}")
        if self.checks_in:
            yield from self._check_in(check_out)
        elif len(check_out.drafts) > 1:
            yield from expected(f"abandon {check_out.name}", "OK abandoned")
            self.designer.check_out = None

    def _check_in(self, check_out: CheckOut) -> Step:
        """The draft becomes a version, and that is what the draft was told to be, or one of two."""
        replies = [f"OK checked in {0 if draft is None else 1}" for draft in check_out.drafts]
        reply = yield from expected(f"checkin {check_out.name}", *replies)
        self.designer.checked_in(int(reply.rpartition(" ")[2]))
        if reply.endswith(" 1"):
            versions = self.designer.versions[check_out.part]
            contents = [f"OK content {draft}" for draft in check_out.drafts if draft is not None]
            reply = yield from expected(f"fetch {check_out.part} {len(versions)}", *contents)
            versions[-1] = reply.rpartition(" ")[2]

    def _versions(self, part: str) -> Step:
        """All versions that were told are there, and no others; each is fetched that wasn't found yet."""
        designer = self.designer
        versions = designer.versions[part]
        yield from expected(f"count {part}", f"OK versions {len(versions)}")
        while designer.found[part] < len(versions) and self.lines < MAX_LINES:
            number = designer.found[part] + 1
            yield from expected(f"fetch {part} {number}", f"OK content {versions[number - 1]}")
            designer.found[part] = number
            self.lines += 1


def compare_counts(designers: Sequence[Designer], report: Report, others: int) -> None:
    """The counts of a report must be those of what was acknowledged, besides this many other places."""
    projects = {designer.project for designer in designers}
    places = others + len(projects) + sum(1 + len(designer.versions) for designer in designers)
    versions = sum(len(each) for designer in designers for each in designer.versions.values())
    stand = [designer.check_out for designer in designers if designer.check_out is not None]
    drafts = sum(1 for check_out in stand if check_out.drafts != (None,))
    told = f"places {places}, versions {versions}, claims {len(stand)}, drafts {drafts}"
    if report.counts != told:
        raise Difference(f"there should be {told}, and there are {report.counts}")
