"""The load of bench/endless.py: what its designers say, and the connections on which they say it, side by side in one thread."""
import random
import selectors
import socket
import struct
import time
from dataclasses import dataclass, field
from typing import Callable, Dict, List, Optional, Sequence, Tuple

from endless_check import Change, CheckOut, Designer, Difference, Step, Talk, begun, expected, greeting

BUSY = "ERR 80"
# How many seconds a client waits before it repeats a line that was answered 80, and how many it waits for a reply at all.
AGAIN, PATIENCE = 0.001, 60.0
# How many parts a designer makes; it makes one after a number of its steps.
PARTS = 60
# A project of all designers, where they meet with their holds.
MEETING = "/meet"


@dataclass
class Figures:
    """What was seen of one life of a server."""

    told: int = 0
    longest_wait: float = 0.0
    refused: int = 0
    longest_refused: float = 0.0
    # After how many commands how many kilobytes were resident.
    memory: List[Tuple[int, int]] = field(default_factory=list)


class Work:
    """What a designer says under load: check-outs in its own project, and all that goes with them."""

    def __init__(self, designer: Designer, dice: random.Random, steps_a_part: int, most_versions: int):
        self.designer, self.dice = designer, dice
        self.steps_a_part, self.most_versions = steps_a_part, most_versions
        self.steps = self.saves = self.check_ins = 0

    def visit(self) -> Talk:
        """One connection: it quits, or hangs up, with its session and at times with a hold that nobody gives up."""
        yield from greeting(self.designer)
        for _ in range(self.dice.randint(5, 1000)):
            yield from self._step()
        end = self.dice.choice(("quit", "hang up", "hold", "reset"))
        if end == "quit":
            yield from expected("quit", "OK left")
        return f"hold w:{MEETING}\n".encode() if end == "hold" else b"", end == "reset"

    def _step(self) -> Step:
        designer = self.designer
        self.steps += 1
        if designer.check_out is not None:
            return self.dice.choice((self._save, self._save, self._save, self._state, self._extend, self._hold, self._end))()
        if len(designer.versions) < min(PARTS, 1 + self.steps // self.steps_a_part):
            return self._make()
        return self.dice.choice((self._ask_out, self._ask_out, self._count, self._fetch, self._list))()

    def _change(self, change: Change, line: str, reply: str) -> Step:
        """A command that changes something: until its reply comes it may have been done or not."""
        self.designer.under_way = change
        yield from expected(line, reply)
        self.designer.under_way = None

    def _make(self) -> Step:
        designer = self.designer
        part = f"{designer.assembly}/p{len(designer.versions)}"
        designer.under_way = Change("make", part)
        yield from begun(f"make {part}", "OK place ")
        designer.under_way = None
        designer.made(part)

    def _ask_out(self) -> Step:
        designer = self.designer
        part = self.dice.choice(designer.parts)
        items = (f"w:{part}",)
        designer.under_way = Change("checkout", part, items=items)
        words = yield from begun(f"checkout {items[0]}", "OK held c")
        designer.under_way = None
        designer.check_out = CheckOut(words[2], items, part)

    def _extend(self) -> Step:
        check_out = self._mine()
        if len(check_out.items) < 3:
            more = (f"r:{self.designer.assembly}",)
            yield from self._change(Change("extend", items=more), f"extend {check_out.name} {more[0]}", f"OK held {check_out.name}")
            check_out.items += more

    def _save(self) -> Step:
        """Half of the contents are long, for the journal's sake; these are saved over, or given up."""
        yield from self._save_of(125 if self.dice.random() < 0.5 else 1)

    def _save_of(self, times: int) -> Step:
        check_out = self._mine()
        self.saves += 1
        content = f"{self.designer.number:04x}{self.saves:012x}" * times
        change = Change("save", check_out.part, content)
        yield from self._change(change, f"save {check_out.name} {check_out.part} {content}", "OK saved")
        check_out.drafts = (content,)

    def _state(self) -> Step:
        name = self._mine().name
        yield from expected(f"state {name}", f"OK held {name}")

    def _end(self) -> Step:
        """One of four ends by a check-in, of a short content, as long as there is room for versions."""
        check_out = self._mine()
        if self.dice.random() < 0.25 and self.check_ins < self.most_versions:
            self.check_ins += 1
            yield from self._save_of(1)
            yield from self._change(Change("checkin"), f"checkin {check_out.name}", "OK checked in 1")
            self.designer.checked_in(1)
        else:
            yield from self._change(Change("abandon"), f"abandon {check_out.name}", "OK abandoned")
            self.designer.check_out = None

    def _hold(self) -> Step:
        """A hold where all meet: it may wait, and is given up again."""
        name = (yield from begun(f"hold w:{MEETING}", "OK held h", "OK queued h"))[2]
        yield from begun(f"state {name}", f"OK held {name}", f"OK queued {name} behind h")
        yield from expected(f"release {name}", "OK released")

    def _list(self) -> Step:
        names = [part.rpartition("/")[2] for part in self.designer.parts]
        yield from expected(f"list {self.designer.assembly}", " ".join(["OK list", str(len(names)), *names]))

    def _count(self) -> Step:
        part = self.dice.choice(self.designer.parts)
        yield from expected(f"count {part}", f"OK versions {len(self.designer.versions[part])}")

    def _fetch(self) -> Step:
        part = self.dice.choice(self.designer.parts)
        versions = self.designer.versions[part]
        number = self.dice.randint(1, len(versions) + 1)
        yield from expected(f"fetch {part} {number}", f"OK content {versions[number - 1]}" if number <= len(versions) else "ERR 40")

    def _mine(self) -> CheckOut:
        assert self.designer.check_out is not None
        return self.designer.check_out


class Link:
    """One connection of a designer, with the line that is under way."""

    def __init__(self, port: int, designer: Designer, talk: Talk):
        self.designer, self.talk = designer, talk
        self.waiting, self.line, self.lines = b"", "", 0
        self.said, self.refused_since = 0.0, 0.0
        self.socket = socket.create_connection(("127.0.0.1", port), PATIENCE)
        self.socket.setsockopt(socket.IPPROTO_TCP, socket.TCP_NODELAY, 1)

    def say(self, line: str) -> None:
        """Says a line."""
        self.line, self.said = line, time.monotonic()
        self.lines += 1
        self.socket.sendall(line.encode() + b"\n")

    def replies(self) -> Optional[List[str]]:
        """The replies that came, or none if the server ended the connection."""
        try:
            more = self.socket.recv(65536)
        except ConnectionError:
            return None
        *whole, self.waiting = (self.waiting + more).split(b"\n")
        return [reply.decode("ascii", "replace") for reply in whole] if more else None

    def hang_up(self, last: bytes, resets: bool) -> None:
        """Says a last line that nobody waits for, and ends."""
        if last:
            self.socket.sendall(last)
        if resets:
            self.socket.setsockopt(socket.SOL_SOCKET, socket.SO_LINGER, struct.pack("ii", 1, 0))
        self.socket.close()


class Crowd:
    """One connection for each designer, and another one when it has ended."""

    def __init__(self, port: int, talk_of: Callable[[Designer], Optional[Talk]], figures: Figures, told: Callable[[], bool]):
        self.port, self.talk_of, self.figures, self.told = port, talk_of, figures, told
        self.links: Dict[int, Link] = {}
        self.again: List[Tuple[float, Link]] = []
        self.selector = selectors.DefaultSelector()

    def run(self, designers: Sequence[Designer]) -> None:
        """Until no designer has more to say, or `told` says that it is enough."""
        for designer in designers:
            self._open(designer)
        while self.links:
            ready = self.selector.select(AGAIN if self.again else PATIENCE)
            if not ready and not self.again:
                raise Difference(f"nobody was told anything for {PATIENCE:.0f} s")
            self._say_again()
            for key, _ in ready:
                if self._hear(key.data):
                    return

    def close(self) -> None:
        """Ends all connections without a word, as clients do that break down."""
        for link in self.links.values():
            link.socket.close()
        self.links.clear()
        self.selector.close()

    def drain(self) -> None:
        """Takes the replies that a server had sent before it was killed: these are acknowledged, too."""
        for link in self.links.values():
            while (replies := link.replies()) is not None:
                for reply in replies:
                    self._told_last(link, reply)
        self.close()

    def _open(self, designer: Designer) -> None:
        talk = self.talk_of(designer)
        if talk is not None:
            link = Link(self.port, designer, talk)
            self.links[designer.number] = link
            self.selector.register(link.socket, selectors.EVENT_READ, link)
            link.say(next(talk))

    def _hear(self, link: Link) -> bool:
        """Hands the replies on. Whether it is enough."""
        replies = link.replies()
        if replies is None:
            raise Difference(f"{link.designer.name}'s connection was ended behind `{link.line[:80]}`")
        for reply in replies:
            if reply == BUSY:
                self._refused(link)
                continue
            self._measure(link)
            try:
                link.say(link.talk.send(reply))
            except StopIteration as end:
                self._end(link, *end.value)
                return self.told()
            if self.told():
                return True
        return False

    def _end(self, link: Link, last: bytes, resets: bool) -> None:
        self.selector.unregister(link.socket)
        del self.links[link.designer.number]
        link.hang_up(last, resets)
        self._open(link.designer)

    def _refused(self, link: Link) -> None:
        """The line will be said again. How long it was refused is known once it is answered otherwise."""
        now = time.monotonic()
        self.figures.refused += 1
        link.refused_since = link.refused_since or now
        self.again.append((now + AGAIN, link))

    def _say_again(self) -> None:
        now = time.monotonic()
        due = [link for at, link in self.again if at <= now]
        self.again = [(at, link) for at, link in self.again if at > now]
        for link in due:
            link.say(link.line)

    def _measure(self, link: Link) -> None:
        """How long the reply took; a connection's first one may have waited for a worker, too."""
        figures = self.figures
        if link.lines > 1:
            figures.longest_wait = max(figures.longest_wait, time.monotonic() - link.said)
        if link.refused_since:
            figures.longest_refused = max(figures.longest_refused, link.said - link.refused_since)
            link.refused_since = 0.0

    @staticmethod
    def _told_last(link: Link, reply: str) -> None:
        """A reply after which nothing more is said."""
        if reply != BUSY:
            try:
                link.talk.send(reply)
            except StopIteration:
                pass
            link.designer.under_way = None
