"""Watches a vault for the page while somebody looks: all claims with their notes thrice a second, all places within twenty seconds.

It asks over one connection at a time, and all anew over the next one. If a reply is the same as the last one to its question, it isn't
parsed again.
"""

from __future__ import annotations

import asyncio
import contextlib
import re
from collections import OrderedDict
from collections.abc import Callable, Iterable, Sequence

from vault.protocol.grammar import (
    BYTES_GIVEN, CLAIMS_LISTED, CONTENT_BYTES, COUNTED, NAME, NAMES_LISTED, NOTE_BYTES, SHOWN, in_bytes, under)
from vault.store.card import read_card
from vault.store.naming import is_of_names, named_by, read_name
from vaultd_tools.files import Claim
from vaultd_tools.page.line import ways
from vaultd_tools.page.model import (
    KEPT_VERSIONS, MAX_BENEATH, MAX_CLAIMS, MAX_NAMES, MAX_PLACES, Link, Model, Place, Since, Version, depth, now)
from vaultd_tools.page.timeline import Timeline
from vaultd_tools.page.times import Times
from vaultd_tools.page.wire import Broken, Wire, refused

TURN_SECONDS = 0.35
CYCLE_SECONDS = 20.0
LINGER_SECONDS = 5.0
SLOW_SECONDS = 3.0
FRESH_SECONDS = 6.0
FIRST_PAUSE, LONGEST_PAUSE = 0.25, 5.0
BATCH = 256
NO_NOTE = b"OK note -"
ENDED, NO_PLACE, NO_PART, NO_VERSION = b"ERR 30", b"ERR 20", b"ERR 22", b"ERR 40"
LEARNED_AT_ONCE = 20
MISSES_A_SECOND = 5.0


class Earlier(Broken):
    """Something is gone that no vault loses."""

    def __init__(self) -> None:
        super().__init__("serves an earlier state of the vault, or another one")


class Questions:
    """Questions that are still to be asked, each once, in the order in which they came."""

    def __init__(self) -> None:
        self._waiting: OrderedDict[str, None] = OrderedDict()

    def __len__(self) -> int:
        return len(self._waiting)

    def add(self, questions: Iterable[str]) -> None:
        """Adds those that don't wait yet."""
        self._waiting.update(dict.fromkeys(questions))

    def take(self, most: int) -> list[str]:
        """The first ones, which wait no more."""
        return [self._waiting.popitem(last=False)[0] for _ in range(min(most, len(self._waiting)))]

    def clear(self) -> None:
        """Forgets all."""
        self._waiting.clear()


class Watcher:
    """Keeps a model of a vault right while somebody looks, and says so whenever it changed. `wanted` gives the versions that open pages
    show and that aren't known."""

    def __init__(self, host: str, port: int, designer: str, publish: Callable[[], None], wanted: Callable[[], Iterable[tuple[str, int]]],
                 times: Times | None = None, timeline: Timeline | None = None):
        self.host, self.port, self.designer, self.publish, self.wanted = host, port, designer, publish, wanted
        self.times, self.timeline = times or Times(), timeline or Timeline()
        self.model = Model()
        self.streams = 0
        # Whether all places were read once, and whether the model differs from what was published.
        self.whole = self.changed = False
        self._until = 0.0
        self._wake, self._settled, self._hurry = asyncio.Event(), asyncio.Event(), asyncio.Event()
        self._lock = asyncio.Lock()
        self._wire: Wire | None = None
        self._under_way: asyncio.Task[list[bytes]] | None = None
        # Who waits for the end of the next turn.
        self._after: list[asyncio.Future[None]] = []
        self._session, self._why = 0, ""
        self._said: dict[str, bytes] = {}
        self._line: list[bytes] = []
        self._urgent, self._cycle, self._later, self._again = Questions(), Questions(), Questions(), Questions()
        self._quiet = False
        self._misses = MISSES_A_SECOND

    # Who looks

    def look(self) -> None:
        """Somebody looks now."""
        self._until = asyncio.get_running_loop().time() + LINGER_SECONDS
        self._wake.set()

    def somebody_looks(self) -> bool:
        """Whether somebody looks, or did a moment ago."""
        return self.streams > 0 or asyncio.get_running_loop().time() < self._until

    async def fresh(self) -> None:
        """Waits until the model is right again, or it is known that it can't be now."""
        self.look()
        with contextlib.suppress(TimeoutError):
            async with asyncio.timeout(FRESH_SECONDS):
                await self._settled.wait()

    async def caught_up(self) -> None:
        """Waits until the queue was asked for once more, since something was just changed; not for long, and not where it is read anew anyway."""
        self.look()
        if self.model.link.kind != "live":
            return
        seen = asyncio.get_running_loop().create_future()
        self._after.append(seen)
        self._hurry.set()
        with contextlib.suppress(TimeoutError):
            async with asyncio.timeout(SLOW_SECONDS):
                await seen

    def want_all_versions(self) -> None:
        """Reads what isn't known of all versions, the last ones first, as far as they are kept."""
        unread = [(place.versions - number, place.path, number) for place in self.model.places.values()
                  for number in range(place.versions, 0, -1) if (place.path, number) not in self.model.versions]
        room = max(0, KEPT_VERSIONS - len(self.model.versions))
        self._later.add(f"fetch {path} {number}" for _, path, number in sorted(unread)[:room])

    # The way to the server

    async def run(self) -> None:
        """Watches whenever somebody looks, for ever."""
        pause = FIRST_PAUSE
        while True:
            while not self.somebody_looks():
                self._rest()
                self._wake.clear()
                await self._wake.wait()
            try:
                await self._watch()
                pause = FIRST_PAUSE
            except Broken as error:
                pause = min(pause * 1.6, LONGEST_PAUSE) if self.model.link.kind == "away" else FIRST_PAUSE
                self._is_away(str(error))
                await asyncio.sleep(pause)

    async def close(self) -> None:
        """Leaves the server. Two can't read at once: if another one does, the connection is ended under it, and it gets `Broken`."""
        if self._lock.locked():
            self._drop("was left meanwhile")
        async with self._lock:
            wire, self._wire = self._wire, None
            if wire is not None:
                await wire.leave()

    def _rest(self) -> None:
        self._settled.clear()
        if self.model.link.kind != "away":
            self.model.link = Link("resting", now())

    def _is_away(self, why: str) -> None:
        self._drop(why)
        link = self.model.link
        self.model.link = Link("away", link.since if link.kind in ("away", "slow") else now(), why)
        self._settled.set()
        self._publish()

    def _is_live(self) -> None:
        self.model.link, self.changed = Link("live", now()), True
        self._later.add(f"fetch {path} {number}" for path, number in self.wanted())

    def _publish(self) -> None:
        self.changed = False
        self.publish()

    async def _watch(self) -> None:
        """Reads everything once, and then on and on while somebody looks."""
        loop = asyncio.get_running_loop()
        self._quiet = True
        await asyncio.to_thread(self.times.read_log)
        await self._connect()
        await self._read_claims()
        await self._read_places()
        self._quiet = False
        self._is_live()
        self._settled.set()
        while self.somebody_looks():
            begun = loop.time()
            if self.changed:
                self._publish()
            await self._pause(max(0.05, begun + TURN_SECONDS - loop.time()))
            await self._turn()
            await asyncio.to_thread(self.times.write)
        self._rest()
        await self.close()

    async def _pause(self, seconds: float) -> None:
        """Waits for the next turn, which comes at once if something was just changed."""
        with contextlib.suppress(TimeoutError):
            async with asyncio.timeout(seconds):
                await self._hurry.wait()
        self._hurry.clear()

    async def _turn(self) -> None:
        """Asks what is due every half second. If it takes long, the page says so meanwhile."""
        after, self._after = self._after, []
        turn = asyncio.ensure_future(self._ask_a_turn())
        try:
            done, _ = await asyncio.wait({turn}, timeout=SLOW_SECONDS)
            if not done:
                self.model.link = Link("slow", self.model.as_of or now())
                self._publish()
            await turn
        finally:
            turn.cancel()
            await asyncio.gather(turn, return_exceptions=True)
            for seen in after:
                if not seen.done():
                    seen.set_result(None)
        if self.model.link.kind != "live":
            self._is_live()

    async def _ask_a_turn(self) -> None:
        await self._read_claims()
        if not self._cycle:
            self._cycle.add(self._questions())
        await self._read(self._cycle.take(1 + int(len(self._said) * TURN_SECONDS / CYCLE_SECONDS)))
        await self._drain(BATCH)
        contents = self._later.take(BATCH)
        await self._read(contents + self._again.take(BATCH - len(contents)))
        self._misses = min(MISSES_A_SECOND, self._misses + MISSES_A_SECOND * TURN_SECONDS)

    async def _connect(self) -> None:
        """Opens a connection. Nothing says what became of the server since the last one."""
        async with self._lock:
            self._wire = await Wire.opened(self.host, self.port, self.designer)
            self._session, self._why = self._wire.session, "ended the connection"
        self._doubt()

    async def _with_room(self, count: int) -> Wire:
        """The connection, with room for this many lines. One without room is left, and another follows it."""
        if self._wire is None:
            raise Broken(self._why)
        if not self._wire.has_room_for(count):
            wire, self._wire = self._wire, None
            await wire.leave()
            self._wire = await Wire.opened(self.host, self.port, self.designer)
            if self._wire.session <= self._session:
                raise Broken("was started again")
            self._session = self._wire.session
        return self._wire

    def _drop(self, why: str) -> None:
        """Ends the connection where something went wrong. All is asked again over the next one."""
        if self._wire is not None:
            self._wire.drop()
        self._wire, self._why = None, why

    async def ask(self, questions: Sequence[str]) -> list[bytes]:
        """The replies to some questions, at most as many as go at once. If who asks is gone, what was sent is read to its end, since the next
        replies come behind it."""
        asked = asyncio.ensure_future(self._asked(questions))
        try:
            return await asyncio.shield(asked)
        except asyncio.CancelledError:
            if self._under_way is not asked:
                asked.cancel()
            asked.add_done_callback(lambda task: task.cancelled() or task.exception())
            raise

    async def _asked(self, questions: Sequence[str]) -> list[bytes]:
        async with self._lock:
            self._under_way = asyncio.current_task()
            try:
                wire = await self._with_room(len(questions))
                return await wire.ask(questions)
            except BaseException as error:
                self._drop(str(error))
                raise
            finally:
                self._under_way = None

    # Claims

    def _doubt(self) -> None:
        """The server may have been restarted meanwhile: then holds may have the numbers of other ones, and a backup may be in place. What
        is known stands until it was asked again."""
        for name in [name for name in self.model.since if name[0] == "h"]:
            del self.model.since[name]
        self._line.clear()
        self._said.clear()
        self._again.add(f"fetch {place.path} {place.versions}" for place in self.model.places.values() if place.latest)
        self._again.add(f"fetch {path} {number}" for path, number in reversed(self.model.versions))

    async def _read_claims(self) -> None:
        """Asks for the queue, for each claim in it and for each note. If the replies are the same as before, nothing is done."""
        names = [claim.name for claim in self.model.claims]
        questions = ["claims /", *questions_of(names)]
        replies = await self.ask(questions)
        if replies != self._line:
            told = dict(zip(questions, replies))
            listed = claims_in(told["claims /"])
            new = questions_of(name for name in listed if "show " + name not in told)
            told.update(zip(new, await self.ask(new) if new else ()))
            self._line = [told[question] for question in ("claims /", *questions_of(listed))]
            self._take_claims([claim_in(name, told["show " + name], told.get("note " + name, NO_NOTE)) for name in listed
                               if ENDED not in (told["show " + name], told.get("note " + name))])
        self.model.as_of = now()

    def _take_claims(self, claims: list[Claim]) -> None:
        """Replaces the queue by this one, and notes what is different."""
        old = {claim.name: claim for claim in self.model.claims}
        for claim in claims:
            if self._quiet and claim.name in old and not goes_on(old[claim.name], claim):
                self.model.since.pop(claim.name, None)
            if claim.name not in self.model.since:
                self.model.since[claim.name] = (self.times.recalled(claim) if self._quiet else None) or Since(now(), not self._quiet)
        standing = {claim.name for claim in claims}
        for name in [name for name in self.model.since if name not in standing]:
            del self.model.since[name]
        self.times.keep(claims, self.model.since)
        if claims == self.model.claims:
            return
        self.model.claims, self.changed = claims, True
        self._look_for_versions([claim for claim in old.values() if claim.name not in standing])
        if not self._quiet:
            self._tell_of_claims(old, claims)

    def _look_for_versions(self, gone: Iterable[Claim]) -> None:
        """A check-out that is gone may have been checked in: the versions of the parts that it had for change are counted next."""
        places = {item[2:]: None for claim in gone for item in claim.items if item[0] == "w"}
        for place in places:
            self._urgent.add("count " + found.path for found in self.model.walk(place) if found.part)

    def _tell_of_claims(self, old: dict[str, Claim], claims: list[Claim]) -> None:
        tell, standing = self.model.tell, {claim.name for claim in claims}
        for claim in old.values():
            if claim.name not in standing:
                tell(claim.owner, f"is done with {claim.name}", claim.items[0][2:])
        for claim in claims:
            before, what = old.get(claim.name), "to change" if claim.items[0][0] == "w" else "to look at"
            if before is None:
                stands = f"took {claim.name}" if claim.behind is None else f"waits with {claim.name} behind {claim.behind}"
                tell(claim.owner, f"{stands} {what}", claim.items[0][2:])
            elif before.owner != claim.owner:
                tell(claim.owner, f"was given {claim.name} by {before.owner}")
            elif before.behind is not None and claim.behind is None:
                tell(claim.owner, f"holds {claim.name} now {what}", claim.items[0][2:])
            elif before.items != claim.items:
                tell(claim.owner, f"asked for more in {claim.name}:", claim.items[-1][2:])
            elif before.note != claim.note:
                tell(claim.owner, f"noted something on {claim.name} at", claim.items[0][2:])

    # Places and versions

    def _questions(self) -> list[str]:
        """All that is asked again and again besides the queue."""
        return [("list " if place.part is False else "count ") + place.path for place in self.model.places.values()]

    async def _read_places(self) -> None:
        """Reads all places, whatever was left unread before. If a place is gone, all is read from nothing."""
        self._cycle.clear()
        try:
            self._urgent.add(self._questions() if self.model.places else ["list /"])
            await self._drain(None)
        except Earlier:
            self._forget()
            await self._drain(None)
        self.whole = True

    def _forget(self) -> None:
        """Another vault answers now, or an earlier state of this one. Whoever asks for a page waits until it was read."""
        self.whole = False
        self._settled.clear()
        self.model.forget()
        self._said.clear()
        for questions in (self._urgent, self._later, self._again):
            questions.clear()
        self._urgent.add(["list /"])

    async def _drain(self, most: int | None) -> None:
        """Asks what is to be asked first, this much of it or all."""
        while self._urgent and (most is None or most > 0):
            questions = self._urgent.take(BATCH)
            await self._read(questions)
            most = None if most is None else most - len(questions)

    async def _read(self, questions: Sequence[str]) -> None:
        """Asks, and takes in replies that differ from those before."""
        if not questions:
            return
        for question, reply in zip(questions, await self.ask(questions)):
            if self._said.get(question) != reply:
                self._take(question, reply)
                if not question.startswith("fetch "):
                    self._said[question] = reply

    def _take(self, question: str, reply: bytes) -> None:
        keyword, path = question.split(" ")[:2]
        if reply == NO_PLACE:
            raise Earlier() if "/" in self.model.places else refused(reply)
        if keyword == "list":
            self._take_list(path, reply)
        elif keyword == "count":
            self._take_count(path, reply)
        else:
            self._take_version(path, int(question.split(" ")[2]), reply)

    def _take_list(self, path: str, reply: bytes) -> None:
        found = form_of(NAMES_LISTED, reply)
        names = found["names"].decode("ascii").split() if found else []
        if found is None or len(names) != int(found["count"]) or len(names) > MAX_BENEATH or len(set(names)) != len(names):
            raise refused(reply)
        place = self.model.places.get(path) or self.model.add(path)
        children = [path.rstrip("/") + "/" + name for name in names]
        for child in children:
            if child not in self.model.places:
                self._add(child)
        place.part, place.children, self.changed = False, children, True
        self.model.shape += 1

    def _add(self, path: str) -> None:
        if depth(path) > MAX_NAMES or len(self.model.places) >= MAX_PLACES:
            raise Broken("lists more places than a vault has; it is no vault server")
        question = ("list " if self.model.add(path).part is False else "count ") + path
        self._said.pop(question, None)
        self._urgent.add([question])
        if not self._quiet and not is_of_names(path):
            self.model.tell("", "is new", path)

    def _take_count(self, path: str, reply: bytes) -> None:
        place, found = self.model.places.get(path), form_of(COUNTED, reply)
        if place is None:
            return
        self.changed = True
        self.model.shape += 1
        if reply == NO_PART and place.part is None:
            place.part = False
            self._urgent.add(["list " + path])
        elif reply == NO_PART or found and int(found["count"]) < place.versions:
            raise Earlier()
        elif found is None:
            raise refused(reply)
        else:
            self._take_versions(place, int(found["count"]))

    def _take_versions(self, place: Place, count: int) -> None:
        """A part has this many versions: the new ones are read; of a part that wasn't known only the last one."""
        first = max(place.versions, count - LEARNED_AT_ONCE) if place.latest else count - 1
        if not self._quiet and count > place.versions and not is_of_names(place.path):
            self.model.tell("", f"has version {count}", place.path)
        if count > place.versions or place.latest is None:
            place.latest = self.model.versions.get((place.path, count))
        place.part, place.versions, place.counted = True, count, True
        self._later.add(f"fetch {place.path} {number}" for number in range(first + 1, count + 1) if number > 0)

    def _take_version(self, path: str, number: int, reply: bytes) -> None:
        before = self.model.versions.get((path, number))
        if reply in (NO_VERSION, NO_PART):
            self.changed |= self.model.versions.pop((path, number), None) is not None
            return
        content = bytes_in(reply, b"content", CONTENT_BYTES)
        card = read_card(content)
        version = Version(number, card.size if card else len(content), card, read_name(content) if named_by(path) else "")
        self.model.keep(path, version, len(content))
        self.changed |= version != before

    # What a page asks for besides

    async def learn_versions(self, missing: Iterable[tuple[str, int]]) -> None:
        """Reads these versions. If the server is away they stay unknown until it is back."""
        await self._try_to_read([f"fetch {path} {number}" for path, number in missing])

    async def learn_place(self, path: str) -> None:
        """Asks for an unknown place, and for those above it: it may be younger than the last look. Their number is limited."""
        if path in self.model.places or self._misses < 1 or self.model.link.kind != "live":
            return
        self._misses -= 1
        for above in sorted(ways(path), key=len)[:-1]:
            if above in self.model.places and self.model.places[above].part is False:
                await self._try_to_read(["list " + above])
                if self.model.link.kind == "live":
                    await self._try_to_read(self._urgent.take(BATCH))

    async def _try_to_read(self, questions: Sequence[str]) -> None:
        """Reads, if the server can be asked. That it can't any more is told by the next turn, which reads all again."""
        if self.model.link.kind == "live":
            try:
                await self._read(questions)
            except Broken as error:
                self._drop(str(error))
        if self.changed and self.model.link.kind == "live":
            self._publish()


def form_of(form: re.Pattern[str], reply: bytes) -> re.Match[bytes] | None:
    """The parts of a reply that has this form behind its `OK`."""
    return in_bytes(form).fullmatch(reply, 3) if reply.startswith(b"OK ") else None


def claims_in(reply: bytes) -> list[str]:
    """The claims that a reply lists."""
    found = form_of(CLAIMS_LISTED, reply)
    names = found["claims"].decode("ascii").split() if found else []
    if found is None or len(names) != int(found["count"]) or len(names) > MAX_CLAIMS or len(set(names)) != len(names):
        raise refused(reply)
    return names


def questions_of(names: Iterable[str]) -> list[str]:
    """What is asked of some claims: what each is, and the note of each check-out."""
    listed = list(names)
    return ["show " + name for name in listed] + ["note " + name for name in listed if name[0] == "c"]


def claim_in(name: str, reply: bytes, note: bytes) -> Claim:
    """The claim that a reply shows, with its note from another."""
    found = SHOWN.fullmatch(reply[3:].decode("ascii", "replace")) if reply.startswith(b"OK ") else None
    if found is None or found["claim"] != name:
        raise refused(reply)
    return Claim(name, found["owner"], found["behind"], tuple(found["items"].split()), bytes_in(note, b"note", NOTE_BYTES))


def bytes_in(reply: bytes, what: bytes, most: int) -> bytes:
    """The bytes in a reply."""
    found = form_of(BYTES_GIVEN, reply)
    content = b"" if found is None or found["bytes"] == b"-" else bytes.fromhex(found["bytes"].decode("ascii"))
    if found is None or found["kind"] != what or len(content) > most:
        raise refused(reply)
    return content


def goes_on(before: Claim, claim: Claim) -> bool:
    """Whether a claim is surely the one that had its number before: its designer's still, with at least what it had."""
    return before.owner == claim.owner and before.items == claim.items[:len(before.items)]


def concerns(claim: Claim, path: str) -> bool:
    """Whether a claim covers a place, or has something beneath it."""
    return any(under(path, item[2:]) or under(item[2:], path) for item in claim.items)


def is_place(path: str) -> bool:
    """Whether a text is the path of a place."""
    return path == "/" or path[:1] == "/" and 0 < depth(path) <= MAX_NAMES and all(NAME.fullmatch(name) for name in path[1:].split("/"))
