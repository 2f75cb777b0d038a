"""Runs commands up to their moments, has something happen there, and judges."""

import random
import time
from dataclasses import dataclass
from pathlib import Path
from typing import Callable, Dict, Iterator, List, Optional, Sequence, Tuple

from moments.deeds import DEEDS, Deed, Try
from moments.judge import End, end_of, faults_of, other_end
from moments.programs import VAULT, Done, Hangs
from moments.scenes import FULL, POWER, Scene
from moments.world import World, sha256_of

# What the client says of an error of the system that it has no other words for.
UNFORESEEN = "A file of this client can't be used"
# How often a command is said again at most.
AGAIN = 2


@dataclass(frozen=True)
class Fault:
    """What was found: at which moment of which command, with which deed."""

    scene: str
    deed: str
    moment: int
    call: str
    what: str

    def __str__(self) -> str:
        return f"{self.scene} | {self.deed} | {self.moment} {self.call} | {self.what}"


class Tries:
    """All moments of scenes in one world."""

    def __init__(self, world: World):
        self.world = world
        self.calls: Dict[str, List[str]] = {}
        self.ends: Dict[str, End] = {}
        self.count = 0

    def run(self, scene: Scene, moment: Optional[int] = None, meanwhile: Optional[Callable[[int, str], str]] = None,
            options: Sequence[str] = (), calls: Optional[Path] = None) -> Done:
        """Runs a scene's command, up to a moment and from there on, or whole."""
        program, *words = scene.words(self.world)
        words = [*options, *words] if program == VAULT else words
        desk = self.world.desk
        return self.world.programs.run(desk.environment(), desk.home, program, words, moment, meanwhile, calls)

    def learn(self, scene: Scene) -> Iterator[Fault]:
        """Finds out which calls a scene's command makes, and how it ends, and judges that."""
        self.world.begin(scene.name, scene.prepare)
        tried = self.begun(scene, -1)
        kept = self.world.base / "calls"
        done = self.run(scene, calls=kept)
        scene.behind(self.world)
        self.calls[scene.name] = kept.read_text("utf-8").splitlines()
        yield from (Fault(scene.name, "nothing", -1, "", fault) for fault in faults_of(tried))
        again = self.run(scene)
        yield from (Fault(scene.name, "nothing, and it is said again", -1, "", fault) for fault in faults_of(tried))
        if again.status not in scene.done and done.status == 0:
            yield Fault(scene.name, "nothing, and it is said again", -1, "", f"status {again.status}: {again.out} {again.errors}")
        self.ends[scene.name] = end_of(self.world)

    def begun(self, scene: Scene, moment: int) -> Try:
        """A try that begins: what isn't in the vault by then was saved by the designer."""
        tried = Try(self.world, scene, moment)
        versions = {sha256 for each in self.world.seen().versions.values() for sha256 in each}
        if tried.file.exists() and sha256_of(tried.file.read_bytes()) not in versions:
            tried.was_saved(tried.file.read_bytes())
        return tried

    def wanted(self, scene: Scene, deeds: Sequence[Deed] = DEEDS, step: int = 1, share: int = 1, offset: int = 0,
               until: Optional[int] = None) -> List[Tuple[Deed, int]]:
        """What may happen in a scene, with each of its moments, or each in steps; with every deed, or with a share of them by turns; up to one
        moment, if that is asked."""
        last = len(self.calls[scene.name])
        found: List[Tuple[Deed, int]] = []
        for place, deed in enumerate(each for each in deeds if each.kind in scene.kinds and self.may_be(each)):
            moments = range(offset + place % share * step + place % step, last + 1 if until is None else until, step * share)
            found += [(deed, moment) for moment in moments if moment < last or deed.behind]
        return found

    def within(self, scene: Scene, wanted: List[Tuple[Deed, int]], seconds: float) -> Iterator[Fault]:
        """Tries what fits into a time, some of each deed and from the first moments to the last."""
        end = time.monotonic() + seconds
        for deed, moment in random.Random(scene.name).sample(wanted, len(wanted)):
            if time.monotonic() > end:
                return
            yield from self.one(scene, deed, moment)

    def may_be(self, deed: Deed) -> bool:
        """Whether something can happen here: it may need a disk of its own, and on one which loses much at a power cut nothing else is tried."""
        if self.world.small is None or not self.world.small.loses:
            return deed.kind != POWER and (deed.kind != FULL or self.world.small is not None)
        return deed.kind == POWER

    def one(self, scene: Scene, deed: Deed, moment: int) -> Iterator[Fault]:
        """One try. It counts if something happened."""
        self.world.begin(scene.name, scene.prepare)
        tried = self.begun(scene, moment)
        deed.before(tried)
        happened: List[str] = []

        def meanwhile(pid: int, _call: str) -> str:
            tried.process = pid
            happened.append(deed.at(tried))
            time.sleep(self.world.slow)
            return "kill" if happened[-1] == "kill" else "go"

        call = "behind the end"
        try:
            done = self.run(scene, moment, meanwhile, deed.options)
            call = done.call or call
            if not happened and deed.behind:
                happened.append(deed.at(tried))
            deed.after(tried)
            scene.behind(self.world)
            found = list(unforeseen(deed, done)) + list(faults_of(tried)) + self.said_again(tried, deed, done)
        except Hangs as hangs:
            found = [f"hangs: {hangs}"]
            self.world.renew()
        if happened and happened[-1] != "nothing":
            self.count += 1
            yield from (Fault(scene.name, deed.name, moment, call, fault) for fault in dict.fromkeys(found))

    def said_again(self, tried: Try, deed: Deed, done: Done) -> List[str]:
        """Says the command again, until it is done, and judges again."""
        tried.newest = ""
        for _ in range(AGAIN):
            if done.status == 0 and not deed.ends_alike:
                return []
            done = self.run(tried.scene)
            if done.status in tried.scene.done:
                break
        tried.scene.behind(self.world)
        found = list(faults_of(tried))
        if deed.ends_alike:
            if done.status not in tried.scene.done:
                found.append(f"again: status {done.status}: {done.out} {done.errors}")
            found += other_end(tried, self.ends[tried.scene.name])
        return found


def unforeseen(deed: Deed, done: Done) -> Iterator[str]:
    """An end by an error that nobody foresaw, or by one of the system, though its disk is not full."""
    if "Traceback" in done.errors or (UNFORESEEN in done.errors and deed.kind != FULL):
        yield f"unforeseen: {done.errors}"
