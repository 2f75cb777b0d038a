"""The trials: what is done to a server of a replicated vault, and what must hold afterwards."""

import random
import shutil
import tempfile
import time
from dataclasses import dataclass, field
from pathlib import Path
from typing import Any, Callable, Optional

import judge
from machines import VOLUME, Cluster, Machine, Trouble, until
from serving import VAULTD, Designers, Started, Stopper, Unit, does, filled


@dataclass
class Outcome:
    """What was seen in a trial."""

    kind: str
    number: int
    done: str = ""
    took: Optional[float] = None
    told: int = 0
    more: int = 0
    answers: int = 0
    holds: int = 0
    old: str = ""
    faults: list[str] = field(default_factory=list)

    def line(self) -> str:
        """One line."""
        took = f"{self.took:.1f} s" if self.took is not None else "none"
        verdict = "passed" if not self.faults else "FAILED: " + "; ".join(self.faults)
        return (f"{self.number:3} {self.kind:12} {self.done}; takeover {took}; {self.told} check-ins told, {self.more} more there; "
                f"the old server {self.old or 'none'}, {self.answers} answers and {self.holds} holds worth nothing; {verdict}")


class Trial:
    """A vault of its own on the volume, a unit and designers on each machine."""

    def __init__(self, cluster: Cluster, kind: str, number: int, turn: int, chance: random.Random, settles: bool):
        self.cluster, self.turn, self.chance, self.settles = cluster, turn, chance, settles
        self.outcome = Outcome(kind, number)
        self.folder = f"trial{number}"
        self.first, self.second = chance.sample(cluster.machines, 2)
        self.size = chance.choice((40, 200, 1000))
        self.units: dict[str, Unit] = {}
        self.every: list[Unit] = []
        self.loads: dict[str, Designers] = {}
        self.stoppers: list[Stopper] = []
        self.alike = False
        self.begun: Optional[float] = None
        self.by_hand = 0

    def files(self, machine: Machine) -> list[str]:
        """The vault's files, as a machine sees them."""
        return [str(machine.mounted / self.folder / name) for name in "ab"]

    def prepare(self, cycles: int = 0) -> None:
        """Mounts the volume, and makes the vault on it."""
        for machine in self.cluster.machines:
            machine.mount()
        with tempfile.TemporaryDirectory(dir=self.first.folder) as folder:
            if cycles:
                filled(Path(folder), cycles)
            else:
                self.first.run(VAULTD, "create", f"{folder}/a", f"{folder}/b")
            place = str(self.first.mounted / self.folder)
            self.first.run("mkdir", place)
            self.first.run("cp", f"{folder}/a", f"{folder}/b", place)
            self.first.run("sync", *self.files(self.first))
        designers = self.chance.choice((1, 4, 8, 16))
        for machine in self.cluster.machines:
            result = machine.folder / "told.json"
            self.loads[machine.name] = Designers(machine, result, designers, self.size)

    def unit(self, machine: Machine, before: tuple[str, ...] = ()) -> Unit:
        """Starts the unit of a machine."""
        unit = self.units[machine.name] = Unit(machine, self.files(machine), self.settles, before)
        self.every.append(unit)
        return unit

    def serve(self, cycles: int = 0) -> None:
        """The first machine serves, and the second waits for the lock."""
        self.prepare(cycles)
        until("the first server listens", self.unit(self.first).listens)
        self.unit(self.second)

    def do(self, what: str, *machines: Machine) -> None:
        """Tells designers what to do: those of these machines, or all."""
        for machine in machines or self.cluster.machines:
            self.loads[machine.name].do(what)

    def work(self, least: float = 0.5, most: float = 2.0) -> None:
        """All designers work for a while."""
        self.do("cycle")
        self.wait(least, most)

    def wait(self, least: float, most: float) -> None:
        """Waits for a random time between these."""
        time.sleep(self.chance.uniform(least, most))

    def begin(self, done: str) -> None:
        """From here on the takeover is timed."""
        self.outcome.done, self.begun = done, time.monotonic()

    def taken_over(self, machine: Optional[Machine] = None, seconds: float = 90) -> None:
        """Waits until the other machine's server listens."""
        unit = self.units[(machine or self.second).name]
        until("the takeover", unit.listens, seconds, 0.01)
        if self.begun is not None:
            self.outcome.took = unit.starts[-1].listening - self.begun

    def stop_at(self, call: str, when: int, path: Optional[str] = None) -> tuple[Stopper, list[str]]:
        """Suspends the first server after a call, under load, and answers the calls before. No designer may be at work yet."""
        stopper = Stopper(self.first, self.units[self.first.name].starts[-1].pid, call, when, path)
        self.stoppers.append(stopper)
        self.do("cycle", self.first)
        return stopper, stopper.wait()

    def reach(self) -> int:
        """From now on the first machine reaches only some nodes: one, two, none or all, in turn. Answers how many."""
        count, self.alike = (1, 2, 0, 3)[self.turn % 4], True
        for node in self.chance.sample(self.cluster.nodes, len(self.cluster.nodes) - count):
            self.first.lose(node)
        return count

    def starts(self) -> list[Started]:
        """All starts of servers, in their order."""
        return sorted((started for unit in self.every for started in unit.starts), key=lambda started: started.listening)

    def back(self) -> None:
        """Brings all links and nodes back, and lets a suspended server go on."""
        self.cluster.mend()
        for stopper in self.stoppers:
            stopper.go_on()

    def serving(self) -> dict[str, str]:
        """The reply of each server that listens to a command with an effect, by its machine."""
        return {name: does(unit.machine.address) for name, unit in self.units.items() if unit.listens()}

    def settle_down(self) -> Machine:
        """Mends all, lets all work, and answers the machine that serves at the end. If only broken servers are left, they are killed,
        as somebody would by hand."""
        self.back()
        self.work(1.0, 1.5)
        said = self.serving()
        for _ in range(3):
            if any(reply.startswith("OK") for reply in said.values()):
                break
            for name in said:
                self.by_hand += 1
                self.units[name].kill()
            until("a server listens", lambda: any(unit.listens() for unit in self.units.values()), 90)
            time.sleep(1.5)
            said = self.serving()
        good = [name for name, reply in said.items() if reply.startswith("OK")]
        if len(good) != 1:
            self.outcome.faults.append(f"{len(good)} servers tell commands with an effect: {said}")
        old = [reply for name, reply in said.items() if name not in good]
        self.outcome.old = ", ".join("is broken" if reply == "ERR 82" else f"says {reply!r}" for reply in old)
        if not old and len(self.starts()) > 1:
            self.outcome.old = "is gone" if len(good) == 1 else "serves, too"
        if any(reply != "ERR 82" for reply in old):
            self.outcome.faults.append("the old server is neither broken nor gone")
        return self.units[good[0] if good else self.first.name].machine

    def judge(self) -> None:
        """Judges by the server that serves at the end, and by one that opens the healed files anew."""
        last = self.settle_down()
        results = {name: load.end() for name, load in self.loads.items()}
        told, faults = judge.told_of(list(results.values())), self.outcome.faults
        pairs = judge.overlaps(self.starts(), {name: result["effects"] for name, result in results.items()})
        if pairs:
            faults.append(f"{pairs} pairs of servers told commands in overlapping time")
        for name, result in results.items():
            self.outcome.answers += judge.behind(result["answers"], self.starts(), name)
            self.outcome.holds += judge.behind(result["holds"], self.starts(), name)
        self.outcome.told, lost, self.outcome.more = judge.lost(last, told, self.size)
        if lost:
            faults.append(f"{lost} told check-ins lost, asked from the last server")
        self.opened_anew(told)

    def opened_anew(self, told: dict[str, list[int]]) -> None:
        """Ends all, heals, compares the copies, and asks a new server. If only a write was cut short, they are alike before they heal."""
        for unit in self.every:
            unit.stop()
        if self.alike and judge.copies(self.cluster, self.folder)[0] > 1:
            self.outcome.faults.append("the nodes' copies are different vaults before they heal")
        self.cluster.heal()
        vaults, files = judge.copies(self.cluster, self.folder)
        if vaults > 1:
            self.outcome.faults.append(f"{vaults} different vaults on the nodes, {files} different pairs of files")
        machine = self.chance.choice(self.cluster.machines)
        unit = self.unit(machine)
        try:
            until("a server opens the healed files", unit.listens, 20)
        except Trouble:
            self.outcome.faults.append(f"the healed files don't open: {unit.said[-1:]}")
            return
        lost = judge.lost(machine, told, self.size)[1]
        if lost:
            self.outcome.faults.append(f"{lost} told check-ins lost behind healing")

    def close(self) -> None:
        """Ends all of the trial, and removes the vault."""
        for stopper in self.stoppers:
            stopper.end()
        for unit in self.every:
            unit.stopped = True
        for machine in self.cluster.machines:
            machine.unmount()
        self.cluster.mend()
        for node in self.cluster.nodes:
            shutil.rmtree(node.brick / self.folder, ignore_errors=True)
        self.cluster.gluster("volume", "heal", VOLUME, check=False)


def killed(t: Trial) -> None:
    """The serving program is killed."""
    t.serve()
    t.work()
    t.begin("the server killed under load")
    t.units[t.first.name].stopped = True
    t.units[t.first.name].kill()
    t.taken_over()


def power(t: Trial) -> None:
    """The serving machine loses its power."""
    t.serve()
    t.work()
    t.begin("the machine's power gone under load")
    t.units[t.first.name].stopped = True
    t.first.cut()
    t.first.kill_all(but=t.loads[t.first.name].process.pid)
    t.taken_over()
    t.work()
    t.first.join()
    t.first.unmount(but=t.loads[t.first.name].process.pid)
    t.first.mount()
    t.unit(t.first)


def idle(t: Trial) -> None:
    """The serving machine is cut off while nobody asks, and back behind the takeover."""
    t.serve()
    t.work()
    t.do("silent")
    t.wait(0.0, 8.0)
    t.begin("cut off while nobody asks")
    t.first.cut()
    t.taken_over()
    t.do("ask", t.first)
    t.do("cycle", t.second)
    t.wait(0.5, 2.0)
    t.first.join()
    t.wait(3.0, 6.0)


def load(t: Trial) -> None:
    """The serving machine is cut off under load, and back behind the takeover."""
    t.serve()
    t.work()
    t.begin("cut off under load")
    t.first.cut()
    t.taken_over()
    t.wait(0.0, 3.0)


def gate(t: Trial) -> None:
    """Cut off between body and gate of a commit; the gate then reaches some nodes or none."""
    t.serve()
    t.work(0.3, 1.0)
    t.do("silent")
    time.sleep(1.5)
    stopper, calls = t.stop_at("fsync", 2 * t.chance.randrange(1, 40) - 1)
    if "fsync(" not in calls[-1] or '"\\1", 1,' in calls[-2] or "pwrite64" not in calls[-2]:
        raise Trouble(f"the server stands elsewhere: {calls[-2:]}")
    count = t.reach()
    t.begin(f"cut off between body and gate; the gate written to {count} of 3 nodes")
    if count:
        stopper.go_on()
        t.wait(0.05, 0.5)
    t.first.cut()
    if not count and t.chance.random() < 0.5:
        stopper.go_on()
    t.taken_over()
    t.work()


def snapshot(t: Trial) -> None:
    """Cut off in a snapshot, before one of its calls, which then reaches some nodes or none."""
    t.size = 1000
    t.serve(960)
    t.work(0.1, 0.2)
    t.do("silent")
    time.sleep(1.0)
    call, when = t.chance.choice((("pwrite64", t.chance.randrange(1, 14)), ("fsync", 1), ("fsync", 2), ("fsync", 2)))
    stopper, calls = t.stop_at(call, when, t.files(t.first)[1])
    count = t.reach()
    t.begin(f"cut off in a snapshot behind its {len(calls)} calls, the last {call}; the next reaches {count} of 3 nodes")
    if count:
        stopper.go_on()
        t.wait(0.05, 0.3)
    t.first.cut()
    t.taken_over()
    t.work()


def node(t: Trial) -> None:
    """A storage node's power goes, and it comes back; nobody takes over."""
    t.serve()
    t.work()
    gone = t.chance.choice(t.cluster.nodes)
    t.outcome.done = f"{gone.name} killed under load, and back"
    if t.chance.random() < 0.5:
        gone.cut()
    gone.kill_all()
    t.wait(2.0, 8.0)
    t.cluster.mend()
    t.wait(0.5, 2.0)


def in_turn(t: Trial) -> None:
    """Each storage node's power goes, one behind the other; the server is started again, and the copies heal, before the next."""
    t.serve()
    t.work()
    t.outcome.done = "each node killed and back in turn, the server started again between"
    for gone in t.chance.sample(t.cluster.nodes, 3):
        gone.kill_all()
        t.wait(1.0, 3.0)
        t.cluster.mend()
        t.do("silent")
        for unit in t.units.values():
            unit.kill()
        until("a server listens again", lambda: any(unit.listens() for unit in t.units.values()))
        t.cluster.heal()
        t.work()


def unrestarted(t: Trial) -> None:
    """Two storage nodes lose their power, one behind the other, and the server isn't started again between."""
    t.serve()
    t.work()
    for gone in t.chance.sample(t.cluster.nodes, 2):
        gone.kill_all()
        t.wait(1.0, 3.0)
        t.cluster.mend()
        t.wait(1.0, 3.0)
    said = t.serving().get(t.first.name, "nothing")
    t.outcome.done = f"two nodes killed and back in turn under load, and the server not started again: it then says {said.split(' place')[0]}"


def two_nodes(t: Trial) -> None:
    """Two of three storage nodes lose their power: nothing is told until they are back."""
    t.serve()
    t.work()
    t.outcome.done = "two of three nodes killed under load, and healed"
    for gone in t.chance.sample(t.cluster.nodes, 2):
        if t.chance.random() < 0.5:
            gone.cut()
        gone.kill_all()
    time.sleep(9)
    said = t.serving()
    if any(reply.startswith("OK") for reply in said.values()):
        t.outcome.faults.append(f"a command was told with one node: {said}")


def flapping(t: Trial) -> None:
    """The link of the serving machine comes and goes."""
    t.serve()
    t.work()
    t.begin("the link flapping for 30 s")
    end = time.monotonic() + 30
    while time.monotonic() < end:
        t.first.cut()
        t.wait(*t.chance.choice(((0.05, 0.5), (0.5, 4.0), (4.0, 12.0))))
        t.first.join()
        t.wait(*t.chance.choice(((0.05, 0.5), (0.5, 4.0))))
    if t.units[t.second.name].listens():
        t.taken_over()


def at_once(t: Trial) -> None:
    """Both machines are started at once; then the one that serves is killed."""
    t.prepare()
    t.do("cycle")
    for machine in t.cluster.machines:
        t.unit(machine)
    until("one of them listens", lambda: any(unit.listens() for unit in t.units.values()))
    t.wait(1.0, 3.0)
    serving = [unit.machine for unit in t.units.values() if unit.listens()]
    if len(serving) != 1:
        t.outcome.faults.append(f"{len(serving)} servers listen")
    t.first, t.second = serving[0], next(machine for machine in t.cluster.machines if machine is not serving[0])
    t.begin("both started at once; the one that had the lock killed")
    t.units[t.first.name].stopped = True
    t.units[t.first.name].kill()
    t.taken_over()


def back_before(t: Trial) -> None:
    """The machine that was cut off is back before its lock is given up, or as it is."""
    t.serve()
    t.work()
    t.begin("cut off under load, and back before the takeover")
    t.first.cut()
    t.wait(0.5, 8.0)
    if t.units[t.second.name].listens():
        t.taken_over()
    t.first.join()
    t.wait(8.0, 12.0)


def back_in(t: Trial) -> None:
    """The machine that was cut off is back while the other one's server opens the files."""
    t.prepare()
    until("the first server listens", t.unit(t.first).listens)
    log = t.second.folder / f"opening-{time.monotonic_ns()}"
    unit = t.unit(t.second, ("strace", "-f", "-o", str(log), "-P", t.files(t.second)[0], "-e", "trace=pread64", "-e",
                             "inject=pread64:signal=SIGSTOP:when=1"))
    t.work()
    t.begin("cut off under load, and back while the other opens the files")
    t.first.cut()
    until("the second server opens the files", lambda: log.exists() and "stopped by SIGSTOP" in log.read_text("utf-8", "replace"), 90, 0.01)
    t.first.join()
    t.wait(0.5, 5.0)
    t.second.run("kill", "-CONT", str(unit.server()))
    t.taken_over()


def paused(t: Trial) -> None:
    """The serving machine stands as a whole, as a virtual machine may, and goes on behind the takeover."""
    t.serve()
    t.work()
    t.begin("the machine paused under load")
    stood = [str(pid) for pid in t.first.pids()]
    t.first.run("kill", "-STOP", *stood, check=False)
    t.first.cut()
    t.taken_over()
    t.wait(0.0, 2.0)
    t.first.join()
    t.first.run("kill", "-CONT", *stood, check=False)


def piecewise(t: Trial) -> None:
    """The serving machine loses one storage node, is without it for a while, and is then cut off node by node."""
    t.serve()
    t.work()
    nodes = t.chance.sample(t.cluster.nodes, 3)
    t.first.lose(nodes[0])
    t.wait(0.0, 9.0)
    if t.chance.random() < 0.5:
        t.first.find(nodes[0])
        t.wait(0.0, 6.0)
    t.begin("cut off from one node after another")
    for one in nodes:
        t.first.lose(one)
        t.wait(0.0, 0.02)
    t.first.cut()
    t.taken_over()
    t.work()


Kind = Callable[[Trial], None]
KINDS: dict[str, tuple[Kind, int]] = {
    "killed": (killed, 3), "power": (power, 3), "idle": (idle, 4), "load": (load, 5), "gate": (gate, 9), "snapshot": (snapshot, 5),
    "node": (node, 3), "in-turn": (in_turn, 2), "unrestarted": (unrestarted, 2), "two-nodes": (two_nodes, 3), "flapping": (flapping, 3),
    "at-once": (at_once, 3), "back-before": (back_before, 3), "back-in": (back_in, 3), "paused": (paused, 3), "piecewise": (piecewise, 4)}


def try_one(cluster: Cluster, kind: str, number: int, turn: int, seed: str, settles: bool) -> Outcome:
    """One trial, by its seed. One that couldn't be done counts as failed."""
    trial = Trial(cluster, kind, number, turn, random.Random(f"{seed} {number} {kind}"), settles)
    try:
        KINDS[kind][0](trial)
        trial.judge()
        if trial.by_hand:
            trial.outcome.done += f"; a broken server ended by hand {trial.by_hand} times"
    except (Trouble, OSError, IndexError, ValueError) as trouble:
        trial.outcome.faults.append(f"couldn't be tried: {trouble!r}")
    try:
        trial.close()
    except (Trouble, OSError) as trouble:
        trial.outcome.faults.append(f"couldn't be ended: {trouble!r}")
    return trial.outcome


def counts(outcomes: list[Outcome]) -> dict[str, Any]:
    """The numbers of one row of the table."""
    took = sorted(outcome.took for outcome in outcomes if outcome.took is not None)
    return {"trials": len(outcomes), "failed": sum(bool(outcome.faults) for outcome in outcomes), "took": took,
            "told": sum(outcome.told for outcome in outcomes), "more": sum(outcome.more for outcome in outcomes),
            "answers": sum(outcome.answers for outcome in outcomes), "holds": sum(outcome.holds for outcome in outcomes)}
