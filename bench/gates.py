#!/usr/bin/env python3
"""How long the gate of a tree takes, beside that of another one: both from nothing on one machine, by turns.

Each has all processors for a quarter of a second, in which the other has a thousandth of one, so what the host takes away it takes from both
alike. Each has its own /tmp, its own network (the loopback alone) and its own kept proofs, so neither meets the other. A line says the gate's own
minutes, those less what the host took, and what was proved then, what a longer check took of a processor, or how a part ended. What needs a
network, or a machine without pauses, fails in it: its figures are the minutes.

usage, as root: python3 bench/gates.py FOLDER NAME=CLONE NAME=CLONE [--slice SECONDS]     FOLDER is made, and keeps each gate's output
Needs cgroup v1's cpu, two clones with nothing in them but what git has, and no /opt/rattle-kept. Takes twice as long as a gate.
"""
import argparse
import contextlib
import os
import re
import signal
import subprocess
import sys
import time
from pathlib import Path
from typing import Dict, List, Tuple

CPU = Path("/sys/fs/cgroup/cpu")
KEPT, TMP = Path("/opt/rattle-kept"), Path("/tmp")
TICKS = os.sysconf("SC_CLK_TCK")
PERIOD, LITTLE = "1000000", "1000"
INSIDE = f'mount --bind "$0/kept" {KEPT} && mount --bind "$0/tmp" {TMP} && ip link set lo up && cd "$1" && CI=true exec bash .ci/run'
SAID = re.compile(r"^(?:rt: \w+ proved|rt: \w+ NOT PROVED.*|ci: .* seconds|\d+ passed, \d+ failed)$", re.MULTILINE)
# A check that took so many seconds of a processor is told.
LONGER = 10
# How often it is looked what runs, in seconds.
OFTEN = 2


def ticks() -> Tuple[int, int]:
    """What the host took, and all there was, in ticks."""
    fields = [int(word) for word in Path("/proc/stat").read_text("ascii").split()[1:9]]
    return fields[7], sum(fields)


class Gate:
    """One gate, in a group whose share of the processors can be taken away."""

    def __init__(self, folder: Path, name: str, clone: Path):
        self.name, self.own, self.less, self.told = name, 0.0, 0.0, 0
        self.checks: Dict[Tuple[str, str], Tuple[str, str, float]] = {}
        self.folder = folder / name
        for part in ("kept", "tmp"):
            (self.folder / part).mkdir(parents=True)
        (self.folder / "tmp").chmod(0o1777)
        self.group = CPU / f"turns-{name}-{os.getpid()}"
        self.group.mkdir()
        (self.group / "cpu.cfs_period_us").write_text(PERIOD, "ascii")
        self.turn(False)
        words = ["unshare", "-mn", "--propagation", "private", "bash", "-c", INSIDE, str(self.folder), str(clone)]
        with open(self.folder / "gate.log", "wb") as log:
            self.process = subprocess.Popen(["bash", "-c", 'echo $$ > "$0" && exec "$@"', str(self.group / "cgroup.procs"), *words],
                                            stdin=subprocess.DEVNULL, stdout=log, stderr=subprocess.STDOUT, start_new_session=True)

    def turn(self, is_on: bool) -> None:
        (self.group / "cpu.cfs_quota_us").write_text("-1" if is_on else LITTLE, "ascii")

    def has_ended(self) -> bool:
        return self.process.poll() is not None

    def run(self, seconds: float) -> None:
        """Gives it its turn."""
        began, (taken, all_of_it) = time.monotonic(), ticks()
        self.turn(True)
        try:
            self.process.wait(seconds)
        except subprocess.TimeoutExpired:
            pass
        self.turn(False)
        took, (taken_then, all_then) = time.monotonic() - began, ticks()
        self.own += took
        self.less += took * (1 - (taken_then - taken) / max(1, all_then - all_of_it))

    def say(self, words: str) -> None:
        print(f"{self.name:8} {self.own / 60:6.2f} {self.less / 60:6.2f}  {words}", flush=True)

    def end(self) -> None:
        """Ends what is left of it, and gives its group back."""
        self.turn(True)
        while pids := (self.group / "cgroup.procs").read_text("ascii").split():
            for pid in pids:
                with contextlib.suppress(ProcessLookupError):
                    os.kill(int(pid), signal.SIGKILL)
            self.process.poll()
            time.sleep(0.1)
        self.group.rmdir()

    def running(self) -> Dict[Tuple[str, str], Tuple[str, str, float]]:
        """Each check that runs, by its process and start: the crate, the kind and the processor seconds so far."""
        found = {}
        for pid in (self.group / "cgroup.procs").read_text("ascii").split():
            try:
                line = Path(f"/proc/{pid}/cmdline").read_bytes().replace(b"\0", b" ").decode("utf8", "replace")
                fields = Path(f"/proc/{pid}/stat").read_text("utf8").rsplit(")", 1)[1].split()
            except OSError:
                continue
            if "/rattle " in line and "--crate-name " in line:
                kind = line.split("/rattle ")[1].split()[0] + " --test" * ("--test " in line) + " of a seed" * ("/seed" in line)
                found[pid, fields[19]] = line.split("--crate-name ")[1].split()[0], kind, (int(fields[11]) + int(fields[12])) / TICKS
        return found

    def tell(self) -> None:
        """Says what ended since it was last told."""
        running = self.running()
        for key in set(self.checks) - set(running):
            crate, kind, seconds = self.checks[key]
            if seconds > LONGER:
                self.say(f"        {crate} {kind}: {seconds:.0f} s of a processor")
        self.checks = running
        said = SAID.findall((self.folder / "gate.log").read_text("utf8", "replace"))
        for line in said[self.told:]:
            self.say(line.removeprefix("rt: "))
        self.told = len(said)


def take_turns(gates: List[Gate], seconds: float) -> None:
    """Runs them to their ends."""
    told = 0.0
    while not all(gate.has_ended() for gate in gates):
        for gate in gates:
            if not gate.has_ended():
                gate.run(seconds)
        if time.monotonic() > told + OFTEN:
            told = time.monotonic()
            for gate in gates:
                gate.tell()
    for gate in gates:
        gate.tell()
        gate.say(f"ended with {gate.process.returncode}")


def named(word: str) -> Tuple[str, Path]:
    """A gate's name and its clone, as a word of the command line has them."""
    name, equals, clone = word.partition("=")
    folder = Path(clone).resolve()
    if not name.isalnum() or not equals or not clone or not (folder / ".ci" / "run").is_file() or TMP in folder.parents:
        raise argparse.ArgumentTypeError(f"{word}: write NAME=CLONE, a name of letters and digits and a folder with .ci/run, outside {TMP}")
    return name, folder


def main() -> None:
    parser = argparse.ArgumentParser(description="How long two gates take, by turns.")
    parser.add_argument("folder", type=Path)
    parser.add_argument("gates", nargs=2, metavar="NAME=CLONE", type=named)
    parser.add_argument("--slice", type=float, default=0.25, help="seconds of a turn, 0.25 where it isn't given")
    options = parser.parse_args()
    if not os.access(CPU / "cgroup.procs", os.W_OK):
        raise SystemExit(f"{CPU} can't be written: run it as root, where cgroup v1's cpu is mounted there")
    if options.folder.exists():
        raise SystemExit(f"{options.folder} is there: name a new folder")
    if KEPT.exists():
        raise SystemExit(f"{KEPT} is there: move it away, and back at the end")
    signal.signal(signal.SIGTERM, lambda *_: sys.exit(1))
    with contextlib.ExitStack() as at_the_end:
        KEPT.mkdir()
        at_the_end.callback(KEPT.rmdir)
        gates = []
        for name, clone in options.gates:
            gates.append(Gate(options.folder.resolve(), name, clone))
            at_the_end.callback(gates[-1].end)
        take_turns(gates, options.slice)


if __name__ == "__main__":
    main()
