"""What must hold after a trial: what was acknowledged is there, no two servers acknowledged at one time, and the copies are one vault."""

import hashlib
import re
import socket
from typing import Any, Iterator

from load import content_of
from machines import Cluster, Machine, run
from serving import PORT, VAULTD, Started


class Reader:
    """Asks a machine's server many things at once."""

    def __init__(self, machine: Machine):
        self.machine = machine

    def ask(self, lines: list[str]) -> Iterator[str]:
        """The replies, in order. Each 2,000 lines go over a connection of their own."""
        for begin in range(0, len(lines), 2000):
            with socket.create_connection((self.machine.address, PORT), timeout=60) as link, link.makefile("rb") as file:
                for first in range(begin, min(begin + 2000, len(lines)), 50):
                    some = lines[first:min(first + 50, begin + 2000)]
                    hello = ["hello judge"] if first == begin else []
                    link.sendall("".join(line + "\n" for line in hello + some).encode())
                    for line in hello + some:
                        reply = file.readline().decode().strip()
                        if line not in hello:
                            yield reply


def lost(machine: Machine, told: dict[str, list[int]], size: int) -> tuple[int, int, int]:
    """How many check-ins were acknowledged, how many of these aren't there as they were saved, and how many more are there."""
    counts = dict(zip(told, Reader(machine).ask([f"count {part}" for part in told])))
    missing = more = 0
    wanted: list[tuple[str, str]] = []
    for part, (done, sent) in told.items():
        found = re.fullmatch(r"OK versions (\d+)", counts[part])
        there = int(found.group(1)) if found else 0
        missing += max(0, done - there)
        more += max(0, there - done)
        if there > max(done, sent):
            missing += 1
        wanted += [(f"fetch {part} {version}", f"OK content {content_of(part, version, size)}") for version in range(1, min(done, there) + 1)]
    replies = Reader(machine).ask([line for line, _ in wanted])
    missing += sum(reply != content for reply, (_, content) in zip(replies, wanted))
    return sum(done for done, _ in told.values()), missing, more


def told_by(started: Started, later: list[Started], effects: list[list[float]]) -> list[float]:
    """When a server acknowledged commands with an effect: those of its machine, from its start to the next start there."""
    nexts = [other.listening for other in later if other.machine is started.machine and other.listening > started.listening]
    end = min(nexts, default=float("inf"))
    return [told for _, told in effects if started.listening - 0.5 <= told < end]


def overlaps(starts: list[Started], effects: dict[str, list[list[float]]]) -> int:
    """How many pairs of servers acknowledged commands with an effect in overlapping time."""
    spans = []
    for started in starts:
        told = told_by(started, starts, effects[started.machine.name])
        if told:
            spans.append((min(told), max(told)))
    return sum(first[0] <= second[1] and second[0] <= first[1] for n, first in enumerate(spans) for second in spans[n + 1:])


def behind(times: list[float], starts: list[Started], machine: str) -> int:
    """How many answers a machine gave after another machine's server had started later than its own. They are worth nothing."""
    count = 0
    for told in times:
        begun = [started for started in starts if started.listening < told]
        if begun and max(begun, key=lambda started: started.listening).machine.name != machine:
            count += 1
    return count


def copies(cluster: Cluster, folder: str) -> tuple[int, int]:
    """How many different vaults the nodes have, each read from its own copy, and how many different pairs of files."""
    vaults, files = set(), set()
    for node in cluster.nodes:
        pair = [node.brick / folder / name for name in "ab"]
        vaults.add(run(VAULTD, "inspect", *map(str, pair), check=False))
        files.add(tuple(hashlib.sha256(path.read_bytes()).hexdigest() for path in pair))
    return len(vaults), len(files)


def told_of(results: list[dict[str, Any]]) -> dict[str, list[int]]:
    """All parts: how many check-ins of each were acknowledged, and how many were sent."""
    return {part: told for result in results for part, told in result["parts"].items()}
