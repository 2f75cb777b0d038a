#!/usr/bin/env python3
"""A server that runs without end: --commands commands over connections that come and go, with snapshots when they are due, and a kill -9
and a restart after each --kill-every of them. It runs as the units in contrib/ start it. All places are made among the first commands,
and from then on each part gets its versions, so that memory may be compared.

The load is made by this program, in a process of its own. Each designer has an assembly of its own, so each reply is known before it
comes. After each kill, all that was acknowledged is looked for: places by `list`, versions by `count` and `fetch`, check-outs with their
items by `vaultd inspect` and `state`, drafts by checking them in. What was under way when the server was killed may have been done or
not. At the end every version is fetched, and as many sessions are opened as there may be at once: this shows that no session outlived its
connection.

usage, at the top of the repository:  python3 bench/endless.py [--program PROGRAM] [--folder FOLDER] [--commands N] [--connections N]
                                      [--kill-every N] [--seed N] [--port P] [--tiny]
Exit status 1 if something is found to differ from what was acknowledged, if the memory grows, or if somebody is refused 80 for longer
than a reply takes. --folder says on which disk the vault lies; --tiny takes a hundredth of --commands and --kill-every.
"""
import argparse
import os
import random
import re
import socket
import subprocess
import sys
import time
from typing import Callable, Dict, Iterator, List, Optional

from endless_check import Designer, Difference, Search, Talk, compare_counts
from endless_load import BUSY, MEETING, PARTS, PATIENCE, Crowd, Figures, Work
from measure import ALLOCATOR, arguments, head, megabytes, prepared, sized, table
from vaultd_tools.files import Claim, Report

# The most sessions at once.
SESSIONS = WORKERS = 64
# The memory is compared with that after FIRST commands. It may grow by OF_CONTENTS times the growth of the contents, and by MEMORY
# kilobytes: a snapshot's bytes, and what an allocator keeps.
FIRST, OF_CONTENTS, MEMORY = 100_000, 4, 4096
# The most that all contents may weigh, of which versions get a part, and what a short one weighs.
MAX_WEIGHT, SHORT = 16_777_216 * 3 // 4, 16
COLUMNS = ("Commands", "A second", "Longest wait", "Refused 80, and the longest", "Snapshots so far",
           "Resident memory (VmRSS): first, last, greatest", "Changes under way at the kill", "Replies compared behind it")
# The memory is read LOOKS times in a life. In the first LIVES lives drafts are checked in after a kill, which takes room for good.
LOOKS, LIVES = 20, 100


class Server:
    """A vault in two files, and its server."""

    def __init__(self, program: str, folder: str, port: int):
        self.program, self.port = program, port
        self.files = [os.path.join(folder, f"endless.{which}") for which in "ab"]
        self.process: Optional["subprocess.Popen[bytes]"] = None
        for path in self.files:
            if os.path.exists(path):
                os.remove(path)
        subprocess.run([program, "create", *self.files], check=True, stdout=subprocess.DEVNULL)

    def start(self) -> None:
        """Starts the server, and waits until it listens."""
        words = [self.program, "serve", *self.files, f"127.0.0.1:{self.port}", "--workers", str(WORKERS)]
        self.process = subprocess.Popen(words, stdout=subprocess.PIPE, env=os.environ | ALLOCATOR)
        assert self.process.stdout is not None
        if self.process.stdout.readline() != b"listening\n":
            raise Difference("the server didn't start")

    def kill(self) -> None:
        """Kills it as a power cut would."""
        if self.process is not None:
            self.process.kill()
            self.process.communicate()
            self.process = None

    def memory(self) -> int:
        """How many kilobytes are resident."""
        assert self.process is not None
        with open(f"/proc/{self.process.pid}/status", encoding="ascii") as file:
            found = re.search(r"VmRSS:\s+(\d+)", file.read())
        return int(found.group(1)) if found else 0

    def report(self) -> Report:
        """What is in its files, while it doesn't run."""
        done = subprocess.run([self.program, "inspect", *self.files], capture_output=True, text=True, check=False)
        report = Report(done.stdout)
        if report.counts is None:
            raise Difference(f"the vault isn't whole: {done.stdout}{done.stderr}")
        return report


def one_reply(link: socket.socket, line: str) -> str:
    """The reply to a line, if no other line is under way."""
    link.sendall(line.encode() + b"\n")
    reply = b""
    while not reply.endswith(b"\n"):
        more = link.recv(4096)
        if not more:
            raise Difference(f"a connection was ended behind `{line}`")
        reply += more
    return reply.decode().rstrip("\n")


def set_up(port: int, designers: List[Designer]) -> None:
    """Makes the project where all meet, those of the designers, and for each designer an assembly with a part."""
    lines = ["hello setter", f"make {MEETING}"] + [f"make {project}" for project in sorted({designer.project for designer in designers})]
    for designer in designers:
        lines += [f"make {designer.assembly}", f"make {designer.assembly}/p0"]
        designer.made(f"{designer.assembly}/p0")
    with socket.create_connection(("127.0.0.1", port), PATIENCE) as link:
        for line in lines:
            reply = one_reply(link, line)
            if not reply.startswith("OK"):
                raise Difference(f"`{line}` was told `{reply}`")


def settled(server: Server, designers: List[Designer]) -> int:
    """Finds out from the files at rest what became of what was under way: how many such commands there were. Each acknowledged check-out
    stands there with its items, and nobody has another one."""
    standing: List[Claim] = server.report().claims()
    others = [claim.name for claim in standing if claim.owner not in {designer.name for designer in designers}]
    if others:
        raise Difference(f"nobody asked for {others}")
    return sum(designer.settle(standing) for designer in designers)


def search(server: Server, designers: List[Designer], checks_in: Callable[[Designer], bool]) -> int:
    """Looks for all that was acknowledged, over all connections at once. How many replies were compared."""
    searches = {designer.number: Search(designer, checks_in(designer)) for designer in designers}
    figures = Figures()

    def talk_of(designer: Designer) -> Optional[Talk]:
        one = searches[designer.number]
        return None if one.is_done else one.visit()

    def count() -> bool:
        figures.told += 1
        return False

    server.start()
    crowd = Crowd(server.port, talk_of, figures, count)
    try:
        crowd.run(designers)
    finally:
        crowd.close()
    return figures.told


def all_sessions(port: int, seconds: float = 10.0) -> None:
    """Opens as many sessions as there may be at once, and takes a hold, which no other may be in the way of."""
    links = [socket.create_connection(("127.0.0.1", port), PATIENCE) for _ in range(SESSIONS)]
    end = time.monotonic() + seconds
    for number, link in enumerate(links, 1):
        while not (reply := one_reply(link, f"hello last{number}")).startswith("OK session"):
            if reply not in ("ERR 50", BUSY) or time.monotonic() > end:
                raise Difference(f"only {number - 1} sessions could be opened: the next was told `{reply}`")
            time.sleep(0.01)
    reply = one_reply(links[0], f"hold w:{MEETING}")
    if not reply.startswith("OK held"):
        raise Difference(f"a hold stands of a session that is gone: another was told `{reply}`")
    for link in links:
        link.close()


class Endless:
    """A server, its designers, and what was seen of them so far."""

    def __init__(self, options: argparse.Namespace, server: Server, designers: List[Designer]):
        self.server, self.designers = server, designers
        self.commands, self.kill_every = sized(options.commands, options), sized(options.kill_every, options)
        self.first = min(FIRST, self.kill_every // 2)
        # A step is about 1.3 commands, so the last part is made by about four fifths of the first commands.
        steps = max(5, self.first * 3 // (5 * len(designers) * PARTS))
        most = MAX_WEIGHT // (len(designers) * SHORT)
        self.works: Dict[int, Work] = {
            designer.number: Work(designer, random.Random(options.seed * 1000 + designer.number), steps, most) for designer in designers
        }
        self.done, self.found, self.lives = 0, 0, 0
        self.memory_at_first: Optional[int] = None
        self.weight_at_first = 0

    def weight(self) -> int:
        """About how many kilobytes of versions there are."""
        return sum(len(content) // 2 + 8 for designer in self.designers for each in designer.versions.values() for content in each) // 1024

    def life(self, count: int) -> Figures:
        """A life of the server, with this many commands, and its end by a kill while others are under way."""
        figures = Figures()

        def one_more() -> bool:
            figures.told += 1
            if figures.told % max(1, self.kill_every // LOOKS) == 0:
                self.look(figures)
            return figures.told >= count

        crowd = Crowd(self.server.port, lambda designer: self.works[designer.number].visit(), figures, one_more)
        try:
            crowd.run(self.designers)
            self.done += figures.told
            if self.done >= self.commands:
                crowd.close()
                all_sessions(self.server.port)
        finally:
            self.server.kill()
            crowd.drain()
        return figures

    def look(self, figures: Figures) -> None:
        """Notes how much memory is resident, and compares it with that after the first commands."""
        now, behind = self.server.memory(), self.done + figures.told
        figures.memory.append((behind, now))
        if self.memory_at_first is None and behind >= self.first:
            self.memory_at_first, self.weight_at_first = now, self.weight()
        if self.memory_at_first is not None:
            most = self.memory_at_first + MEMORY + OF_CONTENTS * (self.weight() - self.weight_at_first)
            if now > most:
                raise Difference(f"{now} kB are resident behind {behind:,} commands, and {most} kB are accounted for")

    def look_for_all(self, is_last: bool) -> int:
        """After a kill: all that was acknowledged must be there. How many commands were under way."""
        lost = settled(self.server, self.designers)
        if is_last:
            for designer in self.designers:
                designer.found = dict.fromkeys(designer.found, 0)
        self.found = search(self.server, self.designers, lambda designer: self.lives <= LIVES and (designer.number + self.lives) % 2 == 0)
        self.server.kill()
        compare_counts(self.designers, self.server.report(), 2)
        return lost

    def row(self, figures: Figures, seconds: float, lost: int) -> List[str]:
        """What the table says of a life."""
        snapshots = re.search(r"open, generation (\d+)", self.server.report().text)
        memory = [kilobytes for _, kilobytes in figures.memory] or [0]
        return [f"{self.done:,}", f"{figures.told / seconds:,.0f}", f"{figures.longest_wait * 1000:.0f} ms",
                f"{figures.refused:,}, {figures.longest_refused * 1000:.0f} ms", str(int(snapshots.group(1)) - 1) if snapshots else "?",
                f"{megabytes(memory[0])}, {megabytes(memory[-1])}, {megabytes(max(memory))}", str(lost), f"{self.found:,}"]

    def rows(self) -> Iterator[List[str]]:
        """Life by life."""
        while self.done < self.commands:
            self.lives += 1
            began = time.monotonic()
            figures = self.life(min(self.kill_every, self.commands - self.done))
            seconds = time.monotonic() - began
            lost = self.look_for_all(self.done >= self.commands)
            yield self.row(figures, seconds, lost)
            if figures.longest_refused > figures.longest_wait:
                raise Difference(f"80 was told for {figures.longest_refused * 1000:.0f} ms, and no reply took longer than "
                                 f"{figures.longest_wait * 1000:.0f} ms")
            if self.done < self.commands:
                self.server.start()


def run(options: argparse.Namespace, server: Server) -> None:
    """All lives, and a line at the end."""
    designers = [Designer(number) for number in range(1, options.connections + 1)]
    server.start()
    set_up(server.port, designers)
    endless = Endless(options, server, designers)
    table(COLUMNS, endless.rows())
    versions = sum(len(each) for designer in designers for each in designer.versions.values())
    parts = sum(len(designer.versions) for designer in designers)
    print(f"Every told reply was found again: {versions:,} versions, {parts:,} parts. Memory behind {endless.first:,} commands: "
          f"{megabytes(endless.memory_at_first)}. {SESSIONS} sessions could be opened at the end.")


def main() -> int:
    """0 where all was found, 1 at a difference."""
    parser = arguments("A server that runs without end.")
    parser.add_argument("--commands", type=int, default=2_000_000, help="how many commands are told in all")
    parser.add_argument("--connections", type=int, default=64, help="1 to 64 connections at a time")
    parser.add_argument("--kill-every", type=int, default=200_000, help="behind how many commands the server is killed")
    parser.add_argument("--seed", type=int, default=1, help="what the load's choices begin with")
    parser.add_argument("--port", type=int, default=7171)
    options = parser.parse_args()
    if not (1 <= options.connections <= 64 and options.commands >= 1 and options.kill_every >= 1):
        parser.error("1 to 64 connections, and at least one command")
    program, folder = prepared(options)
    head(program, f"{options.connections} connections that come and go, seed {options.seed}")
    server = Server(program, folder, options.port)
    try:
        run(options, server)
    except (Difference, OSError) as difference:
        print(f"\nDIFFERENT: {difference}", flush=True)
        return 1
    finally:
        server.kill()
    return 0


if __name__ == "__main__":
    sys.exit(main())
