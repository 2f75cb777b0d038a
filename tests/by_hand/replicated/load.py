#!/usr/bin/env python3
"""Designers on one machine, who reach only that machine's server.

usage: load.py NAME ADDRESS PORT DESIGNERS BYTES RESULT

Each designer checks out a part of its own, saves and checks in, again and again; one more asks, and takes holds. Each line on standard
input says what they do from then on: `cycle`, `ask` (only the one who asks goes on), `silent` or `end`. At the end RESULT has, as JSON,
when each reply came, and how many check-ins of each part were acknowledged. A connection that breaks is made again, with a new part.
"""

import contextlib
import json
import socket
import sys
import threading
import time
from collections import Counter
from pathlib import Path
from typing import Any


class Refused(Exception):
    """An error reply."""


class Load:
    """What all designers of a machine share: where the server is, what to do, and the replies so far."""

    def __init__(self, name: str, address: str, port: int, size: int):
        self.name, self.address, self.port, self.size = name, address, port, size
        self.doing = "silent"
        self.effects: list[tuple[float, float]] = []
        self.answers: list[float] = []
        self.holds: list[float] = []
        self.parts: dict[str, list[int]] = {}
        self.refusals: Counter[str] = Counter()

    def content(self, part: str, version: int) -> str:
        """The content of a version of a part. Nobody else writes the same."""
        return content_of(part, version, self.size)


def content_of(part: str, version: int, size: int) -> str:
    """The content of a version, in hexadecimal."""
    text = f"{part} {version} "
    return (text * (size // len(text) + 1))[:size].encode().hex()


class Connection:
    """A connection of one designer."""

    def __init__(self, load: Load, designer: str):
        self.load = load
        self.socket = socket.create_connection((load.address, load.port), timeout=30)
        self.socket.setsockopt(socket.IPPROTO_TCP, socket.TCP_NODELAY, 1)
        self.file = self.socket.makefile("rb")
        self.lines = 0
        self.say(f"hello {designer}")

    def say(self, line: str) -> list[str]:
        """Sends a line and answers the words of its reply."""
        self.lines += 1
        self.socket.sendall(line.encode() + b"\n")
        reply = self.file.readline()
        if not reply.endswith(b"\n"):
            raise ConnectionError("ended")
        words = reply.decode().split()
        if words[0] != "OK":
            self.load.refusals[words[1]] += 1
            raise Refused(" ".join(words))
        return words

    def effect(self, line: str) -> list[str]:
        """Sends a command with an effect, and notes when it was sent and acknowledged."""
        begin = time.monotonic()
        words = self.say(line)
        self.load.effects.append((begin, time.monotonic()))
        return words

    def make(self, place: str) -> None:
        """Makes a place, unless it is there."""
        try:
            self.effect(f"make {place}")
        except Refused as refused:
            if not str(refused).startswith("ERR 21"):
                raise

    def close(self) -> None:
        """Ends the connection without a word."""
        self.file.close()
        self.socket.close()


class Designer(threading.Thread):
    """One who checks out, saves and checks in."""

    def __init__(self, load: Load, number: int):
        super().__init__(daemon=True)
        self.load, self.number, self.connections = load, number, 0

    def run(self) -> None:
        while self.load.doing != "end":
            if self.load.doing != "cycle":
                time.sleep(0.005)
                continue
            with contextlib.suppress(OSError, Refused):
                self.work(Connection(self.load, f"{self.load.name}{self.number}"))
            time.sleep(0.05)

    def work(self, link: Connection) -> None:
        """Cycles over one connection, on a part of its own."""
        try:
            part = f"/{self.load.name}/d{self.number}/v{self.connections}"
            for end in (2, 3, 4):
                link.make("/".join(part.split("/")[:end]))
            self.connections += 1
            told = self.load.parts[part] = [0, 0]
            while self.load.doing == "cycle" and link.lines < 4000:
                claim = link.effect(f"checkout w:{part}")[2]
                link.effect(f"save {claim} {part} {self.load.content(part, told[0] + 1)}")
                told[1] = told[0] + 1
                link.effect(f"checkin {claim}")
                told[0] += 1
        finally:
            link.close()


class Asker(threading.Thread):
    """One who asks questions and takes holds. Neither writes to a disk."""

    def __init__(self, load: Load):
        super().__init__(daemon=True)
        self.load = load

    def run(self) -> None:
        while self.load.doing != "end":
            if self.load.doing == "silent":
                time.sleep(0.005)
                continue
            with contextlib.suppress(OSError, Refused):
                self.ask(Connection(self.load, f"{self.load.name}-asks"))
            time.sleep(0.05)

    def ask(self, link: Connection) -> None:
        """Asks over one connection."""
        try:
            place = f"/{self.load.name}-asks"
            link.make(place)
            while self.load.doing in ("ask", "cycle") and link.lines < 4000:
                link.say("list /")
                self.load.answers.append(time.monotonic())
                hold = link.say(f"hold w:{place}")[2]
                self.load.holds.append(time.monotonic())
                link.say(f"release {hold}")
                time.sleep(0.02)
        finally:
            link.close()


def main() -> None:
    name, address, port, designers, size, result = sys.argv[1:]
    load = Load(name, address, int(port), int(size))
    threads: list[threading.Thread] = [Designer(load, number) for number in range(int(designers))]
    for thread in [*threads, Asker(load)]:
        thread.start()
    for line in sys.stdin:
        load.doing = line.strip()
        if load.doing == "end":
            break
    load.doing = "end"
    for thread in threads:
        thread.join(5)
    told: dict[str, Any] = {"effects": load.effects, "answers": load.answers, "holds": load.holds, "parts": load.parts,
                            "refusals": load.refusals, "size": load.size}
    Path(result).write_text(json.dumps(told), "ascii")


if __name__ == "__main__":
    main()
