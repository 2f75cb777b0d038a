#!/usr/bin/env python3
"""What answers cost a server in memory: connections that stay, each of which got as many long lists as it may get.

usage, at the top of the repository:  python3 bench/answers.py [--program PROGRAM] [--folder FOLDER] [--before PROGRAM] [--port P] [--tiny]

Each of 64 connections says hello, asks 4,094 times for a list of 64 names of 32 bytes, and stays. The server's resident memory is read
before the first list and after the last one. --before names another program, which is measured first.
"""
import argparse
import os
import re
import socket
import subprocess
import time
from typing import Optional

from measure import ALLOCATOR, arguments, head, prepared, table

CONNECTIONS = 64
NAMES = 64
# The most lines of a connection, less its hello, and less one, so that the connection doesn't end.
LISTS = 4_094
AT_ONCE = 64


class Client:
    """One connection, whose replies are read whole."""

    def __init__(self, port: int, name: str) -> None:
        self.socket = socket.create_connection(("127.0.0.1", port))
        self.replies = self.socket.makefile("rb")
        self.ask(f"hello {name}", 1)

    def ask(self, line: str, times: int) -> None:
        """Sends this number of questions at once, and reads all replies."""
        self.socket.sendall((line + "\n").encode() * times)
        for _ in range(times):
            reply = self.replies.readline()
            if not reply.startswith(b"OK "):
                raise SystemExit(f"answers: {line} was told {reply!r}")

    def close(self) -> None:
        self.replies.close()
        self.socket.close()


def resident(process: int) -> int:
    """The resident memory of a process in kilobytes."""
    with open(f"/proc/{process}/status", encoding="ascii") as file:
        found = re.search(r"^VmRSS:\s+(\d+)", file.read(), re.M)
    if found is None:
        raise SystemExit("answers: the server is gone")
    return int(found[1])


def serving(program: str, folder: str, port: int) -> subprocess.Popen[bytes]:
    """A server of a new vault, which listens."""
    files = [os.path.join(folder, f"answers-{port}.{letter}") for letter in "ab"]
    for file in files:
        if os.path.exists(file):
            os.remove(file)
    subprocess.run([program, "create", *files], check=True, stdout=subprocess.DEVNULL)
    server = subprocess.Popen([program, "serve", *files, f"127.0.0.1:{port}", "--workers", str(CONNECTIONS)], stdout=subprocess.PIPE,
                              env=os.environ | ALLOCATOR)
    assert server.stdout is not None
    if server.stdout.readline() != b"listening\n":
        raise SystemExit("answers: the server doesn't listen: is the port free?")
    return server


def measured(program: str, folder: str, port: int, lists: int) -> tuple[int, int, float]:
    """Resident kilobytes before the lists and after them, and the seconds between."""
    server = serving(program, folder, port)
    maker = Client(port, "maker")
    for number in range(NAMES):
        maker.ask(f"make /{'n' * 29}{number:03}", 1)
    maker.ask("quit", 1)
    maker.close()
    clients = [Client(port, f"d{number}") for number in range(CONNECTIONS)]
    try:
        for client in clients:
            client.ask("list /", 1)
        before, begin = resident(server.pid), time.monotonic()
        for client in clients:
            for asked in range(0, lists, AT_ONCE):
                client.ask("list /", min(AT_ONCE, lists - asked))
        return before, resident(server.pid), time.monotonic() - begin
    finally:
        for client in clients:
            client.close()
        server.kill()
        server.wait()


def row(name: str, found: tuple[int, int, float]) -> tuple[str, ...]:
    before, behind, wall = found
    return name, f"{before / 1000:.1f} MB", f"{behind / 1000:.1f} MB", f"{(behind - before) / 1000:.1f} MB", f"{wall:.1f} s"


def main() -> None:
    parser: argparse.ArgumentParser = arguments("What answers that were told cost a server in memory.")
    parser.add_argument("--before", help="a program to be measured before it")
    parser.add_argument("--port", type=int, default=7373)
    options = parser.parse_args()
    program, folder = prepared(options)
    # One was asked to warm up.
    lists = (LISTS - 1 if not options.tiny else 2 * AT_ONCE)
    head(program, f"{CONNECTIONS} connections, each told {lists:,} lists of {NAMES} names")
    earlier: Optional[str] = options.before
    rows = [row("before", measured(os.path.abspath(earlier), folder, options.port, lists))] if earlier else []
    rows.append(row("now", measured(program, folder, options.port + 1, lists)))
    table(("Program", "Resident before the lists", "Behind them", "More", "Wall"), rows)


if __name__ == "__main__":
    main()
