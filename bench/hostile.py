#!/usr/bin/env python3
"""How an honest client fares beside eight clients that do their worst.

The honest client says `hello`, and then asks `list /` over and over, each line once the one before it was answered, and connects anew after
4,000 lines. Its wait for the first reply of a connection includes connecting. Then it makes changes in the same way: it checks a place out
for change, and abandons that. The eight others are threads of two further processes. With --assert the exit status is 1 if it got fewer than 1,000
answers a second, or waited for one longer than 50 ms; this holds on four cores that do nothing else. Beside other load the figures are a hint,
and the line above the table says how much load there was.

With --places clients take all 64 places, say nothing, or a byte now and then, or `hello` and then nothing, and come again as soon as the
server ends them. Then a designer comes, who tries again with growing pauses. The server has the time limits of the units. The figure is
how long it takes until the designer has a session: at most 12 seconds, and 75 beside those who said `hello`. These rows take 90 seconds.

usage, at the top of the repository:  python3 bench/hostile.py [--program PROGRAM] [--folder FOLDER] [--seconds S] [--rows WORD,WORD]
                                      [--threads N] [--port P] [--places] [--assert] [--tiny]
"""
import argparse
import multiprocessing
import os
import socket
import statistics
import subprocess
import sys
import threading
import time
from collections.abc import Callable, Iterator
from contextlib import contextmanager, suppress
from dataclasses import dataclass
from multiprocessing.sharedctypes import Synchronized
from multiprocessing.synchronize import Event
from typing import Optional

from measure import arguments, head, prepared, table

HOSTILE = 8
PROCESSES = 2
WORKERS = 64
MIN_RATE = 1000.0
MAX_WAIT = 0.05
# How long a client waits for the server, where the machine has much else to do.
PATIENCE = 60
# The most replies of a connection.
LINES = 4096
HONEST_LINES = 4000
MEGABYTES = 16 * 1024 * 1024
# The time limits of the units.
TIMES = ("--idle", "86400", "--hello", "10", "--line", "30", "--full", "10")


@dataclass
class Waits:
    """What the honest client got: its answers a second, and the seconds that it waited for each."""

    rate: float
    waits: list[float]

    @property
    def late(self) -> float:
        """The 99th percentile."""
        return self.waits[int(len(self.waits) * 0.99)]


@contextmanager
def linked(port: int) -> Iterator[socket.socket]:
    """A connection to the server, which sends each piece at once."""
    with socket.create_connection(("127.0.0.1", port), PATIENCE) as link:
        link.setsockopt(socket.IPPROTO_TCP, socket.TCP_NODELAY, 1)
        yield link


def read_to_end(link: socket.socket) -> None:
    """Reads all that comes until the server ends the connection."""
    while link.recv(1 << 16):
        pass


def refused(port: int, over: Event) -> int:
    """Sends lines that are refused, as many as a connection may, and comes again."""
    with linked(port) as link:
        link.sendall(b"\n" * (LINES + 1))
        read_to_end(link)
    return LINES


def closes(port: int, over: Event) -> int:
    """Connects and closes."""
    with linked(port):
        return 1


def endless(port: int, over: Event) -> int:
    """Sends 16 MiB without a line feed."""
    piece = b"x" * (1 << 16)
    with linked(port) as link:
        for _ in range(MEGABYTES // len(piece)):
            link.sendall(piece)
        link.sendall(b"x")
        read_to_end(link)
    return MEGABYTES


def dripping(port: int, over: Event) -> int:
    """Sends a byte at a time, in packets of their own."""
    count = 0
    with linked(port) as link:
        link.setblocking(False)
        while count < 4 * LINES and not over.is_set():
            for byte in b"foo\n":
                link.send(bytes([byte]))
            count += 4
            with suppress(BlockingIOError):
                link.recv(1 << 16)
    return count


def deaf(port: int, over: Event) -> int:
    """Asks for long replies, and reads none of them: they are more than the kernel holds for it."""
    asked = b"list /long\n" * (LINES - 1)
    sent = 0
    with socket.socket() as link:
        link.setsockopt(socket.SOL_SOCKET, socket.SO_RCVBUF, 4096)
        link.connect(("127.0.0.1", port))
        link.sendall(b"hello ben\n")
        if not link.recv(4096).startswith(b"OK session"):
            raise OSError("no session")
        link.setblocking(False)
        until = time.monotonic() + 2
        while time.monotonic() < until and not over.is_set():
            with suppress(BlockingIOError):
                sent += link.send(asked[sent:])
            time.sleep(0.005)
    return sent // len(b"list /long\n")


def packed(port: int, over: Event) -> int:
    """Sends 4,096 questions at once, reads the replies, and comes again."""
    with linked(port) as link:
        link.sendall(b"list /\n" * LINES + b"\n")
        read_to_end(link)
    return LINES


@dataclass(frozen=True)
class Row:
    """What eight clients do all the time, and what is counted of it."""

    name: str
    what: str
    counted: str
    does: Optional[Callable[[int, Event], int]]


ROWS = (
    Row("nobody", "nobody", "", None),
    Row("refused", "lines that are refused without end, and connecting again", "lines", refused),
    Row("closes", "connecting and closing", "connections", closes),
    Row("endless", "16 MiB without a line feed", "bytes", endless),
    Row("dripping", "a byte at a time", "bytes", dripping),
    Row("deaf", "asking for long replies, and reading none", "lines", deaf),
    Row("packed", "4,096 lines in one packet", "lines", packed),
)


def act(row: Row, port: int, over: Event, count: "Synchronized[int]") -> None:
    """One hostile client, until it is over. It connects anew when the server ends its connection early."""
    assert row.does is not None
    while not over.is_set():
        with suppress(OSError):
            done = row.does(port, over)
            with count.get_lock():
                count.value += done


def act_all(row: Row, port: int, over: Event, count: "Synchronized[int]") -> None:
    """One process of the hostile clients."""
    threads = [threading.Thread(target=act, args=(row, port, over, count), daemon=True) for _ in range(HOSTILE // PROCESSES)]
    for thread in threads:
        thread.start()
    over.wait()


def answered(link: socket.socket, line: bytes) -> bytes:
    """The reply to a line of an honest client, which is never refused."""
    link.sendall(line + b"\n")
    told = link.recv(4096)
    if not told.startswith(b"OK"):
        raise SystemExit(f"the honest client was told {told!r} to {line!r}")
    return told


def asked(port: int, seconds: float) -> Waits:
    """Asks as an honest client for this long."""
    waits: list[float] = []
    begin = time.monotonic()
    while time.monotonic() < begin + seconds:
        asked_at = time.monotonic()
        with linked(port) as link:
            for line in [b"hello anna", *[b"list /"] * HONEST_LINES]:
                answered(link, line)
                now = time.monotonic()
                waits.append(now - asked_at)
                asked_at = now
                if now > begin + seconds:
                    break
    return Waits(len(waits) / (time.monotonic() - begin), sorted(waits))


def changed(port: int, seconds: float) -> Waits:
    """Makes changes as an honest client for this long: each is committed to the disk before it is answered."""
    waits: list[float] = []
    begin = time.monotonic()
    while time.monotonic() < begin + seconds:
        with linked(port) as link:
            answered(link, b"hello anna")
            for _ in range(HONEST_LINES // 2):
                asked_at = time.monotonic()
                claim = answered(link, b"checkout w:/honest").split()[2]
                held_at = time.monotonic()
                answered(link, b"abandon " + claim)
                now = time.monotonic()
                waits += [held_at - asked_at, now - held_at]
                if now > begin + seconds:
                    break
    return Waits(len(waits) / (time.monotonic() - begin), sorted(waits))


def fill(port: int) -> None:
    """Makes the places whose list is long."""
    names = [f"/long/{number:02}{'x' * 30}" for number in range(64)]
    with linked(port) as link, link.makefile("rb") as back:
        for line in ["hello anna", "make /honest", "make /long", *(f"make {name}" for name in names), "quit"]:
            link.sendall(line.encode() + b"\n")
            reply = back.readline()
            if not reply.startswith(b"OK"):
                raise SystemExit(f"{line} was told {reply!r}")


@contextmanager
def served(program: str, folder: str, port: int, *further: str) -> Iterator[None]:
    """The server over a new vault, with further words."""
    files = [os.path.join(folder, f"hostile.{which}") for which in "ab"]
    for path in files:
        with suppress(FileNotFoundError):
            os.remove(path)
    subprocess.run([program, "create", *files], check=True, stdout=subprocess.DEVNULL)
    words = [program, "serve", *files, f"127.0.0.1:{port}", "--workers", str(WORKERS), *further]
    with subprocess.Popen(words, stdout=subprocess.PIPE) as server:
        try:
            assert server.stdout is not None
            if server.stdout.readline() != b"listening\n":
                raise SystemExit("the server didn't start")
            fill(port)
            yield
        finally:
            server.kill()


def measured(row: Row, port: int, seconds: float) -> tuple[Waits, Waits, float]:
    """What the honest client got for its questions and for its changes beside eight of a row, and how much these did in a second."""
    over = multiprocessing.Event()
    count: "Synchronized[int]" = multiprocessing.Value("q", 0)  # type: ignore[assignment]
    processes = [multiprocessing.Process(target=act_all, args=(row, port, over, count)) for _ in range(PROCESSES if row.does else 0)]
    for process in processes:
        process.start()
    try:
        time.sleep(min(1.0, seconds / 4))
        before, begin = count.value, time.monotonic()
        waits = asked(port, seconds)
        done = (count.value - before) / (time.monotonic() - begin)
        changes = changed(port, seconds / 2)
    finally:
        over.set()
        for process in processes:
            process.join(5)
            process.kill()
    return waits, changes, done


@dataclass(frozen=True)
class Squatters:
    """Clients on all places: what each says first, and now and then, and after how long a designer has to be served beside them."""

    what: str
    first: str
    then: bytes
    within: float


SQUATTERS = (
    Squatters("saying nothing", "", b"", 12),
    Squatters("a byte now and then", "", b"x", 12),
    Squatters("`hello`, and then nothing", "hello d{}\n", b"", 75),
    Squatters("`hello`, and then a byte now and then", "hello d{}\n", b"x", 75),
)


def seated(port: int, squatters: Squatters, number: int) -> socket.socket:
    """One of these clients, which has connected and said what it says first."""
    link = socket.create_connection(("127.0.0.1", port), 10)
    link.setblocking(False)
    with suppress(OSError):
        link.send(squatters.first.format(number).encode())
    return link


def is_ended(link: socket.socket) -> bool:
    """Whether the server has ended a connection."""
    try:
        return not link.recv(4096)
    except BlockingIOError:
        return False
    except OSError:
        return True


def squat(port: int, squatters: Squatters, over: threading.Event) -> None:
    """Takes all places until it is over, and connects anew when one is lost."""
    links = [seated(port, squatters, number) for number in range(WORKERS)]
    while not over.wait(0.5):
        for number, link in enumerate(links):
            if is_ended(link):
                link.close()
                links[number] = seated(port, squatters, number)
            elif squatters.then:
                with suppress(OSError):
                    link.send(squatters.then)
    for link in links:
        link.close()


def come(port: int) -> float:
    """How long it takes a designer until he has a session."""
    begin, pause = time.monotonic(), 0.5
    while time.monotonic() < begin + 120:
        with suppress(OSError), linked(port) as link:
            link.settimeout(30)
            link.sendall(b"hello anna\n")
            if link.recv(4096).startswith(b"OK session"):
                return time.monotonic() - begin
        time.sleep(pause)
        pause = min(2 * pause, 8)
    return time.monotonic() - begin


def came(squatters: Squatters, port: int) -> float:
    """How long it takes a designer who comes once they have been there for two seconds."""
    over = threading.Event()
    thread = threading.Thread(target=squat, args=(port, squatters, over), daemon=True)
    thread.start()
    try:
        time.sleep(2)
        return come(port)
    finally:
        over.set()
        thread.join()


def places(program: str, folder: str, options: argparse.Namespace) -> list[str]:
    """Prints the table of designers who come while all places are taken, and answers which rows fell short."""
    short: list[str] = []

    def rows() -> Iterator[tuple[str, ...]]:
        for squatters in SQUATTERS:
            with served(program, folder, options.port, "--threads", str(options.threads), *TIMES):
                took = came(squatters, options.port)
            if took > squatters.within:
                short.append(squatters.what)
            yield (squatters.what, f"{took:.1f} s", f"{squatters.within:g} s")

    table((f"{WORKERS} clients on {WORKERS} places, each", "A designer has a session after", "At most"), rows())
    return short


def is_met(waits: Waits) -> bool:
    """Whether the honest client was served as it should be."""
    return waits.rate >= MIN_RATE and waits.waits[-1] <= MAX_WAIT


def answers(program: str, folder: str, options: argparse.Namespace) -> list[str]:
    """Prints the table of what the honest client gets, and answers which rows fell short."""
    seconds = options.seconds / 10 if options.tiny else options.seconds
    short: list[str] = []

    def rows() -> Iterator[tuple[str, ...]]:
        for row in ROWS:
            if row.name not in options.rows.split(","):
                continue
            with served(program, folder, options.port, "--threads", str(options.threads)):
                waits, changes, done = measured(row, options.port, seconds)
            if not is_met(waits):
                short.append(row.name)
            yield (row.what, f"{waits.rate:,.0f}", f"{statistics.median(waits.waits) * 1000:.2f} and {waits.late * 1000:.1f} ms",
                   f"{waits.waits[-1] * 1000:.1f} ms", f"{statistics.median(changes.waits) * 1000:.2f} and {changes.waits[-1] * 1000:.1f} ms",
                   f"{done:,.0f} {row.counted}".strip() if row.does else "")

    table((f"Beside {HOSTILE} clients, each", "Answers a second", "Median and 99th percentile of a wait", "Longest", "A change: median, longest",
           "All did, a second"), rows())
    return short


def main() -> int:
    """0, or 1 if --assert was given and a row fell short."""
    parser = arguments("How an honest client fares beside hostile ones.")
    parser.add_argument("--seconds", type=float, default=5.0, help="how long each row lasts")
    parser.add_argument("--rows", default=",".join(row.name for row in ROWS), help="the rows, with commas between")
    parser.add_argument("--threads", type=int, default=1, help="by how many threads the server serves")
    parser.add_argument("--port", type=int, default=7474)
    parser.add_argument("--places", action="store_true", help="show what becomes of a designer where all places are taken, alone")
    parser.add_argument("--assert", dest="asserts", action="store_true", help="end with status 1 where a row falls short")
    options = parser.parse_args()
    program, folder = prepared(options)
    head(program, f"An honest client beside others, threads of the server: {options.threads}")
    short = places(program, folder, options) if options.places else answers(program, folder, options)
    if short and options.asserts:
        print(f"hostile: fell short beside: {', '.join(short)}", file=sys.stderr)
        return 1
    return 0


if __name__ == "__main__":
    sys.exit(main())
