#!/usr/bin/env python3
"""What a snapshot of a full vault costs a server: how long it takes, how long commands wait meanwhile, the memory, and opening after it.

Memory is given in two ways: what is resident, and the server's share of it, in which a page that other programs have, too, counts in
parts (`Pss`), read each half millisecond. The first reply after a kill counts from the start of the program, here with the allocator's
own settings.

The files are written by this program, by docs/FORMAT.md: a snapshot with 4,096 places, 256 check-outs of 8 items and 16 MiB of contents,
and frames of almost half as many bytes after it. A few saves over TCP then make the server begin a snapshot, into the empty second file.
Each connection saves 1,024 bytes again and again, each save answered before the next is sent. A run has one snapshot, so each row is of
several runs.

usage, at the top of the repository:  python3 bench/snapshot.py [--program PROGRAM] [--folder FOLDER] [--connections 1,16,64] [--runs N]
                                      [--port P] [--start] [--tiny]
--folder says on which disk the vault lies. --start also tells how long the starts of two snapshots take, by strace, in runs of their own.
"""
import os
import re
import signal
import socket
import statistics
import subprocess
import threading
import time
from contextlib import contextmanager

from measure import ALLOCATOR, arguments, head, megabytes, prepared, run_once, sized, table
from opening import file_of, name, number, saved
from server import status_of

WORKERS = 64
PLACES, CLAIMS, ITEMS = 4096, 256, 8
WEIGHT = 16_777_216
CONTENT = 1024
SAVE = 1035
# The most records of a save in a frame. The frames leave room for 14 saves before a snapshot is begun.
FRAME = 253
LEFT = 14
# How many saves after them make the next snapshot wanted, and the most that all connections of a run make.
LATER = 1100
SAVES = 3500


def places():
    """The parent and the name of each place from 1 on: a project, 63 assemblies, and parts."""
    yield 0, "e"
    for assembly in range(63):
        yield 1, f"b{assembly}"
    for part in range(PLACES - 65):
        yield 2 + part // 64, f"x{part}"


def path_of(part):
    """The path of a part, counted from 0."""
    return f"/e/b{part // 64}/x{part}"


def snapshot_of(weight):
    """The spelling of a vault with about this weight of versions, of which drafts for 64 connections are left out."""
    parts = PLACES - 65
    versions, more = divmod((weight - WORKERS * (CONTENT + 8)) // (CONTENT + 8), parts)
    out = [number(CLAIMS, 4), number(PLACES, 4)]
    for place, (parent, word) in enumerate(places(), 1):
        out.append(number(parent, 4) + name(word) + number(place > 64, 1))
        if place > 64:
            count = versions + (place - 65 < more)
            out.append(number(count, 2) + (number(CONTENT, 2) + b"v" * CONTENT) * count)
    out.append(number(CLAIMS, 2))
    for claim in range(1, CLAIMS + 1):
        items = b"".join(b"\x01" + number(65 + (claim - 1) * ITEMS + item, 4) for item in range(ITEMS))
        out.append(number(claim, 4) + name(f"d{(claim - 1) % WORKERS + 1}") + b"\x00" + number(ITEMS, 1) + items + b"\x00")
    return b"".join(out)


def frames_behind(snapshot):
    """How many records each frame has: with a few more, and their own heads, they are as long as a journal gets."""
    records = max(1 << 20, len(snapshot) // 2) // SAVE - LEFT
    return [FRAME] * (records // FRAME) + [records % FRAME]


def full_file(weight):
    """A file of generation 1: this snapshot, frames of almost half its length, and a tail gate."""
    snapshot = snapshot_of(weight)
    out = [b"\x01LLVAULT" + number(2, 4) + number(1, 8) + number(len(snapshot), 4) + snapshot]
    record = 0
    for count in frames_behind(snapshot):
        out.append(b"\x01" + number(count * SAVE, 4))
        for _ in range(count):
            claim = record % WORKERS + 1
            out.append(saved(claim, 65 + (claim - 1) * ITEMS, b"d" * CONTENT))
            record += 1
    return b"".join(out) + b"\x00"


class Share(threading.Thread):
    """The greatest memory of a process in kilobytes, a page that it shares counted in parts."""

    def __init__(self, pid, stop):
        super().__init__()
        self.path, self.stop, self.most = f"/proc/{pid}/smaps_rollup", stop, 0

    def run(self):
        while not self.stop.is_set():
            with open(self.path, encoding="ascii") as file:
                self.most = max(self.most, int(re.search(r"^Pss:\s+(\d+)", file.read(), re.M).group(1)))
            time.sleep(0.0005)


class Client(threading.Thread):
    """One connection, which saves until it is told to stop, and this often at most. Each wait is kept with its beginning."""

    def __init__(self, port, number_of, stop, most):
        super().__init__()
        self.stop, self.most, self.waits = stop, most, []
        self.line = f"save c{number_of} {path_of((number_of - 1) * ITEMS)} {'64' * CONTENT}\n".encode()
        self.socket = socket.create_connection(("127.0.0.1", port))
        self.socket.setsockopt(socket.IPPROTO_TCP, socket.TCP_NODELAY, 1)
        self.file = self.socket.makefile("rb")
        self.say(f"hello d{number_of}\n".encode())

    def say(self, line):
        self.socket.sendall(line)
        told = self.file.readline()
        if not told.startswith(b"OK"):
            raise SystemExit(f"a connection was told: {told.decode()}")

    def run(self):
        # A few of all these saves make the journal long enough.
        for _ in range(self.most):
            if self.stop.is_set():
                return
            begin = time.monotonic()
            self.say(self.line)
            self.waits.append((begin, time.monotonic()))


def written(path, limit=60):
    """When a snapshot was begun in an empty file, and when its head gate was written. Looks about ten times a millisecond."""
    began, until = None, time.monotonic() + limit
    with open(path, "rb", buffering=0) as file:
        while time.monotonic() < until:
            head_of = os.pread(file.fileno(), 1, 0)
            if began is None and head_of:
                began = time.monotonic()
            if head_of == b"\x01":
                return began, time.monotonic()
            time.sleep(0.0001)
    raise SystemExit("no snapshot was written")


def written_again(path, limit=60):
    """Waits until the second snapshot is in a file, of generation 3: the server begins it once nobody says anything."""
    until = time.monotonic() + limit
    while time.monotonic() < until:
        with open(path, "rb") as file:
            head_of = file.read(20)
        if head_of[:1] == b"\x01" and head_of[12:] == number(3, 8):
            return
        time.sleep(0.01)
    raise SystemExit("no second snapshot was written")


def waits_in_words(waits):
    """The longest of some waits and their 99th percentile; of a short snapshot no command may have been seen to wait."""
    return f"{waits[-1] * 1000:.1f} and {waits[int(len(waits) * 0.99)] * 1000:.1f} ms" if waits else "none"


@contextmanager
def serving(program, files, options, before=()):
    """A server over these files, which listens. It has ended behind it."""
    words = [*before, program, "serve", *files, f"127.0.0.1:{options.port}", "--workers", str(WORKERS)]
    with subprocess.Popen(words, stdout=subprocess.PIPE, env=os.environ | ALLOCATOR) as server:
        if server.stdout.readline().strip() != b"listening":
            raise SystemExit("the server didn't start")
        yield server


def one_run(program, files, content, options, connections):
    """How long a snapshot took, the waits of the commands that were under way in it, and the server's greatest memory, in two ways."""
    with open(files[0], "wb") as file:
        file.write(content)
    open(files[1], "wb").close()
    with serving(program, files, options) as server:
        stop = threading.Event()
        clients = [Client(options.port, number_of, stop, SAVES // connections) for number_of in range(1, connections + 1)]
        share = Share(server.pid, stop)
        for thread in [share, *clients]:
            thread.start()
        began, ended = written(files[1])
        time.sleep(0.05)
        stop.set()
        share.join()
        for client in clients:
            client.join()
            client.socket.close()
        memory = status_of(server.pid)[0], share.most
        server.terminate()
    waits = [end - begin for client in clients for begin, end in client.waits if begin < ended and end > began]
    return ended - began, waits, memory


def first_reply(program, files, options):
    """How long it takes from the start of the program to its first reply over these files. Then it is killed."""
    began = time.monotonic()
    with subprocess.Popen([program, "serve", *files, f"127.0.0.1:{options.port}", "--workers", str(WORKERS)], stdout=subprocess.DEVNULL) as server:
        while True:
            try:
                with socket.create_connection(("127.0.0.1", options.port), 5) as link:
                    link.sendall(b"hello z\n")
                    told = link.recv(100)
                break
            except OSError:
                time.sleep(0.0002)
        took = time.monotonic() - began
        server.kill()
    if not told.startswith(b"OK"):
        raise SystemExit(f"the first reply was {told.decode()}")
    return took


def traced_by(tracer):
    """The program that strace runs: a signal to strace itself is held back while it writes to a file."""
    with open(f"/proc/{tracer}/task/{tracer}/children", encoding="utf-8") as file:
        return int(file.read().split()[0])


def starts_by_strace(program, files, content, options, folder):
    """How long the starts of two snapshots of one server take: each from the call before it in its thread to the first write of the snapshot."""
    told = os.path.join(folder, "strace.out")
    calls = "fsync,fdatasync,write,pwrite64,read,recvfrom,sendto,epoll_wait"
    with open(files[0], "wb") as file:
        file.write(content)
    open(files[1], "wb").close()
    with serving(program, files, options, ["strace", "-f", "-ttt", "-T", "-y", "-e", f"trace={calls}", "-o", told]) as tracer:
        client = Client(options.port, 1, threading.Event(), LEFT + LATER)
        client.run()
        written_again(files[0])
        client.socket.close()
        os.kill(traced_by(tracer.pid), signal.SIGTERM)
    return starts_in(told, [os.path.realpath(file) for file in files])


def starts_in(told, files):
    """How long the starts took, by what strace told. Snapshots are written to the second file and to the first by turns."""
    found, ended = [], {}
    with open(told, encoding="utf-8", errors="replace") as file:
        for line in file:
            call = re.match(r"(\d+)\s+(\d+\.\d+) (?:<\.\.\. )?(\w+)(?: resumed>|\(\d+<([^>]*)>)", line)
            if not call:
                continue
            thread, at, name, path = call.groups()
            if "write" in name and path == files[1 - len(found) % 2]:
                found.append(float(at) - ended[thread])
            took = re.search(r"<(\d+\.\d+)>$", line)
            ended[thread] = float(at) + float(took.group(1)) if took and path else float(at)
    if len(found) < 2:
        raise SystemExit(f"strace saw {len(found)} snapshots, and not two")
    return found[:2]


def middle(values):
    return f"{min(values) * 1000:.1f} and {statistics.median(values) * 1000:.1f} ms"


def main():
    parser = arguments("What a snapshot of a full vault costs a server.")
    parser.add_argument("--connections", default="1,16,64", help="numbers of connections, with commas between")
    parser.add_argument("--runs", type=int, default=10, help="runs of each row, 10 where it isn't given")
    parser.add_argument("--port", type=int, default=7171)
    parser.add_argument("--start", action="store_true", help="how long the starts of two snapshots take, too, by strace")
    options = parser.parse_args()
    program, folder = prepared(options)
    files = [os.path.join(folder, f"vault.{which}") for which in "ab"]
    weight = sized(WEIGHT, options)
    content = full_file(weight)
    runs = max(1, sized(options.runs, options))
    head(program, f"A snapshot of {len(snapshot_of(weight)):,} bytes, {runs} runs each")

    def rows():
        for connections in map(int, options.connections.split(",")):
            done = [one_run(program, files, content, options, connections) for _ in range(runs)]
            waits = sorted(wait for _, each, _ in done for wait in each)
            resident, own = (max(each[way] for _, _, each in done) for way in (0, 1))
            yield (str(connections), middle([took for took, _, _ in done]), f"{len(waits):,}", waits_in_words(waits),
                   f"{megabytes(resident)}, {resident * 1024 / WEIGHT:.2f}", f"{megabytes(own)}, {own * 1024 / WEIGHT:.2f}")

    table(("Connections", "Whole snapshot, least and median", "Commands that waited for it", "Longest wait and 99th percentile",
           "Resident memory at most, and of the greatest weight", "The server's own, and of the greatest weight"), rows())
    if options.start:
        starts = zip(*(starts_by_strace(program, files, content, options, folder) for _ in range(runs)))
        table(("The start of a snapshot, under the lock, by strace", "Least and median"), zip(("the first", "the second"), map(middle, starts)))
    one_run(program, files, content, options, 1)
    first = [first_reply(program, files, options) for _ in range(runs)]
    opened = [run_once(program, ["inspect", *files]) for _ in range(runs)]
    for path, bytes_of_file in zip(files, (file_of([])[0], b"")):
        with open(path, "wb") as file:
            file.write(bytes_of_file)
    empty = [run_once(program, ["inspect", *files]) for _ in range(runs)]
    table(("Reading it behind the snapshot, as the opening does", "Least and median", "Resident memory"),
          [("16 MiB of contents", middle([wall for wall, _, _ in opened]), megabytes(opened[-1][1])),
           ("the same, to the first reply of a server behind a kill", middle(first), ""),
           ("a new vault", middle([wall for wall, _, _ in empty]), megabytes(empty[-1][1]))])


if __name__ == "__main__":
    main()
