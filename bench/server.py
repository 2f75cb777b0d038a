#!/usr/bin/env python3
"""How many check-outs, saves and check-ins `vaultd serve` does in a second, over TCP on the loopback.

A cycle is a check-out, a save of 1,000 bytes and a check-in, each answered before the next is sent; each connection has its own part. The
load is made by this program, in processes of its own, so with many connections the figures are of both.

usage, at the top of the repository:  python3 bench/server.py [--program PROGRAM] [--folder FOLDER] [--connections 1,4,16,64]
                                      [--processes N] [--port P] [--syncs] [--tiny]
--folder says on which disk the vault lies. --syncs counts syncs by strace, in runs of their own.
"""
import multiprocessing
import os
import re
import selectors
import socket
import statistics
import subprocess
import time

from measure import arguments, head, megabytes, prepared, table

WORKERS = 64
# This many cycles stay below 1 MiB of journal, so that no snapshot comes between; bench/snapshot.py measures those.
MAX_CYCLES = 960
CONTENT = "61" * 1000


class Client:
    """One connection: its lines one after the other, each once the one before it was answered."""

    def __init__(self, port, number, cycles):
        self.number, self.cycles, self.waiting, self.claim, self.walls = number, cycles, b"", None, []
        self.socket = socket.create_connection(("127.0.0.1", port))
        self.socket.setsockopt(socket.IPPROTO_TCP, socket.TCP_NODELAY, 1)
        place = f"/c{number}"
        for line in (f"hello d{number}", f"make {place}", f"make {place}/a", f"make {place}/a/x"):
            self.socket.sendall(line.encode() + b"\n")
            self.told(self.line())

    def told(self, reply):
        if not reply.startswith(b"OK"):
            raise SystemExit(f"connection {self.number} was told: {reply.decode()}")
        return reply.decode().split()

    def line(self):
        while b"\n" not in self.waiting:
            more = self.socket.recv(65536)
            if not more:
                raise SystemExit(f"connection {self.number} was ended")
            self.waiting += more
        reply, self.waiting = self.waiting.split(b"\n", 1)
        return reply

    def lines(self):
        """What to say next, once a reply was told: yields a line and is sent the reply."""
        part = f"/c{self.number}/a/x"
        for _ in range(self.cycles):
            begin = time.monotonic()
            claim = self.told((yield f"checkout w:{part}"))[2]
            self.told((yield f"save {claim} {part} {CONTENT}"))
            self.told((yield f"checkin {claim}"))
            self.walls.append(time.monotonic() - begin)

    def quit(self):
        self.socket.sendall(b"quit\n")
        self.line()
        self.socket.close()


def say(client, line):
    client.socket.sendall(line.encode() + b"\n")


def work(port, numbers, cycles, gates, results):
    """One process of the load: its connections side by side, from one gate to the next."""
    clients = [Client(port, number, cycles) for number in numbers]
    gates[0].wait()
    with selectors.DefaultSelector() as waiting:
        talks = {}
        for client in clients:
            talks[client] = client.lines()
            say(client, next(talks[client]))
            waiting.register(client.socket, selectors.EVENT_READ, client)
        while talks:
            for key, _ in waiting.select():
                client = key.data
                try:
                    say(client, talks[client].send(client.line()))
                except StopIteration:
                    waiting.unregister(client.socket)
                    del talks[client]
    gates[1].wait()
    gates[2].wait()
    for client in clients:
        client.quit()
    results.put([wall for client in clients for wall in client.walls])


def status_of(pid):
    """The greatest resident memory of a process in kilobytes, and its processor time in seconds."""
    with open(f"/proc/{pid}/status", encoding="ascii") as file:
        memory = int(re.search(r"VmHWM:\s+(\d+)", file.read()).group(1))
    with open(f"/proc/{pid}/stat", encoding="ascii") as file:
        fields = file.read().rsplit(")", 1)[1].split()
    return memory, (int(fields[11]) + int(fields[12])) / os.sysconf("SC_CLK_TCK")


def served(program, words):
    server = subprocess.Popen([*words, program, *SERVE], stdout=subprocess.PIPE)
    if server.stdout.readline().strip() != b"listening":
        raise SystemExit("the server didn't start")
    return server


SERVE = []


def measured(program, folder, options, connections, before=(), ready=lambda: None):
    """One run: cycles a second, the wall times of cycles, effects a commit, and the server's memory and processor time.

    Once all clients are connected `ready` is called, and then the load begins.
    """
    files = [os.path.join(folder, f"vault.{connections}.{which}") for which in "ab"]
    for path in files:
        if os.path.exists(path):
            os.remove(path)
    subprocess.run([program, "create", *files], check=True, stdout=subprocess.DEVNULL)
    SERVE[:] = ["serve", *files, f"127.0.0.1:{options.port}", "--workers", str(WORKERS), "--connections", str(connections)]
    server = served(program, before)
    cycles = MAX_CYCLES // connections
    cycles = 2 if options.tiny else cycles
    shares = [range(1, connections + 1)[n::options.processes] for n in range(min(options.processes, connections))]
    gates = [multiprocessing.Barrier(len(shares) + 1) for _ in range(3)]
    results = multiprocessing.Queue()
    load = [multiprocessing.Process(target=work, args=(options.port, numbers, cycles, gates, results)) for numbers in shares]
    for process in load:
        process.start()
    ready()
    gates[0].wait(60)
    begin = time.monotonic()
    gates[1].wait(300)
    wall = time.monotonic() - begin
    memory, processor = (None, None) if before else status_of(server.pid)
    gates[2].wait(60)
    walls = [w for _ in load for w in results.get(timeout=60)]
    for process in load:
        process.join()
    server.wait(60)
    report = subprocess.run([program, "inspect", *files], check=True, capture_output=True).stdout.decode()
    frames = int(re.search(r"frames (\d+)", report).group(1))
    effects = connections * 3 + 3 * len(walls)
    return len(walls), wall, sorted(walls), effects / frames, memory, processor


def syncs(program, folder, options, connections):
    """How many syncs a cycle takes, by strace."""
    told = os.path.join(folder, "strace.out")
    count = measured(program, folder, options, connections, ["strace", "-f", "-c", "-e", "trace=fsync,fdatasync", "-o", told])[0]
    with open(told, encoding="ascii") as file:
        calls = sum(int(line.split()[3]) for line in file if line.rstrip().endswith(("fsync", "fdatasync")))
    return f"{calls / count:.2f}"


def main():
    parser = arguments("How many cycles a second a server does.")
    parser.add_argument("--connections", default="1,4,16,64", help="numbers of connections, with commas between")
    parser.add_argument("--processes", type=int, default=1, help="how many processes make the load")
    parser.add_argument("--port", type=int, default=7171)
    parser.add_argument("--syncs", action="store_true", help="count syncs, too, by strace")
    options = parser.parse_args()
    program, folder = prepared(options)
    head(program, f"{WORKERS} workers, the load in {options.processes} further processes, one run each")

    def rows():
        for connections in map(int, options.connections.split(",")):
            count, wall, walls, commands, memory, processor = measured(program, folder, options, connections)
            median, late = statistics.median(walls), walls[int(len(walls) * 0.99)]
            yield (str(connections), f"{count / wall:,.0f}", f"{median * 1000:.2f} and {late * 1000:.1f} ms",
                   syncs(program, folder, options, connections) if options.syncs else "not counted", f"{commands:.1f}",
                   f"{processor / count * 1e6:.0f} µs", megabytes(memory))
    table(("Connections", "Cycles a second", "Median and 99th percentile of a cycle", "Syncs a cycle", "Effects a commit",
           "Processor time a cycle", "Resident memory"), rows())


if __name__ == "__main__":
    main()
