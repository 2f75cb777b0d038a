#!/usr/bin/env python3
"""What the ssh gate adds to a command, and how much memory it takes: a server alone, and the same server through one gate, by turns.

The gate runs as sshd starts it, on one socket, with a file and a socket as its logs; ssh itself has no part in the figures.

usage, at the top of the repository:  python3 bench/gate.py [--program PROGRAM] [--folder FOLDER] [--port P] [--runs N] [--tiny]
"""
import re
import socket
import statistics
import subprocess
import sys
import tempfile
import threading
import time
from pathlib import Path
from typing import List, Tuple

from measure import arguments, head, prepared, sized, table

TOP = Path(__file__).resolve().parent.parent
SOURCES = [str(TOP / "python" / name / "src") for name in ("vault", "vaultd_tools")]
START = f"import sys; sys.path[:0] = {SOURCES!r}; from vaultd_tools.gate.program import main; sys.exit(main())"
LINES = {"a question, `list /`": b"list /\n", "a change that is refused, `make /a`": b"make /a\n"}


def waits(connection: socket.socket, line: bytes, count: int) -> List[float]:
    """How long each reply to a line took, in seconds."""
    found = []
    with connection, connection.makefile("rb") as replies:
        for sent in [b"hello anna\n", b"make /a\n"] + [line] * count:
            begin = time.perf_counter()
            connection.sendall(sent)
            replies.readline()
            found.append(time.perf_counter() - begin)
    return found[2:]


def direct(port: int, line: bytes, count: int) -> List[float]:
    """The waits at the server itself."""
    connection = socket.create_connection(("127.0.0.1", port))
    connection.setsockopt(socket.IPPROTO_TCP, socket.TCP_NODELAY, 1)
    return waits(connection, line, count)


def through(port: int, folder: str, line: bytes, count: int) -> Tuple[List[float], int, int]:
    """The waits through a gate, with its resident memory in kilobytes, and how much of that is its own."""
    ours, theirs = socket.socketpair()
    words = ["--as", "anna", "--server", f"127.0.0.1:{port}", "--log", folder + "/log", "--syslog", folder + "/syslog"]
    gate = subprocess.Popen(["/usr/bin/python3", "-I", "-c", START, *words], stdin=theirs.fileno(), stdout=theirs.fileno())
    theirs.close()
    with ours.dup():                 # so that the gate is still there when it is looked at
        took = waits(ours, line, count)
        status = Path(f"/proc/{gate.pid}/status").read_text("ascii")
    found = re.findall(r"^(?:VmHWM|RssAnon):\s+(\d+) kB", status, re.MULTILINE)
    if gate.wait() != 0:
        raise SystemExit("gate: the gate ended with a fault")
    return took, int(found[0]), int(found[1])


def shown(seconds: List[float]) -> List[str]:
    """The median and the 99th percentile, in microseconds."""
    return [f"{1e6 * statistics.median(seconds):.0f}", f"{1e6 * sorted(seconds)[len(seconds) * 99 // 100]:.0f}"]


def main() -> int:
    parser = arguments("What the ssh gate adds to a command, and its memory.")
    parser.add_argument("--port", type=int, default=7272)
    parser.add_argument("--runs", type=int, default=5)
    options = parser.parse_args()
    program, folder = prepared(options)
    count, rows = sized(2000, options), []
    with tempfile.TemporaryDirectory(dir=folder) as work, socket.socket(socket.AF_UNIX, socket.SOCK_DGRAM) as syslog:
        syslog.bind(work + "/syslog")
        threading.Thread(target=lambda: [syslog.recv(65536) for _ in iter(int, 1)], daemon=True).start()
        files = [work + "/a", work + "/b"]
        subprocess.run([program, "create", *files], check=True, stdout=subprocess.DEVNULL)
        server = subprocess.Popen([program, "serve", *files, f"127.0.0.1:{options.port}"], stdout=subprocess.PIPE)
        assert server.stdout is not None
        try:
            if server.stdout.readline() != b"listening\n":
                raise SystemExit("gate: the server doesn't listen: is the port free?")
            head(program, f"{options.runs} times {count:,} commands, the server and the gate by turns")
            for name, line in LINES.items():
                alone: List[float] = []
                gated: List[float] = []
                for _ in range(options.runs):
                    alone += direct(options.port, line, count)
                    took, resident, own = through(options.port, work, line, count)
                    gated += took
                rows.append([name, *shown(alone), *shown(gated), f"{resident / 1000:.1f} MB, {own / 1000:.1f} MB of it its own"])
        finally:
            server.kill()
            server.wait()
    table(["A command", "Server: median, µs", "99th of 100", "Gate: median, µs", "99th of 100", "The gate's memory"], rows)
    return 0


if __name__ == "__main__":
    sys.exit(main())
