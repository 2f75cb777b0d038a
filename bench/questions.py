#!/usr/bin/env python3
"""What a question costs the server in processor time, in a vault whose queue is full: 256 claims, all at one place.

usage, at the top of the repository:  python3 bench/questions.py [--program PROGRAM] [--folder FOLDER] [--port P] [--runs N] [--tiny]

The time is the processor time of all of the server's threads, from the first line of a run to its last reply, for each line: reading it,
finding the answer under the lock, writing it and sending it. Lines are sent 32 at once, so that waits for the kernel are few. Each
question is compared with as many lines of `state` of the same claim, which finds next to nothing. So what a question takes more than that
is the finding and the text.
"""
import argparse
import statistics
from pathlib import Path
from typing import List

from answers import Client, serving
from measure import arguments, head, prepared, sized, table

CLAIMS = 256
AT_ONCE = 32
DRAFTS = 64
# Each line gets one answer, and a connection gets at most 4,096.
PER_CONNECTION = 3_200


def processor(process: int) -> int:
    """The processor time of all threads of a process, in nanoseconds."""
    return sum(int(path.read_text("ascii").split()[0]) for path in Path(f"/proc/{process}/task").glob("*/schedstat"))


def filled(port: int) -> None:
    """A part's check-out with as many drafts as there may be, and as many claims on its project as the queue may have."""
    client = Client(port, "anna")
    client.ask("make /e", 1)
    client.ask("make /e/a", 1)
    for number in range(DRAFTS):
        client.ask(f"make /e/a/p{number}", 1)
    client.ask("checkout w:/e", 1)
    for number in range(DRAFTS):
        client.ask(f"save c1 /e/a/p{number} {b'x'.hex()}", 1)
    for _ in range(CLAIMS - 1):
        client.ask("checkout r:/e", 1)
    client.ask("quit", 1)
    client.close()


def cost(server: int, port: int, line: str, lines: int) -> float:
    """Microseconds of the server's processor time for one such line."""
    client = Client(port, "anna")
    begin = processor(server)
    for _ in range(lines // AT_ONCE):
        client.ask(line, AT_ONCE)
    took = processor(server) - begin
    client.close()
    return took / 1000 / (lines // AT_ONCE * AT_ONCE)


def main() -> None:
    parser: argparse.ArgumentParser = arguments("What a question costs the server.")
    parser.add_argument("--port", type=int, default=7383)
    parser.add_argument("--runs", type=int, default=9)
    options = parser.parse_args()
    program, folder = prepared(options)
    lines = min(sized(PER_CONNECTION * 100, options) // 100, PER_CONNECTION)
    head(program, f"{options.runs} runs of {lines:,} lines each, beside {CLAIMS} claims at one place")
    server = serving(program, folder, options.port)
    rows: List[List[str]] = []
    try:
        filled(options.port)
        for line in ("state c1", "show c1", f"show c{CLAIMS}", "claims /", "drafts c1", "draft c1 /e/a/p63"):
            found = [cost(server.pid, options.port, line, lines) for _ in range(options.runs)]
            rows.append([f"`{line}`", f"{statistics.median(found):.1f}", f"{min(found):.1f}", f"{max(found):.1f}"])
    finally:
        server.kill()
        server.wait()
    table(("A line", "Median, µs", "Least", "Most"), rows)


if __name__ == "__main__":
    main()
