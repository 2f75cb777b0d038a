#!/usr/bin/env python3
"""What check-outs elsewhere in the tree cost a command: cycles of one client beside 0, 64, 128 and 255 of them.

A cycle is that of commits.py: a check-out, a save of 1,000 bytes and a check-in, each durable before it is answered. Each check-out
elsewhere looks at eight parts of seven other projects. The counts take turns.

usage, at the top of the repository:  python3 bench/elsewhere.py [--program PROGRAM] [--folder FOLDER] [--counts 0,64,128,255] [--slow MS]
                                      [--rounds N] [--port P] [--tiny]
Needs gcc.
"""
import random
import statistics

from commits import made, measured
from measure import arguments, head, prepared, sized, table

# This many cycles, and what is made before them, stay below 1 MiB of journal, so that no snapshot comes between.
CYCLES = 900
PROJECTS, PARTS, ITEMS = 7, 31, 8


def lines(count):
    """The lines that make the projects and this number of check-outs."""
    made_by = [f"make /x{k}{place}" for k in range(PROJECTS) for place in ("", "/a", *(f"/a/p{part}" for part in range(PARTS)))]
    parts = [f"/x{k}/a/p{part}" for k in range(PROJECTS) for part in range(PARTS)]
    choose = random.Random(1)
    return made_by + ["checkout " + " ".join(f"r:{part}" for part in choose.sample(parts, ITEMS)) for _ in range(count)]


def main():
    parser = arguments("What check-outs elsewhere cost a command.")
    parser.add_argument("--counts", default="0,64,128,255", help="numbers of check-outs, with commas between; 255 at most")
    parser.add_argument("--slow", type=float, default=0, help="how many milliseconds longer each sync takes")
    parser.add_argument("--rounds", type=int, default=9, help="how many runs a line has; it shows their medians, least and greatest")
    parser.add_argument("--port", type=int, default=7474)
    options = parser.parse_args()
    program, folder = prepared(options)
    load = made(folder, "load")
    made(folder, "slow_sync", "-shared", "-fPIC")
    rounds = sized(options.rounds, options)
    head(program, f"One client, syncs {options.slow:g} ms longer, medians of {rounds} runs by turns, with the least and the greatest")
    counts = [int(count) for count in options.counts.split(",")]
    runs = {count: [] for count in counts}
    for _ in range(rounds):
        for count in counts:
            runs[count].append(measured(program, folder, options, load, 1, lines(count), CYCLES))

    def row(count):
        for key in ("rate", "cpu_us"):
            found = sorted(run[key] for run in runs[count])
            yield f"{statistics.median(found):,.0f} ({found[0]:,.0f} to {found[-1]:,.0f})"
    table(("Check-outs elsewhere", "Cycles a second", "Processor time a cycle, µs"), ((str(count), *row(count)) for count in counts))


if __name__ == "__main__":
    main()
