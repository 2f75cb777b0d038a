#!/usr/bin/env python3
"""What it costs to trim acknowledged commands, and whether a command takes longer after a million others.

A cycle is that of commits.py: a check-out, a save of 1,000 bytes and a check-in, each durable before it is answered. With --before that
load is given in turns to the program of an older commit that trims nothing, such as 889af15. It takes 4,096 commands in a life, so each
run has 960 cycles. Then one server takes --commands commands of --last clients: check-outs, saves of 16 bytes and ends without a
check-in, so that the vault stays as small as it was. The blocks after the first thousand of them, ten thousand and so on are timed on
their own.

usage, at the top of the repository:  python3 bench/retiring.py [--before PROGRAM] [--program PROGRAM] [--folder FOLDER] [--clients 1,16,64]
                                      [--rounds N] [--commands N] [--last N] [--port P] [--tiny]
Needs gcc.
"""
import json
import os
import re
import statistics
import subprocess

from commits import PARTS, made, measured, told
from measure import arguments, head, megabytes, prepared, sized, table

# The cycles of a block that is timed, and the lines of a connection before another one replaces it.
BLOCK, LINES = 1000, 4000


def plan(assembly, client):
    part = f"{assembly}/p{client}"
    return "\n".join("\t".join(step) for step in (
        ("setup", "OK session", f"hello d{client}\\n"), ("take", "OK held", f"checkout w:{part}\\n"),
        ("cycle", "OK saved", f"save {{c}} {part} {{fresh:32}}\\n"), ("cycle", "OK abandoned", "abandon {c}\\n"), ("leave", "OK left", "quit\\n")))


def change(before, after):
    """By how much a figure differs; a tiny run may have measured none."""
    return f"{(after / before - 1) * 100:+.1f} %" if before else "not measured"


def compared(programs, folder, options, load):
    """Rows of cycles a second and processor time of all programs, run in turns, and how the last one differs from the first."""
    for clients in map(int, options.clients.split(",")):
        runs = [[] for _ in programs]
        for _ in range(sized(options.rounds, options)):
            for program, found in zip(programs, runs):
                found.append(measured(program, folder, options, load, clients))
        rates = [sorted(run["rate"] for run in found) for found in runs]
        middles = [statistics.median(found) for found in rates]
        used = [statistics.mean(run["cpu_us"] for run in found) for found in runs]
        yield (str(clients), *(f"{middle:,.0f} ({found[0]:,.0f} to {found[-1]:,.0f})" for middle, found in zip(middles, rates)),
               *(f"{time:.0f} µs" for time in used),
               *([f"{change(*middles)}, {change(*used)}"] if len(programs) > 1 else []))


def block(load, folder, options, cycles, assembly):
    """This number of cycles of all clients, over connections and parts of their own, since a block ends amid cycles: load.c's figures."""
    told(options.port, ["hello z", f"make {assembly}"] + [f"make {assembly}/p{k}" for k in range(options.last)] + ["quit"])
    with open(f"{folder}/long", "w", encoding="ascii") as file:
        file.write("\n\n".join(plan(assembly, client) for client in range(options.last)) + "\n")
    words = [load, str(options.port), "line", f"{folder}/long", str(options.last), "3600", str(cycles), str(LINES), "1000"]
    return json.loads(subprocess.run(words, check=True, capture_output=True).stdout)


def resident(pid):
    """How many kilobytes are resident."""
    with open(f"/proc/{pid}/status", encoding="ascii") as file:
        return int(re.search(r"VmRSS:\s+(\d+)", file.read()).group(1))


def long_run(program, folder, options, load):
    """Rows of a block after these numbers of commands of one server."""
    files = [f"{folder}/long.{which}" for which in "ab"]
    for path in files:
        if os.path.exists(path):
            os.remove(path)
    subprocess.run([program, "create", *files], check=True, stdout=subprocess.DEVNULL)
    words = [program, "serve", *files, f"127.0.0.1:{options.port}", "--workers", str(PARTS)]
    with subprocess.Popen(words, stdout=subprocess.PIPE) as server:
        try:
            if server.stdout.readline().strip() != b"listening":
                raise SystemExit("the server didn't start")
            told(options.port, ["hello z", "make /w", "quit"])
            done, behind, last, cycles = 0, 1000, sized(options.commands, options), sized(BLOCK, options)
            while behind <= last:
                if done < behind:
                    done += block(load, folder, options, (behind - done + 2) // 3, f"/w/before{behind}")["cycles"] * 3
                figures = block(load, folder, options, cycles, f"/w/behind{behind}")
                yield (f"{done:,}", f"{figures['rate']:,.0f}", f"{figures['p50_us'] / 1000:.2f} and {figures['p99_us'] / 1000:.1f} ms",
                       megabytes(resident(server.pid)))
                done, behind = done + figures["cycles"] * 3, behind * 10
        finally:
            server.kill()


def main():
    parser = arguments("What it costs to let told commands go.")
    parser.add_argument("--before", help="a program that let nothing go, to run beside")
    parser.add_argument("--clients", default="1,16,64", help="numbers of clients, with commas between; 64 at most")
    parser.add_argument("--rounds", type=int, default=15, help="how many runs a figure has; it is their median")
    parser.add_argument("--commands", type=int, default=1_000_000, help="how many commands one server takes")
    parser.add_argument("--last", type=int, default=16, help="how many clients give them to it; 24 at most, for their check-outs stand")
    parser.add_argument("--port", type=int, default=7373)
    options = parser.parse_args()
    options.slow = 0
    program, folder = prepared(options)
    load = made(folder, "load")
    programs = ([os.path.abspath(options.before)] if options.before else []) + [program]
    head(program, f"{PARTS} workers, medians of {sized(options.rounds, options)} runs by turns, with the least and the greatest; processor time"
                  " of the server, the mean")
    names = ("Cycles a second before", "Cycles a second", "Processor time a cycle before", "Processor time a cycle", "Differences")
    table(("Clients", *(names if options.before else names[1::2])), compared(programs, folder, options, load))
    head(program, f"one server, {options.last} clients, blocks of {sized(BLOCK, options)} cycles")
    table(("Commands before", "Cycles a second", "Median and 99th percentile of a cycle", "Resident memory"),
          long_run(program, folder, options, load))


if __name__ == "__main__":
    main()
