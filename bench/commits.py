#!/usr/bin/env python3
"""How commits gather: cycles a second of clients that send one command at a time, each durable before it is answered.

A cycle is a check-out, a save of 1,000 bytes and a check-in; each client has its own part. The load is load.c, one thread without a wait
of its own; the server has 64 workers. --slow makes each sync MS milliseconds longer (slow_sync.c), as a plain disk would; with --folder
on a file system in memory that is the whole sync. The limit is then what the format allows: two syncs for each of a cycle's commits.

With --floor the load meets a program that keeps nothing, and answers each line after two sleeps (floor.c). This shows what the load and
the machine leave to a server with one thread, or with one for each connection.

With --before another program takes turns with this one, and each line ends with the cycles of this one for one of the other's.

usage, at the top of the repository:  python3 bench/commits.py [--program PROGRAM] [--before PROGRAM] [--folder FOLDER] [--clients 1,4,16,64]
                                      [--slow MS] [--floor one|workers] [--rounds N] [--port P] [--tiny]
Needs gcc.
"""
import json
import os
import socket
import statistics
import subprocess
import time

from measure import arguments, head, prepared, sized, table

HERE = os.path.dirname(os.path.abspath(__file__))
# This many cycles stay below 1 MiB of journal, so that no snapshot comes between.
MAX_CYCLES = 960
PARTS = 64


def made(folder, name, *words):
    subprocess.run(["gcc", "-O2", "-pthread", *words, "-o", f"{folder}/{name}", f"{HERE}/{name}.c"], check=True)
    return f"{folder}/{name}"


def told(port, lines):
    """Sends lines at once, so that few commits take them all, and expects each to be done."""
    with socket.create_connection(("127.0.0.1", port)) as link, link.makefile("rb") as back:
        link.sendall("".join(line + "\n" for line in lines).encode())
        for line in lines:
            reply = back.readline().decode()
            if not reply.startswith("OK"):
                raise SystemExit(f"{line} was told: {reply}")


def plan(client):
    part = f"/w/a/p{client}"
    return "\n".join("\t".join(step) for step in (
        ("setup", "OK session", f"hello d{client}\\n"), ("take", "OK held", f"checkout w:{part}\\n"),
        ("cycle", "OK saved", f"save {{c}} {part} {{fresh:2000}}\\n"), ("cycle", "OK checked in 1", "checkin {c}\\n")))


def processor(pid):
    with open(f"/proc/{pid}/stat", encoding="ascii") as file:
        fields = file.read().rsplit(")", 1)[1].split()
    return (int(fields[11]) + int(fields[12])) / os.sysconf("SC_CLK_TCK")


def started(program, folder, options):
    """The server over a new vault, or the program that stands in for it."""
    if getattr(options, "floor", None):
        return subprocess.Popen([f"{folder}/floor", str(options.port), str(int(options.slow * 1000)), options.floor], stdout=subprocess.PIPE)
    files = [f"{folder}/commits.{which}" for which in "ab"]
    for path in files:
        if os.path.exists(path):
            os.remove(path)
    subprocess.run([program, "create", *files], check=True, stdout=subprocess.DEVNULL)
    preload = [*getattr(options, "preload", ()), *([f"{folder}/slow_sync"] if options.slow else [])]
    slow = {"LD_PRELOAD": ":".join(preload), "SLOW_SYNC_MS": str(options.slow)} if preload else {}
    words = [program, "serve", *files, f"127.0.0.1:{options.port}", "--workers", str(PARTS)]
    return subprocess.Popen(words, stdout=subprocess.PIPE, env=os.environ | slow)


def measured(program, folder, options, load, clients, before=(), most=MAX_CYCLES):
    """One run over a new vault, after these lines: load.c's figures, and the server's processor time for a cycle, in microseconds."""
    server = started(program, folder, options)
    try:
        if server.stdout.readline().strip() != b"listening":
            raise SystemExit("the server didn't start")
        if not getattr(options, "floor", None):  # what keeps nothing needs no places
            told(options.port, ["hello z", "make /w", "make /w/a"] + [f"make /w/a/p{k}" for k in range(PARTS)] + [*before, "quit"])
        with open(f"{folder}/plan", "w", encoding="ascii") as file:
            file.write("\n\n".join(plan(client) for client in range(clients)) + "\n")
        cycles = clients if options.tiny else most
        used = processor(server.pid)
        run = [load, str(options.port), "line", f"{folder}/plan", str(clients), "20", str(cycles), "0", "1000"]
        figures = json.loads(subprocess.run(run, check=True, capture_output=True).stdout)
        time.sleep(0.1)
        figures["cpu_us"] = (processor(server.pid) - used) / figures["cycles"] * 1e6
        return figures
    finally:
        server.kill()
        server.wait()


def main():
    parser = arguments("How commits gather.")
    parser.add_argument("--before", help="a program to run by turns with this one")
    parser.add_argument("--clients", default="1,4,16,64", help="numbers of clients, with commas between; 64 at most")
    parser.add_argument("--slow", type=float, default=0, help="how many milliseconds longer each sync takes")
    parser.add_argument("--floor", choices=("one", "workers"), help="in place of the server a program that keeps nothing, of one thread or many")
    parser.add_argument("--rounds", type=int, default=3, help="how many runs a line has; it shows their medians")
    parser.add_argument("--port", type=int, default=7373)
    options = parser.parse_args()
    if options.before and options.floor:
        parser.error("--before runs two programs, and --floor none: give one of them")
    program, folder = prepared(options)
    programs = [program, os.path.abspath(options.before)] if options.before else [program]
    load = made(folder, "load")
    made(folder, "slow_sync", "-shared", "-fPIC")
    made(folder, "floor")
    rounds = sized(options.rounds, options)
    who = f"what keeps nothing ({options.floor})" if options.floor else f"{PARTS} workers"
    head(program, f"{who}, syncs {options.slow:g} ms longer, medians of {rounds} runs")

    def rows():
        for clients in map(int, options.clients.split(",")):
            of_each = {each: [] for each in programs}
            for turn in range(rounds):
                for each in programs[::-1] if turn % 2 else programs:
                    of_each[each].append(measured(each, folder, options, load, clients))
            runs, before = of_each[program], [run["rate"] for run in of_each[programs[-1]]]
            rate, median, late, used = (statistics.median(run[key] for run in runs) for key in ("rate", "p50_us", "p99_us", "cpu_us"))
            yield (str(clients), f"{rate:,.0f}", f"{median / 1000:.2f} and {late / 1000:.1f} ms",
                   f"{min(run['least'] for run in runs)} to {max(run['greatest'] for run in runs)}", f"{used:.0f} µs",
                   *([f"{rate / statistics.median(before):.3f}"] if options.before else []))
    names = ("Clients", "Cycles a second", "Median and 99th percentile of a cycle", "Cycles of a client", "Processor time a cycle")
    table((*names, "Cycles for one before") if options.before else names, rows())


if __name__ == "__main__":
    main()
