#!/usr/bin/env python3
"""Several vaults on one machine under load at once: each its own server, files, port and load, all begun together.

usage, at the top of the repository:  python3 bench/many.py [--program PROGRAM] [--folder FOLDER] [--vaults 1,2,4,8] [--connections N]
                                      [--port P] [--tiny]
A cycle is that of bench/server.py. --folder says on which disk all the vaults lie.
"""
import multiprocessing
import os
import signal
import statistics
import time

from measure import arguments, head, megabytes, prepared, table
from server import WORKERS, measured


def one(program, folder, options, number, together, results):
    """The server and the load of one vault. Where it can't be measured, it says why, and ends them and itself."""
    os.setpgid(0, 0)
    folder = os.path.join(folder, f"vault{number}")
    os.makedirs(folder, exist_ok=True)
    options.port += number

    def ready():
        time.sleep(1)
        together.wait(60)

    try:
        results.put(measured(program, folder, options, options.connections, ready=ready))
    except BaseException as error:  # also that a server didn't start
        results.put(f"vault {number}, port {options.port}: {error!r}")
        results.close()
        results.join_thread()
        os.killpg(0, signal.SIGKILL)


def row(program, folder, options, vaults):
    """The row of this number of vaults at once."""
    together, results = multiprocessing.Barrier(vaults), multiprocessing.Queue()
    runs = [multiprocessing.Process(target=one, args=(program, folder, options, n, together, results)) for n in range(vaults)]
    for run in runs:
        run.start()
    done = []
    try:
        for _ in runs:
            done.append(results.get(timeout=600))
            if isinstance(done[-1], str):
                raise SystemExit(f"many.py: {done[-1]}")
        for run in runs:
            run.join()
    finally:
        for run in runs:
            if run.is_alive():
                os.killpg(run.pid, signal.SIGKILL)
    rates = sorted(count / wall for count, wall, *_ in done)
    walls = sorted(wall for _, _, walls, *_ in done for wall in walls)
    cycles = sum(count for count, *_ in done)
    return (str(vaults), f"{sum(rates):,.0f}", f"{rates[0]:,.0f} to {rates[-1]:,.0f}",
            f"{statistics.median(walls) * 1000:.2f} and {walls[int(len(walls) * 0.99)] * 1000:.1f} ms",
            f"{sum(one[5] for one in done) / cycles * 1e6:.0f} µs", megabytes(sum(one[4] for one in done)))


def main():
    parser = arguments("How many cycles a second several vaults do on one machine.")
    parser.add_argument("--vaults", default="1,2,4,8", help="numbers of vaults, with commas between")
    parser.add_argument("--connections", type=int, default=8, help="connections of each vault")
    parser.add_argument("--port", type=int, default=7171, help="the first port; each vault takes the next")
    options = parser.parse_args()
    options.processes = 1
    program, folder = prepared(options)
    head(program, f"{options.connections} connections to each vault, {WORKERS} workers each, all files on one disk, one run each")
    rows = [row(program, folder, options, int(vaults)) for vaults in options.vaults.split(",")]
    table(("Vaults", "Cycles a second in all", "Of each", "Median and 99th percentile of a cycle", "Processor time a cycle",
           "Resident memory in all"), rows)


if __name__ == "__main__":
    main()
