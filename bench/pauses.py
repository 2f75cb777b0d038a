#!/usr/bin/env python3
"""What a server does from the end of a commit to the next one, when each commit has a line of every client.

It sends each client its reply, waits until the load has read them and sent the next lines, and reads these. The kernel calls are recorded
as they happen (trace.c), which costs a tenth of a microsecond more for each. The load is that of commits.py. Commits of saves are
distinguished from the others, since their lines have 2,000 digits.

usage, at the top of the repository:  python3 bench/pauses.py [--program PROGRAM] [--folder FOLDER] [--clients 16,64] [--slow MS] [--port P]
Needs gcc.
"""
import os
import statistics
import struct

import commits
from measure import arguments, head, prepared, table

CALL = struct.Struct("ddiiii")
FSYNC, PWRITE, RECV, SEND = 1, 2, 3, 4


def calls(path):
    """The calls of a trace in the order in which they began."""
    with open(path, "rb") as file:
        found = [call for call in CALL.iter_unpack(file.read()) if call[0]]
    return sorted(found)


def pauses(found, clients):
    """For each pause: whether saves are read in it, its microseconds, and those of sending replies, waiting, reading lines, one send and
    one receive, and how many processors the calls were on."""
    syncs = [number for number, call in enumerate(found) if call[2] == FSYNC]
    for one, other in zip(syncs, syncs[1:]):
        between = found[one + 1:other]
        sends, receives, writes = ([call for call in between if call[2] == name] for name in (SEND, RECV, PWRITE))
        if len(sends) < clients or not receives or not writes:
            continue
        ended, began = found[one][1], writes[-1][0]
        told, heard = sends[-1][1], receives[0][0]
        each = [sum(call[1] - call[0] for call in some) / len(some) for some in (sends, receives)]
        yield (any(call[3] > 1000 for call in receives), began - ended, told - ended, heard - told, began - heard, *each,
               len({call[4] for call in between}))


def main():
    parser = arguments("What a server does between two commits.")
    parser.add_argument("--clients", default="16,64", help="numbers of clients, with commas between; 64 at most")
    parser.add_argument("--slow", type=float, default=2, help="how many milliseconds longer each sync takes")
    parser.add_argument("--port", type=int, default=7373)
    options = parser.parse_args()
    program, folder = prepared(options)
    load = commits.made(folder, "load")
    options.preload = [commits.made(folder, "trace", "-shared", "-fPIC")]
    commits.made(folder, "slow_sync", "-shared", "-fPIC")
    head(program, f"syncs {options.slow:g} ms longer, medians of one run")

    def rows():
        for clients in map(int, options.clients.split(",")):
            os.environ["TRACE"] = f"{folder}/trace.calls"
            figures = commits.measured(program, folder, options, load, clients)
            found = list(pauses(calls(os.environ["TRACE"]), clients))
            for is_save in (False, True):
                some = [pause[1:] for pause in found if pause[0] == is_save]
                if some:
                    whole, told, waited, heard, send, receive, processors = map(statistics.median, zip(*some))
                    yield (str(clients), "saves" if is_save else "others", str(len(some)), f"{whole:.0f} µs", f"{told:.0f} µs", f"{waited:.0f} µs",
                           f"{heard:.0f} µs", f"{send:.1f} and {receive:.1f} µs", f"{processors:g}", f"{figures['rate']:,.0f}")
    table(("Clients", "Lines heard", "Pauses", "Median pause", "Telling", "Waiting", "Hearing", "One send, one receive", "Processors",
           "Cycles a second"), rows())


if __name__ == "__main__":
    main()
