#!/usr/bin/env python3
"""Tries two server machines on a replicated file system. Storage nodes and machines are network namespaces of this one.

usage, as root, on Debian 12:
  python3 tests/by_hand/replicated prepare                    installs what is needed, by apt
  VAULTD=PROGRAM python3 tests/by_hand/replicated try         all trials; prints a line for each, and a table
  VAULTD=PROGRAM python3 tests/by_hand/replicated address     keepalived, by contrib's configuration: the address goes where a server is
  VAULTD=PROGRAM python3 tests/by_hand/replicated measure     cycles a second on the volume, and on this machine's disk

--seed SEED repeats a run. --kinds gate,idle takes these alone, --trials N so many in all. --without-strict-locks and --without-settling
leave out what keeps the vault: the trials then fail. --folder says where bricks lie. The program is crates/vaultd/out/vaultd where VAULTD
names none. All runs in namespaces of its own: when this ends, or is ended, nothing of it is left, but for the folder where it is killed
by SIGKILL. Exit status 1 where a trial failed.
"""

import argparse
import contextlib
import os
import shutil
import signal
import statistics
import subprocess
import sys
import time
from datetime import datetime
from pathlib import Path
from typing import Optional

HERE = Path(__file__).resolve().parent
TOP = HERE.parents[2]
PACKAGES = ["glusterfs-server", "glusterfs-client", "fuse3", "iproute2", "strace", "keepalived", "util-linux", "python3"]
NEEDED = ["glusterd", "gluster", "ip", "strace", "unshare", "nsenter", "setpriv", "keepalived"]
INSIDE = "REPLICATED_INSIDE"


def prepare() -> int:
    """Installs Debian's packages, and starts nothing of them."""
    environment = {**os.environ, "DEBIAN_FRONTEND": "noninteractive"}
    for words in (["apt-get", "update"], ["apt-get", "install", "-y", "--no-install-recommends", *PACKAGES]):
        done = subprocess.run(words, env=environment, check=False)
        if done.returncode:
            return done.returncode
    return 0


def arguments() -> argparse.Namespace:
    """The command line."""
    parser = argparse.ArgumentParser(prog="replicated", usage=(__doc__ or "").partition("usage, ")[2])
    parser.add_argument("what", choices=("prepare", "try", "address", "measure"))
    parser.add_argument("--seed", default=str(time.time_ns() % 1000000))
    parser.add_argument("--kinds", default="")
    parser.add_argument("--trials", type=int, default=0)
    parser.add_argument("--folder")
    parser.add_argument("--without-strict-locks", action="store_true")
    parser.add_argument("--without-settling", action="store_true")
    return parser.parse_args()


def outside(options: argparse.Namespace) -> int:
    """Starts this program again, in namespaces that end with it, and removes its folder afterwards."""
    from machines import folder_of_trials

    missing = [word for word in NEEDED if not shutil.which(word)]
    program = Path(os.environ.get("VAULTD") or TOP / "crates" / "vaultd" / "out" / "vaultd").resolve()
    if os.geteuid() or missing or not os.access(program, os.X_OK):
        print(f"replicated: needs root, {program}, and {missing or 'nothing more'}: see `prepare` above", file=sys.stderr)
        return 2
    with folder_of_trials(options.folder) as folder:
        environment = {**os.environ, INSIDE: str(folder), "VAULTD": str(program), "PYTHONDONTWRITEBYTECODE": "1"}
        # The shell is the first process of its namespace. It reaps the processes that nobody else waits for.
        words = ["setpriv", "--pdeathsig", "KILL", "unshare", "--mount", "--net", "--pid", "--ipc", "--fork", "--kill-child", "--mount-proc",
                 "sh", "-c", '"$@" & wait $!', "sh", sys.executable, str(HERE), *sys.argv[1:]]
        for one in (signal.SIGINT, signal.SIGTERM, signal.SIGHUP):
            signal.signal(one, end)
        inner = subprocess.Popen(words, env=environment, start_new_session=True)
        try:
            return inner.wait()
        finally:
            with contextlib.suppress(ProcessLookupError):
                os.killpg(inner.pid, signal.SIGKILL)
            inner.wait()


def end(number: int, _frame: object) -> None:
    """Ends this program in an orderly way, with all that it started."""
    raise SystemExit(128 + number)


def table(columns: list[str], rows: list[list[str]]) -> None:
    """Prints a table, in Markdown as on the pages."""
    print("\n| " + " | ".join(columns) + " |\n" + "|---" * len(columns) + "|")
    for row in rows:
        print("| " + " | ".join(row) + " |")


def tried(options: argparse.Namespace, folder: Path) -> int:
    """All trials."""
    from machines import Cluster
    from trials import KINDS, Outcome, counts, try_one

    kinds = options.kinds.split(",") if options.kinds else list(KINDS)
    turns = range(max(KINDS[kind][1] for kind in kinds) + options.trials)
    todo = [(kind, turn) for turn in turns for kind in kinds if options.trials or turn < KINDS[kind][1]][:options.trials or None]
    cluster = Cluster(folder, not options.without_strict_locks)
    begin = time.monotonic()
    print(f"replicated: {len(todo)} trials, --seed {options.seed}, {datetime.now():%d %B %Y, %H:%M}, load {os.getloadavg()[0]:.1f}, "
          f"{cluster.gluster('--version').splitlines()[0]}", flush=True)
    outcomes: list[Outcome] = []
    for number, (kind, turn) in enumerate(todo, 1):
        outcomes.append(try_one(cluster, kind, number, turn, options.seed, not options.without_settling))
        print(outcomes[-1].line(), flush=True)
    rows = []
    for kind in kinds:
        row = counts([outcome for outcome in outcomes if outcome.kind == kind])
        took = f"{statistics.median(row['took']):.1f} and {row['took'][-1]:.1f} s" if row["took"] else "none"
        about = (KINDS[kind][0].__doc__ or "").rstrip(".")
        rows.append([about, str(row["trials"]), str(row["failed"]), took, f"{row['told']:,}", f"{row['answers']} and {row['holds']}"])
    table(["What was done", "Trials", "Failed", "Takeover, median and longest", "Check-ins told", "Answers and holds worth nothing"], rows)
    failed = sum(bool(outcome.faults) for outcome in outcomes)
    print(f"\n{len(outcomes) - failed} passed, {failed} failed; {time.monotonic() - begin:.0f} s, load {os.getloadavg()[0]:.1f}")
    return 1 if failed else 0


def measured(folder: Path) -> int:
    """bench/server.py on the volume, and on the disk on which the bricks lie."""
    from machines import Cluster

    cluster = Cluster(folder, True)
    machine = cluster.machines[0]
    machine.mount()
    local = folder / "local"
    local.mkdir()
    bench = [sys.executable, str(TOP / "bench" / "server.py"), "--program", os.environ["VAULTD"], "--connections", "1,8,64"]
    for name, place in (("one local disk", local), ("the volume", machine.mounted), ("one local disk", local), ("the volume", machine.mounted)):
        print(f"\n## {name}\n\n{machine.run(*bench, '--folder', str(place), seconds=600)}", flush=True)
    return 0


def main() -> int:
    options = arguments()
    if options.what == "prepare":
        return prepare()
    if INSIDE not in os.environ:
        return outside(options)
    for words in (["mount", "--make-rprivate", "/"], ["mount", "-t", "tmpfs", "none", "/run"], ["mkdir", "/run/netns"]):
        subprocess.run(words, check=True)
    folder: Optional[Path] = Path(os.environ[INSIDE])
    assert folder is not None
    if options.what == "address":
        from address import moves
        from machines import Cluster

        return moves(Cluster(folder, True), options.seed)
    return tried(options, folder) if options.what == "try" else measured(folder)


if __name__ == "__main__":
    sys.exit(main())
