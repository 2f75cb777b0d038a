"""What the programs of this folder share: running vaultd, and printing a table."""
import argparse
import atexit
import datetime
import os
import re
import shutil
import subprocess
import tempfile
import time
from typing import Iterable, List, Optional, Sequence, Tuple

PROGRAM = "crates/vaultd/out/vaultd"
TIME = "/usr/bin/time"
# What the units in contrib/ tell glibc's allocator: one arena, nothing kept back for a thread, and large pieces given back at once.
ALLOCATOR = {"GLIBC_TUNABLES": "glibc.malloc.arena_max=1:glibc.malloc.tcache_count=0:glibc.malloc.mmap_threshold=131072"}


def arguments(about: str) -> argparse.ArgumentParser:
    """The arguments that every program of this folder has."""
    parser = argparse.ArgumentParser(description=about)
    parser.add_argument("--program", default=PROGRAM, help=f"the built program, {PROGRAM} where it isn't given")
    parser.add_argument("--folder", help="where files are made, a new one on the system's place for them where it isn't given")
    parser.add_argument("--tiny", action="store_true", help="a hundredth of each size, to see that it works; its figures mean nothing")
    return parser


def prepared(options: argparse.Namespace) -> Tuple[str, str]:
    """The program's absolute path, and the folder for files: the one that is named, or one that is taken away at the end."""
    program = os.path.abspath(options.program)
    if not os.access(program, os.X_OK):
        raise SystemExit(f"{options.program} isn't there: build it with (cd crates/vaultd && rt run -- script < stdin)")
    if options.folder:
        return program, options.folder
    folder = tempfile.mkdtemp(prefix="vaultd-bench-")
    atexit.register(shutil.rmtree, folder, ignore_errors=True)
    return program, folder


def sized(count: int, options: argparse.Namespace) -> int:
    return max(1, count // 100) if options.tiny else count


def run_once(program: str, words: List[str], given: bytes = b"") -> Tuple[float, Optional[int], bytes]:
    """Runs the program, and answers its wall time in seconds, its greatest resident memory in kilobytes, and what it printed.

    The memory is what /usr/bin/time reports, since a process that Python starts is counted with the memory that Python had. Without
    /usr/bin/time it is None.
    """
    with tempfile.TemporaryFile() as source, tempfile.NamedTemporaryFile("r") as told:
        source.write(given)
        source.seek(0)
        before = [TIME, "-f", "%M", "-o", told.name] if os.path.exists(TIME) else []
        begin = time.monotonic()
        done = subprocess.run(before + [program] + words, stdin=source, stdout=subprocess.PIPE, check=False)
        wall = time.monotonic() - begin
        memory = re.findall(r"^\d+$", told.read(), re.M)
    return wall, int(memory[-1]) if memory else None, done.stdout


def megabytes(kilobytes: Optional[float]) -> str:
    return "not measured" if kilobytes is None else f"{kilobytes / 1000:.1f} MB"


def head(program: str, what: str) -> None:
    """One line above each table: what was measured, when, and how busy the machine was."""
    now = datetime.datetime.now().strftime("%d %B %Y, %H:%M")
    print(f"{what}. {now}; load of the machine {os.getloadavg()[0]:.1f}; program {os.path.basename(program)}, "
          f"{os.path.getsize(program):,} bytes.\n")


def table(columns: Sequence[str], rows: Iterable[Sequence[str]]) -> None:
    print("| " + " | ".join(columns) + " |")
    print("|" + "---|" * len(columns))
    for row in rows:
        print("| " + " | ".join(row) + " |", flush=True)
    print()
