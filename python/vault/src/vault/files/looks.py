"""How a file looks: its size and times, by which a later change is seen without reading it. A look counts only if it is the same before and
behind the reading."""

import os
import stat
import time

# For how long after a file's time it may have been changed again without another time: if times are of whole seconds, and else.
COARSE, FINE = 2_000_000_000, 50_000_000


def unsure(time_ns: int) -> int:
    """For how long after its time a file may have been changed again without another time."""
    return COARSE if time_ns % 1_000_000_000 == 0 else FINE


def same(one: os.stat_result, other: os.stat_result) -> bool:
    """Whether two looks are of one file that wasn't changed in between."""
    return same_bytes(one, other) and one.st_ctime_ns == other.st_ctime_ns


def same_bytes(one: os.stat_result, other: os.stat_result) -> bool:
    """The same where the file may have got another name or mode."""
    return (one.st_ino, one.st_size, one.st_mtime_ns, stat.S_IFMT(one.st_mode)) == (
        other.st_ino, other.st_size, other.st_mtime_ns, stat.S_IFMT(other.st_mode))


def wait_until_sure(seen: os.stat_result) -> None:
    """Waits until whoever changes a file from here on changes its time, too: two seconds at most, and only if it was just saved."""
    left = seen.st_mtime_ns + unsure(seen.st_mtime_ns) - time.time_ns()
    if 0 < left <= COARSE:
        time.sleep(left / 1e9)
