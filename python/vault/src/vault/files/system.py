"""What only some systems have, and what stands in its place elsewhere. POSIX has flock, folders that are synced, links on every usual disk
and files that are replaced while a program holds them open; Windows has none of these, and a read-only file can't be replaced there.
"""

import contextlib
import errno
import os
import stat
import sys
import time
from pathlib import Path
from typing import Callable

from vault.errors import VaultError

WINDOWS = os.name == "nt"
# How a system says that a program holds a file open.
HELD = (errno.EBUSY, errno.ETXTBSY) + ((errno.EACCES, errno.EPERM) if WINDOWS else ())
HELD_SECONDS = 5.0
HELD_PAUSE_SECONDS = 0.25
NO_LINKS = (errno.EPERM, errno.EOPNOTSUPP, errno.ENOSYS, errno.EMLINK, errno.EACCES, errno.EINVAL)
WRITE_BITS = stat.S_IWUSR | stat.S_IWGRP | stat.S_IWOTH
# To open a file so that neither a link nor a pipe is waited for.
AT_ONCE = getattr(os, "O_BINARY", 0) | getattr(os, "O_NONBLOCK", 0)
NO_LINK_FOLLOWED = getattr(os, "O_NOFOLLOW", 0)
RENAME_NOREPLACE, RENAME_EXCHANGE, AT_THE_CURRENT_FOLDER = 1, 2, -100
NO_SUCH_RENAME = (errno.ENOSYS, errno.EINVAL, errno.EOPNOTSUPP, errno.EXDEV)


class HeldOpenError(VaultError):
    """Another program holds a file open."""


def sync_folder(folder: Path) -> None:
    """Puts a folder's entries on disk, if the system has a call for that."""
    if WINDOWS:
        return
    descriptor = os.open(str(folder), os.O_RDONLY)
    try:
        os.fsync(descriptor)
    finally:
        os.close(descriptor)


def patiently(action: Callable[[], None], path: Path) -> None:
    """Does something with a file that a program may hold open, which some systems refuse: again for some seconds, and then it is told."""
    end = time.monotonic() + HELD_SECONDS
    while True:
        try:
            action()
            return
        except OSError as error:
            if error.errno not in HELD:
                raise
            if time.monotonic() >= end:
                raise HeldOpenError(f"{path} is held open by another program, so it is left as it is. Close it there, and say this again.") from error
        time.sleep(HELD_PAUSE_SECONDS)


def replace(came: Path, path: Path) -> None:
    """Puts a file in the place of another one, or of none."""
    patiently(lambda: os.replace(came, path), path)


def rename_new(came: Path, path: Path) -> None:
    """Gives a file a name that nothing has: by a link, or where the disk has none by a rename that replaces nothing. `FileExistsError` if
    something has it."""
    if WINDOWS:
        patiently(lambda: os.rename(came, path), came)
        return
    try:
        os.link(came, path)
    except OSError as error:
        if error.errno not in NO_LINKS:
            raise
        rename_where_no_links_are(came, path)
    else:
        os.unlink(came)


def rename_where_no_links_are(came: Path, path: Path) -> None:
    """The same on a disk without links."""
    code = rename_no_replace(came, path)
    if code in NO_SUCH_RENAME[:3]:
        rename_in_two_steps(came, path)
    elif code:
        raise OSError(code, os.strerror(code), str(path))


def rename_no_replace(came: Path, path: Path) -> int:
    """Renames by the call of Linux that replaces nothing, and answers the number of its error, 0 for none."""
    return rename_as(came, path, RENAME_NOREPLACE)


def exchange(one: Path, other: Path) -> bool:
    """Has two files change their names at once, so that neither name is ever without a file. Whether this system and this disk can."""
    code = rename_as(one, other, RENAME_EXCHANGE)
    if code and code not in NO_SUCH_RENAME:
        raise OSError(code, os.strerror(code), str(other))
    return not code


def rename_as(came: Path, path: Path, flag: int) -> int:
    """Renames by Linux's renameat2, and answers the number of its error, 0 for none."""
    if not sys.platform.startswith("linux"):
        return errno.ENOSYS
    import ctypes

    call = getattr(ctypes.CDLL(None, use_errno=True), "renameat2", None)
    if call is None:
        return errno.ENOSYS
    done = call(AT_THE_CURRENT_FOLDER, os.fsencode(came), AT_THE_CURRENT_FOLDER, os.fsencode(path), flag)
    return ctypes.get_errno() if done else 0


def rename_in_two_steps(came: Path, path: Path) -> None:
    """Takes the name by an empty file, and replaces that; if it can't be, no empty file stays."""
    with open(path, "xb") as taken:
        mine = os.fstat(taken.fileno())
    try:
        now = os.lstat(path)
        if not os.path.samestat(mine, now) or now.st_size:
            raise FileExistsError(errno.EEXIST, os.strerror(errno.EEXIST), str(path))
        os.replace(came, path)
    except OSError:
        with contextlib.suppress(OSError):
            if os.path.samestat(mine, os.lstat(path)) and not os.lstat(path).st_size:
                os.unlink(path)
        raise


def set_writable(path: Path, writable: bool) -> None:
    """Makes a file writable for whom a new file is, or read-only, if the disk has that."""
    with contextlib.suppress(OSError):
        mode = stat.S_IMODE(os.stat(path, follow_symlinks=False).st_mode)
        wanted = mode | (WRITE_BITS & ~umask()) if writable else mode & ~WRITE_BITS
        if wanted != mode:
            os.chmod(path, wanted)


def is_writable(mode: int) -> bool:
    """Whether a file's owner may write it."""
    return bool(mode & stat.S_IWUSR)


def umask() -> int:
    """What a new file's mode lacks."""
    mask = os.umask(0o077)
    os.umask(mask)
    return mask


def may_be_named(name: str) -> str:
    """A word as it can stand in a file's name: Windows has no colon there."""
    return name.replace(":", "_") if WINDOWS else name
