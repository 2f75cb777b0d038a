#!/usr/bin/python3
"""A folder as a disk that keeps a file's time in steps of two seconds, and tells no other time of it, as FAT does: for a machine whose kernel has no
vfat. It stands until it is unmounted.

usage: two_seconds.py FOLDER WHERE
"""

import errno
import os
import sys
from pathlib import Path
from typing import Any, Dict, List, Optional, Tuple

from fusepy import FUSE, FuseOSError, Operations  # type: ignore[import]

STEP = 2_000_000_000
HIDDEN = ".fuse_hidden"
STATS = ("st_gid", "st_ino", "st_mode", "st_nlink", "st_size", "st_uid")
ROOM = ("f_bavail", "f_bfree", "f_blocks", "f_bsize", "f_favail", "f_ffree", "f_files", "f_flag", "f_frsize", "f_namemax")


class TwoSeconds(Operations):  # type: ignore[misc]
    """Hands each call on to a folder, and tells times in steps of two seconds. A file that is open stays the one that was opened: once it is
    gone libfuse keeps it by another name, which is shown to nobody."""

    use_ns = True
    flag_nullpath_ok = 1

    def __init__(self, folder: str):
        self.folder = folder

    def __call__(self, op: str, path: Optional[str], *args: Any) -> Any:
        if not hasattr(self, op):
            raise FuseOSError(errno.ENOSYS)
        return getattr(self, op)(self.at(path) if path is not None else None, *args)

    def at(self, path: str) -> str:
        """Where in the folder it is."""
        return self.folder + path

    def getattr(self, path: Optional[str], fh: Optional[int] = None) -> Dict[str, int]:
        """What is known of it."""
        found = os.lstat(path) if path is not None else os.fstat(fh or 0)
        time = found.st_mtime_ns // STEP * STEP
        return {**{name: getattr(found, name) for name in STATS}, "st_atime": time, "st_mtime": time, "st_ctime": time,
                "st_blocks": found.st_blocks}

    def statfs(self, path: str) -> Dict[str, int]:
        """How much room is there."""
        found = os.statvfs(path)
        return {name: getattr(found, name) for name in ROOM}

    # Files that are open.

    def create(self, path: str, mode: int, fi: object = None) -> int:
        """Makes a file, and opens it."""
        return os.open(path, os.O_RDWR | os.O_CREAT | os.O_EXCL, mode)

    def open(self, path: str, flags: int) -> int:
        """Opens a file. The kernel asks for where a byte goes, so nothing is appended here."""
        return os.open(path, flags & ~(os.O_APPEND | os.O_CREAT | os.O_EXCL))

    def read(self, path: Optional[str], size: int, offset: int, fh: int) -> bytes:
        """Bytes of a file that is open."""
        return os.pread(fh, size, offset)

    def write(self, path: Optional[str], data: bytes, offset: int, fh: int) -> int:
        """Puts bytes into a file that is open."""
        return os.pwrite(fh, data, offset)

    def truncate(self, path: Optional[str], length: int, fh: Optional[int] = None) -> None:
        """Cuts a file, or makes it longer."""
        if fh is not None:
            os.ftruncate(fh, length)
        else:
            os.truncate(path or "", length)

    def fsync(self, path: Optional[str], datasync: int, fh: int) -> None:
        """Puts a file on disk."""
        os.fsync(fh)

    def fsyncdir(self, path: str, datasync: int, fh: int) -> None:
        """Puts a folder's names on disk."""
        folder = os.open(path, os.O_RDONLY | os.O_DIRECTORY)
        os.fsync(folder)
        os.close(folder)

    def release(self, path: Optional[str], fh: int) -> None:
        """Closes a file."""
        os.close(fh)

    # Names.

    def readdir(self, path: str, fh: int) -> List[str]:
        """The names in a folder."""
        return [".", "..", *(name for name in os.listdir(path) if not name.startswith(HIDDEN))]

    def rename(self, old: str, new: str) -> None:
        """Renames a file or a folder."""
        os.rename(old, self.at(new))

    def link(self, target: str, source: str) -> None:
        """A second name for a file."""
        os.link(self.at(source), target)

    def symlink(self, target: str, source: str) -> None:
        """A link to a name."""
        os.symlink(source, target)

    def readlink(self, path: str) -> str:
        """Where a link leads."""
        return os.readlink(path)

    def mkdir(self, path: str, mode: int) -> None:
        """Makes a folder."""
        os.mkdir(path, mode)

    def unlink(self, path: str) -> None:
        """Takes a name away."""
        os.unlink(path)

    def rmdir(self, path: str) -> None:
        """Takes an empty folder away."""
        os.rmdir(path)

    def chmod(self, path: str, mode: int) -> None:
        """Sets who may do what."""
        os.chmod(path, mode)

    def chown(self, path: str, uid: int, gid: int) -> None:
        """Sets whose it is."""
        os.lchown(path, uid, gid)

    def utimens(self, path: str, times: Optional[Tuple[int, int]] = None) -> None:
        """Sets a file's time."""
        if times is None:
            os.utime(path, follow_symlinks=False)
        else:
            os.utime(path, ns=times, follow_symlinks=False)


def main() -> None:
    """Mounts it, and serves it until it is unmounted."""
    folder, where = map(Path, sys.argv[1:])
    FUSE(TwoSeconds(str(folder)), str(where), foreground=True, nothreads=True, use_ino=True, attr_timeout=0, entry_timeout=0,
         ac_attr_timeout=0, big_writes=True, default_permissions=True, fsname="two_seconds")


if __name__ == "__main__":
    main()
