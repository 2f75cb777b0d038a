"""What stood in a working folder before: files that gave way to another version or another name are moved aside and kept for some days, as a
program may still have them open, and save them. Each lies in a folder of its part's place, and its name says which version it was, when it
was moved, and how it looked then.
"""

import contextlib
import errno
import os
import re
import time
from pathlib import Path
from typing import Any, Dict, Iterator, NamedTuple

from vault.files.system import set_writable, sync_folder
from vault.files.whole import end, give_new_name, new_file
from vault.protocol.grammar import PLACE

BEFORE = "before"
STAMP = "%Y%m%dT%H%M%S.%fZ"
# A new file that is about to change its name with an old one: its number and its time, by which it is known until it has.
SWAP = re.compile(r"swap-(?P<number>[0-9]{1,20})-(?P<time>[0-9]{1,20})-[0-9a-f]{32}")
NAME = re.compile(r"(?P<stamp>[0-9]{8}T[0-9]{6}\.[0-9]{6}Z)-v(?P<version>[0-9]{1,10})-(?P<size>[0-9]{1,19})-(?P<time>-?[0-9]{1,20})")


class Before(NamedTuple):
    """A file that was moved aside: where it is, its part, the version that it was made of, when it was moved, by which it is named, and
    its size and time then."""

    path: Path
    place: str
    version: int
    stamp: str
    size: int
    saved: int

    @property
    def moved(self) -> float:
        """When it was moved, in seconds."""
        from datetime import datetime, timezone
        return datetime.strptime(self.stamp, STAMP).replace(tzinfo=timezone.utc).timestamp()

    @property
    def saved_since(self) -> bool:
        """Whether a program that had it open saved it after it was moved."""
        now = os.lstat(self.path)
        return (now.st_size, now.st_mtime_ns) != (self.size, self.saved)

    def fields(self) -> Dict[str, Any]:
        """The file for --json."""
        return {"which": self.stamp, "place": self.place, "version": self.version, "bytes": os.lstat(self.path).st_size,
                "saved_since": self.saved_since, "file": str(self.path)}


def name_for(version: int, seen: os.stat_result, moved: float) -> str:
    """The name under which a file is kept that is moved now."""
    from datetime import datetime, timezone
    stamp = datetime.fromtimestamp(moved, timezone.utc).strftime(STAMP)
    return f"{stamp}-v{version}-{seen.st_size}-{seen.st_mtime_ns}"


def kept_in(own: Path) -> Iterator[Before]:
    """The files that are kept in the client's own folder, the earliest first; what is none of them is passed over."""
    top = own / BEFORE
    found = []
    for folder, inner, files in os.walk(top):
        place = "/" + Path(folder).relative_to(top).as_posix()
        inner[:] = [name for name in inner if not os.path.islink(os.path.join(folder, name))]
        for file in files if PLACE.fullmatch(place) else ():
            read, path = NAME.fullmatch(file), Path(folder) / file
            if read is not None and not path.is_symlink():
                found.append(Before(path, place, int(read["version"]), read["stamp"], int(read["size"]), int(read["time"])))
    return iter(sorted(found, key=lambda each: (each.stamp, each.place)))


def bring_back(kept: Before, path: Path) -> None:
    """Gives a file that was moved aside a new name, so that a program that has it open saves into that; on another disk it is copied."""
    try:
        give_new_name(kept.path, path)
        set_writable(path, True)
    except OSError as error:
        if error.errno != errno.EXDEV:
            raise
        import shutil
        with new_file(path.parent, ".vault-") as file, open(kept.path, "rb") as source:
            shutil.copyfileobj(source, file)
            give_new_name(end(file), path)
    sync_folder(path.parent)


def swap_name(seen: os.stat_result) -> str:
    """The name of a new file that is about to change its name with an old one."""
    return f"swap-{seen.st_ino}-{seen.st_mtime_ns}-{os.urandom(16).hex()}"


def is_swap(path: Path) -> bool:
    """Whether a file has such a name."""
    return SWAP.fullmatch(path.name) is not None


def remove_swap(path: Path) -> None:
    """Removes a new file that has such a name still; what came into its place isn't removed."""
    with contextlib.suppress(OSError):
        read, seen = SWAP.fullmatch(path.name), os.lstat(path)
        if read is not None and (seen.st_ino, seen.st_mtime_ns) == (int(read["number"]), int(read["time"])):
            os.unlink(path)


def settle_swaps(own: Path) -> None:
    """Removes new files that killed clients left under such names; what has changed its name with one is kept among those that gave way, of
    a version that isn't known any more."""
    for folder, inner, files in os.walk(own / BEFORE):
        inner[:] = [name for name in inner if not os.path.islink(os.path.join(folder, name))]
        for path in (Path(folder) / name for name in files if SWAP.fullmatch(name)):
            remove_swap(path)
            with contextlib.suppress(OSError):
                os.rename(path, path.with_name(name_for(0, os.lstat(path), time.time())))
