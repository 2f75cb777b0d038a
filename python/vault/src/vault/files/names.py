"""Names of files and of parts: what a card says is a name only if every system can have it, and it leads nowhere else."""

import re
import unicodedata
from pathlib import PurePosixPath
from typing import Callable, Collection, Iterator

from vault.store.card import NAME_BYTES

PART_BYTES = 32
# The part in which the real name of a project or an assembly stands. No part of a file has it.
OWN_NAME = "-name-"
ODD = re.compile(r'[/\\<>:"|?*]')
# What Windows takes for a device, whatever follows the first dot.
RESERVED = re.compile(r"(con|prn|aux|nul|conin\$|conout\$|(com|lpt)[0-9\u00b9\u00b2\u00b3])( *\..*)?", re.IGNORECASE)
# The short name that Windows gives the folder's own files.
SHORT = re.compile(r"vault~[0-9]+", re.IGNORECASE)


def usable(name: str) -> bool:
    """Whether a file can have this name on every system, in the folder that it stands in. A name that begins with a dot is hidden, and may
    be a program's own, so it is none."""
    if not name.isprintable() or ODD.search(name) or RESERVED.fullmatch(name) or SHORT.fullmatch(name):
        return False
    if name[:1] in (".", " ", "") or name[-1] in (".", " "):
        return False
    return len(name.encode("utf-8", "surrogatepass")) <= NAME_BYTES and unicodedata.normalize("NFC", name)[:1] != "."


def why_not(name: str) -> str:
    """Why a file can't have a name on every system, in words behind the name; nothing if it can."""
    found = ODD.search(name)
    if usable(name):
        return ""
    if found:
        return f"has `{found[0]}`, which Windows doesn't take in a name"
    if RESERVED.fullmatch(name):
        return "is a device to Windows, and no file"
    if name[:1] in (".", " ") or name[-1:] in (".", " "):
        return "begins or ends with a dot or a blank, which Windows doesn't take, or hides"
    return f"is no name on every system: that is printable text of at most {NAME_BYTES} bytes, and not the short name of a hidden folder"


def folded(name: str) -> str:
    """A name as it is compared by systems that ignore capitals, or spell letters otherwise."""
    return unicodedata.normalize("NFC", unicodedata.normalize("NFC", name).casefold())


def exact(name: str) -> str:
    """A name as it is compared by systems that tell capitals apart; letters that look alike are one."""
    return unicodedata.normalize("NFC", name)


def choose_name(wanted: str, part: str, taken: Collection[str], key: Callable[[str], str] = folded) -> str:
    """A name for a part's file: the one that its card says, or one with the part's own name if that can't be or is taken. Taken names are
    given by what tells names apart on the disk."""
    return next(name for name in candidates(wanted, part) if usable(name) and key(name) not in taken)


def candidates(wanted: str, part: str) -> Iterator[str]:
    """Names that may be tried, the best first."""
    path = PurePosixPath(wanted)
    yield wanted
    if usable(wanted):
        yield f"{path.stem} ({part}){path.suffix}"
    yield part
    number = 2
    while True:
        yield f"{part}_{number}"
        number += 1


def part_name(file: str, taken: Collection[str]) -> str:
    """The name of a part for a file: in lower case, with an underscore for each byte that a place's name can't have, and a number where
    that is taken."""
    plain = re.sub(rb"[^a-z0-9_-]", b"_", file.lower().encode("utf-8", "surrogateescape")).decode("ascii")[:PART_BYTES]
    name, number = plain, 2
    while name in taken or name == OWN_NAME:
        ending = f"_{number}"
        name = plain[:PART_BYTES - len(ending)] + ending
        number += 1
    return name
