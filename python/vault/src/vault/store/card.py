"""The card of a version: what the vault keeps of a file whose bytes are in a store.

A card says the file's hash and size, its name, who put it, when, and why. Its form is exact, so that no other content is taken for one:

    vault card 1
    sha256 64 hexadecimal digits, lower case
    size 3145728
    name Kolben 80.SLDPRT
    by anna
    at 2026-11-27T18:03:11Z
    note larger bore

Each line ends with LF; the line of the note may be missing. Anybody can write a card, so nothing in it is trusted: its hash and size are
compared with the bytes, and its name is no path (see `names`).
"""

import functools
import re
import time
from typing import NamedTuple, Optional

from vault.errors import MisusedError
from vault.files.text import CONTROL, moment

NAME_BYTES = 255
NOTE_BYTES = 400
TIME = "%Y-%m-%dT%H:%M:%SZ"
FORM = re.compile(
    r"vault card 1\n"
    r"sha256 (?P<sha256>[0-9a-f]{64})\n"
    r"size (?P<size>0|[1-9][0-9]{0,17})\n"
    r"name (?P<name>[^\n]+)\n"
    r"by (?P<by>[a-z0-9_-]{1,32})\n"
    r"at (?P<at>[0-9]{4}-[0-9]{2}-[0-9]{2}T[0-9]{2}:[0-9]{2}:[0-9]{2}Z)\n"
    r"(?:note (?P<note>[^\n]+)\n)?")


class Card(NamedTuple):
    """What a card says."""

    sha256: str
    size: int
    name: str
    by: str
    at: str
    note: str = ""

    def spell(self) -> bytes:
        """The card's bytes."""
        lines = ["vault card 1", "sha256 " + self.sha256, f"size {self.size}", "name " + self.name, "by " + self.by, "at " + self.at]
        return "".join(line + "\n" for line in lines + (["note " + self.note] if self.note else [])).encode("utf-8")


@functools.lru_cache(maxsize=256)
def read_card(content: bytes) -> Optional[Card]:
    """The card that a content is, or nothing if it isn't exactly one."""
    try:
        found = FORM.fullmatch(content.decode("utf-8"))
    except UnicodeDecodeError:
        return None
    if found is None or not is_text(found["name"], NAME_BYTES) or not is_text(found["note"] or "-", NOTE_BYTES):
        return None
    from datetime import datetime
    try:
        datetime.fromisoformat(found["at"][:-1])
    except ValueError:
        return None
    return Card(found["sha256"], int(found["size"]), found["name"], found["by"], found["at"], found["note"] or "")


def is_text(word: str, most: int) -> bool:
    """Whether a word may stand in a card: text without control characters, of at most this many bytes."""
    try:
        return 0 < len(word.encode("utf-8")) <= most and CONTROL.search(word) is None
    except UnicodeEncodeError:
        return False


def name_word(name: str) -> str:
    """A file's name, if a card can have it."""
    if not is_text(name, NAME_BYTES):
        raise MisusedError(f"A file's name is text of at most {NAME_BYTES} bytes without control characters, and {name!a} is none. Give it"
                           " another name.")
    return name


def note_word(note: str) -> str:
    """A note, if a card can have it."""
    if not is_text(note, NOTE_BYTES):
        raise MisusedError(f"A version's note is one line of 1 to {NOTE_BYTES} bytes. Say it shorter, and in one line.")
    return note


def now() -> str:
    """The time, as a card says it."""
    return moment(time.time())
