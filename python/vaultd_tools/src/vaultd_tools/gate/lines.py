"""The lines of the protocol, read as strictly as the server reads them.

A command is spelled anew from what was understood of its line, so whoever sends that spelling on sends nothing else. A line that is
no command here is never sent on.
"""

from __future__ import annotations

from collections.abc import Callable, Iterator

from vault.protocol import grammar
from vault.protocol.grammar import GREATEST, LINE_BYTES, in_bytes

NAME, PLACE, ITEM, NUMBER, CONTENT = (in_bytes(form) for form in (
    grammar.NAME, grammar.PLACE, grammar.ITEM, grammar.NUMBER, grammar.CONTENT))


def name(word: bytes) -> bytes | None:
    """A designer's name."""
    return word if NAME.fullmatch(word) else None


def path(word: bytes) -> bytes | None:
    """A place."""
    return word if PLACE.fullmatch(word) else None


def number(word: bytes) -> bytes | None:
    """A number without leading zeros."""
    return b"%d" % int(word) if NUMBER.fullmatch(word) and int(word) <= GREATEST else None


def numbered(letter: bytes, word: bytes) -> bytes | None:
    """A letter, and after it a number from 1 on."""
    digits = number(word[1:])
    return word[:1] + digits if word[:1] == letter and digits and digits != b"0" else None


def checkout(word: bytes) -> bytes | None:
    """A check-out, as c3."""
    return numbered(b"c", word)


def hold(word: bytes) -> bytes | None:
    """A hold, as h3."""
    return numbered(b"h", word)


def claim(word: bytes) -> bytes | None:
    """A check-out or a hold."""
    return checkout(word) or hold(word)


def item(word: bytes) -> bytes | None:
    """What is asked for, and whether to look or to change."""
    return word if ITEM.fullmatch(word) else None


def content(word: bytes) -> bytes | None:
    """Bytes as hexadecimal digits of either case, which are spelled in lower case from here on."""
    return word.lower() if CONTENT.fullmatch(word) else None


Reader = Callable[[bytes], "bytes | None"]

# For each keyword the words that may follow it.
FORMS: dict[bytes, tuple[tuple[Reader, ...], ...]] = {
    b"hello": ((name,),), b"quit": ((),),
    b"make": ((path,), (path, checkout)), b"nest": ((path,), (path, checkout)),
    b"save": ((checkout, path, content),), b"checkin": ((checkout,),), b"abandon": ((checkout,),),
    b"release": ((hold,),), b"give": ((checkout, name),), b"note": ((checkout,), (checkout, content)),
    b"state": ((claim,),), b"list": ((path,),), b"fetch": ((path, number),), b"count": ((path,),),
    b"show": ((claim,),), b"claims": ((path,),), b"drafts": ((checkout,),), b"draft": ((checkout, path),), b"wait": ((claim,),),
}
# The same for keywords whose line ends with one item or more.
FORMS_WITH_ITEMS: dict[bytes, tuple[Reader, ...]] = {b"checkout": (), b"extend": (claim,), b"hold": ()}
QUESTIONS = frozenset((b"hello", b"quit", b"state", b"list", b"fetch", b"count", b"show", b"claims", b"drafts", b"draft", b"wait"))


class Command:
    """A command, taken apart."""

    __slots__ = ("keyword", "words")

    def __init__(self, keyword: bytes, words: tuple[bytes, ...]):
        self.keyword, self.words = keyword, words

    @property
    def line(self) -> bytes:
        """How it is spelled, with the line feed at its end."""
        return b" ".join((self.keyword, *self.words)) + b"\n"

    @property
    def asks(self) -> bool:
        """Whether it only asks."""
        return self.keyword in QUESTIONS or self.keyword == b"note" and len(self.words) == 1

    @property
    def changes(self) -> bool:
        """Whether it may change something. A save at the library never does: clients use it to ask whose a check-out is."""
        return not self.asks and not (self.keyword == b"save" and self.words[1] == b"/")

    @property
    def shown(self) -> str:
        """What it says, with the number of bytes in place of a content or a note."""
        words = [word.decode("ascii") for word in (self.keyword, *self.words)]
        if self.keyword == b"save" or self.keyword == b"note" and len(words) == 3:
            size = len(words.pop().strip("-")) // 2
            words.append(f"({size} bytes)")
        return " ".join(words)


def readers_of(keyword: bytes, count: int) -> tuple[Reader, ...] | None:
    """The readers of this many words after a keyword, if this many may follow it."""
    if keyword in FORMS_WITH_ITEMS:
        before = FORMS_WITH_ITEMS[keyword]
        return before + (item,) * (count - len(before)) if count > len(before) else None
    return next((form for form in FORMS.get(keyword, ()) if len(form) == count), None)


def command_of(line: bytes) -> Command | None:
    """The command that a line spells, without the line feed at its end."""
    if len(line) > LINE_BYTES:
        return None
    keyword, *words = line.split(b" ")
    readers = readers_of(keyword, len(words))
    if readers is None:
        return None
    read: list[bytes] = []
    for reader, word in zip(readers, words):
        understood = reader(word)
        if understood is None:
            return None
        read.append(understood)
    return Command(keyword, tuple(read))


class Lines:
    """Splits what comes, in whatever pieces, into lines. Of a line that is too long it keeps just enough to show that."""

    def __init__(self) -> None:
        self.begun = b""

    def ended_by(self, piece: bytes) -> Iterator[bytes]:
        """The lines that end in this piece."""
        *ended, begun = piece.split(b"\n")
        for part in ended:
            yield self.begun + part
            self.begun = b""
        self.begun = (self.begun + begun)[:LINE_BYTES + 1]
