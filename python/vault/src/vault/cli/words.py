"""The words of each command of the program `vault`, as the command line has them. They are no dataclasses: so many of these take longer to
make than a question to a server."""

import argparse
from typing import List, NamedTuple, Optional, Type, TypeVar

W = TypeVar("W", bound="Words")


class Words:
    """The words of a command, each by its annotation."""

    @classmethod
    def of(cls: Type[W], given: argparse.Namespace) -> W:
        """These words of what the command line was read as."""
        words = cls()
        for each in cls.__mro__:
            for name in each.__dict__.get("__annotations__", ()):
                setattr(words, name, getattr(given, name))
        return words


class HelloWords(Words):
    """Who the designer is, and where, and what the vault is called here."""

    who: str
    name: str


class NoWords(Words):
    """No words, for `vaults`."""


class PlaceWords(Words):
    """A place, and whether all there is listed, for `tree`, `history` and `who`."""

    place: str
    all: bool


class MakeWords(Words):
    """A place that is made, and the check-out in whose name; for `make` and `nest`."""

    place: str
    claim: str


class PutWords(Words):
    """A part and its file, or a working folder and no file; the check-out that the draft belongs to; the name that the part's file gets; and
    whether all is listed."""

    place: str
    file: Optional[str]
    claim: str
    name: str
    all: bool


class WriteWords(Words):
    """What is written where: a new file, or standard output."""

    place: str
    to: Optional[str]


class GetWords(WriteWords):
    """A part and its version, or an assembly; for its folder, how long files are kept there that give way, whether all are writable, and whether
    all is listed."""

    version: Optional[int]
    keep_days: Optional[int]
    writable: bool
    all: bool


class DraftWords(WriteWords):
    """A part and the check-out whose draft of it is written."""

    claim: str


class ItemsWords(Words):
    """What is asked for, for `checkout` and `hold`."""

    items: List[str]


class ClaimWords(Words):
    """A claim, for `abandon` and `forget`."""

    claim: str


class ExtendWords(ClaimWords):
    """A check-out, and what it is to have besides."""

    items: List[str]


class CheckinWords(ClaimWords):
    """A check-out or a working folder, why its versions are made, whether that may take several check-outs, and whether all is listed."""

    note: Optional[str]
    in_parts: bool
    all: bool


class GiveWords(ClaimWords):
    """A check-out, and the designer who is to have it; and whether it isn't asked before."""

    receiver: str
    yes: bool


class NoteWords(ClaimWords):
    """A check-out, and the text of its note, where it is written."""

    text: Optional[str]


class WaitWords(ClaimWords):
    """A claim, and how long it is waited for, in seconds."""

    at_most: float


class DraftsWords(ClaimWords):
    """A check-out, and the folder into which the copies of its drafts are written."""

    folder: Optional[str]


class MineWords(Words):
    """Check-outs from elsewhere, and whether all are listed."""

    claims: List[str]
    all: bool


class StoreWords(Words):
    """What is done with the store, its address, whether all bytes are read, and this machine's own way to it."""

    what: Optional[str]
    address: str
    read: bool
    here: str


class StatusWords(Words):
    """A working folder, or a file or a folder in it, and whether all is listed."""

    folder: str
    all: bool


class BeforeWords(Words):
    """A working folder, which of the files that were moved aside there is brought back, and to which new file."""

    folder: str
    which: Optional[str]
    to: Optional[str]


class AddWords(Words):
    """Files that become parts, and folders that become assemblies; whether it isn't asked before, and all that is left is named."""

    files: List[str]
    yes: bool
    all: bool


class ImportWords(Words):
    """A folder, and the place into which all in it goes; why its versions are made; whether it may take several check-outs, isn't asked before,
    and all that is left is named."""

    folder: str
    place: str
    note: Optional[str]
    in_parts: bool
    yes: bool
    all: bool


class Given(NamedTuple):
    """What a command line asks for: a command with its words, who says it, and how."""

    command: str
    words: Words
    designer: Optional[str]
    json: bool
    patience: float
