"""Reads the two files of a vault by docs/FORMAT.md, with code of its own. Tests compare this with what the program says."""

from dataclasses import dataclass, field
from typing import Callable, Dict, List, Optional, Tuple

HEAD = 24
NAME = b"LLVAULT"
VERSION = 2


class Damaged(Exception):
    """The files are none of a vault; says why."""


class Bytes:
    """Bytes that are taken from the front."""

    def __init__(self, data: bytes):
        self.data, self.at = data, 0

    def take(self, size: int) -> bytes:
        """This many bytes."""
        if self.at + size > len(self.data):
            raise Damaged(f"no {size} bytes at {self.at}")
        self.at += size
        return self.data[self.at - size:self.at]

    def number(self, size: int) -> int:
        """A number of this many bytes."""
        return int.from_bytes(self.take(size), "big")

    def sized(self, size: int) -> bytes:
        """Bytes after their length, which has this many bytes."""
        return self.take(self.number(size))

    @property
    def left(self) -> int:
        """How many bytes are left."""
        return len(self.data) - self.at


Item = Tuple[int, int]


@dataclass
class CheckOut:
    """A check-out that stands."""

    owner: bytes
    items: List[Item]
    note: bytes = b""
    drafts: Dict[int, bytes] = field(default_factory=dict)


@dataclass
class Vault:
    """What two files hold. Places are their numbers; a part has a list of versions."""

    last: int = 0
    places: List[Tuple[int, bytes]] = field(default_factory=lambda: [(0, b"")])
    versions: Dict[int, List[bytes]] = field(default_factory=dict)
    line: Dict[int, CheckOut] = field(default_factory=dict)

    @property
    def counts(self) -> str:
        """The line of counts that `vaultd inspect` prints."""
        versions, drafts = sum(map(len, self.versions.values())), sum(len(one.drafts) for one in self.line.values())
        return f"places {len(self.places)}, versions {versions}, claims {len(self.line)}, drafts {drafts}"

    def depth(self, place: int) -> int:
        """How many names a place has."""
        return 0 if place == 0 else 1 + self.depth(self.places[place][0])

    def make(self, parent: int, name: bytes, nested: bool) -> None:
        """Makes a place."""
        self.places.append((parent, name))
        if not nested and self.depth(len(self.places) - 1) > 2:
            self.versions[len(self.places) - 1] = []


def items_of(data: Bytes) -> List[Item]:
    """Items after their number."""
    return [(data.number(1), data.number(4)) for _ in range(data.number(1))]


def snapshot_of(data: Bytes) -> Vault:
    """The vault of a snapshot."""
    vault = Vault(last=data.number(4))
    for place in range(1, data.number(4)):
        vault.places.append((data.number(4), data.sized(1)))
        if data.number(1) == 1:
            vault.versions[place] = [data.sized(2) for _ in range(data.number(2))]
    for _ in range(data.number(2)):
        number, owner, note = data.number(4), data.sized(1), data.sized(1)
        vault.line[number] = CheckOut(owner, items_of(data), note, {data.number(4): data.sized(2) for _ in range(data.number(1))})
    if data.left:
        raise Damaged(f"{data.left} bytes behind the snapshot")
    return vault


def check_in(vault: Vault, number: int) -> None:
    """Each draft of a check-out becomes a version, and it is gone."""
    for place, content in vault.line.pop(number).drafts.items():
        vault.versions[place].append(content)


def extend(vault: Vault, number: int, items: List[Item]) -> None:
    """A check-out gets further items and goes to the front of the queue."""
    one = vault.line.pop(number)
    one.items += items
    vault.line = {number: one, **vault.line}


def ask(vault: Vault, number: int, owner: bytes, items: List[Item]) -> None:
    """A check-out is asked for."""
    vault.line[number] = CheckOut(owner, items)
    vault.last = number


# What each kind of record says, by the byte that it begins with.
RECORDS: Dict[int, Callable[[Vault, Bytes], object]] = {
    1: lambda vault, data: vault.make(data.number(4), data.sized(1), False),
    2: lambda vault, data: ask(vault, data.number(4), data.sized(1), items_of(data)),
    3: lambda vault, data: extend(vault, data.number(4), items_of(data)),
    4: lambda vault, data: vault.line[data.number(4)].drafts.__setitem__(data.number(4), data.sized(2)),
    5: lambda vault, data: check_in(vault, data.number(4)),
    6: lambda vault, data: vault.line.pop(data.number(4)),
    7: lambda vault, data: setattr(vault.line[data.number(4)], "owner", data.sized(1)),
    8: lambda vault, data: setattr(vault.line[data.number(4)], "note", data.sized(1)),
    9: lambda vault, data: vault.make(data.number(4), data.sized(1), True),
}


def generation_of(file: bytes) -> Optional[int]:
    """The generation of a file whose head gate is open."""
    if len(file) < HEAD or file[0] != 1:
        return None
    if file[1:8] != NAME or int.from_bytes(file[8:12], "big") != VERSION:
        raise Damaged("an open head is no vault's")
    return int.from_bytes(file[12:20], "big")


def vault_of(first: bytes, second: bytes) -> Vault:
    """The vault that two files hold: the snapshot of the active one, and each frame after it."""
    generations = {generation: file for file in (first, second) if (generation := generation_of(file)) is not None}
    if not generations:
        raise Damaged("neither head is open")
    data = Bytes(generations[max(generations)])
    data.at = 20
    vault = snapshot_of(Bytes(data.sized(4)))
    try:
        while data.number(1) == 1:
            records = Bytes(data.sized(4))
            while records.left:
                RECORDS[records.number(1)](vault, records)
    except (KeyError, IndexError) as error:
        raise Damaged(f"a record before {data.at} can't be: {error!r}") from error
    return vault
