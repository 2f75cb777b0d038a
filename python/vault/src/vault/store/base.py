"""Stores of bytes by their SHA-256, which a vault's cards name. Nothing in a store is ever changed."""

from pathlib import Path
from typing import Iterator, List, NamedTuple, Optional, Protocol, Sequence

from vault.errors import VaultError
from vault.files.transfer import Meter, Own

MARK_NAME = "vault-store"
MARK = b"vault store 1\n"
# Where what goes lies, until the next sweep removes it. Who misses bytes looks for them there.
GOING = "going"


class StoreFaultError(VaultError):
    """What the store has, or does, is not as it must be."""


class StoreAwayError(VaultError):
    """The store can't be reached."""

    status = 3


class WrongBytesError(StoreFaultError):
    """The store's bytes are missing, or are not those that are named."""


class MissingError(WrongBytesError):
    """The store has nothing of that name."""

    def __init__(self) -> None:
        super().__init__("the store has nothing of that name")


class Kept(NamedTuple):
    """What a store has: the bytes' name, how many they are, and since when, in seconds."""

    sha256: str
    size: int
    since: float


class Store(Protocol):
    """A store that can be reached. Each call raises a `VaultError` with a sentence if it can't do what it says."""

    address: str

    def prepare(self) -> None:
        """Makes the store if it isn't there yet, and tries whether it can be written and read."""

    def add(self, source: Path, meter: Meter, follow: bool = True) -> Kept:
        """Makes sure that the store has a file's bytes, on disk and young, and answers their name."""

    def find(self, sha256: str) -> Optional[Kept]:
        """What the store has under a name, or nothing; the bytes are not read."""

    def fetch(self, sha256: str, size: int, target: Own, meter: Meter) -> None:
        """Writes bytes into a file, and raises `WrongBytesError` if they are not those."""

    def all(self) -> Iterator[Kept]:
        """All that the store has in its places."""

    def going(self) -> Iterator[Kept]:
        """What a sweep set aside."""

    def set_aside(self, kept: Kept, before: float) -> bool:
        """Moves bytes that are still older than that out of their place, and answers whether it did."""

    def bring_back(self, sha256: str) -> bool:
        """Moves what was set aside back into its place, young again, and answers whether there was any. `add`, `find` and `fetch` do so."""

    def remove(self, kept: Kept) -> bool:
        """Removes what was set aside, and answers whether it did."""

    def leftovers(self, before: float) -> int:
        """Removes what was begun before that and never ended, and answers how many these were."""

    def lacking(self, wanted: Sequence[Kept]) -> List[Kept]:
        """Those of some bytes that the store hasn't of that size, in one request where it can."""

    def near(self, folder: Path) -> bool:
        """Whether its bytes are as near as that folder, so that a copy there would save nothing."""


def compare(sha256: str, size: int, found: str, length: int) -> None:
    """Raises `WrongBytesError` if bytes are not those that are named."""
    if length != size:
        raise WrongBytesError(f"they are {length:,} bytes, and have to be {size:,}")
    if found != sha256:
        raise WrongBytesError(f"their SHA-256 is {found[:12]}.., and has to be {sha256[:12]}..")


def place_of(sha256: str) -> str:
    """Where bytes lie in a store."""
    return f"sha256/{sha256[:2]}/{sha256[2:4]}/{sha256}"


def aside_of(sha256: str) -> str:
    """Where bytes lie that a sweep set aside."""
    return f"{GOING}/{sha256}"


def unsafe_name(name: str) -> bool:
    """Whether an entry of a store's folder is none of its own."""
    return len(name) != 64 or set(name) - set("0123456789abcdef") != set()
