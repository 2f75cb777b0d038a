"""Many files are put at once: their bytes side by side, and then their cards in a few goes."""

import os
from contextlib import contextmanager
from pathlib import Path
from typing import TYPE_CHECKING, Callable, Dict, Iterator, List, NamedTuple, Sequence, TypeVar, Union

from vault.client.many import Saving
from vault.errors import MisusedError, VaultError
from vault.files.hashes import sha256_of
from vault.files.transfer import Moved, given, steady
from vault.protocol.grammar import CONTENT_BYTES
from vault.store.base import Kept, Store, StoreAwayError, StoreFaultError
from vault.store.card import Card, name_word, now, read_card
from vault.store.parts import Parts

if TYPE_CHECKING:
    from concurrent.futures import ThreadPoolExecutor

# A file's bytes wait for the disk or the network for longer than they are hashed.
SIDE_BY_SIDE = 8
TRIES = 3
T = TypeVar("T")
R = TypeVar("R")


class Wanted(NamedTuple):
    """A file that is to be the draft of a part, by a name of its own."""

    place: str
    file: Path
    name: str


class PutMany:
    """What was put: by place the hash of a draft's bytes; and what was not, each with the reason."""

    def __init__(self) -> None:
        self.hashes: Dict[str, str] = {}
        self.left: Dict[str, VaultError] = {}


def put_all(parts: Parts, wanted: Sequence[Wanted], claim: str, note: str, moved: Moved) -> PutMany:
    """Puts files as drafts in a check-out. One that can't be read, or is refused, is told, and the others are put."""
    store, done = parts.store(), PutMany()
    cards = put_bytes(parts, store, wanted, note, moved, done) if store is not None else read_small(wanted, done)
    sources = {each.place: os.path.abspath(each.file) for each in wanted}
    left = dict(cards)
    for _ in range(TRIES):
        refused = parts.client.save_all([Saving(place, content, sources[place]) for place, content in left.items()], claim)
        done.left.update(refused)
        left = {place: content for place, content in left.items() if place not in refused}
        gone = lacking(store, left) if store is not None else []
        done.hashes.update({place: hash_in(content) for place, content in left.items() if place not in gone})
        if not gone or store is None:
            return done
        again = [each for each in wanted if each.place in gone]
        left = put_bytes(parts, store, again, note, lambda _bytes: None, done)
    raise StoreFaultError(f"The bytes of {len(left)} files are taken away from {store.address if store else ''} again and again. Ask whoever runs"
                          f" it; do not check {claim} in before.")


def put_bytes(parts: Parts, store: Store, wanted: Sequence[Wanted], note: str, moved: Moved, done: PutMany) -> Dict[str, bytes]:
    """Puts the bytes of files into the store, and answers their cards by place."""

    def added(each: Wanted) -> Union[Kept, VaultError]:
        """What the store has of a file then, or why it hasn't."""
        try:
            name_word(each.name)
            return store.add(each.file, lambda _what, _size: given(moved), follow=False)
        except (StoreFaultError, StoreAwayError):
            raise
        except VaultError as error:
            return error

    cards: Dict[str, bytes] = {}
    for each, kept in zip(wanted, side_by_side(added, wanted)):
        if isinstance(kept, VaultError):
            done.left[each.place] = kept
        else:
            cards[each.place] = Card(kept.sha256, kept.size, each.name, parts.client.designer, now(), note).spell()
    return cards


def read_small(wanted: Sequence[Wanted], done: PutMany) -> Dict[str, bytes]:
    """The contents of files by place, for a vault that names no store."""
    contents: Dict[str, bytes] = {}
    for each in wanted:
        try:
            with steady(each.file, follow=False) as opened:
                piece = memoryview(bytearray(CONTENT_BYTES + 1))
                content = bytes(piece[:opened.readinto(piece)])
            if len(content) > CONTENT_BYTES or read_card(content) is not None:
                raise MisusedError(f"the vault itself keeps at most {CONTENT_BYTES:,} bytes of a part, and no card. `vault store set ADDRESS` names a"
                                   " store for such files, as file:///srv/vault-store.")
            contents[each.place] = content
        except VaultError as error:
            done.left[each.place] = error
    return contents


def lacking(store: Store, cards: Dict[str, bytes]) -> List[str]:
    """The parts whose bytes the store hasn't, or not of the right size."""

    def lacks(place: str) -> bool:
        """Whether it lacks those of one."""
        card = read_card(cards[place])
        found = store.find(card.sha256) if card is not None else None
        return card is not None and (found is None or found.size != card.size)

    places = list(cards)
    return [place for place, missing in zip(places, side_by_side(lacks, places)) if missing]


def hash_in(content: bytes) -> str:
    """The hash of the bytes that a draft is of."""
    card = read_card(content)
    return card.sha256 if card is not None else sha256_of(content)


def side_by_side(work: Callable[[T], R], every: Sequence[T]) -> List[R]:
    """Does some work for each of some things, for several at a time. The first that can't be done ends it, and what hasn't begun isn't done."""
    if len(every) < 2:
        return [work(each) for each in every]
    from concurrent.futures import ThreadPoolExecutor
    with ThreadPoolExecutor(SIDE_BY_SIDE) as pool, ended_early(pool):
        return list(pool.map(work, every))


@contextmanager
def ended_early(pool: "ThreadPoolExecutor") -> Iterator[None]:
    """Drops what hasn't begun, if something goes wrong or the designer ends the program."""
    try:
        yield
    except BaseException:
        pool.shutdown(wait=False, cancel_futures=True)
        raise
