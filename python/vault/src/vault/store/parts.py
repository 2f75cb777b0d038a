"""A designer's files in a vault: of each version the vault keeps a card, and the vault's store the bytes."""

import contextlib
import os
from pathlib import Path
from typing import IO, Any, Dict, Iterator, List, NamedTuple, Optional

from vault.client import Client
from vault.errors import MisusedError, RefusedError, VaultError
from vault.files.hashes import sha256_of
from vault.files.own_folders import cache_folder
from vault.files.system import sync_folder
from vault.files.transfer import ChangedNowError, Meter, Own, no_meter, read, steady
from vault.files.whole import end, give_new_name, new_file
from vault.protocol.grammar import CONTENT_BYTES
from vault.protocol.words import place_word
from vault.store.base import Kept, Store, StoreFaultError, WrongBytesError, compare
from vault.store.cache import Cache, most_bytes
from vault.store.card import Card, name_word, note_word, now, read_card
from vault.store.setting import STORE_PLACE, Setting

TRIES = 3
# A connection stands while so many bytes are moved: through ssh, a new one takes longer than these.
LONG_BYTES = 64 << 20


class Version(NamedTuple):
    """A version of a part, or a draft of one: its content in the vault, and the card that the content is, if it is one."""

    place: str
    number: int
    content: bytes

    @property
    def card(self) -> Optional[Card]:
        """The card, where the content is one."""
        return read_card(self.content)

    @property
    def sha256(self) -> str:
        """The hash of the bytes that were put."""
        return self.card.sha256 if self.card else sha256_of(self.content)

    @property
    def size(self) -> int:
        """How many bytes were put."""
        return self.card.size if self.card else len(self.content)


class Put(NamedTuple):
    """What was put: the check-out that the draft belongs to, the bytes, and the name that the part's file has, where a card says it."""

    claim: str
    size: int
    sha256: str
    name: str = ""


class Parts:
    """A designer's files. Every method raises a `VaultError` with a sentence if it can't do what it says."""

    def __init__(self, client: Client, setting: Optional[Setting] = None, meter: Meter = no_meter, cache: Optional[Cache] = None):
        self.client, self.meter, self.cache = client, meter, cache
        self.setting = setting or Setting(client)
        self.opened: Optional[Store] = None

    def store(self) -> Optional[Store]:
        """The vault's store, or nothing if it names none. The vault is asked again until there is one."""
        if self.opened is None:
            self.opened = self.setting.store()
        return self.opened

    def put(self, place: str, file: Path, claim: str = "", follow: bool = True, name: str = "") -> Put:
        """Puts a file's bytes into the store, and only then its card as the draft of a part: by the name that is given, or else by the one that
        the part has, or the file's if it has none yet."""
        if place_word(place) == STORE_PLACE:
            raise MisusedError("That part names the vault's store. `vault store set ADDRESS` writes it.")
        found = self.client.claim_for(place, claim)
        store = self.store()
        if store is None:
            return self._put_small(place, file, found, follow)
        name = name_word(name or self._name_of(place, found) or file.name)
        self._leave_for(os.path.getsize(file) if file.is_file() else 0)
        kept = store.add(file, self.meter, follow)
        card = Card(kept.sha256, kept.size, name, self.client.designer, now())
        for _ in range(TRIES):
            self.client.put(place, card.spell(), found, os.path.abspath(file))
            if self._still_there(store, kept):
                return Put(found, kept.size, kept.sha256, name)
            if store.add(file, self.meter, follow).sha256 != kept.sha256:
                raise MisusedError(f"{file} was changed while it was put. Put it again; the draft in {found} is not to be checked in before.")
        raise StoreFaultError(f"The bytes of {file} are taken away from {store.address} again and again. Ask whoever runs it; do not check"
                              f" {found} in before.")

    def _leave_for(self, size: int) -> None:
        """Leaves the server while so many bytes are moved, if that takes a while: others may wait for its workers."""
        if size > LONG_BYTES:
            self.client.close()

    def get(self, place: str, number: Optional[int] = None) -> Version:
        """A version of a part, the last one if none is named."""
        return Version(place, *self.client.version(place, number))

    def history(self, place: str) -> Iterator[Version]:
        """Each version of a part, from the first on."""
        return (Version(place, number, content) for number, content in self.client.history(place))

    def write(self, version: Version, target: IO[bytes], where: str, meter: Optional[Meter] = None) -> None:
        """Writes the bytes of a version into an open file, or raises if they are not those that were checked in."""
        card = version.card
        if card is None:
            target.write(version.content)
            return
        store = self.store()
        if store is None:
            raise StoreFaultError(f"The bytes of {version.place} are in a store, and the vault names none any more. Ask whoever runs it.")
        self._leave_for(card.size)
        try:
            if self.cache is None:
                store.fetch(card.sha256, card.size, Own(target, where), meter or self.meter)
            else:
                self.cache.fetch(store, card.sha256, card.size, Own(target, where), meter or self.meter)
            compare(card.sha256, card.size, card.sha256, target.tell())
        except WrongBytesError as wrong:
            which = f"version {version.number} of {version.place}" if version.number else f"the draft of {version.place}"
            raise StoreFaultError(f"The bytes of {which} in {store.address} are not what was put: {wrong}. {where} was not written. Ask whoever"
                                  f" runs the store for {card.sha256}.") from wrong

    def write_new(self, version: Version, path: Path) -> None:
        """Writes a version into a file that isn't there yet, whole or not at all."""
        if os.path.lexists(path):
            raise MisusedError(f"{path} is there already, and is left as it is. Name another file.")
        with self._beside(path) as file:
            self.write(version, file, str(path))
            give_new_name(end(file), path)
            sync_folder(path.parent)

    def set_note(self, claim: str, note: str) -> int:
        """Writes a note on each draft of a check-out that is a file in a store, as the server has it, and answers how many there are."""
        note_word(note)
        drafts, kept = self.client.all_drafts(claim), self.client.kept_drafts(claim)
        cards = {place: read_card(content) for place, content in drafts.items()}
        if not any(cards.values()):
            raise MisusedError(f"{claim} has no draft of a file in a store, so there is none for the note. Check it in without.")
        for place, card in cards.items():
            if card is not None and card.note != note:
                self.client.put(place, card._replace(note=note).spell(), claim, keep=kept.get(place) == drafts[place])
        return sum(card is not None for card in cards.values())

    def checkin(self, claim: str, files: Optional[Dict[str, Path]] = None) -> int:
        """Makes versions of a check-out's drafts, once the store has the bytes of each. What it lacks is put again, if the file that is named
        for its part, or the one from which it was put, still has these bytes."""
        self.client.settle()  # a draft that is sent again is one of those that are looked at
        drafts = {place: card for place, content in sorted(self.client.all_drafts(claim).items()) if (card := read_card(content))}
        if drafts:
            self._see_to_bytes(claim, drafts, files or {})
        return self.client.checkin(claim)

    def _see_to_bytes(self, claim: str, drafts: Dict[str, Card], files: Dict[str, Path]) -> None:
        """Looks whether the store has the bytes of some drafts, and puts again what it lacks; or refuses and names the parts."""
        store, sources = self.store(), self.client.sources(claim)
        if store is None:
            raise RefusedError(f"The bytes of {', '.join(drafts)} in {claim} are in a store, and the vault names none any more, so nothing was"
                               " checked in. Ask whoever runs it.")
        lacking = set(store.lacking([Kept(card.sha256, card.size, 0) for card in drafts.values()]))
        gone = []
        for place, card in drafts.items():
            paths = [files.get(place), Path(sources[place]) if place in sources else None]
            if Kept(card.sha256, card.size, 0) in lacking and not any(self._put_again(store, card, path) for path in paths if path):
                gone.append(place)
        if gone:
            raise RefusedError(f"{store.address} lacks the bytes of {', '.join(gone)}, drafts in {claim}, and no file here has them any more, so"
                               f" nothing was checked in. Put them again: `vault put {gone[0]} FILE`.")

    def _put_again(self, store: Store, card: Card, path: Path) -> bool:
        """Puts a file's bytes again, if they are still those of a card. Whether they are."""
        with contextlib.suppress(OSError, MisusedError, ChangedNowError):
            if path.is_file() and path.stat().st_size == card.size and read(path).sha256 == card.sha256:
                return store.add(path, self.meter).sha256 == card.sha256
        return False

    def _name_of(self, place: str, claim: str) -> str:
        """The name that a part's file has: the one in its draft, or else in its last version."""
        card = read_card(self.client.latest(place, claim))
        return card.name if card else ""

    def kept_drafts(self, claim: str) -> List[Version]:
        """The drafts that were put from here for a check-out."""
        return [Version(place, 0, content) for place, content in sorted(self.client.kept_drafts(claim).items())]

    def _put_small(self, place: str, file: Path, claim: str, follow: bool) -> Put:
        """Puts a file of few bytes as it is, if the vault names no store."""
        with steady(file, follow) as opened:
            size = os.fstat(opened.fileno()).st_size
            piece = memoryview(bytearray(CONTENT_BYTES + 1))
            content = bytes(piece[:opened.readinto(piece)])
        if len(content) > CONTENT_BYTES:
            raise MisusedError(f"{file} has {size:,} bytes, and the vault itself keeps at most {CONTENT_BYTES:,} of a part. `vault store set"
                               " ADDRESS` names a store for longer files, as file:///srv/vault-store.")
        if read_card(content) is not None:
            raise MisusedError(f"{file} has the form of a card, by which a vault names bytes in its store, and this vault names none. `vault store"
                               " set ADDRESS` names one; then put the file again.")
        self.client.put(place, content, claim, os.path.abspath(file))
        return Put(claim, len(content), sha256_of(content))

    @staticmethod
    def _still_there(store: Store, kept: Kept) -> bool:
        found = store.find(kept.sha256)
        if found is None:
            return False
        try:
            compare(kept.sha256, kept.size, kept.sha256, found.size)
        except WrongBytesError as wrong:
            raise StoreFaultError(f"{store.address} has damaged bytes of {kept.sha256}: {wrong}. Ask whoever runs it before you check in.") from wrong
        return True

    @staticmethod
    @contextlib.contextmanager
    def _beside(path: Path) -> Iterator[IO[bytes]]:
        """A new file beside a path, which is gone afterwards."""
        with contextlib.ExitStack() as open_files:
            try:
                file = open_files.enter_context(new_file(path.parent, ".vault-"))
            except OSError as error:
                raise MisusedError(f"{path} can't be written: {error.strerror}. Name another file.") from error
            try:
                yield file
            except OSError as error:
                raise VaultError(f"{path} can't be written: {error.strerror}. Make room, and try again.") from error


def parts_of_program(client: Client, meter: Meter = no_meter) -> Parts:
    """A designer's files, as the program has them: with a cache of its own."""
    return Parts(client, meter=meter, cache=Cache(cache_folder(), most_bytes(os.environ.get("VAULT_CACHE_BYTES"))))


def fields_of(version: Version) -> Dict[str, Any]:
    """A version for --json."""
    card = version.card
    about: Dict[str, Any] = {"place": version.place, "version": version.number, "bytes": version.size, "sha256": version.sha256}
    if card is None:
        return {**about, "card": False}
    return {**about, "name": card.name, "by": card.by, "at": card.at, "note": card.note or None, "card": True}
