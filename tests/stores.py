"""A vault with a store for its files, for tests."""

import hashlib
from pathlib import Path
from typing import List, Optional

from designers import PART, WithServer

from vault import Client
from vault.store.card import Card, read_card
from vault.store.parts import Parts
from vault.store.base import MARK, MARK_NAME, place_of

ROD = "/engine/block/rod"
NAME = "Kolben 80.SLDPRT"


class WithStore(WithServer):
    """A vault that names a folder as its store, and a file."""

    def setUp(self) -> None:
        super().setUp()
        self.root = Path(self.folder.name)
        self.store = self.root / "store"
        self.parts = Parts(self.anna)
        self.parts.setting.set(self.address())
        self.file = self.root / NAME
        self.fill(b"bore 80")

    def address(self) -> str:
        """The address that the vault names."""
        return f"file://{self.store}"

    def fill(self, about: bytes, size: int = 100_000) -> bytes:
        """Gives the file some bytes, and answers them."""
        content = (about + b"\n") * (size // (len(about) + 1))
        self.file.write_bytes(content)
        return content

    def another(self, designer: str = "ben", client: Optional[Client] = None) -> Parts:
        """Another designer, who follows the vault's store."""
        parts = Parts(client or self.client(designer))
        parts.setting.confirm(self.address())
        return parts

    def as_program(self) -> None:
        """Prepares for runs of the program `vault`, which speaks for anna from here on, at the server itself, and follows the store."""
        self.vault("hello", f"anna@127.0.0.1:{self.server.port}")
        self.vault("store", "confirm", self.address())

    def put(self, place: str = PART) -> str:
        """Checks a part out and puts the file; answers the check-out."""
        claim = self.anna.checkout(["w:" + place]).claim
        self.parts.put(place, self.file, claim)
        return claim

    def put_version(self) -> Card:
        """Makes a version of the file, and answers its card."""
        self.anna.checkin(self.put())
        card = self.parts.get(PART).card
        assert card is not None
        return card

    def check_swept_right_behind(self) -> None:
        """Bytes that were old, and are removed right behind the save of the draft that names them, are put once more, and so is the draft."""
        card = self.put_version()
        claim = self.anna.checkout(["w:" + PART]).claim
        saves = f"save {claim} {PART} ".encode()
        self.cutter.after.append(saves)
        self.cutter.meanwhile = self.path_of(card).unlink
        self.parts.put(PART, self.file, claim)
        # The one that has no reply, which turns out to be done, and the one behind the bytes.
        self.assertEqual((self.entries(), self.sent(saves)), ([card.sha256], 2))

    def path_of(self, card: Card) -> Path:
        """Where a card's bytes lie."""
        return self.store / place_of(card.sha256)

    def names_what_is_there(self, place: str = PART) -> int:
        """Checks that each version of a part has its bytes, and answers how many versions there are."""
        count = 0
        for _, content in self.anna.history(place):
            card = read_card(content)
            assert card is not None
            self.assertEqual(hashlib.sha256(self.path_of(card).read_bytes()).hexdigest(), card.sha256)
            count += 1
        return count

    def entries(self, folder: str = "sha256") -> List[str]:
        """The files in a folder of the store."""
        return sorted(path.name for path in (self.store / folder).rglob("*") if path.is_file())


__all__ = ["MARK", "MARK_NAME", "NAME", "PART", "ROD", "WithStore"]
