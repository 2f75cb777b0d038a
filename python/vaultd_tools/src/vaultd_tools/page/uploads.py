"""Files that designers put by the page: bytes go from the browser into the store as they come, hashed on the way, and are then drafts."""

from __future__ import annotations

import asyncio
import hashlib
import os
import queue
import tempfile
from collections.abc import Callable, Sequence
from dataclasses import dataclass
from pathlib import Path

from vault.errors import MisusedError, RefusedError, VaultError
from vault.files.names import usable
from vault.files.transfer import no_meter
from vault.protocol.grammar import CONTENT_BYTES, under
from vault.store.base import Kept, Store, StoreFaultError
from vault.store.card import Card, name_word, now, read_card
from vault.store.folder_store import FolderStore
from vault.store.setting import STORE_PLACE
from vaultd_tools.page.acting import Designer
from vaultd_tools.page.folders import ASSEMBLY, There

PIECES = 8
WAIT_SECONDS = 60.0
FULL_SECONDS = 0.004
LEAVES_FREE = 64 << 20


class Broken(VaultError):
    """An upload that didn't come to its end."""


class Coming:
    """Bytes that come from a browser, as a file that a thread reads. Few are kept meanwhile."""

    def __init__(self, most: int) -> None:
        self.pieces: queue.Queue[bytes | None] = queue.Queue(PIECES)
        self.size, self.most, self.over = 0, most, False
        self._rest = memoryview(b"")

    async def feed(self, piece: bytes | None) -> None:
        """Hands a piece on, an empty one at the end, or nothing where the upload was broken off."""
        self.size += len(piece or b"")
        if self.size > self.most:
            piece = None
        while not self.over:
            try:
                self.pieces.put_nowait(piece)
                break
            except queue.Full:
                await asyncio.sleep(FULL_SECONDS)
        if self.size > self.most:
            raise MisusedError(f"The file has more than {self.most:,} bytes, and the page takes no more (--most-bytes). Nothing was put.")

    def readinto(self, piece: memoryview) -> int:
        """Reads some bytes, and none at the end."""
        if not self._rest:
            try:
                came = self.pieces.get(timeout=WAIT_SECONDS)
            except queue.Empty:
                came = None
            if came is None:
                raise Broken("The upload was broken off, and nothing was put.")
            self._rest = memoryview(came)
        length = min(len(piece), len(self._rest))
        piece[:length] = self._rest[:length]
        self._rest = self._rest[length:]
        return length


@dataclass
class Target:
    """Where an upload goes: a check-out of a designer, and a part, or a place in which each file has a part; with what stands there."""

    claim: str
    place: str
    part: bool
    store: Store | None
    there: There


@dataclass(frozen=True)
class File:
    """A file that comes: the folders that it stands in, and its name."""

    folders: Sequence[str]
    name: str


@dataclass(frozen=True)
class Taken:
    """What became of a file: its part, its name there, and whether it is a draft; if not, it is as the part's last version."""

    part: str
    name: str
    draft: bool


def target_of(client: Designer, store: Callable[[], Store | None], claim: str, place: str, folder: bool) -> Target:
    """Looks whether something may be put there at all, so that nobody sends long files in vain."""
    if under(STORE_PLACE, place):
        raise MisusedError("There the vault names its store. Put the file elsewhere.")
    part = not client.is_assembly(place)
    if part:
        claim = client.claim_for(place, claim)
    elif not any(item[0] == "w" and under(place, item[2:]) for item in client.held(place).get(claim, ())):
        raise RefusedError(f"{claim or 'No check-out'} of yours takes in {place} for change. Check it out first.")
    if folder and part:
        raise MisusedError(f"{place} is a part. Put a folder into an assembly or a project.")
    if not folder and not part and place.count("/") < ASSEMBLY:
        raise MisusedError(f"{place} is a project, and parts stand in assemblies alone. Make an assembly in it first, or put a whole folder.")
    return Target(claim, place, part, store(), There.look(client, claim, place, folder))


def check_room(store: Store | None, size: int, spool: Path) -> None:
    """Refuses what a store in a folder has no room for, or what waits here for another one."""
    if store is None:
        return
    folder, whose = (store.folder, "store") if isinstance(store, FolderStore) else (spool, "page")
    spool.mkdir(mode=0o700, parents=True, exist_ok=True)
    disk = os.statvfs(folder)
    if disk.f_bavail * disk.f_frsize < size + LEAVES_FREE:
        raise StoreFaultError(f"The {whose} has no room for that. Ask whoever runs it; nothing was put.")


def received(client: Designer, target: Target, coming: Coming, file: File, spool: Path) -> Taken:
    """Takes one file in, and saves its card as a draft, if it isn't what the part's last version is."""
    try:
        there = target.there
        name = target.part and there.name_of(target.place) or file.name
        kept, content = content_of(client, target.store, coming, name, spool)
        part = target.place if target.part else there.part_for(
            client, target.claim, there.assembly_for(client, target.claim, file.folders), name, target.store is None)
        if there.is_as_it_was(part, kept.sha256 if kept else hashlib.sha256(content).hexdigest(), name):
            return Taken(part, name, False)
        there.check_room(target.claim, part)
        client.put(part, content, target.claim, keep=False)
        there.drafts.add(part)
        if kept is not None and target.store is not None and target.store.find(kept.sha256) is None:
            raise StoreFaultError(f"The bytes of {name} were taken away from the store meanwhile. Put the file again, before you check in.")
        return Taken(part, name, True)
    finally:
        coming.over = True


def content_of(client: Designer, store: Store | None, coming: Coming, name: str, spool: Path) -> tuple[Kept | None, bytes]:
    """What the vault keeps of a file that comes: its card, once its bytes are in the store; without a store the bytes of a small one."""
    if store is None:
        return None, small(coming, name)
    kept = store.take_in(coming, lambda _bytes: None) if isinstance(store, FolderStore) else by_a_copy(store, coming, spool)
    return kept, Card(kept.sha256, kept.size, name_word(name), client.designer, now()).spell()


def small(coming: Coming, name: str) -> bytes:
    """The bytes of a file that the vault itself keeps."""
    content, room = bytearray(), memoryview(bytearray(CONTENT_BYTES + 1))
    while (length := coming.readinto(room)) and len(content) <= CONTENT_BYTES:
        content += room[:length]
    if len(content) > CONTENT_BYTES or read_card(bytes(content)) is not None:
        raise MisusedError(f"{name} can't be put: the vault names no store, and keeps at most {CONTENT_BYTES:,} bytes of a part itself.")
    return bytes(content)


def by_a_copy(store: Store, coming: Coming, spool: Path) -> Kept:
    """Takes bytes into a store that only takes files, by way of one that is gone afterwards."""
    spool.mkdir(mode=0o700, parents=True, exist_ok=True)
    room = memoryview(bytearray(1 << 20))
    with tempfile.NamedTemporaryFile(dir=spool, prefix="upload-") as file:
        while length := coming.readinto(room):
            file.write(room[:length])
        file.flush()
        return store.add(Path(file.name), no_meter)


def file_name(sent: str) -> str:
    """The name of a file that a browser sent, without the folders before it. Refused unless every system can have it."""
    name = sent.replace("\\", "/").rpartition("/")[2]
    if not usable(name):
        raise MisusedError(f"A file can't be called {name!a} everywhere, so it wasn't put: rename it. It has none of" ' / \\ < > : " | ? * and no dot'
                           " or blank at its ends.")
    return name_word(name)
