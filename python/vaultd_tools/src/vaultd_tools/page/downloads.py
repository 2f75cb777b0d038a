"""What designers take away by the page: a version of a part, or all that is in an assembly as a zip, in pieces and never as a whole."""

from __future__ import annotations

import hashlib
import tempfile
from collections.abc import Iterator
from dataclasses import dataclass
from pathlib import Path
from typing import IO
from urllib.parse import quote

from zipstream import ZipStream  # type: ignore[import]

from vault.errors import RefusedError
from vault.files.names import choose_name, folded
from vault.files.transfer import PIECE, Own, no_meter
from vault.store.base import Store, StoreFaultError, compare, place_of
from vault.store.card import Card, read_card
from vault.store.folder_store import FolderStore
from vault.store.naming import Surveyed, survey
from vaultd_tools.page.acting import Acting, Designer

# From here on a zip has longer fields, so its size isn't the sum of an empty one's and the files' any more.
LARGE = (1 << 31) - 1


@dataclass(frozen=True)
class Download:
    """Something to be sent: its name, how many bytes it has if that is known, and the bytes in pieces."""

    name: str
    size: int | None
    pieces: Iterator[bytes]

    @property
    def disposition(self) -> str:
        """The header by which a browser keeps it under its name, and never shows it."""
        plain = "".join(letter if letter.isascii() and (letter.isalnum() or letter in "._-") else "_" for letter in self.name)
        return f"attachment; filename=\"{plain}\"; filename*=UTF-8''{quote(self.name, safe='')}"


def version_of(acting: Acting, client: Designer, place: str, number: int | None) -> Download:
    """A version of a part, the last one if none is named."""
    _, content = client.version(place, number)
    card = read_card(content)
    own = place.rpartition("/")[2]
    if card is None:
        return Download(own, len(content), iter([content] if content else []))
    return Download(choose_name(card.name, own, ()), card.size, pieces_of(acting.parts(client).store(), card, acting.spool))


def zip_of(acting: Acting, client: Designer, place: str) -> Download:
    """All parts that have a version, in the place or beneath it, each in its last one, in folders by the real names of projects and assemblies."""
    surveyed = survey(client, place)
    wanted = [(part, number) for part, number in surveyed.numbers.items() if number]
    if not wanted:
        raise RefusedError(f"{place} has nothing to download yet: no part in it has a version.")
    store, archive, empty, sizes = acting.parts(client).store(), ZipStream(), ZipStream(), 0
    taken: dict[str, set[str]] = {}
    folders = folders_of(place, surveyed, taken)
    for (part, _), content in zip(wanted, client.contents(wanted)):
        card, folder, own = read_card(content), folders.get(part.rpartition("/")[0], ""), part.rpartition("/")[2]
        inside = folder + name_in(folder, card.name if card else own, own, taken)
        archive.add(pieces_of(store, card, acting.spool) if card else iter([content]), inside)
        empty.add(iter([b""]), inside)
        sizes += card.size if card else len(content)
    size = sizes + sum(map(len, empty))
    named = surveyed.names.get(place) or place.rpartition("/")[2] or "vault"
    return Download(named + ".zip", size if size < LARGE else None, iter(archive))


def folders_of(place: str, surveyed: Surveyed, taken: dict[str, set[str]]) -> dict[str, str]:
    """The folders of assemblies in a zip, each by its real name."""
    folders = {place: ""}
    for each in sorted(surveyed.assemblies, key=lambda path: path.count("/")):
        above, _, own = each.rpartition("/")
        if each not in folders:
            inside = folders.get(above or "/", "")
            folders[each] = f"{inside}{name_in(inside, surveyed.names.get(each, own), own, taken)}/"
    return folders


def name_in(folder: str, wanted: str, own: str, taken: dict[str, set[str]]) -> str:
    """A name that a folder in a zip doesn't have yet, also where capitals don't count."""
    name = choose_name(wanted, own, taken.setdefault(folder, set()))
    taken[folder].add(folded(name))
    return name


def pieces_of(store: Store | None, card: Card, spool: Path) -> Iterator[bytes]:
    """The bytes that a card names. The last piece comes only once all are known to be those."""
    if store is None:
        raise StoreFaultError("The bytes are in a store, and the vault names none any more. Ask whoever runs it.")
    digest, size, last = hashlib.sha256(), 0, b""
    with opened(store, card, spool) as file:
        while piece := file.read(PIECE):
            digest.update(piece)
            size += len(piece)
            if last:
                yield last
            last = piece
    compare(card.sha256, card.size, digest.hexdigest(), size)
    if last:
        yield last


def opened(store: Store, card: Card, spool: Path) -> IO[bytes]:
    """A file with the bytes: the store's own, or one that is gone once it is closed."""
    if isinstance(store, FolderStore):
        try:
            return open(store.folder / place_of(card.sha256), "rb", buffering=0)
        except OSError as error:
            raise StoreFaultError(f"The bytes can't be read in the store: {error.strerror}. Ask whoever runs it for {card.sha256}.") from error
    spool.mkdir(mode=0o700, parents=True, exist_ok=True)
    file = tempfile.TemporaryFile(dir=spool, prefix="download-")
    store.fetch(card.sha256, card.size, Own(file, card.name), no_meter)
    file.seek(0)
    return file
