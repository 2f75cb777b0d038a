"""Which store a vault names for the bytes of its parts, and whether this client's designer follows it."""

import contextlib
from typing import Callable, List, Optional

from vault.client import Client
from vault.errors import MisusedError, RefusedError, VaultError
from vault.files.text import quoted, shown
from vault.protocol.grammar import IS_THERE
from vault.store.address import Address, FolderAddress, read_store_address, read_way
from vault.store.base import Store

STORE_PLACE = "/vault/settings/store"


def open_store(address: Address) -> Store:
    """The store at an address. Only its kind is loaded."""
    if isinstance(address, FolderAddress):
        from vault.store.folder_store import FolderStore
        return FolderStore(address)
    from vault.store.rclone_store import RcloneStore
    return RcloneStore(address)


class Setting:
    """The part in which a vault names its store. Anybody can change a part, so an address counts only once the designer confirmed it."""

    def __init__(self, client: Client, opened: Callable[[Address], Store] = open_store):
        self.client, self.opened = client, opened

    def named(self) -> str:
        """The address that the vault names, or nothing."""
        last = self.client.last(STORE_PLACE)
        return last[1].decode("utf-8", "backslashreplace").removesuffix("\n") if last else ""

    def store(self) -> Optional[Store]:
        """The vault's store, or nothing if it names none."""
        named = self.named()
        if not named:
            return None
        confirmed, here = self.client.confirmed_store(named)
        try:
            address = read_way(here) if here and confirmed == named else read_store_address(named)
        except MisusedError as error:
            raise RefusedError(f"What the vault names as its store is none. {error} Then say `vault store set` with it.") from error
        if confirmed != named:
            raise RefusedError(f"The vault keeps its files at {named}, which you have not confirmed. Ask whoever runs the vault whether that is"
                               f" right; then `vault store confirm {quoted(named)}` follows it.")
        return self.opened(address)

    def confirm(self, text: str, here: str = "") -> None:
        """Follows the address that the vault names, from now on, by a way that this machine has to the store, if one is given. A way has to
        lead to a store."""
        named = self.named()
        if not here:
            read_store_address(text)
        if text != named:
            raise MisusedError(f"The vault names {shown(named) or 'no store'}, not {shown(text)}. `vault store` shows it.")
        if here:
            self.opened(read_way(here)).find("0" * 64)
        self.client.confirm_store(named, here)

    def set(self, text: str) -> str:
        """Tries an address, has the vault name it, and follows it. Answers the address that the vault named before."""
        address, before = read_store_address(text), self.named()
        self.opened(address).prepare()
        if before != address.text:
            self._make_places()
            self._check_in((address.text + "\n").encode("utf-8"))
        self.client.confirm_store(address.text)
        return before

    def _make_places(self) -> None:
        names = STORE_PLACE.split("/")
        for count in range(2, len(names) + 1):
            try:
                self.client.make("/".join(names[:count]))
            except RefusedError as refused:
                if refused.code != IS_THERE:
                    raise

    def _check_in(self, content: bytes) -> None:
        """Writes the part by a check-out of its own: one that stands, as from an earlier try, or a new one, which is given up if that is
        refused."""
        items = ["w:" + STORE_PLACE]
        before = [claim for claim, asked in self.client.held(STORE_PLACE).items() if list(asked) == items]
        claim = before[0] if before else self._check_out(items)
        try:
            self.client.put(STORE_PLACE, content, claim)
            self.client.checkin(claim)
        except (MisusedError, RefusedError):
            if not before:
                with contextlib.suppress(VaultError):
                    self.client.abandon(claim)
            raise

    def _check_out(self, items: List[str]) -> str:
        """A check-out that is held."""
        standing = self.client.checkout(items)
        if not standing.held:
            self.client.abandon(standing.claim)
            way = standing.before[0].in_words(self.client.designer) if standing.before else standing.behind
            raise RefusedError(f"{STORE_PLACE} can't be changed now. In the way is {way}. Wait until it is gone, or ask its designer.")
        return standing.claim
