"""Which files a designer may write: in each working folder on this machine those that a check-out of that designer covers for change are
writable, and others are read-only, so that a program says at its first save that a part isn't checked out."""

import contextlib
from pathlib import Path
from typing import Dict, List, Sequence

from vault.client import Client
from vault.errors import MisusedError, VaultError
from vault.protocol.grammar import under
from vault.working.folder import Folder, read_folder
from vault.working.opening import is_at


def settle_folders(client: Client, folders: Sequence[str]) -> None:
    """Settles the modes of files in some working folders that this designer got on this machine. One that is away, or in which another `vault`
    works, settles them by its next `vault status`."""
    with contextlib.suppress(VaultError):
        claims = client.held() if folders else {}
        for path in folders:
            with contextlib.suppress(VaultError, OSError):
                folder = read_folder(Path(path))
                if folder is not None and is_at(folder, client):
                    with folder.locked():
                        if settle_modes(folder, claims):
                            folder.save()


def settle_modes(folder: Folder, claims: Dict[str, Sequence[str]]) -> bool:
    """Makes files writable that a check-out of this designer covers for change, that are new, or all in a folder that wants that; others that
    aren't changed are read-only. Whether that changed any."""
    changed = False
    for name, entry in folder.files.items():
        with contextlib.suppress(OSError, MisusedError):
            writable = folder.writable or not entry.version or bool(covering(claims, entry.place))
            changed = folder.set_writable(name, writable) or changed
    return changed


def covering(claims: Dict[str, Sequence[str]], place: str) -> List[str]:
    """The check-outs that cover a place for change."""
    return [name for name, items in claims.items() if any(item[0] == "w" and under(place, item[2:]) for item in items)]
