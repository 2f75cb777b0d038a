"""The address of a store: a folder, as file:///srv/vault-store, or a remote of the client's own rclone, as rclone:office:vault.

Anybody can change the part in which a vault names its store. So an address is read strictly: it names a place, and can't ask for a
program, an option or a connection of its own.
"""

import re
from pathlib import Path
from typing import NamedTuple, Union
from urllib.parse import unquote, urlsplit

from vault.errors import MisusedError
from vault.files.system import WINDOWS
from vault.files.text import CONTROL
from vault.protocol.grammar import CONTENT_BYTES

REMOTE = re.compile(r"[A-Za-z0-9_][A-Za-z0-9_-]{0,63}")
FORMS = "Write a folder as file:///srv/vault-store, or a remote of your rclone as rclone:NAME:PATH, with a NAME of letters, digits, _ and -."


class FolderAddress(NamedTuple):
    """A folder, on this machine or on a share."""

    text: str
    folder: Path


class RcloneAddress(NamedTuple):
    """A path on a remote that the client's own configuration of rclone names."""

    text: str
    remote: str
    path: str


Address = Union[FolderAddress, RcloneAddress]


def read_store_address(text: str) -> Address:
    """The address that a text is."""
    if CONTROL.search(text) or not text.isprintable() or len(text.encode("utf-8", "replace")) >= CONTENT_BYTES:
        raise MisusedError(f"A store's address is one line of printable text, and {text!a} is none. {FORMS}")
    if text.startswith("rclone:"):
        return rclone_address(text)
    if text.startswith("file:///"):
        return folder_address(text)
    raise MisusedError(f"`{text}` is no store's address. {FORMS}")


def read_way(word: str) -> Address:
    """A machine's own way to a store: the whole path of a folder, as /mnt/store or Z:\\store, or an address."""
    if word.startswith(("rclone:", "file:")):
        return read_store_address(word)
    folder = Path(word)
    if not folder.is_absolute() or CONTROL.search(word) or not word.isprintable() or ".." in folder.parts or len(folder.parts) < 2:
        raise MisusedError(f"{word!a} is no way to a store. Write the whole path of a folder, as /mnt/store or Z:\\store, or an address. {FORMS}")
    return FolderAddress(word, folder)


def folder_address(text: str) -> FolderAddress:
    """A folder by its whole path."""
    parts = urlsplit(text)
    folder = Path(path_in(parts.path))
    plain = not (parts.query or parts.fragment or parts.netloc) and CONTROL.search(unquote(parts.path)) is None
    if not plain or not folder.is_absolute() or ".." in folder.parts or len(folder.parts) < 2:
        raise MisusedError(f"`{text}` names no folder by its whole path. {FORMS}")
    return FolderAddress(text, folder)


def path_in(path: str) -> str:
    """The path on this system that stands in an address."""
    if not WINDOWS:
        return unquote(path)
    from urllib.request import url2pathname  # it loads the library's HTTP client
    return url2pathname(path)


def rclone_address(text: str) -> RcloneAddress:
    """A path on a remote."""
    _, remote, path = (text.split(":", 2) + [""])[:3]
    if not REMOTE.fullmatch(remote) or not path.strip("/") or ".." in path.split("/") or "\\" in path:
        raise MisusedError(f"`{text}` names no path on a remote of your rclone. {FORMS}")
    return RcloneAddress(text, remote, path.rstrip("/"))
