"""Which working folder a path is, and at which server."""

import os
from pathlib import Path
from typing import TYPE_CHECKING

from vault.client import Client
from vault.errors import MisusedError
from vault.working.folder import Folder, read_folder
from vault.working.remembered import OWN

if TYPE_CHECKING:
    from vault.store.parts import Parts


def server_of(client: Client) -> str:
    """The server that files come from, or a vault's servers with commas between."""
    return ",".join(f"{host}:{port}" for host, port in client.servers)


def is_at(folder: Folder, client: Client) -> bool:
    """Whether a working folder was got from the vault at which a designer is."""
    return bool(set(folder.server.split(",")) & set(server_of(client).split(",")))


def in_address_words(servers: str) -> str:
    """The same as a designer writes it: an ssh address without a port has none."""
    return ",".join(server.removesuffix(":0") for server in servers.split(","))


def folder_for(parts: "Parts", place: str, path: Path) -> Folder:
    """The working folder of an assembly at a path. It is made if nothing is there."""
    path = Path(os.path.abspath(path))
    folder = read_folder(path)
    if folder is not None:
        if folder.place != place:
            raise MisusedError(f"{path} is a working folder of {folder.place}. Name another folder for {place}.")
        return folder
    try:
        path.mkdir(exist_ok=True)
        if any(each.name != OWN for each in path.iterdir()):
            raise MisusedError(f"{path} has files, and is no working folder. Name a new folder, or an empty one.")
    except OSError as error:
        raise MisusedError(f"The folder {path} can't be made: {error.strerror}.") from error
    return Folder(path, place, server_of(parts.client))
