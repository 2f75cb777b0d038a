"""Files that are written whole or not at all, and are on disk before the next step."""

import contextlib
import os
from pathlib import Path
from typing import IO, Iterator

from vault.errors import MisusedError
from vault.files.system import rename_new, replace, sync_folder


class TakenError(MisusedError):
    """A file is there already."""


@contextlib.contextmanager
def new_file(folder: Path, prefix: str, mode: int = 0o666) -> Iterator[IO[bytes]]:
    """A new file under a name of its own in a folder. It is gone afterwards, unless it has another name by then."""
    path = folder / (prefix + os.urandom(16).hex())
    try:
        with open(path, "xb", opener=lambda name, flags: os.open(name, flags, mode)) as file:
            yield file
    finally:
        with contextlib.suppress(OSError):
            os.unlink(path)


def end(file: IO[bytes]) -> Path:
    """Puts a file on disk and closes it."""
    file.flush()
    os.fsync(file.fileno())
    file.close()
    return Path(file.name)


def write_whole(path: Path, content: bytes, mode: int = 0o600) -> None:
    """Writes a file with these rights beside its place, puts it on disk and then into its place. On a disk without a journal the one before may be
    neither there nor whole behind a power cut until that is on disk, too."""
    with new_file(path.parent, f".{path.name}.", 0o600) as file:
        if mode != 0o600:
            os.chmod(file.name, mode)
        file.write(content)
        replace(end(file), path)
    sync_folder(path.parent)


def give_new_name(came: Path, path: Path) -> None:
    """Gives a file a name that nothing has yet."""
    try:
        rename_new(came, path)
    except FileExistsError as error:
        raise TakenError(f"{path} is there already, and is left as it is. Name another file.") from error
