"""Copies the two files of a vault while its server runs, looks whether a server would serve the copy, and tries again where it wouldn't,
or where the server wrote a snapshot over the copied file meanwhile.

A folder of backups is one vault's: its file `.vault` names that vault's two files. It is made where it is missing, but nothing above it: that
may be a disk that isn't mounted.
"""

import argparse
import os
import re
import secrets
import shutil
import tempfile
import time
from datetime import datetime, timezone
from pathlib import Path
from typing import List, Tuple

from vault.files.system import sync_folder
from vaultd_tools.errors import ToolError
from vaultd_tools.files.copies import check, copy_vault, find_vaultd, has_head_of, inspect
from vaultd_tools.output import say_error

KEPT = re.compile(r"\d{4}-\d\d-\d\dT\d{6}\.\d{6}Z")
OWNER = ".vault"
PARTIAL = ".partial-"
PARTIAL_SECONDS = 86400
IF_DAMAGED = ("\nIf the server is stopped, and these are the vault's files, the vault itself is damaged: keep both files, take the last backup,"
              " and see vaultd-salvage.")


class AgainError(ToolError):
    """A copy is no good, and the next one may be."""


class NotOpenedError(AgainError):
    """A copy doesn't open: it was torn, or the vault itself is damaged."""


def one_try(vaultd: str, first: str, second: str, folder: Path) -> Tuple[Path, str]:
    """Copies once into a new folder beside the backups; answers where that is, and what is kept, or raises."""
    begun = datetime.now(timezone.utc)
    partial = Path(tempfile.mkdtemp(prefix=PARTIAL, dir=str(folder)))
    try:
        copies = copy_vault(first, second, partial)
        report = inspect(vaultd, copies)
        if report.counts is None:
            raise NotOpenedError("the copy does not open:\n" + report.text.rstrip())
        checked = check(vaultd, str(copies["a"]), str(copies["b"]))
        if not checked.get("served"):
            raise AgainError(f"a server wouldn't serve the copy: {checked.get('reason')}. See {checked.get('advice')}.")
        active = report.active() or "a"
        if not has_head_of(first if active == "a" else second, copies[active]):
            raise AgainError(f"file {active} was written anew while it was copied. Try again.")
        kept = folder / begun.strftime("%Y-%m-%dT%H%M%S.%fZ")
        os.rename(partial, kept)
        sync_folder(folder)
    except BaseException:
        shutil.rmtree(partial, ignore_errors=True)
        raise
    told = f"What was told before {begun.strftime('%H:%M:%S')} UTC is in it; of what came later, a first part may be."
    return kept, f"{kept}: {report.counts}\n{told}"


def look_whose(folder: Path, files: bytes) -> bool:
    """Whether a folder is noted as that of these files' vault; raises if it has the backups of another one. An empty note, which an earlier
    version left when the disk was full, is nobody's."""
    try:
        owner = (folder / OWNER).read_bytes()
    except FileNotFoundError:
        return False
    if owner not in (b"", files):
        raise ToolError(f"{folder} has the backups of {os.fsdecode(owner).strip()}. Name another folder for this vault. If it is that"
                        f" vault, and its files have moved, remove {folder / OWNER}.")
    return owner == files


def take_over(folder: Path, files: bytes) -> None:
    """Notes whose backups a folder has, or raises if another vault was quicker. The note gets its name once it is on disk, so a full disk or
    a kill leaves no half of it."""
    if look_whose(folder, files):
        return
    partial = folder / f"{PARTIAL}{secrets.token_hex(8)}"
    try:
        with open(partial, "xb") as file:
            file.write(files)
            file.flush()
            os.fsync(file.fileno())
        try:
            os.link(partial, folder / OWNER)
        except OSError:
            # There is one, or the file system has no links.
            if not look_whose(folder, files):
                os.replace(partial, folder / OWNER)
        sync_folder(folder)
    finally:
        partial.unlink(missing_ok=True)


def whole(folder: Path) -> bool:
    """Whether a folder is a backup that this tool made: by its name, and by what is in it."""
    return KEPT.fullmatch(folder.name) is not None and not folder.is_symlink() and sorted(os.listdir(folder)) == ["a", "b"]


def take_away(folder: Path) -> None:
    """Removes a folder. It loses its name first, so half of it is never taken for a backup."""
    hidden = folder.with_name(f"{PARTIAL}{folder.name.lstrip('.')}")
    if hidden != folder:
        os.rename(folder, hidden)
        sync_folder(folder.parent)
    shutil.rmtree(hidden)


def thin_out(folder: Path, keep: int, new: Path) -> List[Path]:
    """Removes all backups except the newest ones by their names, and what killed runs left a day ago or earlier; answers the backups that
    went. The new one stays even if an earlier one has a later name, as after a clock was wrong."""
    for partial in folder.glob(PARTIAL + "*"):
        if time.time() - partial.lstat().st_mtime <= PARTIAL_SECONDS:
            continue
        if partial.is_dir():
            shutil.rmtree(partial)
        else:
            partial.unlink()
    backups = sorted(path for path in folder.iterdir() if path.is_dir() and whole(path))
    old = [path for path in backups[:-keep] if path != new]
    for path in old:
        take_away(path)
    return old


def how_many(word: str) -> int:
    """How many backups are kept."""
    if not (word.isascii() and word.isdigit() and int(word) > 0):
        raise argparse.ArgumentTypeError("it is a number from 1 on")
    return int(word)


def words() -> argparse.Namespace:
    """The command line."""
    parser = argparse.ArgumentParser(prog="vaultd-backup", description=__doc__)
    parser.add_argument("first", metavar="A", help="the vault's first file")
    parser.add_argument("second", metavar="B", help="the vault's second file")
    parser.add_argument("folder", metavar="FOLDER", help="where backups are kept, each in a folder named after its time")
    parser.add_argument("--tries", type=int, default=5, metavar="N", help="how often a copy that is no good is made again (5)")
    parser.add_argument("--keep", type=how_many, metavar="N", help="take away all backups in FOLDER but the newest N, once a new one is there")
    parser.add_argument("--vaultd", metavar="PROGRAM", help="the program vaultd")
    return parser.parse_args()


def prepare(folder: Path) -> None:
    """Makes the folder of backups in one that is there."""
    try:
        folder.mkdir(mode=0o750, exist_ok=True)
    except (FileNotFoundError, PermissionError) as error:
        raise ToolError(f"no backup was made: {folder} is not there, and can't be made: {error.strerror}. Mount its disk, or make it by"
                        " hand.") from error


def made(vaultd: str, asked: argparse.Namespace, folder: Path) -> Tuple[Path, str]:
    """Makes a backup, in as many tries as were asked for if the next may be better; answers where it is, and what was kept."""
    failed = ToolError("nothing was tried")
    for number in range(max(1, asked.tries)):
        time.sleep(0.2 * number)
        try:
            return one_try(vaultd, asked.first, asked.second, folder)
        except ToolError as error:
            failed = error
            if not isinstance(error, AgainError):
                break
    raise ToolError(f"no backup was made: {failed}{IF_DAMAGED if isinstance(failed, NotOpenedError) else ''}")


def main() -> int:
    """0 if a backup was made, and no more are kept than were asked for, else 1."""
    asked = words()
    try:
        vaultd, folder = find_vaultd(asked.vaultd), Path(asked.folder)
        prepare(folder)
        files = os.fsencode(f"{os.path.realpath(asked.first)}, {os.path.realpath(asked.second)}\n")
        look_whose(folder, files)
        new, said = made(vaultd, asked, folder)
        print(said, flush=True)
        take_over(folder, files)
        for path in thin_out(folder, asked.keep, new) if asked.keep else []:
            print(f"{path} was taken away")
        return 0
    except (ToolError, OSError) as error:
        return say_error("vaultd-backup", error)
