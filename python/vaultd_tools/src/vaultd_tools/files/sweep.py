"""Takes away from a store what no version and no draft of a vault names, and what is older than some days: in two runs.

What goes is moved aside, into the store's folder `going`, and the vault is asked once more: what it names by then is moved back. What an earlier
run moved aside, and still nobody names, is removed. Until then a client that misses it brings it back, and so does the sweep.

The vault's two files are copied, so the server may run. Every hash that stands in a card anywhere in them counts as named, also that
of a draft that was given up since, and so does every one in a backup, with which the vault might come back. Bytes that a designer wanted again
are young, and stay. A store belongs to one vault; where several share one, name the files of each. Nothing is taken away where the store lacks
most of what the files name, nor, without --yes, where more than half of the store would go, or the store is younger than the files.
Each hash is printed with what became of it. What can't be moved or removed is named, and stays; the others go.
"""

import argparse
import mmap
import os
import re
import tempfile
import time
from dataclasses import dataclass, field
from pathlib import Path
from typing import Callable, Dict, Iterator, List, Optional, Sequence, Set, Tuple

from vault.errors import VaultError
from vault.store.address import read_store_address
from vault.store.base import Kept, Store, StoreAwayError
from vault.store.setting import open_store
from vaultd_tools.errors import ToolError
from vaultd_tools.files.copies import copy_of, find_vaultd
from vaultd_tools.output import say_error

NAMED = re.compile(rb"vault card 1\nsha256 ([0-9a-f]{64})\n")
DAY = 86400
DAYS = 30
# Where vaultd-backup's units put backups, of this vault and of others.
BACKUPS = Path("/var/backups")
# After how many refusals in a row that find the store away the sweep ends.
AWAY = 3
ASIDE, REMOVED, BACK = "set aside", "removed", "brought back"


def named_in(vaultd: str, vaults: Sequence[Tuple[str, str]]) -> Set[str]:
    """The hashes that stand in cards in the two files of each vault, as they are now."""
    found: Set[str] = set()
    for first, second in vaults:
        with tempfile.TemporaryDirectory(prefix="vault-sweep-") as folder:
            for copy in copy_of(vaultd, first, second, Path(folder)).values():
                found |= hashes_in(copy)
    return found


def hashes_in(path: Path) -> Set[str]:
    """The hashes that stand in cards anywhere in a file, whether or not it opens as a vault's."""
    with open(path, "rb") as file:
        if os.fstat(file.fileno()).st_size == 0:
            return set()
        with mmap.mmap(file.fileno(), 0, access=mmap.ACCESS_READ) as content:
            return {found.decode("ascii") for found in NAMED.findall(content)}


def usual_backups() -> List[Path]:
    """The folders of backups that vaultd-backup's units make."""
    return sorted(path for path in BACKUPS.glob("vaultd*") if path.is_dir())


def named_in_backups(folders: Sequence[Path]) -> Set[str]:
    """The hashes that stand in cards in any file beneath some folders. Raises if there is none of these, or if one can't be read."""
    found: Set[str] = set()
    for folder in folders:
        for path in files_beneath(folder):
            try:
                found |= hashes_in(path)
            except FileNotFoundError:
                continue  # a backup that was thinned out meanwhile
            except OSError as error:
                raise unread(path, error) from error
    return found


def files_beneath(folder: Path) -> Iterator[Path]:
    """The files beneath a folder, links left out."""
    def refuse(error: OSError) -> None:
        raise unread(folder, error)

    if not folder.is_dir():
        raise ToolError(f"{folder} is no folder of backups. Name those of this vault by --backups; nothing was taken away.")
    for above, _, names in os.walk(folder, onerror=refuse):
        yield from (path for path in (Path(above) / name for name in sorted(names)) if path.is_file() and not path.is_symlink())


def unread(path: Path, error: OSError) -> ToolError:
    """Why a backup can't be read."""
    return ToolError(f"The backup {path} can't be read: {error.strerror}. What only a backup names would go with the next run, and be missing if it"
                     " is restored: run the sweep as who makes the backups. Nothing was taken away.")


def refuse_another(store: Store, kept: Sequence[Kept], named: Set[str]) -> None:
    """Raises if these are the files of another store's vault: such a store may have some of the vault's bytes, but not most of them."""
    found = len(named.intersection(each.sha256 for each in kept))
    if kept and (not found or found * 2 < len(named)):
        raise ToolError(f"{store.address} has {found} of the {len(named)} files that the vault names, so this is another vault's store, or most is"
                        " lost (`vault store check`). Nothing was taken away.")


def doubt(store: Store, there: Sequence[Kept], goes: Sequence[Kept], written: float) -> None:
    """Raises if most of the store would go, or if something came into it more than a day after the vault's files were last written."""
    ask = ("Were the files of each vault with this store named, and are they those that are served? See what goes by --only-look; --yes takes it"
           " away. Nothing was taken away.")
    if len(goes) * 2 > len(there):
        raise ToolError(f"{len(goes)} of the {len(there)} files in {store.address} would go, more than half. {ask}")
    if max((each.since for each in there), default=0) > written + DAY:
        raise ToolError(f"{store.address} has files that came after the vault was last written. {ask}")


@dataclass
class Swept:
    """What became of bytes, how many refusals there were, and how many leftovers went, if all did."""

    done: Dict[str, List[Kept]] = field(default_factory=lambda: {ASIDE: [], REMOVED: [], BACK: []})
    refused: int = 0
    leftovers: Optional[int] = 0
    away: int = 0

    def each(self, what: str, files: Sequence[Kept], do: Callable[[Kept], bool]) -> None:
        """Does something with files one by one, and says with which it was done. Where the store is away it ends."""
        for kept in files:
            if self.away == AWAY:
                return
            try:
                went, self.away = do(kept), 0
            except (VaultError, OSError) as error:
                went, self.away = False, self.away + 1 if isinstance(error, StoreAwayError) else 0
                self.refused += 1
                say_error("vaultd-sweep", ToolError(f"{kept.sha256} stays: {error}"))
            if went:
                self.done[what].append(kept)
                print(kept.sha256, what, flush=True)

    def remove_leftovers(self, store: Store, before: float) -> None:
        """Removes what killed clients left."""
        try:
            self.leftovers = store.leftovers(before)
        except (VaultError, OSError) as error:
            self.refused, self.leftovers = self.refused + 1, None
            say_error("vaultd-sweep", error)

    def told(self, would: str = "") -> str:
        """What was done, or would be, in numbers."""
        leftovers = "" if would else f"; {'not all' if self.leftovers is None else self.leftovers} that came in and never ended went"
        return (f"{counted(self.done[ASIDE], would)} set aside for the next run, {counted(self.done[REMOVED], would)} removed, and"
                f" {len(self.done[BACK])} brought back{leftovers}")


def counted(files: Sequence[Kept], would: str) -> str:
    """How many files these are, and of how many bytes."""
    size = sum(each.size for each in files)
    return f"1 file of {size:,} bytes {would or 'was'}" if len(files) == 1 else f"{len(files)} files of {size:,} bytes {would or 'were'}"


@dataclass(frozen=True)
class Sweeper:
    """A store, how the vault is asked which hashes it names now, and before when bytes that go were last wanted."""

    store: Store
    named_now: Callable[[], Set[str]]
    before: float

    def stays(self, kept: Kept, named: Set[str]) -> bool:
        """Whether bytes are named, or young."""
        return kept.sha256 in named or kept.since >= self.before

    def sweep(self, only_look: bool, written: Optional[float] = None) -> Swept:
        """Removes what an earlier run set aside and still nobody names, moves aside what nobody names and what is older, and removes what killed
        clients left. What lies aside is listed before the vault is asked: whoever names it later has brought it back. If it is said when the
        vault's files were last written, it does nothing in doubt."""
        aside = list(self.store.going())
        named = self.named_now()
        kept = list(self.store.all())
        refuse_another(self.store, [*kept, *aside], named)
        old = [each for each in kept if not self.stays(each, named)]
        back, gone = [each for each in aside if self.stays(each, named)], [each for each in aside if not self.stays(each, named)]
        if only_look:
            return Swept({ASIDE: old, REMOVED: gone, BACK: back})
        if written is not None:
            doubt(self.store, [*kept, *aside], [*old, *gone], written)
        swept = Swept()
        swept.each(BACK, back, lambda each: self.store.bring_back(each.sha256))
        swept.each(REMOVED, gone, self.store.remove)
        swept.each(ASIDE, old, lambda each: self.store.set_aside(each, self.before))
        self.ask_again(swept)
        swept.remove_leftovers(self.store, self.before)
        return swept

    def ask_again(self, swept: Swept) -> None:
        """Moves back what the vault names by now: whoever put it may have found it in its place, right before it was moved."""
        named = self.named_now() if swept.done[ASIDE] else set()
        wanted = [each for each in swept.done[ASIDE] if each.sha256 in named]
        swept.each(BACK, wanted, lambda each: self.store.bring_back(each.sha256))
        swept.done[ASIDE] = [each for each in swept.done[ASIDE] if each not in swept.done[BACK]]


def words() -> argparse.Namespace:
    """The command line."""
    parser = argparse.ArgumentParser(prog="vaultd-sweep", description=__doc__, formatter_class=argparse.RawDescriptionHelpFormatter)
    parser.add_argument("first", metavar="A", help="the vault's first file")
    parser.add_argument("second", metavar="B", help="the vault's second file")
    parser.add_argument("address", metavar="ADDRESS", help="the store's address, as the vault names it")
    parser.add_argument("--also", nargs=2, action="append", default=[], metavar=("A", "B"), help="the files of another vault with that store")
    parser.add_argument("--backups", type=Path, action="append", metavar="FOLDER",
                        help=f"a folder of backups, or of files that a restore replaced, whose bytes stay ({BACKUPS}/vaultd*, if there is any)")
    parser.add_argument("--days", type=int, default=DAYS, metavar="N", help=f"how old it has to be ({DAYS}), 1 day or more")
    parser.add_argument("--only-look", action="store_true", help="says what it would do, and does nothing")
    parser.add_argument("--yes", action="store_true", help="takes away more than half of the store, too, or from one that is younger than A and B")
    parser.add_argument("--vaultd", metavar="PROGRAM", help="the program vaultd")
    asked = parser.parse_args()
    if asked.days < 1:
        parser.error("--days is 1 or more")
    return asked


def swept_as(asked: argparse.Namespace) -> Swept:
    """Sweeps as was asked for."""
    vaultd, store = find_vaultd(asked.vaultd), open_store(read_store_address(asked.address))
    vaults = [(asked.first, asked.second), *asked.also]
    written = max(os.stat(file).st_mtime for vault in vaults for file in vault)
    spared = named_in_backups(usual_backups() if asked.backups is None else asked.backups)
    sweeper = Sweeper(store, lambda: named_in(vaultd, vaults) | spared, time.time() - asked.days * DAY)
    return sweeper.sweep(asked.only_look, None if asked.yes else written)


def main() -> int:
    """0 if the store was swept, else 1."""
    asked = words()
    try:
        swept = swept_as(asked)
    except (VaultError, OSError) as error:
        return say_error("vaultd-sweep", error)
    for what, files in swept.done.items() if asked.only_look else ():
        for each in files:
            print(each.sha256, what)
    print(swept.told("would be" if asked.only_look else ""))
    return 1 if swept.refused else 0
