"""Makes a copy of a damaged vault that opens, and says what it gives up for that. The vault's own files are only read.

What `vaultd inspect` finds damaged is put right in the copy, one finding at a time: a head's fixed bytes are written again, a
frame that can't be read is cut off with all behind it, and a file whose snapshot can't be read is closed, so that the older one
is read. Where the closed file may be the newer one, a person has to choose. Take the last backup instead where it has more.
"""

import argparse
import contextlib
import fcntl
import subprocess
import tempfile
from pathlib import Path
from typing import Dict, Iterator, List, Optional, Tuple

from vaultd_tools.errors import ToolError
from vaultd_tools.files.copies import Report, check, copy_vault, find_vaultd, inspect
from vaultd_tools.output import say_error

HEAD = 24
STEPS = 12
NAME_AT, NAME = 1, b"LLVAULT"
VERSION_AT, VERSION_BYTES = 8, 4
GENERATION_AT, GENERATION_BYTES = 12, 8


def number(data: bytes, at: int, size: int) -> int:
    """The number in this many bytes at an offset; raises IndexError if they aren't there."""
    if at + size > len(data):
        raise IndexError(at)
    return int.from_bytes(data[at:at + size], "big")


def name(data: bytes, at: int) -> Tuple[str, int]:
    """A name and the offset after it."""
    size = number(data, at, 1)
    word = data[at + 1:at + 1 + size]
    if not 1 <= size <= 32 or len(word) < size:
        raise IndexError(at)
    return word.decode("ascii", "replace"), at + 1 + size


def record(data: bytes, at: int) -> Tuple[str, int]:
    """A record in words, and the offset after it; raises IndexError if none is there."""
    kind = number(data, at, 1)
    if kind == 1:
        made, end = name(data, at + 5)
        return f"the place {made} under place {number(data, at + 1, 4)}", end
    if kind == 9:
        made, end = name(data, at + 5)
        return f"the assembly {made} under place {number(data, at + 1, 4)}", end
    claim = f"c{number(data, at + 1, 4)}"
    if kind == 2:
        owner, end = name(data, at + 5)
        return f"the check-out {claim} of {owner}", end + 1 + 5 * number(data, end, 1)
    if kind == 3:
        return f"an extension of {claim}", at + 6 + 5 * number(data, at + 5, 1)
    if kind == 4:
        size = number(data, at + 9, 2)
        return f"a draft of {size:,} bytes for place {number(data, at + 5, 4)} in {claim}", at + 11 + size
    if kind in (5, 6):
        return f"{'the check-in' if kind == 5 else 'the giving up'} of {claim}", at + 5
    if kind == 7:
        receiver, end = name(data, at + 5)
        return f"the giving of {claim} to {receiver}", end
    if kind == 8:
        return f"a note on {claim}", at + 6 + number(data, at + 5, 1)
    raise IndexError(at)


def records(data: bytes) -> Iterator[str]:
    """The records of a frame in words, as far as they can be read."""
    at = 0
    try:
        while at < len(data):
            words, at = record(data, at)
            if at > len(data):
                return
            yield words
    except IndexError:
        return


def cut_off(data: bytes, gate: int) -> List[str]:
    """What is in the frames from a gate on, in words, as far as it can be read."""
    found: List[str] = []
    while gate + 5 <= len(data) and data[gate] == 1:
        size = int.from_bytes(data[gate + 1:gate + 5], "big")
        found += records(data[gate + 5:min(gate + 5 + size, len(data))])
        gate += 5 + size
    return found


def written_version(vaultd: str) -> int:
    """The version of the files that the program writes, found by having it make a vault."""
    with tempfile.TemporaryDirectory(prefix="vault-salvage-") as folder:
        made = Path(folder) / "a"
        done = subprocess.run([vaultd, "create", str(made), str(Path(folder) / "b")], capture_output=True, text=True, check=False)
        if done.returncode != 0:
            raise ToolError(f"no vault could be made in {tempfile.gettempdir()}, by which the files' version is known: {done.stderr.strip()}. Make"
                            " room there, or name another folder by TMPDIR.")
        return number(made.read_bytes(), VERSION_AT, VERSION_BYTES)


@contextlib.contextmanager
def unserved(first: str, second: str) -> Iterator[None]:
    """Keeps servers away from both files meanwhile, where they can be locked. Raises if a server has them."""
    with contextlib.ExitStack() as files:
        for path in (first, second):
            try:
                fcntl.flock(files.enter_context(open(path, "rb")), fcntl.LOCK_SH | fcntl.LOCK_NB)
            except BlockingIOError as error:
                raise ToolError(f"{path} is in use: a server has it. Stop that server, or take a backup of its vault by vaultd-backup.") from error
            except FileNotFoundError as error:
                raise ToolError(f"{path} isn't there. Give the vault's two files.") from error
            except OSError:
                pass
        yield


class Salvage:
    """The copies, what was done to them, and what that gives up."""

    def __init__(self, vaultd: str, copies: Dict[str, Path], take: Optional[str] = None):
        self.vaultd, self.copies, self.take = vaultd, copies, take
        self.said: List[str] = []
        self.closed: List[str] = []
        self.mended: List[Tuple[str, int]] = []

    def run(self) -> Report:
        """Puts right what is found until the copy opens."""
        for _ in range(STEPS):
            report = inspect(self.vaultd, self.copies)
            if report.counts is not None:
                if not self.opens_newer(report):
                    return report
                continue
            damaged = report.damaged()
            if damaged is not None:
                self.put_right(*damaged)
            elif not self.open_one():
                break
        raise ToolError("neither file can be made to open. Take the last backup." + "".join("\n" + line for line in self.said))

    def look_whether_served(self) -> None:
        """Raises if no server would serve the copies, though they open."""
        checked = check(self.vaultd, str(self.copies["a"]), str(self.copies["b"]))
        if not checked.get("served"):
            raise ToolError(f"the copy opens, and no server would serve it: {checked.get('reason')}. See {checked.get('advice')}."
                            + "".join("\n" + line for line in self.said))

    def write(self, file: str, at: int, content: bytes) -> None:
        """Changes some bytes of a copy."""
        with open(self.copies[file], "r+b") as copy:
            copy.seek(at)
            copy.write(content)

    def put_right(self, file: str, at: int) -> None:
        """Puts one finding right."""
        data = self.copies[file].read_bytes()
        if at == NAME_AT and (file, at) not in self.mended:
            self.write_head(file, at, data[at:at + len(NAME)], [NAME])
        elif at == VERSION_AT and (file, at) not in self.mended:
            newest = written_version(self.vaultd)
            versions = [version.to_bytes(VERSION_BYTES, "big") for version in range(newest, 0, -1)]
            self.write_head(file, at, data[at:at + VERSION_BYTES], versions)
        elif at > HEAD:
            lost = cut_off(data, at)
            self.said.append(f"file {file}: gives up {len(data) - at:,} bytes from the frame at {at} on"
                             + (", with " + ", ".join(lost) if lost else ", of which nothing can be read"))
            self.write(file, at, b"\0")
        else:
            self.said.append(f"file {file}: gives up the whole file of {len(data):,} bytes, which is damaged at {at}")
            self.closed.append(file)
            self.write(file, 0, b"\0")

    def write_head(self, file: str, at: int, were: bytes, tries: List[bytes]) -> None:
        """Writes fixed bytes of a head again: of some candidates the first with which the snapshot can be read, else the last."""
        self.mended.append((file, at))
        self.said.append(f"file {file}: the head's bytes at {at} were {were.hex()}, and are written again")
        for content in tries:
            self.write(file, at, content)
            damaged = inspect(self.vaultd, self.copies).damaged()
            if damaged is None or damaged[0] != file or damaged[1] > HEAD or damaged[1] < at:
                return

    def opens_newer(self, report: Report) -> bool:
        """Whether the closed file was opened instead, of a greater generation, as a person chose. Raises if nobody chose."""
        active = report.active() or "a"
        other = "b" if active == "a" else "a"
        found = self.found_in(other) if self.may_be_newer(other, active) else ""
        if not found:
            if self.take not in (None, active):
                raise ToolError(f"the vault can't be read from file {self.take}: file {active} is the newer one that opens. Leave --take out.")
            return False
        if self.take is None:
            first = self.copies[other].read_bytes()[0]
            raise ToolError(f"which file is the vault?\nfile {active}: {report.counts}\nfile {other}, of a greater generation, but closed: {found}\n"
                            f"It is file {active} if a stop or a crash kept file {other} from being finished. It is file {other} if its first byte"
                            f" was damaged: that is {first}, and 0 in a closed file. Choose by --take {active} or --take {other}, with a new folder.")
        self.closed.append(other)
        if self.take == active:
            self.said.append(f"file {other}: is left closed, and gives up what it has: {found}")
            return False
        self.said.append(f"file {other}: its head was closed, and is opened, as was asked for")
        self.write(other, 0, b"\1")
        return True

    def may_be_newer(self, other: str, active: str) -> bool:
        """Whether a file is closed, was not given up, and has a head of a greater generation than the one that is read."""
        data, read = (self.copies[file].read_bytes() for file in (other, active))
        if other in self.closed or len(data) <= HEAD or data[0] == 1 or data[NAME_AT:NAME_AT + len(NAME)] != NAME:
            return False
        return number(data, GENERATION_AT, GENERATION_BYTES) > number(read, GENERATION_AT, GENERATION_BYTES)

    def found_in(self, file: str) -> str:
        """What a closed file has, once it is opened; nothing if its snapshot isn't whole. It stays as it is."""
        first = self.copies[file].read_bytes()[:1]
        self.write(file, 0, b"\1")
        report = inspect(self.vaultd, self.copies)
        self.write(file, 0, first)
        damaged = report.damaged()
        frame = f"a whole snapshot, and is damaged at {damaged[1]}" if damaged and damaged[0] == file and damaged[1] > HEAD else ""
        return report.counts or frame

    def open_one(self) -> bool:
        """If neither file is open: opens the closed file of the greater generation that was not given up."""
        best: Optional[Tuple[int, str]] = None
        for file, copy in sorted(self.copies.items()):
            data = copy.read_bytes()
            if file not in self.closed and len(data) > HEAD and data[NAME_AT:NAME_AT + len(NAME)] == NAME and data[0] != 1:
                best = max(best or (0, ""), (number(data, GENERATION_AT, GENERATION_BYTES), file))
        if best is None:
            return False
        self.said.append(f"file {best[1]}: its head was closed, and is opened; a snapshot that was not finished would be refused")
        self.write(best[1], 0, b"\1")
        return True


def words() -> argparse.Namespace:
    """The command line."""
    parser = argparse.ArgumentParser(prog="vaultd-salvage", description=__doc__, formatter_class=argparse.RawDescriptionHelpFormatter)
    parser.add_argument("first", metavar="A", help="the vault's first file")
    parser.add_argument("second", metavar="B", help="the vault's second file")
    parser.add_argument("folder", metavar="FOLDER", help="a new folder, into which the copies a and b are written")
    parser.add_argument("--take", choices=("a", "b"), help="the file that is the vault, where either may be: the first or the second")
    parser.add_argument("--vaultd", metavar="PROGRAM", help="the program vaultd")
    return parser.parse_args()


def main() -> int:
    """0 if a server would serve the copy, else 1."""
    asked = words()
    try:
        vaultd, folder = find_vaultd(asked.vaultd), Path(asked.folder)
        with unserved(asked.first, asked.second):
            folder.mkdir(mode=0o750, parents=True)
            salvage = Salvage(vaultd, copy_vault(asked.first, asked.second, folder), asked.take)
        report = salvage.run()
        salvage.look_whether_served()
    except FileExistsError:
        return say_error("vaultd-salvage", ToolError(f"{asked.folder} is there already. Name a new folder."))
    except (ToolError, OSError) as error:
        return say_error("vaultd-salvage", error)
    print("\n".join(salvage.said or ["nothing is given up: the copy opened as it was"]))
    print(f"{folder} opens: {report.counts}")
    return 0
