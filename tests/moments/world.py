"""A vault with its store, and two machines of one designer, each with a working folder. It can be put back to where a scene begins."""

import contextlib
import hashlib
import json
import os
import re
import shutil
import subprocess
import tempfile
import time
from dataclasses import dataclass, field
from pathlib import Path
from typing import Callable, Dict, Iterator, List, Optional, Set, Tuple

from moments.disks import Disk
from moments.programs import Machine, Programs
from servers import VAULTD, Server
from vault_files import Vault, vault_of

ASSEMBLY = "/engine/block"
PART, ROD, VALVE = "/engine/block/piston", "/engine/block/rod", "/engine/block/head/valve"
NAMES = {PART: "Kolben 80.SLDPRT", ROD: "Pleuel.SLDPRT", VALVE: "Ventil links.SLDPRT"}
FOLDERS = {PART: "", ROD: "", VALVE: "head/"}
# A part is read in two pieces, so that a save can come between them.
SIZES = {PART: (1 << 20) + 100_000, ROD: 5000, VALVE: 5000}
CARD = re.compile(rb"vault card 1\nsha256 ([0-9a-f]{64})\n")
# How long a file may have the time of an earlier save, in seconds: on most disks, and where times are of whole seconds.
FINE, COARSE = 0.06, 2.1
HASHES: Dict[Tuple[object, ...], str] = {}
# How long the name of a file in a store is.
SHA256 = 64
SETTINGS = "/vault/settings/store"


def content_of(about: str, size: int) -> bytes:
    """Bytes of a size that say what they are."""
    line = (about + "\n").encode()
    return (line * (size // len(line) + 1))[:size]


def sha256_of(content: bytes) -> str:
    """The SHA-256 of bytes."""
    return hashlib.sha256(content).hexdigest()


def hash_of(path: Path) -> str:
    """The hash of a file's bytes. One that looks as it did before isn't read again: a store's looks so in each copy of the store."""
    seen = path.stat()
    look = (path.name, seen.st_dev, seen.st_size, seen.st_mtime_ns, 0 if len(path.name) == SHA256 else seen.st_ctime_ns)
    if look not in HASHES or seen.st_mtime_ns % 1_000_000_000 == 0:
        HASHES[look] = sha256_of(path.read_bytes())
    return HASHES[look]


@dataclass
class Seen:
    """What the vault has: by place the hashes of its versions; by check-out its owner, and by place the hashes of its drafts."""

    versions: Dict[str, List[str]] = field(default_factory=dict)
    drafts: Dict[str, Tuple[str, Dict[str, str]]] = field(default_factory=dict)
    store: bytes = b""
    assemblies: Set[str] = field(default_factory=set)

    def hashes(self) -> Iterator[Tuple[str, str]]:
        """Each version and each draft in words, with its hash."""
        for place, versions in self.versions.items():
            yield from ((f"version {number} of {place}", sha256) for number, sha256 in enumerate(versions, 1))
        for claim, (_, drafts) in self.drafts.items():
            yield from ((f"the draft of {place} in {claim}", sha256) for place, sha256 in drafts.items())


class World:
    """What stands where a scene begins. Of its two folders one is on the disk that may be full."""

    def __init__(self, small: Optional[Disk] = None, above: Optional[str] = None):
        """The disk that may be full; without one it is the one of temporary files, which never is."""
        self.temporary = tempfile.TemporaryDirectory(prefix="vault-test-moments-", dir=above)
        top = Path(self.temporary.name)
        self.base, self.disk, self.kept = top / "base", (small.where if small else top) / "disk", top / "kept"
        self.filler = self.disk.parent / "filler"
        (top / "said").mkdir()
        (top / "said" / "outside").mkdir()
        self.small = small
        # For how long a program stands at a moment: behind that a file's time is no doubt another.
        self.slow = COARSE if has_whole_seconds(self.disk.parent) else FINE
        self.programs, self.outside = Programs(top / "said"), Programs(top / "said" / "outside")
        self.server = Server("--workers", "4", files=(str(self.base / "a"), str(self.base / "b")))
        # Of the desk's disk no more than the working folder is on one that is slow, and can't have the client's own files.
        own = self.disk if small is None or small.takes_all_names else self.base
        self.desk = Machine(self.programs, own / "desk", self.disk / "work", own)
        self.laptop = Machine(self.outside, self.base / "laptop", self.base / "folder", self.base)
        self.store, self.second = own / "store", own / "store_2"

    def close(self) -> None:
        """Ends all."""
        self.server.close()
        self.programs.close()
        self.outside.close()
        self.temporary.cleanup()

    # Where a scene begins.

    def begin(self, name: str, prepare: Callable[["World"], object]) -> None:
        """Puts all back to where a scene begins, with the server running. The first time it is prepared."""
        if not (self.kept / "first").exists():
            self._clear()
            self._make_first()
            self._keep("first")
        if not (self.kept / name).exists():
            self._lay("first")
            self.server.start()
            prepare(self)
            self.server.kill()
            self._keep(name)
        self._lay(name)
        self.server.start()

    def renew(self) -> None:
        """Runs programs by new processes, since a run hung."""
        for programs in (self.programs, self.outside):
            programs.process.kill()
        top = Path(self.temporary.name)
        self.programs, self.outside = Programs(top / "said"), Programs(top / "said" / "outside")
        self.desk.programs, self.laptop.programs = self.programs, self.outside

    def _clear(self) -> None:
        self.server.kill()
        for folder in (self.base, self.disk):
            shutil.rmtree(folder, ignore_errors=True)

    def _keep(self, name: str) -> None:
        self.server.kill()
        for folder in (self.base, self.disk):
            lay_copy(folder, self.kept / name / folder.name)

    def _lay(self, name: str) -> None:
        self._clear()
        for folder in (self.base, self.disk):
            lay_copy(self.kept / name / folder.name, folder)
        for machine in (self.desk, self.laptop):
            set_times(machine.folder)
        if self.small is not None and self.small.loses:
            self.small.sync()

    def _make_first(self) -> None:
        """A store, an assembly with another in it, and three parts with a version each, which both machines have."""
        for folder in (self.base, self.disk, self.desk.home, self.laptop.home):
            folder.mkdir()
        shutil.rmtree(self.server.folder.name, ignore_errors=True)
        os.makedirs(self.server.folder.name)
        subprocess.run([VAULTD, "create", *self.server.files], check=True, stdout=subprocess.DEVNULL)
        self.server.start()
        for machine in (self.desk, self.laptop):
            machine.vault("hello", f"anna@127.0.0.1:{self.server.port}")
        self.desk.vault("store", "set", f"file://{self.store}")
        self.laptop.vault("store", "confirm", f"file://{self.store}")
        for place in ("/engine", ASSEMBLY):
            self.desk.vault("make", place)
        self.desk.vault("nest", "/engine/block/head")
        for place in (PART, ROD, VALVE):
            self.desk.vault("make", place)
        self.new_versions({place: content_of(f"first {place}", SIZES[place]) for place in SIZES})
        self.desk.vault("get", ASSEMBLY, "--to", str(self.desk.folder))

    # What designers do.

    def new_versions(self, contents: Dict[str, bytes], names: Optional[Dict[str, str]] = None) -> None:
        """The laptop makes new versions of parts, by a check-out of its own."""
        claim = self.checkout(self.laptop, *contents)
        for place, content in contents.items():
            self.laptop_puts(place, content, claim, (names or NAMES)[place])
        self.laptop.vault("checkin", claim)

    def checkout(self, machine: Machine, *places: str) -> str:
        """A check-out for change."""
        return machine.vault("checkout", *(f"w:{place}" for place in places)).out.split()[0]

    def laptop_puts(self, place: str, content: bytes, claim: str, name: str = "", status: Optional[int] = 0) -> bool:
        """The laptop puts a file of its own, and keeps it. Whether it did."""
        folder = self.base / "files"
        folder.mkdir(exist_ok=True)
        file = folder / (name or NAMES[place])
        file.write_bytes(content)
        named = ["--name", name] if name and name != NAMES[place] else []
        return self.laptop.vault("put", place, str(file), "--claim", claim, *named, status=status).status == 0

    def file(self, place: str) -> Path:
        """The file of a part at the desk."""
        return self.desk.folder / (FOLDERS[place] + NAMES[place])

    # What there is.

    def seen(self) -> Seen:
        """What the vault has, by its two files."""
        first, second = (Path(file).read_bytes() for file in self.server.files)
        vault = vault_of(first, second)
        paths = [path_of(vault, number) for number in range(len(vault.places))]
        found = Seen({paths[number]: [hash_in(each) for each in contents] for number, contents in vault.versions.items()})
        found.assemblies = {path for number, path in enumerate(paths) if number not in vault.versions}
        named = [contents[-1] for number, contents in vault.versions.items() if paths[number] == SETTINGS and contents]
        found.store = named[0] if named else b""
        for number, claim in vault.line.items():
            found.drafts[f"c{number}"] = (claim.owner.decode(), {paths[place]: hash_in(each) for place, each in claim.drafts.items()})
        return found

    def files(self, folder: Path) -> Dict[str, str]:
        """The files of a folder with their hashes."""
        return {path.relative_to(folder).as_posix(): hash_of(path) for path in sorted(folder.rglob("*"))
                if path.is_file() and not path.is_symlink()} if folder.exists() else {}

    def named_store(self, seen: Seen) -> Path:
        """The folder that the vault names as its store."""
        return Path(seen.store.decode().strip().removeprefix("file://"))

    def stored(self, sha256: str, seen: Seen) -> bool:
        """Whether the store has bytes under their name."""
        path = self.named_store(seen) / "sha256" / sha256[:2] / sha256[2:4] / sha256
        return path.is_file() and hash_of(path) == sha256


def path_of(vault: Vault, number: int) -> str:
    """A place, by its number."""
    above, name = vault.places[number]
    return "/" if number == 0 else path_of(vault, above).rstrip("/") + "/" + name.decode()


def hash_in(content: bytes) -> str:
    """The hash that a card names, or that of the content where it is none."""
    found = CARD.match(content)
    return found[1].decode() if found else "content " + sha256_of(content)


def lay_copy(source: Path, target: Path) -> None:
    """Copies a folder with the times and the modes of its files, as far as the disk keeps them."""
    target.mkdir(parents=True, exist_ok=True)
    for entry in os.scandir(source):
        path = target / entry.name
        if entry.is_dir(follow_symlinks=False):
            lay_copy(Path(entry.path), path)
            continue
        seen = entry.stat()
        shutil.copyfile(entry.path, path)
        with contextlib.suppress(OSError):
            path.chmod(seen.st_mode & 0o777)
        os.utime(path, ns=(seen.st_atime_ns, seen.st_mtime_ns))


def has_whole_seconds(folder: Path) -> bool:
    """Whether a disk keeps times of whole seconds."""
    trial = folder / "trial"
    times = set()
    for _ in range(3):
        trial.write_bytes(b"")
        times.add(trial.stat().st_mtime_ns % 1_000_000_000)
        time.sleep(0.01)
    trial.unlink()
    return times == {0}


def set_times(folder: Path) -> None:
    """Has a working folder that was copied remember the times that the copies have, as if nobody had copied it."""
    kept = folder / ".vault" / "folder.json"
    if not kept.exists():
        return
    remembered = json.loads(kept.read_text("utf-8"))
    for name, entry in remembered["files"].items():
        path = folder / name
        if path.exists() and entry.get("set_at"):
            entry["set_at"] = path.stat().st_ctime_ns
    kept.unlink()
    kept.write_text(json.dumps(remembered, indent=1), "utf-8")
