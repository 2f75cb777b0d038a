"""Small disks of their own, each in a file that is mounted: of ext4; of ext2, which loses at a power cut whatever wasn't put on disk; of vfat, which
keeps a file's time in steps of two seconds; and, for a kernel without vfat, of an ext4 behind a program that tells times in such steps."""

import contextlib
import os
import shutil
import subprocess
import tempfile
import time
from pathlib import Path
from typing import Dict, Iterator, Optional, Sequence

MEGABYTES = 48
PATH = "/usr/sbin:/sbin:/usr/bin:/bin"
IMAGE, WHERE, CUT = "IMAGE", "WHERE", "CUT"
# How each kind is made, and what it is mounted as.
MAKERS: Dict[str, Sequence[str]] = {
    "ext4": ("mkfs.ext4", "-q", "-m", "0", IMAGE),
    "ext2": ("mkfs.ext2", "-q", "-m", "0", IMAGE),
    "vfat": ("mkfs.vfat", "-F", "32", "-s", "1", IMAGE),
}
# What shows a folder with times in steps of two seconds, and how long it may take to begin.
IN_STEPS, BEGINS = Path(__file__).with_name("two_seconds.py"), 20.0
# e2fsck's statuses where it mended all.
MENDED = (0, 1)


class NoDisk(Exception):
    """Such a disk can't be mounted here; says why."""


class Disk:
    """A small disk."""

    def __init__(self, kind: str, folder: Path):
        self.kind, self.where = kind, folder / "disk"
        self.image, self.copy = folder / "image", folder / "cut"
        self.where.mkdir()
        with open(self.image, "wb") as file:
            file.truncate(MEGABYTES << 20)
        self._run(MAKERS[kind])
        self._mount()

    @property
    def loses(self) -> bool:
        """Whether a power cut loses what wasn't put on disk."""
        return self.kind == "ext2"

    @property
    def takes_all_names(self) -> bool:
        """Whether a file's name may have a colon, as the client's own files have."""
        return self.kind != "vfat"

    def sync(self) -> None:
        """Puts all on disk that is here."""
        self._run(("sync", "--file-system", WHERE))

    def cut(self) -> None:
        """The power is cut: of what was written this is left."""
        self._run(("cp", "--sparse=always", IMAGE, CUT))

    def mend(self) -> None:
        """The power is back: the disk is mended, and mounted again."""
        self.unmount()
        os.replace(self.copy, self.image)
        self._run(("e2fsck", "-y", "-f", IMAGE), MENDED)
        self._mount()

    def unmount(self) -> None:
        """Takes it away."""
        self._run(("umount", "--lazy", WHERE))

    def _mount(self) -> None:
        """Mounts it."""
        self._run(("mount", "-t", self.kind, "-o", "loop", IMAGE, WHERE))

    def _run(self, words: Sequence[str], well: Sequence[int] = (0,)) -> None:
        """Runs a program, or says why it can't be."""
        if shutil.which(words[0], path=PATH) is None:
            raise NoDisk(f"{words[0]} is not here")
        given = [{IMAGE: str(self.image), CUT: str(self.copy), WHERE: str(self.where)}.get(word, word) for word in words]
        done = subprocess.run(given, capture_output=True, text=True, check=False)
        if done.returncode not in well:
            raise NoDisk(f"{' '.join(words)}: {done.returncode} {done.stderr.strip()}")


class DiskInSteps(Disk):
    """A small disk that tells times in steps of two seconds."""

    def __init__(self, folder: Path):
        super().__init__("ext4", folder)
        self.behind, self.where = self.where, folder / "steps"
        self.where.mkdir()
        self.program = subprocess.Popen(["/usr/bin/python3", str(IN_STEPS), str(self.behind), str(self.where)], stdout=subprocess.DEVNULL,
                                        stderr=subprocess.PIPE, text=True)
        until = time.monotonic() + BEGINS
        while not os.path.ismount(self.where):
            if self.program.poll() is not None or time.monotonic() > until:
                self.unmount()
                raise NoDisk(f"{IN_STEPS.name}: {(self.program.stderr.read() if self.program.stderr else '').strip() or 'it does not begin'}")
            time.sleep(0.02)

    def unmount(self) -> None:
        """Takes it away, and what is behind it."""
        if os.path.ismount(self.where):
            super().unmount()
        self.program.terminate()
        self.program.wait()
        self.where = self.behind
        super().unmount()


@contextlib.contextmanager
def small_disk(kind: str, above: Optional[str] = None) -> Iterator[Disk]:
    """A small disk, for as long as it is needed: of a kind of MAKERS, or `two_seconds`."""
    with tempfile.TemporaryDirectory(prefix="vault-test-disk-", dir=above) as folder:
        disk = DiskInSteps(Path(folder)) if kind == IN_STEPS.stem else Disk(kind, Path(folder))
        try:
            yield disk
        finally:
            disk.unmount()
