"""Files in a store where its disk is really full, read-only or slow, where libraries are missing, and what is on disk before a draft is saved."""

import os
import pty
import resource
import shutil
import subprocess
import sys
import test_rclone
import time
import unittest
from pathlib import Path
from servers import PACKAGES, program
from stores import NAME, PART, WithStore
from typing import Any, Callable, Dict, List, Sequence
from unittest import mock

from vault.protocol.connection import Connection
from vault.store.base import StoreAwayError
from vault.store.parts import Parts
from vault.working import Working
from vault.working.opening import folder_for

OPTIONAL = ("filelock", "platformdirs", "rich", "rich.table", "rich.console", "rich.text", "tqdm")


def can_mount() -> bool:
    """Whether this process may mount something that only it sees."""
    tried = subprocess.run(["unshare", "-m", "mount", "-t", "tmpfs", "tmpfs", "/mnt"], capture_output=True, check=False) if shutil.which(
        "unshare") else None
    return tried is not None and tried.returncode == 0


class Disk(WithStore):
    """A disk that is really full, and one that can't be written."""

    def mounted(self, mount: str, *words: str, status: int = 0) -> str:
        """Runs the program where something is mounted, and answers what it says."""
        done = subprocess.run(["unshare", "-m", "sh", "-c", f'{mount} && exec "$@"', "sh", *program("vault"), *words], env=self.environment(),
                              capture_output=True, text=True, timeout=60, check=False)
        self.assertEqual(done.returncode, status, done)
        return done.stdout or done.stderr

    @unittest.skipUnless(can_mount(), "may not mount anything")
    def test_full(self) -> None:
        """A put is refused, the part that was written is removed, and nothing is saved; the next put goes through."""
        self.as_program()
        self.fill(b"bore 80", 300_000)
        claim = self.anna.checkout(["w:" + PART]).claim
        said = self.mounted(f"mount -t tmpfs -o size=200k tmpfs '{self.store}/incoming'", "put", PART, str(self.file), status=1)
        self.assertIn("No space left on device. Make room there, and try again; no version was made of it.", said)
        self.assertEqual((self.anna.drafts(claim), self.entries(), self.entries("incoming")), ([], [], []))
        self.vault("put", PART, str(self.file))
        self.assertEqual((self.anna.checkin(claim), self.names_what_is_there()), (1, 1))

    @unittest.skipUnless(can_mount(), "may not mount anything")
    def test_read_only(self) -> None:
        """What is there can be got, and a put is refused, of other bytes and of the same."""
        self.as_program()
        content = self.fill(b"bore 80")
        self.put_version()
        claim = self.anna.checkout(["w:" + PART]).claim
        mount = f"mount --bind '{self.store}' '{self.store}' && mount -o remount,bind,ro '{self.store}'"
        back = self.root / "back"
        self.mounted(mount, "get", PART, "--to", str(back))
        self.assertEqual(back.read_bytes(), content)
        for about in (b"bore 80", b"bore 81"):
            self.fill(about)
            said = self.mounted(mount, "put", PART, str(self.file), status=1)
            self.assertIn("Read-only file system. Ask whoever runs it for the right to write and to read there; no version was made of it.", said)
        self.assertEqual(self.anna.drafts(claim), [])

    def test_slow(self) -> None:
        """While the bytes of a long file take longer than the server bears a silent client, nobody is connected; for a short one a connection that
        the server ended is made anew. The put goes through."""
        self.server.kill()
        self.server.words = ("--workers", "1", "--idle", "1")
        self.server.start()
        for number, (most, connected) in enumerate(((0, False), (1 << 26, True))):
            found = []

            def slow(_folder: Path) -> None:
                found.append(self.anna.link.connection is not None)
                time.sleep(0.8)

            self.fill(b"bore %d" % (90 + number))
            claim = self.anna.checkout(["w:" + PART]).claim
            with mock.patch("vault.store.folder_store.sync_folder", slow), mock.patch("vault.store.parts.LONG_BYTES", most):
                self.parts.put(PART, self.file, claim)
            self.assertEqual(set(found), {connected})
            self.assertEqual((self.anna.checkin(claim), self.names_what_is_there()), (1, number + 1))


class Order(WithStore):
    """What is done before what."""

    def test_on_disk_before_it_is_saved(self) -> None:
        """The bytes are put on disk, then get their name, whose folders are put on disk, and only then the draft is saved."""
        done: List[str] = []

        def told(what: Callable[[Any], object], real: Callable[..., Any]) -> Callable[..., Any]:
            def call(*words: Any, **more: Any) -> Any:
                done.append(str(what(words)))
                return real(*words, **more)

            return call

        def folder_of(descriptor: int) -> str:
            path = Path(os.readlink(f"/proc/self/fd/{descriptor}"))
            if path == self.store:
                return "store"
            return str(path.relative_to(self.store).parts[0]) if self.store in path.parents else ""

        claim = self.anna.checkout(["w:" + PART]).claim
        with mock.patch("os.fsync", told(lambda words: "sync " + folder_of(words[0]), os.fsync)), \
                mock.patch("os.replace", told(lambda words: "rename" if self.store in Path(words[1]).parents else "", os.replace)), \
                mock.patch.object(Connection, "ask_all", told(lambda words: words[1][0].partition(" ")[0], Connection.ask_all)):
            self.parts.put(PART, self.file, claim)
        steps = [step for step in done if step.startswith("sync ") and step != "sync " or step == "rename"]
        saved = max(number for number, step in enumerate(done) if step == "save")
        self.assertEqual(steps[:2], ["sync incoming", "rename"])
        self.assertEqual(steps[2:6], ["sync sha256"] * 3 + ["sync store"])
        self.assertLess(max(number for number, step in enumerate(done[:saved]) if step == "sync store"), saved)
        self.assertNotIn("rename", [step for step in done[saved:] if step])


class Changed(WithStore):
    """A file of a working folder that is changed while its new version is on its way."""

    def test_left(self) -> None:
        self.put_version()
        work = self.root / "work"
        folder = folder_for(self.parts, "/engine/block", work)
        with folder.locked():
            Working(self.parts, folder).get()
        self.fill(b"bore 81")
        self.put_version()
        path = work / NAME

        real = self.parts.write

        def write(*words: Any) -> None:
            """Writes the version, while its file is changed."""
            real(*words)
            path.write_bytes(b"mine")

        folder = folder_for(self.parts, "/engine/block", work)
        with folder.locked(), mock.patch.object(self.parts, "write", write):
            left = Working(self.parts, folder).get().left
        self.assertIn("was changed right now, so it stays", left[0][1])
        self.assertEqual(path.read_bytes(), b"mine")
        folder = folder_for(self.parts, "/engine/block", work)
        with folder.locked():
            self.assertIn("was changed here", Working(self.parts, folder).get().left[0][1])
        self.assertEqual((path.read_bytes(), sorted(os.listdir(work / ".vault"))), (b"mine", ["folder.json", "lock"]))


class Shown(WithStore):
    """`vault store` shows the address that the vault names, and the one that is followed."""

    def test_both(self) -> None:
        self.as_program()
        other = self.root / "other"
        Parts(self.client("ben")).setting.set(f"file://{other}")
        said = self.as_json("store")
        self.assertEqual((said["store"], said["confirmed"]), (f"file://{other}", self.address()))
        self.assertIn(f"The vault keeps its files at file://{other}, and you have confirmed {self.address()}. Ask whoever runs", said["sentence"])
        self.anna.checkout(["w:" + PART])
        self.assertIn(f"vault store confirm file://{other}".encode(), self.vault("put", PART, str(self.file), status=1))
        self.assertEqual(list(other.joinpath("sha256").glob("*")), [])


class Libraries(WithStore):
    """Without filelock, platformdirs, rich and tqdm all works; only pathspec is needed, where something is ignored."""

    def without(self, missing: Sequence[str], *words: str, seconds: float = 1.0) -> "subprocess.Popen[bytes]":
        """The program, on a terminal without these libraries; what takes longer than this many seconds is shown."""
        code = (f"import sys; sys.modules.update(dict.fromkeys({tuple(missing)!r})); import vault.cli.output;"
                f" vault.cli.output.METER_SECONDS = {seconds}; from vault.cli.program import main; raise SystemExit(main())")
        path = os.pathsep.join(str(package / "src") for package in PACKAGES)
        environment: Dict[str, str] = {**self.environment(), "PYTHONPATH": path, "TERM": "xterm"}
        self.terminal, other = pty.openpty()
        program = subprocess.Popen([sys.executable, "-c", code, *words], stdin=other, stdout=other, stderr=other, env=environment)
        os.close(other)
        return program

    def said(self, *words: str, seconds: float = 1.0) -> str:
        """What it says without all that may be missing."""
        done, said = self.without(OPTIONAL, *words, seconds=seconds), b""
        try:
            while more := os.read(self.terminal, 65536):
                said += more
        except OSError:
            pass
        os.close(self.terminal)
        self.assertEqual(done.wait(60), 0, said)
        return said.decode()

    def test_missing(self) -> None:
        """Progress is shown in sentences, and a history in lines. The client's files are where they were."""
        self.as_program()
        self.fill(b"bore 80", 5_000_000)
        claim = self.anna.checkout(["w:" + PART]).claim
        self.assertIn(f"{NAME}: ", self.said("put", PART, str(self.file), "--claim", claim, seconds=0.0))
        self.said("checkin", claim, "-m", "larger bore")
        self.assertRegex(self.said("history", PART), r"version 1: 5,000,000 bytes.*: larger bore")
        self.assertIn("Nobody has anything at /", self.said("who"))
        self.said("get", PART, "--to", str(self.root / "back"))
        self.assertEqual((self.root / "back").read_bytes(), self.file.read_bytes())

    def test_the_one_that_is_needed(self) -> None:
        self.as_program()
        done = self.without(("pathspec",), "import", str(self.root), "/motor")
        self.assertEqual(done.wait(60), 1)
        self.assertIn(b"install python3-pathspec", os.read(self.terminal, 65536))
        os.close(self.terminal)


class Remotes:
    """The same for remotes."""

    class Disk(test_rclone.Shared.OverRclone):
        """Only tests of a full and of a read-only remote."""

        def test_full(self) -> None:
            """The file server can't write longer files, as if its disk were full."""
            self.fill(b"bore 80", 300_000)
            self.remote.stop()
            self.limited(200_000)
            self.assertIn("rclone says", self.refused())
            self.remote.stop()
            self.remote.start()
            self.assertEqual(self.entries(), [])
            self.put_version()
            self.assertEqual(self.names_what_is_there(), 1)

        def limited(self, size: int) -> None:
            """Starts the remote with a limit of how long its files may grow."""
            before = resource.getrlimit(resource.RLIMIT_FSIZE)
            resource.setrlimit(resource.RLIMIT_FSIZE, (size, before[1]))
            try:
                self.remote.start()
            finally:
                resource.setrlimit(resource.RLIMIT_FSIZE, before)

        def test_read_only(self) -> None:
            """What is there can be got, and a put is refused."""
            content = self.fill(b"bore 80")
            self.put_version()
            self.remote.stop()
            self.remote.start("--read-only")
            self.parts.write_new(self.parts.get(PART), self.root / "back")
            self.assertEqual((self.root / "back").read_bytes(), content)
            self.fill(b"bore 81")
            claim = self.anna.checkout(["w:" + PART]).claim
            with self.assertRaises(StoreAwayError):
                self.parts.put(PART, self.file, claim)
            self.assertEqual(self.anna.drafts(claim), [])


def only(name: str, protocol: str) -> type:
    """The tests of a full and of a read-only remote over a protocol; the others are in test_rclone."""
    inherited = {each: None for each in dir(test_rclone.Shared.OverRclone) if each.startswith("test_")}
    return type(name, (Remotes.Disk,), {**inherited, "test_full": Remotes.Disk.test_full, "test_read_only": Remotes.Disk.test_read_only,
                                        "protocol": protocol, "__module__": __name__})


WebDav = only("WebDav", "webdav")
Sftp = only("Sftp", "sftp")


if __name__ == "__main__":
    unittest.main()
