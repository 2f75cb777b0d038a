"""What is kept around a store: the check of it, the sweep, and the client's cache."""

import contextlib
import errno
import hashlib
import io
import os
import re
import shutil
import stat
import subprocess
import tempfile
import time
import unittest
from pathlib import Path
from typing import Any, Dict, Iterator, Optional, Set
from unittest import mock

from page_server import until
from servers import TOP, VAULTD, Server, program
from stopping import Run, Stopper
from stores import PART, ROD, WithStore

from vault import MisusedError, VaultError
from vault.protocol.connection import Connection
from vault.store.base import Kept as InStore
from vault.store.cache import MAX_BYTES, Cache, most_bytes
from vault.store.card import Card
from vault.store.checking import check_store
from vault.store.parts import Parts
from vaultd_tools.errors import ToolError
from vaultd_tools.files.sweep import ASIDE, BACK, REMOVED, Sweeper, hashes_in, named_in_backups, usual_backups

OLD = 40 * 86400
YOUNG = 20 * 86400


class WithFiles(WithStore):
    """A vault with two versions, whose bytes are old."""

    def setUp(self) -> None:
        super().setUp()
        self.first = self.put_version()
        self.fill(b"bore 81")
        self.second = self.put_version()
        for card in (self.first, self.second):
            self.age(card)

    def age(self, card: Card, seconds: int = OLD) -> None:
        """Gives bytes an age."""
        os.utime(self.path_of(card), (time.time() - seconds,) * 2)

    def loose(self, about: bytes, seconds: int = OLD) -> str:
        """Puts bytes of this age into the store that nobody names, and answers their name."""
        self.fill(about)
        store = self.parts.store()
        assert store is not None
        kept = store.add(self.file, self.parts.meter)
        self.age(self.first._replace(sha256=kept.sha256), seconds)
        return kept.sha256


class Check(WithFiles):
    """Whether each version has its bytes."""

    def test_whole(self) -> None:
        for read in (False, True):
            found = check_store(self.parts, read)
            self.assertEqual((found.versions, found.files, found.bad), (3, 2, []))

    def test_missing_cut_and_changed(self) -> None:
        path = self.path_of(self.second)
        path.chmod(0o600)
        whole = path.read_bytes()
        for bad, reason in ((None, "nothing of that name"), (whole[:-1], "have to be"), (b"x" + whole[1:], "SHA-256")):
            path.unlink(missing_ok=True)
            if bad is not None:
                path.write_bytes(bad)
            found = check_store(self.parts, True)
            self.assertEqual([version.number for version, _ in found.bad], [2])
            self.assertIn(reason, found.bad[0][1])
            self.assertEqual(len(check_store(self.parts, False).bad), int("SHA" not in reason))

    def test_program(self) -> None:
        self.as_program()
        self.assertEqual(self.as_json("store", "check")["files"], 2)
        self.assertIn(b"with the right hash; 1 version is no file.", self.vault("store", "check", "--read"))
        self.path_of(self.first).unlink()
        said = self.vault("store", "check", status=1).decode()
        self.assertIn(f"version 1 of {PART}", said)
        self.assertIn(self.first.sha256, said)
        bad = self.as_json("store", "check", status=1)["bad"]
        self.assertEqual([(each["place"], each["version"], each["sha256"]) for each in bad], [(PART, 1, self.first.sha256)])


class Sweep(WithFiles):
    """What nobody names and is old is removed, and nothing else."""

    def sweep(self, *words: str, status: int = 0) -> str:
        """Runs the sweep, and answers what it said."""
        done = subprocess.run([*program("vaultd-sweep"), "--vaultd", VAULTD, *self.server.files, self.address(), *words], capture_output=True,
                              text=True, timeout=60, check=False)
        self.assertEqual(done.returncode, status, done.stdout + done.stderr)
        return done.stdout + done.stderr

    def test_swept(self) -> None:
        """Old bytes that nobody names go, and what was never finished; versions, drafts of anybody and young bytes stay."""
        old = self.loose(b"old")
        size, young = self.file.stat().st_size, self.loose(b"young", YOUNG)
        self.fill(b"draft of ben")
        ben = self.another()
        self.anna.make(ROD)
        put = ben.put(ROD, self.file, ben.client.checkout(["w:" + ROD]).claim)
        self.age(self.first._replace(sha256=put.sha256))
        left, other = self.store / "incoming" / ("ab" * 16), self.store / "incoming" / "other"
        other.write_bytes(b"x")
        os.utime(other, (1000, 1000))
        left.write_bytes(b"x")
        os.utime(left, (1000, 1000))
        self.assertEqual(self.sweep("--only-look").splitlines(), [
            f"{old} set aside", f"1 file of {size:,} bytes would be set aside for the next run, 0 files of 0 bytes would be removed, and 0 brought"
            " back"])
        self.assertIn(old, self.entries())
        stay = sorted([self.first.sha256, self.second.sha256, put.sha256, young])
        self.assertEqual(self.sweep().splitlines(), [
            f"{old} set aside",
            f"1 file of {size:,} bytes was set aside for the next run, 0 files of 0 bytes were removed, and 0 brought back; 1 that"
            " came in and never ended went"])
        self.assertEqual((self.entries(), self.entries("going")), (stay, [old]))
        self.assertEqual((left.exists(), other.exists()), (False, True))
        self.assertIn(f"{old} removed\n0 files of 0 bytes would be set aside for the next run, 1 file", self.sweep("--only-look"))
        self.assertIn(f"{old} removed\n0 files of 0 bytes were set aside for the next run, 1 file", self.sweep())
        self.assertEqual((self.entries(), self.entries("going")), (stay, []))
        self.assertIn("0 files of 0 bytes were removed", self.sweep())
        self.assertEqual(self.sweep("--days", "15").splitlines()[0], f"{young} set aside")

    def test_beside_a_server_with_much_to_write(self) -> None:
        """Versions that a snapshot has, and drafts after it, are all found."""
        claim = self.anna.checkout(["w:" + PART]).claim
        lines = [f"save {claim} {PART} {number:04x}{'00' * 1022}" for number in range(1100)]
        for first in range(0, len(lines), 50):
            self.anna.link.read_all(lines[first:first + 50])
        self.anna.abandon(claim)
        old = self.loose(b"old")
        self.assertEqual(self.sweep().splitlines()[0], f"{old} set aside")
        self.assertEqual(self.names_what_is_there(), 2)

    def test_wanted_again_in_between(self) -> None:
        """A designer puts bytes again that were about to go: they are young then, and stay."""
        name, store, parts = self.loose(b"old"), self.parts.store(), self.parts
        assert store is not None
        claim = self.anna.checkout(["w:" + PART]).claim
        listed = store.all

        def wanted_again() -> Iterator[InStore]:
            """The list, after which the bytes are put."""
            found = list(listed())
            parts.put(PART, self.file, claim)
            return iter(found)

        with mock.patch.object(store, "all", wanted_again), contextlib.redirect_stdout(io.StringIO()):
            swept = Sweeper(store, lambda: {self.first.sha256}, time.time() - 30 * 86400).sweep(False)
        self.assertEqual([each.sha256 for each in swept.done[ASIDE]], [self.second.sha256])
        self.assertEqual(self.anna.checkin(claim), 1)
        self.assertIn(name, self.entries())

    def test_what_cannot_be_removed(self) -> None:
        """A file that can't be removed is named, and stays; the others go, and are listed."""
        names = sorted(self.loose(b"loose %d" % number) for number in range(3))
        place = self.path_of(self.first._replace(sha256=names[1]))
        place.unlink()
        place.mkdir()
        left = [self.store / "incoming" / (name * 16) for name in ("ab", "cd", "ef")]
        left[1].mkdir()
        for path in (left[0], left[2]):
            path.touch()
        for path in (place, *left):
            os.utime(path, (time.time() - OLD,) * 2)
        stays = [f"vaultd-sweep: {what} can't be removed: Is a directory. Look at the owner and the mode of its folder."
                 for what in (f"{names[1]} stays: {place}", left[1])]
        for became in ("set aside", "removed", ""):
            said = self.sweep("--yes", status=1).splitlines()
            went = [f"{name} {became}" for name in (names[0], names[2]) if became]
            self.assertEqual((said[:len(went)], said[len(went) + 1:]), (went, stays))
            self.assertTrue(said[len(went)].endswith("and 0 brought back; not all that came in and never ended went"), said)
        self.assertEqual((set(names).intersection(self.entries()), [path.exists() for path in left]), (set(), [False, True, False]))

    def test_what_lies_aside_and_cannot_be_removed(self) -> None:
        """It is named, and stays; the others go."""
        names = sorted(self.loose(b"loose %d" % number) for number in range(3))
        self.sweep("--yes")
        (self.store / "going" / names[1]).unlink()
        (self.store / "going" / names[1]).mkdir()
        os.utime(self.store / "going" / names[1], (time.time() - OLD,) * 2)
        said = self.sweep("--yes", status=1)
        self.assertIn(f"{names[0]} removed\n{names[2]} removed\n", said)
        self.assertIn(f"{names[1]} stays: {self.store / 'going' / names[1]} can't be removed: Is a directory", said)

    def test_another_vault(self) -> None:
        """By the files of another vault nothing is taken; two that share a store are both named."""
        other = Server("--workers", "16")
        self.addCleanup(other.close)
        old = self.loose(b"old")
        done = subprocess.run([*program("vaultd-sweep"), "--vaultd", VAULTD, *other.files, self.address()], capture_output=True, text=True,
                              timeout=60, check=False)
        self.assertEqual(done.returncode, 1)
        self.assertIn("another vault's store", done.stderr)
        self.assertIn(old, self.entries())
        self.assertEqual(self.sweep("--also", *other.files).splitlines()[0], f"{old} set aside")

    def test_moved_project(self) -> None:
        """A store that has only some of what the vault names is another vault's, though a moved project's bytes are in both."""
        elsewhere = [self.path_of(card) for card in (self.first, self.second)]
        self.fill(b"bore 82")
        third = self.put_version()
        self.age(third)
        old = self.loose(b"old")
        for path in elsewhere:
            path.rename(self.root / path.name)
        for word in ("--days=30", "--yes"):
            self.assertIn("has 1 of the 3 files that the vault names, so this is another vault's store", self.sweep(word, status=1))
        self.assertIn(old, self.entries())
        for path in elsewhere:
            (self.root / path.name).rename(path)
        self.assertEqual(self.sweep().splitlines()[0], f"{old} set aside")

    def test_most_of_a_store(self) -> None:
        """Where more than half would go, as without another vault's `--also`, nothing does, unless that is wanted."""
        loose = [self.loose(b"loose %d" % number) for number in range(3)]
        said = self.sweep(status=1)
        self.assertIn("3 of the 5 files in file://", said)
        self.assertIn("Nothing was taken away", said)
        self.assertIn("3 files of", self.sweep("--only-look"))
        self.assertEqual(len(self.entries()), 5)
        self.assertEqual(sorted(self.sweep("--yes").splitlines()[:3]), sorted(f"{name} set aside" for name in loose))
        self.assertIn("3 of the 5 files in file://", self.sweep(status=1))
        self.assertEqual(self.entries("going"), sorted(loose))
        self.assertEqual(sorted(self.sweep("--yes").splitlines()[:3]), sorted(f"{name} removed" for name in loose))

    def test_files_of_a_backup(self) -> None:
        """By files that are older than what came into the store, nothing is taken away."""
        old = self.loose(b"old")
        self.server.kill()
        for file in self.server.files:
            os.utime(file, (time.time() - 50 * 86400,) * 2)
        self.assertIn("has files that came after the vault was last written", self.sweep(status=1))
        self.assertEqual(self.sweep("--yes").splitlines()[0], f"{old} set aside")

    def backup(self) -> Path:
        """The folder of backups, with one more."""
        folder = self.root / "backups"
        subprocess.run([*program("vaultd-backup"), "--vaultd", VAULTD, *self.server.files, str(folder)], check=True, capture_output=True)
        return folder

    def test_named_by_a_backup(self) -> None:
        """What a backup names stays, though the vault names it no more: a draft that was given up, of which the files have nothing left."""
        self.fill(b"draft")
        claim = self.put()
        draft = self.file_hash()
        self.age(self.first._replace(sha256=draft))
        folder = self.backup()
        self.anna.abandon(claim)
        self.write_much()
        self.assertEqual(self.sweep("--only-look").splitlines()[0], f"{draft} set aside")
        self.assertIn("0 files of 0 bytes were set aside", self.sweep("--backups", str(folder)))
        self.restore(folder)
        self.assertEqual(self.anna.checkin(claim), 1)
        self.assertEqual(self.names_what_is_there(), 3)

    def test_behind_a_restored_backup(self) -> None:
        """What the vault named before an earlier state of it was restored stays, where the files that were replaced lie among the backups, also
        if one of them is damaged."""
        folder = self.backup()
        self.fill(b"bore 82")
        newer = self.put_version()
        self.age(newer)
        replaced = folder / "replaced"
        replaced.mkdir()
        self.restore(folder, replaced)
        self.write_much()
        with open(replaced / "a", "r+b") as file:
            file.write(b"\1NOVAULT")
        self.assertEqual(self.sweep("--only-look").splitlines()[0], f"{newer.sha256} set aside")
        self.assertIn("0 files of 0 bytes were set aside", self.sweep("--backups", str(folder)))
        self.assertIn(newer.sha256, self.entries())

    def test_backups_that_cannot_be_read(self) -> None:
        """Where a backup can't be read, or there is none at that place, nothing is taken away."""
        self.loose(b"old")
        for folder, reason in ((self.root / "nowhere", "is no folder of backups"), (self.file, "is no folder of backups")):
            self.assertIn(reason, self.sweep("--backups", str(folder), status=1))
        backup = self.backup()
        with mock.patch("vaultd_tools.files.sweep.hashes_in", side_effect=PermissionError(errno.EACCES, "Permission denied")):
            with self.assertRaises(ToolError) as refused:
                named_in_backups([backup])
        self.assertIn("can't be read: Permission denied. What only a backup names", str(refused.exception))
        self.assertEqual(len(self.entries()), 3)

    def test_usual_backups(self) -> None:
        """Without a word the folders are looked at in which the units of vaultd-backup put theirs."""
        for name in ("vaultd", "vaultd-plant", "dpkg"):
            (self.root / "var" / name).mkdir(parents=True)
        with mock.patch("vaultd_tools.files.sweep.BACKUPS", self.root / "var"):
            self.assertEqual(usual_backups(), [self.root / "var" / "vaultd", self.root / "var" / "vaultd-plant"])
        units = [(TOP / "contrib" / "systemd" / "vaultd-backup.service").read_text("utf-8"), (TOP / "contrib" / "install").read_text("utf-8")]
        self.assertEqual([text in unit for text, unit in zip((" /var/backups/vaultd", "#/var/backups/vaultd#&-%i#g"), units)], [True, True])

    def file_hash(self) -> str:
        """The hash of the file."""
        return hashlib.sha256(self.file.read_bytes()).hexdigest()

    def write_much(self) -> None:
        """Has the server write so much that both files are written anew, and nothing stays of what was given up."""
        claim = self.anna.checkout(["w:" + PART]).claim
        for _ in range(3):
            for first in range(0, 1100, 50):
                self.anna.link.read_all([f"save {claim} {PART} {number:04x}{'00' * 1022}" for number in range(first, first + 50)])
        self.anna.abandon(claim)
        until(lambda: not any(hashes_in(Path(file)) - {self.first.sha256, self.second.sha256} for file in self.server.files), 30)

    def restore(self, folder: Path, replaced: Optional[Path] = None) -> None:
        """Restores the newest backup, in the place of files that are kept, if that is asked."""
        self.server.kill()
        newest = max(path for path in folder.iterdir() if path.name[0].isdigit())
        for name, file in zip("ab", self.server.files):
            if replaced is not None:
                shutil.copy(file, replaced / name)
            shutil.copy(newest / name, file)
        self.server.start()

    def test_links(self) -> None:
        """A link in the place of the store's own folder leads nobody elsewhere."""
        elsewhere = self.root / "elsewhere"
        elsewhere.mkdir()
        file = elsewhere / ("ab" * 16)
        file.write_bytes(b"x")
        os.utime(file, (1000, 1000))
        (self.store / "incoming").rmdir()
        (self.store / "incoming").symlink_to(elsewhere)
        self.sweep("--days", "1")
        with self.assertRaises(VaultError):
            self.put()
        self.assertEqual(os.listdir(elsewhere), [file.name])

    def test_link_to_what_goes(self) -> None:
        """Nothing is moved through a link, and nothing that lies behind one is removed or brought back."""
        old, elsewhere = self.loose(b"old"), self.root / "elsewhere"
        elsewhere.mkdir()
        (self.store / "going").symlink_to(elsewhere)
        (elsewhere / old).write_bytes(b"x")
        os.utime(elsewhere / old, (1000, 1000))
        self.assertIn("has a link in the place of its folder going", self.sweep(status=1))
        self.assertIn(old, self.entries())
        self.path_of(self.first._replace(sha256=old)).unlink()
        store = self.parts.store()
        assert store is not None
        self.assertIsNone(store.find(old))
        self.assertEqual((os.listdir(elsewhere), (elsewhere / old).read_bytes()), ([old], b"x"))

    def test_refused(self) -> None:
        self.assertIn("error: --days", self.sweep("--days", "0", status=2))
        self.server.kill()
        Path(self.server.files[0]).write_bytes(b"\1NOVAULT" + b"\xff" * 100)
        Path(self.server.files[1]).write_bytes(b"")
        self.loose(b"old")
        self.assertIn("no copy of the vault opens", self.sweep(status=1))
        self.assertEqual(len(self.entries()), 3)


class Aside(WithFiles):
    """Bytes that a sweep set aside, as one that was killed there leaves them, are found by everybody, and come back."""

    def set_aside(self, card: Card) -> None:
        """Moves the bytes of a version to what goes."""
        (self.store / "going").mkdir(exist_ok=True)
        self.path_of(card).rename(self.store / "going" / card.sha256)

    def came_back(self, *cards: Card) -> None:
        """Checks that these are in their places, and young."""
        self.assertEqual(self.entries("going"), [])
        for card in cards:
            self.assertLess(time.time() - self.path_of(card).stat().st_mtime, 60)

    def test_get(self) -> None:
        self.set_aside(self.first)
        back = self.root / "back"
        self.another().write_new(self.parts.get(PART, 1), back)
        self.assertEqual(hashlib.sha256(back.read_bytes()).hexdigest(), self.first.sha256)
        self.came_back(self.first)

    def test_put(self) -> None:
        self.set_aside(self.second)
        self.assertEqual(self.put_version().sha256, self.second.sha256)
        self.came_back(self.second)
        self.assertEqual(self.names_what_is_there(), 3)

    def test_check(self) -> None:
        self.set_aside(self.first)
        self.set_aside(self.second)
        found = check_store(self.parts, True)
        self.assertEqual((found.files, found.bad), (2, []))
        self.came_back(self.first, self.second)

    def test_next_sweep(self) -> None:
        """A sweep brings back what the vault names, and what is young; it removes what is neither."""
        old, young = self.loose(b"old"), self.loose(b"young", YOUNG)
        for name in (self.first.sha256, old, young):
            self.set_aside(self.first._replace(sha256=name))
        with contextlib.redirect_stdout(io.StringIO()):
            swept = self.sweeper({self.first.sha256, self.second.sha256}).sweep(False, time.time())
        self.assertEqual({what: [each.sha256 for each in files] for what, files in swept.done.items()},
                         {ASIDE: [], REMOVED: [old], BACK: sorted([self.first.sha256, young])})
        self.assertEqual((self.entries(), self.entries("going")), (sorted([self.first.sha256, self.second.sha256, young]), []))

    def test_who_may_not_write(self) -> None:
        """Who can't bring it back reads it where it lies; who puts it puts it anew."""
        self.set_aside(self.first)
        real = os.replace

        def refuse(source: Any, target: Any) -> None:
            if "going" in str(source):
                raise PermissionError(errno.EACCES, "Permission denied")
            real(source, target)

        with mock.patch("os.replace", refuse):
            back = self.root / "back"
            self.parts.write_new(self.parts.get(PART, 1), back)
            self.assertEqual(self.entries("going"), [self.first.sha256])
            self.fill(b"bore 80")
            self.assertEqual(self.put_version().sha256, self.first.sha256)
        self.assertEqual((self.entries("going"), self.names_what_is_there()), ([self.first.sha256], 3))

    def test_rights(self) -> None:
        """What goes has the rights of the store's folder: whoever writes there brings it back."""
        self.store.chmod(0o2770)
        old = self.loose(b"old")
        with contextlib.redirect_stdout(io.StringIO()):
            self.sweeper({self.first.sha256, self.second.sha256}).sweep(False)
        self.assertEqual((self.entries("going"), stat.S_IMODE((self.store / "going").stat().st_mode)), ([old], 0o2770))

    def sweeper(self, named: Set[str]) -> Sweeper:
        """A sweep by what these name."""
        store = self.parts.store()
        assert store is not None
        return Sweeper(store, lambda: named, time.time() - 30 * 86400)


class Stopped(WithFiles):
    """A sweep and a put of the bytes that go, each stopped at its steps while the other one runs: the version has its bytes. With
    VAULT_EVERY_STEP it is each step, in half an hour; else one of thirteen."""

    deadline = 3600
    every = 1 if os.environ.get("VAULT_EVERY_STEP") else 13

    def setUp(self) -> None:
        super().setUp()
        self.as_program()
        self.stopper = self.enterContext(Stopper(self.environment(), Connection.__module__))
        self.rounds = 0

    def sweeps(self, step: int = -1) -> Run:
        """A sweep, which stops at a step."""
        return self.stopper.start(step, "vaultd-sweep", ["--vaultd", VAULTD, "--yes", *self.server.files, self.address()])

    def puts(self, claim: str, step: int = -1) -> Run:
        """A put of the file, which stops at a step."""
        return self.stopper.start(step, "vault", ["put", PART, str(self.file), "--claim", claim])

    def prepare(self, aside: bool) -> str:
        """Bytes that are old, or that lie aside already, as an earlier sweep left them, and a check-out for their put."""
        self.rounds += 1
        name = self.loose(b"round %d" % self.rounds)
        if aside:
            self.assertIn(f"{name} set aside", self.done(self.sweeps()))
        return self.anna.checkout(["w:" + PART]).claim

    def done(self, run: Run) -> str:
        """Has a program go on to its end, and answers what it said."""
        self.assertEqual(run.go_on(), 0, run.text())
        return run.text()

    def check(self, claim: str, *steps: int) -> None:
        """One more sweep takes nothing, the draft is checked in, and each version has its bytes."""
        self.done(self.sweeps())
        self.assertEqual(self.anna.checkin(claim), 1, steps)
        self.assertEqual(self.names_what_is_there(), 2 + self.rounds, steps)

    def test_put_while_the_sweep_stands(self) -> None:
        for aside in (False, True):
            step, stopped = 0, True
            while stopped:
                claim = self.prepare(aside)
                run = self.sweeps(step)
                stopped = run.stopped
                self.parts.put(PART, self.file, claim)
                self.done(run)
                self.check(claim, step)
                step += self.every
            self.assertGreater(step, 40)

    def test_sweeps_while_the_put_stands(self) -> None:
        """Two of them, so that what the first one sets aside would be removed."""
        for aside in (False, True):
            step, stopped = 0, True
            while stopped:
                claim = self.prepare(aside)
                run = self.puts(claim, step)
                stopped = run.stopped
                self.done(self.sweeps())
                self.done(self.sweeps())
                self.done(run)
                self.check(claim, step)
                step += self.every
            self.assertGreater(step, 40)

    def test_both_stand(self) -> None:
        """Either goes on first."""
        steps = [(one, other) for one in range(3, 90, 2 * self.every) for other in range(5, 70, 2 * self.every)]
        for number, (sweep_step, put_step) in enumerate(steps):
            claim = self.prepare(number % 4 > 1)
            runs = [self.sweeps(sweep_step), self.puts(claim, put_step)]
            for run in runs[::-1] if number % 2 else runs:
                self.done(run)
            self.check(claim, sweep_step, put_step)


class Copied(WithFiles):
    """The store's backup, by the command of the page on operating."""

    def files(self, folder: Path) -> Dict[str, bytes]:
        """The files in a folder, each with its path."""
        return {str(path.relative_to(folder)): path.read_bytes() for path in folder.rglob("*") if path.is_file()}

    def test_copied(self) -> None:
        """All is copied, each file on disk before it gets its name, and no later damage replaces what is there."""
        command, = re.findall(r"`(rsync [^`]*)`", (TOP / "docs" / "OPERATING.md").read_text("utf-8"))
        copy, calls = self.root / "copy", self.root / "calls"
        words = command.replace("/srv/vault-store", str(self.store)).replace("/backup/vault-store", str(copy))
        subprocess.run(["strace", "-f", "-o", str(calls), "-e", "trace=fsync,rename,renameat,renameat2", *words.split()], check=True, timeout=60)
        before = self.files(copy)
        self.assertEqual((before, len(before)), (self.files(self.store), 3))
        self.assertEqual(re.findall(r"\b(fsync|rename)\w*\(", calls.read_text("utf-8", "replace")), 3 * ["fsync", "rename"])
        path = self.path_of(self.first)
        path.chmod(0o600)
        path.write_bytes(b"damaged")
        self.fill(b"bore 82")
        self.put_version()
        subprocess.run(words.split(), check=True, timeout=60)
        after = self.files(copy)
        self.assertEqual(({name: after[name] for name in before}, len(after)), (before, 4))


class Kept(WithFiles):
    """The cache: bytes of a store on another disk come from it the second time, and are compared."""

    def setUp(self) -> None:
        super().setUp()
        self.elsewhere = Path(self.enterContext(tempfile.TemporaryDirectory(prefix="vault-test-")))
        if os.stat(self.elsewhere).st_dev == os.stat(self.store).st_dev:
            self.skipTest("needs two disks, as /tmp and /dev/shm are")
        self.cache = self.elsewhere / "vault"
        self.cached = Parts(self.anna, cache=Cache(self.cache, 1_000_000))

    def get(self, number: int, parts: Parts) -> bytes:
        """Gets a version into a new file, and answers its bytes."""
        path = self.root / "back"
        path.unlink(missing_ok=True)
        parts.write_new(parts.get(PART, number), path)
        return path.read_bytes()

    def test_from_the_cache(self) -> None:
        content = self.get(1, self.cached)
        self.assertEqual((os.listdir(self.cache), self.cache.stat().st_mode & 0o777), ([self.first.sha256], 0o700))
        (self.cache / self.first.sha256).chmod(0o600)
        path = self.path_of(self.first)
        path.rename(self.root / "away")
        self.assertEqual(self.get(1, self.cached), content)
        (self.root / "away").rename(path)

    def test_damaged(self) -> None:
        """What is damaged in the cache is removed, and the store is asked. If that fails, too, nothing is written."""
        content = self.get(1, self.cached)
        for bad in (b"", content[:-1], content + b"x", b"x" + content[1:]):
            (self.cache / self.first.sha256).write_bytes(bad)
            self.assertEqual(self.get(1, self.cached), content)
        self.assertEqual((self.cache / self.first.sha256).read_bytes(), content)
        (self.cache / self.first.sha256).write_bytes(b"x")
        self.path_of(self.first).unlink()
        with self.assertRaises(VaultError):
            self.get(1, self.cached)
        self.assertEqual((os.listdir(self.cache), (self.root / "back").exists()), ([], False))

    def test_fails_late(self) -> None:
        """A read of the cache that fails behind some bytes, or whose time can't be set, leaves the file as it must be."""
        content = self.get(1, self.cached)

        def in_part(source: Any, target: Any, _moved: object) -> None:
            target.write(source.read(10))
            raise OSError(errno.EIO, "Input/output error")

        with mock.patch("vault.store.cache.copy_through_hash", in_part):
            self.assertEqual(self.get(1, self.cached), content)
        with mock.patch("os.utime", side_effect=PermissionError(errno.EPERM, "Operation not permitted")):
            self.assertEqual(self.get(1, self.cached), content)

    def test_of_another_size(self) -> None:
        """A file that didn't get as many bytes as its card says is no version, whoever wrote them."""
        content = self.get(1, self.cached)
        for wrong in (content * 2, content[:-1]):
            with mock.patch.object(self.cached.cache, "fetch", lambda *words: words[3].write(wrong)), self.assertRaises(VaultError) as refused:
                self.get(1, self.cached)
            self.assertIn(f"{len(wrong):,} bytes, and have to be {len(content):,}", str(refused.exception))
            self.assertFalse((self.root / "back").exists())

    def test_bounded(self) -> None:
        """The cache never has more bytes than its limit, and those that were used last stay; a file that is too long isn't kept."""
        for number in range(3, 16):
            self.fill(b"bore %d" % number)
            self.put_version()
            self.get(number, self.cached)
            self.assertLessEqual(sum(path.stat().st_size for path in self.cache.iterdir()), 1_000_000)
        last = self.parts.get(PART).card
        assert last is not None
        self.assertIn(last.sha256, os.listdir(self.cache))
        self.assertGreater(len(os.listdir(self.cache)), 5)
        self.fill(b"bore 99", 400_000)
        long = self.put_version()
        self.get(16, self.cached)
        self.assertNotIn(long.sha256, os.listdir(self.cache))

    def test_no_cache(self) -> None:
        """If no cache can be made, the store alone serves. None is made on the store's own disk."""
        (self.elsewhere / "file").write_bytes(b"")
        self.assertTrue(self.get(1, Parts(self.anna, cache=Cache(self.elsewhere / "file" / "vault"))))
        self.assertTrue(self.get(1, Parts(self.anna, cache=Cache(self.root / "near"))))
        self.assertFalse((self.root / "near").exists())

    def test_words(self) -> None:
        self.assertEqual((most_bytes(None), most_bytes("0")), (MAX_BYTES, 0))
        with self.assertRaises(MisusedError):
            most_bytes("-1")


if __name__ == "__main__":
    unittest.main()
