"""A store behind rclone, over real servers of WebDAV and of SFTP, which `rclone serve` is here."""

import contextlib
import io
import os
import shutil
import socket
import subprocess
import tempfile
import threading
import time
import unittest
from concurrent.futures import ThreadPoolExecutor
from pathlib import Path
from typing import Any, Callable, List
from unittest import mock

from page_server import until
from servers import free_port
from stepping import Stepper
from stores import PART, ROD, WithStore

from vault import Client, MisusedError, RefusedError, VaultError
from vault.store.base import MARK_NAME, Kept, StoreAwayError, StoreFaultError, place_of
from vault.store.card import read_card
from vault.store.checking import check_store
from vault.store.parts import Parts
from vault.store.rclone_store import TOUCHED, RcloneStore
from vaultd_tools.files.sweep import ASIDE, REMOVED, Swept

SECRET = "secret"


class Remote:
    """A server of files that speaks one protocol, and rclone's configuration for it."""

    def __init__(self, protocol: str, folder: Path):
        self.protocol, self.folder, self.data = protocol, folder, folder / "data"
        self.data.mkdir()
        self.port = free_port()
        hidden = subprocess.run(["rclone", "obscure", SECRET], check=True, capture_output=True, text=True).stdout.strip()
        where = f"url = http://127.0.0.1:{self.port}\nvendor = other" if protocol == "webdav" else f"host = 127.0.0.1\nport = {self.port}"
        self.config = folder / "rclone.conf"
        self.config.write_text(f"[office]\ntype = {protocol}\nuser = vault\npass = {hidden}\n{where}\n", "utf-8")

    def start(self, *words: str) -> None:
        """Starts the server, and waits until it answers."""
        served = ["rclone", "serve", self.protocol, str(self.data), "--addr", f"127.0.0.1:{self.port}", "--user", "vault", "--pass", SECRET,
                  "--config", "/dev/null", "--dir-cache-time", "0s", *words]
        self.process = subprocess.Popen(served, stdout=subprocess.DEVNULL, stderr=subprocess.DEVNULL,
                                        env={**os.environ, "HOME": str(self.folder), "XDG_CACHE_HOME": str(self.folder / "cache")})
        for _ in range(200):
            try:
                socket.create_connection(("127.0.0.1", self.port), timeout=5).close()
                return
            except OSError:
                time.sleep(0.05)
        raise AssertionError(f"no server of {self.protocol}")

    def stop(self) -> None:
        """Kills the server."""
        self.process.kill()
        self.process.wait()


class Shared:
    """What must hold over each protocol."""

    class OverRclone(WithStore):
        """A vault whose store is a remote."""

        protocol = ""

        def setUp(self) -> None:
            folder = Path(self.enterContext(tempfile.TemporaryDirectory(prefix="vault-test-")))
            self.remote = Remote(self.protocol, folder)
            self.remote.start()
            self.addCleanup(lambda: self.remote.stop())
            self.enterContext(mock.patch.dict(os.environ, {"RCLONE_CONFIG": str(self.remote.config)}))
            super().setUp()
            self.store = self.remote.data / "vault store"

        def address(self) -> str:
            """The address that the vault names."""
            return "rclone:office:vault store"

        def refused(self) -> str:
            """A put that is refused, and leaves nothing: what it says."""
            claim = self.anna.checkout(["w:" + PART]).claim
            with self.assertRaises(VaultError) as refused:
                self.parts.put(PART, self.file, claim)
            self.assertEqual(self.anna.checkin(claim), 0)
            return str(refused.exception)

        def test_put_and_get(self) -> None:
            for size in (0, 1, 3_000_001):
                content = self.fill(b"bore 80", size) if size > 1 else b"x" * size
                self.file.write_bytes(content)
                self.put_version()
                back = self.root / f"back{size}"
                self.another().write_new(self.parts.get(PART), back)
                self.assertEqual(back.read_bytes(), content)
            self.assertEqual((self.names_what_is_there(), self.entries("incoming")), (3, []))

        def test_the_same_bytes_again(self) -> None:
            """They are read through, stay as they are, and something beside them says that they were wanted again."""
            card = self.put_version()
            os.utime(self.path_of(card), (1, 1))
            self.put_version()
            self.assertEqual(self.path_of(card).stat().st_mtime, 1)
            self.assertEqual(self.entries(TOUCHED), [card.sha256])
            store = self.parts.setting.store()
            assert store is not None
            kept = list(store.all())
            self.assertEqual([each.sha256 for each in kept], [card.sha256])
            self.assertLess(time.time() - kept[0].since, 60)
            self.assertFalse(store.set_aside(kept[0], time.time() - 60))
            self.assertEqual(self.entries(), [card.sha256])

        def test_swept_right_behind(self) -> None:
            self.check_swept_right_behind()

        def test_changed_and_cut(self) -> None:
            card = self.put_version()
            path, back = self.path_of(card), self.root / "back"
            whole = path.read_bytes()
            for bad in (whole[:-1], b"x" + whole[1:]):
                path.write_bytes(bad)
                with self.assertRaises(StoreFaultError) as refused:
                    self.parts.write_new(self.parts.get(PART), back)
                self.assertIn(f"version 1 of {PART}", str(refused.exception))
                self.assertIn("damaged bytes", self.refused())
                self.assertEqual((path.read_bytes(), back.exists()), (bad, False))
            path.unlink()
            with self.assertRaises(StoreFaultError):
                self.parts.write_new(self.parts.get(PART), back)

        def test_away(self) -> None:
            """No server, and a path where the store isn't any more."""
            self.put_version()
            self.remote.stop()
            self.assertIn("rclone says", self.refused())
            with self.assertRaises(StoreAwayError):
                self.parts.write_new(self.parts.get(PART), self.root / "back")
            self.remote.start()
            self.store.rename(self.remote.data / "elsewhere")
            self.assertIn(f"no file {MARK_NAME}", self.refused())
            (self.remote.data / "elsewhere").rename(self.store)
            self.fill(b"bore 81")
            self.put_version()
            self.assertEqual(self.names_what_is_there(), 2)

        def test_stopped_in_between(self) -> None:
            """The server stops while bytes are sent to it."""
            self.fill(b"bore 80", 10_000_000)
            self.remote.stop()
            self.remote.start("--bwlimit", "4M")
            claim = self.anna.checkout(["w:" + PART]).claim

            def stop() -> None:
                until(lambda: any(path.stat().st_size for path in (self.store / "incoming").glob("*")), 60)
                self.remote.stop()

            with ThreadPoolExecutor(1) as pool:
                stopped = pool.submit(stop)
                with self.assertRaises(VaultError):
                    self.parts.put(PART, self.file, claim)
                stopped.result()
            self.remote.start()
            self.assertEqual(self.anna.kept_drafts(claim), {})
            self.parts.put(PART, self.file, claim)
            self.assertEqual((self.anna.checkin(claim), self.names_what_is_there()), (1, 1))

        def test_slow(self) -> None:
            self.remote.stop()
            self.remote.start("--bwlimit", "400k")
            self.fill(b"bore 80", 600_000)
            began = time.monotonic()
            self.put_version()
            self.assertGreater(time.monotonic() - began, 1.0)
            self.assertEqual(self.names_what_is_there(), 1)

        def test_killed_at_steps(self) -> None:
            """The client is killed at every seventh step of a put: at runs of rclone, and at what else a put does."""
            self.as_program()
            stepper = Stepper(self.environment())
            self.addCleanup(stepper.close)
            elsewhere = Client("anna", "127.0.0.1", self.server.port, self.root / "elsewhere", settling=0.0)
            self.addCleanup(elsewhere.close)
            step, ended = 0, "killed"
            while ended == "killed":
                self.fill(b"bore %d" % step)
                claim = elsewhere.checkout(["w:" + PART]).claim
                ended = stepper.run(step, "--patience", "5", "put", PART, str(self.file), "--claim", claim)
                elsewhere.checkin(claim)
                step += 7
            self.assertEqual(ended, "0")
            self.assertGreater(step, 40)
            self.assertGreater(self.names_what_is_there(), 0)
            self.put_version()
            self.names_what_is_there()

        def test_two_designers_at_once(self) -> None:
            self.anna.make(ROD)
            ben, odd = self.another(), []

            def work(parts: Parts, place: str) -> None:
                try:
                    claim = parts.client.checkout(["w:" + place]).claim
                    parts.put(place, self.file, claim)
                    parts.client.checkin(claim)
                except VaultError as error:
                    odd.append(str(error))

            for number in range(3):
                self.fill(b"bore %d" % number, 2_000_000)
                workers = [threading.Thread(target=work, args=each) for each in ((self.parts, PART), (ben, ROD))]
                for worker in workers:
                    worker.start()
                for worker in workers:
                    worker.join(60)
            self.assertEqual(odd, [])
            self.assertEqual((self.names_what_is_there(), self.names_what_is_there(ROD)), (3, 3))
            self.assertEqual((len(self.entries()), self.entries("incoming")), (3, []))

        def test_lacking(self) -> None:
            """One run of rclone says which of some bytes aren't there, or are of another size; a check-in puts these again, or is refused."""
            card, store = self.put_version(), self.parts.setting.store()
            assert isinstance(store, RcloneStore)
            kept = [Kept(card.sha256, card.size, 0), Kept(card.sha256, card.size + 1, 0), Kept("0" * 64, 1, 0)]
            self.assertEqual(store.lacking(kept), kept[1:])
            with mock.patch.object(store, "find") as asked:
                self.assertEqual(store.lacking(kept[:1]), [])
            asked.assert_not_called()
            self.fill(b"bore 82")
            claim = self.put()
            draft = read_card(self.anna.draft(claim, PART))
            assert draft is not None
            self.path_of(draft).unlink()
            self.assertEqual(self.parts.checkin(claim), 1)
            self.names_what_is_there()
            self.fill(b"bore 83")
            claim = self.put()
            draft = read_card(self.anna.draft(claim, PART))
            assert draft is not None
            self.path_of(draft).unlink()
            self.file.unlink()
            with self.assertRaisesRegex(RefusedError, f"lacks the bytes of {PART}"):
                self.parts.checkin(claim)

        def test_a_remote_that_sends_without_end(self) -> None:
            """What it sends beyond the size that the card says isn't taken, and what rclone says meanwhile is read, however much that is."""
            self.put_version()
            real = shutil.which("rclone")
            (self.root / "bin").mkdir()
            endless = self.root / "bin/rclone"
            endless.write_text('#!/bin/sh\ncase "$1 $*" in "cat "*sha256/*) head -c 1000000 /dev/zero | tr "\\0" e >&2; exec yes;; esac\n'
                               f'exec {real} "$@"\n')
            endless.chmod(0o755)
            back = self.root / "back"
            with mock.patch.dict(os.environ, {"PATH": f"{self.root}/bin:{os.environ['PATH']}"}), self.assertRaises(StoreFaultError) as refused:
                self.another().write_new(self.parts.get(PART), back)
            self.assertIn("they are more than", str(refused.exception))
            self.assertFalse(back.exists())

        def test_swept(self) -> None:
            """What is old is set aside and then removed, and what a killed client left is removed; what is young stays."""
            old, store = self.put_version(), self.parts.setting.store()
            assert store is not None
            os.utime(self.path_of(old), (1000, 1000))
            self.fill(b"bore 81")
            young = self.put_version()
            (self.store / "incoming").mkdir(exist_ok=True)
            (self.store / "incoming" / "left").write_bytes(b"x")
            os.utime(self.store / "incoming" / "left", (1000, 1000))
            aside = [kept.sha256 for kept in list(store.all()) if store.set_aside(kept, 2000.0)]
            self.assertEqual((aside, store.leftovers(2000.0)), ([old.sha256], 1))
            self.assertEqual((self.entries(), self.entries("incoming"), self.entries("going")), ([young.sha256], [], [old.sha256]))
            self.assertEqual([kept.sha256 for kept in store.going() if store.remove(kept)], [old.sha256])
            self.assertEqual((self.entries("going"), list(store.going()), store.remove(Kept(old.sha256, 1, 0.0))), ([], [], False))

        def test_brought_back(self) -> None:
            """What a sweep set aside comes back for whoever finds or puts it; a version whose bytes lie there is whole."""
            card, store = self.put_version(), self.parts.setting.store()
            assert store is not None
            back = self.root / "back"
            wants: List[Callable[[], object]] = [lambda: self.another().write_new(self.parts.get(PART, 1), back), self.put_version,
                                                 lambda: self.assertEqual(check_store(self.parts, False).bad, [])]
            for want in wants:
                (self.store / "going").mkdir(exist_ok=True)
                self.path_of(card).rename(self.store / "going" / card.sha256)
                want()
                self.assertEqual((self.entries(), self.entries("going")), ([card.sha256], []))
                self.assertLess(time.time() - next(iter(store.all())).since, 60)
            self.assertEqual(self.names_what_is_there(), 2)

        def old_version(self) -> Kept:
            """A version whose bytes are old, as the store has them."""
            card = self.put_version()
            os.utime(self.path_of(card), (1000, 1000))
            return Kept(card.sha256, card.size, 1000.0)

        def other_store(self) -> RcloneStore:
            """The store once more, as a sweep has it."""
            store = self.another().setting.store()
            assert isinstance(store, RcloneStore)
            return store

        def test_put_before_the_move(self) -> None:
            """Bytes that are put between a sweep's look at their age and its move are moved back."""
            kept, store, run = self.old_version(), self.other_store(), RcloneStore._run
            claim = self.anna.checkout(["w:" + PART]).claim

            def moves(asked: RcloneStore, *words: str, **more: Any) -> Any:
                if words[0] == "moveto" and asked is store and words[-1].endswith(f"going/{kept.sha256}"):
                    self.parts.put(PART, self.file, claim)
                return run(asked, *words, **more)

            with mock.patch.object(RcloneStore, "_run", moves):
                self.assertFalse(store.set_aside(kept, 2000.0))
            self.assertEqual((self.anna.checkin(claim), self.entries(), self.entries("going")), (1, [kept.sha256], []))

        def test_moved_while_a_put_reads(self) -> None:
            """Bytes that a sweep moves right before a put reads them through are put anew."""
            kept, store, words = self.old_version(), self.other_store(), RcloneStore._words
            claim = self.anna.checkout(["w:" + PART]).claim

            def reads(asked: RcloneStore, *given: str) -> List[str]:
                if given[0] == "cat" and given[-1].endswith(place_of(kept.sha256)) and not self.entries("going"):
                    self.assertTrue(store.set_aside(kept, 2000.0))
                return words(asked, *given)

            with mock.patch.object(RcloneStore, "_words", reads):
                self.parts.put(PART, self.file, claim)
            self.assertEqual((self.anna.checkin(claim), self.entries(), self.entries("going")), (1, [kept.sha256], [kept.sha256]))
            self.assertEqual(self.names_what_is_there(), 2)

        def test_sweep_of_a_remote_that_is_away(self) -> None:
            """If the remote goes away, a sweep doesn't try every file."""
            store, swept = self.parts.setting.store(), Swept()
            assert store is not None
            self.remote.stop()
            with contextlib.redirect_stderr(io.StringIO()) as said:
                for what, do in ((ASIDE, lambda kept: store.set_aside(kept, 2000.0)), (REMOVED, store.remove)):
                    swept.each(what, [Kept(f"{number:064x}", 1, 1000.0) for number in range(9)], do)
            self.assertEqual((swept.done[ASIDE], swept.refused, said.getvalue().count(" stays: ")), ([], 3, 3))


class WebDav(Shared.OverRclone):
    """WebDAV: no hashes, no times of one's own, and no move that refuses."""

    protocol = "webdav"


class Sftp(Shared.OverRclone):
    """SFTP."""

    protocol = "sftp"


class Refused(WithStore):
    """What is refused before any server is asked."""

    def setUp(self) -> None:
        super().setUp()
        config = self.root / "rclone.conf"
        config.write_text("", "utf-8")
        self.enterContext(mock.patch.dict(os.environ, {"RCLONE_CONFIG": str(config)}))

    def test_no_remote(self) -> None:
        with self.assertRaises(StoreAwayError) as refused:
            self.parts.setting.set("rclone:office:vault")
        self.assertIn("rclone lsd office:", str(refused.exception))

    def test_no_rclone(self) -> None:
        with mock.patch.dict(os.environ, {"PATH": str(self.root)}), self.assertRaises(MisusedError) as refused:
            self.parts.setting.set("rclone:office:vault")
        self.assertIn("Install it", str(refused.exception))

    def test_strings_that_would_run_a_program(self) -> None:
        """Neither the vault's own part nor a designer's word makes rclone run anything."""
        evil = self.root / "evil"
        names: List[str] = [f"rclone:sftp,ssh='touch {evil}':x", f"rclone::sftp,ssh='touch {evil}':x", "rclone:--config=/x:y", "rclone:-vv:y"]
        for name in names:
            with self.assertRaises(MisusedError):
                self.parts.setting.set(name)
        self.assertFalse(evil.exists())


if __name__ == "__main__":
    unittest.main()
