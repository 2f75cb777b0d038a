"""Files of any size: a card in the vault, the bytes in a store, and what must not go wrong between them."""

import hashlib
import os
import pty
import shutil
import subprocess
import sys
import tempfile
import threading
import time
import unittest
from pathlib import Path
from typing import Any, Callable, Dict, List, Type
from unittest import mock

from servers import PACKAGES, Limits, free_port, program
from stepping import Stepper
from stores import MARK, MARK_NAME, NAME, PART, ROD, WithStore

from vault import Client, MisusedError, RefusedError, UnreachableError, VaultError
from vault.store.card import Card, now
from vault.store.parts import Parts
from vault.store.setting import STORE_PLACE
from vault.store.base import StoreAwayError, StoreFaultError, place_of


class PutAndGet(WithStore):
    """What is put comes back, with its name, its author, its time and its reason."""

    def test_a_file(self) -> None:
        content = self.fill(b"bore 80", 3_000_000)
        before = now()
        claim = self.put()
        self.assertEqual(self.parts.set_note(claim, "larger bore"), 1)
        self.anna.checkin(claim)
        version = self.parts.get(PART)
        card = version.card
        assert card is not None
        self.assertEqual((card.name, card.size, card.by, card.note), (NAME, len(content), "anna", "larger bore"))
        self.assertTrue(before <= card.at <= now())
        self.assertEqual(self.path_of(card).stat().st_mode & 0o222, 0)
        back = self.root / "back"
        self.another().write_new(version, back)
        self.assertEqual(back.read_bytes(), content)
        with self.assertRaises(MisusedError):
            self.parts.write_new(version, back)

    def test_a_note_on_anothers_draft(self) -> None:
        """The note is written on the draft that the server has, not on an older one that was put from here: after a gift and its return, and
        where the same designer put from another machine."""
        others = [self.another(), Parts(Client("anna", "127.0.0.1", self.server.port, self.root / "elsewhere", settling=0.0))]
        self.addCleanup(others[1].client.close)
        others[1].setting.confirm(self.address())
        for other in others:
            self.fill(b"bore 80")
            claim = self.put()
            if other is others[0]:
                self.anna.give(claim, "ben")
            last = self.fill(b"bore 81")
            other.put(PART, self.file, claim)
            if other is others[0]:
                other.client.give(claim, "anna")
            self.assertEqual((self.parts.set_note(claim, "done"), self.anna.checkin(claim)), (1, 1))
            version = self.parts.get(PART)
            assert version.card is not None
            self.assertEqual((version.sha256, version.card.by, version.card.note),
                             (hashlib.sha256(last).hexdigest(), other.client.designer, "done"))

    def test_a_note_makes_no_draft_ones_own(self) -> None:
        """Of a draft that another put no copy is kept here, also once there is a note on it; of one's own the copy has the note."""
        claim, ben = self.put(), self.another()
        self.parts.set_note(claim, "done")
        self.assertEqual(self.anna.kept_drafts(claim), self.anna.all_drafts(claim))
        self.anna.give(claim, "ben")
        self.fill(b"bore 81")
        ben.put(PART, self.file, claim)
        ben.client.give(claim, "anna")
        before = self.anna.kept_drafts(claim)
        self.parts.set_note(claim, "done again")
        self.assertEqual(self.anna.kept_drafts(claim), before)
        self.assertIn(b"note done again", self.anna.draft(claim, PART))

    def test_sizes(self) -> None:
        """No bytes, one, and just about a piece."""
        for size in (0, 1, 1023, 1 << 20, (1 << 20) + 1, (2 << 20) - 1):
            content = os.urandom(size)
            self.file.write_bytes(content)
            self.put_version()
            back = self.root / f"back{size}"
            self.parts.write_new(self.parts.get(PART), back)
            self.assertEqual(back.read_bytes(), content)
        self.assertEqual(self.names_what_is_there(), 6)

    def test_a_card_as_a_file(self) -> None:
        """A file that has the form of a card goes into the store as any other."""
        content = self.put_version().spell()
        self.file.write_bytes(content)
        self.put_version()
        self.parts.write_new(self.parts.get(PART), self.root / "back")
        self.assertEqual((self.root / "back").read_bytes(), content)

    def test_the_same_bytes_again(self) -> None:
        """They are there once, as the same file, and young again."""
        card = self.put_version()
        os.utime(self.path_of(card), (1, 1))
        number = self.path_of(card).stat().st_ino
        self.put_version()
        self.assertLess(time.time() - self.path_of(card).stat().st_mtime, 60)
        self.assertEqual(self.path_of(card).stat().st_ino, number)
        self.assertEqual((self.entries(), self.entries("incoming")), ([card.sha256], []))

    def test_swept_right_behind(self) -> None:
        self.check_swept_right_behind()

    def test_a_file_that_changes_meanwhile(self) -> None:
        """Nothing is saved of it, and nobody names the bytes that were copied."""
        claim = self.anna.checkout(["w:" + PART]).claim

        def meter(_what: str, _size: int) -> "Changing":
            return Changing(self.file)

        with self.assertRaises(MisusedError) as changed:
            Parts(self.anna, meter=meter).put(PART, self.file, claim)
        self.assertIn("was changed while it was read", str(changed.exception))
        self.assertEqual(self.anna.kept_drafts(claim), {})
        self.assertEqual(self.entries("incoming"), [])

    def test_no_files(self) -> None:
        """What can't be put, and names that no card can have."""
        claim = self.anna.checkout(["w:" + PART]).claim
        os.mkfifo(self.root / "pipe")
        (self.root / "odd\nname").write_bytes(b"x")
        for path in (self.root, self.root / "none", self.root / "pipe", Path("/dev/null"), self.root / "odd\nname"):
            with self.assertRaises(MisusedError, msg=str(path)):
                self.parts.put(PART, path, claim)
        with self.assertRaises(MisusedError):
            self.parts.put(STORE_PLACE, self.file)

    def test_refused_before_anything_is_sent(self) -> None:
        """Long files aren't sent for a check-out that won't take them."""
        ben = self.another()
        claim = self.anna.checkout(["w:" + PART]).claim
        queued = self.another("carl").client.checkout(["w:" + PART]).claim
        wrong: List[Callable[[], object]] = [
            lambda: ben.put(PART, self.file), lambda: ben.put(PART, self.file, claim), lambda: self.parts.put("/engine/block/none", self.file, claim),
            lambda: self.parts.put("/engine", self.file, claim), lambda: self.parts.put(PART, self.file, "c99"),
            lambda: self.another("carl").put(PART, self.file, queued)]
        for each in wrong:
            with self.assertRaises(VaultError):
                each()
        self.assertEqual(self.entries(), [])


class Changing:
    """A progress meter that changes a file while it runs."""

    def __init__(self, file: Path):
        self.file = file

    def __enter__(self) -> Callable[[int], None]:
        with open(self.file, "ab") as file:
            file.write(b"more")
        return lambda _bytes: None

    def __exit__(self, *_: object) -> None:
        """Nothing ends here."""


class NoStore(WithStore):
    """A vault that names no store, or one that nobody confirmed."""

    def setUp(self) -> None:
        super().setUp()
        self.plain = Parts(self.client("anna"))

    def name(self, content: bytes) -> None:
        """Has the vault name something as its store, by hand."""
        claim = self.anna.checkout(["w:" + STORE_PLACE]).claim
        self.anna.put(STORE_PLACE, content, claim)
        self.anna.checkin(claim)

    def test_an_old_vault(self) -> None:
        """Contents that are no cards are got and listed as ever, beside a store and without one."""
        claim = self.anna.checkout(["w:" + PART]).claim
        self.anna.put(PART, b"bore 80")
        self.anna.checkin(claim)
        self.parts.write_new(self.parts.get(PART), self.root / "back")
        self.assertEqual((self.root / "back").read_bytes(), b"bore 80")
        self.assertEqual([version.card for version in self.parts.history(PART)], [None])

    def test_without_a_store(self) -> None:
        """Short files are put as they are; for a longer one it is said what names a store, and for what looks like a card, too."""
        card = self.put_version()
        self.name(b"")
        claim = self.anna.checkout(["w:" + PART]).claim
        self.file.write_bytes(b"bore 80")
        put = self.plain.put(PART, self.file)
        self.assertEqual((put.claim, put.size), (claim, 7))
        self.assertEqual(self.anna.kept_drafts(claim), {PART: b"bore 80"})
        for content in (b"x" * 1025, card.spell()):
            self.file.write_bytes(content)
            with self.assertRaises(MisusedError) as refused:
                self.plain.put(PART, self.file)
            self.assertIn("vault store set", str(refused.exception))
        with self.assertRaises(MisusedError):
            self.plain.set_note(claim, "larger bore")
        with self.assertRaises(StoreFaultError):
            self.plain.write_new(self.plain.get(PART), self.root / "back")

    def test_not_confirmed(self) -> None:
        """Neither a new address nor a changed one is followed, to put or to get, until its designer confirms it by its text."""
        self.put_version()
        ben = Parts(self.client("ben"))
        claim = ben.client.checkout(["w:" + PART]).claim
        steps: List[Callable[[], object]] = [lambda: ben.put(PART, self.file, claim), lambda: ben.write_new(ben.get(PART), self.root / "back")]
        for step in steps:
            with self.assertRaises(RefusedError) as refused:
                step()
            self.assertIn(f"vault store confirm {self.address()}", str(refused.exception))
        with self.assertRaises(MisusedError):
            ben.setting.confirm("file:///srv/other")
        ben.setting.confirm(self.address())
        ben.write_new(ben.get(PART), self.root / "back")
        self.name(f"file://{self.root}/evil\n".encode())
        with self.assertRaises(RefusedError):
            Parts(ben.client).put(PART, self.file, claim)
        self.assertFalse((self.root / "evil").exists())

    def test_no_address(self) -> None:
        """What is no address is never followed, whatever was confirmed."""
        self.as_program()
        for content in (b"\xff\n", b"rclone:a,b=c:d\n", b"file://evil/x\n", b"\x1b[2J", b"x" * 1024, self.address().encode() + b"\n\n"):
            self.name(content)
            self.assertTrue(self.vault("store").decode().rstrip("\n").isprintable())
            with self.assertRaises(RefusedError):
                Parts(self.anna).put(PART, self.file, self.anna.checkout(["w:" + PART]).claim)

    def test_set(self) -> None:
        """A folder with other files is no store; who sets it anew at the same address changes nothing."""
        other = self.root / "other"
        other.mkdir()
        (other / "file").write_bytes(b"x")
        for text in (f"file://{other}", f"file://{self.root}/none/deeper", "file:///proc/vault"):
            with self.assertRaises(VaultError):
                self.parts.setting.set(text)
        self.assertEqual(self.parts.setting.set(self.address()), self.address())
        self.assertEqual(len(list(self.anna.history(STORE_PLACE))), 1)
        other.joinpath("file").unlink()
        self.assertEqual(self.parts.setting.set(f"file://{other}"), self.address())
        self.client("ben").checkout(["w:" + STORE_PLACE])
        with self.assertRaises(RefusedError):
            self.parts.setting.set(self.address())


@unittest.skipUnless(os.getuid() == 0, "needs root, for designers with accounts of their own")
class OfAGroup(WithStore):
    """Designers who aren't root share a store that root made for their group, whatever their own files' rights are."""

    GROUP, ANNA, BEN = 20_000, 20_001, 20_002

    def setUp(self) -> None:
        super().setUp()
        for package in PACKAGES:
            shutil.copytree(package / "src", self.root / "lib", dirs_exist_ok=True, ignore=shutil.ignore_patterns("__pycache__"))
        self.root.chmod(0o755)
        self.office = self.root / "office"
        self.office.mkdir()
        os.chown(self.office, 0, self.GROUP)
        self.office.chmod(0o2770)

    def of(self, user: int, *words: str) -> str:
        """What the program answers a designer's account."""
        home = self.root / str(user)
        if not home.is_dir():
            home.mkdir()
            os.chown(home, user, user)
        code = f"import sys; sys.path.insert(0, {str(self.root / 'lib')!r}); from vault.cli.program import main; sys.exit(main())"
        done = subprocess.run([sys.executable, "-c", code, *words], user=user, group=user, extra_groups=[self.GROUP], umask=0o022, cwd=home,
                              env={**self.environment(), "XDG_STATE_HOME": str(home), "XDG_CACHE_HOME": str(home)}, capture_output=True,
                              text=True, check=False, timeout=60)
        self.assertEqual(done.returncode, 0, (words, done.stdout, done.stderr))
        return done.stdout

    def test_two_designers(self) -> None:
        """Both put files whose bytes lie in one folder of the store, and the same bytes, and each gets the other's."""
        address, names = f"file://{self.office}", {self.ANNA: "anna", self.BEN: "ben"}
        for user, name in names.items():
            self.of(user, "hello", f"{name}@127.0.0.1:{self.server.port}")
        self.assertIn("keeps its files at", self.of(self.ANNA, "store", "set", address))
        self.of(self.BEN, "store", "confirm", address)
        alike = (content for content in map(b"%d".__mod__, range(100_000)) if hashlib.sha256(content).hexdigest()[:2] == "ab")
        contents = [next(alike), next(alike)]
        for user, content in ((self.ANNA, contents[0]), (self.BEN, contents[1]), (self.BEN, contents[0]), (self.ANNA, contents[1])):
            file = self.root / str(user) / "file"
            file.write_bytes(content)
            file.chmod(0o644)
            claim = self.of(user, "checkout", f"w:{PART}").split()[0]
            self.of(user, "put", PART, str(file))
            self.of(user, "checkin", claim)
        for user in names:
            self.of(user, "get", PART, "1", "--to", "one")
            self.of(user, "get", PART, "2", "--to", "two")
            self.assertEqual([(self.root / str(user) / name).read_bytes() for name in ("one", "two")], contents)
        folders = [path for path in (self.office / "sha256").rglob("*") if path.is_dir()]
        self.assertEqual({(path.stat().st_mode & 0o7777, path.stat().st_gid) for path in folders}, {(0o2770, self.GROUP)})


class SetAgain(WithStore):
    """`vault store set` that was broken off can be said again."""

    def test_stopped_before_the_check_in(self) -> None:
        """The check-out of the earlier try is gone on with; one of a try that was refused is given up."""
        other = f"file://{self.root}/other"
        for error, stand in ((UnreachableError("No server answers."), 1), (KeyboardInterrupt(), 1), (RefusedError("A limit."), 0)):
            for step in ("put", "checkin"):
                with mock.patch.object(self.anna, step, side_effect=error), self.assertRaises(type(error)):
                    self.parts.setting.set(other)
                self.assertEqual(len(self.anna.mine()), stand)
                self.assertNotEqual(self.parts.setting.set(other), other)
                self.assertEqual((self.anna.mine(), self.parts.setting.named()), ([], other))
                self.parts.setting.set(self.address())

    def test_killed_at_each_step(self) -> None:
        """At whichever step it is killed, said again it goes through, and no check-out stays behind."""
        self.as_program()
        stepper = Stepper(self.environment())
        self.addCleanup(stepper.close)
        step, ended = 0, "killed"
        while ended == "killed":
            address = f"file://{self.root}/store{step}"
            ended = stepper.run(step, "--patience", "5", "store", "set", address)
            self.vault("store", "set", address)
            self.assertEqual((self.parts.setting.named(), [standing.claim for standing, _ in self.anna.mine()]), (address, []))
            step += 5
        self.assertEqual(ended, "0")
        self.assertGreater(step, 70)

    def test_the_disk_was_full(self) -> None:
        """A mark that was not written to its end stands in nobody's way, and none is left by a disk that is full now. A file of another
        content is no mark."""
        for number, content in enumerate((b"", MARK[:5])):
            before = self.root / f"before{number}"
            before.mkdir()
            (before / MARK_NAME).write_bytes(content)
            self.parts.setting.set(f"file://{before}")
            self.assertEqual((before / MARK_NAME).read_bytes(), MARK)
        other, full = self.root / "other", self.root / "full"
        other.mkdir()
        (other / MARK_NAME).write_bytes(b"x")
        with self.assertRaises(MisusedError):
            self.parts.setting.set(f"file://{other}")
        self.vault("hello", f"anna@127.0.0.1:{self.server.port}")
        self.vault("store", "set", f"file://{full}", status=1, limits=Limits(file_bytes=4))
        self.assertEqual(sorted(path.name for path in full.rglob("*")), ["incoming"])
        self.vault("store", "set", f"file://{full}")
        self.assertEqual((full / MARK_NAME).read_bytes(), MARK)
        self.assertEqual((full / MARK_NAME).stat().st_mode & 0o777, 0o666 & ~umask())


def umask() -> int:
    """The bits that a new file doesn't get."""
    bits = os.umask(0)
    os.umask(bits)
    return bits


class Faults(WithStore):
    """A store that is full, away, read-only or damaged: the client says which, and nothing is written over."""

    def refused(self, error: Type[VaultError], *said: str) -> None:
        """A put that is refused, and leaves nothing."""
        claim = self.anna.checkout(["w:" + PART]).claim
        with self.assertRaises(error) as refused:
            self.parts.put(PART, self.file, claim)
        for word in said:
            self.assertIn(word, str(refused.exception))
        self.assertEqual(self.anna.checkin(claim), 0)

    def test_away(self) -> None:
        """If its disk isn't mounted, an empty folder stands in its place, and nothing is written into that."""
        self.put_version()
        self.store.rename(self.root / "unmounted")
        self.store.mkdir()
        self.refused(StoreAwayError, "Mount its disk")
        with self.assertRaises(StoreAwayError):
            self.parts.write_new(self.parts.get(PART), self.root / "back")
        self.assertEqual(list(self.store.iterdir()), [])
        self.store.rmdir()
        self.refused(StoreAwayError, "Mount its disk")
        (self.root / "unmounted").rename(self.store)
        self.put_version()

    def test_full(self) -> None:
        """By a limit of how long files may grow, which looks like a full disk to a program."""
        self.as_program()
        self.fill(b"bore 80", 300_000)
        claim = self.anna.checkout(["w:" + PART]).claim
        said = self.vault("put", PART, str(self.file), "--claim", claim, status=1, limits=Limits(file_bytes=200_000))
        self.assertIn(b"Make room there", said)
        self.assertEqual((self.entries(), self.entries("incoming")), ([], []))
        self.vault("put", PART, str(self.file), "--claim", claim)
        self.vault("checkin", claim)
        said = self.vault("get", PART, "--to", str(self.root / "back"), status=1, limits=Limits(file_bytes=200_000))
        self.assertIn(b"back can't be written: File too large. Make room, and try again.", said)
        self.assertFalse((self.root / "back").exists())
        self.assertIn(b"can't be written: No such file or directory", self.vault("get", PART, "--to", str(self.root / "none" / "back"), status=2))
        said = self.vault("get", PART, status=1, limits=Limits(file_bytes=200_000))
        self.assertIn(f"Standard output, by way of {tempfile.gettempdir()}, can't be written: File too large. Make room".encode(), said)

    def test_read_only(self) -> None:
        self.as_program()
        claim = self.anna.checkout(["w:" + PART]).claim
        rights = "-dac_override,-dac_read_search,-fowner"
        less = ["setpriv", "--bounding-set", rights, "--inh-caps", rights] if os.geteuid() == 0 else []
        (self.store / "incoming").chmod(0o555)
        said = self.vault("put", PART, str(self.file), "--claim", claim, status=1, before=less)
        self.assertIn(b"for the right to write", said)
        (self.store / "incoming").chmod(0o755)
        self.vault("put", PART, str(self.file), "--claim", claim, before=less)

    def test_changed_and_cut(self) -> None:
        """Refused by place, version and name of the bytes, and nothing is written; a put over them is refused, too."""
        card = self.put_version()
        path, back = self.path_of(card), self.root / "back"
        whole = path.read_bytes()
        for bad in (whole[:-1], whole + b"x", b"x" + whole[1:], b""):
            path.chmod(0o600)
            path.write_bytes(bad)
            with self.assertRaises(StoreFaultError) as refused:
                self.parts.write_new(self.parts.get(PART), back)
            for word in (f"version 1 of {PART}", self.address(), card.sha256, "was not written"):
                self.assertIn(word, str(refused.exception))
            self.refused(StoreFaultError, "damaged bytes", card.sha256)
            self.assertEqual((path.read_bytes(), back.exists()), (bad, False))
        self.as_program()
        self.assertIn(b"Standard output, by way of", self.vault("get", PART, status=1))
        path.unlink()
        with self.assertRaises(StoreFaultError):
            self.parts.write_new(self.parts.get(PART), back)
        self.put_version()
        self.assertEqual(path.read_bytes(), whole)
        self.assertEqual([name for name in os.listdir(self.root) if name.startswith(".vault-")], [])

    def test_a_link_in_the_store(self) -> None:
        """A folder in the place of bytes, and a link in their place that leads to other bytes."""
        card = self.put_version()
        path = self.path_of(card)
        path.unlink()
        path.mkdir()
        self.refused(StoreFaultError)
        path.rmdir()
        os.mkfifo(path)
        self.refused(StoreFaultError, "damaged bytes")
        path.unlink()
        path.symlink_to("/etc/passwd")
        with self.assertRaises(StoreFaultError):
            self.parts.write_new(self.parts.get(PART), self.root / "back")


class ByHand(WithStore):
    """Cards that somebody wrote by hand: bytes come only as the card's hash and size say, and only into the file that was named."""

    def card(self, **other: Any) -> Card:
        """Makes a version by a card that was changed by hand."""
        content = self.put_version()._replace(**other).spell()
        claim = self.anna.checkout(["w:" + PART]).claim
        self.anna.put(PART, content, claim)
        self.anna.checkin(claim)
        card = self.parts.get(PART).card
        assert card is not None
        return card

    def test_wrong_size_or_hash(self) -> None:
        other = self.put_version()
        self.fill(b"bore 81")
        cases: List[Dict[str, Any]] = [{"size": 1}, {"size": 10 ** 17}, {"sha256": "0" * 64}, {"sha256": other.sha256, "size": other.size + 1}]
        for wrong in cases:
            self.card(**wrong)
            with self.assertRaises(StoreFaultError):
                self.parts.write_new(self.parts.get(PART), self.root / "back")
            self.assertFalse((self.root / "back").exists())

    def test_names(self) -> None:
        """A name is only shown: what is written is the file that the designer named."""
        before = {path for path in self.root.rglob("*") if self.store not in path.parents}
        for number, name in enumerate(("../../evil", "/tmp/evil", "..", "\u202egpj.exe", "C:\\evil", "\u00fc" * 127, "CON", "-rf")):
            self.card(name=name)
            back = self.root / f"back{number}"
            self.parts.write_new(self.parts.get(PART), back)
            before.add(back)
        self.assertEqual({path for path in self.root.rglob("*") if self.store not in path.parents}, before)
        self.as_program()
        said = self.vault("history", PART).decode()
        self.assertIn("\\u202egpj.exe", said)
        self.assertNotIn("\u202e", said)


class Together(WithStore):
    """Clients and servers that end in between, and designers who put the same at once."""

    def test_killed_at_each_step(self) -> None:
        """At whichever step of a put the client is killed, no version comes of it without its bytes, and the next put goes through."""
        self.as_program()
        stepper = Stepper(self.environment())
        self.addCleanup(stepper.close)
        elsewhere = self.another(client=self.client_elsewhere()).client
        step, ended, with_draft = 0, "killed", 0
        while ended == "killed":
            self.fill(b"bore %d" % step)
            claim = elsewhere.checkout(["w:" + PART]).claim
            ended = stepper.run(step, "--patience", "5", "put", PART, str(self.file), "--claim", claim)
            with_draft += elsewhere.checkin(claim)
            self.names_what_is_there()
            if step % 5 == 0 or ended != "killed":
                self.put_through(b"behind %d" % step)
            step += 1
        self.assertEqual(ended, "0")
        self.assertGreater(step, 40)
        self.assertTrue(0 < with_draft < step, (with_draft, step))
        print(f"killed at {step - 1} steps", file=sys.stderr)

    def client_elsewhere(self) -> Client:
        """Anna, from a machine of her own."""
        client = Client("anna", "127.0.0.1", self.server.port, self.root / "elsewhere", settling=0.0)
        self.addCleanup(client.close)
        return client

    def put_through(self, about: bytes) -> None:
        """A whole round by the program."""
        self.fill(about)
        claim = self.as_json("checkout", "w:" + PART)["claim"]
        self.vault("put", PART, str(self.file), "--claim", claim)
        self.assertEqual(self.as_json("checkin", claim)["versions"], 1)
        self.names_what_is_there()

    def test_server_killed_in_between(self) -> None:
        """While the bytes are copied, before the draft is saved, and after it."""
        for number, cut in enumerate((None, *self.both())):
            self.fill(b"bore %d" % number)
            claim = self.anna.checkout(["w:" + PART]).claim
            self.cutter.meanwhile = self.restart
            parts = self.parts
            if cut is None:
                parts = Parts(self.anna, meter=lambda _what, _size: Meanwhile(self.restart))
            else:
                cut.append(b"save " + claim.encode() + b" " + PART.encode())
            parts.put(PART, self.file, claim)
            self.assertEqual(self.anna.checkin(claim), 1)
        self.assertEqual(self.names_what_is_there(), 3)

    def restart(self) -> None:
        """Kills the server and starts it again."""
        self.server.kill()
        self.server.start()

    def test_server_away_behind_the_bytes(self) -> None:
        """Nothing was saved then, and the next put goes through."""
        impatient = Parts(self.client("anna", patience=0.2), meter=lambda _what, _size: Meanwhile(self.server.kill))
        claim = self.anna.checkout(["w:" + PART]).claim
        self.anna.close()
        with self.assertRaises(UnreachableError):
            impatient.put(PART, self.file, claim)
        self.server.start()
        self.assertEqual(self.anna.kept_drafts(claim), {})
        self.parts.put(PART, self.file, claim)
        self.assertEqual((self.anna.checkin(claim), self.names_what_is_there()), (1, 1))

    def test_two_designers_at_once(self) -> None:
        """Both put the same bytes at once, again and again: both have versions of them, and they are there once."""
        self.anna.make(ROD)
        ben, odd = self.another(), []

        def work(parts: Parts, place: str) -> None:
            try:
                for _ in range(5):
                    claim = parts.client.checkout(["w:" + place]).claim
                    parts.put(place, self.file, claim)
                    parts.client.checkin(claim)
            except VaultError as error:
                odd.append(str(error))

        for number in range(4):
            self.fill(b"bore %d" % number, 2_000_000)
            workers = [threading.Thread(target=work, args=each) for each in ((self.parts, PART), (ben, ROD))]
            for worker in workers:
                worker.start()
            for worker in workers:
                worker.join(60)
        self.assertEqual(odd, [])
        self.assertEqual((self.names_what_is_there(), self.names_what_is_there(ROD)), (20, 20))
        self.assertEqual((len(self.entries()), self.entries("incoming")), (4, []))


class Meanwhile:
    """A progress meter that lets something happen while it runs."""

    def __init__(self, happens: Callable[[], None]):
        self.happens = happens

    def __enter__(self) -> Callable[[int], None]:
        self.happens()
        return lambda _bytes: None

    def __exit__(self, *_: object) -> None:
        """Nothing ends here."""


class Program(WithStore):
    """The program's words for files."""

    def test_a_round(self) -> None:
        content = self.fill(b"bore 80", 3_000_000)
        self.as_program()
        self.assertEqual(self.as_json("store"), {"command": "store", "done": True, "sentence": f"The vault keeps its files at {self.address()},"
                                                 " and you follow it.", "store": self.address(), "confirmed": self.address(), "here": None,
                                                 "notices": []})
        self.vault("checkout", "w:" + PART)
        self.assertEqual(self.as_json("put", PART, str(self.file))["bytes"], len(content))
        kept = self.root / "kept"
        self.vault("drafts", "c2", str(kept))
        self.assertEqual((kept / "engine.block.piston").read_bytes(), content)
        self.assertEqual(self.as_json("checkin", "c2", "-m", "larger bore")["noted"], 1)
        self.assertEqual(self.vault("get", PART), content)
        sha256 = hashlib.sha256(content).hexdigest()
        entry = self.as_json("history", PART)["versions"][0]
        self.assertEqual({key: entry[key] for key in entry if key != "at"}, {
            "place": PART, "version": 1, "bytes": len(content), "sha256": sha256, "name": NAME, "by": "anna", "note": "larger bore", "card": True})
        line = f"version 1: {len(content):,} bytes, sha256 {sha256[:12]}, {NAME}, anna, {entry['at'].replace('T', ' ')[:-1]} UTC: larger bore\n"
        self.assertEqual(self.vault("history", PART).decode(), line)
        self.assertIn("too many for one line", self.as_json("get", PART, status=2)["sentence"])
        self.assertEqual(self.as_json("get", PART, "--to", str(self.root / "back"))["name"], NAME)

    def test_words(self) -> None:
        self.vault("hello", f"ben@127.0.0.1:{self.server.port}")
        self.assertIn(b"you have confirmed none", self.vault("store"))
        self.assertIn(b"want an address", self.vault("store", "set", status=2))
        self.assertIn(b"no store's address", self.vault("store", "set", "/srv", status=2))
        self.assertIn(b"The vault names file://", self.vault("store", "confirm", "file:///srv/x", status=2))
        self.vault("store", "confirm", self.address())
        self.vault("checkout", "w:" + PART)
        self.assertIn(b"one line of 1 to 400 bytes", self.vault("checkin", "c2", "-m", "a\nb", status=2))
        self.assertIn(b"check it in", self.vault("checkin", "c2", "-m", "x", status=2).lower())

    def test_progress(self) -> None:
        """Somebody who looks sees how far a put is, and a history as a table."""
        self.as_program()
        self.fill(b"bore 80", 5_000_000)
        claim = self.anna.checkout(["w:" + PART]).claim
        said = self.on_a_terminal("put", PART, str(self.file), "--claim", claim)
        self.assertIn(NAME + ": ", said)
        self.assertIn("/5.00M", said)
        self.anna.checkin(claim)
        self.assertIn("\u2503", self.on_a_terminal("history", PART))

    def on_a_terminal(self, *words: str) -> str:
        """Runs the program on a terminal, and has it show progress however quick the work is."""
        start = "import vault.cli.output; vault.cli.output.METER_SECONDS = 0.0; from vault.cli.program import main; raise SystemExit(main())"
        path = os.pathsep.join(str(package / "src") for package in PACKAGES)
        terminal, other = pty.openpty()
        done = subprocess.Popen([sys.executable, "-c", start, *words], stdin=other, stdout=other, stderr=other,
                                env={**self.environment(), "PYTHONPATH": path, "COLUMNS": "200", "TERM": "xterm"})
        os.close(other)
        said = b""
        try:
            while more := os.read(terminal, 65536):
                said += more
        except OSError:
            pass
        os.close(terminal)
        self.assertEqual(done.wait(60), 0, said)
        return said.decode()

    def test_little_memory(self) -> None:
        """A put of 200 MB takes less than 60 MB of memory."""
        self.as_program()
        with open(self.file, "wb") as file:
            file.truncate(200_000_000)
        claim = self.anna.checkout(["w:" + PART]).claim
        words = [*program("vault"), "put", PART, str(self.file), "--claim", claim]
        code = ("import resource, subprocess, sys; subprocess.run(sys.argv[1:], check=True, stdout=subprocess.DEVNULL);"
                " print(resource.getrusage(resource.RUSAGE_CHILDREN).ru_maxrss)")
        done = subprocess.run([sys.executable, "-c", code, *words], env=self.environment(), capture_output=True, text=True, timeout=120, check=True)
        self.assertLess(int(done.stdout), 60_000)

    def test_no_server(self) -> None:
        self.assertIn(b"No server", self.vault("--as", f"anna@127.0.0.1:{free_port()}", "--patience", "0", "store", status=3))

    def test_the_mark(self) -> None:
        self.assertEqual((self.store / MARK_NAME).read_bytes(), MARK)
        self.assertEqual(place_of("ab" * 32), "sha256/ab/ab/" + "ab" * 32)


if __name__ == "__main__":
    unittest.main()
