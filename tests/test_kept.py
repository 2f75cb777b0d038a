"""No designer's work is lost by the client: a save at the wrong moment, another machine's draft, a store that lacks bytes, a file that gave way."""

import contextlib
import os
import stat
import subprocess
import time
import unittest
from pathlib import Path
from types import SimpleNamespace
from typing import Any, Callable, Iterator, List, Tuple
from unittest import mock

from servers import program
from stores import NAME, PART, ROD, WithStore
from test_working import WithFolder

from vault import Client, NotKnownError, RefusedError
from vault.files import system, transfer
from vault.files.looks import COARSE
from vault.store.card import read_card
from vault.store.parts import Parts
from vault.working.folder import read_folder

MINE = b"BORE 9!" * 1000


@contextlib.contextmanager
def behind_reading(path: Path, then: Callable[[], None]) -> Iterator[None]:
    """Has something happen once a file was read through its hash, and before anything is made of that."""
    read = transfer.hash_of
    done: List[bool] = []

    def hash_of(read_path: Path, *more: Any) -> Tuple[str, int]:
        """Reads it, and then that happens, once."""
        found = read(read_path, *more)
        if Path(read_path) == path and not done:
            done.append(True)
            then()
        return found

    with mock.patch.object(transfer, "hash_of", hash_of):
        yield


class Saved(WithFolder):
    """A save while the client reads a file, or right before it gives that another version."""

    def test_while_it_is_taken_for_a_version(self) -> None:
        """A killed get left a version's file that isn't remembered. It is saved into while its hash is read: it is changed, and stays."""
        path = self.work / NAME
        self.version(PART, NAME, b"bore 81" * 1000)
        path.chmod(0o644)
        path.write_bytes(b"bore 81" * 1000)
        with behind_reading(path, lambda: save_in_place(path, MINE)):
            self.got()
        self.assertTrue(self.states()[NAME].changed)
        self.got()
        self.assertEqual(path.read_bytes(), MINE)

    def test_while_it_is_compared(self) -> None:
        """The same while a look finds out whether a file is changed."""
        path = self.work / NAME
        os.utime(path)
        with behind_reading(path, lambda: save_in_place(path, MINE)):
            self.assertTrue(self.states()[NAME].changed)
        self.version(PART, NAME, b"bore 81")
        self.assertIn("was changed here", self.got().left[0][1])
        self.assertEqual(path.read_bytes(), MINE)

    def test_with_the_same_time(self) -> None:
        """Where times are of two seconds, a save right behind the reading has the time of the one before: it is looked into again."""
        path, even = self.work / NAME, (time.time_ns() // COARSE + 5) * COARSE
        os.utime(path, ns=(even, even))

        def save() -> None:
            save_in_place(path, MINE)
            os.utime(path, ns=(even, even))

        real = os.lstat

        def lstat(name: Any) -> Any:
            """Gives the time of whole seconds that such a disk gives to the change of an entry, too."""
            seen = real(name)
            fields = {key: getattr(seen, key) for key in dir(seen) if key.startswith("st_")}
            return SimpleNamespace(**{**fields, "st_ctime_ns": even}) if Path(name) == path else seen

        with mock.patch.object(os, "lstat", lstat), behind_reading(path, save):
            self.states()
            self.assertTrue(self.states()[NAME].changed)

    def test_before_it_gives_way(self) -> None:
        """A save between the look at a file and its newer version: the file stays, whichever way it was saved, and the others come."""
        for count, way in enumerate((save_in_place, save_by_another_name), 2):
            path, content = self.work / NAME, b"mine %d" % count
            self.version(PART, NAME, b"bore %d" % count)
            self.version(ROD, "Pleuel.SLDPRT", b"length %d" % count)
            with at_writing(lambda: way(path, content)):
                done = self.got()
            self.assertEqual(([name for name, _ in done.left], done.files), ([NAME], ["Pleuel.SLDPRT"]))
            self.assertIn("was changed right now", done.left[0][1])
            self.assertEqual(path.read_bytes(), content)
            self.assertTrue(self.states()[NAME].changed)
            self.version(PART, NAME, content)
            self.got()

    def test_at_the_change_of_names(self) -> None:
        """A save right before a file and its newer version change their names gets the name back, once or twice; and one right behind is no
        version."""
        path = self.work / NAME
        for number, way in enumerate((save_in_place, save_by_another_name), 2):
            self.version(PART, NAME, b"bore %d" % number)
            content = b"%d" % number + MINE
            with at_exchange(path, lambda: way(path, content)):
                left = self.got().left
            self.assertEqual((left[0][0], path.read_bytes()), (NAME, content))
            self.assertTrue(self.states()[NAME].changed)
            self.version(PART, NAME, content)
            self.got()
        saves = [b"mine", b"mine, too"]
        self.version(PART, NAME, b"bore 9")
        with at_exchange(path, lambda: save_by_another_name(path, saves.pop()), times=2):
            self.got()
        self.assertEqual(path.read_bytes(), b"mine")
        self.assertIn(b"mine, too", [each.path.read_bytes() for each in self.working().folder.kept_before()])
        self.version(PART, NAME, b"mine")
        self.got()
        self.version(PART, NAME, b"bore 10")
        with at_exchange(path, lambda: save_in_place(path, b"BORE 10"), behind=True):
            self.got()
        self.assertTrue(self.states()[NAME].changed)
        self.assertEqual([name for name in self.work.rglob("swap-*")], [])

    def test_without_a_change_of_names(self) -> None:
        """Where two files can't change their names, the old one is moved aside first. A program writes a new file by its name meanwhile: both
        are kept. If the new version can't get the name, the old one has it again."""
        path, link = self.work / NAME, os.link
        self.version(PART, NAME, b"bore 81")

        def linked(came: Any, name: Any) -> None:
            if Path(name) == path and Path(came).name.startswith("swap-"):
                path.write_bytes(MINE)
            link(came, name)

        def refused(came: Any, name: Any) -> None:
            if Path(came).name.startswith("swap-"):
                raise OSError(5, "Input/output error")
            link(came, name)

        with mock.patch("vault.working.disk.exchange", lambda *_: False):
            with mock.patch.object(os, "link", refused):
                self.assertEqual(self.got().failed, 1)
            self.assertEqual((path.read_bytes(), self.working().folder.kept_before()), (self.contents[PART], []))
            with mock.patch.object(os, "link", linked):
                left = self.got().left
            self.assertEqual((left[0][0], path.read_bytes()), (NAME, MINE))
            self.assertTrue(self.states()[NAME].changed)
            self.assertEqual([(each.place, each.version) for each in self.working().folder.kept_before()], [(PART, 1)])
            self.version(PART, NAME, MINE)
            self.got()
            self.version(PART, NAME, b"bore 82")
            self.assertEqual((self.got().files, path.read_bytes()), ([NAME], b"bore 82"))

    def test_killed_at_the_change_of_names(self) -> None:
        """What a killed get left under a name of its own is removed if it is the new version, and kept if it is what had the name before."""
        path = self.work / NAME
        for behind, kept in ((False, []), (True, [(0, self.contents[PART])])):
            self.version(PART, NAME, b"bore 8%d" % behind)
            with at_exchange(path, self.stop, behind=behind), mock.patch("vault.working.disk.remove_swap"), self.assertRaises(KeyboardInterrupt):
                self.got()
            self.got()
            self.assertEqual([(each.version, each.path.read_bytes()) for each in self.working().folder.kept_before() if not each.version], kept)
            self.assertEqual([name for name in self.work.rglob("swap-*")], [])
            (self.work / NAME).unlink()
            self.version(PART, NAME, self.contents[PART])
            self.got()

    @staticmethod
    def stop() -> None:
        """Ends what is done, as a kill would."""
        raise KeyboardInterrupt


class Before(WithFolder):
    """Files that gave way are kept, with what a program saves into one that it has open."""

    def setUp(self) -> None:
        super().setUp()
        self.as_program_here()

    def test_a_save_through_an_open_handle(self) -> None:
        """It is told by that get, by each status, and listed; it is brought back as a new file, into which the program saves from then on."""
        path, back = self.work / NAME, self.root / "back"
        path.chmod(0o644)
        with open(path, "r+b", buffering=0) as handle:
            self.version(PART, NAME, b"bore 81")
            with at_saving_the_folder(lambda: handle.write(MINE)):
                said = self.as_json("get", "/engine/block", "--to", str(self.work))
            self.assertEqual(path.read_bytes(), b"bore 81")
            handle.seek(0)
            handle.write(MINE)
            listed = self.as_json("before", str(self.work))["before"]
            self.assertEqual([(each["place"], each["version"], each["saved_since"]) for each in listed], [(PART, 1, True)], said)
            which = listed[0]["which"]
            told = self.vault("status", str(self.work)).decode()
            self.assertIn(f"saved since by a program that had it open: `vault before {self.work} {which} --to OTHER-FILE` brings that save", told)
            self.assertIn(f"{which}: {PART}, {NAME}, version 1, 7,000 bytes, saved since".encode(), self.vault("before", str(self.work)))
            self.vault("before", str(self.work), which, "--to", str(back))
            handle.seek(0)
            handle.write(b"bore 91")
            self.assertEqual(back.read_bytes(), b"bore 91" + MINE[7:])
        self.assertEqual(self.vault("before", str(self.work)), f"No file that gave way is kept in {self.work}.\n".encode())
        self.assertIn(b"Nothing is changed", self.vault("status", str(self.work)))
        self.assertIn(b"No file of", self.vault("before", str(self.work), which, "--to", str(back), status=2))
        self.assertIn(b"brings one back", self.vault("before", str(self.work), which, status=2))

    def test_told_by_the_get(self) -> None:
        """The get itself tells of a save that came while it went on."""
        path = self.work / NAME
        path.chmod(0o644)
        with open(path, "r+b", buffering=0) as handle:
            self.version(PART, NAME, b"bore 81")
            with at_saving_the_folder(lambda: handle.write(MINE)):
                done = self.got()
        self.assertEqual([(each.place, each.saved_since) for each in done.saved_aside], [(PART, True)])

    def test_another_name(self) -> None:
        """A file whose part gets another name is moved aside, too, and the new name is told."""
        self.version(PART, "Kolben 81.SLDPRT", b"bore 81")
        done = self.got()
        self.assertIn(("Kolben 81.SLDPRT", f"was {NAME} until now: {PART} has this name since version 2 or before"), done.told)
        kept = self.working().folder.kept_before()
        self.assertEqual([(each.place, each.version, each.path.read_bytes()) for each in kept], [(PART, 1, self.contents[PART])])

    def test_kept_for_some_days(self) -> None:
        """They go by the first get that is later than their days are; what was saved since counts from then; the days are remembered."""
        self.version(PART, NAME, b"bore 81")
        self.vault("get", "/engine/block", "--to", str(self.work), "--keep-days", "3")
        self.version(PART, NAME, b"bore 82")
        self.got()
        kept = self.working().folder.kept_before()
        self.assertEqual((len(kept), self.as_json("before", str(self.work))["keep_days"]), (2, 3))
        for each, old, since in zip(kept, (4, 4), (None, 1)):
            earlier = time.strftime("%Y%m%dT%H%M%S.000000Z", time.gmtime(time.time() - 86400 * old))
            path = each.path.with_name(each.path.name.replace(each.stamp, earlier))
            each.path.rename(path)
            if since is not None:
                path.chmod(0o644)
                path.write_bytes(b"saved")
                os.utime(path, (time.time() - 86400 * since,) * 2)
        self.got()
        self.assertEqual([each.version for each in self.working().folder.kept_before()], [2])
        self.assertIn(b"a number of days", self.vault("get", "/engine/block", "--to", str(self.work), "--keep-days", "0", status=2))
        self.assertIn(b"of a working folder", self.vault("get", PART, "--keep-days", "3", status=2))

    def test_what_lies_there_by_others(self) -> None:
        """Links and other files in that folder are passed over, and none of them is written through."""
        self.version(PART, NAME, b"bore 81")
        self.got()
        kept = self.working().folder.kept_before()
        top = self.work / ".vault/before"
        (top / "note").write_bytes(b"x")
        (top / "link").symlink_to(self.root)
        os.symlink(self.file, kept[0].path.with_name(kept[0].path.name.replace("-v1-", "-v2-")))
        self.assertEqual(self.working().folder.kept_before(), kept)
        elsewhere = self.root / "elsewhere"
        elsewhere.mkdir()
        valve = top / "engine/block/head"
        valve.symlink_to(elsewhere)
        self.version("/engine/block/head/valve", "Ventil links.SLDPRT", b"lift 10")
        self.assertEqual(list(elsewhere.iterdir()), [])
        self.vault("get", "/engine/block", "--to", str(self.work), status=2)
        self.assertEqual(list(elsewhere.iterdir()), [])

    def test_a_folder_on_another_mount(self) -> None:
        """Files come to an assembly's folder on another mount, and no empty one; what gives way there is kept there."""
        head = self.work / "head"
        for options in (("-t", "tmpfs", "tmpfs"), ("--bind", str(self.root / "bound"))):
            (self.root / "bound").mkdir(exist_ok=True)
            if subprocess.run(["mount", *options, str(head)], capture_output=True, check=False).returncode:
                self.skipTest("nothing can be mounted here: that needs root, and no container that forbids it")
            try:
                self.assertEqual(self.got().files, ["head/Ventil links.SLDPRT"])
                self.version("/engine/block/head/valve", "Ventil links.SLDPRT", b"lift %d" % len(options))
                self.assertEqual(self.got().files, ["head/Ventil links.SLDPRT"])
                self.assertEqual((head / "Ventil links.SLDPRT").read_bytes(), b"lift %d" % len(options))
                self.assertEqual([each.place for each in self.working().folder.kept_before()], ["/engine/block/head/valve"])
                self.assertEqual(self.got().files, [])
                self.assertEqual([path.name for path in head.iterdir() if path.name[:1] != "."], ["Ventil links.SLDPRT"])
            finally:
                subprocess.run(["umount", str(head)], check=True)

    def test_on_disk_before_it_is_remembered(self) -> None:
        """A file is synced, named, and its folder is synced, before what remembers its version is written."""
        said: List[Tuple[str, str]] = []
        fsync, swap, replace = os.fsync, system.exchange, os.replace

        def name_of(descriptor: int) -> str:
            return os.readlink(f"/proc/self/fd/{descriptor}")

        def synced(at: int) -> None:
            said.append(("sync", name_of(at)))
            fsync(at)

        def exchanged(came: Path, name: Path) -> bool:
            said.append(("name", str(name)))
            return swap(came, name)

        def replaced(came: Any, name: Any) -> None:
            said.append(("replace", str(name)))
            replace(came, name)

        self.version(PART, NAME, b"bore 81")
        with mock.patch.object(os, "fsync", synced), mock.patch("vault.working.disk.exchange", exchanged), \
                mock.patch.object(os, "replace", replaced):
            self.got()
        named = said.index(("name", str(self.work / NAME)))
        self.assertTrue(any(what == "sync" and "/.vault/new-" in name for what, name in said[:named]), said)
        remembered = said.index(("replace", str(self.work / ".vault/folder.json")), named)
        self.assertIn(("sync", str(self.work)), said[named:remembered])
        self.assertIn(("sync", str(self.work / ".vault/before/engine/block/piston")), said[named:remembered])


class Machines(WithStore):
    """A draft whose reply is lost at the desk, and another machine of the same designer."""

    def lost(self, before: bool) -> str:
        """A draft that the desk sends while the server goes away: it never arrives, or it is saved and the reply is lost. Its check-out."""
        claim = self.anna.checkout(["w:" + PART]).claim
        (self.cutter.before if before else self.cutter.after).append(f"save {claim} {PART} ".encode())
        short = self.client("anna", patience=0.0)
        begin = short._start_afresh

        def away() -> None:
            self.server.kill()
            begin()

        setattr(short, "_start_afresh", away)
        with self.assertRaises(NotKnownError):
            Parts(short).put(PART, self.file, claim)
        self.server.start()
        self.cutter.lines.clear()
        return claim

    def laptop(self, claim: str) -> bytes:
        """A newer draft from another machine, and its bytes."""
        laptop = Client("anna", "127.0.0.1", self.server.port, self.root / "laptop", 10.0, 0.05, self.notices.append)
        self.addCleanup(laptop.close)
        newer = self.root / "newer"
        newer.write_bytes(b"bore 95" * 1000)
        self.another(client=laptop).put(PART, newer, claim)
        return newer.read_bytes()

    def check_version(self, claim: str, content: bytes) -> None:
        """Checks in, and that the version has these bytes."""
        desk = self.client("anna")
        desk.checkin(claim)
        card = read_card(desk.get(PART))
        assert card is not None
        self.assertEqual(self.path_of(card).read_bytes(), content)

    def test_a_newer_draft_stays(self) -> None:
        """Whatever the desk says next, asking or changing, the laptop's newer draft stays, and becomes the version."""
        for before in (True, False):
            with self.subTest(before=before):
                claim = self.lost(before)
                newer = self.laptop(claim)
                desk = self.client("anna")
                desk.who("/")
                desk.make(f"/engine/block/p{int(before)}")
                self.assertEqual(self.sent(b"save " + claim.encode() + b" " + PART.encode()), 0)
                self.assertIn("has another draft of " + PART, self.notices[-1])
                self.check_version(claim, newer)

    def test_not_by_one_that_asks(self) -> None:
        """Where the server still has the draft that was to be replaced, a command that asks says so and sends nothing; the next one that
        changes something sends it."""
        claim = self.lost(True)
        desk = self.client("anna")
        desk.who("/")
        desk.mine()
        self.assertEqual((self.sent(b"save " + claim.encode() + b" " + PART.encode()), desk.drafts(claim)), (0, []))
        self.assertEqual(sum("sends it again first" in notice for notice in self.notices), 1)
        desk.make("/engine/block/p")
        self.assertEqual(self.sent(b"save " + claim.encode() + b" " + PART.encode()), 1)
        self.assertIn(f"Your earlier `put {PART}` was done.", self.notices)
        self.check_version(claim, self.file.read_bytes())

    def test_saved_before_its_reply_was_lost(self) -> None:
        """It is found to be done by a question, and isn't sent again."""
        claim = self.lost(False)
        desk = self.client("anna")
        desk.mine()
        self.assertIn(f"Your earlier `put {PART}` was done.", self.notices)
        self.assertEqual(self.sent(b"save " + claim.encode() + b" " + PART.encode()), 0)

    def test_before_a_check_in(self) -> None:
        """A check-in sends it first, and then looks for its bytes, too: it is refused if they are nowhere."""
        claim = self.lost(True)
        for path in (self.store / "sha256").rglob("*"):
            if path.is_file():
                path.unlink()
        kept = self.file.read_bytes()
        self.file.unlink()
        parts = Parts(self.client("anna"))
        with self.assertRaisesRegex(RefusedError, f"lacks the bytes of {PART}"):
            parts.checkin(claim)
        self.file.write_bytes(kept)
        self.assertEqual((parts.checkin(claim), self.names_what_is_there()), (1, 1))

    def test_in_a_check_out_that_ended(self) -> None:
        """The check-out was given up elsewhere: nothing is sent, and that is told."""
        claim = self.lost(True)
        laptop = Client("anna", "127.0.0.1", self.server.port, self.root / "laptop")
        laptop.abandon(claim)
        laptop.close()
        self.client("anna").make("/engine/block/p")
        self.assertIn(f"Your earlier `put {PART}`: {claim} is gone", self.notices[-1])


class Checkin(WithFolder):
    """A check-in asks the store for the bytes of each draft."""

    def setUp(self) -> None:
        super().setUp()
        self.as_program_here()
        self.claim = self.anna.checkout(["w:/engine/block"]).claim

    def lose(self, place: str = PART) -> None:
        """Takes the bytes of a draft out of the store."""
        card = read_card(self.anna.all_drafts(self.claim)[place])
        assert card is not None
        self.path_of(card).unlink()

    def test_put_again(self) -> None:
        """What the store lacks is put again from the file that still has it, by the check-out's number and by its folder."""
        self.fill(b"bore 81")
        self.vault("put", PART, str(self.file))
        self.lose()
        self.vault("checkin", self.claim)
        self.names_what_is_there()
        self.claim = self.anna.checkout(["w:/engine/block"]).claim
        self.got()
        (self.work / NAME).write_bytes(MINE)
        self.vault("put", str(self.work))
        self.lose()
        self.vault("checkin", str(self.work))
        self.assertEqual(self.names_what_is_there(), 3)

    def test_refused(self) -> None:
        """If no file has it any more, nothing is checked in, and the parts are named."""
        for place in (PART, ROD):
            self.fill(place.encode())
            self.vault("put", place, str(self.file))
            self.lose(place)
        said = self.vault("checkin", self.claim, status=1)
        self.assertIn(f"lacks the bytes of {PART}, drafts in {self.claim}, and no file here has them any more, so nothing"
                      " was checked in".encode(), said)
        self.assertEqual((self.anna.held(), len(list(self.anna.history(PART)))), ({self.claim: ("w:/engine/block",)}, 1))
        self.vault("put", PART, str(self.file))
        self.vault("checkin", self.claim)
        self.names_what_is_there()

    def test_a_store_that_is_another_now(self) -> None:
        """The vault names another store between the put and the check-in: the bytes are put there, and else it is refused."""
        self.fill(b"bore 81")
        self.vault("put", PART, str(self.file))
        self.store = self.root / "other"
        self.vault("store", "set", self.address())
        self.vault("checkin", self.claim)
        card = self.parts.get(PART).card
        assert card is not None
        self.assertEqual(self.path_of(card).read_bytes(), self.file.read_bytes())

    def test_store_check_looks_at_drafts(self) -> None:
        self.fill(b"bore 81")
        self.vault("put", PART, str(self.file))
        self.assertIn(b"Each of 3 versions of files and of 1 drafts of yours has its bytes", self.vault("store", "check"))
        self.lose()
        said = self.as_json("store", "check", status=1)
        self.assertEqual((said["drafts"], [(bad["place"], bad["version"]) for bad in said["bad"]]), (1, [(PART, 0)]))
        self.assertIn(f"your draft of {PART}", said["notices"][0])


class Put(WithFolder):
    """What put does with names, and with files that can't be read."""

    def setUp(self) -> None:
        super().setUp()
        self.as_program_here()

    def test_the_name_stays(self) -> None:
        """Another file's name doesn't change the part's, for a version and for a draft; `--name` does, and get tells that."""
        self.vault("checkout", "w:/engine/block")
        other = self.root / "export (3).SLDPRT"
        other.write_bytes(b"bore 81")
        self.vault("put", PART, str(other))
        self.assertEqual(self.vault("checkin", "c5"), b"c5 is checked in: 1 new version.\n")
        self.assertEqual(self.as_json("history", PART)["versions"][-1]["name"], NAME)
        self.vault("checkout", "w:/engine/block")
        self.vault("put", PART, str(other), "--name", "Kolben 81.SLDPRT")
        self.vault("put", PART, str(other))
        self.vault("checkin", "c6")
        said = self.as_json("get", "/engine/block", "--to", str(self.work))
        self.assertIn(f"Kolben 81.SLDPRT was {NAME} until now", " ".join(said["notices"]))
        self.anna.make("/engine/block/pin")
        self.vault("checkout", "w:/engine/block/pin")
        self.vault("put", "/engine/block/pin", str(other))
        self.vault("checkin", "c7")
        self.assertEqual(self.as_json("history", "/engine/block/pin")["versions"][-1]["name"], other.name)

    def test_names_that_windows_does_not_take(self) -> None:
        """They are told by put and add, with the reason, and a folder gets the part's own name."""
        self.vault("checkout", "w:/engine/block")
        for name, why in (("con", "is a device to Windows"), ("aux.prt", "is a device to Windows"), ("a.", "ends with a dot"), ("a ", "ends with a"),
                          ("a<b", "has `<`"), ("a?b", "has `?`"), ("a:b", "has `:`")):
            path = self.work / name
            path.write_bytes(b"bore 81")
            self.assertIn(why, self.vault("add", str(path), status=2).decode(), name)
            said = self.as_json("put", PART, str(path), "--name", name)
            self.assertIn(why, said["notices"][0], name)
            path.unlink()
        self.vault("checkin", "c5")
        self.got()
        self.assertIn("piston", self.files())

    def test_a_name_that_the_disk_refuses(self) -> None:
        """The file comes by its part's own name, which is told."""
        self.version(PART, "K\u00f6lbchen.SLDPRT", b"bore 81")
        link = os.link

        def refused(came: Any, name: Any) -> None:
            if "\u00f6" in Path(name).name:
                raise OSError(22, "Invalid argument")
            link(came, name)

        with mock.patch.object(os, "link", refused), mock.patch.object(system, "rename_no_replace", lambda *_: 22), \
                mock.patch.object(system, "rename_in_two_steps", refused):
            done = self.got()
        self.assertEqual(done.files, ["piston"])
        self.assertIn("this disk doesn't take", done.told[0][1])
        self.assertEqual(self.got().files, [])

    def test_past_one_that_can_not_be_read(self) -> None:
        """The others are put, it is told, and the status is 1; its check-out isn't checked in without it."""
        claim = self.anna.checkout(["w:/engine/block"]).claim
        self.got()
        (self.work / NAME).unlink()
        os.mkfifo(self.work / NAME)
        (self.work / "Pleuel.SLDPRT").write_bytes(b"length 145")
        said = self.as_json("put", str(self.work), status=1)
        self.assertEqual((said["files"], [left["file"] for left in said["left"]]), (["Pleuel.SLDPRT"], [NAME]))
        self.assertIn("1 file of", said["sentence"])
        self.assertIn(b"takes in a file that can't be put, so nothing was checked in", self.vault("checkin", str(self.work), status=1))
        self.assertEqual(list(self.anna.held()), [claim])
        (self.work / NAME).unlink()
        (self.work / NAME).write_bytes(b"bore 81")
        self.vault("checkin", str(self.work))

    @unittest.skipUnless(os.geteuid() == 0, "only root has another user try")
    def test_past_one_without_rights(self) -> None:
        """The same of a file that another user may not read."""
        self.anna.checkout(["w:/engine/block"])
        self.got()
        (self.work / NAME).write_bytes(MINE)
        (self.work / NAME).chmod(0)
        (self.work / "Pleuel.SLDPRT").write_bytes(b"length 145")
        os.chmod(self.root, 0o777)
        for path in [self.root, *self.root.rglob("*")]:
            os.chown(path, 65534, 65534, follow_symlinks=False)
        os.chown(self.work / NAME, 0, 0)
        done = subprocess.run([*program("vault"), "put", str(self.work)], env=self.environment(), capture_output=True, check=False, user=65534)
        self.assertEqual(done.returncode, 1, done)
        self.assertIn(f"{NAME} can't be read: Permission denied".encode(), done.stderr)
        self.assertIn(b"Pleuel.SLDPRT is a draft", done.stderr)
        told = subprocess.run([*program("vault"), "status", str(self.work)], env=self.environment(), capture_output=True, check=True, user=65534)
        self.assertIn(f"{NAME}: can't be read: Permission denied".encode(), told.stdout)


class Modes(WithFolder):
    """Files that no check-out of the designer covers are read-only."""

    def setUp(self) -> None:
        super().setUp()
        self.as_program_here()
        self.vault("get", "/engine/block", "--to", str(self.work))

    def writable(self, work: str = "") -> List[str]:
        """The files that may be written."""
        top = Path(work) if work else self.work
        return sorted(path.relative_to(top).as_posix() for path in top.rglob("*") if path.is_file() and ".vault" not in path.parts
                      and path.stat().st_mode & stat.S_IWUSR)

    def test_by_check_outs(self) -> None:
        """Writable while a check-out covers them: a new one, an extension, a wait that ended; read-only behind a check-in or an abandon."""
        self.assertEqual(self.writable(), [])
        self.vault("checkout", "w:" + PART)
        self.assertEqual(self.writable(), [NAME])
        self.vault("extend", "c5", "w:" + ROD)
        self.assertEqual(self.writable(), [NAME, "Pleuel.SLDPRT"])
        (self.work / NAME).write_bytes(b"bore 81")
        self.vault("checkin", str(self.work))
        self.assertEqual(self.writable(), [])
        self.vault("checkout", "w:/engine/block")
        self.assertEqual(len(self.writable()), 3)
        self.version_by_another()
        self.vault("abandon", "c6")
        self.assertEqual(self.writable(), [])
        self.assertIn(b"Nothing is changed", self.vault("status", str(self.work)))

    def version_by_another(self) -> None:
        """Nothing is read by a look at modes alone: files are as they are remembered."""
        began = {path: path.stat().st_atime_ns for path in self.work.iterdir() if path.is_file()}
        self.states()
        self.assertEqual({path: path.stat().st_atime_ns for path in began}, began)

    def test_a_gift(self) -> None:
        """A check-out that was given away makes files read-only, and one that was received makes them writable once status sees it."""
        self.vault("checkout", "w:" + PART)
        self.vault("give", "c5", "ben", "--yes")
        self.assertEqual(self.writable(), [])
        self.client("ben").give("c5", "anna")
        self.assertEqual(self.writable(), [])
        self.vault("status", str(self.work))
        self.assertEqual(self.writable(), [NAME])

    def test_what_comes_by_a_get(self) -> None:
        """A new version comes writable where it is checked out, and read-only else; a new file and one that was changed stay writable."""
        self.version(PART, NAME, b"bore 81")
        self.vault("checkout", "w:" + ROD)
        (self.work / "Ventil links.SLDPRT").unlink(missing_ok=True)
        (self.work / "head/Ventil links.SLDPRT").chmod(0o644)
        (self.work / "head/Ventil links.SLDPRT").write_bytes(b"mine")
        (self.work / "Bolzen.SLDPRT").write_bytes(b"pin")
        self.vault("add", str(self.work / "Bolzen.SLDPRT"))
        self.vault("get", "/engine/block", "--to", str(self.work))
        self.assertEqual(self.writable(), ["Bolzen.SLDPRT", "Pleuel.SLDPRT", "head/Ventil links.SLDPRT"])

    def test_a_folder_that_wants_none_of_it(self) -> None:
        """With `--writable` all are, from then on; and those that are there become so."""
        self.vault("get", "/engine/block", "--to", str(self.work), "--writable")
        self.assertEqual(len(self.writable()), 3)
        self.version(PART, NAME, b"bore 81")
        self.vault("get", "/engine/block", "--to", str(self.work))
        self.assertEqual(len(self.writable()), 3)
        folder = read_folder(self.work)
        assert folder is not None
        self.assertTrue(folder.writable)

    @unittest.skipUnless(os.geteuid() == 0, "only root has another user try")
    def test_said_at_the_first_save(self) -> None:
        """A program of a user without root's rights can't save a part that isn't checked out."""
        for path in [self.root, *self.root.rglob("*")]:
            os.chown(path, 65534, 65534, follow_symlinks=False)
        os.chmod(self.root, 0o777)
        save = ["sh", "-c", 'echo mine > "$0"', str(self.work / NAME)]
        self.assertNotEqual(subprocess.run(save, user=65534, capture_output=True, check=False).returncode, 0)
        self.vault("checkout", "w:" + PART)
        self.assertEqual(subprocess.run(save, user=65534, capture_output=True, check=False).returncode, 0)


class Systems(WithStore):
    """What only some systems have."""

    def test_the_way_here(self) -> None:
        """A designer follows the vault's store by this machine's own way to it, which has to lead to a store."""
        self.as_program()
        moved = self.root / "mnt store"
        self.store.rename(moved)
        address = self.address()
        self.assertIn(b"is not there", self.vault("store", "confirm", address, "--here", str(self.root / "none"), status=3))
        for wrong in ("store", "../store", "/", "file:store", "a\nb"):
            self.assertIn(b"way to a store" if not wrong.startswith("file") else b"no store's address",
                          self.vault("store", "confirm", address, "--here", wrong, status=2), wrong)
        self.assertIn(f"here by {moved}".encode(), self.vault("store", "confirm", address, "--here", str(moved)))
        self.assertIn(f"and you follow it, here by {moved}".encode(), self.vault("store"))
        self.vault("checkout", "w:" + PART)
        self.vault("put", PART, str(self.file))
        self.vault("checkin", "c2")
        self.store = moved
        self.assertEqual(self.vault("get", PART), self.file.read_bytes())
        self.names_what_is_there()
        self.vault("store", "confirm", address, "--here", f"file://{str(moved).replace(' ', '%20')}")
        self.assertEqual(self.vault("get", PART), self.file.read_bytes())
        self.assertIn(b"is this machine's way", self.vault("store", "--here", str(moved), status=2))
        self.vault("store", "confirm", address)
        self.assertIn(b"is not there", self.vault("checkout", "w:" + PART) and self.vault("put", PART, str(self.file), status=3))

    def test_held_open(self) -> None:
        """A file that a program holds open is tried again for some seconds, and then that is told."""
        target, tries = self.root / "target", []
        replace = os.replace

        def held(came: Any, path: Any) -> None:
            tries.append(path)
            if len(tries) < 3:
                raise OSError(16, "Device or resource busy")
            replace(came, path)

        self.file.write_bytes(b"x")
        with mock.patch.object(os, "replace", held), mock.patch.object(system, "HELD_PAUSE_SECONDS", 0.01):
            system.replace(self.file, target)
            self.assertEqual((len(tries), target.read_bytes()), (3, b"x"))
            self.file.write_bytes(b"y")
            tries.clear()
            with mock.patch.object(system, "HELD_SECONDS", 0.0), self.assertRaisesRegex(system.HeldOpenError, "is held open by another program"):
                system.replace(self.file, target)
        self.assertEqual(target.read_bytes(), b"x")

    def test_without_links(self) -> None:
        """A new name on a disk without links replaces nothing, also where the system has no call for that; and no empty file stays."""
        for without in (False, True):
            came, path = self.root / "came", self.root / "named"
            came.write_bytes(b"x")
            refused = OSError(1, "Operation not permitted")
            with mock.patch.object(os, "link", side_effect=refused), contextlib.ExitStack() as more:
                if without:
                    more.enter_context(mock.patch.object(system, "rename_no_replace", lambda *_: 38))
                system.rename_new(came, path)
                came.write_bytes(b"y")
                with self.assertRaises(FileExistsError):
                    system.rename_new(came, path)
                self.assertEqual((path.read_bytes(), came.read_bytes()), (b"x", b"y"))
                path.unlink()
                if without:
                    with mock.patch.object(os, "replace", side_effect=OSError(18, "Invalid cross-device link")), self.assertRaises(OSError):
                        system.rename_new(came, path)
                    self.assertFalse(path.exists())

    def test_older_servers_and_states(self) -> None:
        """A command that an older client left under way says nothing of what it replaces: it is told, and not sent."""
        claim = self.anna.checkout(["w:" + PART]).claim
        with self.anna.memory.locked(lambda: None):
            from vault.client.memory import Command
            self.anna.memory.begin(Command("put", f"save {claim} {PART} 78", claim, PART))
        self.cutter.lines.clear()
        self.client("anna").make("/engine/block/p")
        self.assertIn("can't be found out at this server", self.notices[-1])
        self.assertEqual(self.sent(b"save " + claim.encode() + b" " + PART.encode()), 0)
        with self.assertRaises(RefusedError):
            self.anna.draft(claim, PART)


def save_in_place(path: Path, content: bytes) -> None:
    """Saves a file as programs do that write into it; its mode is no obstacle, as root and some programs have none."""
    path.chmod(0o644)
    with open(path, "r+b") as file:
        file.write(content)
        file.truncate()


def save_by_another_name(path: Path, content: bytes) -> None:
    """Saves a file as CAD programs do: another one is written, and gets its name."""
    beside = path.with_name("save.tmp")
    beside.write_bytes(content)
    beside.replace(path)


@contextlib.contextmanager
def at_writing(then: Callable[[], None]) -> Iterator[None]:
    """Has something happen once, when the bytes of a version were written and the file hasn't its name yet."""
    write = Parts.write
    done: List[bool] = []

    def written(parts: Parts, *words: Any, **more: Any) -> None:
        write(parts, *words, **more)
        if not done:
            done.append(True)
            then()

    with mock.patch.object(Parts, "write", written):
        yield


@contextlib.contextmanager
def at_saving_the_folder(then: Callable[[], Any]) -> Iterator[None]:
    """Has something happen when what is remembered is saved, behind the files."""
    from vault.working.folder import Folder
    save = Folder.save

    def saved(folder: Folder) -> None:
        if folder.moved_aside:
            then()
        save(folder)

    with mock.patch.object(Folder, "save", saved):
        yield


@contextlib.contextmanager
def at_exchange(path: Path, then: Callable[[], Any], behind: bool = False, times: int = 1) -> Iterator[None]:
    """Has something happen right before a file and its newer version change their names, or right behind that, so many times."""
    swap, left = system.exchange, [times]

    def exchanged(one: Path, other: Path) -> bool:
        due = other == path and left[0] > 0
        left[0] -= due
        if due and not behind:
            then()
        done = swap(one, other)
        if due and behind:
            then()
        return done

    with mock.patch("vault.working.disk.exchange", exchanged):
        yield
