"""Working folders: a whole assembly as files, by the names that their cards say, and nothing lost or written elsewhere."""

import errno
import hashlib
import json
import os
import random
import time
import unicodedata
import unittest
from pathlib import Path
from typing import Any, Callable, Dict, List, Optional, Sequence, Tuple
from unittest import mock

from servers import MEMORY, Server
from stepping import Stepper
from stores import NAME, PART, ROD, WithStore

from vault import Client, MisusedError, NotKnownError, RefusedError, UnreachableError, VaultError
from vault.client.many import Saving
from vault.store.card import Card, now
from vault.working.folder import Folder, find_folder, read_folder
from vault.files import system
from vault.files.names import candidates, choose_name, folded, part_name, usable
from vault.store.parts import Parts
from vault.working.found import State
from vault.working.opening import folder_for
from vault.working.told import Done
from vault.working import Working

VALVE = "/engine/block/head/valve"
ENGINE = "/engine"


class Names(unittest.TestCase):
    """What may be a file's name, on every system."""

    def test_usable(self) -> None:
        for name in (NAME, "a", "\u00fc" * 127, "a.b.c", "-rf", "Kolben (rod).prt", "console.txt", "com10", "\u6d3b\u585e.prt"):
            self.assertTrue(usable(name), name)
        for name in ("", ".", "..", "../x", "a/b", "a\\b", "/etc/passwd", "C:x", "a:b", "a?", "a*", "a|b", "<a>", 'a"b', ".vault", ".VAULT",
                     ".bashrc", "VAULT~1", "vault~12", "CON", "con.txt", "Nul", "aux .prt", "COM1", "lpt9.x", "com\u00b9", "CONIN$", "a.", "a ", " a",
                     "a\n",
                     "a\x7f", "a\u202eb", "a\u200db", ".v\u200cault", "\udc80", "\u00fc" * 128):
            self.assertFalse(usable(name), name)

    def test_chosen(self) -> None:
        """If a name can't be, or is taken in any case or spelling of umlauts, the part's own stands in its place or beside it."""
        taken = {folded("kolben.PRT"), folded(unicodedata.normalize("NFD", "St\u00fcck"))}
        for wanted, chosen in (("Kolben.prt", "Kolben (rod).prt"), ("../x", "rod"), ("St\u00fcck", "St\u00fcck (rod)"), ("STRASSE", "STRASSE"),
                               ("x" * 255, "x" * 255)):
            self.assertEqual(choose_name(wanted, "rod", taken), chosen)
        self.assertEqual(choose_name("con", "con", set()), "con_2")
        names = candidates("x" * 255, "rod")
        self.assertEqual(choose_name("x" * 255, "rod", {folded(next(names)), folded("rod")}), "rod_2")
        self.assertEqual(folded("STRASSE"), folded("stra\u00dfe"))

    def test_parts(self) -> None:
        """A part's name has what a place's may have, and is another than those that are taken."""
        for file, name in ((NAME, "kolben_80_sldprt"), ("a", "a"), ("\u00fc", "__"), ("x" * 40 + ".prt", "x" * 32)):
            self.assertEqual(part_name(file, set()), name)
        self.assertEqual(part_name("a.b", {"a_b", "a_b_2"}), "a_b_3")
        self.assertEqual(part_name("x" * 40, {"x" * 32}), "x" * 30 + "_2")


class WithFolder(WithStore):
    """An assembly of three parts, one in an assembly inside it, with a version each; and a working folder of it."""

    def setUp(self) -> None:
        super().setUp()
        self.anna.nest("/engine/block/head")
        for place in (ROD, VALVE):
            self.anna.make(place)
        self.contents = {PART: b"bore 80" * 1000, ROD: b"length 144" * 1000, VALVE: b"lift 9" * 1000}
        for place, name in ((PART, NAME), (ROD, "Pleuel.SLDPRT"), (VALVE, "Ventil links.SLDPRT")):
            self.version(place, name, self.contents[place])
        self.work = self.root / "work"
        self.got()

    def version(self, place: str, name: str, content: bytes) -> None:
        """Makes a version of a file by such a name, which is written by hand into its card if no file has it."""
        self.file.write_bytes(content)
        claim = self.anna.checkout(["w:" + place]).claim
        put = self.parts.put(place, self.file, claim)
        self.anna.put(place, Card(put.sha256, put.size, name, "anna", now()).spell(), claim)
        self.anna.checkin(claim)

    def working(self, parts: Optional[Parts] = None, place: str = ENGINE + "/block", work: Optional[Path] = None) -> Working:
        """The working folder, as a run of the program has it."""
        return Working(parts or self.parts, folder_for(parts or self.parts, place, work or self.work))

    def got(self, place: str = ENGINE + "/block", work: Optional[Path] = None) -> Done:
        """Gets the assembly."""
        working = self.working(place=place, work=work)
        with working.folder.locked():
            return working.get()

    def as_program_here(self) -> None:
        """Prepares for runs of the program in the same working folder: at the address that it was got from."""
        self.vault("hello", f"anna@127.0.0.1:{self.cutter.port}")
        self.vault("store", "confirm", self.address())

    def states(self) -> Dict[str, State]:
        """How the files stand."""
        return {state.file: state for state in self.working().states()}

    def files(self, folder: Optional[Path] = None) -> Dict[str, bytes]:
        """The files of a folder, except the client's own."""
        top = folder or self.work
        return {path.relative_to(top).as_posix(): path.read_bytes() for path in sorted(top.rglob("*"))
                if path.is_file() and ".vault" not in path.relative_to(top).parts}


class Get(WithFolder):
    """An assembly comes as files, and what was changed here stays."""

    def test_whole(self) -> None:
        wanted = {NAME: self.contents[PART], "Pleuel.SLDPRT": self.contents[ROD], "head/Ventil links.SLDPRT": self.contents[VALVE]}
        self.assertEqual(self.files(), wanted)
        engine = self.root / "engine"
        self.assertEqual(len(self.got(ENGINE, engine).files), 3)
        self.assertEqual(self.files(engine), {"block/" + name: content for name, content in wanted.items()})
        self.assertEqual(sorted(os.listdir(self.work / ".vault")), ["folder.json", "lock"])

    def test_nothing_changed(self) -> None:
        """A second get asks only for counts, and reads no file."""
        # Nothing has read the files yet: with relatime only the first reading shows.
        began = {path: path.stat().st_atime_ns for path in self.work.rglob("*.SLDPRT")}
        self.cutter.lines.clear()
        done = self.got()
        self.assertEqual((done.files, done.left, self.sent(b"fetch")), ([], [], 0))
        self.assertEqual({path: path.stat().st_atime_ns for path in began}, began)

    def test_newer_and_missing(self) -> None:
        (self.work / "Pleuel.SLDPRT").unlink()
        self.version(PART, NAME, b"bore 81")
        self.assertEqual(sorted(self.got().files), [NAME, "Pleuel.SLDPRT"])
        self.assertEqual(self.files()[NAME], b"bore 81")
        self.assertEqual(self.got().files, [])

    def test_changed_here(self) -> None:
        """It stays, whether there is a newer version or not. If it has the same bytes as that version, it counts as that version."""
        (self.work / NAME).write_bytes(b"mine")
        self.assertEqual(self.got().left, [])
        self.version(PART, NAME, b"bore 81")
        left = self.got().left
        self.assertEqual((left[0][0], self.files()[NAME]), (NAME, b"mine"))
        self.assertIn("version 2", left[0][1])
        (self.work / NAME).write_bytes(b"bore 81")
        self.assertEqual(self.got().left, [])
        self.assertEqual((self.states()[NAME].version, self.states()[NAME].changed), (2, False))

    def test_changed_without_another_time(self) -> None:
        """A file of as many bytes and the same time is looked into, since it shows when that time was set."""
        path = self.work / NAME
        seen = path.stat()
        time.sleep(0.02)          # longer than a tick, by which some systems set that time
        path.write_bytes(b"BORE 80" * 1000)
        os.utime(path, ns=(seen.st_atime_ns, seen.st_mtime_ns))
        self.assertTrue(self.states()[NAME].changed)

    def test_in_the_way(self) -> None:
        """A file that was there before stays, unless it has the version's bytes."""
        other = self.root / "other"
        other.mkdir()
        (other / "note").write_bytes(b"x")
        with self.assertRaises(MisusedError):
            self.got(work=other)
        self.anna.make("/engine/block/pin")
        self.version("/engine/block/pin", "Bolzen.SLDPRT", b"pin")
        (self.work / "Bolzen.SLDPRT").write_bytes(b"mine")
        self.assertIn("is there already", self.got().left[0][1])
        (self.work / "Bolzen.SLDPRT").write_bytes(b"pin")
        self.assertEqual(self.got().left, [])
        self.assertEqual(self.states()["Bolzen.SLDPRT"].version, 1)

    def test_renamed_in_the_vault(self) -> None:
        """The file has the new name then; one that was changed here keeps the old one."""
        self.version(PART, "Kolben 81.SLDPRT", b"bore 81")
        (self.work / "Pleuel.SLDPRT").write_bytes(b"mine")
        self.version(ROD, "Pleuel 2.SLDPRT", b"length 145")
        self.got()
        self.assertEqual(sorted(self.files()), ["Kolben 81.SLDPRT", "Pleuel.SLDPRT", "head/Ventil links.SLDPRT"])
        self.assertEqual(self.files()["Pleuel.SLDPRT"], b"mine")

    def test_renamed_while_it_is_changed(self) -> None:
        """The file by the old name is saved while the new one comes: it stays, and is told."""
        self.version(PART, "Kolben 81.SLDPRT", b"bore 81")
        write = self.parts.write

        def meanwhile(*words: Any) -> None:
            write(*words)
            (self.work / NAME).write_bytes(b"mine")

        with mock.patch.object(self.parts, "write", meanwhile):
            done = self.got()
        self.assertEqual((done.files, [name for name, _ in done.left]), (["Kolben 81.SLDPRT"], [NAME]))
        self.assertIn("was changed right now, and stays", done.left[0][1])
        self.assertEqual((self.files()[NAME], self.files()["Kolben 81.SLDPRT"]), (b"mine", b"bore 81"))
        self.assertEqual((self.got().files, self.got().left), ([], []))

    def test_renamed_before_a_kill(self) -> None:
        """A get was killed once the new file had come, before or after the one by the old name was removed: the next one takes it."""
        for number, gone in enumerate((False, True), 81):
            old = next(name for name in self.files() if name.startswith("Kolben"))
            self.version(PART, f"Kolben {number}.SLDPRT", b"bore %d" % number)
            (self.work / f"Kolben {number}.SLDPRT").write_bytes(b"bore %d" % number)
            if gone:
                (self.work / old).unlink()
            self.assertEqual((self.got().left, self.got().files), ([], []))
            self.assertEqual([name for name in self.files() if name.startswith("Kolben")], [f"Kolben {number}.SLDPRT"])
            self.assertEqual(self.states()[f"Kolben {number}.SLDPRT"].version, number - 79)

    def test_contents_that_are_no_cards(self) -> None:
        claim = self.anna.checkout(["w:" + PART]).claim
        self.anna.put(PART, b"bore 82", claim)
        self.anna.checkin(claim)
        self.got()
        self.assertEqual(self.files()["piston"], b"bore 82")

    def test_damaged_bytes(self) -> None:
        """A part whose bytes are bad keeps the file that was there, and those behind it come all the same."""
        before = self.files()
        self.version(PART, NAME, b"bore 81")
        self.version(ROD, "Pleuel.SLDPRT", b"length 145")
        card = self.parts.get(PART).card
        assert card is not None
        self.path_of(card).unlink()
        done = self.got()
        self.assertEqual((done.files, done.failed, [name for name, _ in done.left]), (["Pleuel.SLDPRT"], 1, [NAME]))
        self.assertIn(f"was not fetched: The bytes of version 2 of {PART}", done.left[0][1])
        self.assertEqual(self.files(), {**before, "Pleuel.SLDPRT": b"length 145"})
        self.as_program_here()
        said = self.as_json("get", "/engine/block", "--to", str(self.work), status=1)
        self.assertEqual((said["done"], said["files"], [left["file"] for left in said["left"]]), (False, [], [NAME]))
        self.assertIn("1 file of /engine/block could not be fetched", said["sentence"])
        self.file.write_bytes(b"bore 81")
        self.put()
        self.assertEqual(self.got().files, [NAME])

    def test_a_file_that_can_not_be_written(self) -> None:
        """The same where the system refuses to write one file; not where the disk is full."""
        self.version(PART, NAME, b"bore 81")
        self.version(ROD, "Pleuel.SLDPRT", b"length 145")
        swap = system.exchange

        def refused(reason: int) -> Callable[[Path, Path], bool]:
            def exchanged(source: Path, target: Path) -> bool:
                if target.name == NAME:
                    raise OSError(reason, os.strerror(reason))
                return swap(source, target)

            return exchanged

        with mock.patch("vault.working.disk.exchange", refused(errno.ENOSPC)), self.assertRaises(OSError):
            self.got()
        with mock.patch("vault.working.disk.exchange", refused(errno.EIO)):
            done = self.got()
        self.assertEqual(self.files()[NAME], self.contents[PART])
        self.assertEqual((done.files, done.failed, self.files()["Pleuel.SLDPRT"]), (["Pleuel.SLDPRT"], 1, b"length 145"))
        self.assertIn("was not fetched", done.left[0][1])

    def test_killed_at_each_step(self) -> None:
        """At whichever step a get is killed, each file is one version or the other, whole, and the next get goes through."""
        self.as_program()
        stepper = Stepper(self.environment())
        self.addCleanup(stepper.close)
        office = self.root / "office"
        words = ["get", ENGINE + "/block", "--to", str(office)]
        self.vault(*words)
        step, ended, number = 0, "killed", 0
        while ended == "killed":
            before = self.files(office)
            number += 1
            self.version(PART, NAME, b"bore %d" % number)
            self.version(VALVE, "Ventil links.SLDPRT", b"lift %d" % number)
            ended = stepper.run(step, "--patience", "5", *words)
            found = self.files(office)
            self.assertEqual(sorted(found), sorted(before))
            self.assertIn(found[NAME], (before[NAME], b"bore %d" % number))
            self.vault(*words)
            found = self.files(office)
            self.assertEqual((found[NAME], found["head/Ventil links.SLDPRT"]), (b"bore %d" % number, b"lift %d" % number))
            self.assertEqual(sorted(os.listdir(office / ".vault")), ["before", "folder.json", "lock"])
            self.assertEqual([path for path in office.rglob("swap-*")], [])
            step += 5
        self.assertGreater(step, 30)

    def test_first_one_killed_at_each_step(self) -> None:
        """At whichever step the first get of a folder is killed, the next one goes through, and finds what came."""
        self.as_program()
        stepper = Stepper(self.environment())
        self.addCleanup(stepper.close)
        step, ended = 0, "killed"
        while ended == "killed":
            office = self.root / f"office{step}"
            ended = stepper.run(step, "--patience", "5", "get", ENGINE + "/block", "--to", str(office))
            self.assertEqual(self.as_json("get", ENGINE + "/block", "--to", str(office))["left"], [])
            self.assertEqual(self.files(office), self.files())
            self.assertEqual(sorted(os.listdir(office / ".vault")), ["folder.json", "lock"])
            step += 3
        self.assertGreater(step, 30)


class Hostile(WithFolder):
    """Cards, links and what is remembered, made to write elsewhere."""

    def outside(self) -> Dict[str, Any]:
        """All that stands beside the working folder and the store."""
        return {str(path): (path.lstat().st_mtime_ns, path.is_symlink()) for path in sorted(self.root.rglob("*"))
                if self.work not in path.parents and path != self.work and self.store not in path.parents and ".json" not in path.name
                and path not in (self.store, self.file)}

    def test_names(self) -> None:
        """A name that leads elsewhere, or is no file's, gives way to the part's own."""
        names = ["../evil", "../../evil", "/tmp/evil", "..", ".bashrc", ".vault", "VAULT~1", "head", "HEAD", "CON", "nul.prt", "C:\\evil", "a:b",
                 "x.", "\u202egpj.exe", "kolben 80.sldprt", unicodedata.normalize("NFD", "St\u00fcck"), "St\u00fcck", "\u00fc" * 127,
                 "pleuel", "p0", "p1"]
        before = self.outside()
        for number, name in enumerate(names):
            self.anna.make(f"/engine/block/p{number}")
            self.version(f"/engine/block/p{number}", name, b"%d" % number)
        self.assertEqual(len(self.got().files), len(names))
        self.assertEqual(self.outside(), before)
        found = self.files()
        self.assertEqual(len(found), len(names) + 3)
        self.assertTrue(all(usable(part) for name in found for part in name.split("/")), found)
        for number in range(len(names)):
            self.assertIn(b"%d" % number, found.values())
        self.assertEqual(self.got().files, [])

    def test_names_without_capitals(self) -> None:
        """Where a disk doesn't tell capitals apart, two names that differ only in these become two that differ otherwise."""
        for number, name in enumerate(("Welle.SLDPRT", "WELLE.sldprt", "kolben 80.sldprt")):
            self.anna.make(f"/engine/block/p{number}")
            self.version(f"/engine/block/p{number}", name, b"%d" % number)
        with mock.patch.object(Folder, "tells_capitals", False):
            self.got()
        self.assertEqual(sorted(set(self.files()) - {NAME}), ["Pleuel.SLDPRT", "WELLE (p1).sldprt", "Welle.SLDPRT", "head/Ventil links.SLDPRT",
                                                              "kolben 80 (p2).sldprt"])

    def test_links(self) -> None:
        """A link is never written through: neither in a file's place, nor in a folder's, nor in that of the client's own."""
        target = self.root / "target"
        target.mkdir()
        (target / "file").write_bytes(b"theirs")
        self.version(PART, NAME, b"bore 81")
        (self.work / NAME).unlink()
        (self.work / NAME).symlink_to(target / "file")
        self.assertEqual(self.got().left[0][0], NAME)
        self.version(VALVE, "Ventil links.SLDPRT", b"lift 10")
        (self.work / "head").rename(self.root / "head")
        (self.work / "head").symlink_to(target)
        with self.assertRaises(MisusedError):
            self.got()
        (self.work / "head").unlink()
        (self.work / ".vault").rename(self.root / "own")
        (self.work / ".vault").symlink_to(self.root / "own")
        with self.assertRaises(MisusedError):
            self.got()
        self.assertEqual(self.files(target), {"file": b"theirs"})

    def test_a_link_is_not_put(self) -> None:
        (self.root / "secret").write_bytes(b"secret")
        (self.work / NAME).unlink()
        (self.work / NAME).symlink_to(self.root / "secret")
        claim = self.anna.checkout(["w:" + PART]).claim
        done = self.working().put()
        self.assertEqual((done.files, done.failed, self.anna.kept_drafts(claim)), ([], 1, {}))
        self.assertIn("is a link", done.left[0][1])

    def test_remembered_elsewhere(self) -> None:
        """What `.vault` says is read as strictly as what a stranger wrote."""
        kept = self.work / ".vault" / "folder.json"
        whole = json.loads(kept.read_text("utf-8"))
        entry = whole["files"][NAME]
        files: List[Dict[str, Any]] = [{"../evil": entry}, {"/etc/passwd": entry}, {"a/../../b": entry}, {".vault/lock": entry}, {"a//b": entry},
                                       {NAME: {**entry, "place": "../x"}}, {NAME: {**entry, "size": "x"}}, {NAME: {}}, {NAME: {**entry, "x": 1}},
                                       {NAME: {**entry, "claim": "c1 x"}}]
        changes: List[Dict[str, Any]] = [{"files": each} for each in files]
        changes += [{"folders": {}}, {"folders": {"": ENGINE}}, {"folders": []}, {"making": {"../x": PART}}, {"making": {"x": "x"}},
                    {"folders": {"..": PART}}, {"folders": {"head": "x"}}, {"place": "engine"}, {"form": "x"}, {"server": 1}, {"files": []}]
        for change in changes:
            kept.write_text(json.dumps({**whole, **change}), "utf-8")
            with self.assertRaises(VaultError, msg=str(change)):
                read_folder(self.work)
        for text in ("", "[]", "{", "\udcff"):
            kept.write_bytes(text.encode("utf-8", "surrogateescape"))
            with self.assertRaises(VaultError):
                read_folder(self.work)

    def test_random_names(self) -> None:
        """Whatever cards say, each part has a file of its own, and nothing is written elsewhere."""
        moments, before = random.Random(65), self.outside()
        letters = "aA.\u00e4\u0308/\\:~ 01\u202econCON\u00df"
        for number in range(25):
            self.anna.make(f"/engine/block/q{number}")
            name = "".join(moments.choice(letters) for _ in range(moments.randint(1, 5)))
            self.version(f"/engine/block/q{number}", name, b"q%d" % number)
        self.got()
        self.assertEqual((len(self.files()), self.outside()), (28, before))


class Status(WithFolder):
    """Who has what checked out."""

    def test_by_others(self) -> None:
        """Whoever holds it for change. Whoever looks, waits or has another part doesn't have it."""
        ben, carl = self.client("ben"), self.client("carl")
        claim = ben.checkout(["w:" + PART]).claim
        carl.checkout(["r:" + ROD])
        carl.checkout(["w:/engine"])
        states = self.states()
        self.assertEqual([states[name].others for name in (NAME, "Pleuel.SLDPRT", "head/Ventil links.SLDPRT")], [[f"ben in {claim}"], [], []])
        self.as_program()
        office = str(self.root / "office")
        self.vault("get", "/engine/block", "--to", office)
        self.assertEqual(self.vault("status", office), f"{NAME}: checked out by ben in {claim}.\n".encode())


class PutAndCheckin(WithFolder):
    """Changed files are put if a held check-out takes them in, and checked in with a note."""

    def put(self, place: str = PART, claim: str = "") -> str:
        """Checks a part out and puts the file; answers the check-out."""
        return super().put(place)

    def test_a_round(self) -> None:
        claim = self.anna.checkout(["w:" + PART]).claim
        (self.work / NAME).write_bytes(b"bore 81")
        (self.work / "Pleuel.SLDPRT").write_bytes(b"length 145")
        self.assertEqual((self.states()[NAME].changed, self.states()[NAME].claim), (True, claim))
        done = self.working().put()
        self.assertEqual((done.files, [name for name, _ in done.left]), ([NAME], ["Pleuel.SLDPRT"]))
        self.assertIn(f"vault checkout w:{ROD}", done.left[0][1])
        self.assertEqual(self.working().put().drafts, [NAME])
        self.assertTrue(self.states()[NAME].draft)
        (self.work / NAME).write_bytes(b"bore 82")
        done = self.working().checkin("larger bore")
        self.assertEqual((done.files, done.claims, done.versions), ([NAME], [claim], 1))
        card = self.parts.get(PART).card
        assert card is not None
        self.assertEqual((card.note, card.name, card.sha256), ("larger bore", NAME, hashlib.sha256(b"bore 82").hexdigest()))
        self.assertEqual((self.states()[NAME].changed, self.states()[NAME].version), (False, 2))
        self.assertEqual(self.got().files, [])

    def test_over_a_newer_version(self) -> None:
        """What was made of an older version isn't put over a newer one."""
        (self.work / NAME).write_bytes(b"mine")
        self.version(PART, NAME, b"bore 81")
        self.anna.checkout(["w:" + PART])
        done = self.working().put()
        self.assertEqual(done.files, [])
        self.assertIn("version 2 is in the vault", done.left[0][1])
        with self.assertRaises(VaultError):
            self.working().checkin(None)
        self.assertEqual(len(list(self.anna.history(PART))), 2)

    def test_two_check_outs(self) -> None:
        """If two take it in, one must be named; a queued one, and another designer's, take nothing in."""
        (self.work / NAME).write_bytes(b"mine")
        first = self.anna.checkout(["w:" + PART]).claim
        queued = self.anna.checkout(["w:/engine"]).claim
        with self.assertRaises(MisusedError):
            self.working().put(queued)
        self.assertEqual(self.working().put(first).files, [NAME])
        self.assertEqual(self.working(self.another()).put().files, [])

    def test_a_lost_check_in(self) -> None:
        """Its reply is lost, and the client finds out what became of it."""
        for number, cut in enumerate(self.both()):
            self.anna.checkout(["w:" + PART])
            (self.work / NAME).write_bytes(b"mine %d" % number)
            cut.append(b"checkin")
            self.assertEqual(self.working().checkin(None).versions, 1)
            self.assertFalse(self.states()[NAME].changed)

    def test_checked_in_by_its_number(self) -> None:
        """A check-in that the folder doesn't know of: the next get recognizes the file as that version."""
        claim = self.anna.checkout(["w:" + PART]).claim
        (self.work / NAME).write_bytes(b"mine")
        self.working().put()
        self.anna.checkin(claim)
        self.assertEqual((self.got().files, self.got().left), ([], []))
        self.assertEqual((self.states()[NAME].version, self.states()[NAME].changed), (2, False))

    def test_settled_late(self) -> None:
        """The server is lost right behind the check-in: it is told as done, and the next look finds out of which version the file is, also if it
        was changed further, and if another version came since."""
        claim = self.anna.checkout(["w:" + PART]).claim
        (self.work / NAME).write_bytes(b"bore 81")
        survey = self.anna.survey

        def lost(place: str) -> Tuple[List[str], Dict[str, int]]:
            if not self.anna.held("/"):
                raise UnreachableError("No server answers.")
            return survey(place)

        with mock.patch.object(self.anna, "survey", lost):
            self.assertEqual(self.working().checkin(None).checked_in(), f"{claim} is checked in: 1 new version.")
        (self.work / NAME).write_bytes(b"bore 82")
        state = self.states()[NAME]
        self.assertEqual((state.version, state.newest, state.changed, self.got().left), (2, 2, True, []))
        self.anna.checkout(["w:" + PART])
        self.assertEqual(self.working().put().files, [NAME])
        self.anna.checkin(self.states()[NAME].claim)
        self.version(PART, NAME, b"bore 83")
        self.assertEqual((self.got().files, self.files()[NAME]), ([NAME], b"bore 83"))

    def test_told_beside_a_refusal(self) -> None:
        """Of two check-outs the second can't be checked in: that the first one is done is told, and remembered."""
        claims = [self.anna.checkout(["w:" + place]).claim for place in (PART, ROD)]
        for name in (NAME, "Pleuel.SLDPRT"):
            (self.work / name).write_bytes(b"mine")
        self.working().put()
        checkin = self.anna.checkin
        with mock.patch.object(self.anna, "checkin", lambda claim: checkin(claim if claim == claims[0] else "c999")):
            with self.assertRaises(RefusedError) as refused:
                self.working().checkin(None)
        self.assertIn(f"{claims[0]} is checked in: 1 new version. There is no such check-out", str(refused.exception))
        self.assertEqual(refused.exception.fields, {"claims": claims[:1], "versions": 1})
        folder = find_folder(self.work)
        self.assertEqual([folder.files[name].draft == "" for name in (NAME, "Pleuel.SLDPRT")], [True, False])
        self.assertEqual(self.working().checkin(None).claims, claims[1:])

    def test_put_and_regretted(self) -> None:
        """A file that was put and then brought back to its version is put as it is, so that no check-in makes a version of what isn't here."""
        claim = self.anna.checkout(["w:" + PART]).claim
        (self.work / NAME).write_bytes(b"bore 81")
        self.working().put()
        (self.work / NAME).write_bytes(self.contents[PART])
        done = self.working().checkin(None)
        self.assertEqual((done.files, done.claims), ([NAME], [claim]))
        self.assertEqual(self.parts.get(PART).sha256, hashlib.sha256(self.contents[PART]).hexdigest())
        self.assertFalse(self.states()[NAME].changed)

    def test_put_and_fetched_again(self) -> None:
        """The file was put, removed and got again, and maybe changed then: its draft is still what was put, and it is said where that is."""
        claim = self.anna.checkout(["w:" + PART]).claim
        (self.work / NAME).write_bytes(b"bore 81")
        self.working().put()
        draft = self.anna.draft(claim, PART)
        for changed in (False, True):
            (self.work / NAME).unlink()
            done = self.got()
            self.assertEqual((done.files, done.left), ([NAME], []))
            if changed:
                (self.work / NAME).write_bytes(b"bore 82")
            with self.assertRaises(RefusedError) as refused:
                self.working().checkin(None)
            self.assertIn(f"{NAME} has another draft in {claim}", str(refused.exception))
            self.assertIn(f"`vault draft {claim} {PART} --to OTHER-FILE", str(refused.exception))
            self.assertEqual((self.anna.draft(claim, PART), len(list(self.anna.history(PART)))), (draft, 1))
            self.assertEqual((self.states()[NAME].draft, self.states()[NAME].other_draft), (False, claim))
            self.assertIn(f"is version 1 again. What you put of it before is still a draft in {claim}: `vault draft {claim} {PART}", done.told[0][1])
        self.parts.put(PART, self.work / NAME, claim)
        self.assertEqual(self.working().checkin(None).drafts, [NAME])
        self.assertEqual(self.parts.get(PART).sha256, hashlib.sha256(b"bore 82").hexdigest())

    def test_put_in_a_check_out_that_was_given_up(self) -> None:
        """Another check-out has a draft of the same bytes, which was put elsewhere: a file that isn't changed isn't put over it."""
        first = self.anna.checkout(["w:" + PART]).claim
        (self.work / NAME).write_bytes(b"bore 81")
        self.working().put()
        draft = self.anna.draft(first, PART)
        self.anna.abandon(first)
        (self.work / NAME).write_bytes(self.contents[PART])
        laptop = Client("anna", "127.0.0.1", self.server.port, self.root / "laptop")
        self.addCleanup(laptop.close)
        second = laptop.checkout(["w:/engine/block"]).claim
        laptop.put(PART, draft, second)
        (self.work / "Pleuel.SLDPRT").write_bytes(b"length 145")
        done = self.working().put()
        self.assertEqual((done.files, [name for name, _ in done.left], self.anna.draft(second, PART)), (["Pleuel.SLDPRT"], [NAME], draft))
        with self.assertRaises(RefusedError) as refused:
            self.working().checkin(None)
        self.assertIn(f"nothing was checked in. {NAME} has another draft in {second}", str(refused.exception))

    def test_drafts_that_are_not_here(self) -> None:
        """A check-out of which a changed file is a draft has another one, of a file that wasn't changed, or of a part that the folder hasn't
        got: nothing is checked in, and it is said how to go on."""
        claim = self.anna.checkout(["w:/engine/block"]).claim
        self.anna.make("/engine/block/pin", claim)
        for place, name in ((ROD, "Pleuel.SLDPRT"), ("/engine/block/pin", "/engine/block/pin")):
            (self.work / NAME).write_bytes(b"bore of " + place.encode())
            self.parts.put(place, self.file, claim)
            with self.assertRaises(RefusedError) as refused:
                self.working().checkin(None)
            for said in ("nothing was checked in", f"{name} has a", f"`vault draft {claim} {place} --to", f"`vault checkin {claim}`"):
                self.assertIn(said, str(refused.exception))
            self.assertTrue(str(refused.exception).startswith(f"{NAME} is a draft in {claim} now. "), str(refused.exception))
            self.file.write_bytes(self.contents[ROD])
            self.parts.put(ROD, self.file, claim)
        self.assertEqual([len(list(self.anna.history(place))) for place in (PART, ROD)], [1, 1])
        self.assertEqual(self.anna.checkin(claim), 3)

    def test_drafts_of_another_folder(self) -> None:
        """A check-out of more than the folder has a draft of a part outside it: nothing is checked in."""
        head = self.root / "head"
        self.got("/engine/block/head", head)
        claim = self.anna.checkout(["w:/engine/block"]).claim
        self.parts.put(PART, self.file, claim)
        (head / "Ventil links.SLDPRT").write_bytes(b"lift 10")
        with self.assertRaises(RefusedError) as refused:
            self.working(place="/engine/block/head", work=head).checkin(None)
        for said in ("nothing was checked in", f"{PART} has a draft in {claim}", f"`vault checkin {claim}` checks it in as it is"):
            self.assertIn(said, str(refused.exception))
        self.assertEqual((self.anna.drafts(claim), len(list(self.anna.history(PART)))), ([PART, VALVE], 1))

    def test_a_note_that_is_too_long(self) -> None:
        """It is refused before anything is put."""
        claim = self.anna.checkout(["w:" + PART]).claim
        (self.work / NAME).write_bytes(b"bore 81")
        with self.assertRaises(MisusedError):
            self.working().checkin("x" * 401)
        self.assertEqual(self.anna.drafts(claim), [])

    def test_refused_in_the_middle(self) -> None:
        """If a file can't be put, those before it that are drafts now are told."""
        claim = self.anna.checkout(["w:/engine/block"]).claim
        for name in (NAME, "Pleuel.SLDPRT"):
            (self.work / name).write_bytes(b"mine")
        save = self.anna.save_all

        def refused_but_one(wanted: Sequence[Saving], claim: str) -> Dict[str, RefusedError]:
            """Saves one draft, and the other one where no part is."""
            refused = save([each if each.place == PART else each._replace(place="/none") for each in wanted], claim)
            return {ROD: error for error in refused.values()}

        with mock.patch.object(self.anna, "save_all", refused_but_one):
            with self.assertRaises(RefusedError) as refused:
                self.working().put()
        self.assertTrue(str(refused.exception).startswith(f"{NAME} is a draft in {claim} now. "), str(refused.exception))
        self.assertEqual((refused.exception.fields["files"], self.anna.drafts(claim)), ([NAME], [PART]))

    def test_another_check_out_is_named(self) -> None:
        """A file that is in another check-out than the one that is named is left, and it is said where it is."""
        first, second = (self.anna.checkout(["w:" + place]).claim for place in (PART, ROD))
        (self.work / NAME).write_bytes(b"mine")
        self.assertEqual(self.working().put(second).left, [(NAME, f"{first} takes it in, and not the check-out that `--claim` names")])

    def test_put_and_missing(self) -> None:
        """A file that was put and then removed: nothing is checked in, and it is said how to go on."""
        claim = self.anna.checkout(["w:/engine/block"]).claim
        for name in (NAME, "Pleuel.SLDPRT"):
            (self.work / name).write_bytes(b"mine")
        self.working().put()
        (self.work / NAME).unlink()
        done = self.working().put()
        self.assertEqual((done.drafts, [name for name, _ in done.left]), (["Pleuel.SLDPRT"], [NAME]))
        with self.assertRaises(RefusedError) as refused:
            self.working().checkin(None)
        for said in ("nothing was checked in", f"{NAME} is missing here", f"vault draft {claim} {PART}", f"vault checkin {claim}"):
            self.assertIn(said, str(refused.exception))
        self.assertEqual(len(self.anna.drafts(claim)), 2)

    def test_another_draft(self) -> None:
        """What another put into the same check-out is neither called a draft of this file nor put over; what this designer put from here is."""
        claim, ben = self.anna.checkout(["w:" + PART]).claim, self.another()
        (self.work / NAME).write_bytes(b"bore 81")
        self.working().put()
        self.anna.give(claim, "ben")
        self.file.write_bytes(b"bore 82")
        ben.put(PART, self.file, claim)
        ben.client.give(claim, "anna")
        self.assertFalse(self.states()[NAME].draft)
        self.parts.set_note(claim, "larger bore")
        done = self.working().put()
        self.assertEqual((done.files, done.drafts), ([], []))
        self.assertIn(f"has another draft in {claim}, which was put elsewhere", done.left[0][1])
        with self.assertRaises(RefusedError) as refused:
            self.working().checkin(None)
        self.assertIn("which was put elsewhere", str(refused.exception))
        self.parts.put(PART, self.file, claim)
        self.assertEqual(self.working().checkin(None).files, [NAME])
        self.assertEqual(self.parts.get(PART).sha256, hashlib.sha256(b"bore 81").hexdigest())

    def test_after_a_restore(self) -> None:
        """The vault came back from a backup, and another version has the number of the one that the file was made of: it isn't put over."""
        kept = [Path(path).read_bytes() for path in self.server.files]
        self.version(PART, NAME, b"bore 81")
        self.got()
        self.server.kill()
        for path, content in zip(self.server.files, kept):
            Path(path).write_bytes(content)
        self.server.start()
        self.version(PART, NAME, b"bore 99")
        (self.work / NAME).write_bytes(b"bore 82")
        self.anna.checkout(["w:" + PART])
        done = self.working().put()
        self.assertEqual(done.files, [])
        self.assertIn("was made of another version 2 than the vault has", done.left[0][1])

    def test_get_after_a_restore(self) -> None:
        """The vault came back from a backup, and has no more the version that a file is: it stays, until it is moved away."""
        kept = [Path(path).read_bytes() for path in self.server.files]
        self.version(PART, NAME, b"bore 81")
        self.got()
        self.server.kill()
        for path, content in zip(self.server.files, kept):
            Path(path).write_bytes(content)
        self.server.start()
        done = self.got()
        self.assertEqual((done.files, self.files()[NAME]), ([], b"bore 81"))
        self.assertIn("is version 2, and the vault, which came back from a backup, has only version 1", done.left[0][1])
        (self.work / NAME).rename(self.root / "mine")
        self.assertEqual((self.got().files, self.files()[NAME]), ([NAME], self.contents[PART]))

    def test_put_after_a_restore(self) -> None:
        """The vault came back from a backup, and a file's part is gone: the others are put, and it is said how to make it again."""
        kept = [Path(path).read_bytes() for path in self.server.files]
        for name in ("Bolzen", "Mutter"):
            (self.work / name).write_bytes(b"of " + name.encode())
            self.working().add(name)
        claim = self.anna.checkout(["w:/engine/block"]).claim
        self.working().put()
        self.anna.checkin(claim)
        self.got()
        (self.work / "Mutter").write_bytes(b"another")
        (self.work / "Aa").write_bytes(b"aa")
        self.working().add("Aa")
        self.server.kill()
        for path, content in zip(self.server.files, kept):
            Path(path).write_bytes(content)
        self.server.start()
        (self.work / NAME).write_bytes(b"bore 81")
        claim = self.anna.checkout(["w:/engine/block"]).claim
        done = self.working().put()
        self.assertEqual((done.files, [name for name, _ in done.left]), ([NAME], ["Aa", "Mutter"]))
        self.assertIn(f"`vault add {self.work}/Mutter` makes /engine/block/mutter again", done.left[1][1])
        self.assertEqual([self.states()[name].gone for name in (NAME, "Aa", "Bolzen", "Mutter")], [False, True, True, True])
        self.as_program_here()
        said = self.vault("status", str(self.work)).decode()
        self.assertIn(f"Bolzen: its part isn't in the vault any more; `vault add {self.work}/Bolzen` makes /engine/block/bolzen again", said)
        for name in ("Bolzen", "Mutter"):
            self.assertIn(f"{self.work}/{name} is /engine/block/{name.lower()}.\n", self.vault("add", str(self.work / name)).decode())
        self.assertEqual(self.as_json("add", str(self.work / "Mutter"))["made"], {})
        self.assertEqual(self.working().checkin(None).versions, 3)
        self.assertEqual(self.parts.get("/engine/block/mutter").sha256, hashlib.sha256(b"another").hexdigest())

    def test_an_assembly_that_is_gone(self) -> None:
        """The same where the part's assembly is gone, too: it is said how to make that first."""
        kept = [Path(path).read_bytes() for path in self.server.files]
        self.anna.nest("/engine/block/seals")
        self.anna.make("/engine/block/seals/ring")
        self.version("/engine/block/seals/ring", "Ring", b"ring")
        self.got()
        self.server.kill()
        for path, content in zip(self.server.files, kept):
            Path(path).write_bytes(content)
        self.server.start()
        with self.assertRaises(RefusedError) as refused:
            self.working().made_again("seals/Ring")
        self.assertIn("`vault nest /engine/block/seals` makes it again", str(refused.exception))
        self.anna.nest("/engine/block/seals")
        self.assertTrue(self.working().made_again("seals/Ring"))

    def test_written_otherwise(self) -> None:
        """A disk that ignores capitals knows a part's file by many names: none of them is a file of no part."""
        (self.work / "PLEUEL.sldprt").hardlink_to(self.work / "Pleuel.SLDPRT")
        (self.work / "KOLBEN 80.sldprt").write_bytes(b"another")
        self.assertEqual(find_folder(self.work).others(), ["KOLBEN 80.sldprt"])
        with self.assertRaises(MisusedError) as refused:
            self.working().add("PLEUEL.sldprt")
        self.assertIn(f"is {ROD} already", str(refused.exception))

    def test_add(self) -> None:
        """A part is made by a name that a place can have, also in an assembly that is checked out, and put with the others."""
        claim = self.anna.checkout(["w:/engine/block"]).claim
        (self.work / "Bolzen 20.SLDPRT").write_bytes(b"pin")
        (self.work / "head" / "Bolzen 20.SLDPRT").write_bytes(b"pin in the head")
        (self.work / "bolzen_20.sldprt").write_bytes(b"another pin")
        for name, place in (("Bolzen 20.SLDPRT", "bolzen_20_sldprt"), ("bolzen_20.sldprt", "bolzen_20_sldprt_2"),
                            ("head/Bolzen 20.SLDPRT", "head/bolzen_20_sldprt")):
            self.assertEqual(self.working().add(name), "/engine/block/" + place)
        self.assertEqual(self.working().checkin("pins").versions, 3)
        self.assertEqual(claim, "c5")
        other = self.root / "other"
        self.got(work=other)
        self.assertEqual(self.files(other), self.files())

    def test_add_again(self) -> None:
        """The client is killed, or the server lost, while a part is made of a file: said again, it is the part of that file, and not a second
        one. One into which somebody put a version meanwhile is another's."""
        for number, name in enumerate(("Bolzen", "Buchse")):
            (self.work / name).write_bytes(b"pin")
            with mock.patch.object(self.anna, "make", self.made_and_lost), self.assertRaises(NotKnownError):
                self.working().add(name)
            place = "/engine/block/" + name.lower()
            if number:
                self.version(place, "Feder", b"spring")
            self.assertEqual(self.working().add(name), place + "_2" * number)
        self.assertEqual(self.anna.names("/engine/block")[-3:], ["bolzen", "buchse", "buchse_2"])
        self.client("ben").checkout(["w:/engine"])
        (self.work / "Mutter").write_bytes(b"nut")
        with self.assertRaises(RefusedError):
            self.working().add("Mutter")
        self.assertEqual(find_folder(self.work).making, {})

    def made_and_lost(self, place: str, claim: str = "") -> None:
        """Makes a place, and says that nobody knows whether that was done."""
        self.another("ben").client.make(place, claim)
        raise NotKnownError("The server is lost.")

    def test_what_can_not_be_added(self) -> None:
        self.got(ENGINE, self.root / "engine")
        (self.root / "engine" / "Bild.SLDPRT").write_bytes(b"x")
        (self.work / "new").mkdir()
        (self.work / "new" / "x").write_bytes(b"x")
        (self.work / "link").symlink_to(self.file)
        (self.work / "a:b").write_bytes(b"x")
        for name, said in ((NAME, "already"), ("none", "is no file"), ("link", "is no file"), ("a:b", "Rename it"), ("../x", "Move its files"),
                           (".vault/lock", "Move its files"),
                           ("new/x", f"`vault add {self.work}/new` makes an assembly of it, and of all that is in it")):
            with self.assertRaises(MisusedError, msg=name) as refused:
                self.working().add(name)
            self.assertIn(said, str(refused.exception))
        with self.assertRaises(MisusedError) as refused:
            self.working(place=ENGINE, work=self.root / "engine").add("Bild.SLDPRT")
        self.assertIn("`vault make /engine/NAME` makes an assembly", str(refused.exception))

    def test_what_becomes_of_a_folder(self) -> None:
        """What is said of a folder of the designer's own makes an assembly of it, whatever its name and wherever it stands."""
        library = self.root / "library"
        self.got("/", library)
        for name, place in (("wing", "/wing"), ("engine/Gear box", "/engine/gear_box"), ("engine/block/Pleuel", "/engine/block/pleuel")):
            (library / name).mkdir()
            said = self.working(place="/", work=library).advice_on(name, "PATH")
            self.assertIn(f"`vault add PATH` makes {'an assembly' if name != 'wing' else 'a project'} of it, and of all that is in it", said)
            with find_folder(library).locked():
                working = self.working(place="/", work=library)
                working.make_planned(working.plan([name]), "")
            self.assertEqual(find_folder(library).folders[name], place)
        self.anna.nest("/engine/block/seals")
        self.assertIn(f"is not known here as the folder of /engine/block/seals: `vault get / --to {library}`",
                      self.working(place="/", work=library).advice_on("engine/block/seals", "PATH"))
        self.got("/", library)
        self.assertEqual(find_folder(library).others(), [])

    def test_add_in_a_check_out_to_look(self) -> None:
        """It says what makes it possible, and not an option that it doesn't have."""
        claim = self.anna.checkout(["r:/engine/block"]).claim
        (self.work / "Bolzen").write_bytes(b"pin")
        with self.assertRaises(RefusedError) as refused:
            self.working().add("Bolzen")
        self.assertIn(f"`vault extend {claim} w:/engine/block` has it change that, too, or `vault abandon {claim}`", str(refused.exception))
        self.assertNotIn("--claim", str(refused.exception))
        self.anna.extend(claim, ["w:/engine/block"])
        self.assertEqual(self.working().add("Bolzen"), "/engine/block/bolzen")

    def test_moved_to_another_address(self) -> None:
        """The vault is served at another port: the refusal says how a folder goes on there, and after one get it is that address's."""
        self.server.kill()
        moved = Server("--workers", "16", folder=MEMORY, files=self.server.files)
        self.addCleanup(moved.close)
        moved.start()
        both = self.at_addresses(moved.port, self.cutter.port)
        alone = self.at_addresses(moved.port)
        with self.assertRaises(MisusedError) as refused:
            self.working(alone)
        self.assertIn(f"say `vault hello anna@127.0.0.1:{moved.port},127.0.0.1:{self.cutter.port}`, and then `vault get /engine/block --to"
                      f" {self.work}`", str(refused.exception))
        (self.work / "Pleuel.SLDPRT").unlink()
        self.assertEqual(self.working(both).get().files, ["Pleuel.SLDPRT"])
        self.assertEqual([state.changed for state in self.working(alone).states()], [False] * 3)

    def at_addresses(self, port: int, *others: int) -> Parts:
        """Anna at some ports, who follows the store."""
        client = Client("anna", "127.0.0.1", port, self.root / "moved", 10.0, 0.05, others=[("127.0.0.1", other) for other in others])
        self.addCleanup(client.close)
        return self.another(client=client)

    def test_a_share_without_locks(self) -> None:
        """It is told as such, and neither taken for another client nor waited for."""
        with mock.patch("fcntl.flock", side_effect=OSError(errno.ENOLCK, "No locks available")):
            asked: List[Callable[[], object]] = [self.got, self.anna.mine]
            for each in asked:
                with self.assertRaises(VaultError) as refused:
                    each()
                self.assertIn("can't be locked: No locks available", str(refused.exception))
        folder = find_folder(self.work)
        with folder.locked(), self.assertRaises(MisusedError) as busy:
            self.got()
        self.assertIn("Another `vault` works in", str(busy.exception))

    def test_at_another_server(self) -> None:
        ben = Client("ben", "127.0.0.1", self.server.port, self.root)
        self.addCleanup(ben.close)
        with self.assertRaises(MisusedError):
            Working(Parts(ben), find_folder(self.work))


class Program(WithFolder):
    """The program's words for working folders."""

    def setUp(self) -> None:
        super().setUp()
        self.as_program()
        self.folder_of_program = self.root / "office"

    def test_a_day(self) -> None:
        work = str(self.folder_of_program)
        said = self.as_json("get", "/engine/block", "--to", work)
        self.assertEqual((len(said["files"]), said["all"], said["left"]), (3, 3, []))
        self.assertEqual(self.vault("get", "/engine/block", "--to", work), f"{work} has /engine/block: nothing was fetched.\n".encode())
        self.assertIn(b"Nothing is changed", self.vault("status", work))
        self.vault("checkout", "w:/engine/block")
        (self.folder_of_program / NAME).write_bytes(b"bore 90")
        (self.folder_of_program / "Bolzen 20.SLDPRT").write_bytes(b"pin")
        said_so = self.vault("status", work).decode()
        self.assertIn(f"{NAME}: changed here, checked out by you in c5.\n", said_so)
        self.assertIn("Bolzen 20.SLDPRT: not in the vault; `vault add", said_so)
        self.assertEqual(self.as_json("status", work)["others"], ["Bolzen 20.SLDPRT"])
        self.assertIn(b"is /engine/block/bolzen_20_sldprt.\n", self.vault("add", work + "/Bolzen 20.SLDPRT"))
        self.assertIn(b"Bolzen 20.SLDPRT is a draft of /engine/block/bolzen_20_sldprt in c5.\n", self.vault("put", work))
        self.assertEqual(self.vault("checkin", work, "-m", "larger bore"), b"c5 is checked in: 2 new versions.\n")
        self.assertEqual(self.as_json("history", PART)["versions"][-1]["note"], "larger bore")
        self.assertIn(b"No file of", self.vault("checkin", work, status=1))

    def test_new_in_the_vault(self) -> None:
        """A part that has a version and no file here is told, and one without a version, or the store's, isn't."""
        work = str(self.folder_of_program)
        self.vault("get", "/", "--to", work)
        for name in ("pin", "nut"):
            self.anna.make("/engine/block/" + name)
        self.assertIn(b"Nothing is changed", self.vault("status", work))
        self.version("/engine/block/pin", "Bolzen.SLDPRT", b"pin")
        self.assertEqual(self.vault("status", work).decode(),
                         f"/engine/block/pin: version 1 is in the vault, and isn't here; `vault get / --to {work}` fetches it.\n")
        self.assertEqual(self.as_json("status", work)["new"], [{"place": "/engine/block/pin", "version": 1}])
        self.vault("get", "/", "--to", work)
        self.assertIn(b"Nothing is changed", self.vault("status", work))

    def test_the_whole_library(self) -> None:
        self.assertEqual(self.as_json("get", "/", "--to", str(self.folder_of_program))["all"], 3)
        self.assertEqual(self.files(self.folder_of_program), {"engine/block/" + name: content for name, content in self.files().items()})
        self.assertIn(b"Nothing is changed", self.vault("status", str(self.folder_of_program)))

    def test_add_all(self) -> None:
        """Files that are parts, and folders of assemblies, are passed over; what was made before a refusal is told."""
        work = self.folder_of_program
        self.vault("get", "/engine/block", "--to", str(work))
        for name in ("Bolzen", "Mutter", "a:b"):
            (work / name).write_bytes(b"x")
        files = [str(work / name) for name in ("head", NAME, "Bolzen")]
        said = self.as_json("add", *files)
        self.assertEqual((said["made"], said["notices"]), ({files[2]: "/engine/block/bolzen"}, [f"{files[0]} is /engine/block/head already.",
                                                                                                f"{files[1]} is {PART} already."]))
        self.assertEqual(self.as_json("add", *files)["sentence"], "Nothing was added.")
        said = self.as_json("add", *files, str(work / "Mutter"), str(work / "a:b"), status=2)
        self.assertEqual(said["made"], {str(work / "Mutter"): "/engine/block/mutter"})
        self.assertIn(f"{work}/Mutter is /engine/block/mutter. No part can be made of 'a:b'", said["sentence"])

    def test_add_all_beside_a_folder(self) -> None:
        """A folder of no assembly becomes one only if that is said, and what sorts behind it is added."""
        work = self.folder_of_program
        self.vault("get", "/engine/block", "--to", str(work))
        (work / "seals").mkdir()
        for name in ("seals/Ring", "zzz"):
            (work / name).write_bytes(b"x")
        said = self.as_json("add", str(work / "seals"), str(work / "zzz"), status=1)
        self.assertEqual(said["made"], {str(work / "zzz"): "/engine/block/zzz"})
        self.assertIn("makes 1 assembly and 1 part of 1 bytes in /engine/block. A place stays for good.", said["notices"][0])
        self.assertIn("is /engine/block/zzz. No folder was added. Say the same with `--yes`", said["sentence"])
        self.vault("nest", "/engine/block/seals")
        self.vault("get", "/engine/block", "--to", str(work))
        self.assertIn(b"is /engine/block/seals/ring.", self.vault("add", str(work / "seals" / "Ring")))

    def test_add_killed_at_each_step(self) -> None:
        """At whichever step it is killed, said again it makes one part of each file."""
        work, stepper = self.folder_of_program, Stepper(self.environment())
        self.addCleanup(stepper.close)
        self.vault("get", "/engine/block/head", "--to", str(work))
        step, ended = 0, "killed"
        while ended == "killed":
            (work / f"b{step}").write_bytes(b"pin")
            ended = stepper.run(step, "--patience", "5", "add", str(work / f"b{step}"))
            self.vault("add", str(work / f"b{step}"))
            step += 6
        self.assertEqual(self.anna.names("/engine/block/head")[1:], [f"b{number}" for number in range(0, step, 6)])
        self.assertGreater(step, 30)

    def test_checkin_killed_at_each_step(self) -> None:
        """At whichever step it is killed, said again it makes one version, or the folder finds out that this was made."""
        work, stepper = self.folder_of_program, Stepper(self.environment())
        self.addCleanup(stepper.close)
        self.vault("get", "/engine/block/head", "--to", str(work))
        step, ended, number = 0, "killed", 1
        while ended == "killed":
            content, number = b"lift %d" % number, number + 1
            claim = self.as_json("checkout", "w:" + VALVE)["claim"]
            (work / "Ventil links.SLDPRT").write_bytes(content)
            ended = stepper.run(step, "--patience", "5", "checkin", str(work), "-m", "larger")
            if claim in [standing.claim for standing, _ in self.anna.mine()]:
                self.vault("checkin", str(work), "-m", "larger")
            (work / "Ventil links.SLDPRT").write_bytes(b"further")
            state = self.as_json("status", str(work))["files"][0]
            self.assertEqual((state["version"], state["newest"], state["changed"], state["draft"]), (number, number, True, False))
            self.assertEqual(self.parts.get(VALVE).sha256, hashlib.sha256(content).hexdigest())
            step += 11
        self.assertGreater(step, 70)

    def test_no_folder_to_put(self) -> None:
        """A file, or a path where nothing is, in a working folder is no word for all its files."""
        work = self.folder_of_program
        self.vault("get", "/engine/block", "--to", str(work))
        claim = self.anna.checkout(["w:/engine/block"]).claim
        (work / NAME).write_bytes(b"mine")
        for word in (work / "Pleuel.SLDPRT", work / "none", PART):
            self.assertIn(b"`vault put PLACE FILE` puts one file", self.vault("put", str(word), status=2))
        self.assertEqual(self.anna.drafts(claim), [])

    def test_a_folder_in_it(self) -> None:
        """What puts all files isn't done where a folder in the working folder is named; how these stand is shown there, too."""
        work = self.folder_of_program
        self.vault("get", "/engine", "--to", str(work))
        for place in (PART, VALVE):
            self.anna.checkout(["w:" + place])
        (work / "block" / NAME).write_bytes(b"mine")
        for command in ("put", "checkin"):
            for inner in ("block", "block/head", ".vault"):
                said = self.vault(command, str(work / inner), status=2).decode()
                self.assertIn(f"stands in the working folder {work}, of which all changed files would be put", said)
        self.assertEqual([self.anna.drafts(standing.claim) for standing, _ in self.anna.mine()], [[], []])
        (work / "block" / "head" / "Bolzen").write_bytes(b"pin")
        (work / "block" / "Mutter").write_bytes(b"nut")
        for inner, added in (("block/head", work / "block" / "head" / "Bolzen"), ("block/Mutter", work / "block" / "Mutter")):
            lines = self.vault("status", str(work / inner)).decode().splitlines()
            self.assertEqual([line for line in lines if "vault add" in line],
                             [f"{added.relative_to(work)}: not in the vault; `vault add {added}` makes a part of it."])

    def test_what_no_part_can_be_made_of(self) -> None:
        """Status offers no `vault add` of what that refuses."""
        work = self.folder_of_program
        self.vault("get", "/engine", "--to", str(work))
        (work / "Bild.png").write_bytes(b"x")
        (work / "block" / "link").symlink_to(work / "Bild.png")
        said = self.vault("status", str(work)).decode()
        for name in ("Bild.png", "block/link"):
            self.assertIn(f"{name}: not in the vault. Parts are made of files in the folders of assemblies, and not of links.", said)
        self.assertNotIn("vault add", said)
        self.assertEqual(self.as_json("status", str(work))["others"], ["Bild.png", "block/link"])
        (work / "block" / "head").rename(work / "block" / "Kopf")
        (work / "block" / "neu").mkdir()
        for name in ("block/a:b", "block/.hidden", ".hidden"):
            (work / name).write_bytes(b"x")
        said = self.vault("status", str(work)).decode()
        for line in ("block/Kopf/ has the files of block/head, which is missing here: give it that name again, since an assembly keeps its name.",
                     f"block/neu/ is the folder of no assembly, so no file in it is a part's: `vault add {work}/block/neu` makes an assembly of it,"
                     " and of all that is in it.",
                     "block/head: missing here. It is the folder of /engine/block/head: if you renamed it, give it this name again.",
                     "block/a:b: not in the vault. No part's file can have this name on every system: it has `:`, which Windows doesn't take in a"
                     " name. Rename it."):
            self.assertIn(line + "\n", said)
        self.assertNotIn(".hidden", said)
        self.assertEqual(self.as_json("status", str(work))["others"], ["Bild.png", "block/Kopf/", "block/neu/", "block/a:b", "block/link"])

    def test_wrong_words(self) -> None:
        self.assertIn(b"is in no working folder", self.vault("status", str(self.root), status=2))
        self.assertIn(b"is in no working folder", self.vault("put", str(self.root), status=2))
        self.assertIn(b"There is no folder", self.vault("checkin", "./none", status=2))
        self.assertIn(b"1 to 32 characters each", self.vault("make", "/engine/Kolben 80.SLDPRT", status=2))
        self.vault("get", "/engine/block", "--to", str(self.folder_of_program))
        self.assertIn(b"is a working folder of /engine/block", self.vault("get", "/engine", "--to", str(self.folder_of_program), status=2))


if __name__ == "__main__":
    unittest.main()
