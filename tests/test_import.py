"""A folder of CAD files goes into a vault as it is, and comes out of it as it was, on another machine and with its names."""

import json
import os
import random
import subprocess
import unittest
from pathlib import Path
from typing import Any, Dict, List

from servers import Tap, program
from stores import WithStore

from vault import Client
from vault.store.naming import can_be_named, is_of_names, name_place, named_by, read_name, spell_name

ASSEMBLIES = ("Geh\u00e4use (Guss)", "Kurbelwelle", "Normteile [DIN]", "Zylinderkopf & Ventile", "\u6d3b\u585e", "Alt")
ODD = ("Welle.SLDPRT", "WELLE.SLDPRT", "Kolben 80 (neu).SLDPRT", "\u00d6lwanne #3.prt", "Flansch.pdf", "-rf", "a'b.dwg", "'; drop", "$HOME.stp",
       "x" * 120)
# What CAD programs, office programs and desktops leave among them.
LEFT_BY_PROGRAMS = ("Alt/~$Teil 1.SLDPRT", "Alt/.~lock.Liste.ods#", "Alt/innen.tmp", "Alt/alt.bak", "Alt/Thumbs.db", "Kurbelwelle/desktop.ini",
                    ".DS_Store")


class Naming(unittest.TestCase):
    """Where the real name of a project or an assembly stands, and what is one."""

    def test_places(self) -> None:
        for place, kept in (("/p", "/p/-name-/-name-"), ("/p/a", "/p/a/-name-"), ("/p/a/b/c/d/e", "/p/a/b/c/d/e/-name-")):
            self.assertEqual((name_place(place), named_by(kept), is_of_names(kept), can_be_named(place)), (kept, place, True, True))
        self.assertTrue(is_of_names("/p/-name-"))
        for place in ("/", "/p", "/p/a", "/-name-", "/p/a/b"):
            self.assertEqual((named_by(place), is_of_names(place)), ("", False))
        self.assertEqual([can_be_named(place) for place in ("/", "/p/-name-", "/a/b/c/d/e/f/g")], [False] * 3)

    def test_contents(self) -> None:
        """A content is a name only if it is exactly one that a folder can have."""
        self.assertEqual(read_name(spell_name(ASSEMBLIES[0])), ASSEMBLIES[0])
        for content in (b"", b"vault name 1\n", b"vault name 1\nname ..\n", b"vault name 1\nname a/b\n", b"vault name 1\nname a\nx\n", b"\xff",
                        b"vault name 1\nname " + b"x" * 256 + b"\n", b"vault name 1\nname a\x1b\n", b"vault name 2\nname a\n"):
            self.assertEqual(read_name(content), "")


class WithFiles(WithStore):
    """A folder of a design office, and the program of two machines."""

    def setUp(self) -> None:
        super().setUp()
        self.cad = self.root / "Motor 2024"
        self.as_program()
        self.machines = 0

    def fill_office(self, each: int = 48) -> Dict[str, bytes]:
        """A folder with 306 files of real names, six folders deep, among what programs and desktops leave."""
        chance, files = random.Random(97), {}
        for number, name in enumerate(ASSEMBLIES):
            deep = name if number else "/".join([name, "innen", "Kern"])
            for count in range(each):
                files[f"{deep}/Teil {count} von {number}.SLDPRT"] = chance.randbytes(chance.randrange(1, 4000))
        for count, name in enumerate(ODD):
            files[f"Kurbelwelle/{name}"] = b"odd %d" % count
            files[f"{ASSEMBLIES[0]}/innen/{name}"] = b"" if count == 3 else b"inner %d" % count
        files[f"{ASSEMBLIES[0]}/Zeichnung.pdf"] = b"drawing"
        self.lay(files)
        self.lay({**dict.fromkeys(LEFT_BY_PROGRAMS, b"left"), "Alt/notes.log": b"l", ".vaultignore": b"*.log\n# nothing else\n"})
        return files

    def lay(self, files: Dict[str, bytes]) -> None:
        """Writes files into the folder."""
        for name, content in files.items():
            path = self.cad / name
            path.parent.mkdir(parents=True, exist_ok=True)
            path.write_bytes(content)

    def got(self, place: str) -> Dict[str, bytes]:
        """What comes of a place on another machine, as another designer there gets it."""
        self.machines += 1
        home = self.root / f"machine{self.machines}"
        environment = {**self.environment(), "XDG_STATE_HOME": str(home), "XDG_CACHE_HOME": str(home)}
        for words in (("hello", f"ben@127.0.0.1:{self.server.port}"), ("store", "confirm", self.address()),
                      ("get", place, "--to", str(home / "work"))):
            done = subprocess.run([*self.words(), *words], env=environment, capture_output=True, timeout=240, check=False)
            self.assertEqual(done.returncode, 0, (words, done.stdout, done.stderr))
        return self.files(home / "work")

    @staticmethod
    def words() -> List[str]:
        """The words that begin a command line of the program."""
        return program("vault")

    @staticmethod
    def files(folder: Path) -> Dict[str, bytes]:
        """All files in a folder but the client's own."""
        return {path.relative_to(folder).as_posix(): path.read_bytes() for path in sorted(folder.rglob("*"))
                if path.is_file() and ".vault" not in path.relative_to(folder).parts}

    def imported(self, place: str, *words: str, status: int = 0) -> Dict[str, Any]:
        """Imports the folder, which may take long on a busy machine."""
        done = subprocess.run([*self.words(), "--json", "import", str(self.cad), place, *words], env=self.environment(), capture_output=True,
                              timeout=240, check=False)
        self.assertEqual(done.returncode, status, (done.stdout, done.stderr))
        return dict(json.loads(done.stdout))


class InAndOut(WithFiles):
    """It goes in, and comes out."""

    def test_an_office(self) -> None:
        """306 files go in, told in parts, and come out byte for byte under their names; what is ignored isn't in the vault."""
        files = self.fill_office(47)
        self.assertEqual(len(files), 303)
        self.lay({f"Alt/mehr {number}": b"more" for number in range(3)})
        files.update({f"Alt/mehr {number}": b"more" for number in range(3)})
        refused = self.imported("/motor", "--yes", status=1)
        self.assertIn("drafts to put, and a check-out has at most 64, so nothing was put.", refused["sentence"])
        self.assertIn("--in-parts` does it in", refused["sentence"])
        self.assertFalse((self.cad / ".vault").exists())
        self.assertNotIn("/motor", list(self.anna.tree()))
        said = self.imported("/motor", "--yes", "--in-parts", "-m", "as it was")
        self.assertEqual(said["versions"], len(files))
        self.assertIn("It isn't one change", said["sentence"])
        self.assertEqual(sorted(said["ignored"]), sorted([*LEFT_BY_PROGRAMS, "Alt/notes.log"]))
        self.assertEqual(self.got("/motor"), files)
        self.assertEqual({name.partition("/")[2] for name in self.got("/") if name.startswith("Motor 2024/")}, set(files))
        self.assertIn("Nothing is changed", self.as_json("status", str(self.cad / "Kurbelwelle"))["sentence"])
        self.assertIn("Nothing in", self.imported("/motor", "--yes")["sentence"])
        self.assertEqual(self.as_json("mine")["claims"], [])
        note = self.as_json("history", "/motor/kurbelwelle/flansch_pdf")["versions"]
        self.assertEqual([(each["version"], each["note"]) for each in note], [(1, "as it was")])

    def test_one_change(self) -> None:
        """What fits into one check-out is one change."""
        self.lay({"Block (alt)/Welle.SLDPRT": b"1", "Block (alt)/WELLE.SLDPRT": b"2", "Block (alt)/leer/x": b"3"})
        (self.cad / "nichts").mkdir()
        said = self.imported("/motor", "--yes")
        self.assertEqual((said["versions"], len(said["claims"])), (3, 1))
        self.assertEqual(self.got("/motor"), {"Block (alt)/Welle.SLDPRT": b"1", "Block (alt)/WELLE.SLDPRT": b"2", "Block (alt)/leer/x": b"3"})
        self.assertTrue((self.root / "machine1" / "work" / "nichts").is_dir())
        tree = self.vault("tree", "/motor").decode()
        self.assertEqual(tree.splitlines()[:3], ["/motor", "  block__alt_  Block (alt)", "    leer"])
        self.assertNotIn("-name-", tree)

    def test_asks_first(self) -> None:
        """Where nobody is asked, nothing is changed."""
        self.lay({"a/b": b"1"})
        before = list(self.anna.tree())
        refused = self.imported("/motor", status=1)
        self.assertIn("Nothing was changed", refused["sentence"])
        self.assertIn("makes 1 assembly and 1 part of 1 bytes in /motor, and 1 place that isn't there yet", refused["notices"][0])
        self.assertEqual((list(self.anna.tree()), (self.cad / ".vault").exists()), (before, False))

    def test_an_old_client(self) -> None:
        """A client that doesn't know real names sees one part more of each, and can do all that it could."""
        self.lay({"Block (alt)/Welle.SLDPRT": b"1"})
        self.imported("/motor/alt", "--yes")
        assemblies, numbers = self.anna.survey("/motor")
        self.assertEqual(numbers, {"/motor/alt/block__alt_/welle_sldprt": 1, "/motor/alt/block__alt_/-name-": 1, "/motor/alt/-name-": 1})
        self.assertEqual(assemblies, ["/motor", "/motor/alt", "/motor/alt/block__alt_"])
        claim = self.anna.checkout(["w:/motor/alt/block__alt_"]).claim
        self.anna.put("/motor/alt/block__alt_/-name-", b"what somebody else wrote", claim)
        self.anna.checkin(claim)
        self.assertEqual(self.got("/motor/alt"), {"block__alt_/Welle.SLDPRT": b"1", "block__alt_/-name-": b"what somebody else wrote"})


class LeftOut(WithFiles):
    """One bad name, link or folder never stops the others, and limits are told before."""

    def test_odd_entries(self) -> None:
        self.lay({"a/good": b"1", "a/.hidden": b"2", "a/con.txt": b"3", "a/a:b": b"4", "a/end.": b"5", "loose": b"6", "locked/x": b"7"})
        (self.cad / "a" / "link").symlink_to("good")
        (self.cad / "linked").symlink_to("a")
        os.mkfifo(self.cad / "a" / "pipe")
        with open(os.fsencode(self.cad) + b"/a/\xff\xfe", "wb"):
            pass
        said = self.imported("/motor", "--yes")
        left = {each["file"]: each["reason"] for each in said["left"]}
        self.assertEqual(sorted(left), sorted(["a/.hidden", "a/con.txt", "a/a:b", "a/end.", "loose", "a/link", "linked", "a/pipe", "a/\udcff\udcfe"]))
        self.assertIn("is a link", left["linked"])
        self.assertIn("Windows doesn't take in a name: rename it", left["a/a:b"])
        self.assertIn("stands in no assembly's folder", left["loose"])
        self.assertEqual(self.got("/motor"), {"a/good": b"1", "locked/x": b"7"})
        self.assertIn("has what is in " + str(self.cad) + ", but for 9 files and folders. ", said["sentence"])

    def test_limits(self) -> None:
        """More than 64 beneath one, and seven names deep: told with what helps, and the others go in."""
        self.lay({f"a/{number}": b"x" for number in range(66)})
        self.lay({"b/c/d/e/f/g/h": b"deep", "b/top": b"t"})
        said = self.imported("/motor", "--yes", "--in-parts", "--all")
        left = {each["file"]: each["reason"] for each in said["left"]}
        self.assertEqual((len(left), said["versions"]), (3, 65))
        self.assertIn("the most that a place has: move some of them into a folder of their own", left["a/9"])
        self.assertIn("seven names deep", left["b/c/d/e/f/g"])

    def test_refused(self) -> None:
        self.lay({"a/b": b"1"})
        self.assertIn("is no folder", self.imported("/motor", status=2)["sentence"] if self.cad.rename(self.root / "x") is None else
                      self.as_json("import", str(self.cad), "/motor", status=2)["sentence"])
        self.cad = self.root / "x"
        self.assertIn("is a part, and nothing stands beneath one", self.imported("/engine/block/piston", "--yes", status=2)["sentence"])
        ben = self.client("ben")
        ben.make("/motor")
        ben.checkout(["w:/motor"])
        refused = self.imported("/motor", "--yes", status=1)
        self.assertIn("`vault wait c", refused["sentence"])
        self.assertIn("is queued behind", self.imported("/motor", "--yes", status=1)["sentence"])

    def test_place_refused(self) -> None:
        """A folder whose place can't be made is no working folder of it, and goes elsewhere."""
        self.lay({"a/Teil 1": b"1"})
        for number in range(64 - len(self.anna.names("/"))):
            self.anna.make(f"/p{number}")
        self.assertIn("/motor was not made. ", self.imported("/motor", "--yes", status=1)["sentence"])
        self.assertEqual(sorted(path.name for path in (self.cad / ".vault").iterdir()), ["lock"])
        self.imported("/p0/motor", "--yes")
        self.assertEqual(self.got("/p0/motor"), self.files(self.cad))


class Breaks(WithFiles):
    """It goes on where it was."""

    def test_cut(self) -> None:
        """A connection that is cut at a place, a draft or the check-in: said again, or by itself, each is there once."""
        self.lay({f"a {number}/Teil {each}": b"%d %d" % (number, each) for number in range(3) for each in range(8)})
        wanted = self.files(self.cad)
        self.vault("hello", f"anna@127.0.0.1:{self.cutter.port}")
        self.vault("store", "confirm", self.address())
        for place, where in (("/motor", self.cutter.before), ("/motor2", self.cutter.after)):
            where += [f"make {place}/a_1/teil_3".encode(), b"save c", b"checkin c"]
            said = self.as_json("import", str(self.cad), place, "--yes")
            self.assertEqual((said["versions"], len(said["claims"])), (24, 1))
            self.assertEqual(self.got(place), wanted)
            for path in (self.cad / ".vault").iterdir():
                path.unlink()
            (self.cad / ".vault").rmdir()

    def test_killed(self) -> None:
        """A program that is killed at any moment leaves a folder that goes on: each part is made once, and has one version."""
        self.lay({f"a {number}/Teil {each}": b"%d %d" % (number, each) for number in range(3) for each in range(8)})
        wanted, environment = self.files(self.cad), self.environment()
        for tenths in range(1, 12):
            process = subprocess.Popen([*self.words(), "import", str(self.cad), "/motor", "--yes"], env=environment, stdout=subprocess.DEVNULL,
                                       stderr=subprocess.DEVNULL)
            try:
                process.wait(tenths * 0.07)
            except subprocess.TimeoutExpired:
                process.kill()
                process.wait()
        self.imported("/motor", "--yes")
        self.assertEqual(self.got("/motor"), wanted)
        numbers = Client("eve", "127.0.0.1", self.server.port, self.root / "eve").survey("/motor")[1]
        self.assertEqual((len(numbers), set(numbers.values())), (24 + 3 + 1, {1}))


class OneConnection(WithFiles):
    """Each command has one connection, however many files it is about."""

    def test_connections(self) -> None:
        tap = Tap(self.server.port)
        self.addCleanup(tap.close)
        self.lay({f"a/Teil {number}": b"%d" % number for number in range(20)})
        self.vault("hello", f"anna@127.0.0.1:{tap.port}")
        self.vault("store", "confirm", self.address())
        work = self.root / "work"
        for words in (("import", str(self.cad), "/motor", "--yes"), ("get", "/motor", "--to", str(work)), ("checkout", "w:/motor"),
                      ("put", str(work)), ("checkin", str(work)), ("status", str(work))):
            if words[0] == "put":
                for path in work.rglob("Teil *"):
                    path.write_bytes(b"changed")
            before = len(tap.heard)
            self.vault(*words)
            self.assertEqual(len(tap.heard) - before, 1, words)


class ManyDrafts(WithFiles):
    """More changed files than a check-out has drafts."""

    def test_checkin(self) -> None:
        """It is told before anything is put, and done in parts where that is wanted."""
        self.lay({f"a {number}/Teil {each}": b"%d %d" % (number, each) for number in range(2) for each in range(40)})
        self.imported("/motor", "--yes", "--in-parts")
        for path in self.cad.rglob("Teil *"):
            path.chmod(0o644)
            path.write_bytes(path.read_bytes() + b" changed")
        wanted = self.files(self.cad)
        claim = self.as_json("checkout", "w:/motor")["claim"]
        for words in (("checkin", str(self.cad)), ("put", str(self.cad))):
            refused = self.as_json(*words, status=1)
            self.assertIn("has 80 drafts to put, and a check-out has at most 64, so nothing was put.", refused["sentence"])
        self.assertEqual(self.anna.drafts(claim), [])
        said = self.as_json("checkin", str(self.cad), "--in-parts")
        self.assertEqual((said["versions"], len(said["claims"])), (80, 2))
        self.assertIn("It isn't one change: it took 2 check-outs.", said["sentence"])
        self.assertEqual((self.got("/motor"), self.as_json("mine")["claims"]), (wanted, []))

    def test_one_waits(self) -> None:
        """Where the next check-out waits for somebody, what was checked in before is told, and said again it goes on."""
        self.lay({f"a {number}/Teil {each}": b"%d %d" % (number, each) for number in range(2) for each in range(40)})
        wanted, ben = self.files(self.cad), self.client("ben")
        self.vault("hello", f"anna@127.0.0.1:{self.cutter.port}")
        self.vault("store", "confirm", self.address())
        taken: List[str] = []
        self.cutter.meanwhile = lambda: taken.append(ben.checkout(["w:/motor"]).claim)
        self.cutter.after.append(b"checkin c")
        refused = self.imported("/motor", "--yes", "--in-parts", status=1)
        self.assertRegex(refused["sentence"], r"^c[0-9]+ is checked in: 6[0-9] new versions\. c[0-9]+ is queued behind c[0-9]+, which ben holds:"
                                              r" w:/motor\. So a part is left: say it again once that is held, as `vault wait c[0-9]+` tells\.$")
        ben.abandon(taken[0])
        self.assertEqual(refused["versions"] + self.imported("/motor", "--yes", "--in-parts")["versions"], 80)
        self.assertEqual(self.got("/motor"), wanted)


class Adding(WithFiles):
    """`vault add` of folders in a working folder."""

    def test_folders(self) -> None:
        work = self.root / "work"
        self.vault("get", "/engine", "--to", str(work))
        self.cad = work
        self.lay({"block/Dichtung (neu)/Ring 1": b"1", "block/Dichtung (neu)/innen/Ring 2": b"2", "Kopf/x.bak": b"3", "Kopf/y": b"4"})
        refused = self.as_json("add", str(work / "Kopf"), str(work / "block" / "Dichtung (neu)"), status=1)
        self.assertIn("No folder was added", refused["sentence"])
        said = self.as_json("add", "--yes", str(work / "Kopf"), str(work / "block" / "Dichtung (neu)"))
        self.assertEqual({os.path.relpath(name, work): place for name, place in said["made"].items()},
                         {"Kopf": "/engine/kopf", "Kopf/y": "/engine/kopf/y", "block/Dichtung (neu)": "/engine/block/dichtung__neu_",
                          "block/Dichtung (neu)/Ring 1": "/engine/block/dichtung__neu_/ring_1",
                          "block/Dichtung (neu)/innen": "/engine/block/dichtung__neu_/innen",
                          "block/Dichtung (neu)/innen/Ring 2": "/engine/block/dichtung__neu_/innen/ring_2"})
        self.vault("checkout", "w:/engine")
        self.assertIn("3 new versions", self.as_json("checkin", str(work))["sentence"])
        self.assertEqual(self.got("/engine"), {"block/Dichtung (neu)/Ring 1": b"1", "block/Dichtung (neu)/innen/Ring 2": b"2", "Kopf/y": b"4"})
        self.assertEqual(self.as_json("add", "--yes", str(work / "Kopf"))["sentence"], "Nothing was added.")


if __name__ == "__main__":
    unittest.main()
