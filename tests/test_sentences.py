"""Sentences that say what a designer does next: each has its row."""

import contextlib
import json
import os
import pty
import re
import subprocess
import tempfile
import unittest
from pathlib import Path
from typing import Dict, List, Sequence
from unittest import mock

from servers import MEMORY, Server, program
from stores import NAME, PART, WithStore
from test_check import file_of

from vault import RefusedError
from vault.cli.counting import MOST, SHOWN, some_of
from vault.protocol.replies import SENTENCES


class Limits(WithStore):
    """Each limit has its own sentence: which one, how full, what helps."""

    def refused(self, *words: str, status: int = 1) -> str:
        """What a command is refused with."""
        return str(self.as_json(*words, status=status)["sentence"])

    def test_limits(self) -> None:
        self.as_program()
        for number in range(63):
            self.anna.make(f"/engine/block/p{number}")
        self.assertIn("/engine/block has 64 places right beneath it, and a place has at most that many. Make further ones in an assembly",
                      self.refused("make", "/engine/block/more"))
        claim = self.anna.checkout(["w:/engine"]).claim
        self.anna.make("/engine/other", claim)
        for number in range(2):
            self.anna.make(f"/engine/other/p{number}", claim)
        for place in [f"/engine/block/p{number}" for number in range(63)] + ["/engine/other/p0"]:
            self.anna.put(place, b"x", claim)
        self.fill(b"x", 10)
        self.assertIn(f"{claim} has 64 drafts, and a check-out has at most that many. Check it in",
                      self.refused("put", "/engine/other/p1", str(self.file)))
        with self.assertRaises(RefusedError) as refused:
            for _ in range(256):
                self.anna.checkout(["r:/engine"])
        self.assertIn("The vault has 256 check-outs and holds, and has at most that many at once. `vault who /`", str(refused.exception))


class Full(unittest.TestCase):
    """A vault that has reached a limit for good."""

    def refused(self, snapshot: bytes, *steps: Sequence[str]) -> str:
        """With what the last of some commands is refused in a vault with a snapshot, in which anna has /e checked out."""
        with tempfile.TemporaryDirectory(prefix="vault-test-", dir=MEMORY) as folder:
            files = (os.path.join(folder, "a"), os.path.join(folder, "b"))
            Path(files[0]).write_bytes(file_of(1, snapshot))
            Path(files[1]).write_bytes(b"")
            server = Server("--workers", "4", folder=folder, files=files)
            try:
                server.start()
                (Path(folder) / "x").write_bytes(b"x" * 1017)
                environment = {**os.environ, "XDG_STATE_HOME": folder, "XDG_CACHE_HOME": folder, "VAULT_AS": f"anna@127.0.0.1:{server.port}"}
                for words in steps:
                    done = subprocess.run([*program("vault"), "--json", *words], cwd=folder, env=environment, capture_output=True, timeout=60,
                                          check=False)
                    self.assertEqual(done.returncode, int(words == steps[-1]), (words, done.stdout, done.stderr))
                return str(json.loads(done.stdout)["sentence"])
            finally:
                server.close()

    def test_limits(self) -> None:
        """Which one it is, how full, what helps, and who can."""
        claim = bytes.fromhex("0001 00000001 04 616e6e61 00 01 01 00000001 00")
        numbered, last = (1).to_bytes(4, "big"), b"\xff" * 4
        head = bytes.fromhex("00000004 00000000 01 65 00 00000001 01 62 00 00000002 01 63 01")
        put, another = ("put", "/e/b/c", "x"), "Ask whoever runs it for another vault; nothing was changed."
        self.assertEqual(self.refused(numbered + head + b"\xff\xff" + bytes(2 * 65535) + claim, put, ("checkin", "c1")),
                         "/e/b/c has 65,535 versions, and a part has at most that many, for good. Make another part of it, and put its file there;"
                         " `vault abandon c1` gives this check-out up, with its drafts. Nothing was changed.")
        versions = (16256).to_bytes(2, "big") + ((1024).to_bytes(2, "big") + bytes(1024)) * 16256
        self.assertEqual(self.refused(numbered + head + versions + claim, put),
                         "With this draft the contents of all versions and drafts would have more than 16,777,216 bytes, the most that a vault"
                         f" has. `vault abandon` of a check-out gives back what its drafts take; versions stay for good. {another}")
        self.assertEqual(self.refused(last + head + bytes(2) + claim, ("checkout", "r:/e")),
                         f"The vault has given check-outs all numbers up to 4,294,967,295, for good. {another}")
        places = [(0, b"p%d" % number) for number in range(64)]
        places += [(above, b"a%d" % number) for number in range(63) for above in range(1, 65)][:4095 - 64]
        spelled = b"".join(above.to_bytes(4, "big") + bytes([len(name)]) + name + b"\0" for above, name in places)
        self.assertEqual(self.refused(bytes(4) + (4096).to_bytes(4, "big") + spelled + bytes(2), ("make", "/p63/more")),
                         f"The vault has 4,096 places with the library, and has at most that many, for good. {another}")


class Words(WithStore):
    """What is meant, or what was misunderstood."""

    def test_commands(self) -> None:
        """A word of another program does what is meant, and an unknown one gets the nearest."""
        self.as_program()
        self.assertEqual(self.as_json("ls")["places"], ["/engine", "/engine/block", PART, "/vault", "/vault/settings", "/vault/settings/store"])
        self.put_version()
        self.assertEqual(len(self.as_json("log", PART)["versions"]), 1)
        self.assertEqual(self.as_json("whoami")["vaults"][0]["designer"], "anna")
        self.assertIn(b"usage: vault", self.vault("help"))
        self.assertIn(b"usage: vault", self.vault("--patience", "3", "help"))
        rows: List[List[str]] = [["chekout", "Did you mean `vault checkout`? `vault --help`"], ["statsu", "Did you mean `vault status`?"],
                                 ["xyzzy", "`xyzzy` is no command. `vault --help` shows the words."]]
        for word, sentence in rows:
            self.assertIn(sentence, self.as_json(word, status=2)["sentence"])

    def test_nothing_was_changed(self) -> None:
        """Behind what was done no refusal says that nothing was changed."""
        for sentence in SENTENCES.values():
            refused = RefusedError(sentence)
            refused.put_behind("c3 is checked in: 1 new version.")
            self.assertNotIn("othing was changed", str(refused))
            self.assertRegex(str(refused), r"[a-z`}]\.$")
        self.as_program()
        self.vault("make", "/engine/head")
        work = self.root / "work"
        self.vault("get", "/engine", "--to", str(work))
        self.client("ben").checkout(["w:/engine/head"])
        for name in ("block/Bolzen", "head/Ventil"):
            (work / name).write_bytes(b"new")
        said = self.as_json("add", str(work / "block" / "Bolzen"), str(work / "head" / "Ventil"), status=1)["sentence"]
        self.assertEqual(said, f"{work}/block/Bolzen is /engine/block/bolzen. The place above it is in c2, which ben holds: w:/engine/head. Wait"
                               " until it is gone, or ask ben.")

    def test_others_see(self) -> None:
        """A put of one file says what others will see: the name that the part keeps, or the one that it is given."""
        self.put_version()
        self.as_program()
        self.vault("checkout", f"w:{PART}")
        (self.root / "entwurf 7.tmp").write_bytes(b"bore 82")
        said = self.vault("put", PART, str(self.root / "entwurf 7.tmp")).decode()
        self.assertEqual(said, f"7 bytes are a draft of {PART} in c3. `vault checkin c3` makes it a version, which others get as {NAME}: the part"
                               " keeps its name, and `--name` gives it another.\n")
        said = self.vault("put", PART, str(self.root / "entwurf 7.tmp"), "--name", "Kolben 82").decode()
        self.assertTrue(said.endswith("makes it a version, which others get as Kolben 82.\n"), said)

    def test_get(self) -> None:
        """An assembly without a folder comes into one of its name in the current folder, and the folder's path brings it up to date."""
        self.put_version()
        self.as_program()
        before = os.getcwd()
        self.addCleanup(os.chdir, before)
        os.chdir(self.root)
        self.assertEqual(self.as_json("get", "/engine/block")["folder"], "block")
        self.fill(b"bore 81")
        self.put_version()
        self.assertEqual(self.as_json("get", "block")["files"], [NAME])
        self.assertEqual((self.root / "block" / NAME).read_bytes(), self.file.read_bytes())

    def test_queued(self) -> None:
        """While a check-out waits, what would put into it names it."""
        self.put_version()
        self.as_program()
        self.vault("get", "/engine/block", "--to", str(self.root / "work"))
        self.client("ben").checkout(["w:/engine"])
        claim = self.as_json("checkout", f"w:{PART}")["claim"]
        changed = self.root / "work" / NAME
        changed.chmod(0o644)
        changed.write_bytes(b"mine")
        said = self.as_json("put", str(self.root / "work"))
        self.assertEqual(said["left"][0]["reason"], f"{claim} takes it in, and waits still: `vault wait {claim}` tells when it is held")
        self.assertIn(f"`vault wait {claim}` tells", self.as_json("checkin", str(self.root / "work"), status=1)["sentence"])
        for words in (("put", PART, str(self.file)), ("put", PART, str(self.file), "--claim", claim), ("checkin", claim),
                      ("extend", claim, "w:/engine/block"), ("make", "/engine/block/more", "--claim", claim)):
            self.assertEqual(self.as_json(*words, status=1)["sentence"],
                             f"{claim} waits still, so nothing was changed. `vault wait {claim}` tells when it is held.", words)


class Kinds(unittest.TestCase):
    """Which lines are of one kind."""

    def test_some(self) -> None:
        """Of a kind that has many lines some are shown; one of another kind always is, wherever it stands."""
        many = [(f"f{number}:", f"version {number} is in the vault; `vault get /e/p{number}` fetches it.") for number in range(MOST + 1)]
        lines = [*many[:20], ("odd:", "can't be read."), *many[20:]]
        other = [*many, *((name, "isn't here, and version 3 wasn't got.") for name, _ in many)]
        self.assertEqual(len(some_of(other, False)), 2 * (SHOWN + 1))
        said = some_of(lines, False)
        self.assertEqual(len(said), SHOWN + 2)
        self.assertEqual(said[-2:], [f"So it is with {MOST + 1 - SHOWN} more: `--all` names them.", "odd: can't be read."])
        self.assertEqual(some_of(lines, True), [" ".join(line) for line in lines])
        self.assertEqual(some_of(lines[1:], False), [" ".join(line) for line in lines[1:]])


class Hundreds(WithStore):
    """What comes in hundreds is counted, and listed with `--all`."""

    FILES = 60

    def setUp(self) -> None:
        super().setUp()
        self.as_program()
        self.cad = self.root / "cad"
        for number in range(self.FILES):
            self.lay(f"Deckel/Teil {number}", b"%d" % number)
        self.lay("Welle/Nut", b"nut")
        self.vault("import", str(self.cad), "/motor", "--yes")

    def lay(self, name: str, content: bytes) -> Path:
        """Writes a file of the folder."""
        path = self.cad / name
        path.parent.mkdir(parents=True, exist_ok=True)
        path.write_bytes(content)
        return path

    def shown(self, *words: str, status: int = 0) -> Dict[bool, List[str]]:
        """The lines of an answer, without and with `--all`."""
        return {every: self.vault(*words, *(["--all"] if every else []), status=status).decode().splitlines() for every in (False, True)}

    def check_counted(self, lines: List[str], more: int) -> None:
        """Some lines are shown, and more of the same kind are counted."""
        self.assertEqual(lines.count(f"So it is with {more} more: `--all` names them."), 1, lines)

    def test_places(self) -> None:
        """Places: the upper ones, each with how many are beneath it."""
        shown = self.shown("tree", "/")
        self.assertIn("    deckel  Deckel  (60 places beneath)", shown[False])
        self.assertTrue(shown[False][-1].endswith(" places in all: `--all` lists them."), shown[False])
        self.assertEqual((len(shown[True]), "        teil_59  Teil 59" in "\n".join(shown[True])), (1 + len(self.as_json("tree")["places"]), False))
        self.assertIn("      teil_59  Teil 59", shown[True])
        self.assertEqual(self.shown("tree", "/motor/welle")[False], ["/motor/welle", "  nut  Nut"])
        self.assertEqual(len(self.shown("tree", "/motor/deckel")[False]), 61)

    def test_files(self) -> None:
        """Files of a working folder: changed, put, checked in, got, missing, new."""
        self.vault("checkout", "w:/motor/deckel")
        for number in range(self.FILES):
            self.lay(f"Deckel/Teil {number}", b"changed %d" % number)
        self.lay("Welle/neu", b"new")
        shown = self.shown("status", str(self.cad))
        self.check_counted(shown[False], 50)
        self.assertIn(f"Welle/neu: not in the vault; `vault add {self.cad}/Welle/neu` makes a part of it.", shown[False])
        self.assertEqual((len(shown[False]), len(shown[True])), (12, 61))
        self.check_counted(self.vault("put", str(self.cad)).decode().splitlines(), 50)
        self.assertEqual(len(self.vault("put", str(self.cad), "--all").splitlines()), 60)
        self.assertIn("60 drafts (`--all` names them)", self.vault("mine").decode())
        self.assertEqual(self.vault("mine", "--all").decode().count("draft of"), 60)
        self.vault("checkin", str(self.cad))
        other = self.root / "other"
        self.vault("get", "/motor", "--to", str(other))
        for number in range(self.FILES):
            (other / "Deckel" / f"Teil {number}").chmod(0o644)
            (other / "Deckel" / f"Teil {number}").write_bytes(b"mine %d" % number)
        self.anna.checkin(self.put_more())
        told = self.as_json("get", "/motor", "--to", str(other))["notices"]
        self.check_counted(told, 50)
        self.assertEqual(len(self.as_json("get", "/motor", "--to", str(other), "--all")["notices"]), 60)

    def put_more(self) -> str:
        """A check-out with a further draft of each part."""
        claim = self.anna.checkout(["w:/motor/deckel"]).claim
        for number in range(self.FILES):
            self.anna.put(f"/motor/deckel/teil_{number}", b"more %d" % number, claim)
        return claim

    def test_added(self) -> None:
        """Files that become parts, and those that are parts already; and what is to be known of a place."""
        files = [str(self.lay(f"Ring/Ring {number}", b"ring")) for number in range(self.FILES)]
        refused = self.as_json("add", *files, status=2)
        self.assertIn(f"`vault add {self.cad}/Ring` makes an assembly of it, and of all that is in it", refused["sentence"])
        self.check_counted(refused["notices"], 49)
        ring = self.as_json("add", str(self.cad / "Ring"), "--yes")
        self.assertEqual((ring["made"][str(self.cad / "Ring")], len(ring["made"])), ("/motor/ring", 61))
        files = [str(self.lay(f"Ring/Bolzen {number}", b"bolt")) for number in range(3)]
        lines = self.vault("add", *files).decode().splitlines()
        self.assertEqual((len(lines), lines[-1]), (4, "A place stays for good: no command removes one."))
        self.check_counted(ring["sentence"].splitlines(), 51)
        self.check_counted(self.as_json("add", *(str(path) for path in (self.cad / "Ring").iterdir()))["notices"], 53)

    def test_claims(self) -> None:
        """Check-outs: one's own, and those at a place."""
        for _ in range(MOST + 2):
            self.anna.checkout(["r:/motor"])
        self.assertEqual(self.shown("mine")[False][-1], "2 more check-outs: `--all` lists them.")
        self.assertEqual(self.shown("who", "/motor")[False][-1], "2 more claims come behind these: `--all` lists them.")
        self.assertEqual(len(self.shown("who", "/motor")[True]), MOST + 2)
        self.assertEqual(len(self.as_json("who", "/motor")["claims"]), MOST + 2)

    def test_versions(self) -> None:
        """Versions: the latest."""
        for number in range(MOST + 1):
            claim = self.anna.checkout([f"w:{PART}"]).claim
            self.anna.put(PART, b"%d" % number, claim)
            self.anna.checkin(claim)
        shown = self.shown("history", PART)
        self.assertEqual(shown[False][0], "1 earlier versions are there: `--all` lists them.")
        self.assertEqual(shown[False][1:], shown[True][1:])


class Renames(WithStore):
    """A file that has another name now is known by its bytes, and what is said keeps one part."""

    def setUp(self) -> None:
        super().setUp()
        self.put_version()
        self.as_program()
        self.work = self.root / "work"
        self.vault("get", "/engine", "--to", str(self.work))
        (self.work / "block" / NAME).rename(self.work / "block" / "Kolben 82 (neu)")

    def test_file(self) -> None:
        """What `status` says, said, gives the part the new name, here and elsewhere."""
        other, path = self.root / "other", f"'{self.work}/block/Kolben 82 (neu)'"
        self.vault("get", "/engine", "--to", str(other))
        put = f"`vault put {PART} {path} --name 'Kolben 82 (neu)'` keeps it one part, with its history"
        said = (f"block/Kolben 82 (neu) is block/{NAME} by another name, and `vault add` would make a second part of it. In a check-out of it"
                f" (`vault checkout w:{PART}`) {put}.")
        self.assertEqual(self.vault("status", str(self.work)).decode().splitlines(), [f"block/{NAME}: missing here.", said])
        self.assertEqual(self.as_json("status", str(self.work))["renamed"], {"block/Kolben 82 (neu)": f"block/{NAME}"})
        refused = self.as_json("add", str(self.work / "block" / "Kolben 82 (neu)"), status=2)
        self.assertEqual(refused["sentence"], said)
        self.vault("checkout", f"w:{PART}")
        told = self.as_json("put", PART, str(self.work / "block" / "Kolben 82 (neu)"), "--name", "Kolben 82 (neu)")["sentence"]
        self.assertTrue(told.endswith("makes it a version, which others get as Kolben 82 (neu)."), told)
        self.assertEqual(self.vault("status", str(self.work)).decode(), "block/Kolben 82 (neu): put, checked out by you in c3.\n")
        self.assertIn("c3 is checked in: 1 new version.", self.as_json("checkin", str(self.work))["sentence"])
        self.assertIn("Nothing is changed", self.as_json("status", str(self.work))["sentence"])
        self.assertEqual(self.as_json("get", "/engine", "--to", str(other))["files"], ["block/Kolben 82 (neu)"])
        self.assertEqual([each["name"] for each in self.as_json("history", PART)["versions"]], [NAME, "Kolben 82 (neu)"])
        self.assertEqual(self.as_json("tree", "/engine")["places"], ["/engine/block", PART])

    def test_other_folder(self) -> None:
        """One that was moved into another assembly's folder is told so, and becomes a part there where that is wanted; one that was copied is new."""
        self.vault("make", "/engine/head")
        self.vault("get", "/engine", "--to", str(self.work))
        (self.work / "block" / "Kolben 82 (neu)").unlink()
        moved = self.work / "head" / "Kolben"
        moved.write_bytes((self.work / "block" / NAME).read_bytes())
        self.assertIn(f"head/Kolben: not in the vault; `vault add {moved}` makes a part of it.", self.vault("status", str(self.work)).decode())
        (self.work / "block" / NAME).unlink()
        self.assertIn(f"head/Kolben has the bytes of block/{NAME}, which is missing here. A part stays in its assembly: move it back, or `vault add"
                      f" {moved}` makes another part of it.", self.vault("status", str(self.work)).decode())
        self.assertEqual(list(self.as_json("add", str(moved))["made"].values()), ["/engine/head/kolben"])

    def test_folder(self) -> None:
        """A folder that has another name now is known by its files, and nothing in it becomes a second part."""
        self.vault("get", "/engine", "--to", str(self.root / "other"))
        (self.root / "other" / "block").rename(self.root / "other" / "Block alt")
        said = self.vault("status", str(self.root / "other")).decode()
        self.assertIn("Block alt/ has the files of block, which is missing here: give it that name again, since an assembly keeps its name.", said)
        self.assertNotIn("vault add", said)

    def test_import(self) -> None:
        """An import that goes on leaves it out, and says why."""
        said = self.as_json("import", str(self.work), "/engine", "--yes")
        self.assertTrue(said["sentence"].endswith("is left to import: 1 file or folder can not go in, as was said."), said["sentence"])
        self.assertEqual([each["file"] for each in said["left"]], ["block/Kolben 82 (neu)"])
        self.assertIn("keeps it one part, with its history", said["left"][0]["reason"])


class PartOfAFolder(WithStore):
    """`vault status` of a path is about that part of the working folder."""

    def test_parts(self) -> None:
        self.put_version()
        self.as_program()
        work = self.root / "work"
        self.vault("get", "/engine", "--to", str(work))
        self.vault("checkout", "w:/engine")
        self.anna.make("/engine/head", "c3")
        self.anna.make("/engine/head/valve", "c3")
        (work / "block" / NAME).write_bytes(b"changed")
        (work / "block" / "new").write_bytes(b"new")
        (work / "Kopf" / "innen").mkdir(parents=True)
        (work / "Kopf" / "innen" / "x").write_bytes(b"x")
        rows = {"": 3, "block": 2, f"block/{NAME}": 1, "block/new": 1, "Kopf": 1, "Kopf/innen/x": 1}
        for part, count in rows.items():
            lines = self.vault("status", str(work / part)).decode().splitlines()
            self.assertEqual(len(lines), count, (part, lines))
        found = self.as_json("status", str(work / "block" / NAME))
        self.assertEqual((found["place"], [each["file"] for each in found["files"]], found["others"]), (PART, [f"block/{NAME}"], []))
        self.assertIn("isn't there, and nothing by this name", self.as_json("status", str(work / "block" / "none"), status=2)["sentence"])
        (work / "block" / NAME).unlink()
        self.assertIn("missing here", self.as_json("status", str(work / "block" / NAME))["sentence"])


class Colours(WithStore):
    """A terminal has colours; a pipe, NO_COLOR and a dumb terminal have none, and nothing is loaded for them."""

    def setUp(self) -> None:
        super().setUp()
        self.put_version()
        self.as_program()
        self.work = self.root / "work"
        self.vault("get", "/engine", "--to", str(self.work))
        self.vault("checkout", f"w:{PART}")
        (self.work / "block" / NAME).write_bytes(b"changed")
        (self.work / "block" / "new").write_bytes(b"new")

    def at_terminal(self, *words: str, **more: str) -> str:
        """What the program shows at a terminal."""
        environment = {**self.environment(), "TERM": "xterm-256color", "COLUMNS": "200", **more}
        ours, theirs = pty.openpty()
        with subprocess.Popen([*program("vault"), *words], env=environment, stdin=theirs, stdout=theirs, stderr=theirs) as process:
            os.close(theirs)
            said = b""
            with contextlib.suppress(OSError):
                while piece := os.read(ours, 65536):
                    said += piece
            process.wait()
        os.close(ours)
        return said.decode().replace("\r\n", "\n")

    def test_words(self) -> None:
        """The words are the same, and what went wrong is red."""
        for words, status in ((("status", str(self.work)), 0), (("tree",), 0), (("history", "/none"), 1), (("mine",), 0)):
            plain = self.vault(*words, status=status).decode()
            coloured = self.at_terminal(*words)
            self.assertEqual(re.sub(r"\x1b\[[0-9;]*m", "", coloured), plain)
            self.assertEqual("\x1b[" in coloured, words[0] != "mine", words)
            for more in ({"NO_COLOR": "1"}, {"TERM": "dumb"}):
                self.assertEqual(self.at_terminal(*words, **more), plain)
        self.assertTrue(self.at_terminal("history", "/none").startswith("\x1b[1;31mvault:\x1b[0m "))
        self.assertIn("\x1b[32mchecked out by you\x1b[0m in \x1b[1mc3\x1b[0m", self.at_terminal("status", str(self.work)))
        self.assertIn("\x1b[32mheld    \x1b[0m", self.at_terminal("who"))
        self.assertNotIn("\x1b", self.at_terminal("who", NO_COLOR="1"))
        self.assertIn('"done": true', self.at_terminal("--json", "status", str(self.work)))

    def test_what_is_loaded(self) -> None:
        """Where nobody looks, what makes colours isn't loaded; where it isn't there, the words come without."""
        (self.root / "rich.py").write_text("import os\nopen(os.environ['LOADED'], 'w').close()\nraise ImportError('there is none')\n", "ascii")
        loaded = self.root / "loaded"
        with mock.patch.dict(os.environ, {"PYTHONPATH": str(self.root), "LOADED": str(loaded)}):
            for words, status in ((("status", str(self.work)), 0), (("tree",), 0), (("who",), 0), (("history", "/none"), 1), (("history", PART), 0)):
                self.vault(*words, status=status)
                self.assertFalse(loaded.exists(), words)
            self.assertEqual(self.at_terminal("tree"), self.vault("tree").decode())
        self.assertTrue(loaded.exists())


if __name__ == "__main__":
    unittest.main()
