"""Wherever the client takes a place it takes a path in a working folder, and a working folder knows its vault."""

import json
import os
import subprocess
import unittest
from typing import Any, Dict

from servers import MEMORY, Server, lay_programs, program
from stores import NAME, PART, WithStore

from vault import Client
from vault.store.parts import Parts


class Paths(WithStore):
    """A working folder of an assembly, and the program in it."""

    def setUp(self) -> None:
        super().setUp()
        self.put_version()
        self.as_program()
        self.work = self.root / "work"
        self.vault("get", "/engine", "--to", str(self.work))

    def here(self, *words: str, folder: str = "", status: int = 0, **more: str) -> Dict[str, Any]:
        """What the program says in JSON, in the working folder or in a folder of it."""
        done = subprocess.run([*program("vault"), "--json", *words], cwd=self.work / folder, env={**self.environment(), **more}, capture_output=True,
                              timeout=60, check=False)
        self.assertEqual(done.returncode, status, (words, done.stdout, done.stderr))
        return dict(json.loads(done.stdout))

    def test_places(self) -> None:
        """A file's path, a folder's, and `.` are the places that they have; the real name is told with the place."""
        file = f"block/{NAME}"
        said = self.here("history", file)
        self.assertEqual((said["place"], said["notices"]), (PART, [f"{file} is {PART}."]))
        self.assertEqual(self.here("history", NAME, folder="block")["place"], PART)
        self.assertEqual(self.here("history", str(self.work / file))["place"], PART)
        self.assertEqual(self.here("tree", ".")["place"], "/engine")
        self.assertEqual(self.here("who", "block")["place"], "/engine/block")
        claim = self.here("checkout", ".", folder="block")["claim"]
        self.assertEqual(self.here("extend", claim, f"r:{file}")["standing"], "held")
        self.assertEqual(self.here("mine")["claims"][0]["items"], ["w:/engine/block", f"r:{PART}"])
        (self.root / "other").write_bytes(b"other")
        self.assertEqual(self.here("put", file, str(self.root / "other"))["place"], PART)
        self.assertEqual(bytes.fromhex(self.here("draft", claim, file)["content"]), b"other")
        self.assertEqual(self.here("get", file, "1")["version"], 1)
        self.assertEqual(self.here("make", "/engine/new")["place"], "/engine/new")

    def test_no_places(self) -> None:
        """What has no place is told, with what gives it one; a place that begins as a path does is a place."""
        (self.work / "block" / "new").write_bytes(b"new")
        refused = self.here("history", "block/new", status=2)
        self.assertIn("`vault add block/new` makes one of it", refused["sentence"])
        self.assertIn("is no place: nothing by this name", self.here("history", "block/none", status=2)["sentence"])
        self.assertEqual(self.here("who", "/engine/block")["place"], "/engine/block")
        elsewhere = self.as_json("history", "no/place", status=2)
        self.assertIn("`no/place` is no place", elsewhere["sentence"])

    def test_vaults(self) -> None:
        """A working folder is at the vault that it was got from, whatever the last hello was, and a vault has a name in each place."""
        other = Server("--workers", "16", folder=MEMORY)
        self.addCleanup(other.close)
        other.start()
        Client("anna", "127.0.0.1", other.port, self.root / "elsewhere").make("/plant")
        self.assertEqual(self.as_json("hello", f"anna@127.0.0.1:{other.port}", "--name", "plant")["vault"], "plant")
        self.assertEqual(self.as_json("tree")["places"], ["/plant"])
        self.assertEqual(self.here("tree")["places"][0], "/engine")
        self.assertIn("Nothing is changed", self.as_json("status", str(self.work))["sentence"])
        self.assertEqual(self.here("tree", "plant:/")["places"], ["/plant"])
        self.assertEqual(self.as_json("checkout", "w:plant:/plant")["claim"], "c1")
        told = self.as_json("vaults")["vaults"]
        self.assertEqual([(each["name"], each["designer"], each["current"]) for each in told],
                         [("plant", "anna", True), ("127_0_0_1", "anna", False)])
        self.assertIn("No vault is called shop here", self.as_json("tree", "shop:/engine", status=2)["sentence"])
        self.assertIn("is called plant here", self.as_json("hello", f"anna@127.0.0.1:{self.server.port}", "--name", "plant", status=2)["sentence"])
        self.assertEqual(self.here("tree", VAULT_AS=f"anna@127.0.0.1:{self.server.port}")["places"][0], "/engine")
        self.assertEqual(self.here("--as", f"anna@127.0.0.1:{other.port}", "tree")["places"], ["/plant"])

    def test_a_vaults_name(self) -> None:
        """Each command that names a place takes one of another vault by that vault's name, wherever it is said."""
        other = Server("--workers", "16", folder=MEMORY)
        self.addCleanup(other.close)
        other.start()
        self.vault("hello", f"anna@127.0.0.1:{other.port}", "--name", "plant")
        self.vault("hello", f"anna@127.0.0.1:{self.server.port}")
        (self.root / "cad" / "Gestell").mkdir(parents=True)
        (self.root / "cad" / "Gestell" / "Fuss").write_bytes(b"foot")
        (self.root / "short").write_bytes(b"ram 1")
        for words, field, wanted in (
                (("make", "plant:/press"), "place", "/press"), (("make", "plant:/press/ram"), "place", "/press/ram"),
                (("make", "plant:/press/ram/bolt"), "place", "/press/ram/bolt"), (("nest", "plant:/press/ram/head"), "place", "/press/ram/head"),
                (("checkout", "w:plant:/press/ram/bolt"), "claim", "c1"), (("extend", "c1", "r:plant:/press/ram"), "claim", "c1"),
                (("put", "plant:/press/ram/bolt", str(self.root / "short")), "claim", "c1"),
                (("draft", "c1", "plant:/press/ram/bolt"), "claim", "c1"),
                (("who", "plant:/press"), "place", "/press"), (("--as", f"anna@127.0.0.1:{other.port}", "checkin", "c1"), "versions", 1),
                (("history", "plant:/press/ram/bolt"), "place", "/press/ram/bolt"), (("get", "plant:/press/ram/bolt"), "place", "/press/ram/bolt"),
                (("get", "plant:/press", "--to", str(self.root / "press")), "all", 1), (("tree", "plant:/"), "place", "/"),
                (("hold", "r:plant:/press"), "claim", "h1"), (("import", str(self.root / "cad"), "plant:/cell", "--yes"), "place", "/cell")):
            with self.subTest(words=words):
                self.assertEqual(self.last(*words)[field], wanted)
        self.assertEqual(set(self.as_json("tree", "plant:/")["places"]) & {"/cell/gestell/fuss", "/press/ram/head"},
                         {"/cell/gestell/fuss", "/press/ram/head"})
        self.assertEqual(self.as_json("tree")["places"][0], "/engine")
        self.assertEqual(self.last("status", str(self.root / "press"))["place"], "/press")

    def last(self, *words: str) -> Dict[str, Any]:
        """What the program says in JSON, the last of it."""
        return dict(json.loads(self.vault("--json", *words).splitlines()[-1]))

    def test_a_shells_patterns(self) -> None:
        """What a shell makes of a pattern is what is meant, with each name and its place."""
        (self.work / "block" / "Ring 1.SLDPRT").write_bytes(b"ring")
        (self.work / "block" / "Ring 2.SLDPRT").write_bytes(b"ring 2")
        (self.root / "programs").mkdir()
        lay_programs(self.root / "programs")
        environment = {**self.environment(), "PATH": f"{self.root / 'programs'}:{os.environ['PATH']}"}
        for line, wanted in (("vault --json add block/Ring*", ["/engine/block/ring_1_sldprt", "/engine/block/ring_2_sldprt"]),
                             ("vault --json checkout block/Ring* r:block", ["w:/engine/block/ring_1_sldprt", "w:/engine/block/ring_2_sldprt"]),
                             ("vault --json status *lock", ["/engine/block"]), ("vault --json history block/Kolb*", [PART])):
            done = subprocess.run(["bash", "-c", line], cwd=self.work, env=environment, capture_output=True, text=True, timeout=60, check=False)
            self.assertEqual(done.returncode, 0, (line, done.stdout, done.stderr))
            said = json.loads(done.stdout)
            if "checkout" in line:
                self.assertEqual(self.here("mine")["claims"][0]["items"], [*wanted, "r:/engine/block"])
                self.assertIn("block/Ring 2.SLDPRT is /engine/block/ring_2_sldprt.", said["notices"])
            else:
                self.assertEqual(list(said["made"].values()) if "made" in said else [said["place"]], wanted, line)

    def test_one_store(self) -> None:
        """A store that is confirmed at one vault is followed at each that names it, which is said once; another designer of the account, and another
        address, want a word of their own."""
        other = Server("--workers", "16", folder=MEMORY)
        self.addCleanup(other.close)
        other.start()
        eve = Client("eve", "127.0.0.1", other.port, self.root / "elsewhere")
        Parts(eve).setting.set(self.address())
        for place in ("/plant", "/plant/press", "/plant/press/ram"):
            eve.make(place)
        self.vault("hello", f"anna@127.0.0.1:{other.port}", "--name", "plant")
        said = self.as_json("store")
        self.assertEqual((said["confirmed"], said["notices"]),
                         (self.address(), [f"This vault keeps its files at {self.address()}, too, which you follow already."]))
        self.assertEqual(self.as_json("store")["notices"], [])
        claim = str(self.as_json("checkout", "w:/plant/press/ram")["claim"])
        self.vault("put", "/plant/press/ram", str(self.file))
        self.assertEqual(self.as_json("--as", f"carl@127.0.0.1:{other.port}", "store")["confirmed"], None)
        Parts(eve).setting.set(f"file://{self.root}/another")
        self.assertEqual(self.as_json("store")["confirmed"], self.address())
        self.assertIn("which you have not confirmed", self.as_json("checkin", claim, status=1)["sentence"])

    def test_strange_folders(self) -> None:
        """What anybody wrote as a working folder's server leads to no vault that wasn't said hello to."""
        kept = self.work / ".vault" / "folder.json"
        content = json.loads(kept.read_text("utf-8"))
        for server in ("evil.example:1", "", "a\nb", "x" * 5000):
            kept.write_text(json.dumps({**content, "server": server}), "utf-8")
            self.assertEqual(self.here("tree")["places"][0], "/engine")
        os.truncate(kept, 10)
        self.assertEqual(self.here("tree")["places"][0], "/engine")


if __name__ == "__main__":
    unittest.main()
