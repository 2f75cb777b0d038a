"""The tools around the files (backup, salvage and board), on real vaults; and those around a check, with what is planted."""

import ast
import errno
import hashlib
import html
import os
import random
import re
import shutil
import subprocess
import sys
import tempfile
import threading
import time
import unittest
from concurrent.futures import ThreadPoolExecutor
from html.parser import HTMLParser
from pathlib import Path
from typing import Any, Dict, List, Tuple
from unittest import mock

from designers import PART
from page_server import until
from servers import MEMORY, TOP, VAULTD, Server, program

from vault import Client
from vaultd_tools import board, files
from vaultd_tools.files import backup
from vaultd_tools.page import line as page_line

VOID = {"meta"}


class WithVault(unittest.TestCase):
    """A vault with one version and two check-outs, its server, and a folder."""

    def setUp(self) -> None:
        self.server = Server("--workers", "16", folder=MEMORY)
        self.addCleanup(self.server.close)
        self.server.start()
        folder = tempfile.TemporaryDirectory(prefix="vault-test-", dir=MEMORY)
        self.addCleanup(folder.cleanup)
        self.folder = Path(folder.name)
        self.anna = Client("anna", "127.0.0.1", self.server.port, self.folder / "state")
        self.addCleanup(self.anna.close)
        for place in ("/engine", "/engine/block", PART):
            self.anna.make(place)
        self.anna.checkout(["w:" + PART])
        self.anna.put(PART, b"bore 80")

    def tool(self, name: str, *words: str, status: int = 0) -> str:
        """Runs a tool on the vault, and answers what it said."""
        done = subprocess.run([*program("vaultd-" + name), "--vaultd", VAULTD, *self.server.files, *words],
                              capture_output=True, text=True, timeout=60, check=False)
        self.assertEqual(done.returncode, status, done.stdout + done.stderr)
        return done.stdout if status == 0 else done.stderr

    def inspected(self, folder: Path) -> str:
        """What the program says of copies."""
        return subprocess.run([VAULTD, "inspect", str(folder / "a"), str(folder / "b")], capture_output=True, text=True,
                              check=True).stdout


class Backup(WithVault):
    """Copies of a running vault."""

    def test_while_it_serves(self) -> None:
        """What was acknowledged before the copying is in each backup; nothing else is left in the folder."""
        kept, stop, told = self.folder / "kept", threading.Event(), [0]

        def work() -> None:
            while not stop.is_set():
                self.anna.put(PART, b"bore 81")
                self.anna.checkin(self.anna.mine()[0][0].claim)
                told[0] += 1
                self.anna.checkout(["w:" + PART])

        with ThreadPoolExecutor(1) as pool:
            worker, before = pool.submit(work), []
            try:
                for _ in range(5):
                    before.append(told[0])
                    folder = Path(self.tool("backup", str(kept)).partition(": ")[0])
                    versions = int(self.inspected(folder).partition("versions ")[2].partition(",")[0])
                    self.assertGreaterEqual(versions, before[-1])
            finally:
                stop.set()
            worker.result()
        self.assertGreater(before[-1], before[0])
        self.assertEqual(len(list(kept.glob("[!.]*"))), 5)

    def test_keep(self) -> None:
        """The newest stay, with the new one among them, whatever its name; what is no backup of this tool's stays, too."""
        kept = self.folder / "kept"
        for name in ("2026-01-01T000000.000000Z", "2026-01-02T000000.000000Z", "9999-01-01T000000.000000Z", "2026-01-03T000000.000000Z"):
            (kept / name).mkdir(parents=True)
            for file in "ab":
                (kept / name / file).touch()
        (kept / "2026-01-03T000000.000000Z" / "note").touch()
        (kept / "mine").mkdir()
        for name in (".partial-old", ".partial-new"):
            (kept / name).mkdir()
        (kept / ".partial-note").touch()
        for name in (".partial-old", ".partial-note"):
            os.utime(kept / name, (0, 0))
        said = self.tool("backup", str(kept), "--keep", "2")
        new = Path(said.partition(": ")[0]).name
        self.assertEqual({path.name for path in kept.iterdir()},
                         {new, "9999-01-01T000000.000000Z", "2026-01-03T000000.000000Z", "mine", ".partial-new", ".vault"})
        self.assertEqual(said.count("was taken away"), 2)
        newest = Path(self.tool("backup", str(kept), "--keep", "1").partition(": ")[0]).name
        self.assertEqual({path.name for path in kept.glob("*Z") if len(list(path.iterdir())) == 2}, {newest, "9999-01-01T000000.000000Z"})
        for wrong in ("0", "-1", "x"):
            self.tool("backup", str(kept), "--keep", wrong, status=2)

    def test_no_disk(self) -> None:
        """The folder of backups is made, and nothing above it: that may be a disk that isn't mounted."""
        said = self.tool("backup", str(self.folder / "disk" / "kept"), status=1)
        self.assertIn(f"no backup was made: {self.folder}/disk/kept is not there, and can't be made: No such file or directory. Mount its disk", said)
        self.assertFalse((self.folder / "disk").exists())
        (self.folder / "disk").mkdir()
        self.assertIn("places 4", self.tool("backup", str(self.folder / "disk" / "kept")))

    def test_keep_where_none_was_made(self) -> None:
        """A backup that fails removes none."""
        kept = self.folder / "kept"
        for _ in range(2):
            self.tool("backup", str(kept))
        before = sorted(kept.iterdir())
        self.server.kill()
        damage(Path(self.server.files[0]), 34, 1, b"\xff" * 4)
        self.tool("backup", str(kept), "--tries", "1", "--keep", "1", status=1)
        self.assertEqual(sorted(kept.iterdir()), before)

    def test_of_two_vaults(self) -> None:
        """A folder has the backups of one vault: those of another are refused there, and none is removed."""
        kept, other = self.folder / "kept", Server(folder=MEMORY)
        self.addCleanup(other.close)
        self.tool("backup", str(kept), "--keep", "1")
        before = sorted(kept.iterdir())
        done = subprocess.run([*program("vaultd-backup"), "--vaultd", VAULTD, *other.files, str(kept), "--keep", "1"], capture_output=True, text=True,
                              timeout=60, check=False)
        self.assertEqual(done.returncode, 1)
        self.assertIn(f"has the backups of {self.server.files[0]}, {self.server.files[1]}. Name another folder", done.stderr)
        self.assertEqual(sorted(kept.iterdir()), before)
        (self.folder / "link").symlink_to(Path(self.server.files[0]).parent)
        self.server.files = (str(self.folder / "link" / "a"), str(self.folder / "link" / "b"))
        self.tool("backup", str(kept))
        self.assertEqual(len(list(kept.glob("*Z"))), 2)

    def test_a_note_that_is_empty(self) -> None:
        """A note of whose the backups are that was left empty is nobody's, and is written anew."""
        kept = self.folder / "kept"
        kept.mkdir()
        (kept / ".vault").touch()
        for _ in range(2):
            self.tool("backup", str(kept))
            self.assertEqual((kept / ".vault").read_text("utf-8"), ", ".join(map(os.path.realpath, self.server.files)) + "\n")
        self.assertEqual(len(list(kept.iterdir())), 3)

    def test_a_note_that_fails(self) -> None:
        """A note has its name once it is whole on disk: a full disk or a kill before that leaves none, and the next run notes it."""
        kept, ours, theirs = self.folder / "kept", b"a, b\n", b"c, d\n"
        kept.mkdir()

        def full(_descriptor: int) -> None:
            self.assertFalse((kept / ".vault").exists())
            raise OSError(errno.ENOSPC, "No space left on device")

        with mock.patch("os.fsync", full), self.assertRaises(OSError):
            backup.take_over(kept, ours)
        self.assertEqual(list(kept.iterdir()), [])
        with mock.patch("os.link", side_effect=PermissionError("a file system without links")):
            backup.take_over(kept, ours)
        self.assertEqual([(path.name, path.read_bytes()) for path in kept.iterdir()], [(".vault", ours)])
        with self.assertRaisesRegex(files.ToolError, "has the backups of a, b. Name another folder"):
            backup.take_over(kept, theirs)

    def test_a_note_that_another_writes(self) -> None:
        """If another vault notes a folder meanwhile, it has it."""
        kept = self.folder / "kept"
        kept.mkdir()
        link = os.link

        def beaten(source: Path, name: Path) -> None:
            name.write_bytes(b"c, d\n")
            link(source, name)

        with mock.patch("os.link", beaten), self.assertRaisesRegex(files.ToolError, "has the backups of c, d. Name another folder"):
            backup.take_over(kept, b"a, b\n")
        self.assertEqual([(path.name, path.read_bytes()) for path in kept.iterdir()], [(".vault", b"c, d\n")])

    def test_of_a_damaged_vault(self) -> None:
        self.server.kill()
        damage(Path(self.server.files[0]), 34, 1, b"\xff" * 4)
        said = self.tool("backup", str(self.folder / "kept"), "--tries", "2", status=1)
        self.assertIn("damaged at 34", said)
        self.assertIn("the vault itself is damaged", said)
        self.assertEqual(list((self.folder / "kept").iterdir()), [])

    def test_of_a_whole_vault(self) -> None:
        """What isn't the vault's damage isn't called so: a mistyped path, which is tried once, and files of two vaults."""
        kept, (first, second) = str(self.folder / "kept"), self.server.files
        self.server.kill()
        self.server.files = (first, second + "x")
        began = time.monotonic()
        said = self.tool("backup", kept, "--tries", "20", status=1)
        self.assertLess(time.monotonic() - began, 20)
        self.assertRegex(said, r"no backup was made: \S+bx can't be copied to \S+: No such file or directory")
        self.server.files = (first, two_vaults(first, self.folder / "other"))
        told = self.tool("backup", kept, "--tries", "2", status=1)
        self.assertIn("wouldn't serve the copy: files of two vaults. See docs/OPERATING.md, 'Files of two vaults'", told)
        self.assertNotIn("vault itself is damaged", said + told)

    def test_by_hand(self) -> None:
        """The page's commands make a folder of the vault as it is, and of a damaged vault none; the earlier ones stay."""
        kept = self.folder / "backup"
        kept.mkdir()
        page = (TOP / "docs" / "OPERATING.md").read_text("utf-8")
        block = re.findall(r"```sh\n(same\(\) .*?)```", page, re.DOTALL)[0].replace("/backup/", f"{kept}/")
        programs = self.folder / "programs"
        programs.mkdir()
        (programs / "vaultd").symlink_to(VAULTD)

        def backed_up() -> str:
            """What the commands say of a failure, in the vault's folder."""
            return subprocess.run(["bash", "-c", block], cwd=Path(self.server.files[0]).parent, capture_output=True, text=True, timeout=60,
                                  check=True, env={**os.environ, "PATH": f"{programs}:{os.environ['PATH']}"}).stderr

        self.assertEqual(backed_up(), "")
        first, = kept.iterdir()
        self.assertIn("claims 1, drafts 1", self.inspected(first))
        whole = (first / "a").read_bytes()
        self.server.kill()
        damage(Path(self.server.files[0]), 34, 1, b"\xff" * 4)
        self.assertEqual(set(backed_up().splitlines()), {"file a damaged at 34", "no backup was made"})
        self.assertEqual((list(kept.glob("[!.]*")), (first / "a").read_bytes()), ([first], whole))


def two_vaults(first: str, path: Path) -> str:
    """A file with an open head whose generation is two more than that of a vault's first file."""
    head = bytearray(Path(first).read_bytes()[:35])
    head[12:20] = (int.from_bytes(head[12:20], "big") + 2).to_bytes(8, "big")
    head[34:] = b"\0"
    path.write_bytes(bytes(head))
    return str(path)


def damage(file: Path, gate: int, behind: int, content: bytes) -> None:
    """Overwrites bytes at some distance after a gate."""
    data = bytearray(file.read_bytes())
    data[gate + behind:gate + behind + len(content)] = content
    file.write_bytes(bytes(data))


def gates(file: Path) -> List[int]:
    """The offsets where frames begin in the first file of a vault that never had another snapshot than its first."""
    data, found, gate = file.read_bytes(), [], 34
    while data[gate] == 1:
        found.append(gate)
        gate += 5 + int.from_bytes(data[gate + 1:gate + 5], "big")
    return found


class Salvage(WithVault):
    """Damaged vaults: the copy opens, salvage says what it gives up, and the vault's own files stay as they are."""

    def setUp(self) -> None:
        super().setUp()
        self.server.kill()
        self.first = Path(self.server.files[0])

    def salvaged(self) -> Tuple[str, str]:
        """What salvage said, and what is in the copy."""
        digest = hashlib.sha256(self.first.read_bytes()).hexdigest()
        said = self.tool("salvage", str(self.folder / "new"))
        self.assertEqual(hashlib.sha256(self.first.read_bytes()).hexdigest(), digest)
        return said, self.inspected(self.folder / "new")

    def test_whole(self) -> None:
        said, report = self.salvaged()
        self.assertIn("nothing is given up", said)
        self.assertIn("places 4, versions 0, claims 1, drafts 1", report)

    def test_a_frame(self) -> None:
        """The frame of the check-out is damaged: it and the draft after it are given up, the places are not."""
        damage(self.first, gates(self.first)[3], 5, b"\x09")
        said, report = self.salvaged()
        self.assertIn("a draft of 7 bytes for place 3 in c1", said)
        self.assertNotIn("the place", said)
        self.assertIn("places 4, versions 0, claims 0, drafts 0", report)

    def test_a_length(self) -> None:
        damage(self.first, gates(self.first)[1], 1, b"\x7f\xff\xff\xff")
        said, report = self.salvaged()
        self.assertIn("the place block under place 1", said)
        self.assertIn("places 2,", report)

    def test_a_head(self) -> None:
        damage(self.first, 0, 1, b"NOVAULT\x00\x00\x00\x09")
        said, report = self.salvaged()
        self.assertIn("were " + b"NOVAULT".hex(), said)
        self.assertIn("claims 1, drafts 1", report)

    def test_a_first_version(self) -> None:
        """A file of the first version opens as it is: a new vault's snapshot has the same bytes in both."""
        damage(self.first, 8, 0, b"\x00\x00\x00\x01")
        said, report = self.salvaged()
        self.assertIn("nothing is given up", said)
        self.assertIn(", version 1\n", report)

    def test_a_gate_of_the_head(self) -> None:
        damage(self.first, 0, 0, b"\x03")
        said, report = self.salvaged()
        self.assertIn("its head was closed", said)
        self.assertIn("claims 1, drafts 1", report)

    def test_a_version(self) -> None:
        damage(self.first, 8, 0, b"\x00\x00\x00\x63")
        said, report = self.salvaged()
        self.assertIn("the head's bytes at 8 were 00000063", said)
        self.assertIn("claims 1, drafts 1", report)

    @unittest.skipUnless(os.getuid() == 0, "needs root, for a disk of its own")
    def test_a_full_disk(self) -> None:
        """Where the folder for what is made meanwhile is full, that is said."""
        damage(self.first, 8, 0, b"\x00\x00\x00\x63")
        (self.folder / "full").mkdir()
        mounted = 'mount -t tmpfs -o nr_inodes=3 tmpfs "$TMPDIR"; exec "$@"'
        done = subprocess.run(["unshare", "--mount", "sh", "-c", mounted, "sh", *program("vaultd-salvage"), "--vaultd", VAULTD, *self.server.files,
                               str(self.folder / "new")], capture_output=True, text=True, timeout=60, check=False,
                              env={**os.environ, "TMPDIR": str(self.folder / "full")})
        self.assertEqual(done.returncode, 1)
        self.assertIn(f"vaultd-salvage: no vault could be made in {self.folder}/full, by which the files' version is known: device fault. Make room",
                      done.stderr)

    def test_a_snapshot(self) -> None:
        """The active file's snapshot is damaged: the other file opens, as the vault was before that snapshot."""
        damage(self.with_newer_file(), 24, 4, b"\xff" * 4)
        said, report = self.salvaged()
        self.assertIn("file b: gives up the whole file", said)
        self.assertIn("places 4, versions 0, claims 1, drafts 1", report)

    def test_a_gate_of_the_newer_file(self) -> None:
        """The active file's first byte is damaged: the other file opens, as the vault was before, and a person has to say which is the vault."""
        newer = self.with_newer_file()
        for byte in (b"\x03", b"\x00"):
            damage(newer, 0, 0, byte)
            said = self.tool("salvage", str(self.folder / f"asked{byte[0]}"), status=1)
            self.assertIn("which file is the vault?\nfile a: places 4, versions 0, claims 1, drafts 1\n"
                          "file b, of a greater generation, but closed: places 5, versions 0, claims 1, drafts 1\n", said)
            self.assertIn(f"its first byte was damaged: that is {byte[0]}, and 0", said)
        for take, opened, wanted in (("a", "is left closed, and gives up what it has: places 5", "places 4"),
                                     ("b", "its head was closed, and is opened", "places 5")):
            self.assertIn(f"file b: {opened}", self.tool("salvage", str(self.folder / take), "--take", take))
            self.assertIn(wanted, self.inspected(self.folder / take))
        frame = newer.read_bytes().rindex(b"\x01\x00\x00\x00\x0a")
        damage(newer, frame, 5, b"\x63")
        said = self.tool("salvage", str(self.folder / "torn"), status=1)
        self.assertIn(f"but closed: a whole snapshot, and is damaged at {frame}\n", said)
        self.assertIn(f"gives up 16 bytes from the frame at {frame} on", self.tool("salvage", str(self.folder / "cut"), "--take", "b"))

    def test_a_file_that_a_crash_left(self) -> None:
        """A closed file of a greater generation whose snapshot isn't whole is none to choose, nor is the one that is older."""
        newer = self.with_newer_file()
        whole = newer.read_bytes()
        self.assertIn("nothing is given up", self.tool("salvage", str(self.folder / "whole"), "--take", "b"))
        newer.write_bytes(b"\0" + whole[1:1000])
        self.assertIn("nothing is given up", self.tool("salvage", str(self.folder / "half")))
        self.assertIn("can't be read from file b", self.tool("salvage", str(self.folder / "none"), "--take", "b", status=1))
        newer.write_bytes(whole)
        self.assertIn("can't be read from file a", self.tool("salvage", str(self.folder / "older"), "--take", "a", status=1))

    def with_newer_file(self) -> Path:
        """Has the server write a snapshot into the second file, and a frame behind it; answers that file."""
        self.server.start()
        saves = [f"save c1 {PART} {number:04x}{'00' * 1022}" for number in range(1040)]
        for first in range(0, len(saves), 40):
            self.anna.link.read_all(saves[first:first + 40])
        while self.whole().active() != "b":
            time.sleep(0.05)
        self.anna.make("/wing")
        self.server.kill()
        return Path(self.server.files[1])

    def whole(self) -> Any:
        """What the program says of a copy of the vault."""
        with tempfile.TemporaryDirectory(prefix="vault-test-", dir=MEMORY) as folder:
            return files.inspect(VAULTD, files.copy_vault(*self.server.files, Path(folder)))

    def test_of_two_vaults(self) -> None:
        """Files of two vaults open, and no server would serve them: that is said, and not that nothing is given up."""
        self.server.files = (str(self.first), two_vaults(str(self.first), self.folder / "other"))
        said = self.tool("salvage", str(self.folder / "new"), status=1)
        self.assertIn("no server would serve it: files of two vaults. See docs/OPERATING.md, 'Files of two vaults'", said)

    def test_beside_a_server(self) -> None:
        """While a server has the files nothing is salvaged, and no folder is made."""
        self.server.start()
        self.assertIn("is in use: a server has it. Stop that server", self.tool("salvage", str(self.folder / "new"), status=1))
        self.assertFalse((self.folder / "new").exists())
        self.server.files = (self.server.files[0] + "x", self.server.files[1])
        self.assertIn("ax isn't there", self.tool("salvage", str(self.folder / "new"), status=1))

    def test_nothing_to_salvage(self) -> None:
        damage(self.first, 24, 0, b"\xff" * 8)
        self.assertIn("Take the last backup", self.tool("salvage", str(self.folder / "new"), status=1))
        self.assertIn("is there already", self.tool("salvage", str(self.folder / "new"), status=1))


class Balanced(HTMLParser):
    """Checks that each element is closed by its own end tag, and counts them."""

    def __init__(self) -> None:
        super().__init__()
        self.open: List[str] = []
        self.counted: List[str] = []
        self.wrong: List[str] = []

    def handle_starttag(self, tag: str, attrs: object) -> None:
        self.counted.append(tag)
        if tag not in VOID:
            self.open.append(tag)

    def handle_startendtag(self, tag: str, attrs: object) -> None:
        self.counted.append(tag)

    def handle_endtag(self, tag: str) -> None:
        if not self.open or self.open.pop() != tag:
            self.wrong.append(tag)


class Board(WithVault):
    """The page."""

    def claims(self, page: str) -> List[str]:
        """The claims of the queue, each as text."""
        items = page.partition('<ol class="line">')[2].partition("</ol>\n")[0].split('<li id="line:')[1:]
        return [re.sub(r"\s+", " ", html.unescape(re.sub(r"<[^>]*>", "", item.partition(">")[2]))).strip() for item in items]

    def test_a_queue(self) -> None:
        ben = Client("ben", "127.0.0.1", self.server.port, self.folder / "state")
        self.addCleanup(ben.close)
        ben.checkout(["r:/engine", "r:/engine/block"])
        self.anna.checkout(["w:/"])
        page = self.tool("board", "--title", "Plant <1>")
        parser = Balanced()
        parser.feed(page)
        self.assertEqual((parser.open, parser.wrong), ([], []))
        self.assertEqual([parser.counted.count(tag) for tag in ("script", "link", "a", "img", "tr")], [0, 0, 0, 0, 3])
        self.assertIn("<h1>Plant &lt;1&gt;</h1>", page)
        self.assertIn("1 held, 2 waiting; whoever waits for most waits for 2.", page)
        self.assertEqual(self.claims(page), [
            f"ananna c1 held change {PART} (contested) 2 wait for it",
            "beben c2 waits for c1 (anna) look at /engine (contested) look at /engine/block (contested) 1 to go before it 1 waits for it",
            "ananna c3 waits for c1 (anna) change / (contested) 2 to go before it"])
        self.assertIn("1 claim keeps 2 waiting", page)

    def test_as_the_server_says(self) -> None:
        """Each claim waits behind the first before it that overlaps it, which the page works out for itself."""
        moments = random.Random(34)
        for place in ("/engine/gear", "/engine/gear/wheel", "/engine/block/rod", "/wing"):
            self.anna.make(place)
        places = ["/"] + list(self.anna.tree("/"))
        for _ in range(60):
            self.anna.checkout([moments.choice("rrw") + ":" + moments.choice(places) for _ in range(moments.randint(1, 3))])
        report = board.report_of(VAULTD, *self.server.files, 5)
        claims, parser = report.claims(), Balanced()
        before = page_line.before(page_line.direct(claims))
        page = board.page(report, "61 claims")
        parser.feed(page)
        self.assertEqual((parser.wrong, len(self.claims(page))), ([], 61))
        for number, claim in enumerate(claims):
            overlapping = [place for place in range(number) if page_line.meeting(claims[place], claim)]
            self.assertEqual(claims[overlapping[0]].name if overlapping else None, claim.behind, claim.name)
            waits_for = set(overlapping).union(*(page_line.numbers(before[place]) for place in overlapping))
            self.assertEqual(set(page_line.numbers(before[number])), waits_for, claim.name)

    def test_a_note(self) -> None:
        """A note of the report is shown as text, and is no item; what turns the direction of writing is shown escaped."""
        report = files.Report("file a: open\nfile b: closed\nplaces 2, versions 0, claims 1, drafts 0\n"
                              "c1 anna queued behind c2 w:/e r:/e/b note 3c623ee280ae\n")
        claim = report.claims()[0]
        self.assertEqual((claim.behind, claim.items, claim.note), ("c2", ("w:/e", "r:/e/b"), "<b>\u202e".encode()))
        self.assertIn("<q><bdi>&lt;b&gt;\\u202e</bdi></q>", board.page(report, "x"))

    def test_a_given_check_out(self) -> None:
        self.anna.set_note("c1", "<bore> 80".encode())
        self.anna.give("c1", "ben")
        page = self.tool("board")
        self.assertEqual(self.claims(page), [f"beben c1 held change {PART} Note: <bore> 80"])
        self.assertIn("<q><bdi>&lt;bore&gt; 80</bdi></q>", page)

    def test_an_empty_line(self) -> None:
        self.anna.abandon("c1")
        self.assertIn("Nobody has anything checked out.", self.tool("board"))


class ProofTimes(unittest.TestCase):
    """What a check of a crate took, by the times of its files."""

    def setUp(self) -> None:
        folder = tempfile.TemporaryDirectory(prefix="vault-test-")
        self.addCleanup(folder.cleanup)
        self.folder = Path(folder.name)

    def said(self, *words: str, status: int = 0) -> str:
        done = subprocess.run([sys.executable, str(TOP / "tools" / "proof-times"), *words], cwd=self.folder, capture_output=True, text=True,
                              timeout=60, check=False)
        self.assertEqual(done.returncode, status, done.stdout + done.stderr)
        return done.stdout if status == 0 else done.stderr

    def test_three_modules(self) -> None:
        kept = self.folder / "crates" / "small" / "out" / "incremental" / "checked"
        kept.mkdir(parents=True)
        for name, written in (("specs.contracts.f", 100), ("proofs.f.Proof.decls", 107.5), ("proofs.f.Lts", 103)):
            file = kept / f"Rattle-small-{name}.oantt"
            file.touch()
            os.utime(file, (written, written))
        self.assertEqual(self.said("small", "1"), "    4.5 s  small-proofs.f.Proof.decls\n    7.5 s  all; Proof 4, Lts 3\n")
        self.assertEqual(len(self.said("small").splitlines()), 3)

    def test_nothing_to_say(self) -> None:
        self.assertIn("run rt check --jobs 1", self.said("small", status=1))
        self.assertIn("usage", self.said(status=1))
        self.assertIn("usage", self.said("small", "most", status=1))


class Requests(unittest.TestCase):
    """The calls whose requests for memory a test has to refuse."""

    def checked(self, folder: Path) -> Tuple[int, List[str]]:
        """The status of a check of this tree, and what it says."""
        done = subprocess.run([sys.executable, str(TOP / "tools" / "requests"), "--check"], cwd=folder, capture_output=True, text=True, timeout=60,
                              check=False)
        return done.returncode, done.stdout.splitlines()

    def test_this_tree(self) -> None:
        status, lines = self.checked(TOP)
        self.assertEqual((status, len(lines)), (0, 1))
        self.assertRegex(lines[0], r"^[1-9]\d* passed, 0 failed$")

    def test_a_tree_without_such_calls(self) -> None:
        """It isn't taken for one whose calls all have their tests, though it has all the rows."""
        with tempfile.TemporaryDirectory(prefix="vault-test-") as folder:
            shutil.copytree(TOP / "crates", Path(folder) / "crates", ignore=lambda _, names: [name for name in names if name in ("out", "lib.rt")])
            for source in (TOP / "crates").glob("*/src/lib.rt"):
                (Path(folder) / source.relative_to(TOP)).write_text("", "utf-8")
            shutil.copy(TOP / "crates.txt", folder)
            self.assertEqual(self.checked(Path(folder)), (1, ["no public call was found that may answer out of memory, so nothing was checked",
                                                              "0 passed, 1 failed"]))


class CheckOver(unittest.TestCase):
    """What is refused before any check begins, in a tree without libraries."""

    def setUp(self) -> None:
        folder = tempfile.TemporaryDirectory(prefix="vault-test-")
        self.addCleanup(folder.cleanup)
        self.folder = Path(folder.name)
        shutil.copy(TOP / "crates.txt", self.folder)
        (self.folder / "crates" / "lock_queue").mkdir(parents=True)

    def said(self, *words: str, status: int, tool: str = "check-over") -> str:
        done = subprocess.run([sys.executable, str(TOP / "tools" / tool), *words], cwd=self.folder, capture_output=True, text=True, timeout=60,
                              check=False)
        self.assertEqual((done.returncode, done.stdout), (status, ""), done.stderr)
        return done.stderr

    def test_libraries_that_are_missing(self) -> None:
        self.assertIn("clone has no library of vault_state, lock_modes: run rt ci", self.said("clone", "lock_queue", status=2))

    def test_a_library_of_this_tree(self) -> None:
        library = self.folder / "crates" / "lock_modes" / "out" / "rlib" / "lock_modes.rlib"
        library.parent.mkdir(parents=True)
        library.touch()
        said = self.said("clone", "lock_queue", status=2)
        self.assertIn("of this tree: lock_modes\n", said)
        self.assertIn("clone has no library of vault_state: run rt ci", said)

    def test_other_words(self) -> None:
        self.assertIn("names no crate nothing", self.said("clone", "nothing", status=1))
        self.assertIn("usage", self.said("clone", status=1))

    def test_plants(self) -> None:
        (self.folder / "tools").mkdir()
        shutil.copy(TOP / "tools" / "check-over", self.folder / "tools")
        self.assertIn("clone has no library of vault_state, lock_modes", self.said("clone", "lock_queue", status=2, tool="plant-over"))
        self.assertIn("usage", self.said("clone", status=1, tool="plant-over"))

    def test_edits_together(self) -> None:
        (self.folder / "crates" / "lock_queue" / "src").mkdir()
        self.assertIn("there is no crates/nothing/src", self.said("clone", "nothing", status=2, tool="try-together"))
        self.assertIn("lock_queue has no edit more", self.said("clone", "lock_queue", "more", status=2, tool="try-together"))
        self.assertIn("usage", self.said("clone", status=1, tool="try-together"))


class Gate(unittest.TestCase):
    """CI's parts, in the place of each a short script: what the gate makes of their counts and of how they end."""

    PARTS = ("tools/check-python", "tools/requests", "tools/try-refused", "tools/try-around", "tests/run", "rt")
    PASSED = "echo '2 passed, 0 failed'"

    def setUp(self) -> None:
        folder = tempfile.TemporaryDirectory(prefix="vault-test-")
        self.addCleanup(folder.cleanup)
        self.folder = Path(folder.name)
        for name in self.PARTS:
            self.write(name, self.PASSED)
        self.write("vaultd", "exit")
        self.write("rt", "echo 'rt: vault_server proved'", "sleep 2", self.PASSED)
        shutil.copy(os.path.join(TOP, "tools", "gate"), self.folder / "tools" / "gate")

    def write(self, name: str, *lines: str) -> None:
        """A script in the place of a part."""
        script = self.folder / name
        script.parent.mkdir(exist_ok=True)
        script.write_text("\n".join(("#!/bin/sh", *lines, "")), "utf-8")
        script.chmod(0o755)

    def started(self, **variables: str) -> "subprocess.Popen[str]":
        """The gate over these parts."""
        own = {"PATH": f"{self.folder}:{os.environ['PATH']}", "VAULTD": str(self.folder / "vaultd")}
        return subprocess.Popen([str(self.folder / "tools" / "gate")], stdout=subprocess.PIPE, stderr=subprocess.STDOUT, text=True,
                                env={**os.environ, **own, **variables})

    def ended(self, **variables: str) -> Tuple[int, List[str]]:
        """The gate's status, and its lines."""
        gate = self.started(**variables)
        said, _ = gate.communicate(timeout=60)
        return gate.returncode, said.splitlines()

    def test_counts(self) -> None:
        """Each part counts once; the tests count as two parts where they begin beside the proofs."""
        status, lines = self.ended()
        parts = lines.count("2 passed, 0 failed")
        self.assertIn(parts, (5, 6))
        self.assertEqual((status, lines[-1]), (0, f"{2 * parts} passed, 0 failed"))

    def begun_over(self, word: str, rest: int, steps: int = 45) -> Tuple[List[str], List[str]]:
        """How the tests around the program, and tests/run, were called in a gate in which `rt ci` says this of long_locks, and after
        so many steps of a fifth of a second, or once tests began, that the server is proved. The processors are idle for `rest` ticks a step."""
        for name in ("tools/try-around", "tests/run"):
            self.write(name, f'echo "{name} $*" >> {self.folder}/begun', self.PASSED)
        stat = self.folder / "stat"
        stat.write_text("cpu 0 0 0 0\n", "utf-8")
        self.write("rt", f"echo 'rt: long_locks {word}'", f"for step in $(seq {steps}); do", f"  [ ! -e {self.folder}/begun ] || break",
                   f'  echo "cpu 0 0 0 $((step * {rest}))" > {stat}.new; mv {stat}.new {stat}; sleep 0.2', "done",
                   "echo 'rt: vault_server proved'", "sleep 3", self.PASSED)
        status, lines = self.ended(PROC_STAT=str(stat))
        self.assertEqual(status, 0, lines)
        begun = (self.folder / "begun").read_text("utf-8").splitlines()
        return [line for line in begun if line.startswith("tools/try-around")], [line for line in begun if line.startswith("tests/run")]

    def test_beside_the_proofs(self) -> None:
        """Where long_locks is proved, and there are four processors, what stands around the program is tested once some are idle, and not
        again."""
        around, tests = self.begun_over("proved", 100_000, 150)
        self.assertEqual(len(around), len(os.sched_getaffinity(0)) >= 4)
        self.assertEqual({line.endswith(" --but-around") for line in tests}, {bool(around)}, tests)

    def test_beside_nothing(self) -> None:
        """Where it is kept, the proved program is there soon, and where no processor is idle, all wait for the proofs: tests/run tests all
        with the proved program."""
        kept = "is kept: an earlier run on this machine proved the same files over the same libraries"
        for word, rest in ((kept, 100_000), ("proved", 0)):
            with self.subTest(word=word):
                (self.folder / "begun").unlink(missing_ok=True)
                around, tests = self.begun_over(word, rest)
                self.assertEqual(around, [])
                self.assertTrue(tests)
                self.assertNotIn("around", " ".join(tests))

    def test_one_that_fails(self) -> None:
        """Its count and its status are the gate's; programs aren't refused then, if that hadn't begun, and the others run."""
        self.write("tools/check-python", "echo '1 passed, 1 failed'", "exit 3")
        status, lines = self.ended()
        parts = lines.count("2 passed, 0 failed")
        self.assertIn(parts, (3, 4, 5))
        self.assertEqual((status, lines[-1]), (3, f"{2 * parts + 1} passed, 1 failed"))

    def test_refused_beside_the_proofs(self) -> None:
        """With four processors, what must not compile is tried once the server is proved, while `rt ci` runs on."""
        self.write("tools/try-refused", f"touch {self.folder}/refused", self.PASSED)
        self.write("rt", "echo 'rt: vault_server proved'", "for step in $(seq 50); do", f"  [ ! -e {self.folder}/refused ] || break",
                   "  sleep 0.2", "done", f"[ ! -e {self.folder}/refused ] || echo 'rt: beside'", self.PASSED)
        status, lines = self.ended()
        self.assertEqual((status, "rt: beside" in lines), (0, len(os.sched_getaffinity(0)) >= 4), lines)

    def test_one_that_breaks_off(self) -> None:
        """A part without a count is a failure."""
        self.write("rt", "echo 'rt: vault_server proved'", "kill -KILL $$")
        status, lines = self.ended()
        self.assertIn("ci: rt ci did not end in its time, or broke off", lines)
        self.assertEqual(status, 137)
        self.assertRegex(lines[-1], r"^\d+ passed, 1 failed$")

    def test_ended(self) -> None:
        """An ended gate leaves no part running."""
        self.write("rt", f"echo $$ > {self.folder}/number", "exec sleep 60")
        gate = self.started()
        until(lambda: (self.folder / "number").exists(), 10)
        gate.terminate()
        gate.communicate(timeout=10)
        number = (self.folder / "number").read_text("utf-8").strip()
        until(lambda: not Path("/proc", number).exists(), 10)
        self.assertEqual(gate.returncode, 143)


class Planted(unittest.TestCase):
    """What is planted to be refused or found still applies: an edit, a patch or a body that doesn't tries nothing."""

    def test_edits(self) -> None:
        """Each old text of an edit is there once, after the edit's earlier pairs, and something else takes its place."""
        edits = sorted([*TOP.glob("crates/*/must-fail/*.edit"), *TOP.glob("crates/*/edits/*.edit")])
        self.assertGreater(len(edits), 500)
        for edit in edits:
            with self.subTest(edit=str(edit.relative_to(TOP))):
                texts: Dict[Path, str] = {}
                file, old = Path(), ""
                for line in edit.read_text("utf-8").splitlines():
                    word, _, text = line.partition(":")
                    text = text.removeprefix(" ")
                    if word == "file":
                        file = edit.parents[1] / text.strip()
                        texts.setdefault(file, file.read_text("utf-8"))
                    elif word == "old":
                        self.assertEqual(texts[file].count(text), 1, text)
                        old = text
                    else:
                        self.assertEqual(word, "new", "a text is one line")
                        self.assertNotEqual(text, old, "nothing changes")
                        texts[file] = texts[file].replace(old, text)

    def test_patches(self) -> None:
        """Each bug of the simulation applies, as tools/try-bugs applies it."""
        patches = sorted(TOP.glob("crates/vault_simulation/bugs/*.patch"))
        self.assertGreaterEqual(len(patches), 10)
        for patch in patches:
            with self.subTest(patch=patch.name), patch.open(encoding="utf-8") as file:
                done = subprocess.run(["patch", "--dry-run", "-s", "-p1", "-d", str(TOP)], stdin=file, capture_output=True, text=True,
                                      timeout=60, check=False)
                self.assertEqual(done.returncode, 0, done.stdout)

    def test_bodies(self) -> None:
        """Each call that tools/try-out-of-memory plants a body into is there once, and so is the crate of its tests."""
        tool = ast.parse((TOP / "tools/try-out-of-memory").read_text("utf-8"))
        tables = [node.value for node in tool.body if isinstance(node, ast.Assign) and ast.unparse(node.targets[0]) == "CALLS"]
        calls = ast.literal_eval(tables[0])
        self.assertGreater(len(calls), 10)
        for call, file, begins, _, tests in calls:
            with self.subTest(call=call):
                self.assertEqual((TOP / "crates" / file).read_text("utf-8").count(begins), 1)
                self.assertTrue((TOP / "crates" / tests / "src").is_dir())


if __name__ == "__main__":
    unittest.main()
