"""The run without end of bench/, in short: what was acknowledged is found again after kills, and what isn't there any more is noticed."""

import subprocess
import sys
import tempfile
import unittest
from pathlib import Path
from typing import List, Tuple

from servers import TOP, VAULTD, free_port

sys.path.insert(0, str(TOP / "bench"))

from endless_check import Change, CheckOut, Designer, Difference, Search  # noqa: E402
from vaultd_tools.files import Claim  # noqa: E402

# A program that serves an older copy of the files once it is started again: all that was acknowledged since is lost.
FORGETFUL = """#!/bin/sh
if [ "$1" = serve ]; then
  if [ -e {folder}/first ]; then cp {folder}/first "$2"; else cp "$2" {folder}/first; fi
fi
exec {program} "$@"
"""


class Endless(unittest.TestCase):
    """A few thousand commands over connections that come and go, with kills."""

    def setUp(self) -> None:
        folder = tempfile.TemporaryDirectory(prefix="vault-test-")
        self.addCleanup(folder.cleanup)
        self.folder = Path(folder.name)

    def run_on(self, program: str, *words: str) -> "subprocess.CompletedProcess[str]":
        """The run, over a program."""
        run = [sys.executable, str(TOP / "bench" / "endless.py"), "--program", program, "--folder", str(self.folder),
               "--port", str(free_port()), *words]
        return subprocess.run(run, capture_output=True, text=True, timeout=60, check=False)

    def test_short(self) -> None:
        """Nothing is lost over two kills."""
        done = self.run_on(VAULTD, "--commands", "4000", "--kill-every", "2000", "--connections", "16", "--seed", "3")
        self.assertEqual(done.returncode, 0, done.stdout + done.stderr)
        self.assertIn("Every told reply was found again", done.stdout)
        self.assertEqual(len([line for line in done.stdout.splitlines() if line.startswith(("| 2,000", "| 4,000"))]), 2)

    def test_lost(self) -> None:
        """A server that loses what it acknowledged is found out."""
        program = self.folder / "forgetful"
        program.write_text(FORGETFUL.format(folder=self.folder, program=VAULTD), "utf-8")
        program.chmod(0o700)
        done = self.run_on(str(program), "--commands", "600", "--kill-every", "300", "--connections", "4")
        self.assertEqual(done.returncode, 1, done.stdout + done.stderr)
        self.assertIn("DIFFERENT: ", done.stdout)


def with_check_out() -> Designer:
    """A designer with a part, and an acknowledged check-out."""
    designer = Designer(1)
    designer.made("/s1/a1/p0")
    designer.check_out = CheckOut("c5", ("w:/s1/a1/p0",), "/s1/a1/p0")
    return designer


def stands(*items: str) -> Claim:
    """That check-out in a report, with these items."""
    return Claim("c5", "d1", None, items)


class Settling(unittest.TestCase):
    """What became of a command whose reply was lost, and what can't have become of it."""

    def test_nothing_under_way(self) -> None:
        with_check_out().settle([stands("w:/s1/a1/p0"), Claim("c6", "d2", None, ("w:/s2/a2/p0",))])
        others: List[List[Claim]] = [[], [stands("w:/s1/a1/p0", "r:/s1/a1")], [stands("w:/s1/a1/p0"), Claim("c7", "d1", None, ("w:/s1/a1/p0",))]]
        for standing in others:
            with self.assertRaises(Difference):
                with_check_out().settle(standing)

    def test_extension(self) -> None:
        kept: List[Tuple[str, ...]] = [("w:/s1/a1/p0",), ("w:/s1/a1/p0", "r:/s1/a1")]
        for items in kept:
            designer = with_check_out()
            designer.under_way = Change("extend", items=("r:/s1/a1",))
            designer.settle([stands(*items)])
            self.assertEqual(designer.check_out and designer.check_out.items, items)

    def test_check_in(self) -> None:
        designer = with_check_out()
        assert designer.check_out is not None
        designer.check_out.drafts = ("6162",)
        designer.under_way = Change("checkin")
        designer.settle([])
        self.assertEqual(designer.versions, {"/s1/a1/p0": ["6162"]})
        self.assertIsNone(designer.check_out)

    def test_other_content(self) -> None:
        """A version with another content than was acknowledged, one too many, and a place that nobody made."""
        replies = {"hello d1": "OK session 1", "list /s1/a1": "OK list 1 p0", "count /s1/a1/p0": "OK versions 1",
                   "fetch /s1/a1/p0 1": "OK content 6162", "quit": "OK left"}
        self.assertTrue(searched(replies))
        for line, reply in (("fetch /s1/a1/p0 1", "OK content 61"), ("count /s1/a1/p0", "OK versions 2"), ("list /s1/a1", "OK list 2 p0 p1")):
            with self.assertRaises(Difference):
                searched({**replies, line: reply})


def searched(replies: "dict[str, str]") -> bool:
    """Whether a search of one version ends, with these replies."""
    designer = Designer(1)
    designer.versions, designer.found = {"/s1/a1/p0": ["6162"]}, {"/s1/a1/p0": 0}
    search = Search(designer, False)
    talk = search.visit()
    line = next(talk)
    try:
        while True:
            line = talk.send(replies[line])
    except StopIteration:
        return search.is_done


if __name__ == "__main__":
    unittest.main()
