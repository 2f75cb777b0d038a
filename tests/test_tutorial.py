"""Every line of docs/TUTORIAL.md and docs/SCALE.md, run in shells of their own, with what stands below it."""

import os
import queue
import re
import subprocess
import sys
import tempfile
import threading
import unittest
from pathlib import Path
from typing import Dict, List, Optional, Tuple

from servers import TOP, VAULTD, free_port, lay_programs

SHOWN_PORTS = ("7070", "7071")
SHOWN_STORE = "/srv/vault-store"
# Who runs the test has no such group, and is each designer; tests/test_store.py has designers of a group.
OF_A_GROUP = {" -g designers -m 2770 ": " -m 700 "}
PROMPT = re.compile(r"(?P<who>anna|ben|)\$ (?P<line>.*)")
DONE = "line-is-done"
# What the shell says of a job that it found killed before it was told to wait for it.
NOTICE = re.compile(r"bash: line \d+: +\d+ Killed ")


class Shell:
    """A shell with a folder of its own, and the client's files there or in an account's folder."""

    def __init__(self, folder: Path, programs: Path, account: Optional[Path] = None):
        folder.mkdir(exist_ok=True)
        environment = {**os.environ, "PATH": f"{programs}:{os.environ['PATH']}", "XDG_STATE_HOME": str((account or folder) / "state"),
                       "XDG_CACHE_HOME": str(folder / "cache"), "LC_ALL": "C.UTF-8"}
        environment.pop("VAULT_AS", None)
        self.process = subprocess.Popen(["bash", "--norc"], cwd=folder, env=environment, stdin=subprocess.PIPE,
                                        stdout=subprocess.PIPE, stderr=subprocess.STDOUT, text=True, bufsize=1)
        self.lines: "queue.Queue[str]" = queue.Queue()
        self.reader = threading.Thread(target=self._read, daemon=True)
        self.reader.start()

    def _read(self) -> None:
        assert self.process.stdout is not None
        for line in self.process.stdout:
            self.lines.put(line)

    def run(self, line: str, wanted: int, patience: float = 60) -> List[str]:
        """Runs a line, and answers what was printed until it ended. If fewer lines came than are wanted, waits for those that a
        background program prints. Ends after a number of seconds without one."""
        assert self.process.stdin is not None
        self.process.stdin.write(f"{line}\necho {DONE}\n")
        self.process.stdin.flush()
        printed: List[str] = []
        ended = False
        while not ended or len(printed) < wanted:
            try:
                said = self.lines.get(timeout=patience)
            except queue.Empty:
                break
            if said == DONE + "\n":
                ended = True
            elif not NOTICE.match(said):
                printed.append(said.rstrip("\n"))
        return printed

    def close(self) -> None:
        """Ends the shell."""
        assert self.process.stdin is not None and self.process.stdout is not None
        self.process.stdin.close()
        self.process.wait(15)
        self.reader.join(15)
        self.process.stdout.close()


def steps(text: str) -> List[Tuple[str, str, List[str]]]:
    """Who says what, and what is printed."""
    found: List[Tuple[str, str, List[str]]] = []
    for block in re.findall(r"```console\n(.*?)```", text, re.DOTALL):
        for line in block.splitlines():
            said = PROMPT.fullmatch(line)
            if said:
                found.append((said["who"], said["line"], []))
            else:
                found[-1][2].append(line)
    return found


class Pages(unittest.TestCase):
    """The pages, each from its top to its end."""

    def setUp(self) -> None:
        folder = tempfile.TemporaryDirectory(prefix="vault-test-")
        self.addCleanup(folder.cleanup)
        self.folder = Path(folder.name)
        self.programs = self.folder / "programs"
        self.programs.mkdir()
        lay_programs(self.programs)
        (self.programs / "vaultd").symlink_to(VAULTD)
        self.meant = {**{shown: str(free_port()) for shown in SHOWN_PORTS}, SHOWN_STORE: str(self.folder / "vault-store"), **OF_A_GROUP}
        self.shells: Dict[str, Shell] = {}
        for who in ("", "anna", "ben"):
            self.shells[who] = Shell(self.folder / (who or "server"), self.programs)

    def tearDown(self) -> None:
        self.shells[""].run("kill -9 $(cat server.pid */pid) 2> /dev/null", 0)
        for shell in self.shells.values():
            shell.close()

    def adapted(self, _who: str, text: str) -> str:
        """A text of a page, with ports that are free and a store in a folder of the test's."""
        for shown, instead in self.meant.items():
            text = text.replace(shown, instead)
        return text

    def run_page(self, page: str) -> None:
        """Runs every line of a page, at ports that are free and with a store in a folder of the test's."""
        text = (TOP / "docs" / page).read_text("utf-8")
        done = steps(text)
        self.assertEqual(len(done), len(re.findall(r"^(?:anna|ben|)\$ ", text, re.MULTILINE)))
        for who, line, wanted in done:
            line, wanted = self.adapted(who, line), [self.adapted(who, said) for said in wanted]
            with self.subTest(who=who, line=line):
                self.assertEqual(self.shells[who].run(line, len(wanted)), wanted)
        print(f"{page}: {len(done)} lines", file=sys.stderr)

    def test_tutorial(self) -> None:
        self.run_page("TUTORIAL.md")

    def test_scale(self) -> None:
        self.run_page("SCALE.md")


class OneAccount(Pages):
    """The day of two designers who have one account, and say first what the page says of that."""

    def setUp(self) -> None:
        super().setUp()
        said = re.search(r"`(export VAULT_AS=)anna(@[^`]*)`", (TOP / "docs" / "TUTORIAL.md").read_text("utf-8"))
        assert said is not None
        for who in ("anna", "ben"):
            self.shells[who].close()
            self.shells[who] = Shell(self.folder / who, self.programs, self.folder / "account")
            self.assertEqual(self.shells[who].run(self.adapted(who, said[1] + who + said[2]), 0), [])

    test_scale = None  # type: ignore[assignment]    # it has one designer


if __name__ == "__main__":
    unittest.main()
