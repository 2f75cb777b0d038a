"""Completion of the client's command line in bash, zsh and fish, as each shell does it when somebody presses the tabulator."""

import fcntl
import os
import pty
import re
import select
import shutil
import socket
import subprocess
import termios
import time
import unittest
from pathlib import Path
from typing import Dict, List
from unittest import mock

from servers import TOP, lay_programs
from stores import NAME, PART, WithStore

from vault.cli.commands import COMMANDS

COMPLETION = TOP / "contrib" / "completion"
# How each shell is started without the designer's own settings, and has the completion.
SHELLS = {
    "bash": (["bash", "--norc", "--noprofile", "-i"], f"bind 'set enable-bracketed-paste off'; source {COMPLETION}/vault"),
    "zsh": (["zsh", "-f", "-i"], f"unsetopt beep zle_bracketed_paste 2>/dev/null; fpath=({COMPLETION} $fpath); autoload -U compinit; compinit -D -u"),
    "fish": (["fish", "--no-config", "-i"], f"source {COMPLETION}/vault.fish")}
PROMPT = "ready-for-a-line"
CONTROL = re.compile(r"\x1b\[[0-9;?]*[a-zA-Z]|\x1b[()][A-Z0-9]|\x1b[=>]|\x1b\][^\x07]*\x07|[\r\x07\x0f]")
PATIENCE = 30


class Terminal:
    """A shell at a terminal of its own."""

    def __init__(self, name: str, folder: Path, environment: Dict[str, str]):
        words, first = SHELLS[name]
        ours, theirs = pty.openpty()
        self.descriptor, self.said = ours, ""
        self.process = subprocess.Popen(words, cwd=folder, stdin=theirs, stdout=theirs, stderr=theirs, start_new_session=True,
                                        preexec_fn=lambda: fcntl.ioctl(0, termios.TIOCSCTTY, 0),
                                        env={**environment, "TERM": "dumb" if name == "bash" else "xterm", "COLUMNS": "200"})
        os.close(theirs)
        self.type(f"{first}; echo {PROMPT[:5]}''{PROMPT[5:]}\n")
        self.wait_for(PROMPT)

    def type(self, keys: str) -> None:
        """Presses keys."""
        os.write(self.descriptor, keys.encode("utf-8"))

    def wait_for(self, wanted: str) -> str:
        """What is shown until a text is."""
        end = time.monotonic() + PATIENCE
        while wanted not in CONTROL.sub("", self.said):
            left = end - time.monotonic()
            if left <= 0 or not select.select([self.descriptor], [], [], left)[0]:
                raise AssertionError(f"no {wanted!r} came in {CONTROL.sub('', self.said)!r}")
            try:
                self.said += os.read(self.descriptor, 65536).decode("utf-8", "replace")
            except OSError as error:
                raise AssertionError(f"the shell ended, and had said {CONTROL.sub('', self.said)!r}") from error
        shown, self.said = CONTROL.sub("", self.said), ""
        return shown

    def close(self) -> None:
        """Ends the shell."""
        self.process.kill()
        self.process.wait()
        os.close(self.descriptor)


class Completion(WithStore):
    """What is offered."""

    def setUp(self) -> None:
        super().setUp()
        self.put_version()
        self.as_program()
        self.programs = self.root / "programs"
        self.programs.mkdir()
        lay_programs(self.programs)
        self.work = self.root / "work"
        self.vault("get", "/engine", "--to", str(self.work))

    def environment(self) -> Dict[str, str]:
        """What shells run with."""
        return {**super().environment(), "PATH": f"{self.root / 'programs'}:{os.environ['PATH']}", "HOME": str(self.root), "LC_ALL": "C.UTF-8"}

    def offered(self, line: str, folder: str = "") -> List[str]:
        """What fish offers at the end of a line, without descriptions."""
        done = subprocess.run(["fish", "--no-config", "-c", f"source {COMPLETION}/vault.fish; complete -C \"$argv[1]\"", line],
                              cwd=self.work / folder, env=self.environment(), capture_output=True, text=True, timeout=60, check=False)
        self.assertEqual((done.returncode, done.stderr), (0, ""), line)
        return [each.partition("\t")[0] for each in done.stdout.splitlines()]

    def test_words(self) -> None:
        """Commands, options, places, claims, designers, files: what the server and the folder have at that moment."""
        stamp = self.brought_anew()
        self.vault("nest", "/engine/block/head")
        self.client("ben").checkout(["r:/vault"])
        self.assertEqual(self.as_json("checkout", f"w:{PART}")["claim"], "c5")
        rows: Dict[str, List[str]] = {
            "vault che": ["checkin", "checkout"], "vault --as anna@h:1 whoa": [], "vault checkin --in": ["--in-parts"],
            "vault tree /eng": ["/engine", "/engine/block"], "vault history /engine/block/p": [PART],
            "vault tree /engine/block/": [PART, "/engine/block/head"], "vault history block/K": [f"block/{NAME}"],
            "vault checkout w:/engine/block/p": [f"w:{PART}"], "vault checkout r:bl": ["r:block/"],
            "vault checkout /v": ["/vault", "/vault/settings"],
            "vault checkin c": ["c5"], "vault abandon ": ["c5"], "vault wait ": ["c4", "c5"], "vault give c5 ": ["ben"], "vault give c5 x": [],
            "vault put 127_0_0_1:/eng": ["127_0_0_1:/engine", "127_0_0_1:/engine/block"], "vault get /engine --to bl": ["block/"],
            "vault --as an": [f"anna@127.0.0.1:{self.server.port}"], "vault before . ": [stamp], "vault store co": ["confirm"], "vault note c5 ": [],
            "vault get /engine/block/piston ": [], "vault status block/": [f"block/{NAME}"]}
        for line, wanted in rows.items():
            self.assertCountEqual(self.offered(line), wanted, line)
        self.assertEqual(self.offered("vault history Kol", "block"), [NAME])

    def test_every_word(self) -> None:
        """Each command, and each option by its help, as the program tells any of the shells."""
        self.assertEqual(sorted(self.told("vault ")), sorted(COMMANDS))
        for command in COMMANDS:
            wanted = set(re.findall(r"(?<![a-z])--?[a-z][a-z-]*", self.vault(command, "--help").decode()))
            self.assertEqual(wanted - {"-h"}, set(self.told(f"vault {command} -")) - {"-h"}, command)

    def told(self, line: str) -> List[str]:
        """What the program tells a shell at the end of a line."""
        reads, writes = os.pipe()
        environment = {**self.environment(), "_ARGCOMPLETE": "1", "_ARGCOMPLETE_IFS": "\n", "_ARGCOMPLETE_SUPPRESS_SPACE": "1", "COMP_LINE": line,
                       "COMP_POINT": str(len(line))}
        with os.fdopen(reads) as told:
            subprocess.run(["bash", "-c", f"exec vault 8>&{writes}"], env=environment, pass_fds=[writes], timeout=60, check=True)
            os.close(writes)
            return told.read().splitlines()

    def test_without_argcomplete(self) -> None:
        """Where the library isn't there, files are offered."""
        (self.root / "argcomplete.py").write_text("raise ImportError('there is none')\n", "ascii")
        with mock.patch.dict(os.environ, {"PYTHONPATH": str(self.root)}):
            self.assertEqual(self.offered("vault history block/Kol"), [f"block/{NAME}"])

    def brought_anew(self) -> str:
        """When a file of the folder gave way to a newer version."""
        self.fill(b"bore 81")
        self.put_version()
        self.vault("get", "/engine", "--to", str(self.work))
        return str(self.as_json("before", str(self.work))["before"][0]["which"])

    def test_dead_servers(self) -> None:
        """A server that takes connections and says nothing, or isn't there, keeps nobody waiting: what this machine knows is offered."""
        claim = self.as_json("checkout", f"w:{PART}")["claim"]
        self.server.suspend()
        for line, wanted in ((f"vault history {PART[:-2]}", [PART]), ("vault checkin c", [claim])):
            began = time.monotonic()
            self.assertEqual(self.offered(line), wanted)
            self.assertLess(time.monotonic() - began, 5)
        self.server.kill()
        self.assertEqual(self.offered("vault tree /engine/b"), ["/engine/block", PART])
        (self.root / "empty").mkdir()
        with socket.create_server(("127.0.0.1", 0)) as silent:
            line = f"vault --as carl@127.0.0.1:{silent.getsockname()[1]} tree /eng"
            began = time.monotonic()
            self.assertEqual(self.offered(line, "../empty"), [])
            self.assertLess(time.monotonic() - began, 5)

    def test_keys(self) -> None:
        """In each shell the tabulator completes commands, places, items, claims and names of files with blanks and brackets."""
        shutil.copy(self.file, self.work / "block" / "Ring [DIN] & 'neu'")
        self.vault("checkout", f"w:{PART}")
        for shell in SHELLS:
            terminal = Terminal(shell, self.work, self.environment())
            self.addCleanup(terminal.close)
            for typed, completed in (("vault abando\t", "vault abandon "), ("vault history /engine/block/pis\t", f"vault history {PART} "),
                                     ("vault checkout w:/vault/settings/s\t", "vault checkout w:/vault/settings/store "),
                                     ("vault checkin c\t", "vault checkin c3 ")):
                with self.subTest(shell=shell, typed=typed):
                    terminal.type(typed)
                    terminal.wait_for(completed)
                    terminal.type("\x15")
            for typed, place in (("vault --json history block/Kol\t\n", PART), ("vault --json add block/Ri\t\n", "/engine/block/ring__din_____neu_")):
                with self.subTest(shell=shell, typed=typed):
                    terminal.type(typed)
                    self.assertIn(place, terminal.wait_for('"notices"'))


if __name__ == "__main__":
    unittest.main()
