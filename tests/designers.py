"""Designers at a server, by the client's module and by its program."""

import json
import os
import subprocess
import tempfile
import unittest
from pathlib import Path
from typing import Any, Dict, List, Sequence

from servers import MEMORY, Cutter, Limits, Server, program

from vault import Client

PART = "/engine/block/piston"


class WithServer(unittest.TestCase):
    """A server with one part, a cutter before it, and a folder for the clients' files, all in memory. tests/test_crash.py uses a
    disk."""

    def setUp(self) -> None:
        self.server = Server("--workers", "16", folder=MEMORY)
        self.addCleanup(self.server.close)
        self.server.start()
        self.cutter = Cutter(self.server.port)
        self.addCleanup(self.cutter.close)
        self.addCleanup(self.check_cut)
        self.folder = tempfile.TemporaryDirectory(prefix="vault-test-", dir=MEMORY)
        self.addCleanup(self.folder.cleanup)
        self.notices: List[str] = []
        self.anna = self.client("anna")
        for place in ("/engine", "/engine/block", PART):
            self.anna.make(place)

    def check_cut(self) -> None:
        """Each line at which the connection was to be cut was said."""
        self.assertEqual(self.both(), [[], []])

    def client(self, designer: str, patience: float = 10.0) -> Client:
        """A designer behind the cutter. A second one of the same name stands for a second run of the program."""
        client = Client(designer, "127.0.0.1", self.cutter.port, Path(self.folder.name), patience, 0.05, self.notices.append)
        self.addCleanup(client.close)
        return client

    def both(self) -> List[List[bytes]]:
        """Where to cut: before a line reaches the server, and before its reply reaches the client."""
        return [self.cutter.before, self.cutter.after]

    def standing(self) -> List[str]:
        """The check-outs that stand, as the library sees them."""
        found = [(f"c{number}", self.client("watcher").state(f"c{number}")) for number in range(1, 8)]
        return [name for name, standing in found if not standing.gone]

    def sent(self, word: bytes) -> int:
        """How often a line reached the server."""
        return sum(line.startswith(word) for line in self.cutter.lines)

    def environment(self) -> Dict[str, str]:
        """What the program `vault` runs with."""
        kept = {**os.environ, "XDG_STATE_HOME": self.folder.name, "XDG_CACHE_HOME": self.folder.name}
        kept.pop("VAULT_AS", None)
        return kept

    def vault(self, *words: str, status: int = 0, given: bytes = b"", limits: Limits = Limits(), before: Sequence[str] = ()) -> bytes:
        """Runs the program as anna, and answers what it printed; the words before it name a program that starts it."""
        done = subprocess.run([*before, *program("vault"), *words], env=self.environment(), input=given, capture_output=True, timeout=60,
                              check=False, preexec_fn=limits.take_effect)
        self.assertEqual(done.returncode, status, (words, done.stdout, done.stderr))
        return done.stdout if status == 0 or "--json" in words else done.stderr

    def as_json(self, *words: str, status: int = 0) -> Dict[str, Any]:
        """Runs the program with --json."""
        return dict(json.loads(self.vault("--json", *words, status=status)))
