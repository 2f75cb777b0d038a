"""Four clients that put and check in, while the server is killed at random moments and started again.

`VAULT_SEED` selects the moments, `VAULT_MOMENTS` says how many (200), `VAULT_SECONDS` after how many seconds no more are begun (60).
What was done is printed.
"""

import os
import random
import subprocess
import sys
import tempfile
import threading
import time
import unittest
from pathlib import Path
from typing import Dict, List

from servers import VAULTD, Server

from vault import Client, RefusedError

SEED = int(os.environ.get("VAULT_SEED", "34"))
MOMENTS = int(os.environ.get("VAULT_MOMENTS", "200"))
SECONDS = float(os.environ.get("VAULT_SECONDS", "60"))
# A kill and a start take some tenths of a second: even a slow machine does this many.
MIN_KILLS = int(min(MOMENTS, SECONDS / 3))
DESIGNERS = ("anna", "ben", "carl", "dora")
SHARED = "/plant/hall/crane"


class Designer(threading.Thread):
    """Puts and checks in, in turn on a part of its own and on one that all share, until it is told to stop."""

    def __init__(self, name: str, port: int, state: Path):
        super().__init__(name=name)
        self.client = Client(name, "127.0.0.1", port, state, patience=60.0, settling=0.0, notice=self.notice)
        self.stop = threading.Event()
        self.told: Dict[str, List[bytes]] = {self.own(): [], SHARED: []}
        self.odd: List[str] = []

    def own(self) -> str:
        """The part that is this designer's alone."""
        return "/plant/hall/" + self.name

    def notice(self, sentence: str) -> None:
        """A client that isn't killed leaves nothing under way, so each notice is odd."""
        self.odd.append(sentence)

    def run(self) -> None:
        number = 0
        try:
            while not self.stop.is_set():
                number += 1
                self.one(SHARED if number % 3 == 0 else self.own(), b"%s %d" % (self.name.encode(), number))
            self.client.close()
        except Exception as error:  # the test reports whatever ends a client
            self.odd.append(repr(error))

    def one(self, part: str, content: bytes) -> None:
        """One check-out with a new version."""
        standing = self.client.checkout(["w:" + part])
        while not standing.held:
            time.sleep(0.02)
            standing = self.client.state(standing.claim)
        self.client.put(part, b"superseded")
        self.client.put(part, content)
        self.client.set_note(standing.claim, content)
        if self.client.note(standing.claim) != content:
            self.odd.append(f"{standing.claim} lost its note")
        if self.client.checkin(standing.claim) != 1:
            self.odd.append(f"{standing.claim} had not one draft")
        self.told[part].append(content)
        try:
            self.client.checkin(standing.claim)
            self.odd.append(f"{standing.claim} was checked in twice")
        except RefusedError as refused:
            if refused.code != 30:
                self.odd.append(str(refused))


class Crash(unittest.TestCase):
    """No draft lost, none twice, each client ends by itself with the right word."""

    deadline = int(SECONDS) + 600

    def setUp(self) -> None:
        self.server = Server("--workers", "16")
        self.addCleanup(self.server.close)
        self.server.start()
        self.folder = tempfile.TemporaryDirectory(prefix="vault-test-")
        self.addCleanup(self.folder.cleanup)
        self.setter = Client("setter", "127.0.0.1", self.server.port, Path(self.folder.name))
        for place in ["/plant", "/plant/hall", SHARED] + ["/plant/hall/" + name for name in DESIGNERS]:
            self.setter.make(place)
        self.setter.close()

    def kill_at_moments(self, moments: random.Random) -> int:
        """Kills the server and starts it again; answers how often."""
        end = time.monotonic() + SECONDS
        for number in range(MOMENTS):
            if time.monotonic() > end:
                return number
            time.sleep(moments.uniform(0.0, 0.15))
            self.server.kill()
            self.server.start()
        return MOMENTS

    def test_kills(self) -> None:
        state = Path(self.folder.name)
        designers = [Designer(name, self.server.port, state) for name in DESIGNERS]
        for designer in designers:
            designer.start()
        kills = self.kill_at_moments(random.Random(SEED))
        self.assertGreaterEqual(kills, MIN_KILLS, f"the server was killed {kills} times in {SECONDS} seconds")
        for designer in designers:
            designer.stop.set()
        for designer in designers:
            designer.join(120)
            self.assertFalse(designer.is_alive(), f"{designer.name} did not end")
        self.assertEqual([odd for designer in designers for odd in designer.odd], [])
        for designer in designers:
            self.assertEqual([content for _, content in self.setter.history(designer.own())], designer.told[designer.own()])
        shared = [content for _, content in self.setter.history(SHARED)]
        self.assertEqual(sorted(shared), sorted(content for designer in designers for content in designer.told[SHARED]))
        self.setter.close()
        self.server.kill()
        report = subprocess.run([VAULTD, "inspect", *self.server.files], capture_output=True, text=True, check=True).stdout
        versions = sum(len(told) for designer in designers for told in designer.told.values())
        self.assertIn(f"versions {versions}, claims 0, drafts 0", report)
        self.assertEqual([designer.name for designer in designers if not any(designer.told.values())], [], "had no turn")
        print(f"seed {SEED}: {kills} kills, {versions} versions, none lost, none twice", file=sys.stderr)


if __name__ == "__main__":
    unittest.main()
