"""What a serving thread does from round to round: when it begins a snapshot, and how often it asks the kernel for news."""

import json
import shutil
import subprocess
import threading
import time
import unittest
from pathlib import Path
from typing import Dict, List, Tuple

from servers import MEMORY, VAULTD, Server
from tries import told
from vault_files import generation_of

PARTS = 64
CONTENT = 1024
MIB = 1 << 20
# After so many seconds in which nobody asks, a snapshot that is wanted is begun.
PAUSE = 0.1
# For how long nothing may happen, and how long something may take that has to happen, in seconds.
QUIET, SOON = 0.5, 60.0
TRIES = 10
COMMANDS = 200


class Asker(threading.Thread):
    """A client that asks a question every ten milliseconds, so that there is no pause, and notes how long the server may have had none."""

    def __init__(self, server: Server):
        super().__init__(daemon=True)
        self.server, self.over = server, threading.Event()
        self.asked: List[Tuple[float, float]] = []

    def run(self) -> None:
        while not self.over.is_set():
            with self.server.connect() as link:
                told(link, b"hello asker\n", 1)
                for _ in range(4000):
                    began = time.monotonic()
                    told(link, b"count /e/b/p0\n", 1)
                    self.asked.append((began, time.monotonic()))
                    if self.over.wait(0.01):
                        return

    def longest(self, since: float) -> float:
        """The longest time since then in which the server may have seen no command."""
        now = time.monotonic()
        asked = [(since, since), *(each for each in self.asked if each[0] >= since), (now, now)]
        return max(later[1] - earlier[0] for earlier, later in zip(asked, asked[1:]))


class Snapshots(unittest.TestCase):
    """A snapshot that is wanted begins in a pause, or else once the journal has half the length that the last snapshot had."""

    def setUp(self) -> None:
        self.serve_anew()

    def serve_anew(self) -> None:
        """A server over a new vault."""
        self.server = Server(folder=MEMORY)
        self.addCleanup(self.server.close)
        self.server.start()
        with self.server.connect() as link:
            made = [b"hello anna", b"make /e", b"make /e/b", *(b"make /e/b/p%d" % part for part in range(PARTS))]
            told(link, b"\n".join(made) + b"\n", len(made))
        self.check_outs = 0

    def ask_on(self) -> Asker:
        """From now on there is no pause, until the asker's end."""
        asker = Asker(self.server)
        self.addCleanup(asker.join)
        self.addCleanup(asker.over.set)
        asker.start()
        return asker

    def save(self) -> None:
        """A version more of each part."""
        self.check_outs += 1
        saves = [b"save c%d /e/b/p%d %s" % (self.check_outs, part, b"5a" * CONTENT) for part in range(PARTS)]
        lines = [b"hello anna", b"checkout w:/e/b", *saves, b"checkin c%d" % self.check_outs]
        with self.server.connect() as link:
            replies = told(link, b"\n".join(lines) + b"\n", len(lines)).splitlines()
        self.assertEqual(replies[-1], b"OK checked in %d" % PARTS, replies)

    def figures(self) -> Dict[str, int]:
        """What `vaultd check` says of the files: above all the generation, and how long snapshot and journal are."""
        done = subprocess.run([VAULTD, "check", "--json", *self.server.files], capture_output=True, text=True, timeout=60, check=True)
        found: Dict[str, int] = json.loads(done.stdout)
        return found

    def generation(self) -> int:
        """The generation of the active file."""
        heads = [Path(file).read_bytes()[:24] for file in self.server.files]
        return max(generation_of(head) or 0 for head in heads)

    def save_until(self, snapshot: int, journal: int) -> Dict[str, int]:
        """Saves until the last snapshot and the journal behind it have so many bytes."""
        while (found := self.figures())["snapshot"] < snapshot or found["journal"] < journal:
            self.save()
        return found

    def changes(self, generation: int) -> float:
        """When the next snapshot is there."""
        until = time.monotonic() + SOON
        while self.generation() == generation:
            self.assertLess(time.monotonic(), until, f"no snapshot behind {SOON} seconds")
            time.sleep(0.001)
        return time.monotonic()

    def test_before_anybody_comes(self) -> None:
        """Files of version 1 are written anew as the server starts, with no connection."""
        old = Server(folder=MEMORY)
        self.addCleanup(old.close)
        first = Path(old.files[0])
        first.write_bytes(first.read_bytes()[:11] + b"\1" + first.read_bytes()[12:])
        old.start()
        until = time.monotonic() + SOON
        while Path(old.files[1]).read_bytes()[:20] != b"\1LLVAULT\0\0\0\2" + (2).to_bytes(8, "big"):
            self.assertLess(time.monotonic(), until, f"no snapshot behind {SOON} seconds")
            time.sleep(0.01)

    def test_in_a_pause(self) -> None:
        """While questions come, none begins behind a journal of 1 MiB and a bit. It begins once none has come for a tenth of a second."""
        asker = self.ask_on()
        for _ in range(TRIES):
            began = time.monotonic()
            found = self.save_until(5 * MIB // 2, MIB + PARTS * CONTENT)
            self.assertLess(found["journal"], found["snapshot"] // 2 - PARTS * CONTENT, found)
            time.sleep(QUIET)
            is_same, longest = self.generation() == found["generation"], asker.longest(began)
            if is_same or longest < PAUSE:
                break
        self.assertTrue(is_same, f"a snapshot began, and the longest pause was of {longest} seconds")
        asker.over.set()
        asker.join()
        self.assertGreaterEqual(self.changes(found["generation"]) - asker.asked[-1][0], PAUSE)

    def test_behind_a_long_journal(self) -> None:
        """While questions come, it begins once the journal is half as long as the last snapshot. Each try has a vault, which three would fill."""
        for _ in range(TRIES):
            self.server.close()
            self.serve_anew()
            asker = self.ask_on()
            began = time.monotonic()
            found = self.save_until(5 * MIB // 2, MIB)
            for _ in range(found["snapshot"] // 2 // (PARTS * CONTENT) + 1):
                if self.generation() > found["generation"]:
                    break
                self.save()
            self.changes(found["generation"])
            longest = asker.longest(began)
            asker.over.set()
            asker.join()
            if longest < PAUSE:
                break
        self.assertLess(longest, PAUSE, "this machine makes pauses of its own")
        self.assertGreater(self.figures()["snapshot"], found["snapshot"])


class Waits(unittest.TestCase):
    """A thread asks the kernel for news only where there may be some."""

    def test_one_for_each_command(self) -> None:
        """With one client, a command costs one wait."""
        server = Server(folder=MEMORY)
        self.addCleanup(server.close)
        server.start()
        assert server.process is not None
        trace = Path(server.folder.name, "trace")
        with server.connect() as link:
            told(link, b"hello anna\nmake /e\ncheckout w:/e\n", 3)
            strace = [shutil.which("strace") or "strace", "-f", "-o", str(trace), "-e", "trace=epoll_wait,sendto", "-e", "signal=none"]
            recorder = subprocess.Popen([*strace, "-p", str(server.process.pid)], stderr=subprocess.PIPE)
            self.addCleanup(recorder.kill)
            assert recorder.stderr is not None
            self.assertIn(b"attached", recorder.stderr.readline())
            for number in range(COMMANDS):
                self.assertEqual(told(link, b"note c1 %02x\n" % number, 1), b"OK noted\n")
        recorder.terminate()
        recorder.communicate()
        calls = trace.read_text("ascii").splitlines()
        replies = [number for number, call in enumerate(calls) if "sendto(" in call]
        self.assertEqual(len(replies), COMMANDS)
        waits = sum("epoll_wait(" in call for call in calls[replies[0]:replies[-1]])
        self.assertLessEqual(waits, COMMANDS + COMMANDS // 20)
