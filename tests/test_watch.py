"""The watch over a server, and the figures of a vault, on real servers that serve, are busy, deaf, broken or away."""

import contextlib
import os
import re
import signal
import socket
import subprocess
import sys
import threading
import time
import unittest
from pathlib import Path
from typing import Dict, List, Tuple

from servers import MEMORY, TOP, VAULTD, Limits, Server, program
from test_tools import WithVault, damage, gates
from tries import told

from vault import Client
from vaultd_tools.watch.asking import PATIENCE


class Watch(WithVault):
    """What is found of a server, and the marks."""

    def asked(self, port: int = 0, patience: float = 5.0) -> Tuple[int, str]:
        """The status and the line of a look at the server."""
        done = subprocess.run([*program("vaultd-watch"), "ask", f"127.0.0.1:{port or self.server.port}", "--patience", str(patience)],
                              capture_output=True, text=True, timeout=60, check=False)
        self.assertEqual(done.stderr, "")
        return done.returncode, done.stdout

    def acted(self, kind: str, status: str, unit: str = "vaultd.service") -> Tuple[int, str]:
        """The status of what follows from a look, and what it says. No service manager is asked here."""
        done = subprocess.run([*program("vaultd-watch"), kind, unit, "--marks", str(self.folder / "marks")], capture_output=True, text=True,
                              timeout=60, check=False, env={**os.environ, "EXIT_STATUS": status, "PATH": "/nowhere"})
        return done.returncode, done.stderr

    def test_serves(self) -> None:
        self.assertEqual(self.asked(), (0, f"127.0.0.1:{self.server.port} serves.\n"))
        self.server.kill()
        self.assertEqual(self.asked(), (5, f"nobody listens at 127.0.0.1:{self.server.port}.\n"))

    def test_deaf(self) -> None:
        """A server that is suspended gives no answer; once it goes on, it does."""
        assert self.server.process is not None
        self.server.suspend()
        status, said = self.asked(patience=1)
        self.assertEqual((status, "is deaf: it gave no answer in 1 seconds" in said), (3, True))
        self.server.process.send_signal(signal.SIGCONT)
        self.assertEqual(self.asked()[0], 0)

    def test_busy(self) -> None:
        """A server that says `ERR 80`, or that no session is free, isn't deaf."""
        server = Server("--workers", "1", "--full", "1", folder=MEMORY)
        self.addCleanup(server.close)
        server.start()
        with server.connect() as first:
            told(first, b"hello anna\n", 1)
            status, said = self.asked(server.port, 10)
        self.assertEqual((status, "is busy: it said ERR 80" in said), (0, True))

    def test_broken(self) -> None:
        self.server.kill()
        self.server.start(Limits(file_bytes=Path(self.server.files[0]).stat().st_size))
        with self.server.connect() as other:
            self.assertIn(b"ERR 82", told(other, b"hello ben\nmake /x\n", 2))
        status, said = self.asked()
        self.assertEqual((status, "is broken: it said ERR 82" in said), (4, True))
        self.assertEqual(self.acted("act", "4")[0], 0)
        self.assertTrue((self.folder / "marks" / "vaultd.broken").read_text("utf-8").endswith("its server said ERR 82\n"))
        self.assertIn("is deaf, and isn't restarted", self.acted("act", "3")[1])
        mark = self.folder / "marks" / "vaultd.broken"
        self.assertRegex(self.acted("act", "5")[1], rf"^vaultd.service isn't started while {mark} is there \(20.*Z its server said ERR 82\)\. Do as"
                                                    r' "A broken vault" in /usr/share/doc/vaultd/OPERATING.md says, and then remove that file\.\n$')

    def test_something_else(self) -> None:
        """What is no vault's server is neither deaf nor broken."""
        for answer in (b"", b"HTTP/1.1 400 Bad Request\r\n", b"x" * 5000, b"OK session 1\nERR 11\n"):
            with socket.create_server(("127.0.0.1", 0)) as listener:
                listening = threading.Thread(target=answer_once, args=(listener, answer))
                listening.start()
                self.assertEqual(self.asked(int(listener.getsockname()[1]))[0], 1, answer)
                listening.join()

    def test_no_mark(self) -> None:
        """What is well, busy, stopped or unknown is left alone, and a unit's name leads nowhere else."""
        for status in ("0", "1", "5", "", "TERM"):
            self.assertEqual(self.acted("act", status), (0, ""))
        self.assertFalse((self.folder / "marks").exists())
        for unit in ("../vaultd.service", "/etc/passwd", ".service", "..", ""):
            self.assertEqual(self.acted("act", "4", unit)[0], 1, unit)
        self.assertEqual(list(self.folder.glob("*.broken")), [])


# A process that waits in the kernel as for a disk: its new one stays at a pipe that nobody writes into.
HANGS = "import os, sys, time\nos.posix_spawn('/bin/true', ['true'], {}, file_actions=[(os.POSIX_SPAWN_OPEN, 3, sys.argv[1], 0, 0)])\ntime.sleep(600)"
# A service manager: of a unit it knows the main process, and it notes what else is asked of it.
MANAGER = """\
#!/bin/sh
PATH=/usr/bin:/bin
echo "$*" >> {folder}/asked
[ "$1" = show ] || exit 0
[ "$(grep -c ^show {folder}/asked)" -lt {looks} ] || {{ : > {folder}/pipe; while grep -q ') D ' /proc/{process}/stat; do sleep 0.1; done; }}
echo {process}
"""


class Deaf(WithVault):
    """What is done with a deaf server: it is restarted, but not if it hangs in its disk."""

    def setUp(self) -> None:
        super().setUp()
        self.mark = self.folder / "marks" / "vaultd.broken"
        os.mkfifo(self.folder / "pipe")

    def hangs(self) -> int:
        """A process that hangs in the kernel until somebody writes into the pipe."""
        process = subprocess.Popen([sys.executable, "-c", HANGS, str(self.folder / "pipe")])
        self.addCleanup(process.wait)
        self.addCleanup(process.kill)
        self.addCleanup(self.let_go)
        while ") D " not in Path(f"/proc/{process.pid}/stat").read_text("ascii"):
            self.assertIsNone(process.poll())
            time.sleep(0.01)
        return process.pid

    def let_go(self) -> None:
        """Lets what stays at the pipe go on, if anything does."""
        with contextlib.suppress(OSError):
            os.close(os.open(self.folder / "pipe", os.O_WRONLY | os.O_NONBLOCK))

    def acted(self, process: int, looks: int = 100) -> Tuple[str, List[str]]:
        """What is said, and what is asked of the service manager but for the process, when the server of this process is deaf. One that hangs
        goes on before this look."""
        manager = self.folder / "systemctl"
        manager.write_text(MANAGER.format(folder=self.folder, process=process, looks=looks), "ascii")
        manager.chmod(0o755)
        done = subprocess.run([*program("vaultd-watch"), "act", "vaultd.service", "--marks", str(self.mark.parent)], capture_output=True, text=True,
                              timeout=60, check=False, env={**os.environ, "EXIT_STATUS": "3", "PATH": str(self.folder)})
        self.assertEqual(done.returncode, 0, done.stderr)
        asked = (self.folder / "asked").read_text("ascii").splitlines()
        return done.stderr, [line for line in asked if line != "show --property=MainPID --value -- vaultd.service"]

    def test_suspended(self) -> None:
        """A server that doesn't hang in its disk is restarted, as is one that has ended."""
        assert self.server.process is not None
        self.server.suspend()
        for process in (self.server.process.pid, 0):
            (self.folder / "asked").unlink(missing_ok=True)
            said, asked = self.acted(process)
            self.assertEqual((said, asked), ("vaultd.service is restarted.\n", ["--no-block try-restart -- vaultd.service"]))
        self.server.process.send_signal(signal.SIGCONT)
        self.assertFalse(self.mark.exists())

    def test_hangs_in_its_disk(self) -> None:
        """One that hangs in its disk counts as broken, and is left alone: restarted, it would not hear that what it wrote failed."""
        said, asked = self.acted(self.hangs())
        self.assertIn("The vault is broken (its server is deaf, and hangs in its disk). Its server isn't started again", said)
        self.assertEqual(asked, [])
        self.assertTrue(self.mark.read_text("utf-8").endswith("its server is deaf, and hangs in its disk\n"))

    def test_a_disk_that_is_back(self) -> None:
        """One whose disk answers while it is looked at is left alone until the next look."""
        said, asked = self.acted(self.hangs(), looks=3)
        self.assertEqual((said, asked), ("The server was deaf, and its disk answers again: the next look says whether it serves.\n", []))
        self.assertFalse(self.mark.exists())


def answer_once(listener: socket.socket, answer: bytes) -> None:
    """Takes a connection, says something whatever it hears, and ends it."""
    connection, _ = listener.accept()
    with connection:
        connection.recv(100)
        connection.sendall(answer)
        connection.shutdown(socket.SHUT_WR)
        with contextlib.suppress(ConnectionResetError):
            while connection.recv(100):
                pass


class Metrics(WithVault):
    """The file for Prometheus."""

    LINE = re.compile(r'(vaultd_[a-z_]+)\{vault="plant"(?:,limit="([a-z-]+)")?\} ([0-9.e+-]+)')

    def test_of_a_full_server(self) -> None:
        """A server that is full is up, though it takes its time to say so."""
        self.server.kill()
        self.server.words = ("--workers", "1", "--full", "17")
        self.server.start()
        with self.server.connect() as first:
            told(first, b"hello anna\n", 1)
            self.assertEqual(self.figures()["vaultd_up"], 1)

    def test_patience(self) -> None:
        """The units of the watch and of the figures wait for as long as their programs do, which is longer than a full server takes."""
        settings = (TOP / "contrib" / "default-vaultd").read_text("utf-8")
        self.assertLess(int(re.findall(r"^VAULTD_FULL=(\d+)$", settings, re.MULTILINE)[0]), PATIENCE / 2)
        for unit in ("watch", "metrics"):
            text = (TOP / "contrib" / "systemd" / f"vaultd-{unit}.service").read_text("utf-8")
            self.assertGreater(int(re.findall(r"^TimeoutStartSec=(\d+)$", text, re.MULTILINE)[0]), PATIENCE)

    def figures(self, status: int = 0) -> Dict[str, float]:
        """What is written of the vault, each with its name."""
        file = self.folder / "vault.prom"
        done = subprocess.run([*program("vaultd-metrics"), "--vaultd", VAULTD, "--name", "plant", *self.server.files,
                               f"127.0.0.1:{self.server.port}", str(file)], capture_output=True, text=True, timeout=60, check=False)
        self.assertEqual(done.returncode, status, done.stderr)
        self.assertEqual([path for path in self.folder.iterdir() if path.name.startswith(".")], [])
        self.assertEqual(file.stat().st_mode & 0o777, 0o644)
        samples = [line for line in file.read_text("utf-8").splitlines() if not line.startswith("#")]
        found = [self.LINE.fullmatch(line) for line in samples]
        self.assertNotIn(None, found, samples)
        return {match[1] + (":" + match[2] if match[2] else ""): float(match[3]) for match in found if match}

    def test_of_a_running_vault(self) -> None:
        """Each figure is the vault's, and is the same again if nothing happened."""
        ben = Client("ben", "127.0.0.1", self.server.port, self.folder / "state")
        self.addCleanup(ben.close)
        ben.checkout(["r:/engine"])
        found = self.figures()
        wanted = {"up": 1, "broken": 0, "check_ok": 1, "places": 4, "versions": 0, "drafts": 1, "claims": 2, "held": 1, "waiting": 1,
                  "generation": 1, "weight": len(b"bore 80") + 8, "limit:places": 4096, "limit_used:places": 4, "limit:places-beneath-one": 64,
                  "limit_used:drafts-of-a-check-out": 1}
        self.assertEqual({name: found.get("vaultd_" + name) for name in wanted}, wanted)
        length = sum(5 + size for size in self.frames())
        self.assertEqual(found["vaultd_journal"], length)
        self.assertLess(found["vaultd_last_commit_age_seconds"], 60)
        self.assertEqual(self.figures()["vaultd_journal"], length)

    def frames(self) -> List[int]:
        """How long the frames of the first file are."""
        data = Path(self.server.files[0]).read_bytes()
        return [int.from_bytes(data[gate + 1:gate + 5], "big") for gate in gates(Path(self.server.files[0]))]

    def test_of_a_stopped_vault(self) -> None:
        self.server.kill()
        found = self.figures()
        self.assertEqual((found["vaultd_up"], found["vaultd_broken"], found["vaultd_places"]), (0, 0, 4))

    def test_of_a_broken_vault(self) -> None:
        self.server.kill()
        self.server.start(Limits(file_bytes=Path(self.server.files[0]).stat().st_size))
        with self.server.connect() as other:
            told(other, b"hello ben\nmake /x\n", 2)
        found = self.figures()
        self.assertEqual((found["vaultd_up"], found["vaultd_broken"], found["vaultd_places"]), (1, 1, 4))

    def test_of_a_damaged_vault(self) -> None:
        """What isn't known is left out."""
        self.server.kill()
        damage(Path(self.server.files[0]), 34, 1, b"\xff" * 4)
        found = self.figures(status=1)
        self.assertEqual((found["vaultd_up"], found["vaultd_check_ok"]), (0, 0))
        self.assertNotIn("vaultd_places", found)


if __name__ == "__main__":
    unittest.main()
