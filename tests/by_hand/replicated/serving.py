"""Servers, started as the units start them; what suspends one at a chosen call; and the designers' load."""

import json
import os
import re
import signal
import socket
import subprocess
import sys
import threading
import time
from pathlib import Path
from typing import Any, Optional

from machines import CONTRIB, Machine, Trouble, until

PORT = 7070
VAULTD = os.environ.get("VAULTD", "")


class Started:
    """One start of a server that had the lock."""

    def __init__(self, machine: Machine, pid: int):
        self.machine, self.pid, self.listening = machine, pid, time.monotonic()
        self.ended: Optional[float] = None


class Unit:
    """A server on a machine. If it ends, it is started again after a second, as systemd does with contrib/replicated/replicated.conf."""

    def __init__(self, machine: Machine, files: list[str], settles: bool, before: tuple[str, ...] = ()):
        self.machine, self.files, self.settles, self.before = machine, files, settles, before
        self.starts: list[Started] = []
        self.said: list[str] = []
        self.stopped = False
        self.process: Optional["subprocess.Popen[str]"] = None
        self.thread = threading.Thread(target=self._keep, daemon=True)
        self.thread.start()

    def _keep(self) -> None:
        while not self.stopped:
            if not self.settles or self._run(str(CONTRIB / "settle"), *self.files) == 0:
                self._run(*self.before, VAULTD, "serve", *self.files, f"0.0.0.0:{PORT}", "--workers", "64", "--idle", "60")
            time.sleep(1)

    def _run(self, *words: str) -> int:
        """Runs one program of the unit to its end, and notes when it listens."""
        self.process = self.machine.start(*words)
        assert self.process.stdout is not None
        started: Optional[Started] = None
        for line in self.process.stdout:
            self.said.append(line.strip())
            if self.said[-1] == "listening":
                started = Started(self.machine, self.server())
                self.starts.append(started)
        status = self.process.wait()
        if started:
            started.ended, self.before = time.monotonic(), ()
        return status

    def server(self) -> int:
        """The server's process id, also if strace started it."""
        assert self.process is not None
        pid = self.process.pid
        children = Path(f"/proc/{pid}/task/{pid}/children").read_text("ascii").split() if self.before else []
        return int(children[0]) if children else pid

    def listens(self) -> bool:
        """Whether a server of this unit has the lock, and runs."""
        return bool(self.starts) and self.starts[-1].ended is None

    def kill(self) -> None:
        """Kills the server; the unit starts it again."""
        if self.starts and self.starts[-1].ended is None:
            os.kill(self.starts[-1].pid, signal.SIGKILL)

    def stop(self) -> None:
        """Ends the unit and its server."""
        self.stopped = True
        if self.process is not None and self.process.poll() is None:
            if self.listens():
                self.kill()
            self.process.kill()
        self.thread.join(30)


def does(address: str, patience: float = 20) -> str:
    """What the server at an address says to a command with an effect, asked from outside: `OK`, an error, or nothing."""
    try:
        with socket.create_connection((address, PORT), timeout=patience) as link, link.makefile("rb") as file:
            link.sendall(b"hello watcher\n")
            said = file.readline().decode().strip()
            if not said.startswith("OK"):
                return said
            link.sendall(f"make /w{time.monotonic_ns()}\n".encode())
            return file.readline().decode().strip()
    except OSError:
        return ""


class Stopper:
    """Suspends a server as it returns from a chosen call, by strace, and keeps a log of its writes and syncs.

    strace injects the signal as the call is entered. The server takes it as the call returns, so it stands between two calls.
    """

    def __init__(self, machine: Machine, pid: int, call: str, when: int, path: Optional[str] = None):
        self.pid, self.log = pid, machine.folder / f"strace-{time.monotonic_ns()}"
        only = ["-P", path] if path else []
        self.tracer = machine.start("strace", "-f", "-tt", "-o", str(self.log), *only, "-e", "trace=pwrite64,fsync", "-e",
                                    f"inject={call}:signal=SIGSTOP:when={when}", "-p", str(pid), stdout=subprocess.DEVNULL)
        until("strace has the server", self._traced)

    def _traced(self) -> bool:
        tasks = list(Path(f"/proc/{self.pid}/task").iterdir())
        return len(tasks) > 1 and all("TracerPid:\t0\n" not in (task / "status").read_text("ascii") for task in tasks)

    def lines(self) -> list[str]:
        """The log so far."""
        return self.log.read_text("utf-8", "replace").splitlines() if self.log.exists() else []

    def wait(self, seconds: float = 60) -> list[str]:
        """Waits until the server is suspended, and answers the calls before that, in order."""
        until("the server stands at the call", lambda: any("stopped by SIGSTOP" in line for line in self.lines()), seconds, 0.01)
        return self.calls(before=True)

    def calls(self, before: bool) -> list[str]:
        """The calls before the server was suspended, or those after."""
        lines = self.lines()
        at = next((n for n, line in enumerate(lines) if "SIGSTOP" in line), len(lines))
        part = lines[:at] if before else lines[at:]
        return [line for line in part if re.search(r"(pwrite64|fsync)", line)]

    def go_on(self) -> None:
        """Lets the server go on."""
        os.kill(self.pid, signal.SIGCONT)

    def end(self) -> None:
        """Detaches strace from the server."""
        if self.tracer.poll() is None:
            self.tracer.send_signal(signal.SIGINT)
            try:
                self.tracer.wait(5)
            except subprocess.TimeoutExpired:
                self.tracer.kill()


class Designers:
    """The load of one machine: load.py, which takes orders on its input."""

    def __init__(self, machine: Machine, result: Path, designers: int, size: int):
        self.machine, self.result = machine, result
        load = Path(__file__).with_name("load.py")
        self.process = machine.start(sys.executable, str(load), machine.name, "127.0.0.1", str(PORT), str(designers), str(size), str(result),
                                     stdin=subprocess.PIPE, stdout=subprocess.DEVNULL)

    def do(self, what: str) -> None:
        """Orders `cycle`, `ask` or `silent`."""
        assert self.process.stdin is not None
        self.process.stdin.write(what + "\n")
        self.process.stdin.flush()

    def end(self) -> dict[str, Any]:
        """Ends them, and answers the replies that they noted."""
        self.do("end")
        try:
            self.process.wait(30)
        except subprocess.TimeoutExpired as late:
            raise Trouble("the load didn't end") from late
        return dict(json.loads(self.result.read_text("ascii")))


def filled(folder: Path, cycles: int) -> None:
    """A vault in a folder of this machine, with this many versions of 1,000 bytes."""
    files = [str(folder / name) for name in "ab"]
    subprocess.run([VAULTD, "create", *files], check=True, stdout=subprocess.DEVNULL)
    with subprocess.Popen([VAULTD, "serve", *files, f"127.0.0.1:{PORT}"], stdout=subprocess.PIPE) as server:
        assert server.stdout is not None
        server.stdout.readline()
        lines = ["hello filler", "make /full", "make /full/a", "make /full/a/x"]
        for number in range(1, cycles + 1):
            lines += ["checkout w:/full/a/x", f"save c{number} /full/a/x {'61' * 1000}", f"checkin c{number}"]
        with socket.create_connection(("127.0.0.1", PORT)) as link, link.makefile("rb") as file:
            for line in lines:
                link.sendall(line.encode() + b"\n")
                if not file.readline().startswith(b"OK"):
                    raise Trouble("the vault can't be filled")
        server.kill()
