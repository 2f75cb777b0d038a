"""Programs of the packages, each stopped before one of its steps until it is told to go on: before it opens, makes, lists, renames or removes a
file, changes its time, puts one on disk, starts a program, connects, or sends or reads lines.

Run as a program it forks one for each line of its input. That one comes to a socket, on which it says `stopped` and waits, and `ended` with
its status.
"""

import json
import os
import signal
import socket
import subprocess
import sys
import tempfile
from importlib import import_module
from pathlib import Path
from types import TracebackType
from typing import Any, Callable, Dict, List, Optional, Sequence, Type

from servers import PACKAGES, scripts

EVENTS = {"open", "os.chmod", "os.link", "os.listdir", "os.mkdir", "os.remove", "os.rename", "os.scandir", "os.utime", "socket.connect",
          "subprocess.Popen"}


class Steps:
    """Counts steps, and stops before one of them."""

    def __init__(self, last: int, stop: Callable[[], None]):
        self.left, self.stop = last, stop

    def step(self) -> None:
        """One step."""
        self.left -= 1
        if self.left == -1:
            self.stop()

    def on_event(self, event: str, _words: Any) -> None:
        """Is called for each call that Python reports as an audit event."""
        if event in EVENTS:
            self.step()

    def around(self, function: Callable[..., Any]) -> Callable[..., Any]:
        """A function with a step before it, and one after it."""
        def stepped(*words: Any) -> Any:
            self.step()
            answer = function(*words)
            self.step()
            return answer

        return stepped


def run_in_steps(asked: Dict[str, Any]) -> None:
    """Runs a program in this process, which stops before a step."""
    for stream in (1, 2):
        os.dup2(os.open(asked["said"], os.O_WRONLY | os.O_APPEND | os.O_CREAT, 0o600), stream)
    way = socket.socket(socket.AF_UNIX)
    way.connect(asked["socket"])
    module, _, function = asked["start"].partition(":")
    main = getattr(import_module(module), function)

    def stop() -> None:
        way.sendall(b"stopped\n")
        way.recv(1)

    steps = Steps(asked["step"], stop)
    os.fsync = steps.around(os.fsync)
    connection = import_module(asked["connection"])
    setattr(connection.Connection, "ask_all", steps.around(connection.Connection.ask_all))
    sys.argv = asked["words"]
    sys.addaudithook(steps.on_event)
    try:
        status = main()
    except SystemExit as ended:
        status = ended.code
    sys.stdout.flush()
    way.sendall(f"ended {status}\n".encode("ascii"))
    os._exit(0)


def serve() -> None:
    """Reads lines, and runs each in a process of its own."""
    signal.signal(signal.SIGCHLD, signal.SIG_IGN)
    for line in sys.stdin:
        if os.fork() == 0:
            run_in_steps(json.loads(line))


class Run:
    """A program that was started, at its stop or at its end."""

    def __init__(self, way: socket.socket, said: Path):
        self.way, self.said = way, said
        self.way.settimeout(60)
        self.lines = way.makefile("r")
        self.status: Optional[int] = None
        self.stopped = self._next()

    def _next(self) -> bool:
        word, _, status = self.lines.readline().strip().partition(" ")
        if word == "stopped":
            return True
        assert word == "ended", f"it was killed: {self.text()}"
        self.status = int(status)
        return False

    def text(self) -> str:
        """What it said."""
        return self.said.read_text("utf-8", "replace")

    def go_on(self) -> int:
        """Lets it go on to its end, if it isn't there yet, and answers its status."""
        if self.stopped:
            self.way.sendall(b"x")
            self.stopped = self._next()
        self.lines.close()
        self.way.close()
        assert self.status is not None
        return self.status


class Stopper:
    """Starts programs of the packages, each with a stop."""

    def __init__(self, environment: Dict[str, str], connection: str):
        self.folder = tempfile.TemporaryDirectory(prefix="vault-test-")
        self.path, self.number, self.connection = Path(self.folder.name), 0, connection
        self.listener = socket.socket(socket.AF_UNIX)
        self.listener.bind(str(self.path / "socket"))
        self.listener.listen()
        self.listener.settimeout(60)
        path = os.pathsep.join([os.path.dirname(os.path.abspath(__file__))] + [str(package / "src") for package in PACKAGES])
        self.process = subprocess.Popen([sys.executable, __file__], stdin=subprocess.PIPE, text=True, env={**environment, "PYTHONPATH": path})

    def __enter__(self) -> "Stopper":
        return self

    def __exit__(self, _kind: Optional[Type[BaseException]], _error: Optional[BaseException], _trace: Optional[TracebackType]) -> None:
        self.process.communicate()
        self.listener.close()
        self.folder.cleanup()

    def start(self, step: int, program: str, words: Sequence[str]) -> Run:
        """Starts a program, which has reached its stop, or its end, when this returns."""
        assert self.process.stdin is not None
        self.number += 1
        said = self.path / str(self.number)
        asked = {"step": step, "start": starts()[program], "words": [program, *words], "said": str(said), "socket": str(self.path / "socket"),
                 "connection": self.connection}
        self.process.stdin.write(json.dumps(asked) + "\n")
        self.process.stdin.flush()
        way, _ = self.listener.accept()
        return Run(way, said)


def starts() -> Dict[str, str]:
    """Where each program of the packages starts."""
    found: Dict[str, str] = {}
    for name, text in scripts().items():
        lines: List[str] = text.splitlines()
        _, module, _, function = lines[2].split()
        found[name] = f"{module}:{function}"
    return found


if __name__ == "__main__":
    serve()
