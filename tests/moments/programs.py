"""Runs programs of the packages on a machine, from here on by a process that has imported them: whole, or up to a moment and from there on."""

import contextlib
import json
import os
import signal
import socket
import subprocess
import sys
import tomllib
from dataclasses import dataclass
from pathlib import Path
from typing import Any, Callable, Dict, List, Optional

from servers import PACKAGES, TOP

# A run that says nothing for so long hangs.
SECONDS = 60.0
VAULT, SWEEP = "vault", "vaultd-sweep"


@dataclass(frozen=True)
class Done:
    """What became of a run: its status, less than 0 if it was killed, and what it said. The call that it stood at, where it stood at one."""

    status: int
    out: str
    errors: str
    call: str = ""


class Hangs(Exception):
    """A run went on and on."""


class Programs:
    """A process that runs programs, one at a time."""

    def __init__(self, folder: Path):
        """The folder is for what the programs say."""
        self.folder = folder
        ours, theirs = socket.socketpair()
        path = os.pathsep.join([str(TOP / "tests")] + [str(package / "src") for package in PACKAGES])
        self.process = subprocess.Popen([sys.executable, "-m", "moments.hook", str(theirs.fileno()), "vault", "vaultd_tools"],
                                        pass_fds=[theirs.fileno()], env={**os.environ, "PYTHONPATH": path})
        theirs.close()
        self.socket, self.heard = ours, ours.makefile("rb")
        ours.settimeout(SECONDS)

    def close(self) -> None:
        """Ends it."""
        self.heard.close()
        self.socket.close()
        self.process.wait()

    def run(self, environment: Dict[str, str], folder: Path, program: str, words: List[str], moment: Optional[int] = None,
            meanwhile: Optional[Callable[[int, str], str]] = None, calls: Optional[Path] = None) -> Done:
        """Runs a program. At a moment something happens meanwhile, which is given the number of the process and the call that it stands at,
        and answers `go`, `again` to stop at the next moment, too, or `kill`."""
        said = [str(self.folder / "out"), str(self.folder / "errors")]
        asked: Dict[str, Any] = {"environment": environment, "folder": str(folder), "start": start_of(program), "words": words, "moment": moment,
                                 "said": said, "calls": str(calls) if calls is not None else ""}
        self.socket.sendall(json.dumps(asked).encode() + b"\n")
        call, pid = "", 0
        while True:
            try:
                line = self.heard.readline().decode()
            except TimeoutError as error:
                if pid:
                    with contextlib.suppress(OSError):
                        os.kill(pid, signal.SIGKILL)
                raise Hangs(f"{program} {' '.join(words)} goes on and on") from error
            kind, _, rest = line.rstrip("\n").partition(" ")
            if kind != "at":
                break
            number, _, call = rest.partition(" ")
            pid = int(number)
            answer = meanwhile(pid, call) if meanwhile is not None else "go"
            if answer == "kill":
                os.kill(pid, signal.SIGKILL)
            else:
                self.socket.sendall(b"+" if answer == "again" else b".")
        if kind != "ended":
            raise Hangs(f"the process that runs programs said {line!r}")
        out, errors = (Path(path).read_text("utf-8", "replace") for path in said)
        return Done(int(rest), out, errors, call)


@dataclass
class Machine:
    """A machine of a designer: where the client keeps its files, and the folder that is worked in."""

    programs: Programs
    home: Path
    folder: Path
    temporary: Path

    def environment(self) -> Dict[str, str]:
        """What programs run with."""
        kept = {name: os.environ.get(name, "") for name in ("PATH", "VAULTD")}
        return {**kept, **{name: str(self.home) for name in ("HOME", "XDG_STATE_HOME", "XDG_CACHE_HOME", "XDG_CONFIG_HOME")},
                "TMPDIR": str(self.temporary), "LANG": "C.UTF-8", "LANGUAGE": "C"}

    def vault(self, *words: str, status: Optional[int] = 0) -> Done:
        """Runs the client."""
        done = self.programs.run(self.environment(), self.home, VAULT, list(words))
        if status is not None and done.status != status:
            raise AssertionError(f"vault {' '.join(words)}: {done}")
        return done


def start_of(program: str) -> str:
    """The module and the function by which an installation starts a program; the client is its package."""
    scripts = {name: start for package in PACKAGES
               for name, start in tomllib.loads((package / "pyproject.toml").read_text("utf-8"))["project"]["scripts"].items()}
    return program if program == VAULT else str(scripts[program])
