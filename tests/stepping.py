"""The program `vault`, killed at one of its steps: before it opens, makes, renames, links or removes a file, puts one on disk, connects, or
sends or reads lines.

Run as a program it reads from each line of its input the number of a step, and then words of `vault`. It runs these words in a process of
their own, which ends as if killed right before that step, and prints `killed`, or the status if the words ended before that step.
"""

import json
import os
import subprocess
import sys
from typing import Any, Callable, Dict, Sequence

from servers import PACKAGES

from vault.protocol.connection import Connection
from vault.cli.program import main

KILLED = 137
EVENTS = {"open", "os.chmod", "os.link", "os.mkdir", "os.remove", "os.rename", "os.utime", "socket.connect", "subprocess.Popen"}


class Steps:
    """Counts steps, and ends this process at once before one of them."""

    def __init__(self, last: int):
        self.left = last

    def step(self) -> None:
        """One step."""
        if self.left == 0:
            os._exit(KILLED)
        self.left -= 1

    def on_event(self, event: str, _words: Any) -> None:
        """Is called for each call that Python reports as an audit event."""
        if event in EVENTS:
            self.step()

    def around(self, function: Callable[..., Any]) -> Callable[..., Any]:
        """A function with a step before it, and one after it."""
        def stepped(*words: Any) -> Any:
            self.step()
            answer = function(*words)
            self.step()
            return answer

        return stepped


def run_in_steps(last: int, words: Sequence[str]) -> None:
    """Runs the program in this process, up to a step."""
    steps = Steps(last)
    os.fsync = steps.around(os.fsync)
    setattr(Connection, "ask_all", steps.around(Connection.ask_all))
    sys.addaudithook(steps.on_event)
    os._exit(main(list(words)))


def serve_steps() -> None:
    """Reads steps and words, and runs each in a process of its own."""
    for line in sys.stdin:
        asked = json.loads(line)
        child = os.fork()
        if child == 0:
            null = os.open(os.devnull, os.O_RDWR)
            for stream in (0, 1, 2):
                os.dup2(null, stream)
            run_in_steps(asked["step"], asked["words"])
        status = os.waitstatus_to_exitcode(os.waitpid(child, 0)[1])
        print("killed" if status == KILLED else status, flush=True)


class Stepper:
    """A program that runs `vault` up to a step, as often as it is asked."""

    def __init__(self, environment: Dict[str, str]):
        path = os.pathsep.join([os.path.dirname(os.path.abspath(__file__))] + [str(package / "src") for package in PACKAGES])
        self.process = subprocess.Popen([sys.executable, __file__], stdin=subprocess.PIPE, stdout=subprocess.PIPE, text=True,
                                        env={**environment, "PYTHONPATH": path})

    def run(self, step: int, *words: str) -> str:
        """Runs words up to a step, and answers `killed`, or their status."""
        assert self.process.stdin is not None and self.process.stdout is not None
        self.process.stdin.write(json.dumps({"step": step, "words": words}) + "\n")
        self.process.stdin.flush()
        return self.process.stdout.readline().strip()

    def close(self) -> None:
        """Ends it."""
        self.process.communicate()


if __name__ == "__main__":
    serve_steps()
