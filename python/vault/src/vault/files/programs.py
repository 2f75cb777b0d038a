"""Programs that are started: their standard error is read all the while, so that none waits for somebody to read it."""

import contextlib
import os
import subprocess
import threading
from typing import IO, Iterator, Sequence

SAID_BYTES = 4096
PIECE = 1 << 16


class Heard:
    """What a program says on its standard error, of which the end is kept."""

    def __init__(self, pipe: IO[bytes]):
        self.pipe, self.said = pipe, b""
        self.thread = threading.Thread(target=self._hear, daemon=True)
        self.thread.start()

    def _hear(self) -> None:
        with contextlib.suppress(OSError, ValueError):
            while piece := os.read(self.pipe.fileno(), PIECE):
                self.said = (self.said + piece)[-SAID_BYTES:]

    def to_the_end(self, seconds: float = 2.0) -> bytes:
        """The end of all that it says, once it has ended."""
        self.thread.join(seconds)
        return self.said


@contextlib.contextmanager
def started(words: Sequence[str], stdin: int, stdout: int) -> Iterator["tuple[subprocess.Popen[bytes], Heard]"]:
    """A program that is started, and what it says. It is ended afterwards, at once if something goes wrong."""
    with subprocess.Popen(words, stdin=stdin, stdout=stdout, stderr=subprocess.PIPE, bufsize=0) as program:
        assert program.stderr is not None
        heard = Heard(program.stderr)
        try:
            yield program, heard
        except BaseException:
            program.kill()
            raise
        finally:
            for pipe in (program.stdin, program.stdout):
                if pipe is not None:
                    with contextlib.suppress(OSError):
                        pipe.close()
            program.wait()
            heard.to_the_end()
