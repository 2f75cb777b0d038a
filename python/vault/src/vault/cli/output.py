"""What the program `vault` says, in sentences or in JSON."""

import contextlib
import json
import os
import sys
import time
from typing import TYPE_CHECKING, Any, Dict, Iterator, List, Sequence, TextIO, Tuple

from vault.errors import NotKnownError, RefusedError, VaultError

if TYPE_CHECKING:
    from vault.files.transfer import Moved

METER_SECONDS = 1.0
# How a table shows how a claim stands.
STYLES = {"held": "green", "queued": "yellow"}
Told = Tuple[str, Dict[str, Any]]


class Output:
    """What the program says: sentences, or JSON objects, each on a line; notices and progress go to standard error."""

    def __init__(self, command: str, as_json: bool):
        self.command, self.as_json = command, as_json
        self.notices: List[str] = []

    def notice(self, sentence: str) -> None:
        """Says something that the designer should know beside the answer."""
        self.notices.append(sentence)
        if not self.as_json:
            print("vault: " + sentence, file=sys.stderr)

    def progress(self, sentence: str) -> None:
        """Says what goes on, if somebody looks."""
        if sys.stderr.isatty() and not self.as_json:
            print("vault: " + sentence, file=sys.stderr)

    def agree(self, said: str, yes: bool, undone: str = "Nothing was changed") -> None:
        """Says what is about to be done, and goes on only if the designer wants it."""
        self.notice(said)
        if yes:
            return
        if self.as_json or not sys.stdin.isatty():
            raise RefusedError(f"{undone}. Say the same with `--yes`, if that is what you want.")
        print("vault: Go on? [y/N] ", end="", file=sys.stderr, flush=True)
        if sys.stdin.readline().strip().lower() not in ("y", "yes"):
            raise RefusedError(f"{undone}.")

    @contextlib.contextmanager
    def meter(self, what: str, size: int) -> "Iterator[Moved]":
        """Shows how far something is that takes longer than a second, if somebody looks."""
        if self.as_json or not sys.stderr.isatty():
            yield lambda _bytes: None
            return
        try:
            from tqdm import tqdm  # type: ignore[import]
        except ImportError:
            yield self._sentences(what, size)
            return
        with tqdm(total=size, desc=what, unit="B", unit_scale=True, delay=METER_SECONDS, leave=False, file=sys.stderr) as bar:
            yield bar.update

    def _sentences(self, what: str, size: int) -> "Moved":
        """Says how far something is each second."""
        done, said = 0, time.monotonic()

        def moved(count: int) -> None:
            """Counts what was moved."""
            nonlocal done, said
            done += count
            if time.monotonic() - said > METER_SECONDS:
                said = time.monotonic()
                self.progress(f"{what}: {done:,} of {size:,} bytes")

        return moved

    @property
    def tables(self) -> bool:
        """Whether somebody looks at standard output, and what is needed to draw a table there is installed."""
        if self.as_json or not sys.stdout.isatty():
            return False
        with contextlib.suppress(ImportError):
            import rich.table  # noqa: F401
            return True
        return False

    @staticmethod
    def table(columns: Sequence[str], rows: Sequence[Sequence[str]]) -> None:
        """Draws a table."""
        from rich.console import Console
        from rich.table import Table
        from rich.text import Text
        drawn = Table(*columns)
        for row in rows:
            drawn.add_row(*(Text(cell, STYLES.get(cell.partition(" ")[0], "")) for cell in row))
        Console(color_system="auto" if in_colours(sys.stdout) else None).print(drawn)

    def answer(self, sentence: str, fields: Dict[str, Any]) -> None:
        """Says what was done."""
        self.say(True, sentence, fields)

    def say(self, done: bool, sentence: str, fields: Dict[str, Any]) -> None:
        """Says something on standard output, at once."""
        if self.as_json:
            told = {"command": self.command, "done": done, "sentence": sentence, **fields, "notices": self.notices}
            print(json.dumps(told), flush=True)
        elif "\n" in sentence:
            show(sentence, sys.stdout)
        elif sentence:
            print(sentence, flush=True)

    def error(self, error: VaultError) -> None:
        """Says what went wrong and what to do."""
        if self.as_json:
            done = None if isinstance(error, NotKnownError) else False
            print(json.dumps({"command": self.command, "done": done, "code": error.code, "sentence": str(error), **error.fields,
                              "notices": self.notices}), flush=True)
        else:
            show("vault: " + str(error), sys.stderr, True)


def counted(number: int, one: str, many: str = "") -> str:
    """A number of things in words."""
    return f"{number:,} {one if number == 1 else many or one + 's'}"


def in_colours(stream: TextIO) -> bool:
    """Whether somebody looks at a stream, on a terminal that has colours, and wants them."""
    return stream.isatty() and not os.environ.get("NO_COLOR") and os.environ.get("TERM", "dumb" if os.name == "posix" else "") != "dumb"


def show(text: str, stream: TextIO, wrong: bool = False) -> None:
    """Prints a text, in colours where somebody looks and what makes them is installed. It takes longer to load than most commands take, so a
    single line that says what was done has none."""
    if in_colours(stream):
        with contextlib.suppress(ImportError):
            from vault.cli import colours
            colours.show(text, stream, wrong)
            return
    print(text, file=stream, flush=True)
