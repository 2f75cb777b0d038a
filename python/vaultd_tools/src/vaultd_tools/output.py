"""How the tools say what they found, and what went wrong."""

import os
import sys
from typing import Iterable


def print_all(program: str, lines: Iterable[str]) -> int:
    """Prints lines, and answers the status for it: 1 if they can't be written, which is said, or if nobody reads on, as behind `head`."""
    try:
        for line in lines:
            print(line)
        sys.stdout.flush()
        return 0
    except OSError as error:
        os.dup2(os.open(os.devnull, os.O_WRONLY), sys.stdout.fileno())
        return 1 if isinstance(error, BrokenPipeError) else say_error(program, error)


def say_error(program: str, error: Exception) -> int:
    """Says what went wrong, and answers the status for it."""
    print(f"{program}: {error}", file=sys.stderr)
    return 1
