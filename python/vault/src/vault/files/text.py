"""Texts from outside as they are shown, and words as a shell takes them."""

import os
import re
import time


def why(error: OSError) -> str:
    """The reason of a refusal of the system, in words."""
    return error.strerror or os.strerror(error.errno or 0)


CONTROL = re.compile(r"[\x00-\x1f\x7f-\x9f\u2028\u2029]")


def shown(text: str) -> str:
    """A text of a card as it is shown: what a terminal could take for a command, or what turns the direction of writing, is escaped."""
    return "".join(letter if letter.isprintable() else f"\\u{ord(letter):04x}" for letter in text)


def moment(seconds: float) -> str:
    """A time in seconds, as a card says it."""
    return time.strftime("%Y-%m-%dT%H:%M:%SZ", time.gmtime(seconds))


def quoted(word: str) -> str:
    """A word as a shell takes it."""
    return word if all(letter.isalnum() or letter in "@%+=:,./_-" for letter in word) else "'" + word.replace("'", "'\\''") + "'"
