"""What comes in hundreds is counted: of each kind of line some are shown, and how many more there are of it."""

import re
from typing import Dict, List, Sequence, Tuple, TypeVar

# How many lines of a kind are shown, and how many where there are more of it.
MOST, SHOWN = 40, 10
# What a line has of its own, and its kind hasn't: commands, names in quotes, places, claims and numbers.
OWN = re.compile(r"`[^`]*`|(?<!\w)'[^']*'|/[^ ,:;]*|\b[ch]?[0-9][0-9,]*\b")
T = TypeVar("T")


def some_of(lines: Sequence[Tuple[str, str]], every: bool) -> List[str]:
    """Lines, each of a name and what is said of it. Of a kind of which there are many it is some, and behind these how many more there are."""
    kinds: Dict[str, List[str]] = {}
    for name, said in lines:
        kinds.setdefault(OWN.sub("", said), []).append(f"{name} {said}")
    if every or all(len(found) <= MOST for found in kinds.values()):
        return [f"{name} {said}" for name, said in lines]
    return [line for found in kinds.values() for line in first_of(found, f"So it is with {len(found) - SHOWN:,} more: `--all` names them.")]


def first_of(lines: Sequence[str], more: str) -> List[str]:
    """Lines of one kind: all, or of many the first ones, and a sentence on the others."""
    return list(lines) if len(lines) <= MOST else [*lines[:SHOWN], more]


def first_rows(rows: Sequence[T], every: bool) -> Tuple[Sequence[T], int]:
    """The first of some rows, or all where so few are there or all are wanted; and how many are left out."""
    shown = rows if every or len(rows) <= MOST else rows[:MOST]
    return shown, len(rows) - len(shown)
