"""Words as a designer writes them, checked before they are sent."""

import re
from typing import List

from vault.errors import MisusedError
from vault.protocol.grammar import CHECKOUT, CLAIM, GREATEST, ITEM, ITEMS, NAME, PLACE


def checked(pattern: "re.Pattern[str]", word: str, what: str) -> str:
    """The word, if it has the form that the protocol wants."""
    if pattern.fullmatch(word):
        return word
    raise MisusedError(f"`{word}` is no {what}.")


def place_word(word: str) -> str:
    """A place as it is written."""
    return checked(PLACE, word, "place: write `/`, or up to seven names of 1 to 32 characters each, of a-z, 0-9, _ and -, as /engine/block/piston."
                   " `vault add` makes a part of a file with any name")


def name_word(word: str) -> str:
    """A designer's name as it is written."""
    return checked(NAME, word, "designer's name: write 1 to 32 of a-z, 0-9, _ and -")


def claim_word(word: str) -> str:
    """A claim as it is written."""
    return numbered(CLAIM, word, "claim: write c or h and its number, as c3")


def checkout_word(word: str) -> str:
    """A check-out as it is written."""
    return numbered(CHECKOUT, word, "check-out: write c and its number, as c3")


def numbered(pattern: "re.Pattern[str]", word: str, what: str) -> str:
    """A letter and a number, if there can be such a number."""
    if int(checked(pattern, word, what)[1:]) > GREATEST:
        raise MisusedError(f"`{word}` is no {what}.")
    return word


def item_words(words: List[str]) -> List[str]:
    """Items as they are written."""
    if len(words) > ITEMS:
        raise MisusedError(f"These are {len(words)} items, and a check-out has at most {ITEMS}. Ask for a place further up.")
    return [checked(ITEM, word, "item: write r:PLACE to look or w:PLACE to change, as w:/engine") for word in words]
