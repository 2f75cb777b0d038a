"""The real names of projects and assemblies. A place's name has few letters; what a designer calls the folder stands in a part of the vault's own
beneath it, which no listing of this client shows as a part:

    vault name 1
    name Gehäuse (Guss)

A project has no parts right beneath it, so its name stands in an assembly of its own. Anybody can write such a part, so the name in it is only
taken where a folder can have it.
"""

import re
from typing import Dict, List, NamedTuple, Sequence

from vault.client import Client
from vault.errors import MisusedError
from vault.files.names import OWN_NAME, usable
from vault.protocol.grammar import NAMES
from vault.store.card import NAME_BYTES, is_text, read_card

FORM = re.compile(r"vault name 1\nname (?P<name>[^\n]+)\n")
OF_PROJECT = f"/{OWN_NAME}/{OWN_NAME}"


class Surveyed(NamedTuple):
    """What stands from a place on: the projects and assemblies, the parts with the number of their versions, and the real names of the former, as
    far as they have others than their places."""

    assemblies: List[str]
    numbers: Dict[str, int]
    names: Dict[str, str]


def name_place(place: str) -> str:
    """Where the real name of a project or an assembly stands."""
    return place + (OF_PROJECT if place.count("/") == 1 else f"/{OWN_NAME}")


def named_by(place: str) -> str:
    """The project or the assembly whose real name stands at a place, or nothing."""
    if place.endswith(OF_PROJECT) and place.count("/") == OF_PROJECT.count("/") + 1:
        return place[:-len(OF_PROJECT)]
    above, _, own = place.rpartition("/")
    return above if own == OWN_NAME and above.count("/") > 1 and not above.endswith(f"/{OWN_NAME}") else ""


def is_of_names(place: str) -> bool:
    """Whether a place is there for a name alone: a part that has one, or the assembly in which that of a project stands."""
    return bool(named_by(place)) or (place.count("/") == OF_PROJECT.count("/") and place.endswith(f"/{OWN_NAME}"))


def can_be_named(place: str) -> bool:
    """Whether a place can have a real name: it is a project or an assembly."""
    return 0 < place.count("/") < NAMES and place != "/" and not place.endswith(f"/{OWN_NAME}")


def spell_name(name: str) -> bytes:
    """The content of a part that keeps a name."""
    if not usable(name) or not is_text(name, NAME_BYTES):
        raise MisusedError(f"No folder can be called {name!a} on every system. Rename it.")
    return f"vault name 1\nname {name}\n".encode("utf-8")


def read_name(content: bytes) -> str:
    """The name in a content, or nothing if it isn't exactly one that a folder can have."""
    try:
        found = FORM.fullmatch(content.decode("utf-8"))
    except UnicodeDecodeError:
        return ""
    return found["name"] if found is not None and is_text(found["name"], NAME_BYTES) and usable(found["name"]) else ""


def names_of(client: Client, places: Sequence[str]) -> Dict[str, str]:
    """The real names of some places, as far as they have others than their places: of projects and assemblies, where what keeps their names is
    among the places, and of parts what the card of the last version says."""
    wanted = [(place, number) for place, number in client.numbers(places).items() if number]
    names: Dict[str, str] = {}
    for (place, _), content in zip(wanted, client.contents(wanted)):
        above, card = named_by(place), read_card(content)
        if above and (name := read_name(content)):
            names[above] = name
        elif card is not None and card.name != place.rpartition("/")[2]:
            names[place] = card.name
    return names


def keeps_name(place: str, names: Dict[str, str]) -> bool:
    """Whether a place is there for a name alone, by the names that there are."""
    return is_of_names(place) and (named_by(place) or place.rpartition("/")[0]) in names


def survey(client: Client, place: str) -> Surveyed:
    """What stands from a place on, with the real names. A part where a name is to stand, with anything else in it, is a part like any other."""
    assemblies, numbers = client.survey(place)
    keeping = {each: number for each, number in numbers.items() if named_by(each)}
    wanted = [(each, number) for each, number in keeping.items() if number]
    names = {named_by(each): name for (each, _), content in zip(wanted, client.contents(wanted)) if (name := read_name(content))}
    kept = {each for each, number in keeping.items() if not number or named_by(each) in names}
    bare = {each.rpartition("/")[0] for each in kept if is_of_names(each.rpartition("/")[0])}
    return Surveyed([each for each in assemblies if each not in bare], {each: number for each, number in numbers.items() if each not in kept}, names)
