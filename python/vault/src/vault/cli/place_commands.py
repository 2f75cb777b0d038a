"""Commands of the program `vault` that name a place: who the designer is, what there is, and what is made."""

from collections import Counter
from typing import Sequence

from vault.cli.output import Output, Told, counted
from vault.cli.session import last_designer, remember_designer
from vault.cli.vaults import remember_vault, vaults_in_words
from vault.cli.words import HelloWords, MakeWords, NoWords, PlaceWords
from vault.client import Client
from vault.files.text import shown
from vault.protocol.address import address_word
from vault.protocol.grammar import NAMES
from vault.store.naming import keeps_name, names_of


def hello(client: Client, words: HelloWords, _output: Output) -> Told:
    """Remembers the designer and the server, once it answers."""
    client.hello()
    remember_designer(words.who)
    name = remember_vault(words.name, words.who)
    servers, answers = [address_word(*server) for server in client.servers], address_word(*client.link.server)
    which = "" if len(servers) == 1 else f" {answers} answers."
    return (f"You are {client.designer} at {' and '.join(servers)}.{which}",
            {"designer": client.designer, "servers": servers, "answers": answers, "vault": name})


def vaults(_client: Client, _words: NoWords, _output: Output) -> Told:
    """Lists the vaults that this account knows."""
    sentence, fields = vaults_in_words(last_designer() or "")
    return sentence, {"vaults": fields}


def make(client: Client, words: MakeWords, _output: Output) -> Told:
    """Makes a place."""
    client.make(words.place, words.claim)
    return f"{words.place} is there.", {"place": words.place}


def nest(client: Client, words: MakeWords, _output: Output) -> Told:
    """Makes an assembly inside an assembly."""
    client.nest(words.place, words.claim)
    return f"{words.place} is there.", {"place": words.place}


def tree(client: Client, words: PlaceWords, _output: Output) -> Told:
    """Shows the places beneath one, with the real names of what they are of; of many only the upper ones, each with how many are beneath it."""
    every = list(client.tree(words.place))
    names = names_of(client, every)
    places = [place for place in every if not keeps_name(place, names)]
    top = words.place.rstrip("/").count("/")
    deepest = NAMES if words.all else shown_depth(places)
    beneath = Counter("/".join(place.split("/")[:deepest + 1]) for place in places if place.count("/") > deepest)
    lines = ["  " * (place.count("/") - top) + place.rpartition("/")[2] + named(names.get(place, "")) + told_beneath(beneath[place])
             for place in places if place.count("/") <= deepest]
    more = [f"{counted(len(places), 'place')} in all: `--all` lists them."] if beneath else []
    return "\n".join([words.place, *lines, *more]), {"place": words.place, "places": places, "names": names}


def shown_depth(places: Sequence[str]) -> int:
    """How many names the deepest places have that are shown: of many places as many as are few, and at least the uppermost."""
    from vault.cli.counting import MOST
    depths = Counter(place.count("/") for place in places)
    found = min(depths, default=NAMES)
    while found < NAMES and sum(depths[each] for each in range(found + 2)) <= MOST:
        found += 1
    return found


def told_beneath(count: int) -> str:
    """How many places stand beneath one that aren't shown."""
    return f"  ({counted(count, 'place')} beneath)" if count else ""


def named(name: str) -> str:
    """A real name behind a place."""
    return f"  {shown(name)}" if name else ""
