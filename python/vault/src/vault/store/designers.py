"""Which designers a vault knows, as far as it shows that."""

from typing import Set

from vault.client import Client
from vault.store.card import read_card


def has_been_there(client: Client, name: str) -> bool:
    """Whether a designer by a name has, or had, a claim that this client heard of, or put the last version of a part."""
    return name in client.owners() or name in authors(client)


def authors(client: Client) -> Set[str]:
    """The designers whose names the cards of parts' last versions have."""
    wanted = [(place, number) for place, number in client.survey("/")[1].items() if number]
    cards = (read_card(content) for content in client.contents(wanted))
    return {card.by for card in cards if card is not None}
