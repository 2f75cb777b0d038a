"""Whether a store has what a vault's versions name."""

import itertools
from typing import Dict, Iterator, List

from vault.errors import RefusedError
from vault.files.transfer import Nowhere, Own
from vault.store.base import MissingError, Store, WrongBytesError, compare
from vault.store.parts import Parts, Version

AT_ONCE = 512


class Checked:
    """How many versions there are, how many of them have their bytes in the store, how many drafts of this designer have, and which of all these
    are not as they must be."""

    def __init__(self) -> None:
        self.versions = self.files = self.drafts = 0
        self.bad: List["tuple[Version, str]"] = []


def check_store(parts: Parts, read: bool) -> Checked:
    """Checks that the store has the bytes of each version, of the right size, and, if that is asked, of the right hash."""
    store = parts.store()
    if store is None:
        raise RefusedError("The vault names no store. `vault store set ADDRESS` names one.")
    kept, found, seen = {each.sha256: each.size for each in store.all()}, Checked(), {}
    for version in itertools.chain(versions_of(parts), drafts_of(parts)):
        found.versions += version.number > 0
        if version.card is not None:
            found.files += version.number > 0
            found.drafts += version.number == 0
            name = (version.sha256, version.size)
            if name not in seen:
                seen[name] = fault_of(parts, store, version, kept, read)
            if seen[name]:
                found.bad.append((version, seen[name]))
    return found


def versions_of(parts: Parts) -> Iterator[Version]:
    """Each version of each part."""
    _, numbers = parts.client.survey("/")
    named = [(place, number) for place, count in sorted(numbers.items()) for number in range(1, count + 1)]
    for first in range(0, len(named), AT_ONCE):
        wanted = named[first:first + AT_ONCE]
        yield from (Version(place, number, content) for (place, number), content in zip(wanted, parts.client.contents(wanted)))


def drafts_of(parts: Parts) -> Iterator[Version]:
    """Each draft of this designer: nobody else may read others'."""
    for claim in parts.client.held("/"):
        yield from (Version(place, 0, content) for place, content in sorted(parts.client.all_drafts(claim).items()))


def fault_of(parts: Parts, store: Store, version: Version, kept: Dict[str, int], read: bool) -> str:
    """What is wrong with the bytes of a version, if anything is."""
    found = kept.get(version.sha256)
    if found is None:
        # a sweep may have set it aside
        there = store.find(version.sha256)
        if there is None:
            return str(MissingError())
        found = there.size
    try:
        compare(version.sha256, version.size, version.sha256, found)
        if read:
            store.fetch(version.sha256, version.size, Own(Nowhere(), version.place), parts.meter)
    except WrongBytesError as wrong:
        return str(wrong)
    return ""
