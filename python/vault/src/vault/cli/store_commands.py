"""The command `vault store`: which store a vault names for its files, and whether its designer follows it."""

from typing import Any, Dict

from vault.cli.output import Output, Told
from vault.cli.words import StoreWords
from vault.client import Client
from vault.errors import MisusedError
from vault.files.text import quoted, shown
from vault.store.address import read_store_address
from vault.store.base import StoreFaultError
from vault.store.checking import check_store
from vault.store.parts import Parts, fields_of
from vault.store.setting import Setting


class DamagedError(StoreFaultError):
    """What a check found, with its fields for --json."""

    def __init__(self, sentence: str, fields: Dict[str, Any]):
        super().__init__(sentence)
        self.fields = fields


def store(client: Client, words: StoreWords, output: Output) -> Told:
    """Does what is asked of the store."""
    setting = Setting(client)
    if words.what == "set":
        return set_store(setting, words.address, output)
    if words.what == "confirm":
        setting.confirm(words.address, words.here)
        way = f", here by {words.here}" if words.here else ""
        return f"You follow {words.address} from now on{way}.", {"store": words.address, "confirmed": words.address, "here": words.here or None}
    if words.what == "check":
        return check(client, words, output)
    return show_store(setting)


def check(client: Client, words: StoreWords, output: Output) -> Told:
    """Checks whether the store has what the versions name."""
    found = check_store(Parts(client, meter=output.meter), words.read)
    for version, reason in found.bad:
        which = f"version {version.number} of {version.place}" if version.number else f"your draft of {version.place}"
        output.notice(f"{which}, {shown(version.card.name if version.card else '')}: {reason} ({version.sha256}).")
    fields = {"versions": found.versions, "files": found.files, "drafts": found.drafts, "read": words.read,
              "bad": [{**fields_of(version), "reason": reason} for version, reason in found.bad]}
    if found.bad:
        drafts = f" and {found.drafts} drafts of yours" if found.drafts else ""
        raise DamagedError(f"Of {found.files} versions of files{drafts} {len(found.bad)} don't have their bytes. Bring these back from the"
                           " store's backup, or put the designer's files again.", fields)
    whole = "with the right hash" if words.read else "of the right size"
    others = found.versions - found.files
    no_files = "1 version is no file" if others == 1 else f"{others} versions are no files"
    drafts = f" and of {found.drafts} drafts of yours" if found.drafts else ""
    return f"Each of {found.files} versions of files{drafts} has its bytes, {whole}; {no_files}.", fields


def set_store(setting: Setting, address: str, output: Output) -> Told:
    """Makes the vault name a store."""
    before = setting.set(address)
    if before and before != address:
        output.notice(f"The vault named {shown(before)} until now. Copy all that is there to {address}, before anybody gets a file.")
    return f"The vault keeps its files at {address} from now on.", {"store": address, "confirmed": address, "before": before or None}


def show_store(setting: Setting) -> Told:
    """Shows what the vault names, and what is confirmed."""
    named = setting.named()
    confirmed, here = setting.client.confirmed_store(named)
    fields = {"store": named or None, "confirmed": confirmed or None, "here": here or None}
    if not named:
        return "The vault names no store, so a part has at most 1,024 bytes. `vault store set ADDRESS` names one.", fields
    if named == confirmed:
        return f"The vault keeps its files at {named}, and you follow it{f', here by {here}' if here else ''}.", fields
    try:
        read_store_address(named)
    except MisusedError as error:
        return f"What the vault names as its store is none. {error} Then say `vault store set` with it.", fields
    other = f"you have confirmed {confirmed}" if confirmed else "you have confirmed none"
    return (f"The vault keeps its files at {named}, and {other}. Ask whoever runs the vault whether that is right; then"
            f" `vault store confirm {quoted(named)}` follows it."), fields
