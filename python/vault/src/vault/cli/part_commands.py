"""Commands of the program `vault` for files: they are put, got and listed, and copies of drafts are written."""

import contextlib
import os
import shutil
import sys
import tempfile
from pathlib import Path
from typing import List

from vault.cli.folder_commands import get_folder, put_folder
from vault.cli.output import Output, Told
from vault.cli.vaults import in_folder
from vault.cli.words import DraftsWords, DraftWords, GetWords, PlaceWords, PutWords, WriteWords
from vault.client import Client
from vault.errors import MisusedError, RefusedError, VaultError
from vault.files.names import choose_name, usable, why_not
from vault.files.text import shown
from vault.store.naming import name_place, names_of
from vault.store.parts import Parts, Put, Version, fields_of, parts_of_program

SHOWN_BYTES = 1 << 20


def put(client: Client, words: PutWords, output: Output) -> Told:
    """Puts a file as the draft of a part."""
    if words.file is None:
        return put_folder(client, words, output)
    done = parts_of_program(client, output.meter).put(words.place, Path(words.file), words.claim, name=words.name)
    if done.name and not usable(done.name):
        output.notice(f"The name {shown(done.name)} {why_not(done.name)}: whoever gets the assembly has the part's own name instead. Put it again"
                      " with `--name NAME`.")
    rename_here(client, words.place, Path(words.file), done)
    return (f"{done.size:,} bytes are a draft of {words.place} in {done.claim}. `vault checkin {done.claim}` makes it a version"
            f"{others_see(words, done)}.", {"claim": done.claim, "place": words.place, "bytes": done.size, "sha256": done.sha256,
                                            "name": done.name or None})


def others_see(words: PutWords, done: Put) -> str:
    """What others have of a draft that was put, once it is a version."""
    if not done.name:
        return ""
    kept = "" if words.name or done.name == Path(words.file or "").name else ": the part keeps its name, and `--name` gives it another"
    return f", which others get as {shown(done.name)}{kept}"


def rename_here(client: Client, place: str, file: Path, done: Put) -> None:
    """Has a working folder know a part's file by its new name, if the one that was put stands there under the name that the part has now, and the
    one that it had is missing."""
    path = Path(os.path.abspath(file))
    if path.name != done.name or in_folder(path.parent) is None:
        return
    from vault.working.folder import find_folder
    from vault.working.putting import Putting
    with contextlib.suppress(VaultError, OSError):
        folder = find_folder(path.parent)
        with folder.locked():
            Putting(Parts(client), folder).renamed(place, path.relative_to(folder.path).as_posix(), done.sha256, done.claim)


def get(client: Client, words: GetWords, output: Output) -> Told:
    """Writes a version to standard output, or into a new file."""
    parts = parts_of_program(client, output.meter)
    if words.version is None and client.is_assembly(words.place):
        return get_folder(parts, words, words.to or folder_name(client, words.place), output)
    if words.keep_days is not None or words.writable:
        raise MisusedError("`--keep-days` and `--writable` are of a working folder: name an assembly and its folder, `vault get PLACE --to FOLDER`.")
    return write(parts, parts.get(words.place, words.version), words, output)


def folder_name(client: Client, place: str) -> str:
    """The folder in the current one into which an assembly is got where none is named: by its real name."""
    own = place.rpartition("/")[2]
    return choose_name(names_of(client, [name_place(place)]).get(place, own), own, ()) if own else "library"


def draft(client: Client, words: DraftWords, output: Output) -> Told:
    """Writes a draft to standard output, or into a new file."""
    parts = parts_of_program(client, output.meter)
    sentence, fields = write(parts, Version(words.place, 0, client.draft(words.claim, words.place)), words, output)
    del fields["version"]
    return sentence, {"claim": words.claim, **fields}


def write(parts: Parts, version: Version, words: WriteWords, output: Output) -> Told:
    """Writes a version or a draft to standard output, or into a new file."""
    fields = fields_of(version)
    if words.to:
        parts.write_new(version, Path(words.to))
        return f"{fields['bytes']:,} bytes are in {words.to}.", {**fields, "file": words.to}
    with tempfile.TemporaryFile() as file:
        parts.write(version, file, f"Standard output, by way of {tempfile.gettempdir()},")
        file.seek(0)
        if not output.as_json:
            shutil.copyfileobj(file, sys.stdout.buffer)
            sys.stdout.buffer.flush()
            return "", fields
        if fields["bytes"] > SHOWN_BYTES:
            raise MisusedError(f"{words.place} has {fields['bytes']:,} bytes, too many for one line of JSON. Add `--to FILE`.")
        return "", {**fields, "content": file.read().hex()}


def history(client: Client, words: PlaceWords, output: Output) -> Told:
    """Lists the versions of a part, of many the latest."""
    versions = list(parts_of_program(client, output.meter).history(words.place))
    found = [fields_of(version) for version in versions]
    from vault.cli.counting import first_rows
    latest, left = first_rows(versions[::-1], words.all)
    rows = [history_row(version) for version in reversed(latest)]
    earlier = f"{left:,} earlier versions are there: `--all` lists them." if left else ""
    if not rows:
        sentence = f"{words.place} has no version yet."
    elif output.tables and any(version.card for version in versions):
        output.table(("version", "bytes", "sha256", "name", "by", "at", "note"), rows)
        sentence = earlier
    else:
        sentence = "\n".join(filter(None, [earlier, *map(history_line, rows)]))
    return sentence, {"place": words.place, "versions": found}


def history_row(version: Version) -> List[str]:
    """A version in columns."""
    card, row = version.card, [str(version.number), f"{version.size:,}", version.sha256[:12]]
    if card is None:
        return row + ["", "", "", ""]
    return row + [shown(card.name), card.by, card.at.replace("T", " ").replace("Z", " UTC"), shown(card.note)]


def history_line(row: List[str]) -> str:
    """A version in words."""
    number, size, sha256, name, by, at, note = row
    about = f", {name}, {by}, {at}" if name else ""
    return f"version {number}: {size} bytes, sha256 {sha256}{about}" + (f": {note}" if note else "")


def drafts(client: Client, words: DraftsWords, output: Output) -> Told:
    """Shows of which parts a check-out has drafts, or writes the copies that are kept here into files."""
    if words.folder is None:
        places = client.drafts(words.claim)
        return "\n".join(places or [f"{words.claim} has no drafts."]), {"claim": words.claim, "drafts": places}
    parts = parts_of_program(client, output.meter)
    kept = parts.kept_drafts(words.claim)
    if not kept:
        raise RefusedError(f"No copy of a draft is kept here for {words.claim}. `vault drafts {words.claim}` shows of which parts the server has"
                           f" drafts, and `vault draft {words.claim} PLACE --to FILE` writes one.")
    folder = Path(words.folder)
    folder.mkdir(parents=True, exist_ok=True)
    written = []
    for draft in kept:
        path = folder / draft.place.strip("/").replace("/", ".")
        parts.write_new(draft, path)
        written.append(str(path))
    return "\n".join(written), {"claim": words.claim, "files": written}
