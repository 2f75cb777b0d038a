"""Commands of the program `vault` for working folders."""

import os
from pathlib import Path
from typing import TYPE_CHECKING, Any, Dict, List, Tuple

from vault.cli.counting import some_of
from vault.cli.output import Output, Told
from vault.cli.words import AddWords, BeforeWords, CheckinWords, GetWords, PutWords, StatusWords
from vault.client import Client
from vault.errors import MisusedError, UnreachableError, VaultError
from vault.files.ignoring import ignored_in
from vault.files.names import usable, why_not
from vault.files.text import quoted, shown
from vault.store.parts import Parts, parts_of_program
from vault.working.adding import Adding
from vault.working.before import Before, bring_back
from vault.working.folder import Folder, find_folder, read_folder
from vault.working.found import State
from vault.working.modes import settle_folders
from vault.working.opening import folder_for

if TYPE_CHECKING:
    from vault.working.renamed import Renamed
    from vault.working.told import Done

# What is to be known before a place is made.
STAYS = "A place stays for good: no command removes one."


def get_folder(parts: Parts, words: GetWords, to: str, output: Output) -> Told:
    """Brings a working folder up to the vault."""
    from vault.working.getting import Getting
    place, folder = words.place, folder_for(parts, words.place, Path(to))
    with folder.locked():
        folder.keep_days, folder.writable = words.keep_days or folder.keep_days, words.writable or folder.writable
        done = Getting(parts, folder).get()
        count = len(folder.files)
    tell_left(done, words.all, output)
    tell_saved_aside(folder, to, done.saved_aside, output)
    fetched = f"{len(done.files)} of {count} files were fetched" if done.files else "nothing was fetched"
    fields = {"place": place, "folder": to, **fields_of(done), "all": count}
    if done.failed:
        failed = "1 file" if done.failed == 1 else f"{done.failed} files"
        error = VaultError(f"{failed} of {place} could not be fetched, each for a reason of its own; of the others {fetched}. See to these"
                           " reasons, and get again.")
        error.fields = fields
        raise error
    return f"{to} has {place}: {fetched}.", fields


def whole_folder(word: str) -> Folder:
    """The working folder of this name. What puts all its files isn't done where a folder in it is named."""
    folder = find_folder(Path(word))
    if folder.path != Path(os.path.abspath(word)):
        raise MisusedError(f"{word} stands in the working folder {folder.path}, of which all changed files would be put. Name that folder, or"
                           " `vault put PLACE FILE` puts one file.")
    return folder


def put_folder(client: Client, words: PutWords, output: Output) -> Told:
    """Puts the changed files of a working folder."""
    if not os.path.isdir(words.place):
        raise MisusedError(f"{words.place} is no folder, so nothing was put. `vault put PLACE FILE` puts one file as the draft of a part, and"
                           " `vault put FOLDER` the changed files of a working folder.")
    from vault.working.putting import Putting
    folder = whole_folder(words.place)
    with folder.locked():
        done = Putting(parts_of_program(client, output.meter), folder).put(words.claim)
    tell_left(done, words.all, output)
    put_already = set(done.drafts)
    lines = some_of([(shown(name), f"is a draft of {folder.files[name].place} in {folder.files[name].claim}"
                                   f"{' already' if name in put_already else ''}.") for name in sorted(done.files + done.drafts)], words.all)
    if done.failed:
        failed = "1 file" if done.failed == 1 else f"{done.failed} files"
        error = VaultError(" ".join([*lines, f"{failed} of {words.place} could not be put, each for a reason of its own. See to these reasons, and"
                                     " put again."]))
        error.fields = fields_of(done)
        raise error
    return "\n".join(lines or ["Nothing was put."]), fields_of(done)


def checkin_folder(client: Client, words: CheckinWords, output: Output) -> Told:
    """Puts the changed files of a working folder, and checks them in."""
    from vault.working.putting import Putting
    folder = whole_folder(words.claim)
    with folder.locked():
        done = Putting(parts_of_program(client, output.meter), folder).checkin(words.note, in_parts=words.in_parts)
    settle_folders(client, client.folders())
    tell_left(done, words.all, output)
    parts = f" It isn't one change: it took {len(done.claims)} check-outs." if words.in_parts and len(done.claims) > 1 else ""
    return done.checked_in() + parts, {**fields_of(done), "claims": done.claims, "versions": done.versions}


def status(client: Client, words: StatusWords, output: Output) -> Told:
    """Shows how the files of a working folder stand, or of a part of it."""
    from vault.working.renamed import Renamed
    from vault.working.scope import scope_of
    folder = find_folder(Path(words.folder))
    with folder.locked():
        scope = scope_of(folder, words.folder)
        working, others = Adding(Parts(client), folder), [name for name in not_ignored(folder) if scope.has(name)]
        look = working.look()
        files, new = [state for state in look.files if scope.has(state.file)], {each: look.new[each] for each in look.new if scope.has_place(each)}
        saved_aside = [each for each in look.saved_aside if scope.has_place(each.place)]
        lines = [(f"{shown(state.file)}:", f"{said}.") for state in files if (said := state_in_words(state, folder, words.folder))]
        lines += [(f"{place}:", f"version {number} is in the vault, and isn't here; `vault get {folder.place} --to"
                                f" {path_in_words(folder, words.folder, '')}` fetches it.") for place, number in new.items()]
        lines += [(f"{shown(name)}:", f"missing here. It is the folder of {folder.folders[name]}: if you renamed it, give it this name again.")
                  for name in folder.missing_folders() if scope.has(name)]
        renamed = Renamed(folder)
        lines += [other_in_words(working, renamed, words.folder, name) for name in others]
        told = some_of(lines, words.all) + [saved_aside_in_words(folder, words.folder, each) for each in saved_aside]
    fields = {"place": scope.place or folder.place, "files": [state._asdict() for state in files], "others": others,
              "saved_aside": [each.fields() for each in saved_aside],
              "new": [{"place": place, "version": number} for place, number in new.items()],
              "renamed": {name: before for name in others if name[-1] != "/" and (before := renamed.renamed(name))}}
    return "\n".join(told or [f"Nothing is changed in {words.folder}, and nothing is newer in the vault."]), fields


def not_ignored(folder: Folder) -> List[str]:
    """What is in a working folder and not in the vault, but for what is ignored."""
    others = folder.others()
    ignored = ignored_in(folder.path) if others else None
    return [name for name in others if ignored is not None and not ignored(name)]


def other_in_words(working: Adding, renamed: "Renamed", word: str, name: str) -> Tuple[str, str]:
    """What becomes of a file that belongs to no part, or of a folder of no assembly, for whoever named the working folder, or a folder in it,
    by a word: its name, and what is said of it."""
    folder = working.folder
    if name.endswith("/") and not os.path.islink(folder.path / name[:-1]):
        return shown(name), f"{working.advice_on(name[:-1], path_in_words(folder, word, name[:-1]))}."
    if not name.endswith("/") and not usable(name.rpartition("/")[2]):
        why = why_not(name.rpartition("/")[2])
        return f"{shown(name)}:", f"not in the vault. No part's file can have this name on every system: it {why}. Rename it."
    if name.endswith("/") or not folder.may_be_part(name):
        return f"{shown(name)}:", "not in the vault. Parts are made of files in the folders of assemblies, and not of links."
    if was := renamed.in_words(name, path_in_words(folder, word, name)):
        return shown(name), f"{was}."
    return f"{shown(name)}:", f"not in the vault; `vault add {path_in_words(folder, word, name)}` makes a part of it."


def path_in_words(folder: Folder, word: str, name: str) -> str:
    """The path of a file, or of the working folder itself, for whoever named that folder, or a folder in it, by a word."""
    return quoted(shown(os.path.normpath(os.path.join(word, os.path.relpath(folder.path / name, word)))))


def state_in_words(state: State, folder: Folder, word: str) -> str:
    """How a file stands, if there is something to say."""
    said: List[str] = []
    if state.missing:
        said.append("missing here")
    if state.fault:
        said.append(f"can't be read: {state.fault}")
    elif state.draft or state.changed:
        said.append("put" if state.draft else "changed here" if state.version else "new")
    if state.gone:
        again = "" if state.missing else f"; `vault add {path_in_words(folder, word, state.file)}` makes {state.place} again"
        said.append("its part isn't in the vault any more" + again)
    elif state.version and not state.newest:
        said.append(f"the vault has no version of it any more, and this was version {state.version}")
    elif state.newest != state.version:
        said.append(f"version {state.newest} is in the vault, and this was version {state.version}")
    if state.claim:
        said.append(f"checked out by you in {state.claim}")
    if state.others:
        said.append("checked out by " + " and ".join(state.others))
    if state.other_draft:
        said.append(f"{'its' if state.missing else 'another'} draft is in {state.other_draft}; `vault draft {state.other_draft} {state.place} --to"
                    " OTHER-FILE` writes that")
    return ", ".join(said)


def before(client: Client, words: BeforeWords, _output: Output) -> Told:
    """Shows the files that gave way in a working folder and are kept, or brings one back as a new file."""
    folder = find_folder(Path(words.folder))
    with folder.locked():
        kept = folder.kept_before()
        if words.which is None or words.to is None:
            lines = [f"{each.stamp}: {before_in_words(folder, each)}." for each in kept]
            return ("\n".join(lines or [f"No file that gave way is kept in {words.folder}."]),
                    {"folder": words.folder, "keep_days": folder.keep_days, "before": [each.fields() for each in kept]})
        found = [each for each in kept if each.stamp == words.which]
        if not found:
            raise MisusedError(f"No file of {words.which} is kept in {words.folder}. `vault before"
                               f" {path_in_words(folder, words.folder, '')}` shows those that there are.")
        fields = found[0].fields()
        bring_back(found[0], Path(os.path.abspath(words.to)))
        return f"{words.to} is the file of {found[0].place} that was made of version {found[0].version}.", {**fields, "file": words.to}


def before_in_words(folder: Folder, each: Before) -> str:
    """A file that gave way, in words."""
    name = next((name for name, entry in folder.files.items() if entry.place == each.place), "")
    since = ", saved since by a program that had it open" if each.saved_since else ""
    version = f"version {each.version}" if each.version else "of a get that was ended"
    return f"{each.place}{', ' + shown(name) if name else ''}, {version}, {os.lstat(each.path).st_size:,} bytes{since}"


def saved_aside_in_words(folder: Folder, word: str, each: Before) -> str:
    """What a program saved into a file that had given way, in words."""
    return (f"{before_in_words(folder, each)}: `vault before {path_in_words(folder, word, '')} {each.stamp} --to OTHER-FILE` brings that save back")


def tell_saved_aside(folder: Folder, word: str, found: List[Before], output: Output) -> None:
    """Says what programs saved into files that had given way."""
    for each in found:
        output.notice(saved_aside_in_words(folder, word, each) + ".")


def add(client: Client, words: AddWords, output: Output) -> Told:
    """Makes parts of files in a working folder, and assemblies of folders. What has a place is passed over; what can't be added is told, and the
    others are added all the same."""
    from vault.cli.import_commands import add_folders
    made: Dict[str, str] = {}
    left: List[Tuple[str, str]] = []
    refused: List[VaultError] = []
    folders = [file for file in words.files if os.path.isdir(file) and not os.path.islink(file)]
    for file in words.files:
        try:
            place, passed = ("", "") if file in folders and not is_known(file) else add_one(client, Path(os.path.abspath(file)))
        except UnreachableError:
            raise
        except VaultError as error:
            refused.append(error)
            continue
        if place:
            made[file] = place
        elif passed:
            left.append((shown(file), f"{passed}."))
    for line in some_of(left, words.all):
        output.notice(line)
    try:
        made.update(add_folders(client, [file for file in folders if not is_known(file)], words.yes, words.all, output))
    except VaultError as error:
        refused.insert(0, error)
    if refused:
        raise not_added(refused, made, words.all, output)
    return "\n".join([*added(made, words.all), STAYS] if made else ["Nothing was added."]), {"made": made}


def is_known(word: str) -> bool:
    """Whether a folder has a place already, or is the working folder itself."""
    path = Path(os.path.abspath(word))
    return read_folder(path) is not None or path.relative_to((folder := find_folder(path.parent)).path).as_posix() in folder.folders


def not_added(refused: List[VaultError], made: Dict[str, str], every: bool, output: Output) -> VaultError:
    """Why something wasn't added, with what was."""
    for line in some_of([("", str(other)) for other in refused[1:]], every):
        output.notice(line.strip())
    refused[0].fields["made"] = made
    if made:
        refused[0].put_behind(" ".join(added(made, every)))
    return refused[0]


def add_one(client: Client, path: Path) -> Tuple[str, str]:
    """The place that was made of a file, or else why it is passed over."""
    folder = find_folder(path.parent)
    with folder.locked():
        name, working = path.relative_to(folder.path).as_posix(), Adding(Parts(client), folder)
        if name in folder.folders:
            return "", f"is {folder.folders[name]} already"
        tracked = folder.tracked(name, folder.alike())
        if not tracked:
            return working.add(name), ""
        place = folder.files[tracked].place
        return (place, "") if working.made_again(tracked) else ("", f"is {place} already")


def added(made: Dict[str, str], every: bool) -> List[str]:
    """Of which files parts were made, in words."""
    return some_of([(shown(file), f"is {place}.") for file, place in made.items()], every)


def tell_left(done: "Done", every: bool, output: Output) -> None:
    """Says which files were left, and why, and what else is to be known of some."""
    for line in some_of([(shown(name), f"{reason}.") for name, reason in done.left + done.told], every):
        output.notice(line)


def fields_of(done: "Done") -> Dict[str, Any]:
    """What was done, for --json."""
    return {"files": done.files, "drafts": done.drafts, "left": [{"file": name, "reason": reason} for name, reason in done.left]}


def is_folder(word: str) -> bool:
    """Whether a word names a folder and no check-out."""
    if os.path.isdir(word):
        return True
    if os.sep in word:
        raise MisusedError(f"There is no folder {word}.")
    return False
