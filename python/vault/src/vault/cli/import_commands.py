"""Commands of the program `vault` by which files and folders go into a vault as they are."""

import os
from pathlib import Path
from typing import Any, Dict, List, Sequence, Tuple

from vault.cli.counting import some_of
from vault.cli.output import Output, Told, counted
from vault.cli.words import ImportWords
from vault.client import Client
from vault.errors import MisusedError
from vault.files.text import quoted, shown
from vault.protocol.grammar import DRAFTS
from vault.protocol.words import place_word
from vault.store.card import note_word
from vault.store.parts import Parts, parts_of_program
from vault.working import Working
from vault.working.folder import Folder, find_folder, read_folder
from vault.working.opening import server_of
from vault.working.planning import Plan, too_many_drafts
from vault.working.told import Done

# How many of a kind are named, where not all are asked for.
NAMED = 10


def import_folder(client: Client, words: ImportWords, output: Output) -> Told:
    """Makes places and parts of all in a folder, and checks them in."""
    if words.note is not None:
        note_word(words.note)
    parts = parts_of_program(client, output.meter)
    folder = folder_to_import(parts, place_word(words.place), Path(os.path.abspath(words.folder)))
    working = Working(parts, folder)
    plan = working.plan()
    count, command = plan.drafts + len(working.waiting()), f"vault import {quoted(words.folder)} {words.place}"
    tell_plan(plan, words.all, output)
    if count > DRAFTS and not words.in_parts:
        raise too_many_drafts(folder.path, count, command)
    if not count and not plan.folders:
        left = not_in_vault(plan, Done())
        return (f"Nothing in {words.folder} is left to import{f': {left} can not go in, as was said' if left else ''}.",
                {**plan_fields(plan), "place": folder.place, "files": [], "left": left_fields(plan, Done())})
    output.agree(f"{plan_in_words(plan, count, folder, working)} {'It takes several check-outs. ' if count > DRAFTS else ''}A place stays for good,"
                 f" and {words.folder} is a working folder of {folder.place} from then on, in which what isn't checked out is read-only.", words.yes)
    with locked_anew(folder):
        working.make_above()
        claim, asked = working.check_out()
        working.make_planned(plan, claim)
        done = working.bring_in(claim, words.note, words.in_parts, asked, command) if working.waiting() else Done()
        if not done.claims and asked == [f"w:{folder.place}"]:
            client.abandon(claim)
    return imported(plan, done, folder, words, output)


def imported(plan: Plan, done: Done, folder: Folder, words: ImportWords, output: Output) -> Told:
    """What came of an import."""
    tell_some(done.left, words.all, output)
    parts = f" It isn't one change: it took {len(done.claims)} check-outs." if len(done.claims) > 1 else ""
    said = done.checked_in() if done.claims else "No file was left to put."
    left = not_in_vault(plan, done)
    return (f"{folder.place} has what is in {words.folder}{f', but for {left}' if left else ''}. {said}{parts}",
            {**plan_fields(plan), "place": folder.place, "files": done.files, "claims": done.claims, "versions": done.versions,
             "left": left_fields(plan, done)})


def not_in_vault(plan: Plan, done: Done) -> str:
    """How much of a folder isn't in the vault, in words; nothing if all is."""
    left = len(done.left) + len(plan.left) + len(plan.too_much)
    return counted(left, "file or folder", "files and folders") if left else ""


def left_fields(plan: Plan, done: Done) -> List[Dict[str, str]]:
    """The same for --json, each with the reason."""
    return [{"file": name, "reason": reason} for name, reason in plan.left + plan.too_much + done.left]


def folder_to_import(parts: Parts, place: str, path: Path) -> Folder:
    """The folder that is imported into a place: a working folder of it, or one that becomes that."""
    if not path.is_dir():
        raise MisusedError(f"{path} is no folder. `vault import FOLDER PLACE` takes in all that is in one.")
    folder = read_folder(path)
    if folder is not None and folder.place != place:
        raise MisusedError(f"{path} is a working folder of {folder.place}. `vault add` makes parts of what is new in it.")
    outer = next((above for above in path.parents if read_folder(above) is not None), None)
    if folder is None and outer is not None:
        raise MisusedError(f"{path} stands in the working folder {outer}. `vault add {quoted(str(path))}` makes an assembly of it.")
    return folder or Folder(path, place, server_of(parts.client))


def locked_anew(folder: Folder) -> Any:
    """Keeps other clients away from a folder, which may be about to become a working folder."""
    try:
        (folder.path / ".vault").mkdir(exist_ok=True)
    except OSError as error:
        raise MisusedError(f"{folder.path} can't be written: {error.strerror}. It remembers in {folder.path}/.vault how far it is: copy it to where"
                           " you may write, and import that.") from error
    return folder.locked()


def add_folders(client: Client, folders: Sequence[str], yes: bool, every: bool, output: Output) -> Dict[str, str]:
    """Makes assemblies of folders in working folders, and parts of the files in them. Answers the places by path."""
    made: Dict[str, str] = {}
    for word in folders:
        path = Path(os.path.abspath(word))
        folder = find_folder(path.parent)
        with folder.locked():
            working = Working(Parts(client), folder)
            name = path.relative_to(folder.path).as_posix()
            plan = working.plan([name])
            tell_plan(plan, every, output)
            if plan.folders or plan.files:
                output.agree(f"{plan_in_words(plan, plan.drafts, folder, working)} A place stays for good.", yes, "No folder was added")
                working.make_planned(plan, working.covering(folder.place))
            made.update({os.path.join(word, os.path.relpath(folder.path / each, path)): place for each, place in plan.files.items()})
            made.update({os.path.normpath(os.path.join(word, os.path.relpath(folder.path / each, path))): making.place
                         for each, making in plan.folders.items()})
    return made


def plan_in_words(plan: Plan, drafts: int, folder: Folder, working: Working) -> str:
    """What a plan makes, in words."""
    projects = sum(each.place.count("/") == 1 for each in plan.folders.values())
    missing = len(working.missing_above(folder.place))
    said = [counted(projects, "project")] if projects else []
    said += [counted(len(plan.folders) - projects, "assembly", "assemblies"), counted(len(plan.files), "part")]
    above = f", and {counted(missing, 'place')} that isn't there yet" if missing == 1 else f", and {missing} places that aren't there yet"
    waits = drafts - plan.drafts
    more = f" {counted(waits, 'file')} of an earlier try {'is' if waits == 1 else 'are'} still to be put." if waits > 0 else ""
    return (f"{folder.path} makes {', '.join(said[:-1])} and {said[-1]} of {sum(plan.sizes.values()):,} bytes in {folder.place}"
            f"{above if missing else ''}.{more}")


def tell_plan(plan: Plan, every: bool, output: Output) -> None:
    """Says what is left out and why, what the vault can't hold, and what may get another name."""
    if plan.ignored:
        some = plan.ignored if every else plan.ignored[:NAMED]
        more = f" and {len(plan.ignored) - len(some)} more (`--all` names them)" if len(plan.ignored) > len(some) else ""
        output.notice(f"Left out by .vaultignore, or as what programs leave: {', '.join(map(shown, some))}{more}.")
    tell_some(plan.left, every, output)
    tell_some(plan.too_much, every, output)
    tell_some([(name, f"differs from {shown(other)} only in capitals: where a disk doesn't tell these apart, as on Windows, the second one gets"
                      " another name") for name, other in plan.alike], every, output)


def tell_some(left: Sequence[Tuple[str, str]], every: bool, output: Output) -> None:
    """Says why files were left: each, or of many for one reason some, and how many more there are."""
    for line in some_of([(shown(name), f"{reason}.") for name, reason in left], every):
        output.notice(line)


def plan_fields(plan: Plan) -> Dict[str, Any]:
    """A plan for --json."""
    return {"made": {**{name: each.place for name, each in plan.folders.items()}, **plan.files}, "ignored": plan.ignored,
            "alike": [list(each) for each in plan.alike]}
