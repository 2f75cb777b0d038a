"""What is told of a working folder: what was done with its files, and why some were left."""

import contextlib
from typing import Dict, Iterable, Iterator, List, Optional, Sequence, Tuple

from vault.errors import VaultError
from vault.files.text import quoted, shown
from vault.working.before import Before
from vault.working.folder import Folder
from vault.working.found import Saved, State

REASONS = 3
NOT_COVERED = "no held check-out of yours takes it in"
# How many files are named in one sentence.
NAMED = 10


class Done:
    """What was done: the files, those that were drafts already, and those that were left, each with the reason; how many of these have
    bytes that are bad, or can't be read or written, and what else is to be known of a file; by check-out, one of these of which it has
    another draft, and one that can't be read; the check-outs that were checked in, and how many versions that made; what was moved aside
    and saved since; the places whose real names were put, each with the check-out; and whether there is more to put than the check-outs
    take."""

    def __init__(self) -> None:
        self.files: List[str] = []
        self.drafts: List[str] = []
        self.left: List[Tuple[str, str]] = []
        self.told: List[Tuple[str, str]] = []
        self.others: Dict[str, Tuple[str, str]] = {}
        self.unread: Dict[str, Tuple[str, str]] = {}
        self.claims: List[str] = []
        self.saved_aside: List[Before] = []
        self.named: Dict[str, str] = {}
        self.failed = self.versions = 0
        self.more = False

    @contextlib.contextmanager
    def told_with_errors(self) -> Iterator[None]:
        """Has an error say first what was checked in before."""
        try:
            yield
        except VaultError as error:
            error.put_behind(self.checked_in())
            error.fields["claims"] = self.claims + error.fields.get("claims", [])
            error.fields["versions"] = self.versions + error.fields.get("versions", 0)
            raise

    def checked_in(self) -> str:
        """What was checked in, in words."""
        made = f"{self.versions} new version{'' if self.versions == 1 else 's'}"
        return f"{' and '.join(self.claims)} {'is' if len(self.claims) == 1 else 'are'} checked in: {made}."


def in_words(left: Iterable[Tuple[str, str]]) -> str:
    """Why files were left."""
    return " ".join(f"{shown(name)} {reason}." for name, reason in left)


def reason_against(state: State, fitting: List[str], there: Optional[Saved], put_before: bool,
                   folder: Folder) -> str:
    """Why a file isn't put, if there is a reason."""
    if state.fault:
        return f"can't be read: {state.fault}"
    over = f"--to OTHER-FILE`; `vault put {state.place} FILE` puts yours over it"
    look = f"look at that first, by `vault get {state.place} {over}"
    if there is not None and state.missing:
        return f"is missing here, and its draft is in {there.claim}: `vault draft {there.claim} {state.place} --to FILE` writes that"
    if state.gone:
        return (f"has no part any more, since the vault came back from a backup: `vault add {quoted(str(folder.at(state.file)))}` makes"
                f" {state.place} again")
    if state.version and not state.newest:
        return (f"was made of version {state.version}, and the vault, which came back from a backup, has none: `vault put {state.place} FILE`"
                " puts yours")
    if state.newest != state.version:
        return f"was made of version {state.version}, and version {state.newest} is in the vault: {look}"
    if not fitting and state.claim:
        return f"{state.claim} takes it in, and not the check-out that `--claim` names"
    if not fitting:
        return f"{NOT_COVERED}: `vault checkout w:{state.place}` asks for one"
    if len(fitting) > 1:
        return f"{' and '.join(fitting)} take it in: name one with `--claim`"
    entry = folder.files[state.file]
    again = there is not None and not entry.draft and entry.claim == there.claim
    if there is not None and not put_before and (again or not there.from_here):
        return (f"has another draft in {there.claim}, which was put {'before this file was got again' if again else 'elsewhere'}: look at that"
                f" first, by `vault draft {there.claim} {state.place} {over}")
    return ""


def another(state: State) -> str:
    """Says that the version that a file was made of isn't what the vault has by this number."""
    return (f"was made of another version {state.version} than the vault has, which came back from a backup: look at that first, by `vault get"
            f" {state.place} --to OTHER-FILE`; `vault put {state.place} FILE` puts yours over it")


def put_already(folder: Folder, names: Sequence[str]) -> str:
    """Which files are drafts now, in words: some of them, if they are many."""
    more = f" and {len(names) - NAMED} more" if len(names) > NAMED else ""
    return (f"{', '.join(shown(name) for name in names[:NAMED])}{more} {'is a draft' if len(names) == 1 else 'are drafts'} in"
            f" {' and '.join(sorted({folder.files[name].claim for name in names}))} now.")
