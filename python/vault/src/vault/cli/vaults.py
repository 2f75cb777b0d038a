"""Which vaults this account knows, which of them a command means, and the place that a path in a working folder is."""

import json
import os
import re
from pathlib import Path
from typing import Dict, List, NamedTuple, Optional, Tuple

from vault.cli.output import Output
from vault.cli.words import DraftWords, ExtendWords, GetWords, Given, HelloWords, ImportWords, ItemsWords, MakeWords, PlaceWords, PutWords, Words
from vault.errors import MisusedError
from vault.files.own_folders import state_folder
from vault.files.text import quoted, shown
from vault.files.whole import write_whole
from vault.protocol.address import address_word, read_address
from vault.protocol.grammar import NAME, PLACE

# Which of a command's words names a place.
PLACED = (PlaceWords, MakeWords, PutWords, GetWords, DraftWords, ImportWords)
# What a working folder remembers first.
SERVER = r'\{"form": "[^"]*", "place": "[^"]*", "server": "([^"\\]*)"'
HEAD = 4096
IN_VAULT = r"(?P<vault>%s):(?P<place>%s)" % (NAME.pattern, PLACE.pattern)


class Known(NamedTuple):
    """A vault that this account said hello to: what it is called here, and who the designer is, and where."""

    name: str
    who: str


def known_vaults() -> List[Known]:
    """The vaults that this account knows, the last one first."""
    try:
        kept = json.loads((state_folder() / "vaults.json").read_text("utf-8"))
        return [Known(str(each["name"]), str(each["who"])) for each in kept]
    except (OSError, ValueError, KeyError, TypeError):
        return []


def remember_vault(name: str, who: str) -> str:
    """Remembers a vault, by the name that is given, or else by the one that it had or by its host's. Answers the name."""
    others = [each for each in known_vaults() if not same_vault(each.who, who)]
    before = next((each.name for each in known_vaults() if same_vault(each.who, who)), "")
    if name and not NAME.fullmatch(name):
        raise MisusedError(f"`{name}` is no name of a vault: write 1 to 32 of a-z, 0-9, _ and -.")
    taken = {each.name for each in others}
    if name in taken:
        raise MisusedError(f"Another vault is called {name} here. `vault vaults` lists them.")
    called = name or before or free_name(who, taken)
    write_whole(state_folder() / "vaults.json", json.dumps([each._asdict() for each in [Known(called, who), *others]]).encode("utf-8"))
    return called


def free_name(who: str, taken: "set[str]") -> str:
    """A name for a vault by its first host."""
    host = read_address(who)[1][0][0].rpartition("@")[2].removeprefix("ssh:")
    plain = re.sub(r"[^a-z0-9_-]", "_", host.lower())[:24] or "vault"
    return next(name for name in [plain, *(f"{plain}_{number}" for number in range(2, len(taken) + 3))] if name not in taken)


def same_vault(one: str, other: str) -> bool:
    """Whether two designers are at the same vault: one of its addresses is the same."""
    try:
        return bool(set(read_address(one)[1]) & set(read_address(other)[1]))
    except MisusedError:
        return False


def meant(given: Given, fallback: Optional[str], output: Output) -> Tuple[Optional[str], Words]:
    """Who the designer is, and where, and a command's words with places in them, by the working folders and the vaults that these name."""
    words = given.words
    if isinstance(words, HelloWords):
        return words.who, words
    places = Places(output)
    if isinstance(words, GetWords) and words.to is None and words.version is None and is_path(words.place) and os.path.isdir(words.place):
        words.place, words.to = places.whole(words.place)
    elif isinstance(words, PLACED) and not (isinstance(words, PutWords) and words.file is None):
        words.place = places.place_of(words.place)
    if isinstance(words, (ItemsWords, ExtendWords)):
        words.items = [places.item_of(item) for item in words.items]
    return given.designer or places.who or at_folder(path_of(words), fallback) or fallback, words


class Places:
    """Reads words that name places, and which vault these name."""

    def __init__(self, output: Output):
        self.output, self.who = output, ""

    def place_of(self, word: str) -> str:
        """The place that a word is: itself, or behind a vault's name, or the one that a path in a working folder has."""
        found = re.fullmatch(IN_VAULT, word)
        if found is not None and not os.path.lexists(word):
            self.who = next((each.who for each in known_vaults() if each.name == found["vault"]), "")
            if not self.who:
                raise MisusedError(f"No vault is called {found['vault']} here. `vault vaults` lists those that you said hello to.")
            return found["place"]
        return self.of_path(word) if is_path(word) else word

    def item_of(self, word: str) -> str:
        """An item: to look or to change at a place, or to change where neither is said."""
        kind, rest = (word[:2], word[2:]) if word[:2] in ("r:", "w:") else ("w:", word)
        return kind + self.place_of(rest) if rest else word

    @staticmethod
    def whole(word: str) -> Tuple[str, str]:
        """The place of the whole working folder that a path stands in, and that folder's path."""
        from vault.working.folder import find_folder
        folder = find_folder(Path(word))
        return folder.place, os.path.relpath(folder.path)

    def of_path(self, word: str) -> str:
        """The place of a file or a folder in a working folder."""
        from vault.working.folder import find_folder
        path = Path(os.path.abspath(word))
        folder = find_folder(path)
        name = path.relative_to(folder.path).as_posix()
        name = "" if name == "." else name
        tracked = folder.tracked(name, folder.alike()) if name and name not in folder.folders else ""
        place = folder.files[tracked].place if tracked else folder.folders.get(name, "")
        if not place:
            add = f" `vault add {quoted(shown(word))}` makes one of it." if os.path.lexists(path) else ""
            raise MisusedError(f"{shown(word)} is no place: nothing by this name in {folder.path} is in the vault.{add}")
        self.who = self.who or at_folder(path, None) or ""
        self.output.notice(f"{shown(word)} is {place}.")
        return place


def is_path(word: str) -> bool:
    """Whether a word is a path: it is no place, or it is there and stands in a working folder."""
    if not PLACE.fullmatch(word):
        return word[:1] in (".", "~") or os.path.lexists(word) or (word[:1] != "/" and in_folder(Path(word)) is not None)
    return word != "/" and os.path.lexists(word) and in_folder(Path(word)) is not None


def in_folder(path: Path) -> Optional[Path]:
    """The working folder that a path stands in, if it does."""
    path = Path(os.path.abspath(path))
    return next((above for above in (path, *path.parents) if (above / ".vault" / "folder.json").is_file()), None)


def path_of(words: Words) -> Path:
    """The path whose working folder a command is about: the one that it names, or the current one."""
    said: Dict[str, object] = vars(words)
    named = [word for word in (said.get("folder"), said.get("place"), said.get("claim"), *files_in(said)) if isinstance(word, str) and word]
    return next((Path(word) for word in named if os.path.lexists(word) and in_folder(Path(word)) is not None), Path("."))


def files_in(said: Dict[str, object]) -> List[object]:
    """The files among a command's words."""
    files = said.get("files")
    return list(files) if isinstance(files, list) else []


def at_folder(path: Path, fallback: Optional[str]) -> Optional[str]:
    """The designer at the vault that a working folder was got from: the one that is meant anyway, or else the one who said hello there."""
    folder = in_folder(path)
    if folder is None:
        return None
    try:
        with open(folder / ".vault" / "folder.json", encoding="utf-8", errors="replace") as file:
            found = re.match(SERVER, re.sub(r"\n *", " ", file.read(HEAD)).replace("{ ", "{", 1))
    except OSError:
        return None
    for who in [*([fallback] if fallback else []), *(each.who for each in known_vaults())]:
        if found is not None and servers_of(who) & set(found[1].split(",")):
            return who
    return None


def servers_of(who: str) -> "set[str]":
    """The servers of a designer's vault, as a working folder remembers them."""
    try:
        return {f"{host}:{port}" for host, port in read_address(who)[1]}
    except MisusedError:
        return set()


def vaults_in_words(current: str) -> Tuple[str, List[Dict[str, object]]]:
    """The vaults that this account knows, in words and for --json."""
    lines, fields = [], []
    for each in known_vaults():
        designer, servers = read_address(each.who)
        at = " and ".join(address_word(*server) for server in servers)
        lines.append(f"{each.name}: {designer} at {at}{', the one that is meant' if each.who == current else ''}.")
        fields.append({"name": each.name, "designer": designer, "servers": [address_word(*server) for server in servers],
                       "current": each.who == current})
    return "\n".join(lines or ["You have said hello to no vault here. `vault hello NAME@HOST:PORT` does."]), fields
