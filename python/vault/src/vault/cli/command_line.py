"""The words that the program `vault` knows."""

import argparse
import re
from typing import Any, Dict, List, NoReturn, Tuple, Type

from vault import __version__
from vault.cli.commands import COMMANDS
from vault.cli.words import BeforeWords, Given, StoreWords
from vault.errors import MisusedError
from vault.working.days import MOST_DAYS


HELP_WIDTH = 80
# What other programs call these.
ALIASES = {"help": ("--help",), "ls": ("tree",), "log": ("history",), "whoami": ("vaults",)}


def seconds(word: str) -> float:
    """A time on the command line."""
    value = float(word)
    if not 0 <= value < 1e9:
        raise argparse.ArgumentTypeError("a time is a number of seconds from 0 on")
    return value


def days(word: str) -> int:
    """A number of days on the command line."""
    value = int(word)
    if not 1 <= value <= MOST_DAYS:
        raise argparse.ArgumentTypeError(f"a number of days is from 1 to {MOST_DAYS:,}")
    return value


class Parser(argparse.ArgumentParser):
    """The reader of the command line. Its errors are reported like all others."""

    def error(self, message: str) -> NoReturn:
        """Says what is wrong with the command line, and of an unknown command which one is the nearest."""
        unknown = re.match(r"argument COMMAND: invalid choice: '(.*?)' \(choose", message)
        if unknown:
            from difflib import get_close_matches
            near = get_close_matches(unknown[1], COMMANDS, 1, 0.5)
            message = f"`{unknown[1]}` is no command" + (f". Did you mean `{self.prog} {near[0]}`?" if near else "")
            raise MisusedError(f"{message}{'' if near else '.'} `{self.prog} --help` shows the words.")
        raise MisusedError(f"{message}. `{self.prog} --help` shows the words.")


class Narrow(argparse.HelpFormatter):
    """Lays out help in a width that is known. To find out how wide the terminal is takes long, and most command lines ask for no help."""

    def __init__(self, prog: str):
        super().__init__(prog, width=HELP_WIDTH)


class Commands:
    """The commands of a command line; if one is asked for, that one alone: to make all takes as long as a question to a server."""

    def __init__(self, parser: Parser, only: str):
        self.parsers = parser.add_subparsers(prog=parser.prog, dest="command", required=True, metavar="COMMAND")
        self.only, self.layout = only, parser.formatter_class


def add(commands: Commands, name: str, about: str, *arguments: Tuple[str, Dict[str, Any]]) -> None:
    """Adds a command with its words, if it is wanted."""
    if commands.only in ("", name):
        parser = commands.parsers.add_parser(name, help=about, description=about, formatter_class=commands.layout)
        for word, options in arguments:
            parser.add_argument(word, **options)


def command_line(only: str = "") -> argparse.ArgumentParser:
    """The words that the program knows, or those for one command alone."""
    layout: Type[argparse.HelpFormatter] = Narrow if only else argparse.HelpFormatter
    parser = Parser(prog="vault", description="The client of the design vault.", formatter_class=layout,
                    epilog="A day with it is told in docs/TUTORIAL.md; the manual is vault(1).")
    parser.add_argument("--version", action="version", version="vault " + __version__)
    parser.add_argument("--as", dest="designer", metavar="NAME@HOST:PORT", help="who you are, in place of the last hello")
    parser.add_argument("--json", action="store_true", help="answers in JSON, one object on a line")
    parser.add_argument("--patience", type=seconds, default=30.0, metavar="SECONDS", help="how long a lost server is asked for (30)")
    commands = Commands(parser, only)
    add(commands, "hello", "remembers who you are, and where",
        ("who", {"metavar": "NAME@HOST:PORT", "help": "or, through ssh, NAME@ssh:HOST or NAME@ssh:USER@HOST:PORT; a vault's further addresses"
                 " stand behind commas, as anna@one:7070,two:7070"}),
        ("--name", {"default": "", "metavar": "VAULT", "help": "what the vault is called here, as in VAULT:/engine"}))
    add(commands, "vaults", "lists the vaults that you said hello to")
    add_of_places(commands)
    add_of_claims(commands)
    add(commands, "store", "shows where the vault keeps its files, names the place, or confirms it",
        ("what", {"nargs": "?", "choices": ("set", "confirm", "check"), "help": "set: the vault names ADDRESS; confirm: you follow it; check:"
                  " looks whether each version has its bytes"}),
        ("address", {"nargs": "?", "default": "", "metavar": "ADDRESS", "help": "file:///FOLDER, or rclone:REMOTE:PATH"}),
        ("--read", {"action": "store_true", "help": "check reads all bytes through their hash"}),
        ("--here", {"default": "", "metavar": "WAY", "help": "confirm: the way that this machine has to it, as /mnt/store or Z:\\store"}))
    add(commands, "status", "shows how the files of a working folder stand, or one of them, or those in a folder of it",
        ("folder", {"nargs": "?", "default": ".", "metavar": "FOLDER"}), EVERY)
    add(commands, "before", "shows the files that gave way in a working folder and are kept for some days, or brings one back",
        ("folder", {"nargs": "?", "default": ".", "metavar": "FOLDER"}),
        ("which", {"nargs": "?", "metavar": "WHICH", "help": "its time, as the list shows it"}),
        ("--to", {"metavar": "FILE", "help": "the new file that it becomes"}))
    add(commands, "add", "makes parts of files in a working folder, and assemblies of folders",
        ("files", {"nargs": "+", "metavar": "FILE"}), YES, ALL)
    add(commands, "import", "takes in a folder as it is: looks at all of it, says what it makes, and does it as one change",
        ("folder", {"metavar": "FOLDER"}),
        ("place", {"metavar": "PLACE", "help": "the project or the assembly that has it then; made if it isn't there"}),
        NOTE, IN_PARTS, YES, ALL)
    return parser


PLACE = ("place", {"metavar": "PLACE", "help": "as /engine/block/piston"})
CLAIM = ("claim", {"metavar": "CLAIM", "help": "as c3"})
ITEMS = ("items", {"nargs": "+", "metavar": "ITEM", "help": "r:PLACE to look or w:PLACE to change"})
NOTE = ("-m", {"dest": "note", "metavar": "NOTE", "help": "why: a line of at most 400 bytes, kept with each version"})
IN_PARTS = ("--in-parts", {"action": "store_true", "help": "more drafts than a check-out has are checked in by several, which isn't one change"})
YES = ("--yes", {"action": "store_true", "help": "doesn't ask before"})
ALL = ("--all", {"action": "store_true", "help": "names all that is left out, however much it is"})
EVERY = ("--all", {"action": "store_true", "help": "lists all, where else so many of a kind are counted"})
NAMED = ("--claim", {"default": "", "metavar": "CLAIM", "help": "the check-out that it belongs to"})


def add_of_places(commands: Commands) -> None:
    """Adds the commands that name a place."""
    add(commands, "tree", "shows the places beneath one", ("place", {"nargs": "?", "default": "/", "metavar": "PLACE"}), EVERY)
    add(commands, "make", "makes a place: a project, an assembly in it, or a part", PLACE, NAMED)
    add(commands, "nest", "makes an assembly inside an assembly", PLACE, NAMED)
    add(commands, "put", "puts a file as the draft of a part, or the changed files of a working folder",
        ("place", {"metavar": "PLACE", "help": "as /engine/block/piston; or a working folder"}),
        ("file", {"nargs": "?", "metavar": "FILE"}), NAMED,
        ("--name", {"default": "", "metavar": "NAME", "help": "the name that the part's file has from then on; else it keeps the one that it has"}),
        EVERY)
    add(commands, "get", "writes a version of a part, the last where none is named, or a whole assembly into a folder", PLACE,
        ("version", {"nargs": "?", "type": int, "metavar": "VERSION"}),
        ("--to", {"metavar": "FILE", "help": "a new file, in place of standard output; the folder for an assembly"}),
        ("--keep-days", {"type": days, "metavar": "DAYS", "help": "how long that folder keeps files that gave way to others (14)"}),
        ("--writable", {"action": "store_true", "help": "files in that folder are writable, whether they are checked out or not"}), EVERY)
    add(commands, "history", "lists the versions of a part", PLACE, EVERY)


def add_of_claims(commands: Commands) -> None:
    """Adds the commands that ask for a claim or name one."""
    add(commands, "checkout", "asks for a check-out of one to eight items", ITEMS)
    add(commands, "extend", "asks for more items for a check-out that is held", CLAIM, ITEMS)
    add(commands, "checkin", "makes versions of a check-out's drafts, and ends it",
        ("claim", {"metavar": "CLAIM", "help": "as c3; or a working folder, whose changed files are put first"}),
        NOTE, IN_PARTS, EVERY)
    add(commands, "abandon", "gives a check-out up, with its drafts", CLAIM)
    add(commands, "give", "gives a check-out to another designer, with its drafts", CLAIM, ("receiver", {"metavar": "NAME"}), YES)
    add(commands, "note", "writes a note on a check-out, or shows it where no text is given", CLAIM,
        ("text", {"nargs": "?", "metavar": "TEXT", "help": "at most 64 bytes; '' takes the note away"}))
    add(commands, "wait", "waits until a claim is held, and shows who is before it", CLAIM,
        ("--at-most", {"type": seconds, "default": float("inf"), "metavar": "SECONDS"}))
    add(commands, "mine", "shows your check-outs, and those from here that are gone", ("claims", {
        "nargs": "*", "metavar": "CLAIM", "help": "one of yours from elsewhere, at a server that doesn't tell whose a check-out is"}), EVERY)
    add(commands, "who", "shows who holds what at a place, above it or beneath it, and who waits for it",
        ("place", {"nargs": "?", "default": "/", "metavar": "PLACE"}), EVERY)
    add(commands, "hold", "keeps items from changing until standard input ends", ITEMS)
    add(commands, "drafts", "shows of which parts a check-out has drafts, or writes the copies that are kept here into a folder", CLAIM,
        ("folder", {"nargs": "?", "metavar": "FOLDER"}))
    add(commands, "draft", "writes a draft of one of your check-outs", CLAIM, PLACE,
        ("--to", {"metavar": "FILE", "help": "a new file, in place of standard output"}))
    add(commands, "forget", "forgets a check-out that is gone, and its copies", CLAIM)


def place_of_command(given: List[str]) -> int:
    """Where the command stands among some words: the first that is neither an option nor what an option, perhaps a shortened one, is given."""
    passed = False
    for number, word in enumerate(given):
        if word[:1] != "-" and not passed:
            return number
        passed = len(word) > 2 and any(option.startswith(word) for option in ("--as", "--patience"))
    return len(given)


def meant(given: List[str]) -> List[str]:
    """A command line with the word of this program in the place of one that other programs have for the same."""
    at = place_of_command(given)
    return [*given[:at], *(each for word in given[at:at + 1] for each in ALIASES.get(word, (word,))), *given[at + 1:]]


def read_words(given: List[str]) -> Given:
    """What a command line asks for."""
    line = meant(given)
    command = "".join(line[place_of_command(line):][:1])
    helped = any(word == "-h" or (len(word) > 2 and "--help".startswith(word)) for word in line)
    read = command_line(command if command in COMMANDS and not helped else "").parse_args(line)
    words = COMMANDS[read.command].words.of(read)
    if isinstance(words, StoreWords) and (words.what in ("set", "confirm")) != bool(words.address):
        raise MisusedError("`vault store` shows the store; `vault store set ADDRESS` and `vault store confirm ADDRESS` want an address.")
    if isinstance(words, StoreWords) and words.here and words.what != "confirm":
        raise MisusedError("`--here` is this machine's way to a store that is confirmed: `vault store confirm ADDRESS --here WAY`.")
    if isinstance(words, BeforeWords) and bool(words.which) != bool(words.to):
        raise MisusedError("`vault before FOLDER` shows what is kept, and `vault before FOLDER WHICH --to FILE` brings one back as a new file.")
    return Given(read.command, words, read.designer, read.json, read.patience)
