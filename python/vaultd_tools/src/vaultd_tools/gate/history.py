"""Says who took, gave away, abandoned or checked in a place, and when, from the log of the gate.

A check-out concerns a place if one of its items is that place, stands above it or beneath it. What a number of a check-out stands for
is read from the log itself, from the reply to its check-out and to its extensions. If the log doesn't have them, as of a check-out at the
plain port, its drafts say something of it, and what isn't known is counted.
"""

import argparse
import pwd
import re
import subprocess
import sys
from dataclasses import dataclass, field
from pathlib import Path
from typing import Dict, Iterable, Iterator, List, Optional, Set, Tuple

from vault.protocol.grammar import NAME, PLACE, under
from vaultd_tools.errors import ToolError
from vaultd_tools.output import print_all, say_error

RECORD = re.compile(r"(?P<time>\d{4}-\d\d-\d\dT\d\d:\d\d:\d\d\.\d{6}Z) id=(?P<id>[0-9a-f]{16}\.\d+) vault=(?P<vault>\S+) from=(?P<origin>\S+)"
                    rf" key=(?P<key>\S+) by=(?P<by>{NAME.pattern}) as=(?P<name>{NAME.pattern}) (?P<kind>asks|told|lost|refused)"
                    r" (?P<command>[^>]+?)(?: -> (?P<reply>.+))?")
GATE_USER = "vaultd-gate"
ENDS = ("checkin", "abandon", "release")
OF_A_CLAIM = (*ENDS, "extend", "give", "note")
SENTENCES = {"checkin": "checked in", "abandon": "abandoned", "release": "released", "make": "made", "nest": "nested", "save": "saved",
             "note": "noted on"}


@dataclass(frozen=True)
class Record:
    """One line of the log, taken apart."""

    time: str
    id: str
    vault: str
    key: str
    by: str
    name: str
    kind: str
    words: Tuple[str, ...]
    reply: str

    @property
    def done(self) -> Optional[bool]:
        """Whether it was done; None where that isn't known."""
        return None if self.kind in ("asks", "lost") or self.reply.startswith("ERR 82") else self.reply.startswith("OK ")


@dataclass
class Claims:
    """What each claim was asked for, as far as the log has it, and the claims of which it has all."""

    items: Dict[str, List[str]] = field(default_factory=dict)
    whole: Set[str] = field(default_factory=set)

    def learn(self, record: Record) -> None:
        """Takes in what a command that was done says of a claim. A draft, or a place made in a claim's name, is one that it changes."""
        said, keyword, rest = record.reply.split(), record.words[0], record.words[1:]
        if not record.done:
            return
        if keyword in ("checkout", "hold") and len(said) > 2:
            self.items[said[2]] = list(rest)
            self.whole.add(said[2])
        elif keyword == "extend":
            self.items.setdefault(rest[0], []).extend(rest[1:])
        elif keyword == "save":
            self._add_place(rest[0], rest[1])
        elif keyword in ("make", "nest") and len(rest) > 1:
            self._add_place(rest[1], rest[0])

    def _add_place(self, claim: str, place: str) -> None:
        items = self.items.setdefault(claim, [])
        if claim not in self.whole and "w:" + place not in items:
            items.append("w:" + place)

    def lacks(self, record: Record) -> bool:
        """Whether a command is of a claim that may have places which the log doesn't have."""
        return record.words[0] in OF_A_CLAIM and record.words[1] not in self.whole

    def in_words(self, claim: str) -> str:
        """What a claim was asked for, in words; nothing if that isn't known."""
        items = [item_in_words(item) for item in self.items.get(claim, [])] + ["perhaps more"] * (claim not in self.whole)
        return f" ({', '.join(items)})" if claim in self.items else ""

    def places(self, record: Record) -> Optional[List[str]]:
        """The places that a command concerns; None where the log doesn't have its claim."""
        keyword, rest = record.words[0], record.words[1:]
        if keyword in ("checkout", "hold"):
            return [item[2:] for item in rest]
        if keyword in ("make", "nest"):
            return [rest[0]]
        if keyword == "save":
            return [rest[1]]
        items = self.items.get(rest[0], []) + (list(rest[1:]) if keyword == "extend" else [])
        return [item[2:] for item in items] or None


def records(lines: Iterable[str], damaged: List[str]) -> Iterator[Record]:
    """The records of a log. One that begins after the torn end of another is read, too; other lines are handed back as damaged."""
    for line in lines:
        found = None
        for start in re.finditer(r"\d{4}-\d\d-\d\dT", line):
            found = RECORD.fullmatch(line.rstrip("\n"), start.start()) or found
        if found is None:
            damaged.append(line)
            continue
        yield Record(found["time"], found["id"], found["vault"], found["key"], found["by"], found["name"], found["kind"],
                     tuple(found["command"].split()), found["reply"] or "")


def outcomes(found: Iterable[Record]) -> List[Record]:
    """Each command once, by what became of it: its reply, or that there was none."""
    last: Dict[str, Record] = {}
    for record in found:
        last.pop(record.id, None)
        last[record.id] = record
    return [record for record in last.values() if record.kind != "refused" and record.words[0] != "hello"]


def concerns(places: Optional[List[str]], asked: str) -> bool:
    """Whether a command about these places concerns the one that is asked about. The library stands for all, known or not."""
    return asked == "/" or any(under(place, asked) or under(asked, place) for place in places or [])


def item_in_words(item: str) -> str:
    """An item in words."""
    return ("change " if item[0] == "w" else "look at ") + item[2:]


def sentence(record: Record, claims: Claims) -> str:
    """What was done, in words."""
    keyword, rest, said = record.words[0], record.words[1:], record.reply.split()
    if keyword in ("checkout", "hold"):
        took = f"{'took' if said[1:2] == ['held'] else 'asked for'} {said[2]}" if record.done else f"asked for a {keyword}"
        standing = " ".join(said[1:2] + said[3:]) if record.done else "not known whether it was done"
        return f"{took} to {', '.join(map(item_in_words, rest))}: {standing}"
    if keyword == "extend":
        what = f"extended {rest[0]} to {', '.join(map(item_in_words, rest[1:]))}"
    elif keyword == "give":
        what = f"gave {rest[0]} to {rest[1]}"
    elif keyword == "save":
        what = f"saved {' '.join(rest[1:])} in {rest[0]}"
    else:
        what = f"{SENTENCES[keyword]} {' in '.join(rest[:2]) if keyword in ('make', 'nest') else rest[0]}"
    counted = f": {said[3]} new version{'' if said[3] == '1' else 's'}" if record.done and keyword == "checkin" else ""
    items = claims.in_words(rest[0]) if keyword in ENDS + ("give",) else ""
    return what + items + (counted if record.done else ": not known whether it was done")


def told(found: Iterable[Record], place: str, everything: bool, unknown: List[Record]) -> Iterator[str]:
    """What the log has of a place, line by line. What was refused was not done, and isn't shown. What may be of that place, but of a claim
    whose places the log doesn't have, is handed back as unknown."""
    claims = Claims()
    for record in found:
        shown = record.done is not False and (everything or record.words[0] not in ("save", "note"))
        if shown and concerns(claims.places(record), place):
            who = record.name if record.name == record.by else f"{record.by} as {record.name}"
            yield f"{record.time[:19].replace('T', ' ')} UTC  {who} {sentence(record, claims)}"
        elif shown and claims.lacks(record):
            unknown.append(record)
        claims.learn(record)


def lines_of(files: List[str]) -> Iterator[str]:
    """The lines of these files, in their order, or of the system's journal if none is named."""
    for file in files:
        with Path(file).open(encoding="ascii", errors="backslashreplace", newline="\n") as log:
            yield from log
    if not files:
        yield from journal()


def journal() -> Iterator[str]:
    """The lines in the system's journal that the gate's user wrote: anybody can write some under the gate's tag, but not as this user."""
    try:
        user = pwd.getpwnam(GATE_USER).pw_uid
        done = subprocess.run(["journalctl", "--quiet", "--no-pager", "-t", "vaultd-gate", f"_UID={user}", "-o", "cat"], capture_output=True,
                              check=False)
    except KeyError as error:
        raise ToolError(f"There is no user {GATE_USER} here, whose lines the journal has. Name the gate's file with --log.") from error
    except FileNotFoundError as error:
        raise ToolError("There is no journalctl here. Name the gate's file with --log.") from error
    if done.returncode != 0:
        raise ToolError(f"journalctl said: {done.stderr.decode('utf-8', 'replace').strip()}. Name the gate's file with --log.")
    yield from done.stdout.decode("ascii", "backslashreplace").splitlines()


def of_one_vault(found: List[Record], named: Optional[str]) -> List[Record]:
    """The records of the vault that is named, or of the only one."""
    vaults = sorted({record.vault for record in found})
    if named is None and len(vaults) > 1:
        raise ToolError(f"The log is of {len(vaults)} vaults: name one of {', '.join(vaults)} with --server.")
    return [record for record in found if named in (None, record.vault)]


def place_word(word: str) -> str:
    """A place on the command line."""
    if PLACE.fullmatch(word):
        return word
    raise argparse.ArgumentTypeError(f"`{word}` is no place: write `/` or up to seven names, as /engine/block/piston")


def words() -> argparse.Namespace:
    """The command line."""
    parser = argparse.ArgumentParser(prog="vaultd-log", description=__doc__, formatter_class=argparse.RawDescriptionHelpFormatter)
    parser.add_argument("place", metavar="PATH", type=place_word, help="as /engine/block/piston; `/` is everything")
    parser.add_argument("--log", metavar="FILE", action="append", default=[],
                        help="a file of the gate, the oldest first where there are more; without it the system's journal is read")
    parser.add_argument("--server", metavar="HOST:PORT", help="of which vault, where gates to more than one write this log")
    parser.add_argument("--all", action="store_true", help="drafts that were saved and notes, too")
    return parser.parse_args()


def main() -> int:
    """0 if the log could be read, and what it has be written, else 1."""
    asked = words()
    damaged: List[str] = []
    try:
        found = of_one_vault(list(records(lines_of(asked.log), damaged)), asked.server)
    except (ToolError, OSError) as error:
        return say_error("vaultd-log", error)
    unknown: List[Record] = []
    status = print_all("vaultd-log", told(outcomes(found), asked.place, asked.all, unknown))
    if unknown:
        print(f"vaultd-log: {len(unknown)} more may be of {asked.place}, by check-outs whose places this log doesn't have: ask for / to see them.",
              file=sys.stderr)
    if damaged:
        print(f"vaultd-log: {len(damaged)} lines aren't the gate's, and were left out.", file=sys.stderr)
    return status
