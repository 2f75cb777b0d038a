"""Copies of a vault's two files, and what `vaultd inspect` and `vaultd check` say of them."""

import json
import os
import re
import shutil
import subprocess
import time
from dataclasses import dataclass
from pathlib import Path
from typing import Any, Dict, List, Optional, Tuple

from vault.protocol.grammar import CLAIM, ITEM, NAME
from vaultd_tools.errors import ToolError

PIECE = 65536
HEAD = 24
SHOWN = re.compile(rf"(?P<name>{CLAIM.pattern}) (?P<owner>{NAME.pattern}) (?:held|queued behind (?P<behind>{CLAIM.pattern}))"
                   rf"(?P<items>(?: {ITEM.pattern})+)(?: note (?P<note>(?:[0-9a-f]{{2}})+))?")


@dataclass(frozen=True)
class Claim:
    """A standing claim of a report."""

    name: str
    owner: str
    behind: Optional[str]
    items: Tuple[str, ...]
    note: bytes = b""


@dataclass(frozen=True)
class Report:
    """What `vaultd inspect` says of two files."""

    text: str

    @property
    def counts(self) -> Optional[str]:
        """The line of the vault's counts, if the files open."""
        lines = self.text.splitlines()
        return lines[2] if len(lines) > 2 and lines[2].startswith("places ") else None

    def active(self) -> Optional[str]:
        """The file that the vault is read from, `a` or `b`."""
        found = re.search(r"^file ([ab]): open, ", self.text, re.MULTILINE)
        return found.group(1) if found else None

    def damaged(self) -> Optional[Tuple[str, int]]:
        """The first file that is damaged, `a` or `b`, and where."""
        found = re.search(r"^file ([ab]): damaged at (\d+)$", self.text, re.MULTILINE)
        return (found.group(1), int(found.group(2))) if found else None

    def claims(self) -> List[Claim]:
        """The standing claims, in the order of the queue."""
        found = [SHOWN.fullmatch(line) for line in self.text.splitlines()[3:]]
        return [Claim(m["name"], m["owner"], m["behind"], tuple(m["items"].split()), bytes.fromhex(m["note"] or "")) for m in found if m]


def find_vaultd(named: Optional[str]) -> str:
    """The program: the one that is named, the one that VAULTD names, or the one on the path."""
    found = named or os.environ.get("VAULTD") or shutil.which("vaultd")
    if found is None or not os.access(found, os.X_OK):
        raise ToolError(f"The program vaultd is not {'at ' + found if found else 'on the path'}. Name it with --vaultd.")
    return found


def inspect(vaultd: str, files: Dict[str, Path]) -> Report:
    """What the program says of two files, which it only reads."""
    done = subprocess.run([vaultd, "inspect", str(files["a"]), str(files["b"])], capture_output=True, text=True, check=False)
    if done.returncode != 0:
        raise ToolError(f"`vaultd inspect` said: {done.stderr.strip() or done.returncode}. Look at the rights and the disk of"
                        f" {files['a']} and {files['b']}.")
    return Report(done.stdout)


def check(vaultd: str, first: str, second: str) -> Dict[str, Any]:
    """What `vaultd check --json` says of two files, which it only reads: `served` says whether a server would start."""
    done = subprocess.run([vaultd, "check", "--json", first, second], capture_output=True, text=True, errors="replace", check=False)
    try:
        found = json.loads(done.stdout)
    except ValueError:
        found = None
    if done.returncode not in (0, 1) or not isinstance(found, dict):
        raise ToolError(f"`vaultd check --json` said: {done.stderr.strip().partition(chr(10))[0] or done.returncode}. Look at the rights and the"
                        f" disk of {first} and {second}.")
    return found


def copy_vault(first: str, second: str, folder: Path) -> Dict[str, Path]:
    """Copies both files into a folder and puts the copies on disk. Each is read once from its start to its end."""
    if os.path.realpath(first) == os.path.realpath(second):
        raise ToolError(f"{first} and {second} are one file. Give the vault's two files.")
    copies = {"a": folder / "a", "b": folder / "b"}
    for source, copy in ((first, copies["a"]), (second, copies["b"])):
        try:
            copy_file(source, copy)
        except OSError as error:
            raise ToolError(f"{source} can't be copied to {copy}: {error.strerror}. Look at rights and room.") from error
    return copies


def copy_of(vaultd: str, first: str, second: str, folder: Path, tries: int = 5) -> Dict[str, Path]:
    """Copies of both files that open, and over which no snapshot was written meanwhile; each try has a folder of its own in that folder."""
    failed = ""
    for number in range(tries):
        time.sleep(0.2 * number)
        inner = folder / str(number)
        inner.mkdir()
        copies = copy_vault(first, second, inner)
        report = inspect(vaultd, copies)
        active = report.active() or "a"
        if report.counts is not None and has_head_of(first if active == "a" else second, copies[active]):
            return copies
        failed = report.text.rstrip()
    raise ToolError(f"no copy of the vault opens, or it is written anew all the time:\n{failed}\nSee vaultd-salvage, or take the last backup.")


def copy_file(source: str, copy: Path) -> None:
    """Copies a file piece by piece into one that isn't there yet."""
    with open(source, "rb") as old, open(copy, "xb") as new:
        while True:
            piece = old.read(PIECE)
            if not piece:
                break
            new.write(piece)
        new.flush()
        os.fsync(new.fileno())


def has_head_of(source: str, copy: Path) -> bool:
    """Whether a file has the head that its copy has: no snapshot was written into it since that was read."""
    with open(source, "rb") as now, open(copy, "rb") as then:
        return now.read(HEAD) == then.read(HEAD)
