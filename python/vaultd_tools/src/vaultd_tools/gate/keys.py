"""Says for whom each key of an authorized_keys file speaks through the gate, and which lines tie a key to no name.

A key without a forced command gets a shell of the gate's user, and so reaches the server as anybody. By some public keys everybody can sign.
Both are looked for here, since sshd itself takes such a line; and keys without `--log`, of which only the system's log has who did what.
"""

import argparse
import base64
import binascii
import contextlib
import io
import re
import shlex
import sys
from dataclasses import dataclass
from pathlib import Path
from typing import Dict, Iterator, List, Optional, Tuple

from vaultd_tools.gate.log import fingerprint_of
from vaultd_tools.gate.program import words as gate_words
from vaultd_tools.output import say_error

OPTION = re.compile(r'([A-Za-z0-9-]+)(?:="((?:[^"\\]|\\.)*)")?(?:,|$)')
LINE = re.compile(r'(?:(?P<options>(?:[^" \t]|"(?:[^"\\]|\\.)*")+)[ \t]+)?(?P<type>(?:ssh|ecdsa|sk)-[a-z0-9@.-]+)[ \t]+(?P<key>[A-Za-z0-9+/]+=*)'
                  r"(?:[ \t]+(?P<comment>.*))?")
UNDONE = ("pty", "port-forwarding", "agent-forwarding", "x11-forwarding", "user-rc", "cert-authority", "permitopen", "permitlisten",
          "tunnel", "environment")
ED25519 = (b"ssh-ed25519", b"sk-ssh-ed25519@openssh.com")
# The second coordinates of the points of order 1, 2, 4 and 8, some of which are spelled in two ways. Signing by one needs no secret.
PRIME = 2 ** 255 - 19
OF_SMALL_ORDER = (0, 1, PRIME - 1, PRIME, PRIME + 1, int("05fc536d880238b13933c6d305acdfd5f098eff289f4c345b027b2c28f95e826", 16),
                  int("7a03ac9277fdc74ec6cc392cfa53202a0f67100d760b3cba4fd84d3d706a17c7", 16))
# How the keys of an earlier example began.
ZEROS = bytes(31)


@dataclass(frozen=True)
class Key:
    """A key, for whom it speaks, and what is wrong with its line."""

    who: str
    fingerprint: str
    comment: str
    wrong: Tuple[str, ...]


def options_of(text: str) -> Optional[Dict[str, str]]:
    """The options before a key by their names in lower case, as sshd reads them; None if they can't be read."""
    found: Dict[str, str] = {}
    at = 0
    while at < len(text):
        option = OPTION.match(text, at)
        if option is None or option[1].lower() in found:
            return None
        found[option[1].lower()] = (option[2] or "").replace('\\"', '"')
        at = option.end()
    return found


def speaks_for(command: str) -> Tuple[str, Tuple[str, ...]]:
    """For whom a forced command speaks, and what is wrong with it."""
    try:
        program, *rest = shlex.split(command)
        with contextlib.redirect_stderr(io.StringIO()):
            asked = gate_words(rest)
    except (ValueError, SystemExit):
        return "nobody", ("its command is none that the gate takes",)
    if Path(program).name != "vaultd-gate" or not program.startswith("/"):
        return "nobody", ("its command is not the gate, with its whole path",)
    if any(mark in command for mark in ";&|<>$`\n"):
        return "nobody", ("its command has signs that a shell reads",)
    role = ", only asks" if asked.read else ""
    unlogged = () if asked.log else ("its command has no `--log FILE`, so only the system's log has who did what",)
    return asked.designer.decode("ascii") + (" or anybody" if asked.any_name else "") + role, unlogged


def strings_of(key: str) -> Iterator[bytes]:
    """The strings of a key, as far as they can be read: its type, and what its type says."""
    with contextlib.suppress(binascii.Error):
        blob, at = base64.b64decode(key, validate=True), 0
        while at + 4 <= len(blob):
            size = int.from_bytes(blob[at:at + 4], "big")
            yield blob[at + 4:at + 4 + size]
            at += 4 + size


def weakness_of(kind: str, key: str) -> str:
    """Why a key is nobody's alone, or nothing."""
    inside, point, *_ = (*strings_of(key), b"", b"")
    if inside != kind.encode("ascii"):
        return "its key can't be read"
    if inside not in ED25519:
        return ""
    if int.from_bytes(point, "little") % 2 ** 255 in OF_SMALL_ORDER:
        return "everybody can sign by its key, without a secret: put in the designer's own"
    return "its key is an example's: put in the designer's own" if point.startswith(ZEROS) else ""


def key_of(line: str) -> Key:
    """What a line of the file says."""
    found = LINE.fullmatch(line)
    options = options_of(found["options"] or "") if found else None
    if found is None or options is None:
        return Key("nobody", "-", line[:60], ("it can't be read",))
    who, wrong = speaks_for(options["command"]) if "command" in options else ("ANYBODY, by a shell", ("it has no command",))
    complaints = [each for each in (*wrong, weakness_of(found["type"], found["key"])) if each]
    complaints += [] if "restrict" in options else ["it has no `restrict`"]
    complaints += [f"it has `{option}`" for option in UNDONE if option in options]
    fingerprint = fingerprint_of(f"{found['type']} {found['key']}".encode("ascii"))
    return Key(who, fingerprint, found["comment"] or "", tuple(complaints))


def complaints_of(lines: List[str]) -> Tuple[List[str], List[str]]:
    """A sentence for each key, and one for each thing that is wrong."""
    told: List[str] = []
    wrong: List[str] = []
    seen: Dict[str, int] = {}
    for number, line in enumerate(lines, 1):
        if not line.strip() or line.lstrip().startswith("#"):
            continue
        key = key_of(line.strip())
        told.append(f"{key.who}: {key.fingerprint} {key.comment}".rstrip())
        wrong += [f"line {number}: {complaint}" for complaint in key.wrong]
        if key.fingerprint in seen and key.fingerprint != "-":
            wrong.append(f"line {number}: the key of line {seen[key.fingerprint]}, which is the one that sshd takes")
        seen.setdefault(key.fingerprint, number)
    return told, wrong


def main() -> int:
    """0 if each key speaks for a name, else 1."""
    parser = argparse.ArgumentParser(prog="vaultd-gate-keys", description=__doc__, formatter_class=argparse.RawDescriptionHelpFormatter)
    parser.add_argument("file", metavar="FILE", help="as /etc/ssh/vaultd-gate/authorized_keys")
    asked = parser.parse_args()
    try:
        text = Path(asked.file).read_text("utf-8", "backslashreplace")
    except OSError as error:
        return say_error("vaultd-gate-keys", error)
    told, wrong = complaints_of(text.split("\n"))
    if not told:
        print(f"{asked.file} lets nobody in yet: put in a line for each designer's key.")
    for sentence in told:
        print("".join(mark if mark.isprintable() else "?" for mark in sentence))
    for sentence in wrong:
        print(f"vaultd-gate-keys: {sentence}. Mend it before sshd takes it.", file=sys.stderr)
    return 1 if wrong else 0
