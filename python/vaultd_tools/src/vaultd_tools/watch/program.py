"""Looks whether a vault's server serves, restarts it where it is deaf, and keeps it down where its vault is broken.

`vaultd-watch.timer` does this each minute. `ask` says in a line what it finds. `act` does what follows from that: a deaf server is
restarted, and nothing else is. A broken one gets a mark, and no unit starts its server again while the mark is there, until a person has
done what "A broken vault" in OPERATING says. So does one that is deaf since its disk gives no answer: what it writes may fail, and a server
that is started over the same mount doesn't hear of that. `ended` is called by the server's unit behind each end: it sets the mark, too, where
the server had said `device fault`, but for a file that couldn't be opened at its start, which a person mends.
"""

import argparse
import os
import re
import subprocess
import sys
import time
from pathlib import Path
from typing import List, Tuple

from vault.files.whole import write_whole
from vaultd_tools.errors import ToolError
from vaultd_tools.output import say_error
from vaultd_tools.watch.asking import BROKEN, BUSY, DEAF, DOWN, ODD, PATIENCE, SERVES, Answer, ask
from vaultd_tools.words import address

MARKS = Path("/run/vaultd-watch")
STATUS = {SERVES: 0, BUSY: 0, ODD: 1, DEAF: 3, BROKEN: 4, DOWN: 5}
DEVICE_FAULT = "device fault"
# The line behind it, if a file can't be opened: its path in quotes.
NOT_OPENED = re.compile(r'".*", opened: ')
ADVICE = "Do as \"A broken vault\" in /usr/share/doc/vaultd/OPERATING.md says, and then remove that file"
MOST_OF_A_MARK = 200
# How often a deaf server's threads are looked at, a second apart, until it counts as one that hangs.
LOOKS = 5


def mark_of(marks: Path, unit: str) -> Path:
    """The path of the mark of a unit's server."""
    name = unit[:-len(".service")] if unit.endswith(".service") else unit
    if not name or "/" in name or name.startswith("."):
        raise ToolError(f"`{unit}` is no unit's name: write it as vaultd.service or vaultd@plant.service.")
    return marks / f"{name}.broken"


def set_mark(mark: Path, reason: str) -> str:
    """Marks a server as broken, once, and says so."""
    if not mark.exists():
        mark.parent.mkdir(mode=0o755, parents=True, exist_ok=True)
        write_whole(mark, f"{time.strftime('%Y-%m-%dT%H:%M:%SZ', time.gmtime())} {reason}\n".encode("utf-8"), 0o644)
    return f"The vault is broken ({reason}). Its server isn't started again while {mark} is there. {ADVICE}"


def kept_down(unit: str, mark: Path) -> str:
    """Says that a server isn't started, by which mark, and since when and why that is there: systemd says at a start that an assertion failed, and
    not which."""
    return f"{unit} isn't started while {mark} is there ({why(mark)}). {ADVICE}"


def why(mark: Path) -> str:
    """What a mark says of when and why it was set."""
    try:
        return mark.read_text("utf-8", "replace")[:MOST_OF_A_MARK].strip() or "it says nothing"
    except OSError as error:
        return error.strerror or "it can't be read"


def restart(unit: str) -> str:
    """Restarts a unit's server if it runs, and says so. One that somebody stopped stays stopped."""
    done = subprocess.run(["systemctl", "--no-block", "try-restart", "--", unit], capture_output=True, text=True, check=False)
    if done.returncode != 0:
        raise ToolError(f"`systemctl try-restart {unit}` said: {done.stderr.strip() or done.returncode}. Restart the server by hand.")
    return f"{unit} is restarted"


def in_its_disk(unit: str) -> bool:
    """Whether a thread of a unit's server waits for a disk just now, in the kernel, from where no signal fetches it."""
    done = subprocess.run(["systemctl", "show", "--property=MainPID", "--value", "--", unit], capture_output=True, text=True, check=False)
    if done.returncode != 0 or not done.stdout.strip().isdigit():
        raise ToolError(f"`systemctl show {unit}` said: {done.stderr.strip() or done.stdout.strip()}. Look by hand whether the server hangs.")
    states: List[str] = []
    for file in Path("/proc", done.stdout.strip(), "task").glob("*/stat"):
        try:
            states.append(file.read_text("utf-8", "replace").rpartition(")")[2].split()[0])
        except OSError:
            continue
    return "D" in states


def waits_for_its_disk(unit: str) -> List[bool]:
    """What several looks at a deaf server found, up to the first at which it doesn't wait for its disk."""
    found: List[bool] = []
    while len(found) < LOOKS and all(found):
        time.sleep(1 if found else 0)
        found.append(in_its_disk(unit))
    return found


def act_on_deaf(unit: str, mark: Path) -> str:
    """Restarts a deaf server, but not where its vault broke, or may be about to: if it hangs in its disk."""
    if mark.exists():
        return f"The server is deaf, and isn't restarted: {mark} is there, since its vault broke"
    found = waits_for_its_disk(unit)
    if all(found):
        return set_mark(mark, "its server is deaf, and hangs in its disk")
    return "The server was deaf, and its disk answers again: the next look says whether it serves" if any(found) else restart(unit)


def act(unit: str, status: str, marks: Path) -> str:
    """Does what follows from the status with which `ask` ended; answers what was done, or nothing."""
    mark = mark_of(marks, unit)
    if status == str(STATUS[BROKEN]):
        return set_mark(mark, "its server said ERR 82")
    if status == str(STATUS[DOWN]) and mark.exists():
        return kept_down(unit, mark)
    return act_on_deaf(unit, mark) if status == str(STATUS[DEAF]) else ""


def said_by(invocation: str) -> str:
    """What one run of a unit said to the journal, all of it."""
    subprocess.run(["journalctl", "--sync"], capture_output=True, check=False)
    done = subprocess.run(["journalctl", "--quiet", "--no-pager", "-o", "cat", f"_SYSTEMD_INVOCATION_ID={invocation}"], capture_output=True,
                          text=True, errors="replace", check=False)
    if done.returncode != 0:
        raise ToolError(f"journalctl said: {done.stderr.strip() or done.returncode}. Look by hand whether the server said `{DEVICE_FAULT}`.")
    return done.stdout


def ended(unit: str, invocation: str, marks: Path) -> str:
    """Marks a server that ended as broken if it had said `device fault`, but not where a file couldn't be opened, which breaks nothing;
    answers what was done, or that a mark is there, or nothing."""
    lines = said_by(invocation).splitlines()
    faults = [reason for line, reason in zip(lines, [*lines[1:], ""]) if line == DEVICE_FAULT and not NOT_OPENED.match(reason)]
    mark = mark_of(marks, unit)
    if faults:
        return set_mark(mark, f"its server said `{DEVICE_FAULT}`")
    return kept_down(unit, mark) if mark.exists() else ""


def words() -> argparse.Namespace:
    """The command line."""
    parser = argparse.ArgumentParser(prog="vaultd-watch", description=__doc__, formatter_class=argparse.RawDescriptionHelpFormatter)
    kinds = parser.add_subparsers(dest="kind", required=True, metavar="ask|act|ended")
    asks = kinds.add_parser("ask", help="say in a line whether a server serves; status 0 where it does or is busy, 3 where it is deaf, 4 where"
                            " its vault is broken, 5 where nobody listens, 1 where something else is there")
    asks.add_argument("address", type=address, metavar="HOST:PORT", help="as 127.0.0.1:7070")
    asks.add_argument("--patience", type=float, default=PATIENCE, metavar="SECONDS",
                      help=f"for how long it waits for an answer ({PATIENCE:g}; a server that is full says so behind its --full, 60 seconds)")
    for name, what in (("act", "do what follows from the status of `ask`, which stands in EXIT_STATUS"),
                       ("ended", "behind a server's end, whose INVOCATION_ID the unit gives: mark it where its vault broke")):
        acts = kinds.add_parser(name, help=what)
        acts.add_argument("unit", metavar="UNIT", help="as vaultd.service")
        acts.add_argument("--marks", type=Path, default=MARKS, metavar="FOLDER", help=f"where marks stand ({MARKS})")
    return parser.parse_args()


def asked(where: Tuple[str, int], patience: float) -> int:
    """Asks, says what was found, and answers its status."""
    found: Answer = ask(*where, patience)
    print(found.sentence + ".", flush=True)
    return STATUS[found.kind]


def main() -> int:
    """The status of what was found; for `act` and `ended` 0 if they could do their work, else 1."""
    given = words()
    if given.kind == "ask":
        return asked(given.address, given.patience)
    try:
        done = (act(given.unit, os.environ.get("EXIT_STATUS", ""), given.marks) if given.kind == "act"
                else ended(given.unit, os.environ.get("INVOCATION_ID", ""), given.marks))
    except (ToolError, OSError) as error:
        return say_error("vaultd-watch", error)
    if done:
        print(done + ".", file=sys.stderr)
    return 0
