"""Writes the figures of a vault into a file for Prometheus' textfile collector: from `vaultd check --json`, and one connection.

The file is written anew as a whole, so a reader never sees half of one. What isn't known is left out.
"""

import argparse
import os
import sys
import time
from pathlib import Path
from typing import Any, Dict, Iterator, List, Optional, Tuple

from vault.files.whole import write_whole
from vaultd_tools.errors import ToolError
from vaultd_tools.files.copies import check, find_vaultd
from vaultd_tools.output import say_error
from vaultd_tools.watch.asking import BROKEN, PATIENCE, Answer, ask
from vaultd_tools.words import address

Sample = Tuple[Dict[str, str], float]
# What `vaultd check` says if a server writes so much that no two readings agree.
IN_USE = "vault in use"
# Each figure of `vaultd check --json` that is a metric of its own, and what it says.
FIGURES = {
    "generation": "How many snapshots the vault had, the first included.",
    "journal": "Bytes of the journal; from 1 MiB on it gives way to a snapshot, at half the last snapshot's length at the latest.",
    "snapshot": "Bytes of the snapshot in the active file.",
    "places": "Places, the library counted.",
    "versions": "Versions of all parts.",
    "drafts": "Drafts of all check-outs.",
    "claims": "Check-outs, held and waiting.",
    "held": "Check-outs that are held.",
    "waiting": "Check-outs that wait behind another.",
    "weight": "Bytes of contents, as the limit of 16 MiB counts them.",
}


def escaped(text: str) -> str:
    """A label's value as the format has it."""
    return text.replace("\\", "\\\\").replace('"', '\\"').replace("\n", "\\n")


def metric(name: str, what: str, samples: List[Sample]) -> Iterator[str]:
    """The lines of a metric."""
    if samples:
        yield f"# HELP vaultd_{name} {what}"
        yield f"# TYPE vaultd_{name} gauge"
    for labels, value in samples:
        shown = ",".join(f'{label}="{escaped(text)}"' for label, text in labels.items())
        yield f"vaultd_{name}{{{shown}}} {value:.17g}"


def number(value: Any) -> Optional[float]:
    """A figure, if it is one."""
    return float(value) if isinstance(value, (int, float)) and not isinstance(value, bool) else None


def limits(checked: Dict[str, Any], key: str, vault: Dict[str, str]) -> List[Sample]:
    """One column of the limits."""
    rows = [(limit.get("name"), number(limit.get(key))) for limit in checked.get("limits") or []]
    return [({**vault, "limit": str(name)}, value) for name, value in rows if value is not None]


def last_write(files: List[str]) -> Optional[float]:
    """When one of the vault's files was last written, by a commit or a snapshot."""
    try:
        return max(os.stat(file).st_mtime for file in files)
    except OSError:
        return None


def page(vault: str, answer: Answer, checked: Dict[str, Any], written: Optional[float], now: float) -> str:
    """The whole file."""
    label = {"vault": vault}
    known = checked if checked.get("served") else {}
    lines = [*metric("up", "Whether the server answers, whatever it says.", [(label, float(answer.up))]),
             *metric("broken", "Whether the server says that its vault is broken (ERR 82).", [(label, float(answer.kind == BROKEN))]),
             *metric("check_ok", "Whether vaultd check finds files that a server would serve.",
                     [] if checked.get("reason", IN_USE) == IN_USE else [(label, float(bool(known)))])]
    for name, what in FIGURES.items():
        value = number(known.get(name))
        lines += metric(name, what, [] if value is None else [(label, value)])
    for key, name, what in (("used", "limit_used", "How much of a limit is used."), ("limit", "limit", "What a limit is.")):
        lines += metric(name, what, limits(known, key, label))
    if written is not None:
        lines += metric("last_commit_age_seconds", "How long ago a commit, or a snapshot, last wrote into the vault's files.",
                        [(label, max(0.0, now - written))])
    lines += metric("asked_timestamp_seconds", "When these figures were taken.", [(label, now)])
    return "\n".join(lines) + "\n"


def words() -> argparse.Namespace:
    """The command line."""
    parser = argparse.ArgumentParser(prog="vaultd-metrics", description=__doc__, formatter_class=argparse.RawDescriptionHelpFormatter)
    parser.add_argument("first", metavar="A", help="the vault's first file")
    parser.add_argument("second", metavar="B", help="the vault's second file")
    parser.add_argument("address", metavar="HOST:PORT", type=address, help="where its server is")
    parser.add_argument("file", metavar="FILE", type=Path, help="what is written, as /run/vaultd-metrics/vaultd.prom")
    parser.add_argument("--name", default="vaultd", help="what the label `vault` says (vaultd)")
    parser.add_argument("--patience", type=float, default=PATIENCE, metavar="SECONDS",
                        help=f"for how long it waits for the server's answer ({PATIENCE:g}; a server that is full says so behind its --full)")
    parser.add_argument("--vaultd", metavar="PROGRAM", help="the program vaultd")
    return parser.parse_args()


def main() -> int:
    """0 if the file was written with all figures, 1 if some or all are missing."""
    asked, status = words(), 0
    files, (host, port) = [asked.first, asked.second], asked.address
    checked: Dict[str, Any] = {}
    answer, now = ask(host, port, asked.patience), time.time()
    try:
        checked = check(find_vaultd(asked.vaultd), *files)
    except (ToolError, OSError) as error:
        status = say_error("vaultd-metrics", error)
    if checked and not checked.get("served"):
        print(f"vaultd-metrics: vaultd check said: {checked.get('reason')}. {checked.get('advice')}.", file=sys.stderr)
        status = int(checked.get("reason") != IN_USE)
    try:
        write_whole(asked.file, page(asked.name, answer, checked, last_write(files), now).encode("utf-8"), 0o644)
    except OSError as error:
        return say_error("vaultd-metrics", error)
    return status
