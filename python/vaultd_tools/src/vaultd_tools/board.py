"""Writes one HTML page that shows who holds what in a vault, and who waits behind whom, with the curves of the line.

The files are copied first, so the server may run. The page needs nothing else: no network, no script.
"""

from __future__ import annotations

import argparse
import tempfile
import time
from pathlib import Path

from vaultd_tools.files import Report, ToolError, copy_vault, find_vaultd, inspect, say_error
from vaultd_tools.page.model import now
from vaultd_tools.page.render import Renderer
from vaultd_tools.page.rows import Rows
from vaultd_tools.page.waits import Line


def in_words(counts: str) -> str:
    """The counts of a report, as `places 4, versions 0`, in words."""
    return ", ".join(f"{number} {what if number != '1' else what[:-1]}" for what, number in map(str.split, counts.split(", ")))


def page(report: Report, title: str) -> str:
    """The whole page, by the templates of vaultd-page."""
    claims, renderer = report.claims(), Renderer(links=False)
    line = Line.of(claims)
    held = line.held
    waiting = len(claims) - held
    rows = Rows(line, {})
    texts = {"tally": renderer.piece("tally", waiting, len(line.blockers()), held, len({claim.owner for claim in claims})),
             "line-words": renderer.piece("line_words", held, waiting, line.longest),
             "waits-words": renderer.piece("waits_words", len(line.blockers()), waiting, held),
             "rings": renderer.piece("rings", rows.rings()),
             "designers": renderer.piece("designers", rows.designers())}
    return renderer.page("board.html", title=title, vault=title, time=now(), counts=in_words(report.counts or ""), texts=texts,
                         lists={"line": renderer.claims(rows.claims(claims)), "blockers": renderer.blockers(rows.blockers())})


def report_of(vaultd: str, first: str, second: str, tries: int) -> Report:
    """The report on a copy of the vault. A copy that doesn't open is made again."""
    for number in range(tries):
        time.sleep(0.2 * number)
        with tempfile.TemporaryDirectory(prefix="vault-board-") as folder:
            report = inspect(vaultd, copy_vault(first, second, Path(folder)))
            if report.counts is not None:
                return report
    raise ToolError("the vault does not open:\n" + report.text.rstrip() + "\nSee vaultd-salvage, or take the last backup.")


def words() -> argparse.Namespace:
    """The command line."""
    parser = argparse.ArgumentParser(prog="vaultd-board", description=__doc__, formatter_class=argparse.RawDescriptionHelpFormatter)
    parser.add_argument("first", metavar="A", help="the vault's first file")
    parser.add_argument("second", metavar="B", help="the vault's second file")
    parser.add_argument("--title", default="The design vault", help="the page's title")
    parser.add_argument("--vaultd", metavar="PROGRAM", help="the program vaultd")
    return parser.parse_args()


def main() -> int:
    """Prints the page. 0 if the vault opens, else 1."""
    asked = words()
    try:
        report = report_of(find_vaultd(asked.vaultd), asked.first, asked.second, 5)
    except (ToolError, OSError) as error:
        return say_error("vaultd-board", error)
    print(page(report, asked.title), end="")
    return 0
