"""Colours for somebody who looks at a terminal: of an answer's lists, and of what went wrong. The words are the same without."""

from typing import List, TextIO

from rich.console import Console
from rich.highlighter import RegexHighlighter
from rich.text import Text
from rich.theme import Theme

THEME = Theme({"vault.command": "cyan", "vault.claim": "bold", "vault.place": "blue", "vault.good": "green", "vault.waits": "yellow",
               "vault.bad": "red", "vault.own": "dim"})


class Sentences(RegexHighlighter):
    """What stands out in a sentence."""

    base_style = "vault."
    highlights = [
        r"(?P<command>`[^`]*`)",
        r"(?P<claim>\b[ch][1-9][0-9]{0,9}\b)",
        r"(?<![^\s`:(])(?P<place>/[a-z0-9_-]+(/[a-z0-9_-]+)*)(?=[\s,;:.)`]|$)",
        r"(?P<good>\bis held\b|\byou hold\b|\bput(?=,|\.$)|\bchecked out by you\b|\bchecked in\b)",
        r"(?P<waits>\bqueued\b|\byou wait\b|\bchanged here\b|\bchecked out by (?!you)[a-z0-9_-]+|\bnew(?=,|\.$)|\bnot in the vault\b)",
        r"(?P<bad>\bmissing here\b|\bcan't be read\b|\bisn't in the vault any more\b|\bis gone\b)",
        r"(?P<own>^So it is with .*|^.*: `--all` lists them\.$|(?<=  )[a-z0-9_-]+(?=  \S))"]


def show(text: str, stream: TextIO, wrong: bool = False) -> None:
    """Prints a text in colours; of one that says what went wrong the first word is red."""
    console = Console(file=stream, theme=THEME, highlight=False, soft_wrap=True)
    lines: List[Text] = []
    for line in text.split("\n"):
        shown = Sentences()(Text(line))
        if wrong and not lines:
            shown.stylize("bold red", 0, line.find(" "))
        lines.append(shown)
    console.print(Text("\n").join(lines))
