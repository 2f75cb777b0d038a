"""Who the designer is, and at which server: named by a word, or remembered from the last `vault hello`."""

import os
from typing import Optional

from vault.errors import MisusedError
from vault.files.own_folders import state_folder
from vault.files.whole import write_whole


def remember_designer(word: str) -> None:
    """Remembers a designer at a server for the commands that name none."""
    state_folder().mkdir(mode=0o700, parents=True, exist_ok=True)
    write_whole(state_folder() / "current", (word + "\n").encode("utf-8"))


def last_designer() -> Optional[str]:
    """The designer and the server that are meant where nothing else says so: named by VAULT_AS, or by the last `vault hello`."""
    try:
        return os.environ.get("VAULT_AS") or (state_folder() / "current").read_text("utf-8").strip()
    except FileNotFoundError:
        return None


def said(who: Optional[str]) -> str:
    """The designer and the server, if somebody is meant."""
    if who is None:
        raise MisusedError("Nobody has said hello here. Say `vault hello NAME@HOST:PORT` first.")
    return who
