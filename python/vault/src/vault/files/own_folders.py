"""Where the client keeps its files, by the custom of the system that it runs on."""

import os
import sys
from pathlib import Path
from typing import Optional

NAME = "vault"


def cache_folder() -> Path:
    """Where the client keeps copies of bytes that it can fetch again."""
    return by_platform("user_cache_path") or Path(os.environ.get("XDG_CACHE_HOME") or os.path.expanduser("~/.cache")) / NAME


def state_folder() -> Path:
    """Where the client remembers who its designer is, the check-outs, and the copies of drafts."""
    return by_platform("user_state_path") or Path(os.environ.get("XDG_STATE_HOME") or os.path.expanduser("~/.local/state")) / NAME


def by_platform(what: str) -> Optional[Path]:
    """A folder by the custom of another system than Linux, whose own is simple; nothing without the library that knows it."""
    if sys.platform == "linux":
        return None
    try:
        import platformdirs
    except ImportError:
        return None
    found: Path = getattr(platformdirs, what)(NAME, appauthor=False)
    return found
