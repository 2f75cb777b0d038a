"""What is no part: files that CAD programs and desktops leave, and what `.vaultignore` in a folder says, by gitignore's patterns."""

from pathlib import Path
from typing import Callable

from vault.errors import MisusedError, VaultError
from vault.files.text import why

IGNORE_FILE = ".vaultignore"
# Locks of office and CAD programs, their temporary and backup files, and what desktops keep of a folder.
LEFT_BY_PROGRAMS = ("~$*", ".~lock.*#", "*.tmp", "*.bak", "Thumbs.db", "desktop.ini", ".DS_Store")
Ignored = Callable[[str], bool]


def ignored_in(folder: Path) -> Ignored:
    """Whether a path in a folder is ignored, with `/` between names, and behind a folder's."""
    try:
        from pathspec import PathSpec
    except ImportError as error:
        raise VaultError("Python's library pathspec isn't there: install python3-pathspec.") from error
    try:
        said = (folder / IGNORE_FILE).read_text("utf-8").splitlines()
    except FileNotFoundError:
        said = []
    except (OSError, UnicodeDecodeError) as error:
        reason = why(error) if isinstance(error, OSError) else "it is no text in UTF-8"
        raise MisusedError(f"{folder / IGNORE_FILE} can't be read: {reason}.") from error
    try:
        spec = PathSpec.from_lines("gitwildmatch", [*LEFT_BY_PROGRAMS, *said])
    except ValueError as error:
        raise MisusedError(f"{folder / IGNORE_FILE} has a line that is no pattern: {error}. They are as in .gitignore.") from error
    matches: Ignored = spec.match_file
    return matches
