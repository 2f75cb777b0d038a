"""Tools around the two files of a vault: copies of them while the server runs, a page of who holds what, and what can be saved of
damaged ones. docs/OPERATING.md says when each is used."""

from vault import __version__

__all__ = ["__version__"]
