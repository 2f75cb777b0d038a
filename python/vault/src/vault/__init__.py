"""The client of the design vault: its program is `vault`, and `Client` is a designer at a server for other programs.

docs/TUTORIAL.md shows a day with the program, and docs/PROTOCOL.md has the lines that it sends.
"""

from importlib import import_module
from typing import TYPE_CHECKING, Any

if TYPE_CHECKING:
    from vault.client import Client
    from vault.errors import LostError, MisusedError, NotKnownError, RefusedError, UnreachableError, VaultError
    from vault.protocol.standing import Standing

# The version of all that is installed together. `vaultd --version` has the same, and a package adds when it was made.
__version__ = "0.9.0"
__all__ = ["Client", "LostError", "MisusedError", "NotKnownError", "RefusedError", "Standing", "UnreachableError", "VaultError"]
# Where what is named above is, if it isn't an error.
MODULES = {"Client": "vault.client", "Standing": "vault.protocol.standing"}


def __getattr__(name: str) -> Any:
    """Loads what is named above once it is asked for: the ssh gate reads lines by this package's grammar, and needs no client for it."""
    if name not in __all__:
        raise AttributeError(f"module {__name__!r} has no attribute {name!r}")
    return getattr(import_module(MODULES.get(name, "vault.errors")), name)
