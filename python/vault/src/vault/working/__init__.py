"""Working folders: an assembly's parts as files. Nothing that was changed there is ever written over."""

from typing import TYPE_CHECKING, Any

if TYPE_CHECKING:
    from vault.working.whole import Working

__all__ = ["Working"]


def __getattr__(name: str) -> Any:
    """Loads all that is done with a working folder once it is asked for: what only looks at one needs less."""
    if name != "Working":
        raise AttributeError(f"module {__name__!r} has no attribute {name!r}")
    from vault.working.whole import Working
    return Working
