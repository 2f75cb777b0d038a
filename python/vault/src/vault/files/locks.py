"""Locks on files, which keep other clients of a designer away: by flock, where the system has it, and else by the library filelock."""

import os
from pathlib import Path
from typing import Any

from vault.errors import VaultError
from vault.files.text import why

try:
    import fcntl
except ImportError:
    fcntl = None  # type: ignore[assignment]


class Lock:
    """A lock on a file, which is made if it isn't there. It ends with the program at the latest."""

    def __init__(self, path: Path):
        self.path = path
        self.descriptor = -1

    def take(self, wait: bool = False) -> bool:
        """Takes the lock, and answers whether it could, or another has it. If that is asked, it waits for that."""
        self.descriptor = os.open(self.path, os.O_RDWR | os.O_CREAT, 0o644)
        try:
            fcntl.flock(self.descriptor, fcntl.LOCK_EX | (0 if wait else fcntl.LOCK_NB))
        except (BlockingIOError, PermissionError):  # some shares say by the latter that another has it
            self.release()
            return False
        except OSError as error:
            self.release()
            raise no_locks(self.path, why(error)) from error
        except BaseException:
            self.release()
            raise
        return True

    def release(self) -> None:
        """Lets go."""
        os.close(self.descriptor)


class LibraryLock(Lock):
    """The same where the system has no flock. The library is loaded only there: it takes longer than a question to a server."""

    lock: Any = None

    def take(self, wait: bool = False) -> bool:
        """Takes the lock by the library."""
        from filelock import FileLock, Timeout
        self.lock = FileLock(self.path)
        try:
            self.lock.acquire(timeout=-1 if wait else 0)
        except Timeout:
            return False
        except NotImplementedError as error:
            raise no_locks(self.path, str(error)) from error
        return True

    def release(self) -> None:
        """Lets go."""
        self.lock.release()


def lock_at(path: Path) -> Lock:
    """A lock on a file, as this system has it."""
    return LibraryLock(path) if fcntl is None else Lock(path)


def no_locks(path: Path, reason: str) -> VaultError:
    """Says that a disk gives no locks."""
    return VaultError(f"{path} can't be locked: {reason}. Nothing was done. Have that folder on a disk of this machine, or ask whoever runs the"
                      " share for locks.")
