"""What the tests of the built program share: it runs in a folder of its own, and each try has a name."""

import fcntl
import os
import socket
import subprocess
import tempfile
import unittest
from typing import IO, Any, Dict, List, Optional, Tuple, Union

from servers import VAULTD, Limits, Server

NEW = bytes.fromhex("014c4c5641554c5400000002000000000000000100000" "00a00000000000000010000" "00")
NEW_TEXT = "file a: open, generation 1, frames 0, tail 34\nfile b: closed\nplaces 1, versions 0, claims 0, drafts 0\n"
IN_USE_TEXT = "vault in use: a server may have written while the files were read\n"
# What the program says on standard error if it ends with status 1.
FAULTS = {
    "vault exists": "vault exists",
    "in use": "vault in use",
    "no vault": "no vault",
    "damage in a": "file a damaged at {}",
    "damage in b": "file b damaged at {}",
    "device": "device fault",
    "descriptors": "want of descriptors: {} are needed, and the limit is {}",
    "memory": "want of memory",
    "read": "read fault",
    "write": "write fault",
    "long script": "script too long",
}

Done = Tuple[Optional[int], str, str]


def fault(kind: str, *numbers: int) -> Done:
    """The status, the output and the errors of a program that ends with this fault."""
    return 1, "", FAULTS[kind].format(*numbers) + "\n"


def run(*words: Union[str, bytes], stdin: Union[bytes, int] = b"", stdout: int = subprocess.PIPE, limits: Limits = Limits()) -> Done:
    """Runs the program to its end, with these bytes or this file as standard input: its status, its output and its errors."""
    given: Dict[str, Any] = {"input" if isinstance(stdin, bytes) else "stdin": stdin}
    try:
        done = subprocess.run([VAULTD, *words], stdout=stdout, stderr=subprocess.PIPE, preexec_fn=limits.take_effect, timeout=60,
                              check=False, **given)
    except subprocess.TimeoutExpired:
        return None, "", "it went on for a minute"
    return done.returncode, (done.stdout or b"").decode(), done.stderr.decode()


def lay(**contents: Optional[bytes]) -> None:
    """Writes these bytes to each of these files, and removes those that have none."""
    for path, content in contents.items():
        if content is not None:
            with open(path, "wb") as file:
                file.write(content)
        elif os.path.exists(path):
            os.remove(path)


def content_of(path: str) -> bytes:
    """What a file holds."""
    with open(path, "rb") as file:
        return file.read()


def held(*paths: str) -> List[Optional[bytes]]:
    """What each of these files holds, None for one that isn't there."""
    return [content_of(path) if os.path.exists(path) else None for path in paths]


def lock(path: str, kind: int = fcntl.LOCK_EX) -> IO[bytes]:
    """Locks a file as another program would, until the file that is handed back is closed."""
    file = open(path, "rb+")
    fcntl.flock(file, kind | fcntl.LOCK_NB)
    return file


def told(connection: socket.socket, text: bytes, replies: int) -> bytes:
    """The first replies on a connection to a text, this many."""
    connection.sendall(text)
    got = b""
    while got.count(b"\n") < replies:
        more = connection.recv(65536)
        if not more:
            break
        got += more
    return got


def heard(connection: socket.socket) -> bytes:
    """All that comes on a connection, up to its end."""
    got = b""
    while more := connection.recv(65536):
        got += more
    return got


class Tries(unittest.TestCase):
    """A folder of its own to work in, for the files a and b of a vault."""

    # The folder that this one is in. None: where temporary files are.
    above: Optional[str] = None

    def setUp(self) -> None:
        folder = tempfile.TemporaryDirectory(prefix="vault-test-", dir=self.above)
        self.addCleanup(folder.cleanup)
        self.addCleanup(os.chdir, os.getcwd())
        os.chdir(folder.name)

    def check(self, name: str, holds: bool, seen: object = "") -> None:
        """One try, which must hold; those after it are made in any case."""
        with self.subTest(name):
            self.assertTrue(holds, seen)

    def same(self, name: str, seen: object, wanted: object) -> None:
        """One try that must give this."""
        with self.subTest(name):
            self.assertEqual(seen, wanted)

    def new_vault(self) -> None:
        """Makes a new vault in the files a and b."""
        lay(a=None, b=None)
        self.same("create", (run("create", "a", "b"), held("a", "b")), ((0, "created\n", ""), [NEW, b""]))

    def serve(self, *words: str, limits: Limits = Limits()) -> Server:
        """Starts a server over the vault in the files a and b."""
        server = Server(*words, files=("a", "b"))
        self.addCleanup(server.close)
        server.start(limits)
        return server

    def inspected(self) -> str:
        """What the program says of the files a and b."""
        return run("inspect", "a", "b")[1]
