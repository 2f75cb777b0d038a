"""An ssh agent that has no secret, and signs by a public key whose point has order 4."""

import hashlib
import socket
import struct
import threading
from pathlib import Path
from typing import Iterator, Optional

KIND = b"ssh-ed25519"
ORDER = 2 ** 252 + 27742317777372353535851937790883648493
# The multiples of a point of order 4, from none on, as keys and signatures spell them. The second is the key.
MULTIPLES = (bytes([1, *bytes(31)]), bytes(32), (2 ** 255 - 20).to_bytes(32, "little"), bytes([*bytes(31), 128]))
ASKS_KEYS, HAS_KEYS, ASKS_TO_SIGN, SIGNED, REFUSES = 11, 12, 13, 14, 5


def string(content: bytes) -> bytes:
    """A string of the protocol."""
    return struct.pack(">I", len(content)) + content


def strings(data: bytes) -> Iterator[bytes]:
    """The strings of a message."""
    while len(data) >= 4:
        size, = struct.unpack(">I", data[:4])
        yield data[4:4 + size]
        data = data[4 + size:]


KEY = string(KIND) + string(MULTIPLES[1])


def forged(message: bytes) -> Optional[bytes]:
    """A signature of a message that the key's check takes. Two messages of three have one."""
    for number, first in enumerate(MULTIPLES):
        hashed = int.from_bytes(hashlib.sha512(first + MULTIPLES[1] + message).digest(), "little") % ORDER
        if (number + hashed) % 4 == 0:
            return first + bytes(32)
    return None


class Forger:
    """The agent, at a socket in a folder."""

    def __init__(self, folder: Path):
        self.path = folder / "agent"
        self.listener = socket.socket(socket.AF_UNIX)
        self.listener.bind(str(self.path))
        self.listener.listen()
        self.accepts = threading.Thread(target=self._accept, daemon=True)
        self.accepts.start()

    def close(self) -> None:
        """Takes no more connections."""
        self.listener.shutdown(socket.SHUT_RDWR)
        self.accepts.join()
        self.listener.close()

    def _accept(self) -> None:
        while True:
            try:
                client, _ = self.listener.accept()
            except OSError:
                return
            threading.Thread(target=self._serve, args=(client,), daemon=True).start()

    def _serve(self, client: socket.socket) -> None:
        with client, client.makefile("rb") as asked:
            while head := asked.read(5):
                size, kind = struct.unpack(">IB", head)
                client.sendall(string(self._answer(kind, asked.read(size - 1))))

    def _answer(self, kind: int, content: bytes) -> bytes:
        if kind == ASKS_KEYS:
            return bytes([HAS_KEYS]) + struct.pack(">I", 1) + string(KEY) + string(b"nobody's")
        signature = forged(list(strings(content))[1]) if kind == ASKS_TO_SIGN else None
        return bytes([REFUSES]) if signature is None else bytes([SIGNED]) + string(string(KIND) + string(signature))
