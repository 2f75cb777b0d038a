"""The gate's log: who asked for which change, and what was answered.

A change has a line before it is sent to the server (`asks`) and one after it: `told` with the reply, or `lost` if the connection ended
without one. What the gate itself refuses has one line, `refused`, for the first ones of a conversation. Whatever comes from outside is one
of the protocol's words, or is escaped, so nobody can forge a line.
"""

from __future__ import annotations

import os
import re
import socket
import time
from collections.abc import Callable

from vault.errors import VaultError

KEY = re.compile(rb"publickey ([a-z0-9@.-]{1,64}) ([A-Za-z0-9+/=]{1,65536})")
FINGERPRINT = re.compile(r"SHA256:[A-Za-z0-9+/]{43}")
ADDRESS = re.compile(r"[0-9A-Fa-f:.]{2,45}(%[A-Za-z0-9._-]{1,32})?")
AUTHPRIV_INFO = 10 * 8 + 6
SYSLOG_SECONDS = 1.0
LONGEST_SHOWN = 512


def plain(text: bytes) -> str:
    """What a server said, for one line of a log."""
    return "".join(chr(byte) if 32 <= byte < 127 and byte != 92 else f"\\x{byte:02x}" for byte in text[:LONGEST_SHOWN])


def fingerprint_of(key: bytes) -> str:
    """The fingerprint of a public key as sshd's own log has it, or `-`. ssh-keygen computes it: a library of hashes is larger than the
    gate."""
    given, giving = os.pipe()
    told, telling = os.pipe()
    try:
        process = os.posix_spawn("/usr/bin/ssh-keygen", ["ssh-keygen", "-l", "-E", "sha256", "-f", "-"], {"PATH": "/usr/bin:/bin"}, file_actions=[
            (os.POSIX_SPAWN_DUP2, given, 0), (os.POSIX_SPAWN_DUP2, telling, 1), (os.POSIX_SPAWN_OPEN, 2, os.devnull, os.O_WRONLY, 0)])
        os.close(telling)
        telling = -1
        os.write(giving, key[:60000] + b"\n")
        os.close(giving)
        giving = -1
        said = os.read(told, 4096).decode("ascii", "replace")
        os.waitpid(process, 0)
    except OSError:
        return "-"
    finally:
        for end in (given, giving, told, telling):
            if end >= 0:
                os.close(end)
    found = FINGERPRINT.search(said)
    return found[0] if found else "-"


def keys_of(path: str | None) -> str:
    """The fingerprints of the keys by which sshd let this connection in, from the file that its ExposeAuthInfo writes, or `-`."""
    try:
        with open(path or "", "rb") as file:
            lines = file.read(200000).splitlines()
    except OSError:
        return "-"
    found = [KEY.fullmatch(line) for line in lines]
    return ",".join(fingerprint_of(match[1] + b" " + match[2]) for match in found if match) or "-"


def address_of(connection: str | None) -> str:
    """Where a connection comes from, by sshd's SSH_CONNECTION, or `-`."""
    word = (connection or "-").split(" ")[0]
    return word if ADDRESS.fullmatch(word) else "-"


def now() -> str:
    """The time, to the microsecond."""
    seconds, nanoseconds = divmod(time.time_ns(), 10 ** 9)
    return time.strftime("%Y-%m-%dT%H:%M:%S", time.gmtime(seconds)) + f".{nanoseconds // 1000:06d}Z"


class UnwrittenError(VaultError):
    """No log that has to take a line took it; says why."""


def opened(path: str) -> int:
    """A log's file, which is made where it is missing."""
    return os.open(path, os.O_WRONLY | os.O_APPEND | os.O_CREAT | os.O_CLOEXEC | os.O_NOCTTY, 0o640)


class Log:
    """Writes each line to the system's log, if there is one, and to a file, if one is named. A file is only appended to, each line by
    one write. If it is put away and another stands in its place, as after a rotation, the lines go there. Where no file is named, the
    system's log has to take each line."""

    def __init__(self, who: str, path: str | None, synced: bool, syslog: str, say: Callable[[str], None]):
        self.who, self.synced, self.say = who, synced, say
        self.syslog_path, self.why = syslog, ""
        self.syslog = self._system_log()
        self.path, self.torn = path, False
        self.file = -1 if path is None else opened(path)
        if self.syslog is None:
            self.say(self.why)

    def _system_log(self) -> socket.socket | None:
        """A way to the system's log; if there is none, it is noted why."""
        log = socket.socket(socket.AF_UNIX, socket.SOCK_DGRAM)
        log.settimeout(SYSLOG_SECONDS)
        try:
            log.connect(self.syslog_path)
            return log
        except OSError as error:
            log.close()
            self.why = f"no system log takes lines at {self.syslog_path}: {error.strerror}"
            return None

    def write(self, number: str, name: str, kind: str, what: str, leaves: int = 0) -> None:
        """Writes a line. Raises if the file doesn't take it, or if fewer bytes than these are free on its disk. The system's log may be away,
        but not where there is no file."""
        line = f"{now()} id={number} {self.who} as={name} {kind} {what}"
        if self.path is not None:
            self._to_file(self.path, line, leaves)
        if not self._to_system_log(line) and self.path is None:
            raise UnwrittenError(f"no log takes a line: {self.why}, and no file is named with --log")

    def _is_short_of(self, size: int) -> bool:
        """Whether fewer bytes than these are free on the file's disk, if it says so."""
        found = os.fstatvfs(self.file)
        return found.f_blocks > 0 and found.f_bavail * found.f_frsize < size

    def _follow(self, path: str) -> None:
        """Goes over to the file that has the name now. While none has it, the earlier one takes lines, unless it was removed."""
        held = os.fstat(self.file)
        try:
            named = os.stat(path)
        except FileNotFoundError:
            if held.st_nlink:
                return
        else:
            if os.path.samestat(held, named):
                return
        other = opened(path)
        os.close(self.file)
        self.file, self.torn = other, False

    def _to_file(self, path: str, line: str, leaves: int) -> None:
        try:
            self._follow(path)
            text = (("\n" if self.torn else "") + line + "\n").encode("ascii")
            if leaves and self._is_short_of(leaves):
                raise UnwrittenError(f"the log's disk has less than {leaves // 1_000_000} MB left")
            written = os.write(self.file, text)
            self.torn = self.torn and written == 0 or 0 < written < len(text)
            if written < len(text):
                raise UnwrittenError("the log's disk is full")
            if self.synced:
                os.fdatasync(self.file)
        except OSError as error:
            raise UnwrittenError(f"the log can't be written: {error.strerror}") from error

    def _to_system_log(self, line: str) -> bool:
        """Sends a line to the system's log, or to the one that was started in its place; answers whether it was taken. A log that was lost
        is said; where no file has the lines, it is looked for at each."""
        text = f"<{AUTHPRIV_INFO}>{time.strftime('%b %e %H:%M:%S')} vaultd-gate[{os.getpid()}]: {line}".encode("ascii")
        was_there = self.syslog is not None
        if self.path is None and not was_there:
            self.syslog = self._system_log()
        taken = self._is_sent(text) or self._is_sent(text)
        if was_there and not taken and self.path is not None:
            self.say(self.why)
        return taken

    def _is_sent(self, text: bytes) -> bool:
        """Whether the system's log took this. If not, the next try is with the one that is there by then."""
        if self.syslog is None:
            return False
        try:
            self.syslog.send(text)
            return True
        except OSError as error:
            self.syslog.close()
            self.why = f"the system's log didn't take a line: {error.strerror or error}"
            self.syslog = self._system_log()
            return False
