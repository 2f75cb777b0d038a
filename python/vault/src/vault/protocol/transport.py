"""The way to a server: its address over TCP, or `ssh:HOST`, where a program behind sshd speaks to the server for one designer."""

import contextlib
import socket
from typing import IO, List

from vault.errors import LostError, UnreachableError
from vault.protocol.address import SSH, address_word
from vault.protocol.grammar import ANOTHERS

# The command that sshd is asked to run. A key of the gate has a forced command, which sshd runs instead.
GATE = "vaultd-gate"
OPTIONS = ("BatchMode=yes", "ClearAllForwardings=yes", "ForwardAgent=no", "ForwardX11=no", "PermitLocalCommand=no", "RequestTTY=no",
           "ServerAliveInterval=15", "ServerAliveCountMax=4")
PIECE = 65536


class NotLetInError(UnreachableError):
    """ssh, or the gate behind it, doesn't let this designer in. Asking again changes nothing."""

    status = 1


class Stream:
    """A stream to a server: its two directions are one socket."""

    def __init__(self, stream: socket.socket):
        self.socket = stream

    def explained(self, lost: LostError, _designer: str) -> Exception:
        """Why the server didn't greet, if more is known than that the connection ended."""
        return lost

    def close(self) -> None:
        """Ends the stream."""
        with contextlib.suppress(OSError):
            self.socket.close()


class SshStream(Stream):
    """A stream through a program `ssh`. Two threads carry bytes between its pipes and a socket; a third reads its error messages."""

    def __init__(self, host: str, port: int, seconds: float):
        ours, self.other = socket.socketpair()
        super().__init__(ours)
        # not at the start of each command: most go over TCP
        import subprocess
        import threading

        from vault.files.programs import Heard
        self.host, self.port = host, port
        try:
            self.process = subprocess.Popen(ssh_words(host, port, seconds), stdin=subprocess.PIPE, stdout=subprocess.PIPE,
                                            stderr=subprocess.PIPE)
        except OSError as error:
            self.close_sockets()
            raise NotLetInError(f"The program ssh can't be started: {error.strerror}. Install OpenSSH's client.") from error
        assert self.process.stdin is not None and self.process.stdout is not None and self.process.stderr is not None
        self.heard = Heard(self.process.stderr)
        self.threads = [threading.Thread(target=work, args=(pipe,), daemon=True) for work, pipe in (
            (self._carry_out, self.process.stdin), (self._carry_in, self.process.stdout))]
        for thread in self.threads:
            thread.start()

    def _carry_out(self, pipe: IO[bytes]) -> None:
        with contextlib.suppress(OSError, ValueError):
            while piece := self.other.recv(PIECE):
                pipe.write(piece)
                pipe.flush()
        with contextlib.suppress(OSError, ValueError):
            pipe.close()

    def _carry_in(self, pipe: IO[bytes]) -> None:
        with contextlib.suppress(OSError, ValueError):
            while piece := pipe.read1(PIECE):  # type: ignore[attr-defined]
                self.other.sendall(piece)
        with contextlib.suppress(OSError):
            self.other.shutdown(socket.SHUT_RDWR)

    def explained(self, lost: LostError, designer: str) -> Exception:
        """Why ssh, or the gate behind it, ended."""
        import subprocess
        with contextlib.suppress(subprocess.TimeoutExpired):
            self.process.wait(2)
        told = self.heard.to_the_end().decode("utf-8", "replace")
        told = "".join(mark if mark.isprintable() or mark == "\n" else "?" for mark in told)
        lines = [line.strip() for line in told.splitlines() if line.strip()]
        sentence = refusal(told, self.host, self.port, designer)
        if sentence:
            return NotLetInError(sentence)
        return LostError(lines[-1].rstrip(".")) if lines else lost

    def close_sockets(self) -> None:
        """Ends both ends of the socket."""
        super().close()
        with contextlib.suppress(OSError):
            self.other.close()

    def close(self) -> None:
        """Ends the stream, and the program if it doesn't end by that."""
        import subprocess
        with contextlib.suppress(OSError):
            self.socket.shutdown(socket.SHUT_RDWR)
        super().close()
        try:
            self.process.wait(2)
        except subprocess.TimeoutExpired:
            self.process.terminate()
            self.process.wait()
        self.close_sockets()
        for thread, pipe in zip((*self.threads, self.heard.thread), (self.process.stdin, self.process.stdout, self.process.stderr)):
            thread.join(0.5)
            if pipe is not None and not thread.is_alive():
                with contextlib.suppress(OSError):
                    pipe.close()


def ssh_words(host: str, port: int, seconds: float) -> List[str]:
    """The command line of ssh: options first, and after them what comes from an address, where nothing counts as an option."""
    user, _, name = host[len(SSH):].rpartition("@")
    words = ["ssh", "-T"]
    for option in (*OPTIONS, f"ConnectTimeout={max(1, int(seconds))}"):
        words += ["-o", option]
    words += ["-p", str(port)] if port else []
    words += ["-l", user] if user else []
    return [*words, "--", name.strip("[]"), GATE]


def refusal(told: str, host: str, port: int, designer: str) -> str:
    """What ssh said, in a sentence with what to do, if asking again would change nothing."""
    place, by_hand = address_word(host, port), "ssh" + (f" -p {port}" if port else "") + f" {host[len(SSH):]}"
    if "REMOTE HOST IDENTIFICATION HAS CHANGED" in told:
        return (f"{place} doesn't have the key by which ssh knows it: it was set up anew, or something else answers there. Ask whoever runs"
                " it, before you go on.")
    if "Host key verification failed" in told:
        return (f"ssh doesn't know {place} yet. Say `{by_hand}` once, compare the fingerprint that it shows with the one that you have from"
                " whoever runs it, and say `yes`.")
    if "Permission denied (" in told:
        return (f"{place} takes none of your ssh keys. Send the public one, as ~/.ssh/id_ed25519.pub, to whoever runs it, who writes it"
                f" down for {designer}; a key with a passphrase has to be in ssh-agent.")
    if "Could not resolve hostname" in told:
        return f"No host is known by the name in {place}. Mend the address."
    if GATE + ": not found" in told or GATE + ": command not found" in told or "arguments are required: --as" in told:
        return f"Your ssh key at {place} has no gate to the vault. Ask whoever runs it to write the gate's command beside it."
    return ""


def opened(host: str, port: int, seconds: float) -> Stream:
    """A new stream to a server."""
    if host.startswith(SSH):
        return SshStream(host, port, seconds)
    try:
        stream = socket.create_connection((host, port), timeout=seconds)
        stream.setsockopt(socket.IPPROTO_TCP, socket.TCP_NODELAY, 1)
    except OSError as error:
        raise LostError(error.strerror or str(error)) from error
    except UnicodeError as error:
        raise LostError("no host can have this name") from error
    return Stream(stream)


def not_as(designer: str, host: str, port: int) -> NotLetInError:
    """A gate doesn't let this key speak for this name."""
    return NotLetInError(f"Your ssh key at {address_word(host, port)} doesn't speak for {designer}. Say hello with the name that whoever runs the"
                         " server wrote down for your key.", ANOTHERS)
