"""A server on real files for tests, what stands between it and a client, and the programs of the packages."""

import contextlib
import ctypes
import errno
import itertools
import os
import resource
import select
import shutil
import signal
import socket
import subprocess
import sys
import tempfile
import threading
import time
import tomllib
from dataclasses import dataclass, field
from pathlib import Path
from typing import Callable, Dict, Iterator, List, Optional, Sequence, Tuple

TOP = Path(__file__).resolve().parent.parent
VAULTD = os.path.abspath(os.environ.get("VAULTD") or str(TOP / "crates" / "vaultd" / "out" / "vaultd"))
# A folder in memory, where syncs take no time, for tests that don't depend on syncs; a container's is often too small for them.
MEMORY = "/dev/shm" if os.access("/dev/shm", os.W_OK) and shutil.disk_usage("/dev/shm").free > 1 << 30 else None
PIDFD_GETFD = 438
# How many of the module's own ports were tried.
TAKEN = itertools.count()
PACKAGES = sorted(path.parent for path in (TOP / "python").glob("*/pyproject.toml"))
sys.path[:0] = [str(package / "src") for package in PACKAGES]


def scripts() -> Dict[str, str]:
    """The programs of the packages by their names, each as an installation writes it."""
    found: Dict[str, str] = {}
    for package in PACKAGES:
        for name, start in tomllib.loads((package / "pyproject.toml").read_text("utf-8"))["project"]["scripts"].items():
            module, _, function = start.partition(":")
            found[name] = (f"import sys\nsys.path[:0] = {[str(each / 'src') for each in PACKAGES]!r}\n"
                           f"from {module} import {function}\nsys.exit({function}())\n")
    return found


def program(name: str) -> List[str]:
    """The words that begin a command line of a program of the packages."""
    return [sys.executable, "-c", scripts()[name]]


def lay_programs(folder: Path) -> None:
    """Writes the programs of the packages into a folder for a shell's path."""
    for name, text in scripts().items():
        (folder / name).write_text(f"#!{sys.executable}\n{text}", "utf-8")
        (folder / name).chmod(0o755)


def sockets_of(process: int) -> Iterator[socket.socket]:
    """The IPv4 sockets of another program, each borrowed while it is looked at."""
    libc = ctypes.CDLL(None, use_errno=True)
    pidfd = os.pidfd_open(process)
    try:
        for name in os.listdir(f"/proc/{process}/fd"):
            # the other program may close it meanwhile
            with contextlib.suppress(FileNotFoundError):
                if not os.readlink(f"/proc/{process}/fd/{name}").startswith("socket:"):
                    continue
                taken = libc.syscall(PIDFD_GETFD, pidfd, int(name), 0)
                if taken < 0 and ctypes.get_errno() == errno.EBADF:
                    continue
                if taken < 0:
                    raise OSError(ctypes.get_errno(), "pidfd_getfd")
                with socket.socket(fileno=taken) as found:
                    if found.family == socket.AF_INET:
                        yield found
    finally:
        os.close(pidfd)


def free_port(in_a_row: int = 1) -> int:
    """A port that nobody listens on, as nobody does on the next ones, if more are asked for: of those that tests/run gave to this module, or of
    a hundred that the process's number picks. They lie below those that the kernel gives to clients."""
    first, count = (int(word) for word in os.environ.get("VAULT_TEST_PORTS", f"{20_000 + os.getpid() % 100 * 100} 100").split())
    for _ in range(count):
        port = first + next(TAKEN) % count
        with contextlib.ExitStack() as listeners, contextlib.suppress(OSError):
            for each in range(port, port + in_a_row):
                listeners.enter_context(socket.socket()).bind(("127.0.0.1", each))
            return port
    raise AssertionError(f"no port is free from {first} on")


@dataclass(frozen=True)
class Limits:
    """What a program starts with: standard streams that are closed, how many descriptors, and how long its files may grow, as on a disk
    that is full then."""

    closed: Sequence[int] = ()
    descriptors: Optional[int] = None
    file_bytes: Optional[int] = None

    def take_effect(self) -> None:
        """Is called in the new process. Signals that end a program do so again, whatever the tests' own process has set."""
        for sign in (signal.SIGTERM, signal.SIGINT, signal.SIGHUP):
            signal.signal(sign, signal.SIG_DFL)
        for stream in self.closed:
            os.close(stream)
        if self.descriptors is not None:
            resource.setrlimit(resource.RLIMIT_NOFILE, (self.descriptors, self.descriptors))
        if self.file_bytes is not None:
            signal.signal(signal.SIGXFSZ, signal.SIG_IGN)
            resource.setrlimit(resource.RLIMIT_FSIZE, (self.file_bytes, self.file_bytes))


class Server:
    """A server over two files (of a new vault if none are named), which can be killed and started again at the same address."""

    def __init__(self, *words: str, folder: Optional[str] = None, files: Optional[Tuple[str, str]] = None):
        self.folder = tempfile.TemporaryDirectory(prefix="vault-test-", dir=folder)
        self.files: Tuple[str, str] = files or (os.path.join(self.folder.name, "a"), os.path.join(self.folder.name, "b"))
        self.port, self.words = free_port(), words
        self.process: Optional["subprocess.Popen[bytes]"] = None
        self.said = b""
        if files is None:
            subprocess.run([VAULTD, "create", *self.files], check=True, stdout=subprocess.DEVNULL)

    def start(self, limits: Limits = Limits()) -> None:
        """Starts the server and waits until it listens."""
        self.process = subprocess.Popen([VAULTD, "serve", *self.files, f"127.0.0.1:{self.port}", *self.words], stdin=subprocess.DEVNULL,
                                        stdout=subprocess.PIPE, stderr=subprocess.PIPE, preexec_fn=limits.take_effect)
        assert self.process.stdout is not None
        if 1 in limits.closed:
            self._wait_for_an_answer()
            return
        self.said = self.process.stdout.readline()
        if self.said != b"listening\n":
            _, out, errors = self.end()
            raise AssertionError(f"the server said {out!r}, {errors!r}")

    def _wait_for_an_answer(self) -> None:
        for _ in range(200):
            try:
                self.connect().close()
                return
            except OSError:
                time.sleep(0.05)
        raise AssertionError("no server answers")

    def connect(self) -> socket.socket:
        """A connection to the server."""
        return socket.create_connection(("127.0.0.1", self.port), timeout=30)

    def kill(self) -> None:
        """Kills the server as a power cut would."""
        if self.process is not None:
            self.process.send_signal(signal.SIGKILL)
            self.process.communicate()
            self.process = None

    def suspend(self) -> None:
        """Suspends the server, and waits until it does nothing more."""
        assert self.process is not None
        self.process.send_signal(signal.SIGSTOP)
        os.waitid(os.P_PID, self.process.pid, os.WSTOPPED)

    def end(self) -> Tuple[Optional[int], str, str]:
        """Waits until it ends by itself, and answers its status, its output and its errors."""
        assert self.process is not None
        try:
            out, errors = self.process.communicate(timeout=20)
        except subprocess.TimeoutExpired:
            return None, "", "it went on for twenty seconds"
        status, self.process = self.process.returncode, None
        return status, (self.said + out).decode(), errors.decode()

    def close(self) -> None:
        """Kills the server and removes its files."""
        self.kill()
        self.folder.cleanup()


def end_accepting(listener: socket.socket, accepts: threading.Thread) -> None:
    """Ends a listener and the thread that accepts by it. Only closed, it would go on accepting by the next of its number."""
    listener.shutdown(socket.SHUT_RDWR)
    accepts.join()
    listener.close()


class Answering:
    """A server that makes up its replies."""

    def __init__(self) -> None:
        self.listener = socket.create_server(("127.0.0.1", 0))
        self.port = int(self.listener.getsockname()[1])
        self.accepts = threading.Thread(target=self._accept, daemon=True)
        self.accepts.start()

    def close(self) -> None:
        """Takes no more connections."""
        end_accepting(self.listener, self.accepts)

    def _accept(self) -> None:
        with contextlib.suppress(OSError):
            while True:
                client, _ = self.listener.accept()
                threading.Thread(target=self._serve, args=(client,), daemon=True).start()

    def _serve(self, client: socket.socket) -> None:
        with client, contextlib.suppress(OSError):
            self.answer(client)

    def answer(self, client: socket.socket) -> None:
        """Answers each line."""
        for line in client.makefile("rb"):
            client.sendall(self.reply(line.strip()))

    def reply(self, line: bytes) -> bytes:
        """What is said to a line."""
        raise NotImplementedError(line)


class Cutter:
    """Hands lines on between clients and a server, and cuts the connection once, before or after a line was handed on."""

    def __init__(self, server_port: int):
        self.server_port = server_port
        self.listener = socket.create_server(("127.0.0.1", 0))
        self.port = int(self.listener.getsockname()[1])
        self.before: List[bytes] = []
        self.after: List[bytes] = []
        self.lines: List[bytes] = []
        self.meanwhile: Callable[[], object] = lambda: None
        self.accepts = threading.Thread(target=self._accept, daemon=True)
        self.accepts.start()

    def close(self) -> None:
        """Takes no more connections."""
        end_accepting(self.listener, self.accepts)

    def _accept(self) -> None:
        while True:
            try:
                client, _ = self.listener.accept()
            except OSError:
                return
            threading.Thread(target=self._hand_on, args=(client,), daemon=True).start()

    def _hand_on(self, client: socket.socket) -> None:
        with client, contextlib.suppress(OSError), socket.create_connection(("127.0.0.1", self.server_port)) as server:
            asked, told = client.makefile("rb"), server.makefile("rb")
            with asked, told:
                for line in asked:
                    if self._cut(self.before, line):
                        break
                    self.lines.append(line)
                    server.sendall(line)
                    reply = told.readline()
                    if self._cut(self.after, line) or not reply:
                        break
                    client.sendall(reply)

    def _cut(self, words: List[bytes], line: bytes) -> bool:
        """Whether the line begins with the first word that is to be cut, which is then used up. Does first what is to happen
        meanwhile."""
        if words and line.startswith(words[0]):
            words.pop(0)
            self.meanwhile()
            return True
        return False


@dataclass
class Heard:
    """What a client sent on a connection, what it got, and whether the server has ended the connection."""

    sent: bytearray = field(default_factory=bytearray)
    told: bytearray = field(default_factory=bytearray)
    ended: threading.Event = field(default_factory=threading.Event)


class Tap:
    """Hands bytes on between clients and a server as they come, and keeps what was said on each connection."""

    def __init__(self, server_port: int):
        self.server_port = server_port
        self.listener = socket.create_server(("127.0.0.1", 0))
        self.port = int(self.listener.getsockname()[1])
        self.heard: List[Heard] = []
        self.accepts = threading.Thread(target=self._accept, daemon=True)
        self.accepts.start()

    def close(self) -> None:
        """Takes no more connections."""
        end_accepting(self.listener, self.accepts)

    def _accept(self) -> None:
        with contextlib.suppress(OSError):
            while True:
                client, _ = self.listener.accept()
                server = socket.create_connection(("127.0.0.1", self.server_port))
                self.heard.append(Heard())
                threading.Thread(target=hand_on, args=(client, server, self.heard[-1]), daemon=True).start()


def hand_on(client: socket.socket, server: socket.socket, heard: Heard) -> None:
    """Hands on what comes, until both sides end. After the server's end the client has a moment to end, too."""
    ways = {client: (server, heard.sent), server: (client, heard.told)}
    with client, server:
        while ways:
            ready = select.select(list(ways), [], [], None if server in ways else 1)[0]
            for source in ready:
                sink, kept = ways[source]
                piece = b""
                with contextlib.suppress(OSError):
                    piece = source.recv(65536)
                kept += piece
                with contextlib.suppress(OSError):
                    sink.sendall(piece) if piece else sink.shutdown(socket.SHUT_WR)
                if not piece:
                    del ways[source]
            if not ready:
                break
    heard.ended.set()
