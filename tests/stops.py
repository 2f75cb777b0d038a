"""A server's own calls on its two files, recorded by strace, and files that a crash could leave at any moment in between.

What is written and not yet synced may be there, not be there, or be there in part, byte by byte; it may be any other bytes, and the file
may have any length on the way. What was synced is there.
"""

import contextlib
import os
import random
import re
import shutil
import signal
import socket
import subprocess
import threading
from dataclasses import dataclass, field
from pathlib import Path
from typing import Dict, Iterator, List, Optional, Tuple

from servers import VAULTD, free_port
from vault_files import Vault, vault_of

CLIENTS = 8
SAVES = 5
CYCLE = SAVES + 2
CALL = re.compile(r"\d+ +(pwrite64|fsync|sendto)\((\d+)<([^>]*)>(?:, \"((?:\\x[0-9a-f]{2})*)\"(\.\.\.)?)?.*?(?:, (\d+))?\)\s+= (-?\d+)")
UNFINISHED = re.compile(r"(\d+) +(.*?)\s*<unfinished \.\.\.>$")
RESUMED = re.compile(r"(\d+) +<\.\.\. \w+ resumed>(.*)$")


def content(client: int, cycle: int, save: int) -> bytes:
    """What a client saves: each save has bytes of its own."""
    return random.Random(client << 40 | cycle << 8 | save).randbytes(1000)


def command(client: int, number: int) -> str:
    """A client's command of this number: a check-out, some saves, a check-in, and again. `CLAIM` stands for its check-out."""
    cycle, step = divmod(number, CYCLE)
    if step == 0:
        return f"checkout w:/e/b/p{client}"
    if step == CYCLE - 1:
        return "checkin CLAIM"
    return f"save CLAIM /e/b/p{client} {content(client, cycle, step - 1).hex()}"


def work_of(vault: Vault, client: int) -> Tuple[List[bytes], Optional[List[bytes]]]:
    """What a vault holds of a client's work: the versions of its part, and the draft in its check-out, if it has one."""
    place = next((number for number, (_, name) in enumerate(vault.places) if name == b"p%d" % client), 0)
    standing = [list(one.drafts.values()) for one in vault.line.values() if one.owner == b"d%d" % client]
    assert len(standing) <= 1
    return vault.versions.get(place, []), standing[0] if standing else None


def work_behind(client: int, commands: int) -> Tuple[List[bytes], Optional[List[bytes]]]:
    """What a vault must hold of a client's work after this many of its commands."""
    cycles, step = divmod(commands, CYCLE)
    drafts = [content(client, cycles, step - 2)] if step > 1 else []
    return [content(client, cycle, SAVES - 1) for cycle in range(cycles)], drafts if step else None


class Client(threading.Thread):
    """A designer that makes check-ins one after the other, until it is told to stop."""

    def __init__(self, number: int, port: int):
        super().__init__(daemon=True)
        self.number, self.stop, self.wrong = number, threading.Event(), ""
        self.link = socket.create_connection(("127.0.0.1", port), timeout=60)
        self.replies = self.link.makefile("rb")
        self.ask(f"hello d{number}")

    def ask(self, line: str) -> str:
        """One command and its reply."""
        self.link.sendall(line.encode("ascii") + b"\n")
        return self.replies.readline().decode("ascii").rstrip("\n")

    def run(self) -> None:
        claim, number = "", 0
        while not self.stop.is_set() and not self.wrong:
            reply = self.ask(command(self.number, number).replace("CLAIM", claim))
            claim = reply.split(" ")[2] if reply.startswith("OK held ") else claim
            self.wrong = "" if reply.startswith("OK ") else reply
            number += 1


@dataclass
class Call:
    """A call of the server: a write, a sync, or replies to a client."""

    kind: str
    target: str
    data: bytes = b""
    at: int = 0


def calls_in(trace: Path, files: Tuple[str, str]) -> Iterator[Call]:
    """The calls that strace wrote down, in the order of their ends."""
    begun: Dict[str, str] = {}
    names = {path: name for path, name in zip(files, "ab")}
    for line in trace.read_text("ascii").splitlines():
        unfinished, resumed = UNFINISHED.match(line), RESUMED.match(line)
        if unfinished:
            begun[unfinished[1]] = unfinished[0][:unfinished.end(2)]
            continue
        if resumed:
            line = begun.pop(resumed[1]) + resumed[2]
        found = CALL.match(line)
        if found is None:
            continue
        kind, number, path, text, cut, at, answer = found.groups()
        name = names.get(bytes.fromhex(path.replace("\\x", "")).decode("utf-8") if "\\x" in path else path, "")
        data = bytes.fromhex((text or "").replace("\\x", ""))
        assert cut is None and (kind == "fsync" or int(answer) == len(data)) and int(answer) >= 0, line[:300]
        if name or kind == "sendto":
            yield Call({"pwrite64": "write", "fsync": "sync", "sendto": "told"}[kind], name or number, data, int(at or 0))


@dataclass
class Recording:
    """The files as they were at first, and what the server did then."""

    files: Dict[str, bytes]
    calls: List[Call]

    @property
    def heads(self) -> List[int]:
        """The calls that open a head gate: one for each snapshot."""
        return [number for number, call in enumerate(self.calls) if call.kind == "write" and call.at == 0 and call.data == b"\x01"]

    def without_syncs_of_bodies(self) -> "Recording":
        """What a server would have done that opens a gate before the frame's body is synced."""
        kept = [call for number, call in enumerate(self.calls) if call.kind != "sync" or self.calls[number - 1].data == b"\x01"]
        return Recording(self.files, kept)

    def told_early(self) -> "Recording":
        """What a server would have done that sends replies before their commit: each before the four calls that it came after."""
        calls = list(self.calls)
        for number, call in enumerate(self.calls):
            if call.kind == "told" and number > 4:
                calls.insert(number - 4, calls.pop(number))
        return Recording(self.files, calls)

    def in_snapshots(self) -> List[int]:
        """The calls on the file that isn't the active one."""
        active, found = "a", []
        for number, call in enumerate(self.calls):
            if call.kind != "told" and call.target != active:
                found.append(number)
            active = call.target if number in self.heads else active
        return found


def record(folder: Path, snapshots: int) -> Recording:
    """Eight clients work at a server until it has written this many snapshots, while strace records it."""
    files = (str(folder / "a"), str(folder / "b"))
    subprocess.run([VAULTD, "create", *files], check=True, stdout=subprocess.DEVNULL)
    at_first, trace = {name: Path(file).read_bytes() for name, file in zip("ab", files)}, folder / "trace"
    with traced(files, trace) as port:
        clients = [Client(number, port) for number in range(CLIENTS)]
        for place in ["/e", "/e/b"] + [f"/e/b/p{number}" for number in range(CLIENTS)]:
            clients[0].ask(f"make {place}")
        work_until(clients, folder / "ab"[snapshots % 2], snapshots + 1)
    return Recording(at_first, list(calls_in(trace, files)))


@contextlib.contextmanager
def traced(files: Tuple[str, str], trace: Path) -> Iterator[int]:
    """A server whose calls strace writes down, by its port. Both are gone afterwards, whatever happened."""
    port = free_port()
    strace = [shutil.which("strace") or "strace", "-f", "--seccomp-bpf", "-y", "-xx", "-s", "2000000", "-o", str(trace), "-e",
              "trace=pwrite64,fsync,sendto", "-e", "signal=none"]
    server = subprocess.Popen([*strace, VAULTD, "serve", *files, f"127.0.0.1:{port}", "--workers", "16"], stdout=subprocess.PIPE)
    assert server.stdout is not None
    try:
        assert server.stdout.readline() == b"listening\n"
        yield port
    finally:
        end_traced(server)
        server.stdout.close()


def end_traced(strace: "subprocess.Popen[bytes]") -> None:
    """Kills what strace runs, after which it ends by itself; strace alone would leave it running."""
    for process in Path(f"/proc/{strace.pid}/task/{strace.pid}/children").read_text("ascii").split():
        os.kill(int(process), signal.SIGKILL)
    try:
        strace.wait(60)
    finally:
        strace.kill()
        strace.wait()


def work_until(clients: List[Client], file: Path, generation: int) -> None:
    """Has clients work until a file is the active one, in this generation."""
    for client in clients:
        client.start()
    try:
        wait_for_generation(file, generation)
    finally:
        for client in clients:
            client.stop.set()
    for client in clients:
        client.join(60)
        client.link.close()
        assert not client.wrong and not client.is_alive(), client.wrong


def wait_for_generation(file: Path, generation: int) -> None:
    """Waits until a file is the active one, in this generation."""
    for _ in range(1200):
        head = file.read_bytes()[:24]
        if head[:1] == b"\x01" and int.from_bytes(head[12:20], "big") == generation:
            return
        threading.Event().wait(0.1)
    raise AssertionError(f"{file} had no snapshot of generation {generation} behind two minutes")


@dataclass
class Disk:
    """A file on a disk: what is durable, what a read gives, and which ranges were written since the last sync."""

    settled: bytearray
    current: bytearray
    written: List[Tuple[int, int]] = field(default_factory=list)

    def write(self, at: int, data: bytes) -> None:
        """A write, which isn't durable yet."""
        self.current[len(self.current):at] = bytes(max(0, at - len(self.current)))
        self.current[at:at + len(data)] = data
        self.written.append((at, at + len(data)))

    def sync(self) -> None:
        """What was written becomes durable."""
        for at, end in self.written:
            self.settled[len(self.settled):at] = bytes(max(0, at - len(self.settled)))
            self.settled[at:end] = self.current[at:end]
        self.written = []

    def image(self, chance: random.Random) -> bytes:
        """What a crash may leave of it."""
        left = bytearray(self.settled)
        for at, end in self.written:
            left[len(left):at] = bytes(max(0, at - len(left)))
            left[at:end] = torn(chance, bytes(left[at:end]), bytes(self.current[at:end]))
        shortest, longest = sorted((len(self.settled), len(left)))
        return bytes(left[:chance.choice((longest, longest, shortest, chance.randint(shortest, longest)))])


def torn(chance: random.Random, old: bytes, new: bytes) -> bytes:
    """What a write may leave in its range."""
    kind = chance.randrange(6)
    old = old + chance.randbytes(len(new) - len(old))
    if kind == 0:
        return old
    if kind == 1:
        return new
    if kind == 2:
        return chance.randbytes(len(new))
    cut = chance.randint(0, len(new))
    if kind == 3:
        return new[:cut] + old[cut:]
    if kind == 4:
        return old[:cut] + new[cut:]
    return bytes(chance.choice(pair) for pair in zip(old, new)) if len(new) < 4096 else new[:cut] + b"\x01" * (len(new) - cut)


@dataclass
class Moment:
    """A moment at which the machine may crash: both files, and how many commands were acknowledged to each client by then."""

    files: Dict[str, Disk]
    told: List[int]
    call: int

    def vault(self, kind: str) -> Vault:
        """The durable vault, or the one that a read gives."""
        first, second = (bytes(getattr(self.files[name], kind)) for name in "ab")
        return vault_of(first, second)


def moments(recording: Recording, wanted: List[int]) -> Iterator[Moment]:
    """The moments inside the calls of these numbers, in their order."""
    disks = {name: Disk(bytearray(data), bytearray(data)) for name, data in recording.files.items()}
    clients: Dict[str, int] = {}
    told = [-1] * CLIENTS
    chosen = set(wanted)
    for number, call in enumerate(recording.calls):
        if call.kind == "write":
            disks[call.target].write(call.at, call.data)
        if number in chosen:
            yield Moment(disks, [max(0, count) for count in told], number)
        if call.kind == "sync":
            disks[call.target].sync()
        elif call.kind == "told":
            client = clients.setdefault(call.target, len(clients))
            told[client] += call.data.count(b"\n")
            told[client] -= call.data.count(b"OK place ")
