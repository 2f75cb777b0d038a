"""What the program says after a fault with `--verbose`: the file or address, what was done, and what the system said. Without the word it
says no more than the fault. A server whose vault breaks says so at once."""

import os
import re
import select
import socket
import subprocess
import time
import unittest
from typing import List, Sequence, Tuple

from servers import VAULTD, Limits, Server, free_port, sockets_of
from test_files import can_mount
from tries import FAULTS, Tries, lock, run, told

# Root may open files that nobody else may, unless it gives up this capability.
AS_ANYBODY = ["setpriv", "--bounding-set", "-dac_override,-dac_read_search"] if os.geteuid() == 0 else []
FULL = "No space left on device (os error 28)"


def errors_of(process: "subprocess.Popen[bytes]", lines: int, seconds: float = 20) -> str:
    """The first lines on a running program's standard error: this many, or fewer if no more came in this time."""
    assert process.stderr is not None
    said, until = b"", time.monotonic() + seconds
    while said.count(b"\n") < lines and (left := until - time.monotonic()) > 0:
        if select.select([process.stderr], [], [], left)[0]:
            piece = os.read(process.stderr.fileno(), 65536)
            said += piece
            if not piece:
                break
    return said.decode()


def shut_listener(process: int, port: int) -> None:
    """Shuts a program's listening socket, so that it accepts no more."""
    for found in sockets_of(process):
        if found.getsockname()[1] == port and found.getsockopt(socket.SOL_SOCKET, socket.SO_ACCEPTCONN):
            found.shutdown(socket.SHUT_RDWR)


class Reasons(Tries):
    """Each action, and a real cause why it fails."""

    def both(self, line: str, reason: str, *words: str, before: Sequence[str] = (), **given: object) -> None:
        """A fault without `--verbose`, and then with it and its reason."""
        for more, wanted in ((), line + "\n"), (("--verbose",), f"{line}\n{reason}\n"):
            if before:
                done = subprocess.run([*before, VAULTD, *words, *more], capture_output=True, text=True, timeout=20, check=False)
                seen: Tuple[object, ...] = (done.returncode, done.stdout, done.stderr)
            else:
                seen = run(*words, *more, **given)  # type: ignore[arg-type]
            self.same(" ".join((*words, *more)), (seen[0], seen[2]), (1, wanted))

    def test_opened(self) -> None:
        for words in (["create", "no/a", "b"], ["serve", "no/a", "b", "none"], ["inspect", "no/a", "b"], ["check", "no/a", "b"]):
            self.both(FAULTS["device"], '"no/a", opened: No such file or directory (os error 2)', *words)
        self.new_vault()
        self.both(FAULTS["device"], '"no/b", opened: No such file or directory (os error 2)', "serve", "a", "no/b", "none")

    def test_opened_without_a_right(self) -> None:
        self.new_vault()
        os.chmod("b", 0)
        for words in (["create", "a", "b"], ["serve", "a", "b", "none"], ["inspect", "a", "b"], ["check", "a", "b"]):
            self.both(FAULTS["device"], '"b", opened: Permission denied (os error 13)', *words, before=AS_ANYBODY or ["env"])

    def test_locked(self) -> None:
        self.new_vault()
        with lock("b"):
            for words in (["create", "a", "b"], ["serve", "a", "b", "none"]):
                self.both(FAULTS["in use"], '"b", locked: another program has locked it', *words)

    def test_read(self) -> None:
        """A folder can be opened for reading, but not read."""
        self.new_vault()
        os.mkdir("folder")
        for words in (["inspect", "folder", "b"], ["inspect", "a", "folder"], ["check", "folder", "b"]):
            self.both(FAULTS["device"], '"folder", read at 0: Is a directory (os error 21)', *words)

    def test_written(self) -> None:
        self.both(FAULTS["device"], '"a", written at 20: File too large (os error 27)', "create", "a", "c", limits=Limits(file_bytes=20))

    @unittest.skipUnless(can_mount(), "may not mount anything")
    def test_written_to_a_full_disk(self) -> None:
        os.mkdir("disk")
        full = "mount -t tmpfs -o size=4k tmpfs disk && head -c 4096 /dev/zero > disk/all && exec \"$@\""
        self.both(FAULTS["device"], f'"disk/a", written at 0: {FULL}', "create", "disk/a", "disk/b",
                  before=["unshare", "-m", "sh", "-c", full, "sh"])

    def test_synced(self) -> None:
        """A device that takes no sync."""
        self.both(FAULTS["device"], '"/dev/full", synced: Invalid argument (os error 22)', "create", "/dev/full", "b")

    def test_bound(self) -> None:
        self.new_vault()
        with socket.create_server(("127.0.0.1", 0)) as other:
            address = f"127.0.0.1:{other.getsockname()[1]}"
            self.both(FAULTS["read"], f'"{address}", bound: Address already in use (os error 98)', "serve", "a", "b", address)

    def test_accepted(self) -> None:
        for words, lines in ((), 1), (("--verbose",), 3):
            self.new_vault()
            server = self.serve(*words)
            assert server.process is not None
            with server.connect() as client:
                told(client, b"hello anna\n", 1)
                shut_listener(server.process.pid, server.port)
                said = errors_of(server.process, lines).splitlines()
                reason = f'"127.0.0.1:{server.port}", accepted: Invalid argument (os error 22)'
                self.same(f"at once {words}", said[len(words):], [FAULTS["read"], reason][:1 + len(words)])
                self.same(f"and goes on {words}", told(client, b"make /e\n", 1)[:3], b"OK ")
                self.check(f"with those that it has {words}", server.process.poll() is None)
            self.same(f"its end {words}", server.end(), (1, "listening\n", ""))

    def test_standard_streams(self) -> None:
        self.new_vault()
        reason = f"standard output, written: {FULL}"
        for words in (["inspect", "a", "b"], ["check", "a", "b"], ["check", "a", "b", "--json"], ["serve", "a", "b", f"127.0.0.1:{free_port()}"]):
            full = os.open("/dev/full", os.O_WRONLY)
            self.both(FAULTS["write"], reason, *words, stdout=full)
            self.both(FAULTS["write"], reason, "script", stdin=b"x\n", stdout=full)
            os.close(full)
        reader = os.open(".", os.O_RDONLY)
        self.both(FAULTS["read"], "standard input, read: Is a directory (os error 21)", "script", stdin=reader)
        os.close(reader)

    def test_a_name_makes_no_line(self) -> None:
        """A file's name with control characters is shown escaped, in one line."""
        name = "no\ndevice fault\n\x1b[31m\"/a\u2028\u202e"
        said = run("create", name, "b", "--verbose")[2]
        self.check("two lines", said.count("\n") == 2 and said.isascii() and said.replace("\n", "").isprintable(), said)
        self.check("escaped", r'"no\ndevice fault\n' in said and r"\"/a" in said, said)


class Serving(Tries):
    """What a server says of itself, and of a vault that breaks."""

    def broken(self, server: Server) -> List[socket.socket]:
        """Designers save until each gets the reply that the vault is broken. Gives their connections."""
        clients = [server.connect() for _ in range(4)]
        begin = "hello d{0}\nmake /e\nmake /e/b\nmake /e/b/p{0}\ncheckout w:/e/b/p{0}\n"
        begun = [told(client, begin.format(number).encode("ascii"), 5).splitlines()[-1] for number, client in enumerate(clients)]
        claims = [reply.removeprefix(b"OK held ") for reply in begun]
        last = [b""] * len(clients)
        for _ in range(400):
            for number, client in enumerate(clients):
                if last[number] != b"ERR 82\n":
                    last[number] = told(client, b"save %s /e/b/p%d %s\n" % (claims[number], number, b"ab" * 1000), 1)
        self.same("each is told so", last, [b"ERR 82\n"] * len(clients))
        return clients

    def test_introduces_itself(self) -> None:
        self.new_vault()
        server = self.serve()
        with server.connect() as client:
            told(client, b"hello anna\nmake /e\nmake /e/b\nmake /e/b/p\ncheckout w:/e/b/p\nsave c1 /e/b/p aa\ncheckin c1\ncheckout w:/e\n", 8)
        server.kill()
        again = self.serve("--verbose")
        assert again.process is not None
        wanted = f'listening on 127.0.0.1:{again.port}, over "a" and "b": generation 1, 4 places, 1 versions, 1 claims\n'
        self.same("what is served where", errors_of(again.process, 1), wanted)
        again.kill()
        quiet = self.serve()
        with quiet.connect() as client:
            told(client, b"hello anna\nquit\n", 2)
        self.same("without the word nothing", errors_of(quiet.process, 1, 0.5) if quiet.process else None, "")

    def test_breaks(self) -> None:
        """It says so before its clients are gone, and not once more at its end."""
        for words in (), ("--verbose",):
            self.new_vault()
            server = self.serve("--workers", "4", "--connections", "4", *words, limits=Limits(file_bytes=os.stat("a").st_size + 20000))
            clients = self.broken(server)
            assert server.process is not None
            said = errors_of(server.process, 3 if words else 1, 5)
            self.check(f"its clients are here {words}", server.process.poll() is None)
            self.says(said, words, "a", "File too large (os error 27)")
            for client in clients:
                client.close()
            self.same(f"its end {words}", server.end(), (1, "listening\n", ""))

    def says(self, said: str, words: Sequence[str], path: str, cause: str) -> None:
        """A broken vault is reported in its line, and with `--verbose` also why."""
        if words:
            wanted = rf'listening on [^\n]*\ndevice fault\n"{re.escape(path)}", written at \d+: {re.escape(cause)}\n'
            self.check("the fault and its reason", re.fullmatch(wanted, said) is not None, said)
        else:
            self.same("the fault alone", said, "device fault\n")

    @unittest.skipUnless(can_mount(), "may not mount anything")
    def test_a_disk_that_fills_up(self) -> None:
        """On a disk of 64 KB, which four designers fill."""
        os.mkdir("disk")
        mounted = "mount -t tmpfs -o size=64k tmpfs disk && \"$1\" create disk/a disk/b > /dev/null && exec \"$@\""
        for words in (), ("--verbose",):
            server = Server(*words, files=("disk/a", "disk/b"))
            self.addCleanup(server.close)
            server.process = subprocess.Popen(["unshare", "-m", "sh", "-c", mounted, "sh", VAULTD, "serve", "disk/a", "disk/b",
                                               f"127.0.0.1:{server.port}", *words], stdout=subprocess.PIPE, stderr=subprocess.PIPE)
            assert server.process.stdout is not None
            self.same("listens", server.process.stdout.readline(), b"listening\n")
            clients = self.broken(server)
            said = errors_of(server.process, 3 if words else 1, 5)
            self.check("it goes on", server.process.poll() is None)
            self.says(said, words, "disk/a", FULL)
            self.same("and says no more", errors_of(server.process, 1, 0.5), "")
            for client in clients:
                client.close()
            server.kill()


if __name__ == "__main__":
    unittest.main()
