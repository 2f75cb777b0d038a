"""The built program as a server of odd clients: late, deaf, silent, many; with few descriptors, stopped, and copied while it writes."""

import contextlib
import fcntl
import os
import re
import select
import signal
import socket
import sys
import termios
import time
import unittest

from page_server import until
from servers import MEMORY, Limits, Server, free_port, sockets_of
from tries import FAULTS, Tries, content_of, fault, heard, lay, run, told


def asks_its_client(server: Server) -> bool:
    """Whether the one connection has a timer by which the kernel probes its client (keepalive), while nothing is under way."""
    with open("/proc/net/tcp", encoding="ascii") as rows:
        ours = [row.split() for row in rows if f":{server.port:04X} " in row]
    return [row[5][:3] for row in ours if row[1].endswith(f":{server.port:04X}") and row[3] == "01"] == ["02:"]


def connections_of(process: int) -> int:
    """How many connections a server has."""
    return sum(not each.getsockopt(socket.SOL_SOCKET, socket.SO_ACCEPTCONN) for each in sockets_of(process))


def left_in(client: socket.socket) -> int:
    """How many bytes have come that were not read yet."""
    return int.from_bytes(fcntl.ioctl(client, termios.FIONREAD, bytes(4)), sys.byteorder)


class Clients(Tries):
    """Clients that read late or not at all, or say nothing."""

    def setUp(self) -> None:
        super().setUp()
        self.new_vault()

    def test_late_reader(self) -> None:
        """A client that sends more than is answered, and reads once the server has closed the connection, gets all replies."""
        server = self.serve()
        assert server.process is not None
        number = server.process.pid
        with server.connect() as client:
            client.sendall(b"list /\n" * 4400)
            until(lambda: left_in(client) == 4096 * len(b"ERR 11\n") and not connections_of(number), 20)
            got = b""
            try:
                while more := client.recv(65536):
                    got += more
            except OSError as error:
                got += str(error).encode()
            self.check("a late reader", got == b"ERR 11\n" * 4096, got[-60:])

    def test_half_closed(self) -> None:
        """A client that says with its last line that it sends no more gets all replies, and so does one that sends byte by byte."""
        server = self.serve()
        for wait in (0, 0.3):
            with server.connect() as client:
                time.sleep(wait)
                client.sendall(b"hello anna\nhold r:/\nlist /\n")
                client.shutdown(socket.SHUT_WR)
                replies = heard(client).split(b"\n")
                whole = len(replies) == 4 and replies[1].startswith(b"OK held")
                self.check(f"no more behind the last line, sent after {wait} s", whole, replies)
        with server.connect() as client:
            for byte in b"hello ben\nquit\n":
                client.sendall(bytes([byte]))
                time.sleep(0.01)
            self.same("byte by byte", heard(client), b"OK session 3\nOK left\n")

    def test_deaf_client(self) -> None:
        """A client that reads none of many long replies keeps no other one waiting, and gets them all once it reads."""
        server = self.serve("--workers", "8")
        names = [f"{number:02}{'x' * 30}".encode() for number in range(60)]
        lines = b"".join(b"make /e/" + name + b"\n" for name in names)
        with server.connect() as deaf, server.connect() as one, server.connect() as two, server.connect() as three:
            told(deaf, b"hello deaf\nmake /e\n" + lines, 62)
            deaf.sendall(b"list /e\n" * 3000)
            for number, client in enumerate((one, two, three)):
                told(client, f"hello d{number}\n".encode(), 1)
            made = 0
            for _ in range(20):
                for client in (one, two, three):
                    began = time.time()
                    made += 1
                    said = told(client, b"count /e\nhold r:/e\nmake /e%d\n" % made, 3)
                    served = re.fullmatch(rb"ERR 22\nOK held h\d+\nOK place \d+\n", said)
                    self.check("served beside a deaf client", bool(served) and time.time() - began < 5, said)
            deaf.shutdown(socket.SHUT_WR)
            replies = heard(deaf).split(b"\n")
            whole = len(replies) == 3001 and all(b"x" * 30 in reply for reply in replies[:-1])
            self.check("a deaf client that reads again", whole, len(replies))

    def test_silent_client(self) -> None:
        """The kernel probes a client that says nothing, and nothing ends it unless a time is set."""
        server = self.serve("--workers", "1")
        with server.connect() as client:
            self.check("a session", told(client, b"hello anna\n", 1) == b"OK session 1\n")
            self.check("the kernel asks after a client", asks_its_client(server))
            time.sleep(1)
            self.check("no end without a time", told(client, b"count /\n", 1) == b"ERR 22\n")

    def test_idle_client(self) -> None:
        """If a time is set, a silent client is ended after it, with its holds."""
        server = self.serve("--idle", "1", "--workers", "1")
        began = time.time()
        with server.connect() as client:
            self.check("a hold", told(client, b"hello anna\nhold w:/\n", 2) == b"OK session 1\nOK held h1\n")
            self.check("an end", client.recv(100) == b"" and 0.5 < time.time() - began < 10)
            with server.connect() as other:
                self.check("the hold is gone", told(other, b"hello ben\nhold w:/\n", 2) == b"OK session 2\nOK held h2\n")

    def test_client_that_takes_no_reply(self) -> None:
        """So is one that goes on sending lines, and takes no reply."""
        server = self.serve("--idle", "2", "--workers", "2")
        with socket.socket() as deaf, server.connect() as other:
            deaf.setsockopt(socket.SOL_SOCKET, socket.SO_RCVBUF, 4096)
            deaf.connect(("127.0.0.1", server.port))
            places = b"".join(b"make /e/%s%02d\n" % (b"x" * 30, number) for number in range(64))
            made = told(deaf, b"hello anna\nmake /e\n" + places + b"hold w:/e\n", 67)
            self.check("many places and a hold", made.count(b"OK ") == 67, made)
            deaf.sendall(b"list /e\n" * 3000)          # with those below fewer than the lines that end a connection
            self.same("another waits", told(other, b"hello ben\nhold r:/e\n", 2), b"OK session 2\nOK queued h2 behind h1\n")
            other.sendall(b"wait h2\n")
            while not select.select([other], [], [], 0.1)[0]:
                with contextlib.suppress(ConnectionError):
                    deaf.sendall(b"list /e\n")
            self.same("until the deaf one is ended", told(other, b"", 1), b"OK held h2\n")

    def test_probes(self) -> None:
        """A save of the library changes nothing, and says whose a check-out is and how it stands."""
        server = self.serve()
        with server.connect() as anna, server.connect() as ben:
            told(anna, b"hello anna\nmake /e\ncheckout w:/e\ncheckout r:/e\n", 4)
            told(ben, b"hello ben\n", 1)
            self.check("probes of one's own", told(anna, b"save c1 / -\nsave c2 / -\nsave c3 / -\n", 3) == b"ERR 22\nERR 32\nERR 30\n")
            self.check("a probe of another's", told(ben, b"save c1 / -\n", 1) == b"ERR 31\n")
            self.check("they stand", told(ben, b"state c1\nstate c2\n", 2) == b"OK held c1\nOK queued c2 behind c1\n")
            self.check("in one's own check-out", told(anna, b"make /e/b\nmake /e/b c1\n", 2) == b"ERR 23 c1\nOK place 2\n")
            listed = told(anna, b"make /b\nmake /a\nlist /\n", 3)
            self.check("a list in the order of making", listed == b"OK place 3\nOK place 4\nOK list 3 e b a\n")

    def test_a_quit_that_is_refused(self) -> None:
        with self.serve().connect() as client:
            self.check("a quit that is refused", told(client, b"quit\nfoo\n", 2) == b"ERR 11\nERR 10\n")


class Options(Tries):
    """What the options of serve ask for; without them it has four workers and serves on."""

    def setUp(self) -> None:
        super().setUp()
        self.new_vault()

    def test_four_workers(self) -> None:
        server = self.serve()
        clients = [server.connect() for _ in range(5)]
        for number, client in enumerate(clients[:4], 1):
            self.same(f"worker {number} of 4", told(client, b"hello anna\n", 1), f"OK session {number}\n".encode())
        clients[4].sendall(b"hello anna\n")
        self.check("a fifth client waits", not select.select([clients[4]], [], [], 0.5)[0])
        clients[0].close()
        self.same("until one is gone", told(clients[4], b"", 1), b"OK session 5\n")
        for client in clients:
            client.close()

    def test_idle_and_connections(self) -> None:
        server = self.serve("--workers", "64", "--connections", "6", "--idle", "1")
        assert server.process is not None
        began = time.time()
        with server.connect() as silent:
            self.check("--idle", silent.recv(100) == b"" and 0.5 < time.time() - began < 10)
        for _ in range(4):
            with server.connect() as client:
                told(client, b"hello anna\nquit\n", 2)
        self.check("--connections, before the last", server.process.poll() is None)
        with server.connect() as client:
            told(client, b"hello anna\nquit\n", 2)
        self.same("--connections", server.end(), (0, "listening\n", ""))

    def test_threads(self) -> None:
        """One thread serves all places of a server, and so do two, each a half; each commits what the other reads, too."""
        for words, name in (((), "one thread"), (("--threads", "2"), "two threads")):
            self.new_vault()
            server = self.serve("--workers", "64", *words)
            assert server.process is not None
            clients = [server.connect() for _ in range(64)]
            for number, client in enumerate(clients):
                client.sendall(f"hello d{number}\nmake /p{number}\ncheckout w:/p{number}\n".encode())
            answered = [told(client, b"", 3).count(b"OK ") for client in clients]
            self.check(f"{name}, 64 clients", answered == [3] * 64, answered)
            count = len(os.listdir(f"/proc/{server.process.pid}/task"))
            self.check(f"{name}, and the one that accepts", count == 2 + bool(words), count)
            for client in clients:
                client.close()
            server.kill()
            out = self.inspected()
            self.check(f"{name}, what was told", "places 65, versions 0, claims 64, drafts 0" in out, out)


class Descriptors(Tries):
    """Too few descriptors are refused at the start."""

    def setUp(self) -> None:
        super().setUp()
        self.new_vault()

    def test_few(self) -> None:
        address = f"127.0.0.1:{free_port()}"
        refused = run("serve", "a", "b", address, "--workers", "64", limits=Limits(descriptors=40))
        self.same("few descriptors", refused, fault("descriptors", 80, 40))
        for words, needed in (((), 20), (("--workers", "1"), 17), (("--workers", "64"), 80)):
            refused = run("serve", "a", "b", address, *words, limits=Limits(descriptors=needed - 1))
            self.same(" ".join((f"{needed - 1} descriptors", *words)), refused, fault("descriptors", needed, needed - 1))
            server = self.serve(*words, limits=Limits(descriptors=needed))
            with server.connect() as client:
                served = told(client, b"hello anna\nquit\n", 2)
                self.same(" ".join((f"{needed} descriptors", *words)), served, b"OK session 1\nOK left\n")
            server.kill()

    def test_no_place_with_few(self) -> None:
        """With no more descriptors than are needed, one for whom there is no place is told so."""
        server = self.serve("--workers", "2", "--threads", "2", "--full", "1", limits=Limits(descriptors=18))
        with server.connect() as one, server.connect() as two, server.connect() as three:
            self.same("two are served", told(one, b"hello anna\n", 1) + told(two, b"hello ben\n", 1), b"OK session 1\nOK session 2\n")
            self.same("a third is told", heard(three), b"ERR 80\n")

    def test_as_many_as_are_needed(self) -> None:
        server = self.serve("--workers", "2", "--threads", "2", limits=Limits(descriptors=18))
        assert server.process is not None
        clients = [server.connect() for _ in range(12)]
        for client in clients:
            client.sendall(b"hello anna\nquit\n")
        ended = [told(client, b"", 2).endswith(b"OK left\n") for client in clients]
        self.check("as many descriptors as are needed", all(ended) and server.process.poll() is None, ended)
        for client in clients:
            client.close()


class Stops(Tries):
    """What was acknowledged is in the files, whatever ends the server, and also in copies made while it writes."""

    def setUp(self) -> None:
        super().setUp()
        self.new_vault()

    def test_signals(self) -> None:
        """Whatever signal ends a server, what was acknowledged is in the files; numbers go on, and sessions don't."""
        for number, sign in enumerate((signal.SIGTERM, signal.SIGINT, signal.SIGHUP, signal.SIGKILL), 1):
            server = self.serve()
            assert server.process is not None
            with server.connect() as client:
                lines = f"hello anna\nmake /p{number}\ncheckout w:/p{number}\nhold r:/\n"
                wanted = f"OK session 1\nOK place {number}\nOK held c{number}\nOK queued h1 behind c1\n"
                seen = told(client, lines.encode(), 4).decode()
                self.check(f"served until {sign.name}", seen == wanted, seen)
                server.process.send_signal(sign)
                server.process.wait(20)
                self.check(f"ended by {sign.name}", server.process.returncode == -sign)
                server.kill()
            out = self.inspected()
            self.check(f"told before {sign.name}", f"places {number + 1}, versions 0, claims {number}," in out and " h1 " not in out, out)

    def test_copies_of_a_busy_server(self) -> None:
        """Copies that are made of the files while a server writes to them can be opened."""
        server = self.serve()
        copies = 0
        with server.connect() as client:
            client.sendall(b"hello anna\nmake /e\nmake /e/b\nmake /e/b/p\ncheckout w:/e\n" + b"save c1 /e/b/p 00\n" * 1500)
            got = b""
            while got.count(b"\n") < 1505 and (more := client.recv(512)):
                got += more
                if copies < got.count(b"\n") // 100:
                    copies += 1
                    lay(**{f"{path}{copies}": content_of(path) for path in ("a", "b")})
        good = sum("places " in run("inspect", f"a{number}", f"b{number}")[1] for number in range(1, copies + 1))
        self.check(f"copies of a busy server, {good} of {copies} open", good == copies and copies >= 10)


class LongSnapshot(Tries):
    """A vault whose snapshot has more than one piece is opened with all its versions, and refused if one byte is damaged."""

    above = MEMORY

    def fill(self) -> None:
        """Makes 3,200 versions of 1,000 bytes."""
        lines = ["hello anna", "make /w", "make /w/a"] + [f"make /w/a/p{part}" for part in range(8)]
        for number in range(1, 401):
            lines.append("checkout w:/w/a")
            lines += [f"save c{number} /w/a/p{part} {number:04x}{part:02x}" + "5a" * 997 for part in range(8)]
            lines.append(f"checkin c{number}")
        server = self.serve()
        with server.connect() as client:
            replies = told(client, "".join(line + "\n" for line in lines).encode(), len(lines))
            self.check("3,200 versions", replies.count(b"OK ") == len(lines), replies[-100:])
        server.kill()

    def test_opened_and_refused(self) -> None:
        self.new_vault()
        self.fill()
        out = self.inspected()
        generations = {line[5]: int(line.split()[4].rstrip(",")) for line in out.splitlines() if ": open" in line or ": older" in line}
        self.check("3,200 versions, inspected", "versions 3200, claims 0, drafts 0" in out and len(generations) > 0, out)
        server = self.serve()
        with server.connect() as client:
            told(client, b"hello anna\n", 1)
            for part, number in ((0, 1), (7, 400), (3, 200)):
                content = f"{number:04x}{part:02x}".encode() + b"5a" * 997
                fetched = told(client, f"fetch /w/a/p{part} {number}\n".encode(), 1)
                self.same(f"version {number} of part {part}", fetched, b"OK content " + content + b"\n")
        server.kill()
        self.damage_a_piece(max(generations, key=lambda file: generations[file]))

    def damage_a_piece(self, active: str) -> None:
        """Changes a byte of the active file's snapshot."""
        with open(active, "r+b") as file:
            length = int.from_bytes(file.read(24)[20:], "big")
            self.check("more than one piece", length > 2 << 20, length)
            file.seek(38)
            file.write(b"\x07")
        out = self.inspected()
        self.check("a damaged one, inspected", f"file {active}: damaged at 24\n" in out, out)
        self.same("a damaged one", run("serve", "a", "b", f"127.0.0.1:{free_port()}"), (1, "", FAULTS["damage in " + active].format(24) + "\n"))


if __name__ == "__main__":
    unittest.main()
