"""The built program with odd words and files, with its streams closed, and started twice."""

import fcntl
import os
import re
import resource
import socket
import subprocess
import unittest

from servers import TOP, VAULTD, Limits, free_port
from tries import FAULTS, IN_USE_TEXT, NEW, NEW_TEXT, Tries, content_of, fault, held, lay, lock, run, told

REFUSED = (
    ("frob", "unrecognized subcommand 'frob'"),
    ("script x", "unexpected argument 'x' found"),
    ("create x", "required arguments were not provided"),
    ("inspect x y z", "unexpected argument 'z' found"),
    ("serve x y", "required arguments were not provided"),
    ("serve x y z --workers 0", "invalid value '0' for '--workers <N>'"),
    ("serve x y z --workers 65", "invalid value '65' for '--workers <N>'"),
    ("serve x y z --workers x", "invalid value 'x' for '--workers <N>'"),
    ("serve x y z --workers -1", "unexpected argument '-1' found"),
    ("serve x y z --threads 0", "invalid value '0' for '--threads <N>'"),
    ("serve x y z --threads 3", "invalid value '3' for '--threads <N>'"),
    ("serve x y z --connections 0", "invalid value '0' for '--connections <M>'"),
    ("serve x y z --idle 0", "invalid value '0' for '--idle <SECONDS>'"))


class CommandLine(Tries):
    """What the words ask for is done or printed with status 0; odd words are refused with status 2."""

    def test_script(self) -> None:
        self.same("a script", run("script", stdin=b"@1 hello anna\n"), (0, "@1 OK session 1\n", ""))

    def test_version(self) -> None:
        status, out, errors = run("--version")
        self.check("--version", status == 0 and out.startswith("vaultd ") and errors == "", out)

    def test_help(self) -> None:
        for asked in (["help"], ["--help"], ["help", "serve"], ["inspect", "--help"]):
            status, out, errors = run(*asked)
            self.check(" ".join(asked), status == 0 and "Usage" in out and errors == "", (status, out, errors))
        self.check("help of serve", "--workers" in run("help", "serve")[1])
        self.check("help of inspect", "Stop" in run("inspect", "--help")[1])

    def test_no_words(self) -> None:
        status, out, errors = run()
        self.check("no words", status == 2 and out == "" and "Usage" in errors and "error" not in errors, (status, out, errors))

    def test_refused(self) -> None:
        for asked, why in REFUSED:
            status, out, errors = run(*asked.split())
            self.check(asked, status == 2 and out == "" and "error: " in errors and why in errors, (status, out, errors))

    def test_no_text(self) -> None:
        self.same("refused: no text", run("create", b"\xff", "y"), (2, "", "error: an argument is no text\n"))


class Creation(Tries):
    """Missing and empty files are used; a refused creation changes no file, and what it made is removed again."""

    def test_over_a_vault(self) -> None:
        self.new_vault()
        exchanged = "file a: closed\nfile b: open, generation 1, frames 0, tail 34\nplaces 1, versions 0, claims 0, drafts 0\n"
        self.same("inspect, exchanged", (run("inspect", "b", "a"), held("a", "b")), ((0, exchanged, ""), [NEW, b""]))
        self.same("vault exists", (run("create", "a", "b"), held("a", "b")), (fault("vault exists"), [NEW, b""]))

    def test_over_a_byte(self) -> None:
        lay(b=b"x")
        self.same("create over a byte", (run("create", "a", "b"), held("a", "b")), (fault("vault exists"), [None, b"x"]))
        with lock("b"):
            self.same("create beside a locked file", (run("create", "a", "b"), held("a", "b")), (fault("in use"), [None, b"x"]))

    def test_no_folder(self) -> None:
        self.same("no folder of the second file", (run("create", "a", "no/b"), held("a")), (fault("device"), [None]))
        self.same("no folder of the first file", (run("create", "no/a", "c"), held("c")), (fault("device"), [None]))

    def test_on_a_full_disk(self) -> None:
        full = run("create", "a", "c", limits=Limits(file_bytes=20))
        self.same("create on a full disk", (full, held("a", "c")), (fault("device"), [None, None]))

    def test_over_an_empty_file(self) -> None:
        lay(b=b"")
        self.same("create over an empty file", (run("create", "a", "b"), held("a", "b")), ((0, "created\n", ""), [NEW, b""]))
        self.same("inspect behind it", run("inspect", "a", "b"), (0, NEW_TEXT, ""))
        lay(a=None)
        self.same("inspect without the first file", run("inspect", "a", "b"), fault("device"))
        self.same("inspect without the second file", run("inspect", "b", "a"), fault("device"))

    def test_rights(self) -> None:
        before = os.umask(0o027)
        run("create", "a", "b")
        os.umask(before)
        self.check("mode 0640", os.stat("a").st_mode & 0o777 == 0o640 and os.stat("b").st_mode & 0o777 == 0o640)


class InUse(Tries):
    """While another program has a file, no vault is made in both or served, and a report says so."""

    def setUp(self) -> None:
        super().setUp()
        self.new_vault()
        self.address = f"127.0.0.1:{free_port()}"

    def test_locked_files(self) -> None:
        for path in ("a", "b"):
            with lock(path):
                self.same(f"create, {path} locked", (run("create", "a", "b"), held("a", "b")), (fault("in use"), [NEW, b""]))
                self.same(f"serve, {path} locked", (run("serve", "a", "b", self.address), held("a", "b")), (fault("in use"), [NEW, b""]))
                told_so = (0, NEW_TEXT, IN_USE_TEXT)
                self.same(f"inspect, {path} locked", (run("inspect", "a", "b"), held("a", "b")), (told_so, [NEW, b""]))
        self.same("inspect, none locked", run("inspect", "a", "b"), (0, NEW_TEXT, ""))

    def test_beside_a_reader(self) -> None:
        with lock("a", fcntl.LOCK_SH):
            self.same("inspect beside a reader", run("inspect", "a", "b"), (0, NEW_TEXT, ""))
            self.same("serve beside a reader", run("serve", "a", "b", self.address), fault("in use"))

    def test_one_server(self) -> None:
        server = self.serve()
        self.same("a second server", run("serve", "a", "b", self.address), fault("in use"))
        self.same("a second server, exchanged", run("serve", "b", "a", self.address), fault("in use"))
        self.same("create over a server", run("create", "a", "b"), fault("in use"))
        self.same("inspect beside a server", run("inspect", "a", "b"), (0, NEW_TEXT, IN_USE_TEXT))
        server.kill()
        self.same("inspect without a server", run("inspect", "a", "b"), (0, NEW_TEXT, ""))

    def test_one_file_twice(self) -> None:
        self.same("one file twice, serve", (run("serve", "a", "a", self.address), held("a")), (fault("in use"), [NEW]))
        self.same("one file twice, create", (run("create", "e", "e"), held("e")), (fault("in use"), [None]))


class Order(Tries):
    """The first file's fault comes before the second's, theirs before the vault's, and the address is the last."""

    def test_locked_and_missing_files(self) -> None:
        lay(a=NEW)
        with lock("a"):
            self.same("no first file, the second locked", run("serve", "no/c", "a", "none"), fault("device"))
            self.same("the first file locked, no second", run("serve", "a", "no/c", "none"), fault("in use"))
        self.same("no second file, no address", run("serve", "a", "no/c", "none"), fault("device"))

    def test_the_address_is_last(self) -> None:
        lay(a=NEW, b=b"")
        self.same("no address", run("serve", "a", "b", "none"), fault("read"))
        self.same("no address, files exchanged", run("serve", "b", "a", "none"), fault("read"))
        lay(a=b"")
        self.same("no vault, no address", run("serve", "a", "b", "none"), fault("no vault"))
        lay(a=NEW[:34])
        self.same("damage, no address", run("serve", "a", "b", "none"), fault("damage in a", 20))

    def test_descriptors_are_first(self) -> None:
        lay(a=NEW)
        few = run("serve", "no/c", "a", "none", limits=Limits(descriptors=18))
        self.same("few descriptors, no first file", few, fault("descriptors", 20, 18))


class Damage(Tries):
    """Damage is named by its file and offset, and isn't repaired."""

    def test_damage(self) -> None:
        address = f"127.0.0.1:{free_port()}"
        lay(a=NEW[:34], b=b"")
        self.same("damage in a", run("serve", "a", "b", address), fault("damage in a", 20))
        self.same("damage in b", run("serve", "b", "a", address), fault("damage in b", 20))
        self.same("a report on damage", run("inspect", "a", "b"), (0, "file a: damaged at 20\nfile b: closed\nno vault\n", ""))
        self.same("damage stands", held("a", "b"), [NEW[:34], b""])
        lay(a=NEW[:34] + b"\1")
        self.same("damage in a frame", run("serve", "a", "b", address), fault("damage in a", 34))
        lay(a=b"", b=NEW[:12] + bytes(8) + NEW[20:])
        self.same("damage in a head", run("serve", "a", "b", address), fault("damage in b", 12))

    def test_a_copy_that_is_cut(self) -> None:
        """A damaged file that is cut before its damage opens."""
        self.new_vault()
        server = self.serve()
        with server.connect() as client:
            told(client, b"hello anna\nmake /e\n", 2)
        server.kill()
        whole = content_of("a")
        lay(a=whole[:34 + 5 + 7] + bytes([1, 0, 0, 0, 1, 99, 0]))
        out = self.inspected()
        self.check("damage behind a frame", out.startswith("file a: damaged at 46\n"), out)
        lay(a=whole[:46] + b"\0")
        out = self.inspected()
        self.check("the file cut before its damage", out.startswith("file a: open, generation 1, frames 1, tail 46\n"), out)


class Streams(Tries):
    """A file of a vault never takes the place of a standard stream that is closed."""

    def test_closed(self) -> None:
        for closed in [(1,), (0, 1), (2,), (0, 1, 2)]:
            self.new_vault()
            limits = Limits(closed)
            server = self.serve(limits=limits)
            with server.connect() as client:
                self.check(f"serve without streams {closed}", told(client, b"hello anna\nmake /e\n", 2) == b"OK session 1\nOK place 1\n")
            server.kill()
            out = self.inspected()
            whole = "places 2" in out and content_of("a")[:8] == NEW[:8] and content_of("b") == b""
            self.check(f"the vault behind it {closed}", whole, (out, content_of("b")[:20]))
            lay(c=None, d=None)
            run("create", "c", "d", limits=limits)
            self.check(f"create without streams {closed}", content_of("c") == NEW and content_of("d") == b"")
            before = content_of("a")
            run("inspect", "a", "b", limits=limits)
            self.check(f"inspect without streams {closed}", content_of("a") == before)
            self.check(f"script without streams {closed}", run("script", limits=limits)[0] in (0, 1))


class OtherFaults(Tries):
    """Faults of standard input and output, of the address, the device and memory."""

    def setUp(self) -> None:
        super().setUp()
        self.new_vault()
        self.address = f"127.0.0.1:{free_port()}"

    def test_a_folder_for_a_file(self) -> None:
        os.mkdir("folder")
        for asked in (["inspect", "folder", "b"], ["inspect", "b", "folder"], ["create", "folder", "b"], ["serve", "folder", "b", self.address]):
            self.same("a folder for a file: " + " ".join(asked[:3]), run(*asked), fault("device"))
        self.same("neither changed the other file", held("b"), [b""])
        reader = os.open("folder", os.O_RDONLY)
        self.same("a script from a folder", run("script", stdin=reader), fault("read"))
        os.close(reader)

    def test_an_address_in_use(self) -> None:
        with socket.socket() as other:
            other.bind(("127.0.0.1", 0))
            other.listen()
            self.same("an address in use", run("serve", "a", "b", f"127.0.0.1:{other.getsockname()[1]}"), fault("read"))

    def test_outputs_that_fail(self) -> None:
        reader, unread = os.pipe()
        os.close(reader)
        full = os.open("/dev/full", os.O_WRONLY)
        for stdout, name in ((full, "a full disk"), (unread, "a closed pipe")):
            self.same(f"a script to {name}", run("script", stdin=b"x\n", stdout=stdout), fault("write"))
            for asked in (["--help"], ["inspect", "a", "b"], ["serve", "a", "b", self.address]):
                self.same(f"{asked[0]} to {name}", run(*asked, stdout=stdout), fault("write"))
            lay(c=None, d=None)
            self.same(f"create to {name}", (run("create", "c", "d", stdout=stdout), held("c", "d")), (fault("write"), [NEW, b""]))
            os.close(stdout)

    def test_a_long_script(self) -> None:
        self.same("a script that is too long", run("script", stdin=b"#" * 16777217), fault("long script"))

    def test_a_broken_vault(self) -> None:
        server = self.serve("--connections", "1", limits=Limits(file_bytes=36))
        with server.connect() as client:
            self.same("told of a broken vault", told(client, b"hello anna\nmake /e\n", 2), b"OK session 1\nERR 82\n")
        self.same("the end of a broken vault", server.end(), (1, "listening\n", FAULTS["device"] + "\n"))

    def test_little_memory(self) -> None:
        """A script that gets no memory says so. One that fits is done, under the same limit."""
        for rest, wanted in ((b"\n@1 hello anna\n", (0, "@1 OK session 1\n", "")), (b"#" * 15000000, fault("memory"))):
            # What `rt try` builds has AddressSanitizer, which would end the program here without this setting.
            process = subprocess.Popen([VAULTD, "script"], stdin=subprocess.PIPE, stdout=subprocess.PIPE, stderr=subprocess.PIPE,
                                       env={**os.environ, "ASAN_OPTIONS": "allocator_may_return_null=1"})
            assert process.stdin is not None
            # More than a pipe holds, so that the program has begun to read.
            process.stdin.write(b"#" * 1000000)
            process.stdin.flush()
            with open(f"/proc/{process.pid}/status", encoding="ascii") as rows:
                size = sum(int(row.split()[1]) * 1024 for row in rows if row.startswith("VmSize"))
            resource.prlimit(process.pid, resource.RLIMIT_AS, (size + 8000000, size + 8000000))
            try:
                out, errors = process.communicate(rest, timeout=20)
            except subprocess.TimeoutExpired:
                process.kill()
                out, errors = process.communicate()
            self.same(f"8 MB more, and a script of {1000000 + len(rest)} bytes", (process.returncode, out.decode(), errors.decode()), wanted)

    def test_each_fault_is_tried(self) -> None:
        """Each text of a fault is expected by a try of these modules."""
        text = "".join(path.read_text("utf-8") for path in (TOP / "tests").glob("test_program*.py"))
        self.assertEqual(set(re.findall(r'fault\("([a-z ]+)"', text)), set(FAULTS))


if __name__ == "__main__":
    unittest.main()
