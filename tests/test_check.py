"""What `vaultd check` says of two files."""

import json
import subprocess
from typing import Any, Dict, Tuple

from servers import VAULTD
from tries import NEW, Tries, content_of, held, lay, lock, run, told

KEYS = {"served", "reason", "file", "path", "offset", "advice", "generation", "version", "frames", "journal", "snapshot", "places",
        "versions", "claims", "held", "waiting", "drafts", "weight", "limits"}

# A part /e/b/c, and the check-out c1 of the project e for change.
PLACES = bytes.fromhex("00000004 00000000 01 65 00 00000001 01 62 00 00000002 01 63 01 0000")
WITH_C1 = bytes.fromhex("00000001") + PLACES + bytes.fromhex("0001 00000001 04 616e6e61 00 01 01 00000001 00")


def file_of(generation: int, snapshot: bytes, frames: bytes = b"") -> bytes:
    """An open file of version 2."""
    return b"\1LLVAULT\0\0\0\2" + generation.to_bytes(8, "big") + len(snapshot).to_bytes(4, "big") + snapshot + frames + b"\0"


def checked(first: str = "a", second: str = "b") -> Tuple[int, Dict[str, Any], str]:
    """The status of a check, its object and what it says on standard error."""
    status, out, errors = run("check", "--json", first, second)
    assert status is not None, errors
    return status, json.loads(out), errors


class Check(Tries):
    """What two files are, whether a server starts, and how full the vault is."""

    def test_a_new_vault(self) -> None:
        self.new_vault()
        status, out, errors = run("check", "a", "b")
        lines = out.splitlines()
        self.same("status and errors", (status, errors), (0, ""))
        self.same("sentences", lines[:6], [
            "file a, a, is the active file: generation 1, 0 commits behind its snapshot, up to byte 34.",
            "file b, b, is closed: nothing in it counts.",
            "A server starts over these files.",
            "The active file has version 2, a snapshot of 10 bytes and a journal of 0.",
            "The vault has 1 places, 0 versions, 0 claims and 0 drafts.",
            "Of the claims 0 are held, and 0 wait."])
        self.same("limits", [line.split(",")[0].strip() for line in lines[6:]], [
            "places: 1 of 4096", "projects: 0 of 64", "places-beneath-one: 0 of 64", "claims: 0 of 256", "drafts-of-a-check-out: 0 of 64",
            "versions: 0 of 65535", "weight: 0 of 16777216", "check-outs: 0 of 4294967295"])
        self.same("nothing is changed", held("a", "b"), [NEW, b""])

    def test_json(self) -> None:
        self.new_vault()
        status, found, errors = checked()
        self.same("status and errors", (status, errors), (0, ""))
        self.same("keys", set(found), KEYS)
        self.same("no reason", [found[key] for key in ("served", "reason", "file", "path", "offset", "advice")], [True] + [None] * 5)
        self.same("a limit", found["limits"][0], {"name": "places", "used": 1, "limit": 4096, "per_cent": 0})

    def test_figures(self) -> None:
        """Figures are those of the vault, also beside its server, which keeps both files locked."""
        self.new_vault()
        server = self.serve()
        with server.connect() as client:
            told(client, b"hello anna\nmake /e\nmake /e/b\nmake /e/b/c\ncheckout w:/e\nsave c1 /e/b/c 6162\ncheckin c1\n", 7)
            told(client, b"checkout w:/e/b/c\ncheckout w:/e/b\nsave c2 /e/b/c 61\n", 3)
            status, found, errors = checked()
        self.same("beside a server", (status, errors, found["served"]), (0, "", True))
        names = ("places", "versions", "claims", "held", "waiting", "drafts", "weight", "generation", "version")
        self.same("figures", [found[name] for name in names], [4, 1, 2, 1, 1, 1, 19, 1, 2])
        self.same("limits", [(full["name"], full["used"]) for full in found["limits"]],
                  [("places", 4), ("projects", 1), ("places-beneath-one", 1), ("claims", 2), ("drafts-of-a-check-out", 1), ("versions", 1),
                   ("weight", 19), ("check-outs", 3)])
        server.kill()
        self.same("lengths", 24 + found["snapshot"] + found["journal"] + 1, len(content_of("a")))
        self.check("the same without the server", checked()[1] == found)

    def test_no_lock(self) -> None:
        """A check neither needs a lock nor takes one: a server starts while it runs."""
        self.new_vault()
        with lock("a"), lock("b"):
            self.same("both files locked", run("check", "a", "b")[0], 0)
        done = subprocess.run(["strace", "-f", "-e", "trace=flock,pwrite64,write,fsync,fdatasync", VAULTD, "check", "a", "b"],
                              capture_output=True, text=True, check=True)
        calls = [line for line in done.stderr.splitlines() if "(" in line and not line.startswith(("+++", "---"))]
        self.check("no lock, no sync, and writes to standard output alone", all(line.startswith("write(1") for line in calls), calls)

    def test_the_longest_frame(self) -> None:
        """A frame of 262,139 bytes of records, the most that one has, is read."""
        save = b"\4\0\0\0\1\0\0\0\3" + (1024).to_bytes(2, "big") + bytes(1024)
        records = save * 253 + b"\4\0\0\0\1\0\0\0\3" + (273).to_bytes(2, "big") + bytes(273)
        lay(a=file_of(1, WITH_C1, b"\1" + len(records).to_bytes(4, "big") + records), b=b"")
        status, found, errors = checked()
        self.same("served", (status, errors, len(records), found["frames"], found["drafts"], found["weight"]), (0, "", 262139, 1, 1, 281))

    def test_the_longest_note(self) -> None:
        """A note of 64 bytes is printed whole."""
        lay(a=file_of(1, WITH_C1.replace(b"anna\0", b"anna\x40" + bytes(range(64)))), b=b"")
        self.check("inspect", run("inspect", "a", "b")[1].endswith(f" w:/e note {bytes(range(64)).hex()}\n"))

    def test_per_cent(self) -> None:
        """Each limit's per cent is rounded down."""
        places = b"".join(b"\0\0\0\0\2" + f"{number:02d}".encode() + b"\0" for number in range(33))
        lay(a=file_of(1, b"\0\0\0\0" + (34).to_bytes(4, "big") + places + b"\0\0"), b=b"")
        found = {full["name"]: full for full in checked()[1]["limits"]}
        self.same("33 projects of 64", found["projects"], {"name": "projects", "used": 33, "limit": 64, "per_cent": 51})


class NotServed(Tries):
    """If no server starts, the check says why, in which file and at which offset, and what to do."""

    def test_damage(self) -> None:
        for name, first, second, letter, offset in (
                ("a snapshot", NEW[:34], b"", "a", 20), ("a frame", NEW[:34] + b"\1", b"", "a", 34),
                ("a check-out that was never given", file_of(1, WITH_C1[3:4].replace(b"\1", bytes(4)) + WITH_C1[4:]), b"", "a", 24),
                ("a head", b"", NEW[:12] + bytes(8) + NEW[20:], "b", 12), ("one generation twice", NEW, NEW, "b", 12),
                ("a head behind a body", NEW[:34], NEW[:8] + b"\7" + NEW[9:], "b", 8),
                ("two heads", b"\1" + NEW[2:] + b"x", b"\1" + bytes(40), "a", 1)):
            lay(a=first, b=second)
            served = run("serve", "a", "b", "none")
            status, found, errors = checked()
            self.same(f"{name}, as a server says it", (status, errors), (served[0], served[2]))
            self.same(name, [found[key] for key in ("served", "reason", "file", "path", "offset")],
                      [False, f"file {letter} damaged at {offset}", letter, letter, offset])
            self.check(f"{name}: what to do", "A damaged file" in found["advice"], found)
            out = run("check", "a", "b")[1]
            self.check(f"{name}, in sentences", f"No server starts over these files: file {letter} damaged at {offset} ({letter}).\n" in out, out)
            self.same(f"{name}: nothing is changed", held("a", "b"), [first, second])

    def test_files_of_two_vaults(self) -> None:
        """The older file, with its frames, must lead to an earlier vault than the newer one's snapshot. Nothing is changed."""
        plant, office = (bytes(4) + b"\0\0\0\2\0\0\0\0" + bytes([len(name)]) + name + bytes(3) for name in (b"plant", b"office"))
        made = NEW[:34] + b"\1\0\0\0\x0b\1\0\0\0\0\5plant\0"
        for name, first, second, served in (
                ("of two vaults", file_of(3, plant), file_of(2, office), False), ("exchanged", file_of(2, office), file_of(3, plant), False),
                ("by a frame", made, file_of(2, office), False), ("generations apart", file_of(3, plant), NEW, False),
                ("of one vault", file_of(3, plant), file_of(2, plant), True), ("of one vault, by a frame", made, file_of(2, plant), True)):
            lay(a=first, b=second)
            said = (0, True, None, "") if served else (1, False, "files of two vaults", "files of two vaults\n")
            status, found, errors = checked()
            self.same(name, (status, found["served"], found["reason"], errors), said)
            if not served:
                self.same(f"{name}, as a server says it", run("serve", "a", "b", "none"), (1, "", "files of two vaults\n"))
                self.check(f"{name}: what to do", "Files of two vaults" in found["advice"], found)
            self.same(f"{name}: nothing is changed", held("a", "b"), [first, second])

    def test_no_vault(self) -> None:
        lay(a=b"", b=b"")
        status, found, errors = checked()
        self.same("no vault", (status, found["reason"], found["limits"], errors), (1, "no vault", [], "no vault\n"))

    def test_no_file(self) -> None:
        lay(a=NEW)
        for first, second, letter in (("no", "a", "a"), ("a", "no", "b")):
            status, found, errors = checked(first, second)
            self.same(f"file {letter} is missing", (status, found["reason"], found["file"], found["path"], errors.splitlines()[0]),
                      (1, "device fault", letter, "no", "device fault"))
