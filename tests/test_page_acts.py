"""What designers who are signed in do by the page, as the web server in front hands it on: each act, each refusal, files, and attacks."""

import contextlib
import hashlib
import http.client
import io
import os
import socket
import tempfile
import time
import unittest
import zipfile
from concurrent.futures import ThreadPoolExecutor
from pathlib import Path
from typing import Dict, List, Tuple
from unittest import mock

from page_server import soon, until
from servers import MEMORY, Server
from signed_in import SignedInPage, multipart
from test_rclone import Remote

from vault import Client
from vault.store.address import read_store_address
from vault.store.base import StoreFaultError
from vault.store.card import Card
from vault.store.setting import Setting, open_store
from vault.store.naming import survey
from vaultd_tools.page import uploads
from vaultd_tools.page.acting import PATIENCE_SECONDS
from vaultd_tools.page.identity import TOKEN_SECONDS, Identity
from vaultd_tools.page.signed_in import UPLOADS_AT_ONCE

PART = "/engine/block/piston"
FORM = "application/x-www-form-urlencoded"
NO_SYSLOG = b"vaultd-page: no system log takes lines at /dev/log: No such file or directory\n"


class WithActs(unittest.TestCase):
    """A vault with a store, its server, and the page with a socket for who is signed in."""

    words: List[str] = []

    def setUp(self) -> None:
        folder = tempfile.TemporaryDirectory(prefix="vault-acts-", dir=MEMORY)
        self.addCleanup(folder.cleanup)
        self.folder = Path(folder.name)
        self.server = Server("--workers", "32", folder=MEMORY)
        self.addCleanup(self.server.close)
        self.server.start()
        self.anna, self.ben = self.client("anna"), self.client("ben")
        self.store = self.folder / "store"
        Setting(self.anna).set(self.address())
        for place in ("/engine", "/engine/block", PART):
            self.anna.make(place)
        self.log = self.folder / "changes.log"
        self.page = self.started()

    def address(self) -> str:
        """The address of the store."""
        return f"file://{self.store}"

    def started(self) -> SignedInPage:
        """The page's program."""
        page = SignedInPage(self.server.port, self.folder, "--store", self.address(), "--log", str(self.log), *self.words)
        self.addCleanup(lambda: self.assertEqual(page.end().replace(NO_SYSLOG, b""), b""))
        return page

    def client(self, name: str) -> Client:
        """A designer at the server itself."""
        client = Client(name, "127.0.0.1", self.server.port, self.folder / "clients", 10.0, 0.05)
        self.addCleanup(client.close)
        return client

    def files(self) -> List[str]:
        """What the vault's two files are now."""
        return [hashlib.sha256(Path(file).read_bytes()).hexdigest() for file in self.server.files]

    def kept(self) -> List[str]:
        """All files in the store."""
        return sorted(str(path.relative_to(self.store)) for path in self.store.rglob("*") if path.is_file())


class Acts(WithActs):
    """Each act, and what comes of it."""

    def test_each(self) -> None:
        """Each is said in the designer's own session, its outcome is told as the client tells it, and the log has it."""
        for act, fields, told in (
                ("make", {"place": "/engine", "name": "wing"}, "/engine/wing is there."),
                ("make", {"place": "/engine/block", "name": "inner", "kind": "nest"}, "/engine/block/inner is there."),
                ("make", {"place": "/engine", "name": "Wing"}, "refused: `/engine/Wing` is no place"),
                ("checkout", {"place": PART, "mode": "w", "note": "until noon"}, "c2 is held."),
                ("checkout", {"place": "/nowhere", "mode": "w"}, "refused: There is no such place."),
                ("extend", {"claim": "c2", "place": "/engine/wing", "mode": "r"}, "c2 has /engine/wing, too, to look at."),
                ("note", {"claim": "c2", "note": "for long"}, "c2 has the note now."),
                ("note", {"claim": "c2", "note": "x" * 65}, "refused: The note has 65 bytes"),
                ("give", {"claim": "c2", "to": "anna"}, "refused: You are anna."),
                ("checkin", {"claim": "c2", "why": "nothing new"}, "c2 is checked in: no new versions."),
                ("checkin", {"claim": "c2"}, "refused: There is no such check-out"),
                ("abandon", {"claim": "h1"}, "refused: `h1` is no check-out")):
            status, said = self.page.act("anna", act, **fields)
            self.assertEqual((act, status, told in said), (act, 303, True), said)
        self.assertEqual(self.page.act("anna", "checkout", place=PART)[1], "c3 is held.")
        told = self.page.act("ben", "checkout", place="/engine", mode="r")[1]
        self.assertEqual(told, f"c4 is queued behind c3, which anna holds: w:{PART}. The page tells when it is held.")
        self.assertIn("refused: That check-out is another designer", self.page.act("ben", "abandon", claim="c3")[1])
        self.assertEqual(self.page.act("anna", "give", give="c3 ben")[1], "c3 is ben's now, with its drafts.")
        self.assertIn("stopped:c3:c4", self.page.ask("ben", "/")[2].decode())
        log = self.log.read_text("ascii")
        for words in ("by=anna as=anna asks checkout w:" + PART, "by=ben as=ben told checkout r:/engine -> OK queued c4 behind c3",
                      "by=anna as=anna told checkout w:/nowhere -> ERR 20", "told note c2 (8 bytes) -> OK noted"):
            self.assertIn(words, log)

    def test_back(self) -> None:
        """After an act one stands where its form was, and nowhere else."""
        form = f"token={self.page.token('anna')}&place=/engine&name=a&back="
        for back, leads in (("/engine", "/engine"), ("/.mine", "/.mine"), ("//evil.example", "/.mine"), ("https://evil.example", "/.mine"),
                            ("/engine%0d%0aX: 1", "/.mine"), ("/.act/abandon", "/.mine")):
            status, headers, _ = self.page.ask("anna", "/.act/make", "POST", (form + back).encode(), Origin="http://127.0.0.1", Content_Type=FORM)
            self.assertEqual((back, status, headers["location"].partition("?")[0], headers.get("x")), (back, 303, leads, None))

    def test_a_double_click(self) -> None:
        """A form that is sent twice at once is done once; the same one of another page is done again."""
        for claim in ("c2", "c3"):
            form = f"token={self.page.token('anna')}&place={PART}&mode=r".encode()
            with ThreadPoolExecutor(4) as pool:
                sent = [pool.submit(self.page.ask, "anna", "/.act/checkout", "POST", form, Origin="http://127.0.0.1", Content_Type=FORM)
                        for _ in range(4)]
                self.assertEqual({self.page.told("anna", each.result()[1]["location"]) for each in sent}, {f"{claim} is held."})
        self.assertEqual([claim.claim for claim in self.anna.holders(PART)], ["c2", "c3"])

    def test_what_others_are_told(self) -> None:
        """What an act came to is told to who did it alone."""
        form = f"token={self.page.token('anna')}&place=/engine&name=a".encode()
        location = self.page.ask("anna", "/.act/make", "POST", form, Origin="http://127.0.0.1", Content_Type=FORM)[1]["location"]
        self.assertIn(b"/engine/a is there.", self.page.ask("anna", location)[2])
        self.assertNotIn(b"/engine/a is there.", self.page.ask("ben", location)[2])

    def test_a_log_that_takes_nothing(self) -> None:
        """Then nothing is changed, and that is told."""
        os.unlink(self.log)
        self.log.mkdir()
        before = self.files()
        self.assertIn("refused: The page's log takes no line, and without one nothing is changed", self.page.act("anna", "checkout", place=PART)[1])
        self.assertEqual(self.files(), before)


class Away(WithActs):
    """The vault's server is away."""

    def test_how_long_that_takes(self) -> None:
        """An act says so once it has tried for a while; the page after it comes at once, however much somebody has, with what was known."""
        self.page.act("anna", "checkout", place=PART)
        self.page.put("anna", "c2", PART, {"piston": b"x"})
        for number in range(3):
            self.page.act("anna", "make", place="/engine/block", name=f"pin_{number}")
            self.page.act("anna", "checkout", place=f"/engine/block/pin_{number}")
        token = self.page.token("anna")
        self.server.kill()
        begun = time.monotonic()
        form = f"token={token}&claim=c2&why=longer".encode()
        location = self.page.ask("anna", "/.act/checkin", "POST", form, Origin="http://127.0.0.1", Content_Type=FORM)[1]["location"]
        self.assertLess(time.monotonic() - begun, PATIENCE_SECONDS + soon(4))
        begun = time.monotonic()
        body = self.page.ask("anna", location)[2].decode()
        self.assertLess(time.monotonic() - begun, soon(3))
        self.assertIn("No server answers at 127.0.0.1", body)
        self.assertIn("No vault since", body)
        self.assertIn(f'Drafts: <span class="path">{PART}</span>', body)
        self.assertEqual(self.page.ask("anna", "/.file" + PART)[0], 503)
        self.server.start()
        until(lambda: self.page.act("anna", "checkin", claim="c2", why="longer")[1] == "c2 is checked in: 1 new version.", 20)


class Attacks(WithActs):
    """Nobody acts through somebody."""

    def refused(self, name: str, path: str, method: str = "POST", body: bytes = b"", **headers: str) -> int:
        """The status of what has to change nothing."""
        before = self.files()
        status, told, _ = self.page.ask(name, path, method, body, **headers)
        self.assertEqual(self.files(), before)
        self.assertNotIn("location", told)
        return status

    def test_forged_forms(self) -> None:
        """A form of another page, with no token, another's, an old one, or by another way changes nothing."""
        self.anna.checkout(["w:" + PART])
        form = f"token={self.page.token('anna')}&claim=c2".encode()
        good = {"Origin": "http://127.0.0.1", "Content_Type": FORM}
        for headers in ({"Origin": "https://evil.example"}, {"Origin": "null"}, {"Origin": ""}, {"Origin": "http://127.0.0.1.evil.example"},
                        {"Sec_Fetch_Site": "cross-site"}, {"Sec_Fetch_Site": "same-site"}, {"Sec_Fetch_Site": "none"}):
            self.assertEqual((headers, self.refused("anna", "/.act/abandon", body=form, **{**good, **headers})), (headers, 403))
        for body in (b"claim=c2", b"token=&claim=c2", b"token=x.y.z&claim=c2", b"token=%FF&claim=c2", form.replace(b"token=", b"token=0"),
                     f"token={self.page.token('ben')}&claim=c2".encode()):
            self.assertIn((body, self.refused("anna", "/.act/abandon", body=body, **good)), ((body, 403), (body, 400)))
        self.assertEqual(self.refused("anna", "/.act/abandon?claim=c2", "GET"), 405)
        self.assertEqual(self.refused("anna", "/.act/abandon", "HEAD"), 405)
        self.assertEqual(self.refused("anna", "/.act/abandon", body=form, **{**good, "Content_Type": "text/plain"}), 415)
        self.assertEqual(self.refused("anna", "/.act/abandon", body=b"x" * 20000, **good), 413)
        self.assertEqual(self.refused("anna", "/.act/release", body=form, **good), 404)
        self.assertEqual(self.refused("anna", "/engine", body=form, **good), 404)
        self.assertEqual(self.refused("anna", "/.act/abandon", body=form, **good, Host="evil.example"), 421)
        self.page.end()
        self.page = self.started()
        self.assertEqual(self.refused("anna", "/.act/abandon", body=form, **good), 403)

    def test_who_it_is(self) -> None:
        """Without the one header with one name of the vault's nobody is served; no frame takes the page in."""
        for name in ("", "Anna", "anna@example.org", "an na", "a" * 33, "anna, ben"):
            self.assertEqual((name, self.refused(name, "/", "GET")), (name, 403))
        raw = b"GET / HTTP/1.1\r\nHost: 127.0.0.1\r\nX-Vault-Designer: anna\r\nX-Vault-Designer: ben\r\nConnection: close\r\n\r\n"
        with socket.socket(socket.AF_UNIX) as client:
            client.connect(str(self.page.socket_path))
            client.sendall(raw)
            self.assertTrue(client.recv(65536).startswith(b"HTTP/1.1 403"))
        headers = self.page.ask("anna", "/.mine")[1]
        self.assertIn("frame-ancestors 'none'", headers["content-security-policy"])
        self.assertEqual((headers["x-frame-options"], headers["cache-control"]), ("DENY", "no-store"))

    def test_at_the_open_port(self) -> None:
        """There the header of a stranger says nothing: the page reads, shows no form, and hands no file out."""
        self.anna.checkout(["w:" + PART])
        form = f"token={self.page.token('anna')}&claim=c2"
        before = self.files()
        for path in ("/", "/engine/block", "/.claim/c2"):
            status, _, body = self.page.get(path, X_Vault_Designer="anna")
            self.assertEqual((path, status, "/.act/" in body, "My work" in body), (path, 200, False, False))
        for path in ("/.mine", "/.file" + PART, "/.zip/engine"):
            self.assertEqual((path, self.page.get(path, X_Vault_Designer="anna")[0]), (path, 404))
        told = self.page.raw((f"POST /.act/abandon HTTP/1.1\r\nHost: 127.0.0.1\r\nX-Vault-Designer: anna\r\nOrigin: http://127.0.0.1\r\n"
                              f"Content-Type: {FORM}\r\nContent-Length: {len(form)}\r\n\r\n{form}").encode())
        self.assertTrue(told.startswith(b"HTTP/1.1 405"), told[:60])
        self.assertEqual(self.files(), before)

    def test_the_socket(self) -> None:
        """Others than its owner and group don't reach it."""
        self.assertEqual(os.stat(self.page.socket_path).st_mode & 0o777, 0o660)

    def test_tokens(self) -> None:
        """No two are alike, and each is a designer's, for a day."""
        identity = Identity("X-Vault-Designer")
        token = identity.token("anna")
        self.assertNotEqual(token, identity.token("anna"))
        self.assertEqual([identity.is_token(token, name) for name in ("anna", "ben", "")], [True, False, False])
        for other in ("", ".", "..", token[:-1], token + "0", token.upper(), "f" + token, "\u0661" + token):
            self.assertFalse(identity.is_token(other, "anna"), other)
        with mock.patch("time.time", return_value=time.time() + TOKEN_SECONDS + 1):
            self.assertFalse(identity.is_token(token, "anna"))
        self.assertFalse(Identity("X-Vault-Designer").is_token(token, "anna"))


class Uploads(WithActs):
    """Files that are put."""

    words = ["--most-bytes", "3000000"]

    def test_files(self) -> None:
        """Each is a draft of the part whose last version has its name, or of a new one, and the store has its bytes under their hash."""
        self.assertEqual(self.page.act("anna", "checkout", place="/engine/block")[1], "c2 is held.")
        files = {"Kolben 80.SLDPRT": b"a" * 2_000_000, "leer": b"", "C:/work/rod.step": b"b", "sub/../pin": b"c", "\u00e9t\u00e9.txt": b"d"}
        status, told = self.page.put("anna", "c2", "/engine/block", files)
        self.assertEqual(status, 303)
        self.assertEqual(told, "/engine/block/kolben_80_sldprt, /engine/block/leer, /engine/block/rod_step and 2 more are drafts in c2.")
        self.assertEqual(self.page.act("anna", "checkin", claim="c2", why="first")[1], "c2 is checked in: 5 new versions.")
        self.assertEqual(self.page.act("anna", "checkout", place="/engine/block")[1], "c3 is held.")
        self.assertEqual(self.page.put("anna", "c3", "/engine/block", {"Kolben 80.SLDPRT": b"new"})[1],
                         "/engine/block/kolben_80_sldprt is a draft in c3.")
        self.assertEqual(self.page.put("anna", "c3", PART, {"Kolben 80.SLDPRT": b"newer"})[1], f"{PART} is a draft in c3.")
        self.assertEqual(sorted(self.anna.drafts("c3")), ["/engine/block/kolben_80_sldprt", PART])
        for path in self.store.glob("sha256/??/??/*"):
            self.assertEqual(hashlib.sha256(path.read_bytes()).hexdigest(), path.name)
        self.assertEqual([path for path in self.kept() if path.startswith("incoming/")], [])

    def test_as_before(self) -> None:
        """What is as a part's last version makes no draft; a part's file keeps its name; and what was put before a break is found again."""
        self.page.act("anna", "checkout", place="/engine/block")
        self.page.put("anna", "c2", "/engine/block", {"Kolben 80.SLDPRT": b"a", "rod": b"b"})
        self.assertEqual(self.page.put("anna", "c2", "/engine/block", {"rod": b"c"})[1], "/engine/block/rod is a draft in c2.")
        self.page.act("anna", "checkin", claim="c2")
        self.page.act("anna", "checkout", place="/engine/block")
        before = self.kept()
        self.assertEqual(self.page.put("anna", "c3", "/engine/block", {"Kolben 80.SLDPRT": b"a", "rod": b"c"})[1],
                         "/engine/block/kolben_80_sldprt, /engine/block/rod are as before, so nothing was put there.")
        self.assertEqual((self.anna.drafts("c3"), self.kept()), ([], before))
        self.assertEqual(self.page.put("anna", "c3", "/engine/block/kolben_80_sldprt", {"Kolben v2.SLDPRT": b"d"})[1],
                         "/engine/block/kolben_80_sldprt is a draft in c3. Its file is called Kolben 80.SLDPRT still.")
        self.assertEqual(self.page.put("anna", "c3", "/engine/block", {"Kolben 80.SLDPRT": b"a"})[1],
                         "/engine/block/kolben_80_sldprt is a draft in c3.")
        self.assertEqual(sorted(self.anna.names("/engine/block")), ["kolben_80_sldprt", "piston", "rod"])

    def test_a_folder(self) -> None:
        """Its folders become assemblies with their real names, its files parts; put again it makes nothing anew; and it comes back as it was."""
        self.page.act("anna", "checkout", place="/engine")
        self.assertIn("/engine is a project, and parts stand in assemblies alone", self.page.put("anna", "c2", "/engine", {"x": b"x"})[1])
        self.assertIn(f"{PART} is a part. Put a folder into an assembly", self.page.put("anna", "c2", PART, {"a/x": b"x"}, folder="1")[1])
        self.assertEqual(self.anna.names("/engine"), ["block"])
        files = {"Motor/.vaultignore": b"*.log\nalt/\n", "Motor/notes.txt": b"no assembly", "Motor/Zylinder/Kolben 80.SLDPRT": b"a",
                 "Motor/Geh\u00e4use (Guss)/Deckel.step": b"b", "Motor/Geh\u00e4use (Guss)/innen/Ring": b"c", "Motor/Geh\u00e4use (Guss)/x.log": b"d",
                 "Motor/Zylinder/alt/x": b"e", "Motor/Zylinder/~$Ring.docx": b"f", "Motor/Zylinder/con.txt": b"g", "Motor/Zylinder/.git/x": b"h",
                 "Motor/a/b/c/d/e/f/g": b"i", "Motor/a/../x": b"j"}
        told = self.page.put("anna", "c2", "/engine", files, folder="1")[1]
        block, cast = "/engine/zylinder", "/engine/geh__use__guss_"
        self.assertTrue(told.startswith(f"{block}/kolben_80_sldprt, {cast}/deckel_step, {cast}/innen/ring are drafts in c2. Made 3 assemblies:"
                                        f" {block}, {cast}, {cast}/innen. Left out: notes.txt (stands in no assembly's folder"), told)
        self.assertIn("Zylinder/con.txt (is a device to Windows, and no file: rename it)", told)
        self.assertIn("and 5 more.", told)
        again = self.page.put("anna", "c2", "/engine", files, folder="1")[1]
        self.assertTrue(again.startswith(f"{block}/kolben_80_sldprt, {cast}/deckel_step, {cast}/innen/ring are drafts in c2. Left out:"), again)
        self.assertEqual(self.page.act("anna", "checkin", claim="c2", why="first")[1], "c2 is checked in: 5 new versions.")
        surveyed = survey(self.anna, "/engine")
        self.assertEqual(surveyed.names, {block: "Zylinder", cast: "Geh\u00e4use (Guss)"})
        self.page.act("anna", "checkout", place="/engine")
        self.assertIn("are as before, so nothing was put there.", self.page.put("anna", "c3", "/engine", files, folder="1")[1])
        self.assertEqual((self.anna.drafts("c3"), survey(self.anna, "/engine")), ([], surveyed))
        with zipfile.ZipFile(io.BytesIO(self.page.ask("ben", "/.zip/engine")[2])) as archive:
            self.assertEqual({name: archive.read(name) for name in archive.namelist()}, {
                "Zylinder/Kolben 80.SLDPRT": b"a", "Geh\u00e4use (Guss)/Deckel.step": b"b", "Geh\u00e4use (Guss)/innen/Ring": b"c"})
        self.assertIn("Geh%C3%A4use%20%28Guss%29.zip", self.page.ask("ben", "/.zip" + cast)[1]["content-disposition"])

    def test_a_folder_that_is_too_large(self) -> None:
        """What a check-out takes is put, what to do then is told, and the rest goes in behind that."""
        self.page.act("anna", "checkout", place="/engine/block")
        files = {f"Block/{'ab'[number // 35]}/{number:02}": b"%d" % number for number in range(70)}
        self.assertIn("c2 has 64 drafts, and a check-out has no more.", self.page.put("anna", "c2", "/engine/block", files, folder="1")[1])
        self.assertEqual(self.page.act("anna", "checkin", claim="c2", why="first")[1], "c2 is checked in: 64 new versions.")
        self.page.act("anna", "checkout", place="/engine/block")
        told = self.page.put("anna", "c3", "/engine/block", files, folder="1")[1]
        self.assertIn("and 3 more are drafts in c3.", told)
        self.assertEqual(len(self.anna.drafts("c3")), 6)

    def test_many_at_once(self) -> None:
        """So many designers put files at once, in little memory; one more is told to wait."""
        names = [f"d{number}" for number in range(UPLOADS_AT_ONCE + 1)]
        tokens = {}
        for name in names:
            self.page.act("anna", "make", place="/engine/block", name=name)
            self.page.act(name, "checkout", place=f"/engine/block/{name}")
            tokens[name] = self.page.token(name)
        claims = {claim.owner: claim.claim for claim in self.anna.holders("/engine/block")}
        before = self.page.memory()
        with contextlib.ExitStack() as stack:
            for name in names[:-1]:
                kind, body = multipart({"token": tokens[name], "claim": claims[name], "place": f"/engine/block/{name}"}, {"x": b"x" * 2_900_000})
                client = stack.enter_context(socket.socket(socket.AF_UNIX))
                client.connect(str(self.page.socket_path))
                head = (f"POST /.act/upload HTTP/1.1\r\nHost: 127.0.0.1\r\nX-Vault-Designer: {name}\r\nOrigin: http://127.0.0.1\r\n"
                        f"Content-Type: {kind}\r\nContent-Length: {len(body)}\r\n\r\n")
                client.sendall(head.encode() + body[:-1000])
            until(lambda: sum(path.startswith("incoming/") for path in self.kept()) == UPLOADS_AT_ONCE, 20)
            last = names[-1]
            self.assertEqual(self.page.put(last, claims[last], f"/engine/block/{last}", {"x": b"x"}, tokens[last])[0], 503)
            self.assertLess(self.page.memory() - before, 90_000_000)
        until(lambda: not any(path.startswith("incoming/") for path in self.kept()), 20)
        until(lambda: self.page.put(last, claims[last], f"/engine/block/{last}", {"x": b"x"}, tokens[last])[0] == 303, 20)

    def test_refused(self) -> None:
        """What can't be put is told, and leaves no draft and nothing in the store."""
        self.page.act("anna", "checkout", place="/engine/block")
        before = self.kept()
        tries: List[Tuple[str, str, Dict[str, bytes], str]] = [
                ("c2", "/engine/block", {"large": b"x" * 3_000_001}, "The file has more than 3,000,000 bytes"),
                ("c2", "/engine/block", {"..": b"x"}, "A file can't be called '..' everywhere"),
                ("c2", "/engine/block", {"con.txt": b"x"}, "A file can't be called 'con.txt' everywhere"),
                ("c2", "/engine/block", {"x" * 300: b"x"}, "A file can't be called"),
                ("c2", "/engine", {"x": b"x"}, "c2 of yours takes in /engine for change. Check it out first."),
                ("c9", PART, {"x": b"x"}, "There is no such check-out"), ("c2", "/nowhere", {"x": b"x"}, "There is no such place"),
                ("c2", "/../x", {"x": b"x"}, "is no place"), ("c2", "/vault/settings/store", {"x": b"x"}, "There the vault names its store"),
                ("c2", "/engine/block", {}, "No file was chosen")]
        for claim, place, files, told in tries:
            status, said = self.page.put("anna", claim, place, files)
            self.assertIn(status, (303, 413))
            self.assertTrue(told in said or status == 413, (told, said))
            self.assertEqual((self.kept(), self.anna.drafts("c2")), (before, []), told)
        self.assertEqual(self.page.put("anna", "c2", PART, {"x": b"x"}, token="x.y.z")[0], 403)
        self.assertIn("another designer", self.page.put("ben", "c2", PART, {"x": b"x"})[1])
        self.assertEqual((self.kept(), self.anna.drafts("c2")), (before, []))

    def test_no_room(self) -> None:
        """What the store's disk has no room for is refused before it comes."""
        store = open_store(read_store_address(self.address()))
        uploads.check_room(store, 3_000_000, self.folder / "spool")
        with self.assertRaisesRegex(StoreFaultError, "The store has no room for that"):
            uploads.check_room(store, 1 << 60, self.folder / "spool")

    def test_broken_off(self) -> None:
        """Of an upload that ends in the middle nothing is left, and the designer's next one is taken."""
        self.page.act("anna", "checkout", place="/engine/block")
        before = self.kept()
        kind, body = multipart({"token": self.page.token("anna"), "claim": "c2", "place": PART}, {"x": b"x" * 2_000_000})
        for cut in (len(body) // 2, len(body) - 30):
            with socket.socket(socket.AF_UNIX) as client:
                client.connect(str(self.page.socket_path))
                head = (f"POST /.act/upload HTTP/1.1\r\nHost: 127.0.0.1\r\nX-Vault-Designer: anna\r\nOrigin: http://127.0.0.1\r\n"
                        f"Content-Type: {kind}\r\nContent-Length: {len(body)}\r\n\r\n")
                client.sendall(head.encode() + body[:cut])
                until(lambda: any(path.startswith("incoming/") for path in self.kept()), 10)
                self.assertEqual(self.page.put("anna", "c2", PART, {"y": b"y"})[0], 429)
            until(lambda: self.kept() == before, 20)
            self.assertEqual(self.anna.drafts("c2"), [])
        until(lambda: self.page.put("anna", "c2", PART, {"y": b"y"})[0] == 303, 10)
        self.assertEqual(self.anna.drafts("c2"), [PART])

    def test_a_store_that_is_not_confirmed(self) -> None:
        """The page follows the store that whoever runs it named, and no other."""
        Setting(self.anna).set(f"file://{self.folder}/other")
        self.page.act("ben", "checkout", place=PART)
        self.assertIn("a store that this page doesn't follow", self.page.put("ben", "c3", PART, {"x": b"x"})[1])


class Downloads(WithActs):
    """Files that are taken away."""

    def put(self, files: Dict[str, bytes]) -> None:
        """New versions in the block."""
        claim = self.page.act("anna", "checkout", place="/engine/block")[1].split()[0]
        self.page.put("anna", claim, "/engine/block", files)
        self.page.act("anna", "checkin", claim=claim)

    def test_versions(self) -> None:
        """A version comes under its card's name as a file to keep, whatever is in it, and never as a page."""
        self.put({"Kolben 80.html": b"<script>alert(1)</script>"})
        self.put({"Kolben 80.html": b"two"})
        path = "/.file/engine/block/kolben_80_html"
        status, headers, body = self.page.ask("ben", path + "?version=1")
        self.assertEqual((status, body), (200, b"<script>alert(1)</script>"))
        self.assertEqual(headers["content-disposition"], "attachment; filename=\"Kolben_80.html\"; filename*=UTF-8''Kolben%2080.html")
        self.assertEqual((headers["content-type"], headers["x-content-type-options"]), ("application/octet-stream", "nosniff"))
        self.assertEqual(headers["content-security-policy"], "default-src 'none'; sandbox")
        self.assertEqual(self.page.ask("ben", path)[2], b"two")
        self.assertEqual((self.page.ask("ben", path, "HEAD")[1]["content-length"], self.page.ask("ben", path, "HEAD")[2]), ("3", b""))
        for wrong in (path + "?version=3", path + "?version=x", path + "?version=-1", "/.file" + PART, "/.file/../etc/passwd", "/.file/",
                      "/.zip/x/y"):
            self.assertEqual((wrong, self.page.ask("ben", wrong)[0]), (wrong, 404))

    def test_names_that_lead_elsewhere(self) -> None:
        """A card may say any name: what can't be a file's everywhere, or leads out, becomes the part's own."""
        for number, name in enumerate(("../../evil", "/etc/passwd", "a\\b", "x\u202egpj.exe", "con", 'a"; filename="b', "." * 3), 1):
            claim = self.anna.checkout(["w:" + PART]).claim
            self.anna.put(PART, Card(hashlib.sha256(b"x").hexdigest(), 1, name, "anna", "2026-11-20T08:15:00Z").spell(), claim)
            self.anna.checkin(claim)
        self.put({"x": b"x"})
        for number in range(1, 8):
            headers = self.page.ask("ben", f"/.file{PART}?version={number}")[1]
            self.assertEqual(headers["content-disposition"], "attachment; filename=\"piston\"; filename*=UTF-8''piston")
        with zipfile.ZipFile(io.BytesIO(self.page.ask("ben", "/.zip/engine")[2])) as archive:
            self.assertEqual(sorted(archive.namelist()), ["block/piston", "block/x"])

    def test_damaged_bytes(self) -> None:
        """A file that isn't what was put never comes to its end."""
        self.put({"large": b"z" * 3_000_000})
        path = next(path for path in self.store.glob("sha256/??/??/*") if path.stat().st_size == 3_000_000)
        path.chmod(0o644)
        path.write_bytes(b"z" * 2_999_999 + b"y")
        for asked in ("/.file/engine/block/large", "/.zip/engine"):
            with self.assertRaises((http.client.IncompleteRead, ConnectionError)):
                self.page.ask("ben", asked)
        path.unlink()
        with self.assertRaises((http.client.IncompleteRead, ConnectionError)):
            self.page.ask("ben", "/.file/engine/block/large")

    def test_three_hundred_files(self) -> None:
        """An assembly's zip has the last version of each part in it, in folders as the places stand, and as many bytes as its head says."""
        lines = ["make /wing", *(f"make /wing/rib_{n}" for n in range(5)), *(f"make /wing/rib_{n}/part_{m}" for n in range(5) for m in range(60))]
        with self.server.connect() as server, server.makefile("rb") as told:
            server.sendall("".join(line + "\n" for line in ["hello anna", *lines]).encode())
            self.assertEqual([told.readline()[:2] for _ in range(306)], [b"OK"] * 306)
        content = {f"sha256/{digest[:2]}/{digest[2:4]}/{digest}": (digest, body) for n in range(5) for m in range(60)
                   for body in (f"{n} {m} ".encode() * 1000,) for digest in (hashlib.sha256(body).hexdigest(),)}
        for path, (_, body) in content.items():
            (self.store / path).parent.mkdir(parents=True, exist_ok=True)
            (self.store / path).write_bytes(body)
        named = [(digest, body) for digest, body in content.values()]
        with self.server.connect() as server, server.makefile("rb") as told:
            server.sendall(b"hello anna\n")
            told.readline()
            for rib in range(5):
                server.sendall(f"checkout w:/wing/rib_{rib}\n".encode())
                claim = told.readline().split()[2].decode()
                for part in range(60):
                    digest, body = named[rib * 60 + part]
                    card = Card(digest, len(body), f"Teil {part}.step", "anna", "2026-11-20T08:15:00Z").spell().hex()
                    server.sendall(f"save {claim} /wing/rib_{rib}/part_{part} {card}\n".encode())
                    told.readline()
                server.sendall(f"checkin {claim}\n".encode())
                self.assertEqual(told.readline(), b"OK checked in 60\n")
        status, headers, body = self.page.ask("ben", "/.zip/wing")
        self.assertEqual((status, headers["content-length"]), (200, str(len(body))))
        with zipfile.ZipFile(io.BytesIO(body)) as archive:
            self.assertEqual((len(archive.namelist()), archive.testzip()), (300, None))
            self.assertEqual(archive.read("rib_3/Teil 7.step"), named[3 * 60 + 7][1])


class OverRclone(WithActs):
    """A store that is a remote of rclone: here over WebDAV."""

    def setUp(self) -> None:
        self.remote = Remote("webdav", Path(self.enterContext(tempfile.TemporaryDirectory(prefix="vault-test-"))))
        self.remote.start()
        self.addCleanup(lambda: self.remote.stop())
        self.enterContext(mock.patch.dict(os.environ, {"RCLONE_CONFIG": str(self.remote.config)}))
        super().setUp()

    def address(self) -> str:
        """The address of the store."""
        return "rclone:office:vault"

    def waiting(self) -> List[str]:
        """What waits at the page for the remote, or for a browser."""
        return [path.name for path in (self.folder / "spool").iterdir()]

    def test_there_and_back(self) -> None:
        """Files go to the remote and come back, and nothing of them stays at the page."""
        files = {"Kolben 80.SLDPRT": b"bore 80" * 300_000, "rod": b"b"}
        self.page.act("anna", "checkout", place="/engine/block")
        self.assertEqual(self.page.put("anna", "c2", "/engine/block", files)[1],
                         "/engine/block/kolben_80_sldprt, /engine/block/rod are drafts in c2.")
        self.assertEqual(self.page.act("anna", "checkin", claim="c2", why="first")[1], "c2 is checked in: 2 new versions.")
        self.assertEqual(self.page.ask("ben", "/.file/engine/block/kolben_80_sldprt")[2], files["Kolben 80.SLDPRT"])
        with zipfile.ZipFile(io.BytesIO(self.page.ask("ben", "/.zip/engine")[2])) as archive:
            self.assertEqual({name: archive.read(name) for name in archive.namelist()}, {"block/" + name: each for name, each in files.items()})
        self.assertEqual(self.waiting(), [])

    def test_away(self) -> None:
        """With the remote away an upload and a check-in are refused by rclone's own words, and nothing stays."""
        self.page.act("anna", "checkout", place=PART)
        self.page.put("anna", "c2", PART, {"piston": b"x"})
        self.remote.stop()
        told = self.page.put("anna", "c2", PART, {"piston": b"y" * 100_000})[1]
        self.assertIn("refused: The store rclone:office:vault can't be used: rclone says", told)
        self.assertIn("can't be used: rclone says", self.page.act("anna", "checkin", claim="c2")[1])
        self.assertEqual(self.waiting(), [])
        self.remote.start()
        self.assertEqual(self.page.act("anna", "checkin", claim="c2")[1], "c2 is checked in: 1 new version.")


class WithoutAStore(unittest.TestCase):
    """A vault that names no store."""

    def test_small_files(self) -> None:
        """What the vault itself keeps is put and taken away, and what is longer is refused."""
        with contextlib.ExitStack() as stack:
            folder = Path(stack.enter_context(tempfile.TemporaryDirectory(prefix="vault-acts-", dir=MEMORY)))
            server = Server("--workers", "32", folder=MEMORY)
            stack.callback(server.close)
            server.start()
            page = SignedInPage(server.port, folder)
            stack.callback(page.end)
            for place, name in (("/", "engine"), ("/engine", "block")):
                page.act("anna", "make", place=place, name=name)
            page.act("anna", "checkout", place="/engine/block")
            self.assertEqual(page.put("anna", "c1", "/engine/block", {"note.txt": b"x" * 1024})[1], "/engine/block/note_txt is a draft in c1.")
            self.assertIn("keeps at most 1,024 bytes", page.put("anna", "c1", "/engine/block", {"long.txt": b"x" * 1025})[1])
            page.act("anna", "checkin", claim="c1")
            self.assertEqual(page.ask("ben", "/.file/engine/block/note_txt")[2], b"x" * 1024)


if __name__ == "__main__":
    unittest.main()
