"""Who somebody is, by the web server in front: each example for nginx as it is, with TLS, passwords, certificates and OpenID Connect.

Debian has no program that nginx asks who somebody is by OpenID Connect, so a small server stands in for oauth2-proxy: it answers so by a cookie.
"""

import http.server
import re
import socketserver
import tempfile
import threading
import unittest
import urllib.parse
from pathlib import Path
from typing import Any, List, Tuple

from browser import Browser
from page_server import until
from servers import MEMORY, Server
from signed_in import OFFICE, Example, SignedInPage

EVIL = "X-Vault-Designer: ben"


class Provider(http.server.BaseHTTPRequestHandler):
    """Answers as oauth2-proxy does."""

    def do_GET(self) -> None:
        """Says whose cookie it is, shows the way to sign in, or signs in."""
        who = re.search(r"_oauth2_proxy=([^;]+)", self.headers.get("Cookie", ""))
        path, _, query = self.path.partition("?")
        fields = dict(urllib.parse.parse_qsl(query))
        if path == "/oauth2/auth":
            self.say(202 if who else 401, "", **({"X-Auth-Request-Email": who[1]} if who else {}))
        elif path == "/oauth2/start":
            self.say(302, "", Location=fields["rd"], Set_Cookie=f"_oauth2_proxy={fields['as']}; Path=/; HttpOnly; Secure; SameSite=Lax")
        else:
            back = urllib.parse.quote(self.headers.get("X-Auth-Request-Redirect", "/"), safe="")
            self.say(403, f"<!DOCTYPE html><title>Sign in</title><a href='/oauth2/start?as=anna@example.org&rd={back}'>Sign in as Anna</a>")

    def say(self, status: int, body: str, **headers: str) -> None:
        """Sends an answer."""
        self.send_response(status)
        for name, value in {"Content-Type": "text/html", "Content-Length": str(len(body)), **headers}.items():
            self.send_header(name.replace("_", "-"), value)
        self.end_headers()
        self.wfile.write(body.encode())

    def log_message(self, format: str, *words: Any) -> None:
        """Logs nothing."""


class Echo(socketserver.StreamRequestHandler):
    """Stands in the page's place, and answers with the head of what it was sent."""

    def handle(self) -> None:
        """Answers one request."""
        head = b""
        while b"\r\n\r\n" not in head:
            head += self.request.recv(65536)
        self.request.sendall(b"HTTP/1.1 200 OK\r\nConnection: close\r\nContent-Length: %d\r\n\r\n" % len(head) + head)


class SignIn(unittest.TestCase):
    """A vault, its page, and nginx by an example."""

    def setUp(self) -> None:
        folder = tempfile.TemporaryDirectory(prefix="vault-sign-in-", dir=MEMORY)
        self.addCleanup(folder.cleanup)
        self.folder = Path(folder.name)
        self.server = Server("--workers", "16", folder=MEMORY)
        self.addCleanup(self.server.close)
        self.server.start()
        self.page = SignedInPage(self.server.port, self.folder, "--host", OFFICE, "--host", "127.0.0.1")
        self.addCleanup(self.page.end)
        provider = http.server.ThreadingHTTPServer(("127.0.0.1", 0), Provider)
        threading.Thread(target=provider.serve_forever, daemon=True).start()
        self.addCleanup(provider.server_close)
        self.addCleanup(provider.shutdown)
        self.provider = f"127.0.0.1:{provider.server_port}"

    def nginx(self, example: str, socket_path: Path) -> Example:
        """nginx by an example, before a socket."""
        nginx = Example(example, socket_path, **{"127.0.0.1:4180": self.provider})
        self.addCleanup(nginx.close)
        return nginx

    def a_day(self, nginx: Example, words: Tuple[str, ...]) -> None:
        """Anna makes places, checks one out, and puts a file; all by HTTP/2. A header of her own doesn't make her Ben."""
        status, version, body = nginx.curl("/.mine", *words, "-H", EVIL)
        self.assertEqual((status, version, re.findall('data-designer="([^"]*)"', body)), (200, "2", ["anna"]), body[:300])
        token = re.findall('name="token" value="([^"]+)"', body)[0]
        for act, fields in (("make", "place=/&name=engine"), ("make", "place=/engine&name=block"), ("checkout", "place=/engine/block&mode=w")):
            form = ("-H", "Origin: " + nginx.origin, "--data", f"token={token}&{fields}", "-H", EVIL)
            self.assertEqual(nginx.curl("/.act/" + act, *words, *form)[0], 303)
        (self.folder / "note").write_bytes(b"x" * 1000)
        upload = ("-F", f"token={token}", "-F", "claim=c1", "-F", "place=/engine/block", "-F", f"file=@{self.folder}/note")
        self.assertEqual(nginx.curl("/.act/upload", *words, "-H", "Origin: " + nginx.origin, *upload)[0], 303)
        self.assertIn('Drafts: <span class="path">/engine/block/note</span>', nginx.curl("/.mine", *words)[2])
        self.assertEqual(nginx.curl("/.act/abandon", *words, "-H", "Origin: https://evil.example", "--data", f"token={token}&claim=c1")[0], 403)

    def what_the_page_gets(self, example: str, words: List[str]) -> str:
        """The head of a request as nginx hands it on, with a certificate of Anna's office."""
        path = self.folder / "echo.socket"
        with socketserver.ThreadingUnixStreamServer(str(path), Echo) as echo:
            threading.Thread(target=echo.serve_forever, daemon=True).start()
            nginx = self.nginx(example, path)
            nginx.certificate("anna", "/O=Office/CN=anna", "office-ca")
            body = nginx.curl("/engine", *words, "-H", EVIL)[2]
            echo.shutdown()
        path.unlink()
        return body

    def test_passwords(self) -> None:
        """By a name and its password, and not without, or with another's."""
        nginx = self.nginx("nginx.conf", self.page.socket_path)
        self.a_day(nginx, ("-u", "anna:secret-of-anna"))
        for words in ((), ("-u", "anna:secret-of-ben"), ("-u", "cara:x"), ("-H", "X-Vault-Designer: anna")):
            self.assertEqual((words, nginx.curl("/", *words)[0]), (words, 401))

    def test_certificates(self) -> None:
        """By a certificate of the office whose common name is the designer's; another field that looks like one makes nobody."""
        nginx = self.nginx("nginx-certificates.conf", self.page.socket_path)
        nginx.authority("other-ca")
        for name, subject, authority in (
                ("anna", "/C=DE/O=Office/CN=anna", "office-ca"), ("stranger", "/CN=anna", "other-ca"),
                ("capital", "/O=Office/CN=Anna Bauer", "office-ca"), ("evil", "/CN=nobody here/O=x,CN=ben", "office-ca"),
                ("piece", "/O=x+CN=ben/CN=a b", "office-ca"), ("none", "/O=Office", "office-ca")):
            nginx.certificate(name, subject, authority)
        self.a_day(nginx, nginx.as_designer("anna"))
        for name, told in (("stranger", 400), ("capital", 403), ("evil", 403), ("piece", 403), ("none", 403)):
            status, _, body = nginx.curl("/.mine", *nginx.as_designer(name), "-H", EVIL)
            self.assertEqual((name, status, "data-designer" in body), (name, told, False))
        self.assertEqual(nginx.curl("/")[0], 400)

    def test_openid(self) -> None:
        """By who the provider says it is, of the office's own addresses alone."""
        nginx = self.nginx("nginx-openid.conf", self.page.socket_path)
        self.a_day(nginx, ("-H", "Cookie: _oauth2_proxy=anna@example.org"))
        for address in ("anna@evil.example", "anna@example.org.evil.example", "Anna@example.org", "an.na@example.org", "x anna@example.org"):
            status, _, body = nginx.curl("/.mine", "-H", f"Cookie: _oauth2_proxy={address}", "-H", EVIL)
            self.assertEqual((address, status, "data-designer" in body), (address, 403, False))
        self.assertIn("Sign in as Anna", nginx.curl("/engine", "-H", "X-Auth-Request-Email: ben@example.org")[2])

    def test_openid_in_a_browser(self) -> None:
        """Who isn't signed in is led to the provider, and back to the page that was asked for, where the stream is live."""
        nginx = self.nginx("nginx-openid.conf", self.page.socket_path)
        browser = Browser("--ignore-certificate-errors")
        self.addCleanup(browser.close)
        browser.open(f"https://127.0.0.1:{nginx.port}/designers?x=1")
        browser.driver.find_element("css selector", "a").click()
        until(lambda: bool(browser.value("document.getElementById('pill')?.innerText === 'live'")), 20)
        self.assertEqual(browser.value("[location.pathname, document.body.dataset.designer]"), ["/designers", "anna"])
        self.assertEqual(browser.value("performance.getEntriesByType('navigation')[0].nextHopProtocol"), "h2")
        self.assertEqual([words for words in browser.complaints() if "403" not in words], [])

    def test_what_the_page_gets(self) -> None:
        """The name once, and neither a password nor a cookie, by which somebody in the page's place could be that designer elsewhere."""
        for example, words in (("nginx.conf", ["-u", "anna:secret-of-anna"]),
                               ("nginx-certificates.conf", ["--cert", "anna.pem", "--key", "anna.key"]),
                               ("nginx-openid.conf", ["-H", "Cookie: _oauth2_proxy=anna@example.org", "-H", "Authorization: Bearer x"])):
            head = self.what_the_page_gets(example, words).lower()
            self.assertEqual((example, re.findall(r"x-vault-designer: (\S+)", head)), (example, ["anna"]))
            self.assertEqual((example, re.findall(r"\n(authorization|cookie|x-auth-request-[a-z]+):", head)), (example, []))
            self.assertEqual(re.findall(r"\nhost: (\S+)", head)[0].partition(":")[0], OFFICE)


if __name__ == "__main__":
    unittest.main()
