"""The page for designers who are signed in, for tests: its program with a socket of its own, and Debian's nginx before that."""

import contextlib
import getpass
import html
import http.client
import re
import secrets
import socket
import subprocess
import tempfile
import urllib.parse
from pathlib import Path
from typing import Dict, List, Optional, Tuple

from browser import needed
from page_server import PageServer, until
from servers import MEMORY, TOP, free_port

CONF = """
user {user};
daemon off;
worker_processes 1;
pid {folder}/nginx.pid;
error_log {folder}/error.log;
events {{ worker_connections 256; }}
http {{
  access_log off;
  client_body_temp_path {folder}/body;
  proxy_temp_path {folder}/proxy;
  fastcgi_temp_path {folder}/fastcgi;
  uwsgi_temp_path {folder}/uwsgi;
  scgi_temp_path {folder}/scgi;
  {within}
}}
"""
SERVER = """
  server {{
    listen 127.0.0.1:{port};
    server_name 127.0.0.1;
    auth_basic "Design vault";
    auth_basic_user_file {folder}/passwords;
    {location}
  }}
"""
OFFICE = "vault.example.org"
NEW_KEY = ("-newkey", "ec", "-pkeyopt", "ec_paramgen_curve:prime256v1", "-nodes")


def location_of(socket_path: Path) -> str:
    """What the example for passwords has nginx hand on, to a socket of a test."""
    text = (TOP / "contrib" / "page" / "nginx.conf").read_text("utf-8")
    found = re.search(r"^  location / \{\n.*?^  \}\n", text, re.MULTILINE | re.DOTALL)
    assert found is not None, "the example has no location"
    return found[0].replace("unix:/run/vaultd-page/signed-in.socket", f"unix:{socket_path}")


class WebServer:
    """nginx by a configuration."""

    def __init__(self) -> None:
        self.kept = tempfile.TemporaryDirectory(prefix="vault-nginx-", dir=MEMORY)
        self.folder, self.port = Path(self.kept.name), free_port()

    def start(self, within: str) -> None:
        """Starts it, and waits until it answers."""
        conf = self.folder / "nginx.conf"
        conf.write_text(CONF.format(user=getpass.getuser(), folder=self.folder, within=within), "utf-8")
        self.process = subprocess.Popen([needed("nginx"), "-c", str(conf), "-e", str(self.folder / "error.log")],
                                        stdin=subprocess.DEVNULL, stdout=subprocess.DEVNULL, stderr=subprocess.DEVNULL)
        until(self._answers, 20)

    def let_in(self, names: List[str]) -> None:
        """Writes a password for each of some designers."""
        lines = [f"{name}:" + subprocess.run(["openssl", "passwd", "-apr1", "secret-of-" + name], check=True, capture_output=True, text=True).stdout
                 for name in names]
        (self.folder / "passwords").write_text("".join(lines), "ascii")

    def _answers(self) -> bool:
        with contextlib.suppress(OSError), socket.create_connection(("127.0.0.1", self.port), timeout=1):
            return True
        if self.process.poll() is not None:
            raise AssertionError((self.folder / "error.log").read_text("utf-8"))
        return False

    def close(self) -> None:
        """Ends it."""
        self.process.terminate()
        self.process.wait(20)
        self.kept.cleanup()


class Nginx(WebServer):
    """nginx with a password for each of some designers, before a socket."""

    def __init__(self, names: List[str], socket_path: Path):
        super().__init__()
        self.let_in(names)
        self.start(SERVER.format(folder=self.folder, port=self.port, location=location_of(socket_path)))

    def address(self, name: str = "") -> str:
        """Where browsers find it, with a designer's password where one is named."""
        return f"http://{name + ':secret-of-' + name + '@' if name else ''}127.0.0.1:{self.port}"


class Example(WebServer):
    """nginx by one of the examples as it is, with TLS, before a socket; with certificates of an authority that is made for it."""

    def __init__(self, name: str, socket_path: Path, **places: str):
        super().__init__()
        self.let_in(["anna", "ben"])
        self.authority("office-ca")
        self.certificate("server", f"/CN={OFFICE}", "office-ca", f"subjectAltName=DNS:{OFFICE},IP:127.0.0.1")
        text = (TOP / "contrib" / "page" / name).read_text("utf-8")
        for here, there in {
                "listen 443 ssl http2;": f"listen 127.0.0.1:{self.port} ssl http2;", "listen [::]:443 ssl http2;": "",
                f"/etc/ssl/certs/{OFFICE}.pem": f"{self.folder}/server.pem", f"/etc/ssl/private/{OFFICE}.key": f"{self.folder}/server.key",
                "/etc/ssl/certs/office-ca.pem": f"{self.folder}/office-ca.pem", "/etc/nginx/vault.htpasswd": f"{self.folder}/passwords",
                "unix:/run/vaultd-page/signed-in.socket": f"unix:{socket_path}", **places}.items():
            text = text.replace(here, there)
        self.start(text)

    def openssl(self, *words: str) -> None:
        """Runs openssl in its folder."""
        subprocess.run(["openssl", *words], cwd=self.folder, check=True, capture_output=True)

    def authority(self, name: str) -> None:
        """Makes an authority."""
        self.openssl("req", "-x509", *NEW_KEY, "-days", "2", "-subj", "/CN=" + name, "-keyout", f"{name}.key", "-out", f"{name}.pem")

    def certificate(self, name: str, subject: str, authority: str, extension: str = "basicConstraints=CA:FALSE") -> None:
        """Makes a certificate by an authority."""
        self.openssl("req", *NEW_KEY, "-subj", subject, "-keyout", f"{name}.key", "-out", f"{name}.csr")
        (self.folder / "extension").write_text(extension + "\n", "ascii")
        self.openssl("x509", "-req", "-in", f"{name}.csr", "-CA", f"{authority}.pem", "-CAkey", f"{authority}.key", "-CAcreateserial", "-days", "2",
                     "-extfile", "extension", "-out", f"{name}.pem")

    def curl(self, path: str, *words: str) -> Tuple[int, str, str]:
        """What curl gets: the status, the version of HTTP, and the body."""
        done = subprocess.run(["curl", "-sS", "--max-time", "60", "--cacert", "office-ca.pem", "--resolve", f"{OFFICE}:{self.port}:127.0.0.1",
                               "-w", "\n%{http_version} %{http_code}", *words, self.origin + path],
                              cwd=self.folder, check=False, capture_output=True, text=True)
        body, _, told = done.stdout.rpartition("\n")
        version, status = told.split()
        return int(status), version, body

    def as_designer(self, name: str) -> Tuple[str, ...]:
        """The words by which curl has a certificate."""
        return ("--cert", f"{name}.pem", "--key", f"{name}.key")

    @property
    def origin(self) -> str:
        """Its origin."""
        return f"https://{OFFICE}:{self.port}"


class SignedInPage(PageServer):
    """`vaultd-page` with a socket for who is signed in."""

    def __init__(self, vault_port: int, folder: Path, *words: str, socket_path: Optional[Path] = None):
        self.socket_path = socket_path or folder / f"act-{secrets.token_hex(4)}.socket"
        super().__init__(vault_port, "--state", str(folder), "--act-at", str(self.socket_path), *words)

    def ask(self, name: str, path: str, method: str = "GET", body: bytes = b"", **headers: str) -> Tuple[int, Dict[str, str], bytes]:
        """A request as the web server in front hands it on for a designer."""
        connection = http.client.HTTPConnection("127.0.0.1", timeout=60)
        connection.sock = socket.socket(socket.AF_UNIX)
        connection.sock.settimeout(60)
        connection.sock.connect(str(self.socket_path))
        given = {"Host": "127.0.0.1", "X-Vault-Designer": name, **{key.replace("_", "-"): value for key, value in headers.items()}}
        try:
            connection.putrequest(method, path, skip_host=True, skip_accept_encoding=True)
            for key, value in given.items():
                if value:
                    connection.putheader(key, value)
            if body or method == "POST":
                connection.putheader("Content-Length", str(len(body)))
            connection.endheaders(body or None)
            answer = connection.getresponse()
            return answer.status, {key.lower(): value for key, value in answer.getheaders()}, answer.read()
        finally:
            connection.close()

    def token(self, name: str) -> str:
        """A token of a designer's page."""
        found = re.search(rb'name="token" value="([^"]+)"', self.ask(name, "/.mine")[2])
        assert found is not None
        return found[1].decode()

    def act(self, designer: str, act: str, token: Optional[str] = None, origin: str = "http://127.0.0.1", **fields: str) -> Tuple[int, str]:
        """What a form of a designer comes to: its status, and the sentence that is told then."""
        form = urllib.parse.urlencode({"token": self.token(designer) if token is None else token, **fields}).encode()
        status, headers, body = self.ask(designer, "/.act/" + act, "POST", form, Origin=origin, Content_Type="application/x-www-form-urlencoded")
        return status, self.told(designer, headers["location"]) if status == 303 else body.decode("utf-8")

    def told(self, name: str, path: str) -> str:
        """The sentence on a page right after an act."""
        body = self.ask(name, path)[2].decode("utf-8")
        found = re.search(r'<p class="told( refused)?" role="\w+">(.*?)</p>', body)
        assert found is not None, body[:2000]
        return ("refused: " if found[1] else "") + html.unescape(re.sub(r"<[^>]*>", "", found[2]))

    def put(self, name: str, claim: str, place: str, files: Dict[str, bytes], token: Optional[str] = None, **fields: str) -> Tuple[int, str]:
        """What an upload comes to."""
        token = self.token(name) if token is None else token
        kind, body = multipart({"token": token, "back": "/.mine", "claim": claim, "place": place, **fields}, files)
        status, headers, told = self.ask(name, "/.act/upload", "POST", body, Origin="http://127.0.0.1", Content_Type=kind)
        return status, self.told(name, headers["location"]) if status == 303 else told.decode("utf-8")


def multipart(fields: Dict[str, str], files: Dict[str, bytes]) -> Tuple[str, bytes]:
    """A form with files, as a browser sends it: its type and its bytes."""
    edge = "edge" + secrets.token_hex(8)
    body = b""
    for name, value in fields.items():
        body += f'--{edge}\r\nContent-Disposition: form-data; name="{name}"\r\n\r\n{value}\r\n'.encode()
    for name, content in files.items():
        body += f'--{edge}\r\nContent-Disposition: form-data; name="file"; filename="{name}"\r\n'.encode()
        body += b"Content-Type: application/octet-stream\r\n\r\n" + content + b"\r\n"
    return f"multipart/form-data; boundary={edge}", body + f"--{edge}--\r\n".encode()
