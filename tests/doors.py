"""A real sshd on loopback before a server, with keys made for it, whose forced commands are gates."""

import os
import pwd
import shutil
import signal
import socket
import subprocess
import tempfile
import time
from pathlib import Path
from typing import Dict, List, Optional, Sequence

from servers import free_port, lay_programs

SSHD = shutil.which("sshd") or "/usr/sbin/sshd"
SSHD_RUNTIME = Path("/run/sshd")
SETTINGS = """\
Port {port}
ListenAddress 127.0.0.1
HostKey {folder}/host
PidFile none
AuthorizedKeysFile {folder}/authorized_keys
StrictModes no
UsePAM no
PasswordAuthentication no
KbdInteractiveAuthentication no
PermitRootLogin prohibit-password
AllowTcpForwarding no
X11Forwarding no
AllowAgentForwarding no
PermitTTY no
PermitUserRC no
PermitUserEnvironment no
ExposeAuthInfo yes
MaxStartups 100
LogLevel VERBOSE
"""
CONFIG = """\
Host *
  User {user}
  IdentitiesOnly yes
  UserKnownHostsFile {folder}/{known}
  GlobalKnownHostsFile none
  IdentityFile {folder}/{key}
"""


def make_key(path: Path) -> str:
    """Makes a key, and answers its fingerprint."""
    subprocess.run(["ssh-keygen", "-q", "-t", "ed25519", "-N", "", "-C", path.name, "-f", str(path)], check=True)
    return subprocess.run(["ssh-keygen", "-lf", str(path)], check=True, capture_output=True, text=True).stdout.split()[1]


class Door:
    """A running sshd, whose keys are those of its designers."""

    def __init__(self, server_port: int, settings: Sequence[str] = ()):
        self.scratch = tempfile.TemporaryDirectory(prefix="vault-test-door-")
        self.folder = Path(self.scratch.name)
        self.server_port, self.port, self.settings = server_port, free_port(), settings
        self.user = pwd.getpwuid(os.getuid()).pw_name
        self.log = self.folder / "log"
        self.places = self.folder / "places"
        self.places.mkdir(0o700)
        self.programs = self.folder / "programs"
        self.programs.mkdir()
        lay_programs(self.programs)
        self.keys: Dict[str, str] = {}
        self.process: Optional["subprocess.Popen[bytes]"] = None
        make_key(self.folder / "host")
        (self.folder / "authorized_keys").touch()
        self.know_host("known_hosts", self.folder / "host.pub")
        self.ssh_program()

    def know_host(self, name: str, key: Path) -> None:
        """Writes down the key by which ssh knows this host."""
        words = key.read_text("ascii").split()
        (self.folder / name).write_text(f"[127.0.0.1]:{self.port} {words[0]} {words[1]}\n", "ascii")

    def ssh_program(self) -> None:
        """Puts an `ssh` on the path whose configuration a variable names, since ssh itself takes its home from no variable."""
        (self.programs / "ssh").write_text(f'#!/bin/sh\nexec {shutil.which("ssh")} -F "$SSH_CONFIG" "$@"\n', "ascii")
        (self.programs / "ssh").chmod(0o755)

    def config(self, key: str, known: str = "known_hosts") -> str:
        """The configuration of the holder of this key."""
        path = self.folder / f"config-{key}-{known}"
        path.write_text(CONFIG.format(user=self.user, folder=self.folder, known=known, key=key), "ascii")
        return str(path)

    def gate(self, name: str, *roles: str) -> List[str]:
        """The command line of a gate to the server."""
        return [str(self.programs / "vaultd-gate"), "--as", name, *roles, "--server", f"127.0.0.1:{self.server_port}", "--log", str(self.log),
                "--places", str(self.places)]

    def admit(self, name: str, *roles: str, key: str = "") -> None:
        """Makes a key, and lets it in as this designer."""
        kept = self.folder / (key or name)
        self.keys[name] = make_key(kept)
        public = kept.with_suffix(".pub").read_text("ascii")
        with (self.folder / "authorized_keys").open("a", encoding="ascii") as file:
            file.write(f'command="{" ".join(self.gate(name, *roles))}",restrict {public}')

    def start(self) -> None:
        """Starts sshd, and waits until it listens. As root it needs a folder that Debian's unit makes for it."""
        if os.getuid() == 0:
            SSHD_RUNTIME.mkdir(mode=0o755, exist_ok=True)
        settings = self.folder / "sshd_config"
        lines = [SETTINGS.format(port=self.port, folder=self.folder), *self.settings]
        settings.write_text("\n".join(lines) + "\n", "ascii")
        with (self.folder / "sshd.log").open("wb") as log:
            self.process = subprocess.Popen([SSHD, "-D", "-e", "-f", str(settings)], stdin=subprocess.DEVNULL, stdout=log, stderr=log,
                                            preexec_fn=lambda: signal.signal(signal.SIGTERM, signal.SIG_DFL))
        for _ in range(200):
            try:
                socket.create_connection(("127.0.0.1", self.port)).close()
                return
            except OSError:
                time.sleep(0.05)
        raise AssertionError((self.folder / "sshd.log").read_text("utf-8"))

    def close(self) -> None:
        """Ends sshd and the connections that stayed, and removes its files."""
        for control in self.folder.glob("control-*"):
            subprocess.run(["ssh", "-S", str(control), "-O", "exit", "127.0.0.1"], capture_output=True, check=False)
        if self.process is not None:
            self.process.terminate()
            self.process.wait()
        self.scratch.cleanup()

    def environment(self, key: str, known: str = "known_hosts") -> Dict[str, str]:
        """The environment of programs of the holder of this key."""
        kept = {**os.environ, "PATH": f"{self.programs}:{os.environ['PATH']}", "SSH_CONFIG": self.config(key, known)}
        for name in ("VAULT_AS", "SSH_AUTH_SOCK"):
            kept.pop(name, None)
        return kept

    def ssh(self, key: str, *options: str) -> "subprocess.Popen[bytes]":
        """A conversation by ssh alone, without the client."""
        return subprocess.Popen(["ssh", "-T", "-o", "BatchMode=yes", *options, "-p", str(self.port), "127.0.0.1", "sh"],
                                env=self.environment(key), stdin=subprocess.PIPE, stdout=subprocess.PIPE, stderr=subprocess.PIPE)

    def ssh_again(self, key: str) -> "subprocess.Popen[bytes]":
        """A conversation on an ssh connection that stays for further ones; each has a gate of its own."""
        return self.ssh(key, "-o", "ControlMaster=auto", "-o", "ControlPersist=60", "-o", f"ControlPath={self.folder}/control-{key}")

    def logged(self) -> List[str]:
        """The lines of the gates' log."""
        return self.log.read_text("ascii").splitlines() if self.log.exists() else []
