"""A Debian of its own, with systemd as its first process, in which a script is run as root: made once by debootstrap, kept between runs,
and left as it was by each run."""

import os
import shutil
import subprocess
import tempfile
from pathlib import Path
from typing import Dict, Tuple

MIRROR = "http://deb.debian.org/debian"
RELEASE = "bookworm"
CACHE = Path(os.environ.get("VAULT_CACHE", "/var/cache/vaultd-tests"))
# Which machine is kept: one more whenever PACKAGES, UNIT or what `base` does is changed.
MADE = 6
# What the packages need and what the page on operating names, and the programs that the script uses.
PACKAGES = ("systemd", "systemd-sysv", "dbus", "python3", "python3-filelock", "python3-pathspec", "python3-aiohttp", "python3-jinja2",
            "python3-zipstream-ng",
            "openssh-server", "nftables", "iproute2", "netcat-openbsd", "psmisc", "prometheus-node-exporter", "curl", "ca-certificates")
SCRIPT_UNIT = "script-of-a-test.service"
UNIT = """\
[Unit]
Description=What a test runs in this machine
After=multi-user.target
ConditionPathExists=/work/script

[Service]
Type=oneshot
WorkingDirectory=/work
ExecStart=-/bin/bash -c './script > said 2>&1; echo $? > status; sync'
ExecStopPost=-/usr/bin/systemctl poweroff --force
StandardOutput=null
StandardError=null

[Install]
WantedBy=default.target
"""
BOOT_SECONDS = 60


def base() -> Path:
    """The machine's root, which no run writes into. If it isn't there yet, this takes two minutes, and the network."""
    root = CACHE / f"{RELEASE}-{MADE}"
    if root.exists():
        return root
    CACHE.mkdir(mode=0o755, parents=True, exist_ok=True)
    making = Path(tempfile.mkdtemp(prefix=".making-", dir=CACHE))
    try:
        done = subprocess.run(["debootstrap", "--variant=minbase", f"--include={','.join(PACKAGES)}", RELEASE, str(making / "root"), MIRROR],
                              stdout=subprocess.PIPE, stderr=subprocess.STDOUT, text=True, timeout=900, check=False)
        if done.returncode != 0:
            raise AssertionError(f"debootstrap made no machine from {MIRROR}; is the network there?\n{done.stdout[-2000:]}")
        (making / "root" / "etc" / "systemd" / "system" / SCRIPT_UNIT).write_text(UNIT, "ascii")
        for words in (("enable", SCRIPT_UNIT), ("mask", "apt-daily.timer", "apt-daily-upgrade.timer", "systemd-timesyncd.service")):
            subprocess.run(["systemctl", "--root", str(making / "root"), *words], check=True, capture_output=True)
        os.rename(making / "root", root)
    finally:
        shutil.rmtree(making, ignore_errors=True)
    return root


def run_in_machine(files: Dict[str, Path], seconds: int) -> Tuple[int, str]:
    """Boots the machine with these files in /work, one of which is `script`, runs that as root, and answers its status and what it said."""
    with tempfile.TemporaryDirectory(prefix="vault-test-machine-") as folder:
        work = Path(folder)
        for name, path in files.items():
            shutil.copy2(path, work / name)
        # A machine's name ends with a letter or a digit, and a folder's may not.
        name = work.name.replace("_", "-") + "0"
        booted = subprocess.run(["timeout", "--kill-after=20", str(seconds + BOOT_SECONDS), "systemd-nspawn", "--quiet", f"--machine={name}",
                                 f"--directory={base()}", "--volatile=overlay", "--register=no", "--keep-unit", "--private-network",
                                 f"--bind={work}:/work", "--console=pipe", "--boot"], stdin=subprocess.DEVNULL, stdout=subprocess.PIPE,
                                stderr=subprocess.STDOUT, text=True, errors="replace", check=False)
        said = (work / "said").read_text("utf-8", "replace") if (work / "said").exists() else ""
        if not (work / "status").exists():
            raise AssertionError(f"the machine ended, or was ended behind {seconds + BOOT_SECONDS} seconds, before its script did."
                                 f"\n{said}\n{booted.stdout[-3000:]}")
        return int((work / "status").read_text("ascii")), said
