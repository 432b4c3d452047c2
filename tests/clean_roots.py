"""Roots of Debian 12 that debootstrap makes, in which tests run commands as a new user would: without the kit, this
repository or a compiler."""

import functools
import os
import shutil
import subprocess
import time
import urllib.request
from pathlib import Path

from harness import Once, PLAIN_ROOM, ends_of

MIRROR = "http://deb.debian.org/debian"
# The longest command in a root: it may fetch a compiler.
SECONDS = 300
# apt asks nothing and installs no more than is needed; dpkg does not wait for the disk.
SETTINGS = {"etc/apt/apt.conf.d/90test": 'APT::Install-Recommends "false";\nAPT::Get::Assume-Yes "true";\n',
            "etc/dpkg/dpkg.cfg.d/test": "force-unsafe-io\n",
            "etc/apt/sources.list": f"deb {MIRROR} bookworm main\ndeb {MIRROR} bookworm-updates main\n"
                                    "deb http://deb.debian.org/debian-security bookworm-security main\n"}


def has_mirror():
    try:
        with urllib.request.urlopen(f"{MIRROR}/dists/bookworm/Release", timeout=20) as answer:
            return answer.status == 200
    except OSError:
        return False


@functools.lru_cache(maxsize=None)
def missing():
    """What is not there that roots need."""
    absent = ["debootstrap"] * (not shutil.which("debootstrap")) + ["root"] * (os.geteuid() != 0)
    if not absent and subprocess.run(["unshare", "--pid", "--fork", "--mount-proc", "true"],
                                     capture_output=True).returncode:
        absent = ["namespaces of one's own"]
    return absent or ["a mirror of Debian"] * (not has_mirror())


def made_root():
    """Makes a root with an ordinary user, of which others are copies."""
    root = Path(PLAIN_ROOM().name) / "root"
    words = ["debootstrap", "--variant=minbase", "--include=man-db", "bookworm", root, MIRROR]
    ended = subprocess.run(words, capture_output=True, text=True, timeout=SECONDS)
    if ended.returncode:
        raise OSError(f"debootstrap: {ended.stdout[-300:]}{ended.stderr[-300:]}")
    for name, text in SETTINGS.items():
        (root / name).write_text(text)
    Root(root).need("apt-get update && useradd --create-home --shell /bin/sh user")
    return root


FIRST = Once(made_root)


class Failed(Exception):
    """A command in a root has failed that the rest needs."""


class Root:
    """A root in which commands run, in namespaces of their own: what they start ends with them."""

    def __init__(self, folder):
        self.folder = folder

    @staticmethod
    def copy(name):
        folder = Path(PLAIN_ROOM().name) / name
        subprocess.run(["cp", "-a", "--reflink=auto", FIRST(), folder], check=True)
        return Root(folder)

    def __enter__(self):
        return self

    def __exit__(self, *_):
        """Takes the root away at once: that of a compiler has a gigabyte."""
        subprocess.run(["rm", "-rf", "--one-file-system", self.folder], check=True)

    def words(self):
        """The words that run a command in the root."""
        return ["unshare", "--pid", "--fork", "--kill-child", f"--mount-proc={self.folder}/proc", "chroot", self.folder]

    def run(self, script, user="root"):
        """Runs lines of a shell as a user. Gives the status, and what they print and tell."""
        script = f"export DEBIAN_FRONTEND=noninteractive LC_ALL=C.UTF-8\n{script}"
        return subprocess.run([*self.words(), "su", "-", user, "-c", script], stdin=subprocess.DEVNULL,
                              stdout=subprocess.PIPE, stderr=subprocess.STDOUT, text=True, timeout=SECONDS)

    def need(self, script, user="root"):
        ended = self.run(script, user)
        if ended.returncode:
            raise Failed(f"{script}: {ended.returncode}: {ends_of(ended.stdout)}")
        return ended.stdout

    def put(self, *files, place):
        """Copies files into a folder of the root, where everybody may read them."""
        (self.folder / place).mkdir()
        for file in files:
            (self.folder / place / file.name).write_bytes(file.read_bytes())

    def write(self, name, text):
        """Writes a file in the home of the user, who owns it."""
        there = self.folder / "home" / "user" / name
        there.parent.mkdir(parents=True, exist_ok=True)
        there.write_text(text)
        subprocess.run(["chown", "-R", "--reference", self.folder / "home" / "user", there.parent], check=True)

    def paths(self, word):
        """The paths with this word in them, except those that only packages' tools keep, and the user's."""
        kept = ("var/cache/", "var/log/", "home/", "packages", "next", "proc/", "sys/", "dev/")
        found = subprocess.run(["find", ".", "-name", f"*{word}*"], cwd=self.folder, capture_output=True, text=True,
                               check=True).stdout
        names = sorted(line.removeprefix("./") for line in found.splitlines())
        return [name for name in names if not name.startswith(kept)]


class Machine(Root):
    """A root that systemd has booted. It ends with the block that began it."""

    def __enter__(self):
        boot = ["systemd-nspawn", "--quiet", "--register=no", "--keep-unit", "--boot", "--directory", self.folder]
        self.boot = subprocess.Popen(boot, stdin=subprocess.DEVNULL, stdout=subprocess.DEVNULL,
                                     stderr=subprocess.DEVNULL)
        until = time.monotonic() + SECONDS
        while self.boot.poll() is None and time.monotonic() < until:
            time.sleep(0.5)
            if self.leader() and self.run("systemctl is-system-running").stdout in ("running\n", "degraded\n"):
                return self
        self.__exit__()
        raise Failed("systemd does not boot in a root")

    def __exit__(self, *_):
        self.boot.terminate()
        try:
            self.boot.wait(30)
        except subprocess.TimeoutExpired:
            self.boot.kill()

    def leader(self):
        """The first process of the machine, as others number it."""
        return Path(f"/proc/{self.boot.pid}/task/{self.boot.pid}/children").read_text().split()[:1]

    def words(self):
        return ["nsenter", "--target", *self.leader(), "--mount", "--uts", "--ipc", "--net", "--pid", "--root", "--wd"]
