"""A vlmd for a test, and a client that speaks its lines."""

import os
import re
import shutil
import signal
import socket
import subprocess
import sys
import tempfile
import time
from pathlib import Path

import library
from harness import ROOM, TOP, Once

SOURCES = sorted((TOP / "service").glob("*.c"))
# The files of the dispatcher and of a replica, without the daemon around them.
DAEMON = ("vlmd.c", "connections.c", "secured.c", "names.c", "config.c", "rows.c", "list.c", "start.c")
DISPATCHER = [it for it in SOURCES if it.name not in DAEMON]
# Programs stop at each bad access.
SANITIZED = ("-fsanitize=address,undefined", "-fno-sanitize-recover=all")
# A list in memory, for a replica that is alone.
LIST = TOP / "tests" / "service" / "one_list.py"
# How long an answer may take.
SECONDS = 20
NOBODY = 65534
# What a sanitizer says.
FOUND = re.compile(r"Sanitizer|runtime error")


def compiled(name, *words, tls=None):
    """Compiles the daemon. Gives its path, or raises what the compiler says."""
    made = Path(ROOM().name) / name
    wrong = list(library.ran("cc", "-std=gnu11", *library.STRICT, f"-I{library.prefix()}/include", *words, *SOURCES,
                             library.prefix() / "lib" / "libvlm.a", "-luv", *(tls or library.tls_words()), "-pthread",
                             "-o", made))
    if wrong:
        raise RuntimeError(wrong[0])
    return made


def over_dispatcher(name, source, compiler, *words):
    """Compiles a program of tests/service over the dispatcher, without a daemon. Gives its path, and what is wrong with
    that."""
    made = Path(ROOM().name) / name
    return made, list(library.ran(compiler, "-std=gnu11", *library.STRICT, "-O1", "-g", *words,
                                  f"-I{library.prefix()}/include", f"-I{TOP}/service",
                                  TOP / "tests" / "service" / source, *DISPATCHER,
                                  library.prefix() / "lib" / "libvlm.a", "-pthread", "-o", made))


# The daemon as it is installed, and one that stops at each bad access.
PLAIN = Once(lambda: compiled("vlmd", "-O2"))
CHECKED = Once(lambda: compiled("vlmd checked", "-O1", "-g", *SANITIZED))


class Daemon:
    """A running vlmd, with a configuration, in a folder of its own. Its end must be in order, and its log must not tell
    of a bad access."""

    def __init__(self, *settings, made=CHECKED, folder=None, log=None, env=None):
        self.folder = folder or tempfile.mkdtemp(prefix="vlmd")
        # (another uid of a test reaches it too)
        os.chmod(self.folder, 0o755)
        self.socket = f"{self.folder}/socket"
        self.address = f"unix:{self.socket}"
        self.config = Path(self.folder) / "conf"
        self.config.write_text("".join(f"{it}\n" for it in ("mode 666", f"admin {os.getgid()}", *settings)))
        self.log = Path(self.folder) / "log"
        with open(log or self.log, "w") as told:
            self.run = subprocess.Popen([made(), "-c", self.config, "-s", self.socket], stderr=told,
                                        env={**os.environ, **(env or {})})
        self.owns_folder = folder is None
        self._wait()

    def _wait(self):
        for _ in range(500):
            if self.run.poll() is not None:
                raise RuntimeError(f"vlmd ended: {self.log.read_text()}")
            try:
                self.client().close()
                return
            except OSError:
                time.sleep(0.02)
        raise RuntimeError("vlmd does not listen")

    def client(self, uid=None, groups=()):
        return Client(self.socket, uid, groups)

    def metric(self, name):
        with self.client() as client:
            return int(re.search(f"^vlmd_{name} ([0-9]+)$", "\n".join(client.ask_all("metrics")), re.M)[1])

    def processor_time(self):
        """Seconds that the daemon has had a processor."""
        words = Path(f"/proc/{self.run.pid}/stat").read_text().rsplit(")", 1)[1].split()
        return (int(words[11]) + int(words[12])) / os.sysconf("SC_CLK_TCK")

    def kill(self):
        self.run.kill()
        self.run.wait()

    def __enter__(self):
        return self

    def __exit__(self, kind, *_):
        if self.run.poll() is None:
            self.run.send_signal(signal.SIGTERM)
        status = self.run.wait(SECONDS)
        told = self.log.read_text() if self.log.exists() else ""
        if self.owns_folder:
            shutil.rmtree(self.folder)
        if kind is None and (FOUND.search(told) or status not in (0, -signal.SIGKILL)):
            raise RuntimeError(f"vlmd ended with {status}: {told[-1500:]}")


# Connects as another user, and hands the connection over.
CONNECT = """import os, socket, sys
os.setgroups([int(it) for it in sys.argv[4:]]); os.setgid(int(sys.argv[3])); os.setuid(int(sys.argv[3]))
made = socket.socket(socket.AF_UNIX)
made.connect(sys.argv[1])
socket.send_fds(socket.socket(fileno=int(sys.argv[2])), [b"x"], [made.fileno()])
"""


def connected_as(path, uid, groups):
    """A connection that a process of another user with further groups has made. It takes root."""
    ours, theirs = socket.socketpair()
    with ours, theirs:
        words = [sys.executable, "-c", CONNECT, path, str(theirs.fileno()), str(uid), *map(str, groups)]
        subprocess.run(words, pass_fds=[theirs.fileno()], check=True, timeout=SECONDS)
        return socket.socket(fileno=socket.recv_fds(ours, 1, 1)[1][0])


def lone_replica(*settings):
    """A replica that is alone. A test takes it longer than a daemon, since each `alive` waits for the list; so it
    searches for no deadlocks meanwhile."""
    return Daemon("etcd none:1", "search 100000000", *settings, env={"VLM_LIST": str(LIST)})


class Client:
    """A connection to a vlmd. Lines are texts without line feeds."""

    def __init__(self, path, uid=None, groups=()):
        if uid is None:
            self.socket = socket.socket(socket.AF_UNIX)
            self.socket.connect(path)
        else:
            self.socket = connected_as(path, uid, groups)
        self.socket.settimeout(SECONDS)
        self.heard = b""
        self.greeting = self.line()

    def close(self):
        self.socket.close()

    def __enter__(self):
        return self

    def __exit__(self, *_):
        self.close()

    def send(self, *lines):
        self.socket.sendall("".join(f"{it}\n" for it in lines).encode("latin-1"))

    def line(self):
        """The next line, or None if the daemon has closed the connection."""
        while b"\n" not in self.heard:
            try:
                more = self.socket.recv(1 << 16)
            except ConnectionResetError:
                more = b""
            if not more:
                return None
            self.heard += more
        line, self.heard = self.heard.split(b"\n", 1)
        return line.decode("latin-1")

    def ask(self, line):
        self.send(line)
        return self.line()

    def until_blank(self):
        """The lines up to a blank one."""
        found = []
        while line := self.line():
            found.append(line)
        return found

    def ask_all(self, line):
        self.send(line)
        return self.until_blank()

    def begin(self, *names):
        """Opens a session with processes of these names."""
        for line in ("open", *(f"declare {name}" for name in names)):
            self.ask(line)
        return self

    def is_quiet(self, seconds=0.05):
        """Whether nothing comes for a while."""
        self.socket.settimeout(seconds)
        try:
            line = self.line()
            self.heard = f"{line}\n".encode() + self.heard
            return False
        except TimeoutError:
            return True
        finally:
            self.socket.settimeout(SECONDS)
