"""TLS of vlmd: a replica over a list in memory, clients with right and wrong certificates, bytes that are cut or wrong,
and rights by name. Certificates are made by the commands of docs/CERTIFICATES.md."""

import os
import random
import re
import shutil
import signal
import socket
import ssl
import subprocess
import sys
import tempfile
import time
from functools import partial
from pathlib import Path

import library
import service_commands
from daemons import CHECKED, LIST, PLAIN, SECONDS, Daemon, compiled
from harness import ROOM, TOP, Once, Test, difference
from proxies import Proxy, addresses
from service_replicas import CLIENT, LONG, Program, until
from tls_keys import HOST, KEYS, Halves, SecuredClient, environment

HERE = Path(__file__).resolve().parent / "service"
RIGHTS = "alice uid=1000 group=1\nbob uid=1001 group=2 syslck # of another group\noperator uid=1002 group=1 admin\n"
# How many connections are cut while how many steps are made at least, and after how many bytes at most.
CUTS, STEPS, MOST_BYTES = 60, 60, 6000
# How many handshakes have a wrong byte, and the bytes between two places at which one is cut.
FLIPS, BETWEEN = 150, 41
# How long a handshake may take, and how many KiB may wait for a client.
PATIENCE, MOST_MEMORY = 10, 2000


def free_port():
    with socket.create_server((HOST, 0)) as made:
        return made.getsockname()[1]


class Secured(Daemon):
    """A replica with TLS over a list in memory."""

    def __init__(self, *settings, rights=RIGHTS, name="m1", made=CHECKED):
        self.port = free_port()
        folder = tempfile.mkdtemp(prefix="vlmd")
        self.rights = Path(folder) / "rights"
        self.rights.write_text(rights)
        for kind in ("pem", "key"):
            shutil.copy(KEYS() / f"{name}.{kind}", f"{folder}/own.{kind}")
        super().__init__("etcd none:1", f"listen {HOST}:{self.port}", f"tls-certificate {folder}/own.pem",
                         f"tls-key {folder}/own.key", f"tls-authority {KEYS()}/locks.pem", f"rights {self.rights}",
                         *settings, made=made, folder=folder, env={"VLM_LIST": str(LIST)})
        self.owns_folder = True

    @property
    def secured(self):
        """Its address for clients with TLS."""
        return f"tls:{HOST}:{self.port}"

    def named(self, name="alice"):
        return SecuredClient(self.port, name)

    def has_told(self, text):
        """Whether the log comes to have a text."""
        return until(lambda: text in self.log.read_text(), SECONDS)

    def read_again(self):
        count = self.log.read_text().count("is read again")
        self.run.send_signal(signal.SIGHUP)
        return until(lambda: self.log.read_text().count("is read again") > count, SECONDS)


def vlm(daemon, name, *words, authority="locks", address=None):
    """The status of a command of a client with the certificate of a name, and what it said."""
    env = {**os.environ, **environment(name, authority), "VLM_SOCKET": address or daemon.secured,
           "ASAN_OPTIONS": "detect_leaks=0"}
    made = subprocess.run([service_commands.VLM(), *words], env=env, capture_output=True, text=True, timeout=SECONDS)
    return made.returncode, made.stdout + made.stderr


def talk(_program):
    """Clients with a right certificate lock: by lines in Python, by lines of openssl, and by vlm lock."""
    with Secured() as daemon, daemon.named() as client:
        yield from difference(client.greeting, "vlm protocol 1 epoch 0")
        client.begin("P")
        yield from difference(client.ask("enq P EX name=A block=1"), "P: NORMAL lock 1")
        rows = vlm(daemon, "alice", "who")[1].splitlines()
        yield from difference([row.split()[6] for row in rows[1:]], ["1000"])
        yield from difference(vlm(daemon, "alice", "lock", "-n", "A", "true"), (1, ""))
        client.ask("deq P @1")
        yield from difference(vlm(daemon, "alice", "lock", "-n", "A", "echo", "mine"), (0, "mine\n"))
        words = ["openssl", "s_client", "-quiet", "-verify_return_error", "-connect", f"{HOST}:{daemon.port}", "-cert",
                 KEYS() / "bob.pem", "-key", KEYS() / "bob.key", "-CAfile", KEYS() / "locks.pem"]
        with subprocess.Popen(words, stdin=subprocess.PIPE, stdout=subprocess.PIPE, stderr=subprocess.DEVNULL) as raw:
            raw.stdin.write(b"open\ndeclare P\nenq P EX name=B block=1\n")
            raw.stdin.flush()
            lines = [raw.stdout.readline().decode().split(" ")[0] for _ in range(4)]
            raw.kill()
        yield from difference(lines, ["vlm", "session", "P:", "P:"])
        client.ask("close")
        client.socket.unwrap().close()


def bindings(_program):
    """The client in Python locks by TLS, with files that it names and with those of the environment."""
    script = ("import sys, vlm\n"
              "for files in ({}, dict(zip(('certificate', 'key', 'authority'), sys.argv[2:]))):\n"
              "    with vlm.connect(sys.argv[1], **files) as connection:\n"
              "        with connection.declare().lock('A', vlm.Mode.EX) as held:\n"
              "            print(held.token() > 0)\n"
              "try:\n    vlm.connect(sys.argv[1], certificate='none.pem')\n"
              "except vlm.LostError as error:\n    print(error)\n")
    with Secured(made=PLAIN) as daemon:
        env = {**os.environ, **environment("alice"), "VLM_PREFIX": str(library.prefix())}
        bob = environment("bob").values()
        made = subprocess.run([sys.executable, "-c", script, daemon.secured, *bob], env=env, capture_output=True,
                              text=True, timeout=SECONDS, cwd=TOP / "bindings" / "python")
        yield from difference((made.stdout.splitlines()[:2], made.stderr), (["True", "True"], ""))
        yield from difference("none.pem: No such file or directory" in made.stdout, True)


def rust(_program):
    """The client in Rust locks by TLS, with files that it names and with those of the environment, and is refused."""
    copy = Path(tempfile.mkdtemp(dir=ROOM().name)) / "rust"
    shutil.copytree(TOP / "bindings" / "rust", copy, ignore=shutil.ignore_patterns("target", "Cargo.lock"))
    with Secured(made=PLAIN) as daemon:
        env = {**os.environ, **environment("alice"), "VLM_PREFIX": str(library.prefix()),
               "LD_LIBRARY_PATH": str(library.prefix() / "lib"), "VLM_TLS_ADDRESS": daemon.secured,
               "VLM_TLS_OTHER": str(KEYS())}
        yield from library.ran("cargo", "test", "--offline", "--quiet", "--test", "service", "--", "--ignored",
                               "--exact", "sessions_by_tls", cwd=copy, env=env, seconds=600)
        yield from difference(daemon.log.read_text().count("unable to get local issuer certificate"), 1)


# Clients that are turned away: their certificate, the text that they get, and the text in the log.
TURNED_AWAY = {"of another authority": ("stranger", "it refuses: unknown CA", "unable to get local issuer certificate"),
               "with an old certificate": ("late", "it refuses: certificate expired", "certificate has expired"),
               "with the certificate of a replica": ("m1", "it refuses: unsupported certificate",
                                                     "unsuitable certificate purpose"),
               "without rights": ("mallory", "no rights", "mallory has no rights"),
               "without a proper name": ("two words", "no rights", "without a proper name has no rights")}


def turned_away(kind, _program):
    """A client that is turned away hears why, the log has the reason, and no lock is taken. Others go on."""
    name, told, logged = TURNED_AWAY[kind]
    with Secured() as daemon, daemon.named() as client:
        client.begin("P")
        yield from difference(vlm(daemon, name, "lock", "A", "true"), (69, f"vlm lock: {daemon.secured}: {told}\n"))
        yield from difference(vlm(daemon, name, "who"), (69, f"vlm: no replica answers at {daemon.secured}: {told}\n"))
        yield from difference(daemon.has_told(logged), True)
        yield from difference((daemon.metric("sessions"), daemon.metric("connections")), (1, 2))
        yield from difference(client.ask("enq P EX name=A block=1"), "P: NORMAL lock 1")


def without_certificate(_program):
    """A client without a certificate is turned away."""
    with Secured() as daemon, daemon.named() as other:
        try:
            with daemon.named(None) as client:
                yield f"it is let in: {client.greeting}"
        except ssl.SSLError as refused:
            yield from difference("CERTIFICATE_REQUIRED" in str(refused), True)
        yield from difference(daemon.has_told("peer did not return a certificate"), True)
        yield from difference(other.ask("open").split(" ")[0], "session")


def another_host(_program):
    """The certificate of the replica is of another host, or of another authority: the client refuses it."""
    for name, authority, told in (("far", "locks", "its certificate: IP address mismatch"),
                                  ("m1", "etcd", "its certificate: self-signed certificate in certificate chain"),
                                  ("alice", "locks", "its certificate: unsuitable certificate purpose")):
        with Secured(name=name) as daemon:
            found = vlm(daemon, "alice", "lock", "A", "true", authority=authority)
            yield from difference(found, (69, f"vlm lock: {daemon.secured}: {told}\n"))
            yield from difference(daemon.metric("sessions"), 0)
    with Secured() as daemon:
        address = f"tls:localhost:{daemon.port}"
        yield from difference(vlm(daemon, "alice", "lock", "A", "true", address=address), (0, ""))


def without_tls(_program):
    """Plain text to a port with TLS, TLS to a port without, and a client whose files are wrong."""
    with Secured() as daemon, Daemon() as plain, Proxy(plain.socket) as proxy, daemon.named() as client:
        with socket.create_connection((HOST, daemon.port), SECONDS) as raw:
            raw.sendall(b"open\ndeclare P\n")
            raw.shutdown(socket.SHUT_WR)
            while raw.recv(1 << 16):
                pass
        yield from difference(daemon.has_told("wrong version number"), True)
        found = vlm(daemon, "alice", "lock", "A", "true", address=addresses(proxy, scheme="tls"))
        yield from difference((found[0], "wrong version number" in found[1]), (69, True))
        env = {**os.environ, "VLM_SOCKET": daemon.secured}
        made = subprocess.run([service_commands.VLM(), "who"], env=env, capture_output=True, text=True)
        yield from difference("TLS wants a certificate, a key and an authority: no certificate" in made.stderr, True)
        yield from difference(client.ask("open").split(" ")[0], "session")


def hung(_program):
    """A handshake that is not finished is cut off in time, and meanwhile others are served."""
    with Secured() as daemon, socket.create_connection((HOST, daemon.port), 2 * PATIENCE) as silent:
        half = Halves(daemon.port)
        half.socket.settimeout(2 * PATIENCE)
        began = time.monotonic()
        half.socket.sendall(half.next()[:100])
        while time.monotonic() - began < PATIENCE - 2:
            yield from difference(vlm(daemon, "alice", "lock", "A", "true"), (0, ""))
            time.sleep(0.5)
        yield from difference((half.socket.recv(1), silent.recv(1)), (b"", b""))
        if not PATIENCE - 1 < time.monotonic() - began < PATIENCE + 5:
            yield f"they were cut off after {time.monotonic() - began:.1f} seconds"
        yield from difference(daemon.log.read_text().count("has not finished its handshake in time"), 2)


def sent(port, most, is_reset, flipped=None):
    """Sends the bytes of a handshake and of a line, up to a count, perhaps with one of them flipped. Returns how many
    were sent."""
    half, count = Halves(port), 0
    with half.socket:
        try:
            while more := half.next():
                part = bytearray(more[:most - count])
                if flipped is not None and count <= flipped < count + len(part):
                    part[flipped - count] ^= 1 << random.randrange(8)
                half.socket.sendall(part)
                count += len(part)
                if count == most:
                    break
            half.socket.settimeout(0.02 if flipped is None else SECONDS)
            if flipped is not None:
                half.socket.shutdown(socket.SHUT_WR)
            while half.socket.recv(1 << 16):
                pass
        except OSError:
            pass
        if is_reset:
            half.socket.setsockopt(socket.SOL_SOCKET, socket.SO_LINGER, b"\1\0\0\0\0\0\0\0")
    return count


def wrong_bytes(_program):
    """Handshakes that are cut at many places, and those with a flipped byte: the service goes on, and leaks nothing."""
    random.seed(1)
    with Secured() as daemon, daemon.named() as client:
        whole = sent(daemon.port, 1 << 20, False)
        for place in range(1, whole, BETWEEN):
            sent(daemon.port, place, place % 2 == 0)
        for _ in range(FLIPS):
            sent(daemon.port, 1 << 20, False, random.randrange(whole))
        with socket.create_connection((HOST, daemon.port), SECONDS) as raw:
            raw.sendall(b"\x16\x03\x01\xff\xff" + random.randbytes(1 << 16))
        client.begin("P")
        yield from difference(client.ask("enq P EX name=A block=1"), "P: NORMAL lock 1")
        yield from difference(until(lambda: daemon.metric("connections") == 2, SECONDS), True)


def client_program(sanitizer):
    """The client in C and the library of TLS, with a sanitizer."""
    folder = Path(tempfile.mkdtemp(dir=ROOM().name))
    words = [*library.STRICT, "-O1", "-g", f"-fsanitize={sanitizer}", f"-I{TOP}/include"]
    wrong = list(library.ran("cc", "-std=gnu11", *words, "-pthread", '-DVLM_TLS_BESIDE="./"',
                             "-Wl,--wrap=clock_gettime", HERE / "replicas.c", *CLIENT,
                             library.prefix() / "lib" / "libvlm.a", "-o", folder / "replicas"))
    wrong += library.ran("cc", "-std=c11", *words, "-shared", "-fPIC", library.TLS, *library.OPENSSL, "-o",
                         folder / "libvlm-tls.so.1")
    if wrong:
        raise RuntimeError(wrong[0])
    return folder / "replicas"


PROGRAMS = {sanitizer: Once(partial(client_program, sanitizer)) for sanitizer in library.SANITIZERS[1:]}


def cut(sanitizer, _program):
    """Counts under locks while the connections of a client are cut anywhere: none is lost, and no step is made
    twice."""
    env = {**os.environ, **environment("alice")}
    with Secured(made=PLAIN if sanitizer == "thread" else CHECKED) as daemon:
        with Proxy((HOST, daemon.port), seed=1) as one, Proxy((HOST, daemon.port), seed=2) as two, \
                Program(PROGRAMS[sanitizer](), "cuts", addresses(one, two, scheme="tls"), LONG, env) as program:
            yield from difference(program.line(), "ready")
            one.most = two.most = MOST_BYTES
            one.cut()
            if not until(lambda: one.cuts + two.cuts >= CUTS and daemon.metric("steps_total") >= STEPS, 60):
                yield f"{one.cuts + two.cuts} cuts and {daemon.metric('steps_total')} steps"
            one.most = two.most = None
            program.go()
            found = re.fullmatch(r"steps (\d+) cancels (\d+)", program.line() or "")
            steps, cancels = map(int, found.groups() if found else (0, 0))
            if not steps <= daemon.metric("steps_total") <= steps + cancels:
                yield f"{found}, and {daemon.metric('steps_total')} steps of the service"
            program.go()
            yield from difference(program.line(), "closed")
            yield from difference((daemon.metric("sessions"), daemon.metric("locks")), (0, 0))
            program.go()
            yield from program.ended()


def flood(client):
    """Sends lines until nothing more is taken, and reads no answers. Returns how many were sent."""
    client.socket.setblocking(False)
    lines, count = b"metrics\n" * 100, 0
    try:
        while count < 1 << 20:
            count += client.socket.send(lines) // len(lines) * 100
    except (ssl.SSLWantWriteError, OSError):
        pass
    return count


def deaf(_program):
    """A client that reads no answers is not heard any more, and gets all of them when it reads. Others are served
    meanwhile, and what waits for it stays little."""
    def memory():
        return int(re.search(r"VmRSS:\s+(\d+)", Path(f"/proc/{daemon.run.pid}/status").read_text())[1])

    with Secured(made=PLAIN) as daemon, daemon.named() as other, daemon.named() as asker:
        before, count = memory(), flood(asker)
        yield from difference(other.ask("open").split(" ")[0], "session")
        yield from difference((daemon.metric("clients_cut_off_total"), memory() - before < MOST_MEMORY), (0, True))
        asker.socket.settimeout(SECONDS)
        for _ in range(min(count, 3000)):
            answer = asker.until_blank()
            if len(answer) < 20:
                yield f"an answer has {len(answer)} lines"
                break


def cut_off(_program):
    """Two clients of a user that read nothing: what waits for both is over the limit, so they are cut off."""
    with Secured("queued 100000") as daemon, daemon.named() as one, daemon.named() as two, daemon.named("bob") as other:
        flood(one)
        yield from difference((daemon.metric("clients_cut_off_total"), other.ask("open").split(" ")[0]), (0, "session"))
        flood(two)
        yield from difference(until(lambda: daemon.metric("clients_cut_off_total") > 0, SECONDS), True)
        yield from difference(other.ask("alive"), "alive")


def named(_program):
    """Rights by name: users and limits, SYSLCK, administrators, and groups that do not see each other."""
    with Secured("connections 3") as daemon, daemon.named("alice").begin("P") as alice, \
            daemon.named("bob").begin("P") as bob, daemon.named("operator") as operator:
        yield from difference(alice.ask("enq P EX name=A block=1 system"), "P: NOSYSLCK")
        yield from difference(bob.ask("enq P EX name=S block=1 system"), "P: NORMAL lock 1")
        yield from difference(bob.ask("enq P EX name=A block=2"), "P: NORMAL lock 2")
        yield from difference(alice.ask("enq P EX name=A block=1"), "P: NORMAL lock 3")
        for client, wanted in ((alice, {"S", "A 1"}), (bob, {"S", "A 2"}), (operator, {"S", "A 1", "A 2"})):
            rows = [row.split() for row in client.ask_all("who")]
            yield from difference({row[0] + f" {row[3]}" * (row[0] == "A") for row in rows}, wanted)
            yield from difference({row[10] for row in rows if row[0] == "A"} <= {"1000", "1001"}, True)
        session = alice.ask_all("who A")[0].split()[8]
        yield from difference(vlm(daemon, "bob", "kill", session), (1, "vlm kill: not allowed\n"))
        yield from difference(vlm(daemon, "operator", "kill", session), (0, ""))
        yield from difference((alice.line(), alice.line()), ("session killed", None))
        with daemon.named("bob"), daemon.named("bob"), daemon.named("bob") as last, daemon.named("operator"):
            yield from difference((last.greeting, last.line()), ("vlm protocol 1 epoch 0", "too many connections"))


def resumed(_program):
    """A session goes on for a client with the rights of the one that opened it, and for no other."""
    with Secured(rights=RIGHTS + "mallory uid=1000 group=1 syslck\n") as daemon:
        with daemon.named("alice") as first:
            session = first.ask("open seconds=60").split(" ")[1]
        with daemon.named("mallory") as other:
            yield from difference(other.ask(f"resume {session}"), "session ended")
        with daemon.named("alice") as second:
            yield from difference(second.ask(f"resume {session}").split(" ")[1], session)


def told_often(_program):
    """The log has few lines of what strangers do, and how many more there were."""
    with Secured() as daemon:
        for _ in range(40):
            with socket.create_connection((HOST, daemon.port), SECONDS) as raw:
                raw.sendall(b"open\n")
                raw.shutdown(socket.SHUT_WR)
                raw.recv(1)
        time.sleep(1.1)
        sent(daemon.port, 100, False)
        yield from difference(daemon.has_told(" more\n"), True)
        if (count := daemon.log.read_text().count("wrong version number")) > 20:
            yield f"the log has {count} lines of 40 strangers"


def new_keys(_program):
    """A client that changes its keys again and again is cut off."""
    words = ["openssl", "s_client", "-connect", f"{HOST}:PORT", "-cert", KEYS() / "bob.pem", "-key",
             KEYS() / "bob.key", "-CAfile", KEYS() / "locks.pem"]
    with Secured() as daemon:
        words[3] = f"{HOST}:{daemon.port}"
        none = subprocess.DEVNULL
        with subprocess.Popen(words, stdin=subprocess.PIPE, stdout=none, stderr=none) as raw:
            for _ in range(2 * 64):
                for line in (b"K\n", b"metrics\n"):
                    if raw.poll() is None:
                        raw.stdin.write(line)
                        raw.stdin.flush()
                        time.sleep(0.01)
            raw.kill()
        yield from difference(daemon.has_told("it changes its keys too often"), True)


def reread(_program):
    """SIGHUP has certificates and rights read again. Wrong ones leave those that are there."""
    def shown(daemon):
        with daemon.named() as client:
            return dict(part[0] for part in client.socket.getpeercert()["subject"])["commonName"]

    with Secured() as daemon, daemon.named().begin("P") as before:
        yield from difference(shown(daemon), "m1")
        for kind in ("pem", "key"):
            shutil.copy(KEYS() / f"second.{kind}", f"{daemon.folder}/own.{kind}")
        daemon.rights.write_text(RIGHTS + "mallory uid=7 group=7\n")
        yield from difference((daemon.read_again(), shown(daemon)), (True, "second"))
        yield from difference(vlm(daemon, "mallory", "lock", "A", "true"), (0, ""))
        for kind in ("pem", "key"):
            shutil.copy(KEYS() / f"late.{kind}", f"{daemon.folder}/own.{kind}")
        yield from difference((daemon.read_again(), daemon.has_told("own.pem: the certificate has expired")),
                              (True, True))
        for kind in ("pem", "key"):
            shutil.copy(KEYS() / f"second.{kind}", f"{daemon.folder}/own.{kind}")
        yield from difference(daemon.read_again(), True)
        for file, text, told in (("rights", "alice uid=1 group=1\nbob uid=x group=1", "rights line 2: it is not NAME"),
                                 ("own.pem", "no certificate\n", "own.pem: no start line"),
                                 ("own.key", (KEYS() / "alice.key").read_text(), "own.key: key values mismatch")):
            kept = (Path(daemon.folder) / file).read_text()
            (Path(daemon.folder) / file).write_text(text)
            yield from difference((daemon.read_again(), daemon.has_told(told)), (True, True))
            yield from difference((shown(daemon), vlm(daemon, "mallory", "lock", "A", "true")), ("second", (0, "")))
            (Path(daemon.folder) / file).write_text(kept)
        yield from difference(before.ask("enq P EX name=A block=1").split(" lock")[0], "P: NORMAL")


# Configurations that vlmd refuses, with its status and what it says.
WRONG = {"tls-certificate {keys}/m1.pem": (2, "tls: tls-key is not set"),
         "rights {keys}/rights": (2, "tls: tls-certificate is not set"),
         "{tls}\nrights {keys}/none": (2, "none can't be read: No such file or directory"),
         "{tls}\nrights {keys}/m1.pem": (2, "m1.pem line 1: it is not NAME uid=N group=N"),
         "{tls}\nrights {keys}/twice": (2, "twice line 3: the name is there twice"),
         "tls-certificate {keys}/m1.pem\ntls-key {keys}/m1.key\ntls-authority {keys}/none\nrights {keys}/rights":
             (2, "none: No such file or directory"),
         "etcd-certificate {keys}/list.pem": (2, "etcd-certificate and etcd-key come together"),
         "etcd-certificate {keys}/list.pem\netcd-key {keys}/list.key":
             (2, "etcd-certificate and etcd-key come together, and with etcd-authority"),
         "": (4, "listen: clients of other machines need TLS: set tls-certificate")}
# Rights of which each line is wrong.
WRONG_RIGHTS = ("alice", "alice uid=1", "alice group=1 uid=1", "alice uid=1 group=65536",
                "alice uid=4294967296 group=1", "alice uid=1 group=1 root", "alice uid=1 group=1 admin admin",
                "alice uid= group=1", "alice uid=1 group=1 admin syslck more", 65 * "a" + " uid=1 group=1",
                "alice uid=1 group=1 " + 600 * "x", "alice uid=1 group=1\0", 4096 * " " + "alice uid=1 group=1")


def told_by(config, listen, made=PLAIN):
    """The status of a vlmd that can't start, and its log."""
    with tempfile.TemporaryDirectory() as folder:
        (Path(folder) / "conf").write_text(config)
        words = [made(), "-c", f"{folder}/conf", "-s", f"{folder}/socket", "--etcd", "none:1", "--listen", listen]
        ended = subprocess.run(words, capture_output=True, text=True, timeout=SECONDS,
                               env={**os.environ, "VLM_LIST": str(LIST)})
    return ended.returncode, ended.stderr


def configured(_program):
    """Wrong settings and rights are refused, with the file and the line."""
    keys = KEYS()
    tls = f"tls-certificate {keys}/m1.pem\ntls-key {keys}/m1.key\ntls-authority {keys}/locks.pem"
    (keys / "rights").write_text(RIGHTS)
    (keys / "twice").write_text("# two\nalice uid=1 group=1\nalice uid=2 group=1\n")
    for config, (status, text) in WRONG.items():
        found = told_by(config.format(keys=keys, tls=tls), f"0.0.0.0:{free_port()}", CHECKED)
        yield from difference((config, found[0], text in found[1]), (config, status, True))
    for line in WRONG_RIGHTS:
        (keys / "wrong").write_text(f"\n  # a comment\n{line}\n")
        found = told_by(f"{tls}\nrights {keys}/wrong", f"{HOST}:{free_port()}")
        yield from difference((line, found[0], "wrong line 3: it is not NAME" in found[1]), (line, 2, True))
    found = told_by(f"{tls}\nrights {keys}/rights", f"{HOST}:{free_port()}", WITHOUT)
    yield from difference((found[0], "tls: this vlmd was built without OpenSSL" in found[1]), (2, True))


def everywhere(_program):
    """With TLS a replica listens to all addresses."""
    port = free_port()
    with Secured(f"listen 0.0.0.0:{port}") as daemon:
        address = f"tls:{HOST}:{port}"
        yield from difference(vlm(daemon, "alice", "lock", "A", "true", address=address), (0, ""))


WITHOUT = Once(lambda: compiled("vlmd without TLS", "-O1", tls=["-DVLM_WITHOUT_TLS"]))


def no_library(_program):
    """A client says so where the library of TLS is not there, and TLS alone wants it."""
    folder = Path(tempfile.mkdtemp(dir=ROOM().name))
    made = folder / "vlm"
    yield from library.ran("cc", "-std=gnu11", f"-I{TOP}/include", *service_commands.SOURCES, "-pthread", "-o", made)
    with Secured() as daemon:
        for address, wanted in ((daemon.secured, (69, True)), (daemon.socket, (0, False))):
            env = {**os.environ, **environment("alice"), "VLM_SOCKET": address}
            ended = subprocess.run([made, "who"], env=env, capture_output=True, text=True, timeout=SECONDS)
            yield from difference((ended.returncode, "no TLS here: libvlm-tls.so.1" in ended.stderr), wanted)
        # The one who starts a program chooses its first word, so the library is not looked for beside that.
        (folder / "other.c").write_text('#include <unistd.h>\n__attribute__((constructor)) static void load(void) '
                                        '{ write(1, "loaded", 6); }\n')
        yield from library.ran("cc", "-shared", "-fPIC", folder / "other.c", "-o", folder / "libvlm-tls.so.1")
        env = {**os.environ, **environment("alice"), "VLM_SOCKET": daemon.secured}
        ended = subprocess.run([f"{folder}/libvlm.so", "who"], executable=made, env=env, capture_output=True, text=True,
                               timeout=SECONDS)
        yield from difference((ended.returncode, ended.stdout), (69, ""))


def older_header(_program):
    """A program whose header has options without files opens a session."""
    made = Path(ROOM().name) / "replicas of old"
    yield from library.ran("cc", "-std=gnu11", *library.STRICT, f"-I{library.older_header('vlm_client')}",
                           f"-I{TOP}/include", "-Wl,--wrap=clock_gettime", HERE / "replicas.c",
                           library.prefix() / "lib" / "libvlm.a", "-pthread", "-o", made)
    with Daemon() as daemon, Proxy(daemon.socket) as proxy, Program(made, "opening", addresses(proxy), LONG) as program:
        yield from difference(program.line(), "SS$_NORMAL")
        program.go()
        yield from program.ended()


def newer_library(_program):
    """A program makes requests by a client whose structs are longer than its own."""
    folder, wrong = library.newer_layer("cc", CLIENT)
    made = folder / "replicas"
    yield from wrong or library.ran("cc", "-std=gnu11", *library.STRICT, f"-I{TOP}/include", HERE / "replicas.c",
                                    "-Wl,--wrap=clock_gettime", *folder.glob("*.o"),
                                    library.prefix() / "lib" / "libvlm.a", "-pthread", "-o", made)
    with Daemon() as daemon, Proxy(daemon.socket) as proxy:
        with Program(made, "requests", addresses(proxy), LONG) as program:
            yield from difference(program.line(), "ready")
            program.go()
            yield from difference(program.line(), "SS$_NORMAL")
            program.go("end")
            yield from program.ended()


def missing():
    """What is not there that these tests need."""
    return ["openssl/ssl.h of libssl-dev"] * (not library.has_openssl()) + ["openssl"] * (not shutil.which("openssl"))


def tests():
    if missing():
        return []
    found = [Test(f"TLS: a client {kind}", partial(turned_away, kind)) for kind in TURNED_AWAY]
    found += [Test(f"TLS: cut connections of a client with the sanitizer {sanitizer}", partial(cut, sanitizer))
              for sanitizer in PROGRAMS if library.links("cc", sanitizer)]
    if shutil.which("cargo"):
        found.append(Test("TLS: the client in Rust", rust))
    return found + [Test("TLS: clients with certificates", talk), Test("TLS: the client in Python", bindings),
                    Test("TLS: a client without a certificate", without_certificate),
                    Test("TLS: the certificate of another host", another_host),
                    Test("TLS: plain text", without_tls), Test("TLS: a handshake that hangs", hung),
                    Test("TLS: wrong bytes", wrong_bytes), Test("TLS: a client that reads late", deaf),
                    Test("TLS: a client that does not read", cut_off), Test("TLS: rights by name", named),
                    Test("TLS: a session for other rights", resumed), Test("TLS: lines of the log", told_often),
                    Test("TLS: keys that change", new_keys), Test("TLS: files that are read again", reread),
                    Test("TLS: wrong settings", configured),
                    Test("TLS: all addresses", everywhere), Test("TLS: no library of it", no_library),
                    Test("the header of an older client", older_header),
                    Test("a newer client", newer_library)]
