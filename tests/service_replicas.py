"""Clients of a replicated service: proxies to one vlmd look like replicas, and fail the client's connections. The
program in C under sanitizers counts under locks meanwhile, and waits."""

import queue
import re
import signal
import socket
import subprocess
import tempfile
import threading
import time
from functools import partial
from pathlib import Path

import library
import service_commands
from daemons import PLAIN, SECONDS, Daemon
from harness import ROOM, TOP, Once, Test, difference
from proxies import Proxy, addresses

HERE = Path(__file__).resolve().parent / "service"
CLIENT = sorted((TOP / "bindings" / "c").glob("vlm_client*.c"))
# How many connections are cut while how many steps are made at least, and after how many bytes at most.
CUTS = 400
STEPS = 300
MOST_BYTES = 1500
# How late a slow replica is, in seconds.
DELAY = 0.01
# Leases in seconds: one that a test waits for, and one that does not end on a slow machine.
SHORT = 3
LONG = 120
# A lease of which a line's answer comes late, how late, and how exactly the end of a lease is known.
LEASE, LATE, NEAR = 9, 2.0, 1.5
# How long a program may take.
PATIENCE = 200
# How many lines a client has under way.
UNDER_WAY = 64


def compiled(compiler, sanitizer):
    """The program, or what the compiler says."""
    folder = Path(tempfile.mkdtemp(dir=ROOM().name))
    made = folder / "replicas"
    wrong = list(library.ran(compiler, "-std=gnu11", *library.STRICT, "-O1", "-g", "-pthread",
                             f"-fsanitize={sanitizer}", "-Wl,--wrap=clock_gettime", f"-I{TOP}/include",
                             HERE / "replicas.c", *CLIENT, library.prefix() / "lib" / "libvlm.a", "-o", made))
    if wrong:
        raise RuntimeError(wrong[0])
    return made


CHECKED = Once(lambda: compiled("cc", "address,undefined"))


class Program:
    """A running program. It must end well."""

    def __init__(self, made, test, address, lease, env=None):
        self.run = subprocess.Popen([made, test, address, str(lease)], stdin=subprocess.PIPE, stdout=subprocess.PIPE,
                                    stderr=subprocess.PIPE, text=True, env=env)
        self._lines = queue.Queue()
        threading.Thread(target=self._read, daemon=True).start()

    def _read(self):
        for line in self.run.stdout:
            self._lines.put(line.rstrip("\n"))
        self._lines.put(None)

    def line(self, seconds=PATIENCE):
        """The next line, or None at the end."""
        try:
            return self._lines.get(timeout=seconds)
        except queue.Empty:
            return f"nothing within {seconds} seconds"

    def is_quiet(self, seconds):
        """Whether no line comes for a while."""
        try:
            self._lines.put(self._lines.get(timeout=seconds))
            return False
        except queue.Empty:
            return True

    def go(self, line=""):
        self.run.stdin.write(line + "\n")
        self.run.stdin.flush()

    def __enter__(self):
        return self

    def ended(self):
        """What is wrong with its end."""
        told = self.run.communicate(timeout=PATIENCE)[1]
        yield from difference((self.run.returncode, told[-1500:]), (0, ""))

    def __exit__(self, kind, *_):
        if kind is not None or self.run.poll() is None:
            self.run.kill()
        told = self.run.communicate()[1]
        if kind is not None:
            print(told[-1500:])


def until(holds, seconds=PATIENCE):
    """Waits until something holds."""
    end = time.monotonic() + seconds
    while not holds() and time.monotonic() < end:
        time.sleep(0.02)
    return holds()


def cuts(word, made, _program):
    """What is wrong with counts under locks while connections are cut anywhere, and one of two replicas is slow: none
    is lost, each request ends once, and no step is made twice."""
    with Daemon(made=PLAIN) as daemon, Proxy(daemon.socket, seed=1, delay=DELAY) as one:
        with Proxy(daemon.socket, seed=2) as two, Program(made(), word, addresses(one, two), LONG) as program:
            yield from difference(program.line(), "ready")
            one.most = two.most = MOST_BYTES
            one.cut()
            if not until(lambda: (one.cuts + two.cuts >= CUTS and daemon.metric("steps_total") >= STEPS)
                         or program.run.poll() is not None):
                yield f"{one.cuts + two.cuts} cuts and {daemon.metric('steps_total')} steps"
            one.most = two.most = None
            program.go()
            found = re.fullmatch(r"steps (\d+) cancels (\d+)", program.line() or "")
            steps, cancels = map(int, found.groups() if found else (0, 0))
            if not steps <= daemon.metric("steps_total") <= steps + cancels:
                yield f"{found}, and {daemon.metric('steps_total')} steps of the service"
            program.go()
            yield from difference(program.line(), "closed")
            yield from difference((daemon.metric("sessions"), daemon.metric("locks")), (0, 0))
            program.go()
            yield from program.ended()


def hung(_program):
    """What is wrong with a service that hangs for longer than the lease: the locks are lost in time, each call and each
    routine is told so once, and a new session begins."""
    with Daemon() as daemon, Proxy(daemon.socket) as proxy:
        with Program(CHECKED(), "loss", addresses(proxy), SHORT) as program:
            yield from difference(program.line(), "ready")
            until(lambda: daemon.metric("waiting_requests") == 2)
            proxy.is_held = True
            began = time.monotonic()
            yield from difference(program.line(), "on_lost")
            if time.monotonic() - began > SHORT + SECONDS:
                yield f"the loss was told after {time.monotonic() - began:.1f} seconds"
            proxy.is_held = False
            program.go()
            yield from difference(program.line(), "closed")
            program.go()
            yield from program.ended()


def hung_shortly(_program):
    """A service that hangs for less than the lease, at one address: nothing is lost."""
    with Daemon() as daemon, Proxy(daemon.socket) as proxy:
        with Program(CHECKED(), "requests", addresses(proxy), LONG) as program:
            yield from difference(program.line(), "ready")
            proxy.is_held = True
            program.go()
            if not program.is_quiet(5):
                yield "an answer came through a proxy that hangs"
            proxy.is_held = False
            yield from difference(program.line(), "SS$_NORMAL")
            yield from difference((daemon.metric("sessions"), daemon.metric("steps_total")), (1, 3))
            program.go("end")
            yield from program.ended()


def one_hangs(_program):
    """Of two replicas the one that has the connection hangs: its client goes on at the other one, long before the end
    of the lease."""
    with Daemon() as daemon, Proxy(daemon.socket) as one, Proxy(daemon.socket) as two:
        with Program(CHECKED(), "requests", addresses(one, two), LONG) as program:
            yield from difference(program.line(), "ready")
            one.is_held = True
            program.go()
            yield from difference(program.line(LONG // 2), "SS$_NORMAL")
            yield from difference((daemon.metric("sessions"), daemon.metric("steps_total")), (1, 3))
            program.go("end")
            yield from program.ended()


def late_resume(_program):
    """A replica hears the resume of a connection that the client has given up, after the client has gone on at another
    one: nothing is lost."""
    with Daemon() as daemon, Proxy(daemon.socket) as one, Proxy(daemon.socket) as two:
        with Program(CHECKED(), "requests", addresses(one, two), LONG) as program:
            yield from difference(program.line(), "ready")
            one.is_held = two.is_held = True
            program.go()
            until(lambda: two.accepted > 0 and one.accepted > 1)
            one.is_held = False
            yield from difference(program.line(LONG // 2), "SS$_NORMAL")
            two.is_held = False
            until(lambda: two.ended > 0)
            for _ in range(10):
                program.go()
                yield from difference(program.line(LONG // 2), "SS$_NORMAL")
            yield from difference((daemon.metric("sessions"), daemon.metric("steps_total")), (1, 23))
            program.go("end")
            yield from program.ended()


def one_is_dead(_program):
    """Of two addresses one is dead, and then the other: a client opens, and goes on."""
    with Daemon() as daemon, Proxy(daemon.socket) as one, Proxy(daemon.socket) as two:
        one.refuse()
        words = f"tcp:nowhere.invalid:1,{one.address},{two.address},nonsense,[::1]:1"
        with Program(CHECKED(), "requests", words, LONG) as program:
            yield from difference(program.line(), "ready")
            for dead, living in ((one, two), (two, one), (one, two)):
                dead.refuse()
                if living._listener is None:
                    living.listen()
                program.go()
                yield from difference(program.line(), "SS$_NORMAL")
            yield from difference((daemon.metric("sessions"), daemon.metric("steps_total")), (1, 7))
            program.go("end")
            yield from program.ended()
        yield from difference(daemon.metric("sessions"), 0)


def closed_in_vain(_program):
    """No address answers: an opening tells so, and tries each once."""
    with Daemon() as daemon, Proxy(daemon.socket) as proxy:
        address = addresses(proxy)
        proxy.refuse()
        for words in (address, "tcp:", "tcp:nowhere", "tcp:127.0.0.1:", f"{address},{address[4:]}"):
            with Program(CHECKED(), "opening", words, LONG) as program:
                yield from difference((words, program.line()), (words, "LOST"))
                program.go()
                yield from program.ended()
        with Program(CHECKED(), "opening", address, 1) as program:
            yield from difference(program.line(), "SS$_BADPARAM")
            program.go()
        short = f"session {16 * '0'} seconds {LONG - 1} number 0 asts 0"
        with Answers("vlm protocol 1 epoch 0", short) as other:
            with Program(CHECKED(), "opening", f"tcp:{other.address}", LONG) as program:
                yield from difference(program.line(), "LOST")
                program.go()


def has_ipv6():
    try:
        socket.create_server(("::1", 0), family=socket.AF_INET6).close()
        return True
    except OSError:
        return False


def named(host, word, _program):
    """An address of IPv6 in brackets, and the name of a host: a client and the commands connect."""
    with Daemon() as daemon, Proxy(daemon.socket, host=host) as proxy:
        address = f"tcp:{word}:{proxy.port}"
        with Program(CHECKED(), "opening", address, LONG) as program:
            yield from difference(program.line(), "SS$_NORMAL")
            yield from difference(daemon.metric("sessions"), 1)
            program.go()
            yield from program.ended()
        yield from difference(service_commands.run(daemon, "metrics", socket=address)[0], 0)


class Answers:
    """A service that sends each of its connections the same lines, and hears nothing."""

    def __init__(self, *lines):
        self._listener = socket.create_server(("127.0.0.1", 0))
        self._text = "".join(f"{it}\n" for it in lines).encode()
        self.address = f"127.0.0.1:{self._listener.getsockname()[1]}"
        self.connections = []
        threading.Thread(target=self._serve, daemon=True).start()

    def _serve(self):
        while True:
            try:
                made, _ = self._listener.accept()
                self.connections.append(made)
                made.sendall(self._text)
            except OSError:
                return

    def __enter__(self):
        return self

    def __exit__(self, *_):
        self._listener.shutdown(socket.SHUT_RDWR)
        self._listener.close()
        for it in self.connections:
            it.close()


class Late:
    """A replica that answers the first line of a kind late, and nothing after it."""

    SESSION = f"session {16 * '0'} seconds {LEASE} number 0 asts 0"

    def __init__(self, late):
        self._listener = socket.create_server(("127.0.0.1", 0))
        self.address = f"127.0.0.1:{self._listener.getsockname()[1]}"
        self._late, self._connections = late, []
        # When it heard that line.
        self.heard = None
        threading.Thread(target=self._serve, daemon=True).start()

    def _serve(self):
        while self.heard is None:
            made, _ = self._listener.accept()
            self._connections.append(made)
            made.sendall(b"vlm protocol 1 epoch 0\n")
            self._talk(made)

    def _talk(self, made):
        for line in made.makefile():
            word = line.split()[0]
            if word == self._late:
                self.heard = time.monotonic()
                time.sleep(LATE)
            made.sendall(f"{word if word == 'alive' else self.SESSION}\n".encode())
            if word == self._late:
                return
            if self._late == "resume":
                # (so the client resumes its session)
                made.shutdown(socket.SHUT_RDWR)

    def __enter__(self):
        return self

    def __exit__(self, *_):
        self._listener.close()
        for it in self._connections:
            it.close()


def late(word, _program):
    """A lease lasts from before its line was sent, also if the answer comes late."""
    with Late(word) as replica, Program(CHECKED(), "lease", f"tcp:{replica.address}", LEASE) as program:
        yield from difference([program.line(), program.line()], ["ready", "on_lost"])
        took = time.monotonic() - replica.heard
        if abs(took - LEASE) > NEAR:
            yield f"the lease was over {took:.1f} seconds after its line was heard"
        program.go()
        yield from program.ended()


# What another replica may say at a resume, so that the locks are lost at once.
ENDS = {"another protocol": ["vlm protocol 2 epoch 0"], "no group": ["no group"],
        "an ended session": ["vlm protocol 1 epoch 0", "session ended"],
        "a lost session": ["vlm protocol 1 epoch 0", "lost"],
        "missed ASTs": ["vlm protocol 1 epoch 0", f"session {16 * '0'} seconds 120 number 90 asts 90", "lost 3"],
        "missed steps": ["vlm protocol 1 epoch 0", f"session {16 * '0'} seconds 120 number 0 asts 90"]}


def ended(name, _program):
    """What is wrong when a session can't be resumed at another replica: the locks are lost at once."""
    with Daemon() as daemon, Proxy(daemon.socket) as proxy, Answers(*ENDS[name]) as other:
        with Program(CHECKED(), "loss", f"tcp:{proxy.address},{other.address}", LONG) as program:
            yield from difference(program.line(), "ready")
            until(lambda: daemon.metric("waiting_requests") == 2)
            proxy.cut()
            yield from difference(program.line(LONG // 2), "on_lost")
            program.go()
            yield from difference(program.line(), "closed")
            program.go()
            yield from program.ended()


def moved(line, _program):
    """Another connection resumes the session, or an administrator ends it: the locks are lost at once."""
    with Daemon() as daemon, Proxy(daemon.socket) as proxy:
        with Program(CHECKED(), "loss", addresses(proxy), LONG) as program:
            yield from difference(program.line(), "ready")
            until(lambda: daemon.metric("waiting_requests") == 2)
            with daemon.client() as client:
                name = client.ask_all("who A")[0].split()[8]
                client.ask(f"{line} {name}")
                yield from difference(program.line(LONG // 2), "on_lost")
            program.go()
            yield from difference(program.line(), "closed")
            program.go()
            yield from program.ended()


def stopped(_program):
    """A program that is stopped for longer than its lease, while its requests are granted: none of them is told as a
    grant."""
    with Daemon() as daemon, Proxy(daemon.socket) as proxy, daemon.client().begin("P") as holder:
        holder.ask("enq P EX name=A block=1")
        holder.ask("enq P EX name=B block=2")
        with Program(CHECKED(), "waits", addresses(proxy), SHORT) as program:
            yield from difference(program.line(), "ready")
            until(lambda: daemon.metric("waiting_requests") == 2)
            # (this completion is pending at the end of the lease)
            holder.ask("deq P @2")
            time.sleep(SHORT / 6)
            program.run.send_signal(signal.SIGSTOP)
            holder.ask("deq P @1")
            time.sleep(SHORT + 1)
            program.run.send_signal(signal.SIGCONT)
            found = program.line()
            yield from difference(found, "LOST and LOST")
            program.go()
            yield from program.ended()


def slept(_program):
    """A thread that comes to its grant after the lease gets no lock. After the machine has slept for longer than the
    lease each call tells so at once, and on_lost is called soon."""
    with Daemon() as daemon, Proxy(daemon.socket) as proxy, daemon.client().begin("P") as holder:
        holder.ask("enq P EX name=A block=1")
        with Program(CHECKED(), "sleep", addresses(proxy), LONG) as program:
            yield from difference(program.line(), "ready")
            until(lambda: daemon.metric("waiting_requests") == 1)
            program.go()
            yield from difference(program.line(), "late")
            holder.ask("deq P @1")
            yield from difference(program.line(LONG // 4), "on_lost")
            program.go()
            yield from program.ended()


def many(_program):
    """Of many calls at once no more than some lines are under way, and all end."""
    with Daemon() as daemon, Proxy(daemon.socket) as proxy:
        with Program(CHECKED(), "many", addresses(proxy), LONG) as program:
            yield from difference(program.line(), "ready")
            proxy.keeps_answers = True
            program.go()
            yield from difference(program.line(), "asked")
            until(lambda: daemon.metric("locks") >= UNDER_WAY)
            time.sleep(0.5)
            yield from difference(daemon.metric("locks"), UNDER_WAY)
            proxy.cut()
            proxy.keeps_answers = False
            yield from difference(program.line(), "answered")
            yield from difference(daemon.metric("locks"), 100)
            program.go()
            yield from program.ended()


def limited(_program):
    """A step over a limit, whose answer is lost and whose line comes again after a later step: it was not made."""
    with Daemon("waiting 1") as daemon, Proxy(daemon.socket) as proxy, daemon.client().begin("P") as holder:
        holder.ask("enq P EX name=A block=1")
        with Program(CHECKED(), "limit", addresses(proxy), LONG) as program:
            yield from difference(program.line(), "ready")
            program.go()
            until(lambda: daemon.metric("waiting_requests") == 1)
            proxy.keeps_answers = True
            program.go()
            until(lambda: daemon.metric("refused_steps_total") == 1)
            program.go()
            until(lambda: daemon.metric("steps_total") == 6)
            proxy.cut()
            proxy.keeps_answers = False
            yield from difference((program.line(), program.line()), ("SS$_NORMAL", "SS$_EXENQLM"))
            holder.ask("deq P @1")
            yield from difference(program.line(), "SS$_NORMAL")
            yield from program.ended()


def kept(_program):
    """A session without anything to do lives for longer than its lease."""
    with Daemon() as daemon, Proxy(daemon.socket) as proxy:
        with Program(CHECKED(), "requests", addresses(proxy), 9) as program:
            yield from difference(program.line(), "ready")
            time.sleep(12)
            program.go()
            yield from difference((program.line(), daemon.metric("sessions")), ("SS$_NORMAL", 1))
            program.go("end")
            yield from program.ended()


def tests():
    found = [Test(f"cut connections of a client by {compiler} with the sanitizer {sanitizer}",
                  partial(cuts, "cuts", Once(partial(compiled, compiler, sanitizer))))
             for compiler in library.COMPILERS for sanitizer in library.SANITIZERS[1:]
             if library.links(compiler, sanitizer)]
    found += [Test("cut connections of a client that waits shortly", partial(cuts, "impatience", CHECKED)),
              Test("a limit before a cut", limited),
              Test("the name of a host", partial(named, "127.0.0.1", "localhost"))]
    found += [Test("an address of IPv6", partial(named, "::1", "[::1]"))] * has_ipv6()
    found += [Test(f"a session that can't be resumed: {name}", partial(ended, name)) for name in ENDS]
    found += [Test(f"a session that others {line}", partial(moved, line)) for line in ("resume", "kill")]
    found += [Test(f"a late answer to {word}", partial(late, word)) for word in ("open", "resume", "alive")]
    return found + [Test("a replica that hangs for longer than the lease", hung),
                    Test("a replica that hangs for less than the lease", hung_shortly),
                    Test("a replica that hangs beside another", one_hangs), Test("a late resume", late_resume),
                    Test("dead replicas", one_is_dead), Test("no replica that answers", closed_in_vain),
                    Test("a stopped client and its lease", stopped), Test("a late thread, and a sleep", slept),
                    Test("many calls over TCP", many), Test("an idle session over TCP", kept)]
