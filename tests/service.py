"""The lock service of the folder service: vlmd over its socket, by lines, by faults of its clients and its own, at its
limits, and at the end of its IDs. The dispatcher alone gets mutated lines under sanitizers. Most tests run
a daemon that is compiled with sanitizers. Without the header of libuv all are left out."""

import itertools
import os
import random
import re
import resource
import shutil
import signal
import socket
import stat
import subprocess
import sys
import tempfile
import time
from concurrent.futures import ThreadPoolExecutor
from functools import partial
from pathlib import Path

import library
import service_commands
import service_edges
import service_replicas
import service_scripts
import service_tls
import service_tokens
from daemons import CHECKED, NOBODY, PLAIN, SANITIZED, Client, Daemon, lone_replica, over_dispatcher
from harness import PLAY, ROOM, TOP, Test, difference
from service_scripts import MODES
from time_of_day import FAKED_TIME, TimeOfDay

HERE = Path(__file__).resolve().parent / "service"
CLIENT = sorted((TOP / "bindings" / "c").glob("vlm_client*.c"))
# How long the mutated lines run.
MUTATED_SECONDS = 8
# How many lists replicas run: a processor runs some 15 in a second.
LISTS = 200
# How long clients come and go.
STORM_SECONDS = 6
ZEROS = 32 * "0"


def needed():
    """What is not there that all these tests need."""
    return ["uv.h of libuv1-dev"] * (not library.has_uv()) + ["cc"] * (not shutil.which("cc"))


def missing():
    """What is not there that some of them need."""
    return needed() + service_tls.missing()


# What each line answers.

TALKS = {
    "no session": [("enq P EX name=A block=1", "no session"), ("alive", "no session"), ("close", "no session")],
    "sessions": [("open seconds=601", "number out of range"), ("open seconds=0", "number out of range"),
                 ("open hours=1", "wrong word"), ("open command=a\tb", "wrong word"),
                 ("open seconds=1 command=a now", "wrong word"),
                 ("resume 0000000000000000 asts=1 now", "wrong word"),
                 ("open", "session 0000000200000001 seconds 0 number 0 asts 0"),
                 ("open", "session open"), ("alive", "alive"), ("declare P", "P: process 65537"),
                 ("close", "closed"), ("block P 1", "no session"),
                 ("open", "session 0000000300000001 seconds 0 number 0 asts 0"), ("block P 1", "unknown name")],
    "what a client may not send": [
        ("open", ...), ("leave node=1", "unknown command"), ("search node=1", "unknown command"),
        ("declare P node=1", "wrong word"), ("declare P group=1", "wrong word"), ("declare P syslck", "wrong word"),
        ("declare P quota=9 blocks=4 node=1 group=1", "wrong word"), ("block P 1", "unknown name"),
        ("declare P", ...), ("ast P", "unknown command"), ("frob", "unknown command"), ("alive now", "wrong word"),
        ("declare P", "name used"), ("declare Q quota=65536", "number out of range"), ("kill", "wrong word"),
        ("declare Q blocks", "wrong word"), ("declare Q\0x", "wrong word"), ("declare 1", "wrong word"),
        ("kill 0000000000000000", "no such session")],
    "numbers": [("open", ...), ("1 declare P", "1 P: process 65537"), ("1 declare P", "1 P: process 65537"),
                ("2 enq P EX name=A block=1", "2 P: NORMAL lock 1"),
                ("2 enq P EX name=A block=1", "2 P: NORMAL lock 1"),
                ("1 declare P", "1 old number"), ("2 enq P PR name=A block=1", "2 old number"),
                ("2 block P 1", "2 P: block 1 status 1 lock 1 value " + ZEROS),
                ("3 frob", "3 unknown command"), ("3 deq P @1", "3 P: NORMAL"), ("deq P @1", "P: IVLOCKID"),
                ("4 deq P @1", "4 old number"), ("9 deq P @1", "9 P: IVLOCKID")],
    "an ended process": [("open", ...), ("declare P", ...), ("end P", "P: NORMAL"), ("end P", "P: NONEXPR"),
                         ("enq P EX name=A block=1", "P: NONEXPR"), ("block P 1", "P: block 1 none"),
                         ("tail P 1", "P: tail 1 none"), ("declare P", "name used")],
    "declared blocks": [("open", ...), ("declare P blocks=2 quota=1", ...), ("enq P EX name=A block=3", "P: ACCVIO"),
                        ("set P block=3 value=" + ZEROS, "P: ACCVIO"), ("block P 3", "P: block 3 none"),
                        ("deq P @3", "P: ACCVIO"), ("enq P EX name=A block=2", "P: NORMAL lock 1"),
                        ("enq P EX name=B block=2", "P: EXENQLM"), ("cvt P @2 NL block=1", "P: NORMAL lock 1")],
    "handles": [("open", ...), ("declare P", ...), ("enq P EX name=A block=1", "P: NORMAL lock 1"),
                ("deq P 4294967297", "P: IVLOCKID"), ("deq P 18446744073709551615", "P: IVLOCKID"),
                ("deq P 18446744073709551616", "number out of range"), ("cvt P 4294967297 NL block=1", "P: IVLOCKID"),
                ("enq P EX name=B block=2 parent=4294967297", "P: IVLOCKID"),
                ("enq P EX name=B block=2 parent=1", "P: NORMAL lock 2"), ("deq P 1", "P: SUBLOCKS")],
    "lengths": [("open", ...), ("declare P", ...), ("#" + 254 * "x" + "\nalive", "alive"),
                ("#" + 255 * "x", "too long"), ("7 #" + 255 * "x", "7 too long"), (300000 * "x", "too long"),
                ("alive", "alive")],
}


# What differs at a replica: sessions have names by chance and leases, and each keeps its last 64 steps.
NOT_AT_REPLICAS = {"sessions", "numbers"}


def talk(name, start, _program):
    """What is wrong with the answers of a daemon or of a replica to some lines."""
    with start() as daemon, daemon.client() as client:
        yield from difference(client.greeting, "vlm protocol 1 epoch 0")
        with daemon.client() as other:
            other.ask("open")
            for line, wanted in TALKS[name]:
                found = client.ask(line)
                if wanted is not ... and found != wanted:
                    yield f"{line[:60]}: {found} and not {wanted}"
        client.send("# no answer", "", "alive")
        yield from difference(client.line() in ("alive", "no session"), True)


def shown_connection(daemon, lines):
    """What is wrong with the lines of a connection that a page shows."""
    with daemon.client() as client:
        yield from difference(client.greeting, lines[0])
        for line in lines[1:]:
            if line.startswith("> "):
                client.send(line[2:])
            else:
                yield from difference(client.line(), line)


def shown_talk(_program):
    """What is wrong with the first session that docs/SERVICE.md shows."""
    page = (TOP / "docs" / "SERVICE.md").read_text()
    lines = re.search(r"^```text\n(vlm protocol.*?)^```", page, re.M | re.S)[1].splitlines()
    with Daemon() as daemon:
        yield from shown_connection(daemon, lines)


def shown_resume(_program):
    """What is wrong with the two connections of a session that man/vlm-protocol.7 shows."""
    page = (TOP / "man" / "vlm-protocol.7").read_text()
    shown = re.findall(r"^\.nf\n(vlm protocol 1.*?)^\.fi", page, re.M | re.S)
    yield from difference(len(shown), 2)
    with Daemon() as daemon:
        for connection in shown:
            yield from shown_connection(daemon, connection.splitlines())


def half_lines(_program):
    """What is wrong with lines that come byte by byte, many at once, or not whole."""
    lines = "open\ndeclare P\nenq P EX name=A block=1 ast=1\ndeq P @1\n"
    with Daemon() as daemon, daemon.client() as client, daemon.client() as whole:
        for byte in lines.encode():
            client.socket.sendall(bytes([byte]))
        whole.socket.sendall((lines + 500 * "alive\n" + "half").encode())
        whole.socket.shutdown(1)
        found = [client.line() for _ in range(6)]
        yield from difference([it.split(" lock ")[0] for it in found[1:3]], ["P: process 65537", "P: NORMAL"])
        told = []
        while (line := whole.line()) is not None:
            told.append(line)
        yield from difference((len(told), told[-1]), (506, "alive"))
        client.send(*(500 * ["# nothing is answered"]))
        yield from difference(client.is_quiet(), True)
        yield from difference(client.ask("alive"), "alive")


# Faults of clients.

HOLD = """import socket, sys, time
made = socket.socket(socket.AF_UNIX)
made.connect(sys.argv[1])
made.sendall(b"open\\ndeclare P\\nenq P EX name=A block=1 valblk\\n")
while b"lock" not in made.recv(1000): pass
print("here", flush=True)
time.sleep(60)
"""


def holder(daemon):
    """A process that holds EX on A, or waits for it."""
    made = subprocess.Popen([sys.executable, "-c", HOLD, daemon.socket], stdout=subprocess.PIPE)
    made.stdout.readline()
    return made


def killed(_program):
    """What is wrong when a holder, a waiter and a stopped holder are killed: the next request is granted, and the value
    block is invalid."""
    with Daemon() as daemon, daemon.client().begin("Q") as client:
        first, second, third = holder(daemon), holder(daemon), holder(daemon)
        client.ask("enq Q EX name=A block=1 valblk ast=7")
        second.kill()
        second.wait()
        third.send_signal(signal.SIGSTOP)
        first.kill()
        first.wait()
        if not client.is_quiet():
            yield "the stopped waiter was passed over"
        third.kill()
        third.wait()
        line = client.line()
        if not re.fullmatch(r"Q: completion 7 param 0 lock \d+", line):
            yield line
        yield from difference(client.line().split(" lock ")[0], "Q: block 1 status 7")
        yield from difference(daemon.metric("sessions"), 1)


def deaf(_program):
    """What is wrong with a client that asks and does not read: it is heard no more, others notice nothing, and once it
    reads it gets all answers."""
    with Daemon() as daemon, daemon.client().begin("P") as asker, daemon.client() as other:
        asker.socket.setblocking(False)
        sent = 0
        try:
            while sent < 50 << 20:
                sent += asker.socket.send(b"block P 1\n" * 1000)
        except BlockingIOError:
            pass
        if sent >= 50 << 20:
            yield "a client that reads no answer is heard for ever"
        yield from difference(other.ask("alive"), "no session")
        before = daemon.processor_time()
        time.sleep(1)
        if daemon.processor_time() - before > 0.5:
            yield "the daemon is busy while it waits"
        asker.socket.setblocking(True)
        asker.socket.shutdown(1)
        answers = 0
        while asker.line() is not None:
            answers += 1
        yield from difference(answers, sent // 10)


def fair(_program):
    """What is wrong where one client sends many lines at once: another one's line comes among the first of them."""
    with Daemon() as daemon, daemon.client().begin("P quota=2000 blocks=1") as busy, daemon.client() as other:
        daemon.run.send_signal(signal.SIGSTOP)
        busy.send(*(f"enq P NL name=N{number} block=1" for number in range(1900)))
        other.send("metrics")
        daemon.run.send_signal(signal.SIGCONT)
        before = int(re.search("^vlmd_locks ([0-9]+)$", "\n".join(other.until_blank()), re.M)[1])
        if before > 4 * 64:
            yield f"{before} lines of another client came first"
        yield from difference([busy.line() for _ in range(1900)][-1], "P: NORMAL lock 1900")


def long_answers(_program):
    """What is wrong with long answers to many lines that a client sends at once: all come."""
    with Daemon() as daemon, daemon.client().begin("P quota=2000 blocks=1") as client:
        for number in range(1500):
            client.ask(f"enq P NL name=N{number} block=1")
        client.send(*(40 * ["show"]), "alive")
        yield from difference([len(client.until_blank()) for _ in range(40)], 40 * [3000])
        yield from difference(client.line(), "alive")


def cut_off(_program):
    """What is wrong with a client that is told very much and does not read: it is cut off, and its locks go."""
    names, name = range(24000), 15 * "P"
    settings = ("locks 70000", "waiting 70000", "search 1000000")
    with Daemon(*settings) as daemon, daemon.client().begin("Q quota=65535") as other:
        told = daemon.client().begin(f"{name} quota=65535 blocks=1")
        for it in names:
            told.send(f"enq {name} PR name=N{it} block=1 bast=4000000000 param=4000000000")
            told.line()
        for it in names:
            other.send(f"enq Q EX name=N{it} block=1")
            other.line()
        yield from difference(daemon.metric("clients_cut_off_total"), 1)
        yield from difference((daemon.metric("sessions"), daemon.metric("waiting_requests")), (1, 0))


# Limits.

def limits(_program):
    """What is wrong at the edges of the limits of a user."""
    with Daemon("# " + 600 * "x", "connections 4", "processes 3", "locks 3", "waiting 1", "names 4") as daemon:
        with daemon.client().begin("P", "Q") as one, daemon.client().begin("P") as other:
            yield from difference(one.ask("declare R"), "too many processes")
            for name in "ABC":
                one.ask(f"enq P EX name={name} block=1")
            yield from difference(one.ask("enq P EX name=D block=1"), "P: EXENQLM")
            one.ask("deq P 3")
            yield from difference(other.ask("enq P EX name=A block=1").split(" lock")[0], "P: NORMAL")
            yield from difference(one.ask("deq P 2"), "P: NORMAL")
            yield from difference(one.ask("enq Q EX name=A block=1"), "too many waiting requests")
            other.ask("end P")
            yield from difference(one.ask("enq Q EX name=A block=1").split(" lock")[0], "Q: NORMAL")
            for name in "RS":
                yield from difference(one.ask(f"declare {name}").startswith(f"{name}: process") or name == "S", True)
            one.ask("end R")
            yield from difference(one.ask("declare S").split(" ")[0], "S:")
            one.ask("end S")
            yield from difference(one.ask("declare T"), "too many names")
            with daemon.client(), daemon.client(), daemon.client() as fifth:
                yield from difference((fifth.line(), fifth.line()), ("too many connections", None))
    with Daemon("connections 2") as daemon:
        for wanted in ("session ", "session ", "too many sessions"):
            with daemon.client() as client:
                yield from difference(client.ask("open seconds=60")[:len(wanted)], wanted)


def shown(_program):
    """Show, tails and who print no more than the limit, and who tells what is there."""
    with Daemon("shown 2") as daemon, daemon.client().begin("P") as client, daemon.client().begin("Q") as other:
        client.ask("enq P PR name=A block=1")
        other.ask("enq Q EX name=A block=1")
        rows = client.ask_all("who A")
        wanted = r"A 1 0 1 PR - granted 1 \w{16} \d+ \d+ - \d+ -\nA 1 0 1 - EX waiting 2 \w{16} \d+ \d+ - \d+ (\w{16})"
        found = re.fullmatch(wanted, "\n".join(rows))
        yield from difference(bool(found) and found[1] == rows[0].split()[8], True)
        yield from difference(client.ask_all("who B"), [])
        client.ask("enq P PR name=B block=2")
        for line in ("who", "show", "tails"):
            yield from difference(client.ask_all(line), ["too many locks"])
    with Daemon() as daemon, daemon.client().begin("P quota=9000") as client:
        for number in range(8000):
            client.ask(f"enq P NL name=x:ff{number:056x}00 block=1")
        # (it is longer than what a client that does not read may leave unsent)
        yield from difference(len(client.ask_all("who")), 8000)


# Rows of the locks that `readings` makes: all are of this process.
ROWS = {1: "held PR want EX converting", 2: "held CW want - granted", 3: "held PR want - granted",
        4: "held - want PW waiting"}
# What is read of them, by the line: rows, as numbers, and other lines.
READ = {"locks": [3, 1, 4, 2], "rows 4": [3, 1, 4], "blockers 4": [3, 1], "blockers 1": [3], "blockers 2": [],
        "blocked 3": [1, 4], "blocked 1": [4], "blocked 4": [], "below 1": ["below 1"], "below 2": ["below 0"],
        "lock 2": [2, f"resource 2 in 1 group 1 name T value {ZEROS} valid", f"tail 2 value {3 * ZEROS} valid",
                   "parent 1 sublocks 0 granted 1 converting 0 waiting 0"]}


def readings(_program):
    """What is wrong with the readings of single locks: of a converting lock with a sublock, of what it waits for, and
    of a waiting one."""
    with Daemon("search 0") as daemon, daemon.client().begin("P") as one, daemon.client().begin("Q", "R") as other:
        for client, line in ((one, "enq P PR name=A block=1"), (one, "enq P CW name=T block=2 parent=@1"),
                             (other, "enq Q PR name=A block=1"), (one, "cvt P @1 EX block=1"),
                             (other, "enq R PW name=A block=1")):
            client.ask(line)
        with daemon.client() as reader:
            for line, wanted in READ.items():
                rows = [f"lock {it} pid {os.getpid()} {ROWS[it]}" if it in ROWS else it for it in wanted]
                yield from (f"{line}: {it}" for it in difference(reader.ask_all(line), rows))
            for line in ("lock 9", "rows 0", "blocked 4294967297", "blockers 18446744073709551615"):
                yield from difference(reader.ask_all(line), ["no such lock"])
            for line in ("locks 1", "lock", "lock x", "rows 1 2", "below -1", "lock 18446744073709551616"):
                yield from difference(reader.ask(line), "wrong word")
    with Daemon("shown 1") as daemon, daemon.client().begin("P") as client:
        for number in (1, 2):
            client.ask(f"enq P PR name=A block={number}")
        for word in ("locks", "rows 1", "blockers 1", "blocked 1", "below 1"):
            yield from difference(client.ask_all(word), ["too many locks"])
        yield from difference(client.ask_all("lock 1")[3], "parent 0 sublocks 0 granted 2 converting 0 waiting 0")


def other_users(_program):
    """Another user has another group by the table, sees no locks of others, kills nobody, and without a row in the
    table is not let in."""
    with Daemon(f"group {NOBODY} 2", "group root 1") as daemon, daemon.client().begin("P") as client:
        with daemon.client(NOBODY) as other:
            other.begin("P")
            client.ask("enq P EX name=A block=1")
            yield from difference(other.ask("enq P EX name=A block=1"), "P: NORMAL lock 2")
            yield from difference(other.ask("enq P EX name=A block=1 system"), "P: NOSYSLCK")
            yield from difference(client.ask("enq P EX name=A block=2 system"), "P: NORMAL lock 3")
            yield from difference([it.split()[:4] for it in other.ask_all("who")],
                                  [["A", "2", "0", "2"], ["A", "3", "0", "system"]])
            yield from difference([it.split()[1] for it in other.ask_all("locks")], ["2", "3"])
            for word in ("lock", "rows", "blockers", "blocked", "below", "token"):
                yield from difference(other.ask_all(f"{word} 1"), ["no such lock"])
            yield from difference(len(other.ask_all("lock 3")), 4)
            yield from difference(len(client.ask_all("who")), 3)
            yield from difference(other.ask("kill 0000000200000000"), "not allowed")
            name = other.ask_all("who A")[0].split()[8]
            yield from difference((client.ask(f"kill {name}"), other.line(), other.line()),
                                  ("killed", "session killed", None))
    with Daemon("group root 1") as daemon:
        yield from difference(daemon.client(NOBODY).greeting, "no group")


def repeated_lines(_program):
    """A line means the same each time that it comes, whatever lines came between. More lines come here than the daemon
    knows at a time, and some are longer than those that it knows."""
    with Daemon() as daemon, daemon.client().begin("P") as client:
        for _ in range(2):
            for number in random.sample(range(2000), 2000):
                blanks = (number % 10 == 0) * 100 * " "
                client.send(f"enq P EX name=N{number} {blanks} block=1", "show", "deq P @1")
                found = [client.line() for _ in range(5)]
                yield from difference((found[1].split()[7:8], found[4]), ([f"N{number}"], "P: NORMAL"))


def resumed(_program):
    """A session with seconds goes on after its connection, hears the ASTs that it missed, and ends in time."""
    with Daemon() as daemon, daemon.client() as client, daemon.client().begin("Q") as other:
        name = client.ask("open seconds=4").split()[1]
        for line in ("1 declare P", "2 enq P EX name=A block=1 bast=5"):
            client.ask(line)
        client.close()
        other.ask("enq Q EX name=A block=1 ast=1")
        with daemon.client() as again:
            again.send(f"resume {name} asts=0", "2 enq P EX name=A block=1 bast=5", "3 deq P @1")
            found = [again.line() for _ in range(4)]
            yield from difference(found, [f"session {name} seconds 4 number 2 asts 1",
                                          "P: blocking 5 param 0 lock 1", "2 P: NORMAL lock 1", "3 P: NORMAL"])
            yield from difference(other.line(), "Q: completion 1 param 0 lock 2")
            with daemon.client() as third:
                third.ask(f"resume {name}")
                yield from difference((again.line(), again.line()), ("session moved", None))
        time.sleep(5.2)
        with daemon.client() as late:
            yield from difference((late.ask(f"resume {name}"), late.line()), ("session ended", None))


# How many steps a session keeps that may be resumed.
KEPT_STEPS = 64


def repeated(_program):
    """What is wrong with steps that come again after a connection: the kept ones get their first answers, with another
    line they do not, and none is made twice."""
    with Daemon() as daemon, daemon.client() as client:
        name = client.ask("open seconds=60").split()[1]
        lines = ["1 declare P", *(f"{it} enq P NL name=A{it} block=1" for it in range(2, KEPT_STEPS + 7))]
        answers = [client.ask(it) for it in lines]
        client.close()
        with daemon.client() as again:
            again.ask(f"resume {name} asts=0")
            yield from difference([again.ask(it) for it in lines[-KEPT_STEPS:]], answers[-KEPT_STEPS:])
            for line in lines[:-KEPT_STEPS]:
                yield from difference(again.ask(line), line.split()[0] + " old number")
            for line in (lines[-1] + " ", lines[-1].replace("NL", "CR"), lines[-1][:-1] + "2", lines[-1] + " noqueue"):
                yield from difference(again.ask(line), lines[-1].split()[0] + " old number")
            yield from difference(daemon.metric("locks"), len(lines) - 1)
            yield from difference(again.ask("99 deq P @1"), "99 P: NORMAL")


def set_clock(_program):
    """What is wrong after the clock that tells the time of day has jumped: a session waits as long as it was told, and
    deadlocks are searched for."""
    with TimeOfDay() as clock:
        with Daemon("search 300", made=PLAIN, env=clock.env) as daemon, daemon.client().begin("P", "Q") as other:
            with daemon.client() as client:
                name = client.ask("open seconds=60").split()[1]
                client.ask("declare R")
            clock.jump(86_400)
            with daemon.client() as client:
                yield from difference(client.ask(f"resume {name}"), f"session {name} seconds 60 number 1 asts 0")
            clock.jump(-86_400)
            for line in ("enq P PR name=A block=1", "enq Q PR name=A block=1", "cvt P @1 EX block=1 ast=1",
                         "cvt Q @1 EX block=1 ast=1"):
                other.ask(line)
            yield from difference(other.line(), "Q: completion 1 param 0 lock 2")


def hidden(_program):
    """A process that another session had shows nothing of it."""
    with Daemon() as daemon:
        with daemon.client().begin("P") as client:
            client.ask(f"set P block=2 value={'ab' * 16} tail={'cd' * 48}")
            client.ask("enq P EX name=A block=1 valblk")
            client.ask("close")
        with daemon.client().begin("Q") as client:
            for block in (1, 2):
                yield from difference(client.ask(f"block Q {block}"), f"Q: block {block} status 0 lock 0 value {ZEROS}")
                yield from difference(client.ask(f"tail Q {block}"), f"Q: tail {block} {96 * '0'}")
            yield from difference(client.ask("enq Q EX name=B block=2 parent=@1"), "Q: NORMAL lock 2")
            yield from difference(client.ask("deq Q @1 deqall"), "Q: NORMAL")
        yield from difference(daemon.metric("processes_made"), 1)


# Faults of the daemon.

def restarted(_program):
    """A daemon that is killed: clients see the end, and the next one grants nothing for the grace time. One that ends
    in order without locks has none; with locks it tells its clients."""
    with Daemon("grace 3000") as first:
        held = first.client().begin("P")
        held.ask("enq P EX name=A block=1")
        first.kill()
        yield from difference(held.line(), None)
        with Daemon("grace 3000", folder=first.folder) as second:
            began = time.monotonic()
            client = second.client().begin("P")
            yield from difference(client.greeting, "vlm protocol 1 epoch 1")
            answer = client.ask("enq P EX name=A block=1")
            if time.monotonic() - began < 0.5 or answer != "P: NORMAL lock 4294967297":
                yield f"{answer} after {time.monotonic() - began:.2f} seconds"
            yield from difference(client.ask("block P 1"), f"P: block 1 status 1 lock 4294967297 value {ZEROS}")
            with second.client() as other, second.client() as late:
                other.ask("open seconds=60")
                # (a client of the first daemon had a session of the name that this one would have)
                yield from difference(late.ask("resume 0000000200000001"), "session ended")
            second.run.send_signal(signal.SIGTERM)
            yield from difference((client.line(), client.line(), second.run.wait(20)), ("lost", None, 0))
        with Daemon("grace 3000", folder=first.folder) as third:
            client = third.client().begin("P")
            began = time.monotonic()
            client.ask("enq P EX name=A block=1")
            client.ask("deq P @1")
            if time.monotonic() - began < 0.5:
                yield "no grace time after an end with locks"
        with Daemon("grace 60000", folder=first.folder) as fourth:
            answer = fourth.client().begin("P").ask("enq P EX name=A block=1")
            yield from difference(answer.split(" lock")[0], "P: NORMAL")


def without_log(_program):
    """A daemon whose standard error is closed leaves the epoch in the state file, also when it is killed."""
    folder = Path(tempfile.mkdtemp(dir=ROOM().name))
    words = ["sh", "-c", 'exec "$@" 2>&-', "sh", PLAIN(), "-c", "/dev/null", "-s", folder / "socket"]
    daemon = subprocess.Popen(words)
    answer, until = None, time.monotonic() + 20
    while answer is None and time.monotonic() < until:
        try:
            with Client(f"{folder}/socket") as client:
                answer = client.ask("alive")
        except OSError:  # (it does not listen yet)
            time.sleep(0.02)
    yield from difference(answer, "no session")
    daemon.kill()
    daemon.wait()
    yield from difference((folder / "socket.state").read_text(), "0000000000 running\n")


def one_daemon(_program):
    """A second daemon on the socket does not start."""
    with Daemon() as daemon:
        ended = subprocess.run([PLAIN(), "-s", daemon.socket], capture_output=True, text=True, timeout=20)
        yield from difference((ended.returncode, "belongs to another daemon" in ended.stderr), (4, True))
        yield from difference(daemon.client().ask("alive"), "no session")


def in_the_way(_program):
    """A daemon does not start on a file, a folder, or a socket that somebody listens to. It leaves them as they are."""
    folder = Path(tempfile.mkdtemp(dir=ROOM().name))
    (folder / "file").write_text("mode 666\n")
    (folder / "folder").mkdir()
    with socket.socket(socket.AF_UNIX) as listener:
        listener.bind(f"{folder}/socket")
        listener.listen()
        for name in ("file", "folder", "socket"):
            ended = subprocess.run([PLAIN(), "-s", folder / name], capture_output=True, text=True, timeout=20)
            yield from difference((name, ended.returncode, "is in the way" in ended.stderr), (name, 4, True))
        with socket.socket(socket.AF_UNIX) as other:
            other.connect(f"{folder}/socket")
    yield from difference((folder / "file").read_text(), "mode 666\n")


def configured(_program):
    """Wrong words and configurations are refused, SIGHUP reads the configuration again, and a full disk for the log
    holds up nobody."""
    replica = ["-s", f"{ROOM().name}/replica", "--etcd", "127.0.0.1:1"]
    for words, status in ((["-x"], 2), (["-c", "/nowhere"], 2), (["here"], 2), (["-s", "/nowhere/to/socket"], 4),
                          (["-s", 120 * "x"], 2), (["--listen", "127.0.0.1:0"], 2), (["--prefix", "x"], 2),
                          (["--etcd", 300 * "x"], 2),
                          (["-s", ""], 2), (["-c", "/", "-s", f"{ROOM().name}/unread"], 2),
                          *(([*replica[:3], it], 2) for it in ("127.0.0.1", "a:x", ":1", "a:1,", "http://a:1")),
                          ([*replica, "--listen", "127.0.0.1"], 4), ([*replica, "--listen", "0.0.0.0:0"], 4)):
        ended = subprocess.run([PLAIN(), *words], capture_output=True, text=True, timeout=20)
        yield from difference((words, ended.returncode), (words, status))
    version = (TOP / "VERSION").read_text()
    for word, begins in (("--help", "usage: vlmd [-c FILE]"), ("--version", f"vlmd {version}")):
        told = subprocess.run([PLAIN(), word], capture_output=True, text=True, timeout=20)
        yield from difference((word, told.returncode, told.stdout[:len(begins)]), (word, 0, begins))
    wrong = Path(ROOM().name) / "wrong"
    wrong.write_text("# administrators\nadmin no-such-group\n")
    ended = subprocess.run([PLAIN(), "-c", wrong], capture_output=True, text=True, timeout=20)
    yield from difference((ended.returncode, f"{wrong} line 2: no such setting or group" in ended.stderr), (2, True))
    made = Path(ROOM().name) / "made by the daemon"
    daemon = subprocess.Popen([PLAIN(), "-s", made / "socket"], stderr=subprocess.DEVNULL)
    until = time.monotonic() + 20
    while not (made / "socket").exists() and time.monotonic() < until:
        time.sleep(0.02)
    yield from difference((made / "socket").exists(), True)
    daemon.terminate()
    yield from difference((daemon.wait(20), [it.name for it in made.iterdir()]), (0, ["socket.state"]))
    with Daemon("lines 5", log="/dev/full") as daemon, daemon.client().begin("P") as client:
        for setting in ("locks 1", "locks 0x", "lines 0", "identifications 99", "frob 1", "chunk 1048577", "chunk 0",
                        "network open", "etcd", "etcd " + 300 * "x", f"#{4094 * 'x'}locks 9", "#\0",
                        "tcp-group 65536", 257 * "group root 1\n"):
            daemon.config.write_text(f"mode 666\n{setting}\n")
            daemon.run.send_signal(signal.SIGHUP)
            time.sleep(0.2)
            client.ask("enq P NL name=A block=1")
            answer = client.ask("enq P NL name=A block=1")
            yield from difference((setting, answer), (setting, "P: EXENQLM"))


def configured_again(_program):
    """SIGHUP changes the mode of the socket too, and a configuration that is a pipe does not stop the daemon."""
    with Daemon("mode 666") as daemon, daemon.client() as client:
        for text, mode in (("mode 600\n", 0o600), ("", 0o660)):
            daemon.config.write_text(text)
            daemon.run.send_signal(signal.SIGHUP)
            service_replicas.until(lambda wanted=mode: stat.S_IMODE(os.stat(daemon.socket).st_mode) == wanted)
            yield from difference(stat.S_IMODE(os.stat(daemon.socket).st_mode), mode)
        daemon.config.unlink()
        os.mkfifo(daemon.config)
        daemon.run.send_signal(signal.SIGHUP)
        time.sleep(0.2)
        yield from difference(client.ask("alive"), "no session")


def linked(_program):
    """A daemon writes to no file that a link in the place of its state file leads to: another user may have made it."""
    folder = Path(tempfile.mkdtemp(dir=ROOM().name))
    (folder / "file").write_text("a file with more than 19 bytes\n")
    (folder / "socket.state").symlink_to(folder / "file")
    ended = subprocess.run([PLAIN(), "-s", folder / "socket"], capture_output=True, text=True, timeout=20)
    yield from difference((ended.returncode, (folder / "file").read_text()), (4, "a file with more than 19 bytes\n"))


def kept_state(_program):
    """A state file without an epoch is left as it is, since tokens of epoch 0 may have been given. A start that fails
    leaves no grace time to the next one."""
    folder = Path(tempfile.mkdtemp(dir=ROOM().name))
    state, words = folder / "socket.state", [PLAIN(), "-c", "/dev/null", "-s", folder / "socket"]
    for text in ("a file\n", "-5 ended\n", "16777215 ended\n", "99999999999 ended\n", 19 * "\0"):
        state.write_text(text)
        ended = subprocess.run(words, capture_output=True, text=True, timeout=20)
        yield from difference((ended.returncode, state.read_text()), (4, text))
    state.write_text("0000000007 ended  \n")
    (folder / "socket").write_text("in the way")
    ended = subprocess.run(words, capture_output=True, text=True, timeout=20)
    yield from difference((ended.returncode, state.read_text()), (4, "0000000008 ended  \n"))


def marked_log(_program):
    """Lines of the log have a priority where standard error is systemd's stream to the journal, and only there."""
    with open(Path(ROOM().name) / "marked log", "w+") as log:
        place = os.fstat(log.fileno())
        for stream, begin in ((f"{place.st_dev}:{place.st_ino}", "<6>usage"), ("1:2", "vlmd: usage")):
            log.truncate(0)
            log.seek(0)
            subprocess.run([PLAIN(), "-x"], stderr=log, timeout=20, env={**os.environ, "JOURNAL_STREAM": stream})
            log.seek(0)
            yield from difference(log.read().startswith(begin), True)


def few_descriptors(_program):
    """Whether a daemon that has too few descriptors, or no program for its list, says so."""
    words = [PLAIN(), "-c", "/dev/null", "-s", f"{tempfile.mkdtemp(dir=ROOM().name)}/socket"]
    for count in range(5, 12):
        ended = subprocess.run(words, capture_output=True, text=True, timeout=20,
                               preexec_fn=lambda: resource.setrlimit(resource.RLIMIT_NOFILE, (count, count)))
        yield from difference((count, ended.returncode, "not started" in ended.stderr), (count, 4, True))
    ended = subprocess.run([*words, "--etcd", "127.0.0.1:1"], capture_output=True, text=True, timeout=20,
                           env={**os.environ, "VLM_LIST": "/nowhere"})
    yield from difference((ended.returncode, "/nowhere can't be started" in ended.stderr), (4, True))


def long_log(_program):
    """A log that may not grow (ulimit -f) ends no daemon, and no lock."""
    with Daemon(made=PLAIN) as daemon, daemon.client().begin("P") as client:
        resource.prlimit(daemon.run.pid, resource.RLIMIT_FSIZE, (daemon.log.stat().st_size, -1))
        daemon.run.send_signal(signal.SIGHUP)
        time.sleep(0.2)
        yield from difference(client.ask("enq P EX name=A block=1"), "P: NORMAL lock 1")
        resource.prlimit(daemon.run.pid, resource.RLIMIT_FSIZE, (-1, -1))


def removed_state(_program):
    """A state file that is moved or removed comes again, so no other daemon begins beside this one. If one has begun by
    then, this one ends, and leaves it its socket."""
    folder = Path(tempfile.mkdtemp(dir=ROOM().name))
    with Daemon(made=PLAIN, folder=folder) as daemon, daemon.client() as client:
        state = folder / "socket.state"
        for is_moved in (True, False):
            state.rename(folder / "moved") if is_moved else state.unlink()
            yield from difference(service_replicas.until(state.exists), True)
        words = [PLAIN(), "-c", "/dev/null", "-s", daemon.socket]
        ended = subprocess.run(words, capture_output=True, text=True, timeout=20)
        yield from difference((ended.returncode, "belongs to another daemon" in ended.stderr), (4, True))
        yield from difference(client.ask("alive"), "no session")
        daemon.run.send_signal(signal.SIGSTOP)
        for it in ("socket", "socket.state"):
            (folder / it).unlink()
        other = subprocess.Popen(words, stderr=subprocess.DEVNULL)
        yield from difference(service_replicas.until(lambda: (folder / "socket").exists()), True)
        daemon.run.send_signal(signal.SIGCONT)
        yield from difference((client.line(), daemon.run.wait(20), (folder / "socket").exists()), ("lost", 0, True))
        other.terminate()
        yield from difference(other.wait(20), 0)


# Starts a daemon with its listening socket at descriptor 3, and tells it that the socket is its own.
AS_SYSTEMD = """
import os, sys
os.dup2(int(sys.argv[1]), 3)
os.environ["LISTEN_PID"] = str(os.getpid())
os.execv(sys.argv[2], sys.argv[2:])
"""


def under_systemd(_program):
    """What systemd gives and is told: a listening socket, a folder for the state, readiness, a watchdog, the end."""
    folder = Path(tempfile.mkdtemp(dir=ROOM().name))
    with socket.socket(socket.AF_UNIX) as listener, socket.socket(socket.AF_UNIX, socket.SOCK_DGRAM) as notices:
        listener.bind(f"{folder}/lock")
        listener.listen()
        notices.bind(f"{folder}/notices")
        notices.settimeout(20)
        env = {**os.environ, "LISTEN_FDS": "1", "NOTIFY_SOCKET": f"{folder}/notices", "WATCHDOG_USEC": "100000",
               "STATE_DIRECTORY": str(folder)}
        words = [sys.executable, "-c", AS_SYSTEMD, listener.fileno(), CHECKED(), "-c", "/dev/null"]
        daemon = subprocess.Popen([str(word) for word in words], env=env, pass_fds=[listener.fileno()],
                                  stderr=subprocess.DEVNULL)
        told = [notices.recv(100) for _ in range(3)]
        yield from difference(told, [b"READY=1", b"WATCHDOG=1", b"WATCHDOG=1"])
        with Client(f"{folder}/lock") as client:
            yield from difference(client.ask("alive"), "no session")
        daemon.send_signal(signal.SIGTERM)
        yield from difference(daemon.wait(20), 0)
        yield from difference((folder / "state").read_text(), "0000000000 ended  \n")
        yield from difference((folder / "lock").exists(), True)
        ended = subprocess.run([str(word) for word in words], env={**env, "LISTEN_FDS": "2"}, timeout=20,
                               pass_fds=[listener.fileno()], capture_output=True, text=True)
        yield from difference((ended.returncode, "one ListenStream" in ended.stderr), (4, True))


def cycle(one, other):
    """P of a client and Q of another wait for each other: the request for lock 4 came last."""
    one.ask("enq P EX name=A block=1")
    other.ask("enq Q EX name=B block=1")
    one.ask("enq P EX name=B block=2 ast=1")
    other.ask("enq Q EX name=A block=2 ast=2")


def not_searched(_program):
    """A daemon that is to search for no deadlocks lets one stand, and is idle."""
    with Daemon("search 0") as daemon, daemon.client().begin("P") as one, daemon.client().begin("Q") as other:
        cycle(one, other)
        before = daemon.processor_time()
        yield from difference((one.is_quiet(0.7), other.is_quiet(0.7)), (True, True))
        if daemon.processor_time() - before > 0.5:
            yield "the daemon is busy while requests wait"


def awake(_program):
    """A daemon that stays awake for a second line sleeps if none comes."""
    with Daemon("awake 100000") as daemon, daemon.client().begin("P") as client:
        yield from difference(client.ask("deq P @1"), "P: IVLOCKID")
        client.is_quiet(0.3)
        before = daemon.processor_time()
        yield from difference(client.is_quiet(1), True)
        if daemon.processor_time() - before > 0.3:
            yield "a daemon without clients that ask is busy"
        yield from difference(client.ask("deq P @1"), "P: IVLOCKID")


def deadlocked(_program):
    """A deadlock of two clients ends, with its most recent request, and the cycle is logged."""
    with Daemon("search 200") as daemon, daemon.client().begin("P") as one, daemon.client().begin("Q") as other:
        cycle(one, other)
        yield from difference(other.line(), "Q: completion 2 param 0 lock 4")
        yield from difference(other.line(), f"Q: block 2 status 6 lock 4 value {ZEROS}")
        yield from difference(one.is_quiet(), True)
        told = daemon.log.read_text()
        for part in ("the victim: request for lock 4 of", "in its circle: request for lock 3 of"):
            if part not in told:
                yield f"not logged: {part}"
        yield from difference(daemon.metric("deadlock_victims_total"), 1)


def deadlocked_among_many(_program):
    """The log names the victim also where too many requests wait for the cycle to be found."""
    with Daemon("search 200") as daemon, daemon.client().begin("R") as many, \
            daemon.client().begin("P") as one, daemon.client().begin("Q") as other:
        many.ask("declare S")
        for number, process in itertools.product(range(65), "RS"):
            many.ask(f"enq {process} EX name=C{number} block=1")
        cycle(one, other)
        other.line()
        told = re.findall("deadlock: (.*)", daemon.log.read_text())
        yield from difference([re.sub(" of session [0-9a-f]{16}, ", " of session S, ", it) for it in told],
                              [f"the victim: request for lock 134 of session S, pid {os.getpid()}"])


# The end of IDs.

def changed(_program):
    """At a moment without locks a new manager takes over, which a client sees by its handles alone."""
    with Daemon("identifications 100") as daemon, daemon.client().begin("P") as client:
        client.ask(f"set P block=2 value={'ab' * 16}")
        for number in range(1, 90):
            yield from difference(client.ask("enq P EX name=A block=1"), f"P: NORMAL lock {number}")
            client.ask("deq P @1")
        yield from difference(client.ask("enq P EX name=A block=1"), "P: NORMAL lock 90")
        yield from difference(daemon.metric("epoch"), 0)
        client.ask("deq P @1")
        yield from difference(daemon.metric("epoch"), 1)
        yield from difference(client.ask("block P 1"), f"P: block 1 status 1 lock 90 value {ZEROS}")
        yield from difference(client.ask("block P 2"), f"P: block 2 status 0 lock 0 value {'ab' * 16}")
        yield from difference([client.ask(it) for it in ("deq P @1", "deq P 1", "cvt P 90 NL block=1")],
                              3 * ["P: IVLOCKID"])
        yield from difference(client.ask("enq P EX name=A block=1 ast=1"), "P: NORMAL lock 4294967297")
        yield from difference(client.line(), "P: completion 1 param 0 lock 4294967297")
        yield from difference(client.line(), f"P: block 1 status 1 lock 4294967297 value {ZEROS}")
        yield from difference(client.ask_all("show")[1], "  granted 4294967297 process 65537 EX")
        yield from difference(client.ask("cvt P @1 PR block=1"), "P: NORMAL lock 4294967297")
        yield from difference(client.ask("deq P 4294967297"), "P: NORMAL")
    yield from ()


def drained(_program):
    """Without such a moment new requests are refused, and at last the epoch ends for all. Nothing is granted then for
    the grace time, in which clients stop what they do under the lost locks."""
    with Daemon("identifications 100", "drain 2500", "grace 1500") as daemon, daemon.client().begin("P") as client:
        other = daemon.client().begin("Q")
        other.ask("enq Q NL name=B block=1")
        client.ask("enq P EX name=C block=2")
        # (the end of one client grants it to the other, after that was told of its own end)
        other.ask("enq Q EX name=C block=2 ast=1")
        for _ in range(96):
            client.ask("enq P EX name=A block=1")
            client.ask("deq P @1")
        yield from difference(client.ask("enq P EX name=A block=1"), "no identifications left")
        yield from difference(other.ask("cvt Q @1 CR block=1"), "Q: NORMAL lock 1")
        for it in (client, other):
            yield from difference((it.line(), it.line()), ("lost", None))
        began, next_one = time.monotonic(), daemon.client().begin("P")
        yield from difference(next_one.greeting, "vlm protocol 1 epoch 1")
        yield from difference(next_one.ask("enq P EX name=C block=1"), "P: NORMAL lock 4294967297")
        if time.monotonic() - began < 1:
            yield "a request was granted before clients had time to stop"
        with Daemon("identifications 100", "drain 60000") as daemon, daemon.client().begin("P") as client:
            client.ask("enq P NL name=B block=2")
            for _ in range(99):
                client.ask("enq P EX name=A block=1")
                client.ask("deq P @1")
            yield from difference(client.ask("enq P EX name=A block=1"), "no identifications left")
            client.ask("deq P @2")
            yield from difference(client.ask("enq P EX name=A block=1"), "P: NORMAL lock 4294967297")


# Many clients, and strange bytes.

def idle(_program):
    """Beside 10,000 idle connections, or as many as files may be open, a client is served in time."""
    soft, hard = resource.getrlimit(resource.RLIMIT_NOFILE)
    resource.setrlimit(resource.RLIMIT_NOFILE, (hard, hard))
    count = min(10000, hard - 500)
    with Daemon(made=PLAIN) as daemon:
        clients = [daemon.client() for _ in range(count)]
        yield from difference(daemon.metric("connections"), count + 1)
        began = time.monotonic()
        with daemon.client().begin("P") as client:
            for _ in range(1000):
                client.ask("enq P EX name=A block=1")
                client.ask("deq P @1")
        if time.monotonic() - began > 5:
            yield f"1000 pairs took {time.monotonic() - began:.1f} seconds"
        for client in clients:
            client.close()


def turned_away(_program):
    """Connections for which there is no memory are closed at once, and the log says so. Those before them go on, and
    others are let in when there is memory again."""
    with Daemon("connections 5000", made=PLAIN) as daemon, daemon.client().begin("P") as first:
        size = int(re.search("VmSize:[ \t]+([0-9]+) kB", Path(f"/proc/{daemon.run.pid}/status").read_text())[1]) << 10
        resource.prlimit(daemon.run.pid, resource.RLIMIT_AS, (size, resource.RLIM_INFINITY))
        let_in = []
        while len(let_in) < 5000 and (client := daemon.client()).greeting is not None:
            let_in.append(client)
        yield from difference((0 < len(let_in) < 5000, first.ask("deq P 1")), (True, "P: IVLOCKID"))
        if "a connection is closed at once: there is no memory for it" not in daemon.log.read_text():
            yield "the log does not tell of it"
        resource.prlimit(daemon.run.pid, resource.RLIMIT_AS, (resource.RLIM_INFINITY, resource.RLIM_INFINITY))
        with daemon.client() as client:
            yield from difference(client.greeting, "vlm protocol 1 epoch 0")
        for client in let_in:
            client.close()


def known_lines(_program):
    """What is wrong with the places of the lines that the dispatcher remembers."""
    made, wrong = over_dispatcher("known lines", "known_lines.c", "cc", *SANITIZED)
    yield from wrong or library.ran(made)


def asked_at_random(pick):
    """A request of P or Q."""
    return f"enq {pick.choice('PQ')} {pick.choice(MODES)} name={pick.choice('ABC')} block=1 bast=1 ast=2"


def storm(daemon, seed, until):
    """A client that comes and goes, asks much at once, reads little, and ends in each way."""
    pick = random.Random(seed)
    lines = [it for it in (HERE / "lines").read_text().splitlines() if not it.startswith(("resume", "kill", "close"))]
    while time.monotonic() < until:
        client = daemon.client()
        client.send("open seconds=1" if pick.random() < 0.2 else "open", "declare P", "declare Q")
        for _ in range(pick.randint(1, 20)):
            asked = [asked_at_random(pick) if pick.random() < 0.7 else pick.choice(lines)
                     for _ in range(pick.randint(1, 150))]
            client.socket.setblocking(False)
            try:
                client.send(*asked)
            except OSError:
                break
            if pick.random() < 0.5:
                client.socket.settimeout(0.01)
                try:
                    client.socket.recv(1 << pick.randint(1, 18))
                except OSError:
                    pass
        if pick.random() < 0.3:
            client.socket.shutdown(pick.randint(0, 2))
        client.close()


def stormy(_program):
    """After many clients that come and go in each way nothing of them is left, and a client is served."""
    settings = ("search 50", "locks 3000", "connections 30", "waiting 50", "names 200")
    with Daemon(*settings) as daemon, ThreadPoolExecutor(8) as pool:
        until = time.monotonic() + STORM_SECONDS
        for done in [pool.submit(storm, daemon, seed, until) for seed in range(8)]:
            done.result()
        names = ("sessions", "locks", "waiting_requests")
        end = time.monotonic() + 20
        while any(map(daemon.metric, names)) and time.monotonic() < end:
            time.sleep(0.1)
        yield from difference([daemon.metric(it) for it in (*names, "connections")], [0, 0, 0, 1])
        yield from difference(daemon.client().begin("P").ask("enq P EX name=A block=1").split(" lock")[0], "P: NORMAL")


def mutated(_program):
    """What is wrong with the dispatcher when clients send mutated lines, also while allocations are refused: no
    sanitizer finds anything."""
    refused = [f"-Wl,--wrap={name}" for name in ("malloc", "calloc", "realloc")]
    made, wrong = over_dispatcher("mutated", "mutate.c", "cc", *SANITIZED, *refused)
    scripts = [it.with_suffix("") for it in sorted(PLAY.glob("*.stdout"))]
    yield from wrong or library.ran(made, MUTATED_SECONDS, *scripts, HERE / "lines")


def fuzzed(_program):
    """What is wrong with the dispatcher under libFuzzer, for a few seconds."""
    made, wrong = over_dispatcher("fuzzed", "mutate.c", "clang", "-DFUZZER", "-fsanitize=fuzzer,address,undefined")
    corpus = Path(ROOM().name) / "corpus"
    corpus.mkdir()
    shutil.copy(HERE / "lines", corpus)
    yield from wrong or library.ran(made, f"-max_total_time={MUTATED_SECONDS}", "-max_len=4000", "-timeout=10", corpus)


def lists(_program):
    """What is wrong with replicas over lists in one program, with time and chance made up: other states, wrong answers,
    or two clients that believe to hold one lock."""
    made, wrong = over_dispatcher("lists", "lists.c", "cc", *SANITIZED)
    yield from wrong or library.ran(made, 1, LISTS)


def clients(compiler, sanitizer, _program):
    """What is wrong with the client in C, by a compiler and a sanitizer."""
    made, folder = Path(ROOM().name) / f"client {compiler} {sanitizer}", tempfile.mkdtemp(dir=ROOM().name)
    config = Path(folder) / "conf"
    config.write_text("search 200\ngrace 300\n")
    wrong = list(library.ran(compiler, "-std=gnu11", *library.STRICT, "-O1", "-g", "-pthread",
                             f"-fsanitize={sanitizer}", "-Wl,--wrap=malloc", f"-I{TOP}/include", HERE / "client.c",
                             *CLIENT, library.prefix() / "lib" / "libvlm.a", "-o", made))
    yield from wrong or library.ran(made, PLAIN(), config, Path(folder) / "socket")


BEHAVIOURS = {"a daemon without a log": without_log,
              "the first session of the page": shown_talk,
              "the session of the manual page": shown_resume, "half lines": half_lines, "killed clients": killed,
              "a client that reads no answers": deaf, "a client that reads no ASTs": cut_off,
              "many long answers": long_answers, "many lines of one client": fair,
              "lines that come again": repeated_lines, "lines that are remembered": known_lines,
              "limits of a user": limits,
              "what show and who print": shown, "readings of single locks": readings,
              "sessions that are resumed": resumed, "repeated steps": repeated, "processes of another session": hidden,
              "a daemon that ends": restarted, "a second daemon": one_daemon, "what is in the way": in_the_way,
              "configurations": configured, "a configuration that is read again": configured_again,
              "a daemon of systemd": under_systemd, "a deadlock": deadlocked,
              "a deadlock among many requests": deadlocked_among_many, "no searches": not_searched,
              "a daemon that stays awake": awake,
              "a change of managers": changed, "no identifications left": drained, "10,000 idle connections": idle,
              "connections without memory": turned_away,
              "a storm of clients": stormy, "mutated lines": mutated,
              "replicas in one program": lists, "a link for the state file": linked,
              "a state file without an epoch": kept_state, "few descriptors": few_descriptors,
              "a log at its greatest length": long_log, "a log in the journal": marked_log,
              "a state file that is removed": removed_state}


def installed(_program):
    """The library is installed where the part `library` installs it."""
    if not (library.prefix() / "lib" / "libvlm.a").exists():
        yield from library.installed(None)


def first():
    return [] if needed() else [Test("the library", installed)]


def once():
    found = [Test(f"lines: {name}", partial(talk, name, Daemon)) for name in TALKS]
    found += [Test(f"lines at a replica: {name}", partial(talk, name, lone_replica))
              for name in sorted(TALKS.keys() - NOT_AT_REPLICAS)]
    found += [Test(name, check) for name, check in BEHAVIOURS.items()]
    found += [Test("other users", other_users)] * (os.getuid() == 0)
    found += [Test("a clock that jumps", set_clock)] * FAKED_TIME.exists()
    found += [Test("lines under libFuzzer", fuzzed)] * bool(shutil.which("clang"))
    found += [Test(f"the client in C by {compiler} with the sanitizer {sanitizer}",
                   partial(clients, compiler, sanitizer))
              for compiler in library.COMPILERS for sanitizer in library.SANITIZERS[1:]
              if library.links(compiler, sanitizer)]
    found += service_scripts.tests() + service_commands.tests() + service_tokens.tests() + service_replicas.tests()
    found += service_tls.tests() + service_edges.tests()
    return [] if needed() else found
