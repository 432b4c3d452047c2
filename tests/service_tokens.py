"""Fencing tokens of the lock service. A witness that knows only the rule has random clients lock, convert and give up
locks: each grant has a greater token than all grants of earlier lines, over restarts and changes of lock managers."""

import os
import random
import re
import signal
import subprocess
import tempfile
from functools import partial
from pathlib import Path

import library
from daemons import DISPATCHER, PLAIN, Daemon
from harness import PLAIN_ROOM, ROOM, TOP, Test, difference
from service_scripts import MODES

NONE = ["no such lock"]
# The statuses of requests that end well: NORMAL and VALNOTVALID.
GOOD = (1, 7)
BLOCKS = 3
LINES = 1500
# What a run of the witness has to see, or it has seen too little.
KINDS = ("new", "converted", "several", "at once", "waiting", "refused", "kept", "given up", "closed", "told")


def token(client, lock):
    """The token of a lock, or None."""
    told = client.ask_all(f"token {lock}")
    return None if told == NONE else int(re.fullmatch(r"token ([1-9]\d*)", "\n".join(told))[1])


class Asker:
    """A client with one process. It knows its locks, and which status blocks have a request under way."""

    def __init__(self, daemon):
        self.client = daemon.client()
        self.begin()

    def begin(self):
        for line in ("open tokens", f"declare P blocks={BLOCKS}"):
            self.client.ask(line)
        self.locks, self.under_way, self.at_once = set(), {}, []

    def close(self):
        """Ends the session. What it has asked for brings no more completions."""
        self.client.ask("close")
        self.begin()

    def ask(self, line, block):
        """Makes a request. Gives its lock if it was accepted."""
        found = re.fullmatch(r"P: (NORMAL|SYNCH) lock (\d+)", self.client.ask(f"{line} block={block} ast={block}"))
        if not found:
            return None
        lock = int(found[2])
        self.locks.add(lock)
        if found[1] == "SYNCH":
            self.at_once.append(lock)
        else:
            self.under_way[block] = lock
        return lock

    def ended(self):
        """The locks whose requests have ended, whether each ended well, and the token that came with its completion. A
        request with SYNCSTS that is granted at once has no completion."""
        yield from ((self.at_once.pop(), True, None) for _ in self.at_once[:])
        self.client.send("alive")
        while (line := self.client.line()) != "alive":
            found = re.fullmatch(r"P: completion (\d+) param 0 lock (\d+)", line)
            status = int(re.match(r"P: block \d+ status (\d+)", self.client.line())[1])
            del self.under_way[int(found[1])]
            is_well = status in GOOD
            yield int(found[2]), is_well, is_well and int(re.fullmatch(r"P: token (\d+)", self.client.line())[1])


class Witness:
    """Has clients of a daemon ask at random, and compares the tokens that it is told."""

    def __init__(self, daemon, seed, greatest=0):
        self.pick = random.Random(seed)
        self.askers = [Asker(daemon) for _ in range(3)]
        self.tokens = {}
        self.greatest = greatest
        self.seen = dict.fromkeys(KINDS, 0)
        self.wrong = []

    def check(self, line, fact):
        if not fact:
            self.wrong.append(f"after {line}: a token is not as it should be")

    def request(self, asker, block):
        """A line that asks for a new lock or another mode, and its status block."""
        mode, flag = self.pick.choice(MODES), self.pick.choice(["", "", " noqueue", " valblk", " syncsts"])
        free = sorted(asker.locks - set(asker.under_way.values()))
        if free and self.pick.random() < 0.5:
            return f"cvt P {self.pick.choice(free)} {mode}{flag}", block
        return f"enq P {mode} name={self.pick.choice('AB')}{flag}", block

    def give_up(self, asker, lock):
        line = f"deq P {lock}{self.pick.choice(['', '', ' cancel'])}"
        asker.client.ask(line)
        return line

    def step(self):
        """One line of a client, and what it has changed."""
        asker, own = self.pick.choice(self.askers), None
        blocks = [it for it in range(1, BLOCKS + 1) if it not in asker.under_way]
        if self.pick.random() < 0.02:
            line = "close"
            asker.close()
        elif asker.locks and (not blocks or self.pick.random() < 0.3):
            line = self.give_up(asker, self.pick.choice(sorted(asker.locks)))
        else:
            line, block = self.request(asker, self.pick.choice(blocks))
            own = asker.ask(line, block)
            self.seen["refused"] += own is None
            self.seen["at once"] += bool(asker.at_once)
        self.seen["closed"] += line == "close"
        self.compare(line, own)

    def compare(self, line, own=None):
        """Compares the tokens after a line: `own` is the lock of its request. Grants of the line have greater tokens
        than all before, and its own request has the least of them. Other locks have the tokens that they had."""
        came = {lock: number for asker in self.askers for lock, is_well, number in asker.ended() if is_well}
        granted = list(came)
        told = {lock: token(asker.client, lock) for asker in self.askers for lock in asker.locks}
        for lock, number in came.items():
            self.check(line, number in (None, told[lock]))
            self.seen["told"] += number is not None
        new = sorted(told[lock] for lock in granted if told[lock] is not None)
        self.check(line, all(it > self.greatest for it in new) and len(set(new)) == len(new))
        self.check(line, own not in granted or told[own] == new[0])
        for lock, number in told.items():
            if lock not in granted and number is not None:
                self.check(line, number == self.tokens.get(lock))
                self.seen["kept"] += 1
        self.count(granted, told)
        self.greatest = max([self.greatest, *new])
        self.forget(line, granted, told)

    def count(self, granted, told):
        self.seen["new"] += sum(lock not in self.tokens for lock in granted)
        self.seen["converted"] += sum(lock in self.tokens for lock in granted)
        self.seen["several"] += len(granted) > 1

    def forget(self, line, granted, told):
        """A lock without a token waits for its first grant, or is gone. It has one if it was granted."""
        for asker in self.askers:
            for lock in sorted(asker.locks):
                is_there = asker.client.ask_all(f"lock {lock}") != NONE
                is_waiting = lock not in self.tokens and lock not in granted
                self.check(line, (told[lock] is None) == (not is_there or is_waiting))
                self.seen["waiting"] += is_there and is_waiting
                if not is_there:
                    self.seen["given up"] += 1
                    asker.locks.discard(lock)
        self.tokens = {lock: number for lock, number in told.items() if number is not None}

    def give_up_all(self):
        for asker in self.askers:
            asker.client.ask("deq P 0 deqall")
            self.compare("deqall")

    def run(self, lines):
        for number in range(lines):
            self.step()
            if number % 25 == 24:
                self.give_up_all()
        return self


def witnessed(seed, _program):
    """Tokens of random clients rise in the order of the grants, over changes of managers too."""
    with Daemon("search 0", "identifications 100", "drain 60000") as daemon:
        witness = Witness(daemon, seed).run(LINES)
        yield from witness.wrong[:3]
        if unseen := [kind for kind, count in witness.seen.items() if count < 10]:
            yield f"hardly seen: {unseen}"
        if daemon.metric("epoch") < 1:
            yield "no change of managers was seen"


def told_again(_program):
    """A session that is told tokens gets them again by a resume, and one that did not ask for them gets none. A request
    that fails brings none."""
    with Daemon("search 0") as daemon, daemon.client() as client, daemon.client().begin("P") as other:
        name = client.ask("open seconds=60 tokens").split()[1]
        for line in ("declare P", "enq P PR name=A block=1"):
            client.ask(line)
        other.ask("enq P PR name=A block=1 ast=1")
        yield from difference([other.line(), other.line(), other.is_quiet()][2], True)
        client.ask("cvt P 1 EX block=1 ast=7")
        client.ask("deq P 1 cancel")
        yield from difference([client.line()[:13], client.line()[:18]], ["P: completion", "P: block 1 status "])
        client.ask("cvt P 1 NL block=1 ast=8")
        told = [client.line() for _ in range(3)]
        yield from difference(told[2], f"P: token {token(client, 1)}")
        with daemon.client() as again:
            again.ask(f"resume {name} asts=1")
            yield from difference([again.line() for _ in range(3)], told)


def restarted(_program):
    """Tokens rise over restarts: in order, with locks and without, and by a kill."""
    greatest = 0
    with tempfile.TemporaryDirectory(prefix="vlmd") as folder:
        for number, end in enumerate((signal.SIGTERM, signal.SIGKILL, signal.SIGTERM, signal.SIGKILL)):
            with Daemon("search 0", "grace 0", "identifications 100", "drain 60000", folder=folder) as daemon:
                witness = Witness(daemon, number, greatest).run(60)
                yield from witness.wrong[:3]
                yield from difference(witness.greatest > greatest, True)
                greatest = witness.greatest
                if number == 2:
                    witness.give_up_all()
                daemon.run.send_signal(end)
                daemon.run.wait()


def waiting(_program):
    """A request that waits for its first grant has no token. One that waits to be converted has that of its last
    grant."""
    with Daemon("search 0") as daemon, daemon.client().begin("P", "Q") as client:
        client.ask("enq P PR name=A block=1")
        client.ask("enq Q PR name=A block=1")
        client.ask("enq Q EX name=A block=2 ast=9")
        first, second = token(client, 1), token(client, 2)
        yield from difference((first < second, token(client, 3)), (True, None))
        client.ask("cvt P @1 EX block=2")
        yield from difference(token(client, 1), first)
        client.ask("deq P @1 cancel")
        yield from difference(token(client, 1), first)
        client.ask("deq P 1")
        client.send("deq Q 2", "alive")
        while client.line() != "alive":
            pass
        yield from difference(token(client, 3) > second, True)
        yield from difference((token(client, 1), token(client, 2), token(client, 4294967299)), (None, None, None))
        for line in ("token", "token x", "token 3 3", "token -1", "token 18446744073709551616"):
            yield from difference(client.ask(line), "wrong word")


def victims(_program):
    """A conversion that a search ends leaves its lock the token that it has."""
    with Daemon("search 100") as daemon, daemon.client().begin("P", "Q") as client:
        for line in ("enq P PR name=A block=1", "enq Q PR name=A block=1", "cvt P @1 EX block=1",
                     "cvt Q @1 EX block=1 ast=1"):
            client.ask(line)
        yield from difference(client.line(), "Q: completion 1 param 0 lock 2")
        yield from difference(client.line().split()[4], "6")
        yield from difference((token(client, 1), token(client, 2)), (1, 2))


def blocks(_program):
    """Locks that have had one status block have tokens of their own."""
    with Daemon() as daemon, daemon.client().begin("P blocks=1") as client:
        for line in ("enq P PR name=A block=1", "enq P PR name=B block=1 syncsts", "cvt P 1 EX block=1 syncsts",
                     "cvt P 2 PR block=1", "enq P NL name=C block=1"):
            client.ask(line)
        yield from difference([token(client, lock) for lock in (1, 2, 3)], [3, 4, 5])


def hidden(_program):
    """A session that gets the process of another one is told no token of that one."""
    with Daemon("search 0") as daemon, daemon.client().begin("P") as holder:
        with daemon.client().begin("P") as client:
            client.ask("enq P EX name=B block=1")
            first = token(client, 1)
            client.ask("close")
        holder.ask("enq P EX name=A block=1")
        with daemon.client().begin("Q") as client:
            client.ask("enq Q EX name=A block=1 ast=1")
            yield from difference((token(client, 1), token(client, 3)), (None, None))
            holder.ask("deq P @1")
            yield from difference((client.line(), client.line() is None), ("Q: completion 1 param 0 lock 3", False))
            yield from difference(token(client, 3) > first + 1, True)
        yield from difference(daemon.metric("processes_made"), 2)


def many(_program):
    """Each of many locks keeps its own token, while many others come and go."""
    with Daemon() as daemon, daemon.client().begin("P quota=2000 blocks=1") as client:
        for number in range(1000):
            client.ask(f"enq P NL name=N{number} block=1")
            client.ask("enq P NL name=M block=1")
            client.ask(f"deq P {2 * number + 2}")
        told = [token(client, 2 * number + 1) for number in range(1000)]
        yield from difference(told, [2 * number + 1 for number in range(1000)])
        for line in 60 * [*(50 * ["enq P NL name=M block=1"]), "deq P 0 deqall"]:
            client.ask(line)
        client.ask("enq P NL name=M block=1")
        yield from difference((token(client, 5000), token(client, 5001)), (None, 5001))


def changed(_program):
    """The tokens of a lock manager that takes over are above 2^40 times its epoch. A lock whose ID an
    earlier one has had has no token before its own grant."""
    with Daemon("identifications 100") as daemon, daemon.client().begin("P") as client, daemon.client() as other:
        for _ in range(90):
            client.ask("enq P EX name=A block=1")
            client.ask("deq P 0 deqall")
        other.begin("Q")
        other.ask("enq Q EX name=A block=1")
        client.ask("enq P EX name=A block=1")
        found = [token(client, (1 << 32) + it) for it in (1, 2)]
        yield from difference((daemon.metric("epoch"), found), (1, [(1 << 40) + 1, None]))


def unsynced(_program):
    """A daemon whose epoch does not come to the disk does not start, and ends when it begins another one: the next one
    would give the same tokens. Nobody hears of that epoch."""
    folder = Path(PLAIN_ROOM().name)
    (folder / "unsynced.c").write_text("""#include <stdlib.h>
        int fdatasync(int descriptor) {
            static int calls;
            return descriptor >= 0 && calls++ < atoi(getenv("SYNCED")) ? 0 : -1;
        }""")
    yield from library.ran("cc", "-shared", "-fPIC", folder / "unsynced.c", "-o", folder / "unsynced.so")
    env = {**os.environ, "LD_PRELOAD": str(folder / "unsynced.so"), "SYNCED": "0"}
    ended = subprocess.run([PLAIN(), "-c", "/dev/null", "-s", folder / "unsynced"], capture_output=True, text=True,
                           timeout=20, env=env)
    yield from difference((ended.returncode, "unsynced.state can't be written" in ended.stderr), (4, True))
    daemon = Daemon("identifications 100", made=PLAIN, folder=folder, env={**env, "SYNCED": "1"})
    with daemon.client().begin("P") as client:
        for _ in range(90):
            client.ask("enq P EX name=A block=1")
            client.send("deq P @1")
            last = client.line()
    yield from difference((last, daemon.run.wait(20), os.path.exists(daemon.socket)), (None, 4, False))


def ranges(_program):
    """The dispatcher alone: its last token never gets smaller, and an epoch that has no tokens left takes those of the
    next one."""
    made = Path(ROOM().name) / "ranges of tokens"
    wrong = list(library.ran("cc", "-std=gnu11", *library.STRICT, "-O1", "-g", "-fsanitize=address,undefined",
                             "-fno-sanitize-recover=all", f"-I{library.prefix()}/include", f"-I{TOP}/service",
                             TOP / "tests" / "service" / "tokens.c", *DISPATCHER, library.prefix() / "lib" / "libvlm.a",
                             "-pthread", "-o", made))
    yield from wrong or library.ran(made)


def tests():
    checks = {"tokens of many locks": many, "tokens that are told": told_again,
              "tokens of another lock manager": changed, "tokens over restarts": restarted,
              "tokens of waiting requests": waiting, "tokens of victims": victims,
              "tokens of one status block": blocks, "tokens of another session": hidden, "ranges of tokens": ranges,
              "a disk that takes no epoch": unsynced}
    return [Test(name, check) for name, check in checks.items()] \
        + [Test(f"tokens of random clients, seed {seed}", partial(witnessed, seed)) for seed in range(3)]
