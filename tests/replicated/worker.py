"""A client of the fault test, as a process: worker.py ROLE NUMBER SEED WITNESS REPLICA.. (ports of 127.0.0.1).

A writer adds 1 to counters under EX: to one of its own, and to shared ones. A reader reads counters under PR. A keeper
holds NL on all of them, so that no value block goes. A racer has two connections race for a session. Each tells the
witness what it does, as lines of JSON. At SIGTERM it finishes what it is at, and from then on only keeps its session
alive."""

import itertools
import json
import random
import signal
import socket
import sys
import time

from lock_client import Client, SessionEnded

WRITERS, SHARED = 50, 4
LEASE, LONG_LEASE = 4, 60
# How long a worker waits for a grant before it gives its request up, and how long it pauses.
LONGEST_WAIT, PAUSE = 15.0, 0.3
# The longest head start of a connection that races.
HEAD_START = 0.004
OWN = [f"own{number:02}" for number in range(WRITERS)]
ALL = OWN + [f"shared{number}" for number in range(SHARED)]


class Worker:
    """A session of a worker. The next one begins when it has ended."""

    def __init__(self, number, places, witness, rng):
        self.client = Client(places, LEASE)
        self.number, self.witness, self.rng = number, witness, rng
        self.client.on_lease = lambda: self.tell("until", self.client.lease_until)

    def tell(self, kind, *words):
        self.witness.sendall(json.dumps([kind, self.client.session, *words]).encode() + b"\n")

    def step(self, line):
        """Has a step made, and tells what it answered."""
        self.client.keep_alive()
        answer = self.client.ask(line)
        self.tell("answer", self.client.number, line, answer)
        return answer

    def declare(self, quota=9):
        answer = self.step(f"declare P quota={quota}")
        self.tell("process", int(answer.split()[-1]))

    def granted(self, name, mode):
        """Asks for a lock and waits for its grant. Returns the lock, and the status and the value that came with it, or
        None if it took too long."""
        lock = self.step(f"enq P {mode} name={name} block=1 valblk ast=1").removeprefix("P: NORMAL lock ")
        ast = self.client.next_ast(LONGEST_WAIT)
        if ast is None:
            # The end of the request is told in any case: of its grant, or of its abort.
            self.step(f"deq P {lock}")
            self.client.next_ast(LONGEST_WAIT)
            return None
        if ast != f"P: completion 1 param 0 lock {lock}":
            raise AssertionError(f"{ast} is told of lock {lock}")
        self.tell("hold", name, mode, time.monotonic(), self.client.lease_until)
        token = self.client.texts(f"token {lock}")[0].split()
        if token[0] == "token":
            self.tell("token", name, mode, time.monotonic(), self.client.lease_until, int(token[1]))
        words = self.client.ask("block P 1").split()
        self.tell("read", name, mode, int(words[4]), int(words[8], 16))
        return lock, int(words[8], 16)

    def write(self, name):
        """Adds 1 to a counter."""
        found = self.granted(name, "EX")
        if found is None:
            return
        lock, value = found
        self.rest(0.3 if name in OWN else 0.05)
        self.tell("try", name, value + 1)
        self.tell("drop", time.monotonic())
        if self.step(f"deq P {lock} value={value + 1:032x}") == "P: NORMAL":
            self.tell("done", name, value + 1)

    def read(self, name):
        found = self.granted(name, "PR")
        if found is not None:
            self.rest(0.05)
            self.tell("drop", time.monotonic())
            self.step(f"deq P {found[0]}")

    def rest(self, share):
        """Holds a lock for a while, and in this share of the cases for long."""
        time.sleep(self.rng.random() * (3 * PAUSE if self.rng.random() < share else PAUSE / 10))

    def run(self, role):
        self.declare(quota=200)
        if role == "keeper":
            for name in ALL:
                self.step(f"enq P NL name={name} block=1")
            self.tell("ready")
        if role == "writer":
            # The witness looks how the counter of a writer was left.
            self.write(OWN[self.number])
        while not STOP:
            if role == "keeper":
                self.client.next_ast(1.0)
            elif role == "writer":
                self.write(self.rng.choice([OWN[self.number], OWN[self.number], *ALL[WRITERS:]]))
            else:
                self.read(self.rng.choice(ALL))
            time.sleep(self.rng.random() * PAUSE if role != "keeper" else 0)
        self.tell("idle")
        while True:
            self.client.next_ast(1.0)


class Line:
    """A connection, line by line. It raises OSError when it fails or takes too long."""

    def __init__(self, place):
        self._socket = socket.create_connection(place, LEASE)
        self._file = self._socket.makefile("rb")
        self.next()

    def next(self):
        line = self._file.readline().decode()
        if not line:
            raise ConnectionError
        return line.rstrip("\n")

    def send(self, line):
        self._socket.sendall(line.encode() + b"\n")

    def ask(self, line):
        self.send(line)
        return self.next()

    def __enter__(self):
        return self

    def __exit__(self, *_):
        self._file.close()
        self._socket.close()


class Racer:
    """Has one connection of a session ask for a lock while another one, at another replica, resumes the session and
    asks for another lock: under the number that it is told, or under the same one."""

    def __init__(self, places, witness, rng):
        self.places, self.witness, self.rng = places, witness, rng

    def tell(self, kind, *words):
        self.witness.sendall(json.dumps([kind, None, *words]).encode() + b"\n")

    def race(self, number):
        one, two = self.rng.sample(self.places, 2)
        with Line(one) as first, Line(two) as then:
            session = first.ask(f"open seconds={LEASE}").split()[1]
            first.ask("1 declare P")
            sends = [(first, f"2 enq P CR name=first{number} block=1"), (then, f"resume {session}")]
            for connection, line in self.rng.sample(sends, 2):
                connection.send(line)
                time.sleep(self.rng.uniform(0.0, HEAD_START))
            told = int(then.next().split()[5])
            sent = self.rng.choice((2, told + 1))
            answer = then.ask(f"{sent} enq P CR name=then{number} block=1")
            # (the lock that it was told is on the resource that it named)
            locked = then.ask(f"lock {answer.split()[-1]}") and then.next().split() if " lock " in answer else []
            self.tell("race", sent, told, answer, locked[7] if len(locked) > 7 else "", f"then{number}")
            then.send("close")

    def run(self):
        for number in itertools.count():
            if STOP:
                break
            try:
                self.race(number)
            except (OSError, IndexError):
                # (a fault, or the session has ended)
                continue
            finally:
                time.sleep(self.rng.random() * PAUSE)
        # (it has no process any more)
        self.tell("process", 0)
        self.tell("idle")
        while True:
            signal.pause()


STOP = []


def main(role, number, seed, witness, *ports):
    signal.signal(signal.SIGTERM, lambda *_: STOP.append(True))
    rng = random.Random(f"{seed} {role} {number}")
    places = [("127.0.0.1", int(port)) for port in ports]
    rng.shuffle(places)
    said = socket.create_connection(("127.0.0.1", int(witness)))
    said.sendall(json.dumps(["worker", None, role, int(number)]).encode() + b"\n")
    if role == "racer":
        Racer(places, said, rng).run()
    while True:
        worker = Worker(int(number), places, said, rng)
        if role == "keeper":
            worker.client.seconds = LONG_LEASE
        try:
            worker.run(role)
        except SessionEnded:
            worker.tell("ended")


if __name__ == "__main__":
    main(*sys.argv[1:])
