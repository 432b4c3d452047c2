"""Programs over replicas of vlmd, some of which are killed: the client in C, the package for Python, and programs of
OpenVMS."""

import importlib.util
import os
import re
import signal
import subprocess
import sys
import time

import library
import vms
from daemons import Client
from harness import TOP, Ended, Test, difference, run
from service_replicas import CHECKED, LONG, Program

FOLDER = TOP / "tests" / "replicated"
# How many times a replica or a member of etcd fails, and for how many seconds.
FAULTS, DOWN = 8, 1.5
# How often a replica ends under programs of OpenVMS, and how many transfers each makes between. A step waits for a
# disk.
FAILURES, TRANSFERS = 2, 2


def local(members, replicas, **settings):
    """Members of etcd and replicas, as the tests of the folder start them."""
    os.environ["VLM_PREFIX"] = str(library.prefix())
    spec = importlib.util.spec_from_file_location("local", FOLDER / "local.py")
    module = sys.modules["local"] = importlib.util.module_from_spec(spec)
    spec.loader.exec_module(module)
    return module.Local(members, replicas, **settings)


def addresses(there):
    return "tcp:" + ",".join(f"127.0.0.1:{port}" for port in there.ports)


class Replicas:
    """Replicas in the place of a daemon."""

    def __init__(self):
        self.local = local(1, 2, search=10)
        self.local.wait()
        self.address = addresses(self.local)

    def client(self):
        return Client(self.local.socket(0))

    def metric(self, name):
        with self.client() as client:
            return int(re.search(f"^vlmd_{name} ([0-9]+)$", "\n".join(client.ask_all("metrics")), re.M)[1])

    def fail(self):
        """Kills a replica, and starts it again."""
        self.local.kill("replica 1")
        self.local.start_replica(1)

    def __exit__(self, *_):
        self.local.close()


def fail(there, number):
    """Has a replica end, or hang, or the member of etcd that leads most likely."""
    replica, member = f"replica {number % 3}", f"etcd {number % 3}"
    if number % 2:
        there.kill(replica)
        there.start_replica(number % 3)
    else:
        for name in (replica, member)[:1 + number // 2 % 2]:
            there.signal(name, signal.SIGSTOP)
    time.sleep(DOWN)
    for name in (replica, member):
        there.signal(name, signal.SIGCONT)


def client_in_c(_program):
    """What is wrong with counts under locks by the client in C, while replicas and members of etcd end and hang."""
    with local(3, 3) as there:
        there.wait()
        with Program(CHECKED(), "cuts", addresses(there), LONG) as program:
            yield from difference(program.line(), "ready")
            for number in range(FAULTS):
                fail(there, number)
                there.wait()
            program.go()
            found = re.fullmatch(r"steps (\d+) cancels \d+", program.line() or "")
            if found is None or int(found[1]) < FAULTS:
                yield f"steps: {found}"
            program.go()
            yield from difference(program.line(), "closed")
            program.go()
            yield from program.ended()


# Threads that count under one lock, each with a process of its own, until the input ends. It prints how much each has
# counted between two lines of input.
COUNTS = """
import sys, threading
import vlm
from vlm import Mode

THREADS = 4
counts, holders, is_over = [0] * THREADS, [], threading.Event()

def count(number, process):
    while not is_over.is_set():
        with process.lock("counter", Mode.EX):
            holders.append(number)
            if len(holders) > 1:
                print("held by", holders, flush=True)
            holders.pop()
            counts[number] += 1

with vlm.connect(sys.argv[1], lease=int(sys.argv[2])) as connection:
    threads = [threading.Thread(target=count, args=(it, connection.declare())) for it in range(THREADS)]
    for thread in threads:
        thread.start()
    for _ in sys.stdin:
        print(*counts, flush=True)
        counts[:] = [0] * THREADS
    is_over.set()
    for thread in threads:
        thread.join()
"""


def package_in_python(_program):
    """What is wrong with threads that count under a lock by the package for Python, while replicas and members of etcd
    end and hang: each goes on after each fault, and no two hold the lock."""
    with local(3, 3) as there:
        there.wait()
        env = {**os.environ, "PYTHONPATH": str(TOP / "bindings" / "python"), "VLM_PREFIX": str(library.prefix())}
        words = [sys.executable, "-c", COUNTS, addresses(there), str(LONG)]
        with subprocess.Popen(words, env=env, text=True, stdin=subprocess.PIPE, stdout=subprocess.PIPE,
                              stderr=subprocess.PIPE) as program:
            for number in range(FAULTS):
                fail(there, number)
                there.wait()
                time.sleep(DOWN)
                program.stdin.write("\n")
                program.stdin.flush()
                counts = program.stdout.readline().split()
                if len(counts) != 4 or not all(it.isdigit() and int(it) > 0 for it in counts):
                    yield f"after fault {number}: {' '.join(counts)}"
                    program.kill()
                    break
            said = program.communicate(timeout=LONG)
            yield from difference((program.returncode, *said), (0, "", ""))


def openvms(_program):
    """What is wrong with examples of OpenVMS over replicas, of which one ends."""
    with vms.Stage(vms.first_links()[1], Replicas()) as stage:
        for _ in range(FAILURES):
            yield from vms.accounts(stage, TRANSFERS)
            stage.daemon.fail()
        yield from vms.accounts(stage, TRANSFERS)


def at_a_socket(_program):
    """What is wrong with the Unix socket of a replica: clients that keep no lease are refused."""
    with local(1, 1) as there:
        there.wait()
        env = {**os.environ, "VLM_SOCKET": there.socket(0)}
        lock = [library.prefix() / "bin" / "vlm", "lock", "A", "true"]
        yield from difference(run(lock, env=env), Ended(69, b"", b"vlm lock: this is a replica: connect to it by "
                                                               b"tcp:HOST:PORT\n"))
        env["VLM_SOCKET"] = addresses(there)
        yield from difference(run(lock, env=env), Ended(0, b"", b""))
        with Program(CHECKED(), "opening", there.socket(0), 0) as program:
            yield from difference(program.line(), "LOST")


def tests():
    return [Test("the client in C while replicas and members fail", client_in_c),
            Test("the package for Python while replicas and members fail", package_in_python),
            Test("programs of OpenVMS over replicas", openvms),
            Test("clients at the Unix socket of a replica", at_a_socket)]
