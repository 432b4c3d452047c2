#!/usr/bin/env python3
"""Kills and stops replicas, members of etcd and clients, again and again, while clients count under locks, and then
checks their answers, and what is left: the replicas are equal, no update is lost, each line got its own answer,
fencing tokens rose, and no two clients believed in conflicting locks at one time. The gate runs it for two minutes,
with 61 clients. For longer, with VLM_PREFIX=PREFIX for what `./vlm install PREFIX` left:
./faults.py --seconds 3600 --seed N"""

import argparse
import heapq
import random
import signal
import sys
import time
from pathlib import Path

from local import Local, start
from lock_client import Client
from witness import (NAMED, Witness, conflicts, fallen_tokens, left_behind, lost_updates, of_kind, others_answers,
                     statuses_after_kills, still_valid)
from worker import LEASE, LONG_LEASE, WRITERS

sys.path.insert(0, str(Path(__file__).resolve().parents[2] / "service" / "list"))
from etcd_list import EtcdList  # noqa: E402

MEMBERS, REPLICAS, KEEPERS, READERS, RACERS, CHUNK = 3, 3, 3, 8, 3, 60_000
# What stops at once: processes of a kind, how many of them, and for how many seconds.
GROUPS = {"majority": ("etcd", 2, 8.0), "replicas": ("replica", REPLICAS, 3.0)}
# How long the service may take to come to rest at the end.
REST = 40.0


class Run:
    """The processes of a run, and their faults."""

    def __init__(self, local, seed):
        self.local, self.seed = local, seed
        self.rng = random.Random(seed)
        self.witness = Witness()
        # A holder is a writer that holds its own counter.
        self.counts = dict.fromkeys(("member killed", "member emptied", "majority stopped", "replica killed",
                                     "replica stopped", "replicas stopped", "client killed", "holder killed",
                                     "client stopped"), 0)
        # What has a fault, and when and how it is mended.
        self._down = {}
        self._mending = []

    def start_worker(self, role, number):
        self.local.processes[f"{role} {number}"] = start(
            [sys.executable, str(Path(__file__).with_name("worker.py")), role, str(number), str(self.seed),
             str(self.witness.port), *map(str, self.local.ports)], self.local.folder / f"{role} {number}.log")

    def start_workers(self):
        """Keepers come first: what they hold keeps each value block."""
        for number in range(KEEPERS):
            self.start_worker("keeper", number)
        wait_until(lambda: self.witness.count("ready") == KEEPERS)
        for role, count in (("writer", WRITERS), ("reader", READERS), ("racer", RACERS)):
            for number in range(count):
                self.start_worker(role, number)
        wait_until(lambda: self.witness.count("hold") >= WRITERS)

    def make_faults(self, seconds):
        """Makes faults for this many seconds: all kinds in turn, each round in another order."""
        end, kinds = time.monotonic() + seconds, []
        while time.monotonic() < end:
            kinds = kinds or self.rng.sample(sorted(self.counts), len(self.counts))
            if self._make(kinds[-1]):
                self.counts[kinds.pop()] += 1
            pause = time.monotonic() + self.rng.uniform(0.3, 1.5)
            while time.monotonic() < pause:
                self._mend(time.monotonic())
                time.sleep(0.05)
        self._mend(float("inf"))

    def _make(self, kind):
        """Makes a fault, unless too much is down already: a majority of the members and one replica stay up. In the
        faults of several processes none else of their kind is down."""
        what, how = kind.split()
        if what in GROUPS:
            return self._stop_group(*GROUPS[what])
        role = {"member": "etcd", "holder": "writer", "client": self.rng.choice(("writer", "reader"))}.get(what, what)
        up = [name for name in self.local.processes if name.split()[0] == role and name not in self._down]
        if what == "holder":
            up = [name for name in up if name in self.witness.holders()]
        if len(up) <= {"etcd": MEMBERS - 1, "replica": 1}.get(role, 0):
            return False
        name, seconds = self.rng.choice(up), self.rng.uniform(0.5, 2 * LEASE if how == "stopped" else 3)
        self._down[name] = how
        if how == "stopped":
            self.local.signal(name, signal.SIGSTOP)
        elif how == "killed":
            self.local.kill(name)
        else:
            self.local.empty_member(int(name.split()[1]))
        heapq.heappush(self._mending, (time.monotonic() + seconds, name))
        return True

    def _stop_group(self, role, count, seconds):
        """Stops several processes of a kind at once."""
        names = [name for name in self.local.processes if name.split()[0] == role]
        if any(name in self._down for name in names):
            return False
        for name in self.rng.sample(names, count):
            self._down[name] = "stopped"
            self.local.signal(name, signal.SIGSTOP)
            heapq.heappush(self._mending, (time.monotonic() + seconds, name))
        return True

    def _mend(self, now):
        while self._mending and self._mending[0][0] <= now:
            name = heapq.heappop(self._mending)[1]
            role, number = name.split()
            how = self._down.pop(name)
            if how == "stopped":
                self.local.signal(name, signal.SIGCONT)
            elif how == "killed" and role in ("etcd", "replica"):
                {"etcd": self.local.start_member, "replica": self.local.start_replica}[role](int(number))
            elif how == "killed":
                self.start_worker(role, int(number))

    def ended(self):
        """The processes that ended by themselves."""
        return [name for name, process in self.local.processes.items() if process.poll() is not None]

    def come_to_rest(self):
        """Has the workers stop, and waits until all replicas are equal. One of them starts from the chunks. Returns
        what each shows."""
        self.local.kill("replica 0")
        self.local.start_replica(0)
        self.local.wait()
        workers = [name for name in self.local.processes if name.split()[0] in ("keeper", "writer", "reader", "racer")]
        for name in workers:
            self.local.signal(name, signal.SIGTERM)
        wait_until(lambda: self.witness.count("idle") >= len(workers), lambda: f"not idle: {self.ended()}")
        time.sleep(2 * LEASE)
        clients = [Client([place], LONG_LEASE) for place in self.local.places]
        shown = []

        def are_equal():
            before = list(shown)
            shown[:] = [[client.texts(line) for line in ("show", "tails", "locks")] for client in clients]
            return shown == before and all(it == shown[0] for it in shown)

        wait_until(are_equal, lambda: f"the replicas differ: {shown}")
        return shown[0]


def wait_until(is_so, told=lambda: ""):
    end = time.monotonic() + REST
    while not is_so():
        if time.monotonic() > end:
            raise TimeoutError(f"it takes too long: {told()}")
        time.sleep(0.2)


def problems(run, show):
    """What is wrong with a run, kind by kind."""
    told = run.witness.told()
    counters = {line.split(" name ")[1].split()[0]: line for line in show if line.startswith("resource ")}
    yield "conflicts", conflicts(told)
    yield "lost updates", lost_updates(told, counters)
    yield "fencing tokens that do not rise", fallen_tokens(told)
    yield "answers of other lines", others_answers(told)
    yield "locks of the dead", left_behind(told, show)
    yield "value blocks that stayed valid", still_valid(told)
    live = sum(len(it.entries) for it in unpacked(run.local.members))
    yield "the list in etcd is long", [live] if live > 4 * CHUNK else []
    yield "processes that ended by themselves", run.ended()
    yield "kinds of fault that were not made", [kind for kind, count in run.counts.items() if not count]
    yield "nothing was counted", [] if of_kind(told, "done") else ["no write was acknowledged"]
    yield "no races", [] if of_kind(told, "race") else ["no race was told"]


def unpacked(members):
    """The batches that are in no chunk."""
    store = EtcdList(members)
    revision = store.revision()
    return list(store.batches(0, revision))


def report(run):
    told = run.witness.told()
    print(f"faults: {', '.join(f'{kind} {count}' for kind, count in run.counts.items())}")
    print(f"{len(of_kind(told, 'done'))} acknowledged of {len(of_kind(told, 'try'))} writes, "
          f"{len(of_kind(told, 'hold'))} grants, {len(of_kind(told, 'ended'))} sessions ended under their clients, "
          f"{len(list(statuses_after_kills(told)))} writers killed while they held their counter, "
          f"{len(of_kind(told, 'race'))} races for a session", flush=True)


def main():
    parser = argparse.ArgumentParser(description=__doc__)
    parser.add_argument("--seconds", type=float, default=120, help="how long faults are made (%(default)s)")
    parser.add_argument("--seed", type=int, default=random.SystemRandom().randrange(1 << 32))
    words = parser.parse_args()
    print(f"seed {words.seed}, {words.seconds:g} seconds", flush=True)
    # (a signal that ends this process ends the others too)
    signal.signal(signal.SIGTERM, lambda *_: sys.exit(1))
    with Local(MEMBERS, REPLICAS, CHUNK) as local:
        try:
            wrong = list(tried(Run(local, words.seed), words.seconds))
        except (TimeoutError, AssertionError) as failed:
            wrong = [f"{type(failed).__name__}: {failed}"]
        print((local.logs() if wrong else "") + "".join(f"{it}\n" for it in wrong), end="")
    print(f"FAILED, seed {words.seed}" if wrong else "ok")
    return 1 if wrong else 0


def tried(run, seconds):
    """What is wrong with a run."""
    run.local.wait()
    run.start_workers()
    run.make_faults(seconds)
    show, _, _ = run.come_to_rest()
    report(run)
    for kind, found in problems(run, show):
        yield from (f"{kind}: {it}" for it in list(found)[:NAMED])


if __name__ == "__main__":
    sys.exit(main())
