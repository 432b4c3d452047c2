#!/usr/bin/env python3
"""Clients that hold locks keep their leases alive, and others wait for the same locks, while something hangs. Fails if
one of the others is granted a lock while its holder's lease goes on, by the lease rule: it lasts from before the holder
sent the last line that was answered. A busy machine can't bring that about: a client that is late reads a later time at
its grant, and has counted its lease from an earlier one.

Fails also if sessions end although their clients do not hang, or go on although they do. On a busy machine that has to
be so in each of a few tries: there the members of etcd or the clients may be late by more than a lease, and the service
then ends sessions as it should. For long, with VLM_PREFIX=PREFIX: ./leases.py --runs 15"""

import argparse
import os
import signal
import sys
import threading
import time

from hang import leader
from local import Local
from lock_client import Client, SessionEnded

MEMBERS, REPLICAS = 3, 3
LEASE, TRIES = 5, 3
# A machine is busy if more programs than this want to run for each processor, by the load of the last minute. This test
# alone has fewer than one.
BUSY = 2
# How long all goes well before something hangs, and after it. Leases that end have ended by then.
BEFORE, AFTER = 2.0, LEASE + 3.0
# What hangs, and for how many seconds. A client that hangs for longer than its lease loses it, but not at once: its
# session ends one to two seconds later.
FAULTS = {"leader": 6.0, "leader for long": 12.0, "majority": 8.0, "replica": 12.0, "all replicas": 8.0,
          "clients": 2 * LEASE + 2.0, "nothing": 0.0}


class Pair:
    """A client that holds EX on a resource, and one that waits for it."""

    def __init__(self, places, name):
        self.holder, self.other = (Client(it, LEASE) for it in (places, places[1:] + places[:1]))
        # Until when the holder hangs, when the other one was granted, and whether their sessions ended.
        self.hangs_until, self.granted = 0.0, None
        self.holder_ended = self.other_ended = False
        self.is_over, self.threads = threading.Event(), []
        for client, words, keep in ((self.holder, "", self.hold), (self.other, "ast=1", self.wait)):
            client.ask("declare P")
            client.ask(f"enq P EX name={name} block=1 {words}")
            # (at once: on a busy machine it may take longer than a lease until all pairs are made)
            self.threads.append(threading.Thread(target=keep, daemon=True))
            self.threads[-1].start()

    def hold(self):
        """Keeps the holder's lease alive, except while it hangs."""
        try:
            while not self.is_over.wait(max(0.2, self.hangs_until - time.monotonic())):
                self.holder.keep_alive()
        except SessionEnded:
            self.holder_ended = True

    def wait(self):
        """Waits until the other one is granted the lock."""
        try:
            while self.granted is None and not self.is_over.is_set():
                if self.other.next_ast(0.5):
                    self.granted = time.monotonic()
        except SessionEnded:
            self.other_ended = True

    def end(self):
        """Waits until neither client goes on."""
        self.is_over.set()
        for thread in self.threads:
            thread.join()

    @property
    def overlap(self):
        """For how many seconds both held the lock, by the lease rule."""
        return 0.0 if self.granted is None else max(0.0, self.holder.lease_until - self.granted)


def stopped_by(local, fault):
    """The processes that hang."""
    names = {"majority": ["etcd 0", "etcd 1"], "replica": ["replica 0"],
             "all replicas": [f"replica {number}" for number in range(REPLICAS)]}
    return names.get(fault) or [f"etcd {leader(local)}"]


def hang(local, fault, pairs):
    """Has something hang."""
    seconds = FAULTS[fault]
    names = [] if fault in ("clients", "nothing") else stopped_by(local, fault)
    for pair in pairs if fault == "clients" else ():
        pair.hangs_until = time.monotonic() + seconds
    for name in names:
        local.signal(name, signal.SIGSTOP)
    time.sleep(seconds)
    for name in names:
        local.signal(name, signal.SIGCONT)


def run(local, fault, pairs, number, attempt):
    """Pairs under a fault. Returns which pairs held a lock both, and what else was not as expected."""
    first = [number + at for at in range(pairs)]
    # (the sessions of the fault before have not ended yet: names of their own, or these holders would wait for them)
    names = [f"{fault.replace(' ', '-')}{number}-{attempt}-{at}" for at in first]
    made = [Pair(local.places[at % REPLICAS:] + local.places[:at % REPLICAS], name) for at, name in zip(first, names)]
    time.sleep(BEFORE)
    hang(local, fault, made)
    time.sleep(AFTER)
    for pair in made:
        pair.end()
    overlaps = [pair.overlap for pair in made if pair.overlap]
    # How many holders' sessions ended, and others' sessions, and how many of the others were granted.
    found = [sum(pair.holder_ended for pair in made), sum(pair.other_ended for pair in made),
             sum(pair.granted is not None for pair in made)]
    told = "of {} pairs {} holders' and {} others' sessions ended, {} others were granted".format(pairs, *found)
    print(f"{fault}: {told}, {len(overlaps)} overlaps", flush=True)
    # Those that go on lose nothing, and those that hang for longer than their leases lose their locks.
    expected = [pairs, 0, pairs] if fault == "clients" else [0, 0, 0]
    return ([f"both held a lock for {seconds:.1f} s" for seconds in overlaps],
            [] if found == expected else [f"{told}, not {expected}"])


def is_busy():
    """Whether other programs keep the machine busy."""
    return os.getloadavg()[0] > BUSY * (os.cpu_count() or 1)


def wrong_of(local, fault, pairs, number):
    """What is wrong under a fault; on a busy machine, in the best of a few tries."""
    for attempt in range(TRIES):
        overlaps, unexpected = run(local, fault, pairs, number, attempt)
        if overlaps or not unexpected or not is_busy():
            break
    return overlaps + unexpected


def main():
    parser = argparse.ArgumentParser(description=__doc__)
    parser.add_argument("--pairs", type=int, default=30, help="pairs of clients (%(default)s)")
    parser.add_argument("--runs", type=int, default=1, help="how often each fault comes (%(default)s)")
    parser.add_argument("--fault", choices=FAULTS, action="append", help="what hangs (each of them)")
    words = parser.parse_args()
    signal.signal(signal.SIGTERM, lambda *_: sys.exit(1))
    wrong = []
    with Local(MEMBERS, REPLICAS) as local:
        local.wait()
        for number in range(words.runs):
            for fault in words.fault or FAULTS:
                wrong += [f"{fault}: {it}" for it in wrong_of(local, fault, words.pairs, number)]
        print("\n".join([local.logs(), *wrong, "FAILED"]) if wrong else "ok")
    return 1 if wrong else 0


if __name__ == "__main__":
    sys.exit(main())
