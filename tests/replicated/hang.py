#!/usr/bin/env python3
"""Stops the leader of etcd for a while, under clients of the service, whose replicas ask the leader first, and under
plain puts at the other members. Fails if the longest time without a step is more than 1.5 times that without a put, or
if a session ends. Other programs may keep the machine busy in one try, so the best of a few tries counts. By hand,
with VLM_PREFIX=PREFIX for what `./vlm install PREFIX` left: ./hang.py"""

import argparse
import signal
import sys
import threading
import time

import etcd3
from etcd3.exceptions import ConnectionFailedError, ConnectionTimeoutError, InternalServerError
from local import Local
from lock_client import Client, SessionEnded

MEMBERS, REPLICAS = 3, 3
# How long all goes well before and after, and how long a member may take for a put.
WELL, PATIENCE = 3.0, 2.0
# How many times as long as puts steps may stand still.
MOST = 1.5


class Count:
    """When calls ended, how long the slowest took, tries that failed included, and how many sessions ended."""

    def __init__(self):
        self.ends, self.slowest, self.lost = [], 0.0, 0

    def longest_gap(self):
        ends = sorted(self.ends)
        return max(then - before for before, then in zip(ends, ends[1:]))

    def repeat(self, call, until):
        """Makes calls until a time. A put that fails is made again."""
        began = time.monotonic()
        while began < until:
            try:
                call()
            except SessionEnded:
                self.lost += 1
                return
            except (ConnectionFailedError, ConnectionTimeoutError, InternalServerError):
                continue
            now = time.monotonic()
            self.ends.append(now)
            self.slowest, began = max(self.slowest, now - began), now


def client_of(address):
    host, port = address.split(":")
    return etcd3.client(host, int(port), timeout=PATIENCE)


def leader(local):
    """The number of the member that leads."""
    led = client_of(local.members[0]).status().leader
    return next(at for at, address in enumerate(local.members) if f"http://{address}" in led.client_urls)


def stepping(local, number, seconds):
    """A client of the service, which locks a resource of its own and gives it up, in turn."""
    first = number % len(local.places)
    client = Client(local.places[first:] + local.places[:first], seconds)
    client.ask("declare P")

    def step():
        client.ask(("enq P EX name=own%d block=1" % number, "deq P @1")[client.number % 2])
        client.keep_alive()

    return step


def putting(address):
    client = client_of(address)
    return lambda: client.put(f"plain/{address}", "x" * 60)


def start(count, calls, until):
    threads = [threading.Thread(target=count.repeat, args=(call, until)) for call in calls]
    for thread in threads:
        thread.start()
    return threads


def ask_first(local, member):
    """Has the replicas ask a member first."""
    for number in range(REPLICAS):
        local.kill(f"replica {number}")
        local.start_replica(number, member)
    local.wait()


def measured(local, words):
    """Steps and puts while the leader hangs."""
    led = leader(local)
    others = [address for at, address in enumerate(local.members) if at != led]
    ask_first(local, led)
    calls = [stepping(local, number, words.lease) for number in range(words.clients)]
    steps, puts, until = Count(), Count(), time.monotonic() + words.seconds + 2 * WELL
    threads = start(steps, calls, until) + start(puts, map(putting, others), until)
    time.sleep(WELL)
    local.signal(f"etcd {led}", signal.SIGSTOP)
    time.sleep(words.seconds)
    local.signal(f"etcd {led}", signal.SIGCONT)
    for thread in threads:
        thread.join()
    return led, steps, puts


def one_try(words):
    """Lets the leader of new members hang once, and prints what was seen: whether the steps went on in time, and how
    many sessions ended."""
    with Local(MEMBERS, REPLICAS) as local:
        local.wait()
        led, steps, puts = measured(local, words)
        is_in_time = steps.longest_gap() <= MOST * puts.longest_gap()
        print("" if is_in_time and not steps.lost else local.logs(), end="")
        print(f"member {led} hung for {words.seconds:g} s, under {words.clients} clients")
        for name, it in (("steps", steps), ("puts", puts)):
            print(f"{name}: {len(it.ends)}, none for {it.longest_gap():.1f} s, slowest {it.slowest:.1f} s")
        print(f"{steps.lost} sessions ended")
    return is_in_time, steps.lost


def main():
    parser = argparse.ArgumentParser(description=__doc__)
    parser.add_argument("--clients", type=int, default=90, help="clients of the service (%(default)s)")
    parser.add_argument("--lease", type=int, default=5, help="seconds of their leases (%(default)s)")
    parser.add_argument("--seconds", type=float, default=12, help="how long the leader hangs (%(default)s)")
    parser.add_argument("--tries", type=int, default=3, help="tries at most, until one is in time (%(default)s)")
    words = parser.parse_args()
    signal.signal(signal.SIGTERM, lambda *_: sys.exit(1))
    for _ in range(words.tries):
        is_in_time, lost = one_try(words)
        if is_in_time or lost:
            break
    is_well = is_in_time and not lost
    print("ok" if is_well else "FAILED")
    return 0 if is_well else 1


if __name__ == "__main__":
    sys.exit(main())
