"""A cache protocol of eight threads. Each has a process of its own, and a lock on one resource.

A reader holds PR and a cached version, which it uses without asking anybody. A blocking routine tells it to give way. A
writer takes EX, and with it the last version from the value block. It hands the next version over in the value block.

Between turns all hold NL, which keeps the resource and its value block. With QUECVT a conversion queues behind those
that wait, so readers cannot keep a writer out.
"""

from threading import Barrier, Event, Thread

from vlm import Client, Event as Warning, Flags, Held, Mode, Shared

READERS, WRITERS, UPDATES = 6, 2, 200
SECONDS = 30.0

# What the lock guards.
stored = 0


def version_in(held: Held) -> int:
    """The version in the value block, as it was at the grant."""
    return int.from_bytes(held.value[:8], "little")


class Reader:
    """Caches the version while it holds PR."""

    def __init__(self, client: Client, start: Barrier, ended: Event) -> None:
        self.client, self.start, self.ended = client, start, ended
        self.stale = self.gave_way = 0
        self.is_told = Event()

    def give_way(self, event: Warning) -> None:
        """The blocking routine. It only notes: the lock is given up between two uses."""
        self.is_told.set()

    def run(self) -> None:
        with self.client.lock("cache", Mode.NL, blocking=self.give_way) as held:
            self.start.wait(SECONDS)
            while not self.ended.is_set():
                self.is_told.clear()
                held.convert(Mode.PR, SECONDS, flags=Flags.QUECVT)
                self.use(version_in(held))
                held.convert(Mode.NL)

    def use(self, cached: int) -> None:
        """Uses the cached version until a writer asks for the lock."""
        while not self.is_told.wait(0.01) and not self.ended.is_set():
            self.stale += cached != stored
        self.gave_way += self.is_told.is_set()


class Writer:
    """Makes new versions."""

    def __init__(self, client: Client, start: Barrier) -> None:
        self.client, self.start = client, start
        self.lost = 0

    def run(self) -> None:
        global stored
        with self.client.lock("cache", Mode.NL) as held:
            self.start.wait(SECONDS)
            for _ in range(UPDATES):
                held.convert(Mode.EX, SECONDS, flags=Flags.QUECVT)
                last = version_in(held)
                self.lost += not held.is_valid or last != stored
                stored = last + 1
                held.write(stored.to_bytes(8, "little"))
                held.convert(Mode.NL)


def run_all(threads: list[Thread], ended: Event) -> None:
    """Runs the threads. The readers come first, and end when the writers have."""
    for thread in threads:
        thread.start()
    for thread in threads[READERS:]:
        thread.join()
    ended.set()
    for thread in threads[:READERS]:
        thread.join()


def main() -> None:
    start, ended = Barrier(READERS + WRITERS), Event()
    with Shared() as shared:
        readers = [Reader(shared.declare(), start, ended) for _ in range(READERS)]
        writers = [Writer(shared.declare(), start) for _ in range(WRITERS)]
        with shared.declare().lock("cache", Mode.NL) as held:
            run_all([Thread(target=it.run) for it in (*readers, *writers)], ended)
            held.convert(Mode.PR)
            last = version_in(held)
        left = shared.look(lambda manager: len(list(manager.resources())))
    lost = sum(it.lost for it in writers)
    print(f"{WRITERS * UPDATES} updates, the last version is {last}, {lost} updates were lost")
    print(f"{sum(it.stale for it in readers)} stale reads")
    print(f"each reader gave way: {all(it.gave_way for it in readers)}")
    print(f"{left} resources left")


if __name__ == "__main__":
    main()
