"""The lock service at edges that its pages name: lines of a turn, bytes that nobody reads, members of the groups of the
configuration, keys, usual times, programs for threads whose calls are renamed, what the dispatcher takes from the
system, and the unit."""

import contextlib
import os
import re
import shutil
import socket
import subprocess
import tempfile
import time
from pathlib import Path

import library
from daemons import NOBODY, SANITIZED, SECONDS, Daemon, compiled, over_dispatcher
from harness import ROOM, TOP, Once, Test, difference
from service_replicas import until

# Groups of no user of the system.
FIRST, SECOND, LOCKERS, ADMINISTRATORS = range(50001, 50005)
# A user's further groups; then its UIC group, whether it has SYSLCK, and whether it is an administrator.
MEMBERS = (((), 9, False, False), ((SECOND,), 8, False, False), ((SECOND, FIRST), 7, False, False),
           ((LOCKERS,), 9, True, False), ((ADMINISTRATORS,), 9, False, True))


def members(_program):
    """What is wrong with the rights of a user that come from groups beside its own one: the UIC group of the first row
    that has it, SYSLCK, and those of an administrator."""
    settings = (f"group {FIRST} 7", f"group {SECOND} 8", f"group {NOBODY} 9", f"syslck {LOCKERS}",
                f"admin {ADMINISTRATORS}")
    with Daemon(*settings) as daemon:
        for groups, group, has_syslck, is_admin in MEMBERS:
            with daemon.client(NOBODY, groups).begin("P") as client:
                client.ask("enq P EX name=A block=1")
                found = (client.ask_all("who A")[0].split()[3], client.ask("enq P EX name=S block=2 system").split()[1],
                         client.ask("kill 0000000000000000"))
                wanted = (str(group), "NORMAL" if has_syslck else "NOSYSLCK",
                          "no such session" if is_admin else "not allowed")
                yield from difference((groups, *found), (groups, *wanted))


def flood(client, line=b"block P 1\n"):
    """Sends lines until nothing more is taken, and reads no answers. Returns how many were sent."""
    client.socket.setblocking(False)
    sent = 0
    try:
        while True:
            sent += client.socket.send(line * 1000)
    except OSError:
        client.socket.settimeout(SECONDS)
        return sent // len(line)


def is_at_rest(daemon):
    """Whether a daemon makes no steps: it runs lines of each client in each turn."""
    return len({daemon.metric("steps_total") for _ in range(5)}) == 1


def answers(client):
    """How many lines come until the connection ends, once no more are sent."""
    with contextlib.suppress(OSError):
        client.socket.shutdown(socket.SHUT_WR)
    count = 0
    while client.line() is not None:
        count += 1
    return count


def queued(_program):
    """What is wrong where two clients of a user read nothing: more bytes wait for both than the user may have, so one
    of them is cut off, and the other one gets all its answers."""
    with Daemon("queued 100000") as daemon, daemon.client().begin("P") as one, daemon.client().begin("P") as two:
        sent = [flood(one), flood(two)]
        yield from difference(until(lambda: daemon.metric("clients_cut_off_total") == 1, SECONDS), True)
        if "is cut off: too many bytes wait for its user" not in daemon.log.read_text():
            yield "the log does not say why"
        whole = [answers(client) == count for client, count in zip((one, two), sent)]
        yield from difference(sum(whole), 1)


def told_of_queued(_program):
    """What is wrong where a client that reads is cut off since another one of its user does not: it is told why."""
    with Daemon("queued 80000") as daemon, daemon.client().begin("P") as one, daemon.client().begin("P") as two:
        for name in range(400):
            two.ask(f"enq P NL name=N{name} block=1")
        flood(one, b"deq P 999999\n")
        yield from difference(until(lambda: is_at_rest(daemon), SECONDS), True)
        yield from difference(two.ask_all("show")[-1:], ["too many bytes"])
        yield from difference((answers(two), daemon.metric("clients_cut_off_total")), (0, 1))


def turns(_program):
    """What is wrong with the lines of a turn, and with the bytes that wait in the dispatcher for a client that does not
    read."""
    made, wrong = over_dispatcher("turns", "turns.c", "cc", *SANITIZED)
    yield from wrong or library.ran(made)


def turn_times(_program):
    """What is wrong with the time that turns take."""
    made, wrong = over_dispatcher("turn times", "turn_times.c", "cc", "-O2")
    yield from wrong or library.ran(made)


# Goes between the daemon and the library, and tells the keys of each lock manager.
TELLS_KEYS = """#include <stdio.h>
#include <vlm.h>
uint32_t __real_vlm_open(vlm *handle, const vlm_options *options);
uint32_t __wrap_vlm_open(vlm *handle, const vlm_options *options);
uint32_t __wrap_vlm_open(vlm *handle, const vlm_options *options) {
    fprintf(stderr, "keys %u ", (unsigned)options->has_keys);
    for (size_t at = 0; at < sizeof options->keys; at++)
        fprintf(stderr, "%02x", options->keys[at]);
    fputs("\\n", stderr);
    return __real_vlm_open(handle, options);
}
"""


def telling():
    """A daemon that tells its keys."""
    source = Path(ROOM().name) / "keys.c"
    source.write_text(TELLS_KEYS)
    return compiled("vlmd that tells its keys", "-O1", "-Wl,--wrap=vlm_open", source)


def keys(_program):
    """Each daemon hashes names by keys of its own, also after a change of managers."""
    made, found = Once(telling), []
    for _ in range(2):
        with Daemon("identifications 100", made=made) as daemon, daemon.client().begin("P") as client:
            for _ in range(90):
                client.ask("enq P EX name=A block=1")
                client.ask("deq P @1")
            yield from difference(daemon.metric("epoch"), 1)
            found.append(re.findall(r"^keys 1 ([0-9a-f]{32})$", daemon.log.read_text(), re.M))
    yield from difference(([len(it) for it in found], [len(set(it)) for it in found], len({it[0] for it in found})),
                          ([2, 2], [1, 1], 2))


def usual_search(_program):
    """Without a setting a deadlock ends after a second."""
    with Daemon() as daemon, daemon.client().begin("P") as one, daemon.client().begin("Q") as other:
        for client, line in ((one, "enq P EX name=A block=1"), (other, "enq Q EX name=B block=1"),
                             (one, "enq P EX name=B block=2 ast=1"), (other, "enq Q EX name=A block=2 ast=2")):
            client.ask(line)
        began = time.monotonic()
        yield from difference(other.line(), "Q: completion 2 param 0 lock 4")
        if not 0.8 < time.monotonic() - began < 10:
            yield f"it stood for {time.monotonic() - began:.2f} seconds"


def since_when(_program):
    """`who` says for how many seconds a lock has been as it is."""
    with Daemon() as daemon, daemon.client().begin("P") as client:
        client.ask("enq P EX name=A block=1")
        time.sleep(1.2)
        yield from difference(1 <= int(client.ask_all("who A")[0].split()[12]) < 20, True)
        client.ask("cvt P @1 PR block=1")
        yield from difference(client.ask_all("who A")[0].split()[4:7] + [client.ask_all("who A")[0].split()[12]],
                              ["PR", "-", "granted", "0"])


def renamed(_program):
    """What is wrong with programs for threads whose calls have the names of vlm_client.h: they print over a daemon what
    they print in one process."""
    shared = set(re.findall(r"\bvlm_client_(\w+)\(", (TOP / "include" / "vlm_client.h").read_text()))
    tried = 0
    for source in sorted((TOP / "examples" / "c").glob("*.c")):
        text = source.read_text()
        if not (calls := set(re.findall(r"\bvlm_threads_(\w+)\(", text))) or calls - shared:
            continue
        tried += 1
        text = re.sub(r"\bvlm_threads_(\w+)\(", r"vlm_client_\1(", text).replace("vlm_threads.h", "vlm_client.h")
        # (a process of a client is tied to no thread)
        text = re.sub(r"\bvlm_threads( \*|_options\b)", r"vlm_client\1", text).replace(", .tied = 1", "")
        made = Path(ROOM().name) / f"renamed {source.stem}"
        made.with_suffix(".c").write_text(text)
        wrong = list(library.ran("cc", "-std=gnu11", "-O1", "-g", *SANITIZED, f"-I{library.prefix()}/include",
                                 made.with_suffix(".c"), library.prefix() / "lib" / "libvlm.a", "-pthread", "-o", made))
        yield from wrong
        if wrong:
            continue
        with Daemon() as daemon:
            ended = subprocess.run([made], capture_output=True, text=True, timeout=60,
                                   env={**os.environ, "VLM_SOCKET": daemon.socket})
        yield from difference((source.name, ended.returncode, ended.stdout),
                              (source.name, 0, source.with_suffix(".out").read_text()))
    if tried < 4:
        yield f"only {tried} programs were tried"


# What the dispatcher may take from the C library: memory, text, and the end of a replica that lacks memory.
TAKEN = {"malloc", "calloc", "realloc", "free", "memchr", "memcmp", "memcpy", "memmove", "memset", "strlen", "strtoull",
         "snprintf", "vsnprintf", "exit"}


def alone(_program):
    """What is wrong with what the files of the dispatcher take from elsewhere: they have no input and output, and no
    clock."""
    names = re.findall(r"^ \* (\w+\.c) ", (TOP / "service" / "parts.h").read_text(), re.M)
    folder = Path(tempfile.mkdtemp(dir=ROOM().name))
    wrong = list(library.ran("cc", "-std=gnu11", "-O1", "-fno-stack-protector", f"-I{library.prefix()}/include", "-c",
                             *(TOP / "service" / name for name in names), cwd=folder))
    yield from wrong
    rows = [line.split() for line in subprocess.run(["nm", *sorted(folder.glob("*.o"))], capture_output=True, text=True,
                                                    check=True).stdout.splitlines()]
    own = {row[-1] for row in rows if len(row) == 3}
    asked = {row[1] for row in rows if len(row) == 2 and row[0] == "U"} - own
    asked = {name for name in asked if not name.startswith(("vlm_", "_GLOBAL_OFFSET_TABLE_"))}
    if len(names) < 15 or "malloc" not in asked:
        yield f"the files are {names}, and take {sorted(asked)}"
    yield from (f"they take {name}" for name in sorted(asked - TAKEN))


def sandboxed(_program):
    """The unit is as closed as systemd can tell, except that the daemon sees the users of its clients."""
    unit = TOP / "service" / "systemd" / "vlmd.service"
    yield from library.ran("systemd-analyze", "security", "--offline=yes", "--threshold=6", unit)
    if "PrivateUsers" in unit.read_text():
        yield "PrivateUsers hides them"


def tests():
    checks = {"a user with too many queued bytes": queued,
              "a client that reads, beside too many queued bytes": told_of_queued,
              "turns, and bytes that nobody reads": turns,
              "the time of turns": turn_times,
              "keys of a daemon": keys, "a usual search for deadlocks": usual_search,
              "since when a lock is": since_when, "programs whose calls are renamed": renamed,
              "the dispatcher without input and output": alone}
    return [Test(name, check) for name, check in checks.items()] \
        + [Test("members of groups", members)] * (os.getuid() == 0) \
        + [Test("the unit for systemd", sandboxed)] * bool(shutil.which("systemd-analyze"))
