"""Names that an enemy chose: scripts whose 20,000 names of processes or of resources meet in an index, by the hasher of
the kit's maps, whose seed is fixed, or by the program's own with its fixed keys. Each takes at most one and a half
times the instructions of a script with other names, by each command. That the names do meet is shown too: where the
system's random bytes are zeros, they take more. Where there is no valgrind, processor time is compared instead. Where
the system gives no random bytes, a run of a script ends before it reads anything."""

import ctypes
import functools
import re
import resource
import shutil
import subprocess
import tempfile
from functools import partial
from typing import NamedTuple

from harness import Ended, INTERPOSERS, Once, SECONDS, Test, built_library, difference

NAMES = 20_000
# A run whose names meet costs at most this many times as much as another.
FACTOR = 1.5
# Counting instructions makes a run slower by some 50 times.
COUNTED_SECONDS = 120
LETTERS = b"ABCDEFGHIJKLMNOPQRSTUVWXYZ"
LENGTH = 7
# The group of all processes, and the resource that the last of them asks for.
GROUP, LAST = 1, "LAST"
WORD = (1 << 64) - 1
# The lowest bits of a hash say where the kit's map looks first. It then looks group by group until one is not full.
# With 20,000 names it has 2,048 groups of 12, and at last 4,096. Names whose hashes have these two bits clear all begin
# in the first quarter of the groups, and fill all groups after it.
CLEAR = 0x600


class Fold:
    """The hasher of the kit's maps: its state after what was written, which is the hash too."""

    MULTIPLIER = 0x9E37_79B9_7F4A_7C15

    def __init__(self, state=0x243F_6A88_85A3_08D3):
        self.state = state

    def write(self, data):
        size = len(data)
        if size >= 4:
            short = int.from_bytes(data[:4], "little") | int.from_bytes(data[-4:], "little") << 32
        else:
            short = data[0] | data[size // 2] << 8 | data[-1] << 16
        product = (self.state ^ short) * (self.MULTIPLIER ^ 2 * size)
        return Fold(product & WORD ^ product >> 64)

    def finish(self):
        return self.state


# SipHash with both keys 0, before it takes anything in.
START = (0x736F_6D65_7073_6575, 0x646F_7261_6E64_6F6D, 0x6C79_6765_6E65_7261, 0x7465_6462_7974_6573)


class Sip:
    """SipHash-1-3 with both keys 0, after what was written: its four words, and the bytes since the last
    whole word."""

    def __init__(self, words=START, tail=b"", size=0):
        self.words = words
        self.tail = tail
        self.size = size

    def write(self, data):
        words, tail = self.words, self.tail + data
        while len(tail) >= 8:
            words, tail = taken(words, int.from_bytes(tail[:8], "little")), tail[8:]
        return Sip(words, tail, self.size + len(data))

    def finish(self):
        last = (self.size & 0xFF) << 56 | int.from_bytes(self.tail, "little")
        return finished(taken(self.words, last))


def taken(words, word):
    """The words of SipHash after it takes in a word."""
    a, b, c, d = words
    a, b, c, d = sip_round(a, b, c, d ^ word)
    return a ^ word, b, c, d


def finished(words):
    """The hash of what SipHash has taken in."""
    a, b, c, d = words
    a, b, c, d = sip_round(*sip_round(*sip_round(a, b, c ^ 0xFF, d)))
    return a ^ b ^ c ^ d


def sip_round(a, b, c, d):
    """One round of SipHash."""
    a = a + b & WORD
    c = c + d & WORD
    b = (b << 13 | b >> 51) & WORD ^ a
    d = (d << 16 | d >> 48) & WORD ^ c
    a = (a << 32 | a >> 32) & WORD
    c = c + b & WORD
    a = a + d & WORD
    b = (b << 17 | b >> 47) & WORD ^ c
    d = (d << 21 | d >> 43) & WORD ^ a
    return a, b, (c << 32 | c >> 32) & WORD, d


def folded(number):
    """A hash as the kit's map takes it: its halves in one."""
    return number ^ number >> 32


def names(hasher, clear):
    """Names in the order of the alphabet whose hashes have these bits clear, after what was written to the hasher."""
    def after(begun):
        if len(begun) < LENGTH:
            for letter in LETTERS:
                yield from after(begun + bytes([letter]))
        elif not folded(hasher.write(begun).finish()) & clear:
            yield begun.decode()

    found = after(b"")
    return [next(found) for _ in range(NAMES)]


def meeting_names():
    """Names that meet in the index of resources with both keys 0. Six bits of a hash choose one of the index's 64
    parts, and these names have one part to themselves."""
    found = (ctypes.c_uint64 * NAMES)()
    find = ctypes.CDLL(built_library("names/meeting_names.c")).meeting_names
    find.argtypes = [ctypes.c_uint64, ctypes.c_uint32, ctypes.c_uint32, ctypes.c_void_p, ctypes.c_uint64]
    find(256 * GROUP + LENGTH, 63 << 10, CLEAR, found, NAMES)
    return [number.to_bytes(8, "little")[:LENGTH].decode() for number in found]


@Once
def resources():
    """The names of resources that were not chosen, and those that were."""
    return {"none": names(Sip(), 0), "the fixed keys": meeting_names()}


@Once
def processes():
    """The names of processes that were not chosen, and those that were, by what they meet in. A run that has keys
    hashes these before a name."""
    return {"none": names(Sip(), 0), "the hasher of the kit's maps": names(Fold(), CLEAR),
            "the fixed keys": names(Sip(), CLEAR), "keys of zeros": names(Sip().write(bytes(16)), CLEAR)}


def declared(name):
    return f"declare {name} node=1 group={GROUP} quota=65535 blocks=1"


class Names(NamedTuple):
    """Names of processes or of resources, and the words that run their script. The last step asks for LAST."""

    of: str
    kind: str
    words: tuple

    def script(self):
        if self.of == "processes":
            found = processes()[self.kind]
            lines, last = [declared(name) for name in found], found[-1]
        else:
            lines = [declared("P"), *(f"enq P EX name={name} block=1" for name in resources()[self.kind])]
            last = "P"
        return "".join(line + "\n" for line in [*lines, f"enq {last} EX name={LAST} block=1"]).encode()

    def is_whole(self, printed):
        """Whether each step was made: the last lock is granted, and there are as many lines as steps."""
        steps, lock = (NAMES + 1, 1) if self.of == "processes" else (NAMES + 2, NAMES + 1)
        # (a cluster also prints the answer to the departure, and the length of the journal)
        lines = steps + 2 * (self.words[0] == "cluster")
        granted = f"line {steps} held 0 0 0 0 0 1 " if self.words[0] == "watch" else f" NORMAL lock {lock}\n"
        return printed.count(b"\n") == lines and granted.encode() in printed


def ran(command, text, is_whole, seconds, **how):
    """A run of a script, which has to make each step."""
    run = subprocess.run(command, input=text, capture_output=True, timeout=seconds, **how)
    if run.returncode != 0 or not is_whole(run.stdout):
        raise OSError(f"status {run.returncode}, {run.stdout[-80:]!r} and {run.stderr[-80:]!r}")
    return run


def instructions(command, text, is_whole, **how):
    """How many instructions a run takes, by valgrind."""
    counted = ["valgrind", "--tool=cachegrind", "--cache-sim=no", "--cachegrind-out-file=/dev/null", *command]
    told = ran(counted, text, is_whole, COUNTED_SECONDS, **how).stderr.decode()
    return int(re.search(r"I\s+refs:\s+([\d,]+)", told)[1].replace(",", ""))


def processor_time(command, text, is_whole, **how):
    """The least processor time of five runs."""
    def one():
        before = resource.getrusage(resource.RUSAGE_CHILDREN).ru_utime
        ran(command, text, is_whole, SECONDS, **how)
        return resource.getrusage(resource.RUSAGE_CHILDREN).ru_utime - before

    return min(one() for _ in range(5))


COST = instructions if shutil.which("valgrind") else processor_time


@functools.lru_cache(maxsize=None)
def cost(program, chosen, has_zeros=False):
    """What a run costs, with random keys or with keys of zeros."""
    how = {"env": {"LD_PRELOAD": INTERPOSERS["zero_random_bytes"]()}} if has_zeros else {}
    return COST([program, *chosen.words], chosen.script(), chosen.is_whole, **how)


def dearer(chosen, program):
    """What is wrong with the cost of a run whose names meet in what no run uses."""
    bound, found = FACTOR * cost(program, chosen._replace(kind="none")), cost(program, chosen)
    if found > bound:
        yield f"it takes {found:,}, and {bound:,} at most were wanted"


def cheap(chosen, program):
    """What is wrong with the names: where the keys are zeros, those that meet there are dear."""
    bound, found = FACTOR * cost(program, chosen._replace(kind="none")), cost(program, chosen, True)
    if found <= bound:
        yield f"they do not meet: a run with keys of zeros takes {found:,}, and more than {bound:,} was wanted"


def without_random_bytes(words, status, program):
    """What is wrong with a run where the system gives no random bytes: status 3 comes with a line of its own."""
    with tempfile.TemporaryFile() as text:
        text.write(b"show\n")
        text.seek(0)
        env = {"LD_PRELOAD": INTERPOSERS["no_random_bytes"]()}
        ended = subprocess.run([program, *words], stdin=text, capture_output=True, env=env, timeout=SECONDS)
        if text.seek(0, 1) != 0:
            yield "some of the script is read"
    if status == 3:
        yield from difference(Ended(ended.returncode, ended.stdout, ended.stderr),
                              Ended(3, b"", b"no random bytes\n"))
    elif ended.returncode != status or b"random" in ended.stdout + ended.stderr:
        yield f"{ended}"


COMMANDS = (("play",), ("cluster", "--nodes", "1"), ("watch", "--name", LAST, "--group", str(GROUP)))
KINDS = {"processes": ("the hasher of the kit's maps", "the fixed keys", "keys of zeros"),
         "resources": ("the fixed keys",)}
ZEROS = {"processes": "keys of zeros", "resources": "the fixed keys"}


def tests():
    met = [Test(f"{words[0]}: names of {of} that meet in {kind}", partial(dearer, Names(of, kind, words)))
           for words in COMMANDS for of, kinds in KINDS.items() for kind in kinds]
    met += [Test(f"{words[0]}: names of {of} that are dear with keys of zeros", partial(cheap, Names(of, kind, words)))
            for words in COMMANDS for of, kind in ZEROS.items()]
    runs = [("play", ["play"], 3), ("cluster", ["cluster"], 3), ("watch", ["watch", "--name", "A"], 3),
            ("a wrong name", ["watch", "--name="], 2), ("help", ["--help"], 0), ("refused words", ["frob"], 2)]
    return met + [Test(f"{name} without random bytes", partial(without_random_bytes, words, status))
                  for name, words, status in runs]
