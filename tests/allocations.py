"""Every worked script with each of its allocations refused in turn, until a run ends without a refusal. A script that
takes no AST runs once more with routines on its requests, which changes nothing of what it prints. A resource is
watched so too, and so are the tests that try again after a refusal."""

import functools
import os
import subprocess
from functools import partial

from harness import Ended, INTERPOSERS, SECONDS, STORED, Test
from scripts import stored_scripts
from units import is_built, names_of, tests_program

REFUSAL = b": INSFMEM\n"
# The longest run without one of its allocations.
LONGEST_SECONDS = 60
# The module of the tests that try again where memory was refused.
RETRIES = "tests::retries::"
# What refused allocations have to come to over all scripts, so that these tests can't pass by doing nothing.
WANTED = {
    "memory before any text",
    "memory after some text",
    "a declare refused",
    "an enq refused that changes the rest",
    "a cvt refused that changes the rest",
}
# The same over the script by which a resource is watched.
WANTED_OF_WATCH = {
    "memory before any text of a watch",
    "memory after some text of a watch",
    "a step of a watch refused",
}
# A step that changes nothing.
NOTHING = b"search node=1\n"
# The commands of requests, whose lines may name routines, and the words that name them.
REQUESTS = (b"enq", b"cvt")
ROUTINES = (b"ast=", b"bast=")


class Wrong(Exception):
    """A run that is not as it has to be."""


class Program:
    """A program and its words, with the interposer that refuses its allocations."""

    def __init__(self, *command):
        self.command = [str(word) for word in command]

    def run(self, script, number=0, and_all_after=False):
        """Runs a script without its allocation of this number, or without all from there on, which has to end sooner.
        Says whether the run came to it."""
        ended, report = self.reported(script, number, and_all_after)
        return ended, number != 0 and report != b""

    def count(self, script):
        """How many allocations a run with memory to spare makes."""
        return len(self.reported(script, 0, False)[1])

    def reported(self, script, number, and_all_after):
        """Runs a script, and reads what the interposer reports."""
        report, report_to = os.pipe()
        env = {"LD_PRELOAD": INTERPOSERS["refuse_allocation"](), "REFUSED": str(number), "REPORT": str(report_to)}
        if and_all_after:
            env["AND_ALL_AFTER"] = "1"
        with open(report, "rb") as reports:
            try:
                ended = subprocess.run(self.command, input=script, capture_output=True, env=env, pass_fds=[report_to],
                                       timeout=SECONDS if and_all_after else LONGEST_SECONDS)
            finally:
                os.close(report_to)
            return Ended(ended.returncode, ended.stdout, ended.stderr), reports.read()


class Script:
    """A script, its run with memory to spare, and what each number of its first lines prints."""

    def __init__(self, program, bytes_of_script):
        self.program = program
        self.lines = bytes_of_script.splitlines(keepends=True)
        self.whole, _ = program.run(bytes_of_script)
        self.texts = [program.run(b"".join(self.lines[:count]))[0].printed
                      for count in range(len(self.lines) + 1)]

    def refuse_each_allocation(self):
        """The kinds of outcome, one for each allocation."""
        kinds = []
        while True:
            number = len(kinds) + 1
            run, was_refused = self.program.run(b"".join(self.lines), number)
            try:
                if not was_refused:
                    expect(run, self.whole)
                    return kinds
                kinds.append(self.kind_of(run))
            except Wrong as wrong:
                raise Wrong(f"without allocation {number}: {wrong}") from wrong

    def kind_of(self, run):
        """The kind of a run that was refused one allocation."""
        if run == self.whole:
            return "nothing changed"
        if run.status != 3:
            return self.kind_of_refused_step(run)
        if run.told != b"memory\n" or run.printed not in self.texts:
            raise Wrong(f"{run} is not `memory` after the text of some first lines")
        return "memory after some text" if run.printed else "memory before any text"

    def kind_of_refused_step(self, run):
        """Checks that the run equals a run with a blank for the refused step, except for the answer INSFMEM."""
        printed = run.printed.splitlines(keepends=True)
        places = [place for place, line in enumerate(printed) if line.endswith(REFUSAL)]
        if len(places) != 1:
            raise Wrong(f"{run} has {len(places)} refused steps")
        place = places[0]
        number = self.line_that_prints(place)
        command, name = self.lines[number].split()[:2]
        blanked = self.lines[:number] + [b"\n"] + self.lines[number + 1:]
        without, _ = self.program.run(b"".join(blanked))
        rest = without.printed.splitlines(keepends=True)
        rest.insert(place, name + REFUSAL)
        expect(run, without._replace(printed=b"".join(rest)))
        if command == b"declare":
            return "a declare refused"
        if not may_want_memory(self.lines[number].split()):
            raise Wrong(f"{self.lines[number]} is refused memory")
        kind = "an enq refused" if command == b"enq" else "a cvt refused"
        whole = self.whole.printed.splitlines(keepends=True)
        if rest[place + 1:] == whole[place + 1:]:
            return kind
        return f"{kind} that changes the rest"

    def line_that_prints(self, place):
        """The index of the script's line whose text begins at this place of the printed lines."""
        counts = [text.count(b"\n") for text in self.texts]
        for number in range(len(self.lines)):
            if counts[number] == place < counts[number + 1]:
                return number
        raise Wrong(f"no line's text begins at printed line {place + 1}")


class WatchedScript(Script):
    """A script by which a resource is watched. A refused step prints the row of a resource that it left alone."""

    def kind_of(self, run):
        kind = super().kind_of(run)
        return f"{kind} of a watch" if kind.startswith("memory") else kind

    def kind_of_refused_step(self, run):
        """Checks that the run equals a run with a step that changes nothing in place of the refused one. A refused
        declaration takes the steps of its process with it."""
        for number in range(len(self.lines)):
            without, _ = self.program.run(b"".join(self.without(number)))
            if run == without:
                return "a step of a watch refused"
        raise Wrong(f"{run} is no run of the script without one of its steps")

    def without(self, number):
        """The lines, with one that changes nothing for the one at this index and for those that need it."""
        command, name = self.lines[number].split()[:2]
        lines = [NOTHING if command == b"declare" and line.split()[1] == name else line for line in self.lines]
        return lines[:number] + [NOTHING] + lines[number + 1:]


def may_want_memory(words):
    """Whether a request of these words may want memory: a new one, or a conversion that names a routine."""
    return words[0] == b"enq" or words[0] == b"cvt" and any(word.startswith(ROUTINES) for word in words)


def expect(run, wanted):
    if run != wanted:
        raise Wrong(f"{run} is not {wanted}")


def with_routines(line):
    """The line; of a request it names a completion and a blocking routine."""
    is_request = line.startswith(REQUESTS) and not any(word in line for word in ROUTINES)
    return line.rstrip(b"\n") + b" ast=8 bast=9\n" if is_request else line


@functools.lru_cache(maxsize=None)
def scripts():
    """The bytes of each script and what it prints, by its name. One that takes no AST comes with routines too."""
    found = {}
    for name, path, printed in stored_scripts():
        lines = path.read_bytes().splitlines(keepends=True)
        found[name] = b"".join(lines), printed.read_bytes()
        if not any(line.startswith(b"ast ") for line in lines):
            found[f"{name}, with routines"] = b"".join(map(with_routines, lines)), printed.read_bytes()
    return found


@functools.lru_cache(maxsize=None)
def kinds_of(program, name):
    """The kinds that a script's runs come to, one for each allocation."""
    script, printed = scripts()[name]
    tried = Script(Program(program, "play"), script)
    expect(tried.whole, Ended(0, printed, b""))
    return tried.refuse_each_allocation()


def refused(name, program):
    """What is wrong with a script's runs without one of their allocations."""
    try:
        kinds_of(program, name)
    except Wrong as wrong:
        yield wrong


def all_kinds_come(program):
    """Each kind of outcome comes in some script."""
    found = set()
    for name in scripts():
        try:
            found.update(kinds_of(program, name))
        except Wrong:
            continue
    yield from sorted(WANTED - found)


def watched_script():
    """The steps of the stored script, and what is printed of A in group 1 as they are made."""
    lines = [line for line in (STORED / "stdin").read_bytes().splitlines(keepends=True) if line != b"show\n"]
    rows = [(0, 0), (0, 0), (1, 0), (1, 1), (1, 0)]
    text = "".join(f"line {at + 1} held 0 0 0 0 0 {held} conversions 0 waiters {waiters} value {32 * '0'} valid\n"
                   for at, (held, waiters) in enumerate(rows))
    return b"".join(lines), text.encode()


def watch(program):
    """What is wrong with a watch without one of its allocations. Each kind of outcome has to come."""
    script, printed = watched_script()
    try:
        tried = WatchedScript(Program(program, "watch", "--name", "A", "--group", "1"), script)
        expect(tried.whole, Ended(0, printed, b""))
        yield from sorted(WANTED_OF_WATCH - set(tried.refuse_each_allocation()))
    except Wrong as wrong:
        yield wrong


def retry(crate, name, _program):
    """What is wrong with a test that tries again: it passes without any one of its allocations, and makes some."""
    number, was_refused = 0, True
    while was_refused:
        number += 1
        ended, was_refused = Program(tests_program(crate), name).run(b"", number)
        if ended.status != 0:
            yield f"it fails without allocation {number}"
            return
    if number == 1:
        yield "it allocates nothing"


def retries():
    """The tests that try again, of the test crates that are built."""
    return [Test(name, partial(retry, crate, name)) for crate in is_built() for name in names_of(crate)
            if name.startswith(RETRIES)]


def tests():
    each = [Test(name, partial(refused, name)) for name in scripts()]
    return each + [Test("each kind of outcome", all_kinds_come), Test("a watch", watch)]


def once():
    """Tests that run once, whatever the number of programs."""
    return retries()
