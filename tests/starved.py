"""Memory and threads that are refused for good. From each allocation of a run on, all are refused, in every thread; and
each thread that a run starts is refused. The run has to end in time, with `memory` or with the whole right output. One
fails if it waits for what never comes or tries again for ever: if a hub whose journal can't grow says that it is idle,
if a worker whose items can't grow rests and looks again, or if a cut that is refused is put off until there is room."""

import functools
import itertools
import subprocess
from contextlib import contextmanager
from functools import partial

from allocations import NOTHING, Program, REFUSAL, Wrong, expect, may_want_memory, scripts, watched_script
from harness import Ended, INTERPOSERS, SECONDS, Test, difference, run
from scripts import CLUSTERS

MEMORY = Ended(3, b"", b"memory\n")
# The commands that print lists, and how a line of the list begins.
LISTS = {b"show": (b"resource ", b"  "), b"tails": (b"tail ",)}
# How many places of a script of `play` are tried at most.
PLACES = 50
# What the runs of all scripts of `play` have to come to, so that these tests can't pass by doing nothing.
WANTED = {
    "memory after no text",
    "memory after some text",
    "memory after refused steps",
    "the end after refused steps",
    "the fault of a name whose declaration was refused",
}
# Entries of a journal after which the program cuts a part off, and the nodes of the cluster that makes them.
PART, NODES = 65_536, 8
# The list of parts grows at one of the last places of that run. After it come the growths of the next part, one for the
# items of each worker, and those of the text.
LAST = 40


def starved(program, script, number):
    """A run that is refused all memory from this allocation on, and whether it came to it."""
    try:
        return program.run(script, number, and_all_after=True)
    except subprocess.TimeoutExpired:
        raise Wrong(f"it does not end in {SECONDS} seconds") from None


@contextmanager
def all_refused_from(number):
    """Says of what is wrong from which allocation on all were refused."""
    try:
        yield
    except Wrong as wrong:
        raise Wrong(f"without all allocations from {number} on: {wrong}") from wrong


def makes_step(words):
    """Whether a line of these words is neither blank nor a comment."""
    return words and not words[0].startswith(b"#")


def lines_printed(words, texts):
    """How many of these printed lines, at the first, are the text of a line of a script."""
    if not makes_step(words):
        return 0
    if words[0] not in LISTS or texts[0] == b"no resources\n":
        return 1
    return sum(1 for _ in itertools.takewhile(lambda text: text.startswith(LISTS[words[0]]), texts))


class Played:
    """A script of `play`, and its runs with memory to spare, by their lines."""

    def __init__(self, path, script):
        self.program = Program(path, "play")
        self.script = script
        self.lines = script.splitlines(keepends=True)
        # Until the first line is run all runs are those of an empty script, whose every place is tried.
        self.first = 1 + (self.program.count(b"") if script else 0)
        self.count = self.program.count(script)
        self.found = {}

    def ample(self, lines):
        """The run of some lines with memory to spare."""
        script = b"".join(lines)
        if script not in self.found:
            self.found[script], _ = self.program.run(script)
        return self.found[script]

    def kinds(self):
        """The kinds of outcome."""
        places = range(self.first, self.count + 1, 1 + (self.count - self.first) // PLACES)
        return {self.kind_from(number) for number in places}

    def kind_from(self, number):
        """The kind of a run that is refused all memory from this allocation on."""
        with all_refused_from(number):
            run, was_refused = starved(self.program, self.script, number)
            if was_refused:
                return self.kind_of(run)
            # The keys of the indexes differ from run to run, and with them how often an index grows.
            expect(run, self.ample(self.lines))
            return "nothing was refused"

    def kind_of(self, run):
        """Checks that a run equals one with blanks for the refused steps, except for their answers INSFMEM. A run that
        ended early printed the text of some first lines."""
        refused, count = self.refused_lines(run.printed)
        lines = [b"\n" if number in refused.values() else line for number, line in enumerate(self.lines)]
        ample = self.ample(lines[:count] if run.status == 3 else lines)
        printed = ample.printed.splitlines(keepends=True)
        for place, number in refused.items():
            printed.insert(place, self.lines[number].split()[1] + REFUSAL)
        text = b"".join(printed)
        if run.status == 3:
            expect(run, MEMORY._replace(printed=text))
            expect(ample.status, 0)
            return "memory after refused steps" if refused else f"memory after {'some' if text else 'no'} text"
        expect(run, ample._replace(printed=text))
        if run.status == 1:
            return "the fault of a name whose declaration was refused"
        return "the end after refused steps" if refused else "nothing changed"

    def refused_lines(self, printed):
        """The numbers of the lines whose steps were refused, by the place of the answer among the printed lines, and
        how many lines printed all of them."""
        texts, place, refused = printed.splitlines(keepends=True), 0, {}
        for number, line in enumerate(self.lines):
            if place == len(texts):
                return refused, number
            words = line.split()
            if makes_step(words) and texts[place].endswith(REFUSAL):
                if words[0] != b"declare" and not may_want_memory(words):
                    raise Wrong(f"{line} is refused memory")
                refused[place] = number
            place += lines_printed(words, texts[place:])
        return refused, len(self.lines)


@functools.lru_cache(maxsize=None)
def kinds_of(program, name):
    """The kinds that a script's runs come to."""
    return Played(program, scripts()[name][0]).kinds()


def play(name, program):
    """What is wrong with a script's runs without all allocations from one on."""
    try:
        kinds_of(program, name)
    except Wrong as wrong:
        yield wrong


def all_kinds_come(program):
    """Each kind of outcome comes in some script."""
    found = set()
    for name in scripts():
        try:
            found.update(kinds_of(program, name))
        except Wrong:
            continue
    yield from sorted(WANTED - found)


def search_script(nodes, each):
    """The words and the script by which each node makes this many searches, and how the run of a cluster ends."""
    script = b"".join(b"search node=%d\n" % node for node in range(1, nodes + 1)) * each
    told = [f"node {node} item {number}: {'victim none' if number <= each else 'NORMAL'}\n"
            for node in range(1, nodes + 1) for number in range(1, each + 2)]
    printed = "".join(told) + f"journal {nodes * (each + 1)}\n"
    return ["--nodes", str(nodes)], script, Ended(0, printed.encode(), b"")


def clusters():
    """Clusters by their names: their words, their scripts and how they end. One node makes the items of a worker grow
    when the journal has room for all that comes. Three nodes make the journal grow when each worker has room."""
    for nodes, each in [*((1, each) for each in range(9)), (2, 4), (3, 10), (3, 20), (8, 1)]:
        yield f"{nodes} times {each} searches", search_script(nodes, each)
    for case in CLUSTERS:
        if case.wanted.status == 0 and case.script:
            yield case.name.removeprefix("cluster "), (case.words[1:], case.script, case.wanted)


def served_from(program, script, wanted, number):
    """Checks that a cluster that is refused all memory from this allocation on ends with `memory` and has printed
    nothing, or is whole. Says whether it came to that allocation."""
    with all_refused_from(number):
        run, was_refused = starved(program, script, number)
        if run != MEMORY or not was_refused:
            expect(run, wanted)
        return was_refused


def cluster(words, script, wanted, path):
    """What is wrong with a cluster without all allocations from one on, whichever it is."""
    program = Program(path, "cluster", *words)
    try:
        count = next(number for number in itertools.count(1) if not served_from(program, script, wanted, number))
    except Wrong as wrong:
        yield wrong
    else:
        if count == 1:
            yield "nothing was refused"


@functools.lru_cache(maxsize=None)
def count_of_cut(path):
    """How many allocations a cluster makes whose journal is cut."""
    words, script, _ = search_script(NODES, PART // NODES)
    return Program(path, "cluster", *words).count(script)


def cut(from_last, path):
    """What is wrong with a cluster whose journal is cut, without as many of its last allocations."""
    words, script, wanted = search_script(NODES, PART // NODES)
    try:
        served_from(Program(path, "cluster", *words), script, wanted, count_of_cut(path) - from_last)
    except Wrong as wrong:
        yield wrong


class Watched:
    """The script by which a resource is watched, and what it prints with each choice of its steps refused."""

    def __init__(self, path):
        self.program = Program(path, "watch", "--name", "A", "--group", "1")
        self.lines = watched_script()[0].splitlines(keepends=True)
        chosen = itertools.chain.from_iterable(itertools.combinations(range(len(self.lines)), count)
                                               for count in range(len(self.lines) + 1))
        self.ample = {self.program.run(b"".join(self.without(numbers)))[0] for numbers in chosen}

    def without(self, numbers):
        """The lines, with one that changes nothing for those with these indexes and for those that need them."""
        names = {self.lines[number].split()[1] for number in numbers if self.lines[number].startswith(b"declare ")}
        return [NOTHING if number in numbers or line.split()[1] in names else line
                for number, line in enumerate(self.lines)]

    def kind_of(self, run):
        """Checks that a run prints a row after each step, or after some first ones, of which some were refused."""
        if run in self.ample:
            return "the end of a watch"
        is_beginning = any(ample.printed.startswith(run.printed) for ample in self.ample)
        if run != MEMORY._replace(printed=run.printed) or not is_beginning or not whole_lines(run.printed):
            raise Wrong(f"{run} is no watch, and not `memory` after the rows of some first steps")
        return "memory after some rows" if run.printed else "memory after no rows"


def whole_lines(text):
    return not text or text.endswith(b"\n")


def watch(path):
    """What is wrong with a watch without all allocations from one on, whichever it is."""
    watched, kinds = Watched(path), set()
    try:
        for number in range(1, watched.program.count(b"".join(watched.lines)) + 1):
            with all_refused_from(number):
                kinds.add(watched.kind_of(starved(watched.program, b"".join(watched.lines), number)[0]))
    except Wrong as wrong:
        yield wrong
    yield from sorted({"memory after no rows", "memory after some rows"} - kinds)


def threads(nodes, path):
    """What is wrong with a cluster that is refused one of its threads, and with one that is refused none."""
    words, script, wanted = search_script(nodes, 100)
    for number in range(1, nodes + 2):
        env = {"LD_PRELOAD": INTERPOSERS["refuse_thread"](), "REFUSED": str(number)}
        ended = run([path, "cluster", *words], script=script, env=env)
        yield from (f"thread {number} refused: {it}"
                    for it in difference(ended, MEMORY if number <= nodes else wanted))


def tests():
    return [*(Test(f"play {name}", partial(play, name)) for name in scripts()),
            Test("each kind of outcome of play", all_kinds_come),
            *(Test(f"cluster {name}", partial(cluster, *how)) for name, how in clusters()),
            *(Test(f"cluster that cuts, without {last + 1} allocations", partial(cut, last)) for last in range(LAST)),
            Test("a watch", watch),
            *(Test(f"threads of {nodes} nodes", partial(threads, nodes)) for nodes in (1, 2, 8))]
