"""Scripts at the sizes where a walk over all that is held would take seconds, or where a program that gives up late
would give up: many locks, many names, all status blocks of a process, and the longest script."""

from functools import partial

from harness import Ended, LONGEST, Test, difference, run


def declared(name, node, ordinal):
    """The line of an accepted declaration."""
    return f"{name}: process {node * 65536 + ordinal}"


def many_locks():
    """70,000 locks of two processes, each on a resource of its own, then all given up, the last first."""
    script, printed = [], []
    for k in (1, 2):
        script.append(f"declare P{k} node=1 group=1 quota=65535 blocks=1")
        printed.append(declared(f"P{k}", 1, k))
    for lkid in range(1, 70_001):
        script.append(f"enq P{lkid % 2 + 1} EX name=R{lkid} block=1")
        printed.append(f"P{lkid % 2 + 1}: NORMAL lock {lkid}")
    for lkid in range(70_000, 0, -1):
        script.append(f"deq P{lkid % 2 + 1} {lkid}")
        printed.append(f"P{lkid % 2 + 1}: NORMAL")
    return script + ["show"], printed + ["no resources"]


def one_resource():
    """70,000 locks of two processes on one resource, one of which holds EX: the others wait, and are granted
    once it is given up."""
    script, printed = [], []
    for k in (1, 2):
        script.append(f"declare P{k} node=1 group=1 quota=65535 blocks=1")
        printed.append(declared(f"P{k}", 1, k))
    for lkid in range(1, 70_001):
        mode = "EX" if lkid == 1 else "CR"
        script.append(f"enq P{lkid % 2 + 1} {mode} name=R block=1")
        printed.append(f"P{lkid % 2 + 1}: NORMAL lock {lkid}")
    script += ["deq P2 1", "block P1 1", "show"]
    printed += ["P2: NORMAL", "P1: block 1 status 1 lock 70000 value " + "0" * 32]
    printed += ["resource 1 in 0 group 1 name R value " + "0" * 32 + " valid"]
    printed += [f"  granted {lkid} process {65536 + lkid % 2 + 1} CR" for lkid in range(2, 70_001)]
    return script, printed


def many_names():
    """65,536 bound names, and a line of the last one. Node 1 declares all the processes that a node may, and one
    more, which is refused; another node still declares."""
    script, printed = [], []
    for k in range(1, 65_536):
        script.append(f"declare P{k} node=1 group=1 quota=1 blocks=1")
        printed.append(declared(f"P{k}", 1, k))
    script += [f"declare {name} node={node} group=1 quota=1 blocks=1" for name, node in (("Past", 1), ("Last", 2))]
    printed += ["Past: BADPARAM", declared("Last", 2, 1)]
    script.append("block Last 1")
    printed.append("Last: block 1 status 0 lock 0 value " + "0" * 32)
    return script, printed


def most_status_blocks():
    """A value for each of the 255 status blocks of a process."""
    script = ["declare P node=1 group=1 quota=9 blocks=255"]
    printed = [declared("P", 1, 1)]
    for number in range(1, 256):
        script += [f"set P block={number} value={number:032}", f"block P {number}"]
        printed += ["P: NORMAL", f"P: block {number} status 0 lock 0 value {number:032}"]
    return script, printed


def longest_script():
    """A script of the greatest length: comments, and one line at its end."""
    last = b"show\n"
    comment = b"#" + b" " * 253 + b"\n"
    comments, rest = divmod(LONGEST - len(last), len(comment))
    return comment * comments + b"#" * (rest - 1) + b"\n" + last, b"no resources\n"


def text(lines):
    """The lines as bytes, each with its line feed."""
    return "".join(line + "\n" for line in lines).encode()


def lines_of(build, program):
    """What is wrong with the run of a script that is built as lines."""
    script, printed = build()
    yield from printed_as(run(["vlm", "play"], program, text(script)), text(printed))


def longest(program):
    """What is wrong with the run of the longest script."""
    script, printed = longest_script()
    yield from printed_as(run(["vlm", "play"], program, script), printed)


def printed_as(ended, printed):
    """What is wrong with a run that was to print this. The texts are too long to be shown."""
    if ended.status != 0 or ended.told:
        yield f"status {ended.status}: {ended.told[-300:]!r}"
    elif ended.printed != printed:
        yield "printed something else"


def too_long(words, program):
    """A script of one byte more than the longest is refused."""
    yield from difference(run(["vlm", *words], program, b"\n" * (LONGEST + 1)), Ended(3, b"", b"script too long\n"))


def tests():
    builds = (many_locks, one_resource, many_names, most_status_blocks)
    return [Test(build.__name__.replace("_", " "), partial(lines_of, build)) for build in builds] \
        + [Test("the longest script", longest)] \
        + [Test(f"a script of {words[0]} that is too long", partial(too_long, words))
           for words in (["play"], ["cluster"], ["watch", "--name", "A"])]
