"""Worked scripts of `vlm play`, `vlm cluster` and `vlm watch`, with what they print, their statuses and their faults.
They run on the proved programs, or on the kit's checked build where nothing is proved."""

from faulty_scripts import DECLARED, FAULTY, WHOLE
from harness import Case, Ended, PLAY, STORED, chosen, run_checked


def stored_scripts():
    """The name of each worked script of `play`, with its file and the file of what it prints."""
    yield "the stored run", STORED / "stdin", STORED / "stdout"
    for printed in sorted(PLAY.glob("*.stdout")):
        yield printed.stem, printed.with_suffix(""), printed


def play_cases():
    """Each worked script of `play`, each script without a fault, and each faulty one."""
    for name, script, printed in stored_scripts():
        yield Case(f"play {name}", ["play"], script.read_bytes(), Ended(0, printed.read_bytes(), b""))
    for number, (script, printed) in enumerate(WHOLE, 1):
        yield Case(f"play whole script {number}", ["play"], script, Ended(0, printed, b""))
    for number, (script, printed, fault) in enumerate(FAULTY, 1):
        yield Case(f"play faulty script {number}", ["play"], script, Ended(1, printed, fault))


def items(*lines, journal):
    """What a cluster prints: a line for each item, and the length of the journal."""
    return b"".join(line + b"\n" for line in lines) + b"journal %d\n" % journal


def served(name, words, printed, script=b""):
    return Case(f"cluster {name}", ["cluster", *words], script, Ended(0, printed, b""))


def faulty_cluster(name, script, number, fault):
    """A cluster whose script has a fault at this line: nothing is printed."""
    return Case(f"cluster {name}", ["cluster"], script, Ended(1, b"", b"line %d: %s\n" % (number, fault)))


CLUSTERS = [
    served("without steps", [], items(b"node 1 item 1: NORMAL", b"node 2 item 1: NORMAL", journal=2)),
    served("of one node", ["--nodes=1"], items(b"node 1 item 1: NORMAL", journal=1)),
    served("of eight nodes", ["--nodes", "8"],
           items(*[b"node %d item 1: NORMAL" % node for node in range(1, 9)], journal=8), b"# no steps\n"),
    served("whose nodes declare", [],
           items(b"node 1 item 1: process 65537", b"node 1 item 2: NORMAL", b"node 2 item 1: process 131073",
                 b"node 2 item 2: NORMAL", journal=4),
           DECLARED + b"declare Q node=2 group=1 quota=9 blocks=4\n"),
    served("with an AST", ["--nodes", "1"],
           items(b"node 1 item 1: process 65537", b"node 1 item 2: NORMAL lock 1",
                 b"node 1 item 3: completion 7 param 0 lock 1 process 65537", b"node 1 item 4: NORMAL", journal=4),
           DECLARED + b"enq P EX name=A block=1 ast=7\n"),
    faulty_cluster("that asks for an AST", DECLARED + b"ast P\n", 2, b"unknown command"),
    faulty_cluster("that shows a block", DECLARED + b"block P 1\n", 2, b"unknown command"),
    faulty_cluster("that shows a tail", DECLARED + b"tail P 1\n", 2, b"unknown command"),
    faulty_cluster("that shows a tail of an unknown name", b"tail P 1\n", 1, b"unknown command"),
    faulty_cluster("that shows a tail out of range", b"tail P 256\n", 1, b"number out of range"),
    faulty_cluster("that shows the queues", b"show\n", 1, b"unknown command"),
    faulty_cluster("that shows the tails", b"tails\n", 1, b"unknown command"),
    faulty_cluster("with a word too many", b"tails x\n", 1, b"wrong word"),
    faulty_cluster("with an unknown command", b"\nfrob\n", 2, b"unknown command"),
    faulty_cluster("with an AST of no name", b"ast\n", 1, b"wrong word"),
    faulty_cluster("with a declaration at a node that is not served",
                   b"declare P node=3 group=1 quota=9 blocks=4\n", 1, b"number out of range"),
    faulty_cluster("with a search of a node that is not served", b"search node=3\n", 1, b"number out of range"),
    faulty_cluster("with a name above its declare line", b"end P\n" + DECLARED, 1, b"unknown name"),
    faulty_cluster("with a name declared twice", DECLARED + DECLARED, 2, b"name used"),
]

NO_LOCKS = b"held 0 0 0 0 0 0 conversions 0 waiters 0 value " + 32 * b"0" + b" valid\n"
ONE_LOCK = b"held 0 0 0 0 0 1 conversions 0 waiters 0 value " + 32 * b"0" + b" valid\n"
LOCKED = DECLARED + b"enq P EX name=A block=1\n"


def misnamed(name, *words):
    """A watch of a resource whose name is refused: the script is not read."""
    return Case(f"watch {name}", ["watch", *words], b"frob\n", Ended(2, b"", b"wrong name\n"), False)


def watched(name, words, rows, script=LOCKED):
    """A watch of a script in which each line makes a step, and the row after each."""
    printed = b"".join(b"line %d %s" % (line, row) for line, row in enumerate(rows, 1))
    return Case(f"watch {name}", ["watch", *words], script, Ended(0, printed, b""))


def faulty_watch(name, script, number, fault):
    """A watch whose script has a fault at this line: nothing is printed."""
    return Case(f"watch {name}", ["watch", "--name", "A"], script,
                Ended(1, b"", b"line %d: %s\n" % (number, fault)))


WATCHES = [
    misnamed("an odd number of digits", "--name", "x:4"),
    misnamed("digits that are not hexadecimal", "--name", "x:4g"),
    misnamed("an empty name", "--name="),
    misnamed("a name without digits", "--name", "x:"),
    misnamed("a name of 32 bytes", "--name", 32 * "A", "--group", "1"),
    misnamed("a name of 32 bytes in hexadecimal", "--name", "x:" + 32 * "41"),
    watched("without steps", ["--name", "A"], [], script=b"# no steps\n\n"),
    watched("in a group", ["--name", "A", "--group", "1"], [NO_LOCKS, ONE_LOCK]),
    watched("by a hexadecimal name", ["--name=x:41", "--group=1"], [NO_LOCKS, ONE_LOCK]),
    watched("in another group", ["--name", "A", "--group", "2"], [NO_LOCKS, NO_LOCKS]),
    watched("in the system's domain", ["--name", "A"], [NO_LOCKS, NO_LOCKS]),
    watched("of another name", ["--name", 31 * "A", "--group", "65535"], [NO_LOCKS, NO_LOCKS]),
    watched("of a system resource", ["--name", "A"], [NO_LOCKS, ONE_LOCK],
            script=b"declare P node=8 group=1 quota=9 blocks=4 syslck\nenq P EX name=A block=1 system\n"),
    watched("of refused steps", ["--name", "A", "--group", "1"], [NO_LOCKS, ONE_LOCK, ONE_LOCK, ONE_LOCK],
            script=LOCKED + b"deq P 2\nenq P EX name=A block=1 noqueue\n"),
    watched("with ASTs", ["--name", "A", "--group", "1"], [NO_LOCKS] + 100 * [ONE_LOCK, NO_LOCKS],
            script=DECLARED + 100 * b"enq P EX name=A block=1 ast=7 bast=8\ndeq P @1\n"),
    Case("watch lines without steps", ["watch", "--name", "A", "--group", "1"],
         b"\n" + DECLARED + b"# a comment\nenq P EX name=A block=1",
         Ended(0, b"line 2 " + NO_LOCKS + b"line 4 " + ONE_LOCK, b"")),
    faulty_watch("that asks for an AST", DECLARED + b"ast P\n", 2, b"unknown command"),
    faulty_watch("that shows a tail", DECLARED + b"tail P 1\n", 2, b"unknown command"),
    faulty_watch("that shows the tails", DECLARED + b"tails\n", 2, b"unknown command"),
    faulty_watch("with an unknown command", LOCKED + b"frob\n", 3, b"unknown command"),
    faulty_watch("with a declaration at a ninth node", b"declare P node=9 group=1 quota=9 blocks=4\n", 1,
                 b"number out of range"),
]


def cases():
    return [*play_cases(), *CLUSTERS, *WATCHES]


def tests():
    return [case.test() for case in cases()]


def checked():
    """The results on the checked build."""
    return run_checked(STORED, chosen(cases()))
