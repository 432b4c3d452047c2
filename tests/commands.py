"""The words of the command line: help, refused words, statuses, and runs whose texts can't be written. What the help
names is run too: each command, each flag and each example."""

import os
import subprocess
import tempfile
from functools import partial
from typing import NamedTuple

from harness import Ended, SECONDS, Test, difference, run

SCRIPT = b"show\n"
FULL = "/dev/full"


class Words(NamedTuple):
    """Words that no script is read for: how the run ends, and how what it prints and tells begins."""

    name: str
    words: list
    status: int
    printed: bytes = b""
    faults: bytes = b""


HELP = [
    Words("help", ["vlm", "--help"], 0, printed=b"The lock manager of OpenVMS"),
    Words("version", ["vlm", "--version"], 0, printed=b"vlm 0.2.0\n"),
    Words("help on play", ["vlm", "play", "--help"], 0, printed=b"Reads a script of lock requests"),
    Words("help on cluster", ["vlm", "cluster", "--help"], 0, printed=b"Serves a script with a thread for each node"),
    Words("help on watch", ["vlm", "watch", "--help"], 0,
          printed=b"Watches a resource while a script's steps are made"),
]

# Where there are no words at all the system may put an empty one.
REFUSED = [
    Words("no words", [], 2, faults=b"error: "),
    Words("no command", ["vlm"], 2, faults=b"error: 'vlm' requires a subcommand"),
    Words("an unknown command", ["vlm", "frob"], 2, faults=b"error: unrecognized subcommand 'frob'\n"),
    Words("a word too many", ["vlm", "play", "frob"], 2, faults=b"error: unexpected argument 'frob' found\n"),
    Words("a word too many for a cluster", ["vlm", "cluster", "frob"], 2,
          faults=b"error: unexpected argument 'frob' found\n"),
    Words("no nodes", ["vlm", "cluster", "--nodes", "0"], 2,
          faults=b"error: invalid value '0' for '--nodes <N>': 0 is not in 1..=8\n"),
    Words("nine nodes", ["vlm", "cluster", "--nodes", "9"], 2,
          faults=b"error: invalid value '9' for '--nodes <N>': 9 is not in 1..=8\n"),
    Words("nodes that are no number", ["vlm", "cluster", "--nodes", "x"], 2,
          faults=b"error: invalid value 'x' for '--nodes <N>': invalid digit found in string\n"),
    Words("nodes without their number", ["vlm", "cluster", "--nodes"], 2,
          faults=b"error: a value is required for '--nodes <N>' but none was supplied\n"),
    Words("nodes of a run", ["vlm", "play", "--nodes", "2"], 2,
          faults=b"error: unexpected argument '--nodes' found\n"),
    Words("a watch of nothing", ["vlm", "watch"], 2,
          faults=b"error: the following required arguments were not provided:\n  --name <RES>\n"),
    Words("a watch without its name", ["vlm", "watch", "--group", "1"], 2,
          faults=b"error: the following required arguments were not provided:\n  --name <RES>\n"),
    Words("a word too many for a watch", ["vlm", "watch", "--name", "A", "frob"], 2,
          faults=b"error: unexpected argument 'frob' found\n"),
    Words("two names of a watch", ["vlm", "watch", "--name", "A", "--name", "B"], 2,
          faults=b"error: the argument '--name <RES>' cannot be used multiple times\n"),
    Words("a group out of range", ["vlm", "watch", "--name", "A", "--group", "65536"], 2,
          faults=b"error: invalid value '65536' for '--group <G>': 65536 is not in 0..=65535\n"),
    Words("a group that is no number", ["vlm", "watch", "--name", "A", "--group", "x"], 2,
          faults=b"error: invalid value 'x' for '--group <G>': invalid digit found in string\n"),
    Words("nodes of a watch", ["vlm", "watch", "--name", "A", "--nodes", "2"], 2,
          faults=b"error: unexpected argument '--nodes' found\n"),
]

LOCKED = b"declare P node=1 group=1 quota=9 blocks=4\nenq P EX name=A block=1\n"


class Unwritten(NamedTuple):
    """A run that can't write its text: its words, its script, whether it reads that, and its status."""

    name: str
    words: list
    status: int
    script: bytes = SCRIPT
    is_read: bool = True


# Each write fails, to both outputs: the status alone shows it.
UNTOLD = [
    Unwritten("a faulty line that can't be told", ["play"], 1, b"frob"),
    Unwritten("refused words that can't be told", ["frob"], 2, is_read=False),
    Unwritten("help that can't be printed", ["play", "--help"], 3, is_read=False),
    Unwritten("a text that can't be printed", ["play"], 3),
    Unwritten("a cluster's text that can't be printed", ["cluster"], 3, b""),
    Unwritten("a watch's text that can't be printed", ["watch", "--name", "A"], 3, LOCKED),
    Unwritten("a wrong name that can't be told", ["watch", "--name="], 2, is_read=False),
]

# Each write to standard output fails, and standard error says `write`.
UNPRINTED = [
    Unwritten("help that is not printed", ["play", "--help"], 3, is_read=False),
    Unwritten("a text that is not printed", ["play"], 3),
    Unwritten("a cluster's text that is not printed", ["cluster"], 3, b""),
    Unwritten("a watch's text that is not printed", ["watch", "--name", "A"], 3, LOCKED),
]

# The flag words of requests, all of which the help has to name.
FLAGS = {"valblk", "noqueue", "syncsts", "system", "expedite", "quecvt", "nodlckwt", "nodlckblk", "wide"}

# Words for the placeholders of the help's commands.
PLACEHOLDERS = {
    "NAME": "P", "MODE": "NL", "LOCK": "1", "N": "1", "node=N": "node=1", "group=N": "group=1",
    "quota=N": "quota=9", "blocks=N": "blocks=4", "name=RES": "name=A", "block=N": "block=1",
    "value=HEX": "value=" + 32 * "0", "tail=HEX": "tail=" + 96 * "0", "parent=LOCK": "parent=0",
    "ast=N": "ast=1", "bast=N": "bast=2", "param=N": "param=3", "flags": "valblk", "bits=N": "bits=1",
}

DECLARED = "declare Q node=1 group=1 quota=9 blocks=4 syslck\n"


def is_text(text, wanted):
    """Whether a text begins as wanted. An empty one is wanted whole."""
    return text.startswith(wanted) if wanted else not text


def answered(case, program):
    """What is wrong with the answer to words: its status, its texts, and that no script is read."""
    with tempfile.TemporaryFile() as script:
        script.write(SCRIPT)
        script.seek(0)
        ended = subprocess.run(case.words, executable=program, stdin=script, capture_output=True, timeout=SECONDS)
        if script.seek(0, 1):
            yield "it read some of the script"
    if ended.returncode != case.status or not is_text(ended.stdout, case.printed) \
            or not is_text(ended.stderr, case.faults):
        yield f"{ended}"


def empty_name(program):
    """An empty name is refused as a wrong name where it is a word of its own, too."""
    yield from difference(run(["vlm", "watch", "--name", ""], program, b"frob\n"), Ended(2, b"", b"wrong name\n"))


def unwritten(case, is_silent, program):
    """What is wrong with a run that can't write to standard output, nor to standard error where it is silent."""
    with tempfile.TemporaryFile() as script, open(FULL, "wb") as full:
        script.write(case.script)
        script.seek(0)
        ended = subprocess.run(["vlm", *case.words], executable=program, stdin=script, stdout=full,
                               stderr=full if is_silent else subprocess.PIPE, timeout=SECONDS)
        count = script.seek(0, 1)
    if ended.returncode != case.status or count != (len(case.script) if case.is_read else 0):
        yield f"status {ended.returncode}, {count} bytes of the script read"
    if not is_silent and ended.stderr != b"write\n":
        yield f"{ended.stderr!r} on standard error"


def unread(words, program):
    """What is wrong with a run whose script can't be read: standard input is a folder."""
    folder = os.open("/", os.O_RDONLY)
    try:
        ended = subprocess.run(["vlm", *words], executable=program, stdin=folder, capture_output=True,
                               timeout=SECONDS)
    finally:
        os.close(folder)
    yield from difference((ended.returncode, ended.stdout, ended.stderr), (3, b"", b"read\n"))


def help_on(program, command):
    """The help on a command."""
    return run(["vlm", command, "--help"], program).printed.decode()


def faulty(program, line):
    """What is wrong with a line that is to have no fault, after a line that declares its process."""
    ended = run(["vlm", "play"], program, (DECLARED + line + "\n").encode())
    if ended.status != 0 or ended.told:
        yield f"{line!r} ends with {ended.status}: {ended.told!r}"


def between(text, first, last):
    """The lines of a text between the line that begins with `first` and the next that begins with `last`."""
    lines = text.splitlines()
    start = next(at for at, line in enumerate(lines) if line.strip().startswith(first)) + 1
    stop = next(at for at, line in enumerate(lines) if at >= start and line.strip().startswith(last))
    return [line[2:] for line in lines[start:stop]]


def named_commands(program):
    """What is wrong with the commands that the help names, with and without their optional words."""
    forms = between(help_on(program, "play"), "Commands of a script", "The flags are")
    if len(forms) != len({form.split()[0] for form in forms}) or not forms:
        yield f"the commands are {forms}"
    for form in forms:
        for optional in (False, True):
            words = [word.strip("[]") for word in form.split() if optional or not word.startswith("[")]
            line = " ".join(PLACEHOLDERS.get(word, word) for word in words)
            if words[0] != "declare":
                line = "declare P node=1 group=1 quota=9 blocks=4\n" + line
            yield from faulty(program, line)


def named_flags(program):
    """What is wrong with the flags that the help names."""
    named = next(line for line in help_on(program, "play").splitlines() if line.startswith("The flags are "))
    flags = set(named.removeprefix("The flags are ").rstrip(".").replace(" and ", ", ").split(", "))
    if flags != FLAGS:
        yield f"the flags are {sorted(flags)}"
    for flag in sorted(flags):
        yield from faulty(program, f"enq Q NL name=A block=1 {flag}")
        yield from faulty(program, f"enq Q NL name=A block=1\ncvt Q 1 NL block=1 {flag}")


def named_example(command, program):
    """What is wrong with the example of a help: it has to print what the help says."""
    text = help_on(program, command)
    lines = text.splitlines()
    words = next(line.strip() for line in lines if line.endswith(" <<END"))
    script = "".join(line.strip() + "\n" for line in between(text, words, "END"))
    printed = "".join(line[2:] + "\n" for line in lines[lines.index("prints") + 1:] if line)
    yield from difference(run(words.removesuffix(" <<END").split(), program, script.encode()),
                          Ended(0, printed.encode(), b""))


def tests():
    named = [Test("the commands that help names", named_commands), Test("the flags that help names", named_flags)]
    named += [Test(f"the example of the help on {it}", partial(named_example, it))
              for it in ("play", "cluster", "watch")]
    words = [Test(case.name, partial(answered, case)) for case in HELP + REFUSED]
    words += [Test("an empty name of a watch", empty_name)]
    silent = [Test(case.name, partial(unwritten, case, True)) for case in UNTOLD]
    spoken = [Test(case.name, partial(unwritten, case, False)) for case in UNPRINTED]
    scripts = [Test(f"a script of {words[0]} that can't be read", partial(unread, words))
               for words in (["play"], ["cluster"], ["watch", "--name", "A"])]
    return named + words + silent + spoken + scripts
