"""Worked scripts as calls of starlet.h: each process of a script is a process of the operating system, the program
tests/vms/player.c, and all meet at a vlmd. They print what `vlm play` prints. A script that no such program can make is
left out, with the reason."""

import os
import re
import signal
import subprocess
import time
from functools import partial

from daemons import SECONDS, Daemon
from harness import PLAY, Test, difference, ends_of

# What the scripts that are made use, at least.
FLAGS = ("valblk", "noqueue", "syncsts", "system", "expedite", "quecvt", "nodlckwt", "nodlckblk", "wide", "deqall",
         "cancel", "invvalblk")
# How long an AST may take, and a search for deadlocks.
LONGEST = 5
SETTINGS = (f"group {os.getgid()} 1", f"syslck {os.getgid()}")


def reason_to_skip(script):
    """Why programs can't make a script, or None."""
    text, printed = script.read_text(), script.with_suffix(".stdout").read_text()
    declared = re.findall(r"^declare .*", text, re.M)
    for pattern, reason in ((r"^leave\b", "a node has one process"), (r"bits=", "the bits are others"),
                            (r"node=(0|9|10)\b", "a program names no node"),
                            (r"^search node=(?![1-8]\n)", "a search names no node"),
                            (r"^deq (?!.*value=).*tail=", "a value and its tail are one argument")):
        if re.search(pattern, text, re.M):
            return reason
    if "ACCVIO" in printed or re.search(r"block \d+ none", printed):
        return "a program has all status blocks that it wants"
    if len({re.search(r"group=\d+|$", it)[0] for it in declared}) > 1:
        return "all processes have one group"
    if len({"syslck" in it for it in declared}) > 1 or "NOSYSLCK" in printed:
        return "all processes have one privilege"
    if script.name in ("first-of-two-refusals", "each-command-once"):
        return "it has calls that a program can't make"
    return None


def playable():
    return [it.with_suffix("") for it in sorted(PLAY.glob("*.stdout")) if reason_to_skip(it.with_suffix("")) is None]


class Process:
    """A player."""

    def __init__(self, made, name, quota, daemon):
        env = {**os.environ, "VLM$SERVICE": f"unix:{daemon.socket}", "VLM$ENQLM": quota}
        self.run = subprocess.Popen([made, name], env=env, stdin=subprocess.PIPE, stdout=subprocess.PIPE,
                                    stderr=subprocess.PIPE, text=True)
        self.is_ready = self.run.stdout.readline() == "ready\n"

    def ask(self, line):
        self.run.stdin.write(f"{line}\n")
        self.run.stdin.flush()
        return self.run.stdout.readline().removesuffix("\n")

    def end(self, is_killed):
        """What is wrong with the end of the process."""
        if is_killed:
            self.run.kill()
        _, told = self.run.communicate(timeout=SECONDS)
        if self.run.returncode not in (0, -signal.SIGKILL) or told:
            yield f"a player ended with {self.run.returncode}: {ends_of(told)}"


class Scene:
    """A script that is made by players."""

    def __init__(self, made, daemon, printed):
        self.made, self.daemon, self.printed = made, daemon, printed
        self.processes, self.numbers, self.nodes = {}, {}, {}
        self.watcher = daemon.client()

    def declare(self, words):
        """Starts a player. Its number here differs from that of `vlm play`, which counts the processes of a node."""
        node, name = int(re.search(r"node=(\d+)", " ".join(words))[1]), words[1]
        self.nodes[node] = self.nodes.get(node, 0) + 1
        self.numbers[str(65536 * node + self.nodes[node])] = str(65536 + sum(self.nodes.values()))
        quota = re.search(r"quota=(\d+)", " ".join(words))[1]
        self.processes[name] = Process(self.made, name, quota, self.daemon)
        next(self.printed)
        if not self.processes[name].is_ready:
            yield f"{name} does not start"

    def show(self, line):
        for found in self.watcher.ask_all(line):
            wanted = re.sub(r"(process )(\d+)", lambda it: it[1] + self.numbers[it[2]], next(self.printed))
            yield from difference(found, wanted)

    def search(self):
        """Lets the daemon search once. A search of a script has one victim, and this one has all there are."""
        before = self.daemon.metric("deadlock_searches_total"), self.daemon.metric("deadlock_victims_total")
        end = time.monotonic() + LONGEST
        self.set_search(1)
        while self.daemon.metric("deadlock_searches_total") == before[0] and self.daemon.metric("waiting_requests") \
                and time.monotonic() < end:
            time.sleep(0.01)
        self.set_search(0)
        victims = re.findall(r"the victim: request for lock (\d+)", self.daemon.log.read_text())[before[1]:]
        yield from difference(f"search: victim {victims[0] if victims else 'none'}", next(self.printed))
        if len(victims) > 1:
            yield f"victims: {victims}"

    def set_search(self, milliseconds):
        self.daemon.config.write_text("".join(f"{it}\n" for it in ("mode 666", f"admin {os.getgid()}", *SETTINGS,
                                                                   f"search {milliseconds}")))
        self.daemon.run.send_signal(signal.SIGHUP)
        self.daemon.metric("epoch")

    def end(self, name):
        """Ends a process, and waits until the daemon knows."""
        wanted = next(self.printed)
        if name not in self.processes:
            yield from difference(wanted, f"{name}: NONEXPR")
            return
        sessions = self.daemon.metric("sessions")
        yield from difference(wanted, f"{name}: NORMAL")
        yield from self.processes.pop(name).end(is_killed=True)
        end = time.monotonic() + LONGEST
        while self.daemon.metric("sessions") == sessions and time.monotonic() < end:
            time.sleep(0.01)

    def ask(self, words, line):
        """A line of a process. What comes later is awaited."""
        process, wanted = self.processes[words[1]], next(self.printed)
        found, end = process.ask(line), time.monotonic() + LONGEST
        while found != wanted and words[0] in ("ast", "block", "tail") and time.monotonic() < end \
                and (words[0] != "ast" or found.endswith(": none")):
            found = process.ask(line)
        yield from difference(found, wanted)

    def play(self, line):
        words = line.split()
        if not words or words[0].startswith("#"):
            return
        if words[0] == "declare":
            yield from self.declare(words)
        elif words[0] in ("show", "tails"):
            yield from self.show(line)
        elif words[0] == "search":
            yield from self.search()
        elif words[0] == "end":
            yield from self.end(words[1])
        elif words[1] not in self.processes:
            yield from difference(next(self.printed), f"{words[1]}: NONEXPR")
        else:
            yield from self.ask(words, line)


def play(text, printed, made):
    """What is wrong with a script that players make."""
    printed = iter(printed.splitlines())
    with Daemon("search 0", *SETTINGS) as daemon:
        scene = Scene(made(), daemon, printed)
        for number, line in enumerate(text.splitlines(), 1):
            yield from (f"line {number}, {line}: {it}" for it in scene.play(line))
        for process in scene.processes.values():
            yield from process.end(is_killed=False)
    if rest := list(printed):
        yield f"not printed: {rest}"


def worked(script, made, _program):
    """What is wrong with a worked script."""
    yield from play(script.read_bytes().decode("latin-1"), script.with_suffix(".stdout").read_text(), made)


# Two privileged processes with one name in both domains.
SYSTEM = """declare P node=1 group=1 quota=9 blocks=4 syslck
declare Q node=2 group=1 quota=9 blocks=4 syslck
enq P EX name=A block=1 system
enq Q EX name=A block=1
show
"""
SYSTEM_PRINTED = f"""P: process 65537
Q: process 131073
P: NORMAL lock 1
Q: NORMAL lock 2
resource 1 in 0 system name A value {32 * "0"} valid
  granted 1 process 65537 EX
resource 2 in 0 group 1 name A value {32 * "0"} valid
  granted 2 process 131073 EX
"""


def in_the_system(made, _program):
    """What is wrong with the flag SYSTEM, which no worked script of equal processes has."""
    yield from play(SYSTEM, SYSTEM_PRINTED, made)


def enough_worked(_program):
    """Most worked scripts are made, and with the one above they use each flag."""
    if len(playable()) < 50:
        yield f"only {len(playable())} worked scripts are made"
    words = {word for text in (SYSTEM, *(it.read_text() for it in playable())) for word in text.split()}
    yield from (f"no script has {flag}" for flag in FLAGS if flag not in words)


def tests(made):
    """The tests, with a function that gives the player."""
    return [Test("enough worked scripts by sys$enq", enough_worked),
            Test("the system's domain by sys$enq", partial(in_the_system, made)),
            *(Test(f"worked script {it.name} by sys$enq", partial(worked, it, made)) for it in playable())]
