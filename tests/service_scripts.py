"""Worked scripts and random ones over the socket of the lock service print what `vlm play` prints for them. A script
that a client may not send is left out, with the reason."""

import os
import random
import re
import subprocess
from functools import partial
from pathlib import Path

import library
from daemons import NOBODY, Daemon, lone_replica
from harness import PLAY, ROOM, Test, difference

MODES = ("NL", "CR", "CW", "PR", "PW", "EX")


def reason_to_skip(script):
    """Why a client can't send a script, or None."""
    text = script.read_text()
    if re.search(r"^(leave|search)\b", text, re.M):
        return "a client may not send leave or search"
    declared = re.findall(r"^declare .*", text, re.M)
    if len({re.search(r"group=\d+|$", it)[0] for it in declared}) > 1:
        return "all processes of a connection have one group"
    if len({"syslck" in it for it in declared}) > 1:
        return "all processes of a connection have one privilege"
    if "NONEXPR" in script.with_suffix(".stdout").read_text() and re.search(r"node=[09]", text):
        return "a client names no node"
    if re.search(r"^declare .*node=(0|9|10)\b", text, re.M):
        return "a client names no node"
    if script.name == "first-of-two-refusals":
        return "the service looks at the quota first"
    if "NOSYSLCK" in script.with_suffix(".stdout").read_text() and os.getuid() != 0:
        return "another user's connection takes root"
    return None


def playable():
    return [it.with_suffix("") for it in sorted(PLAY.glob("*.stdout")) if reason_to_skip(it.with_suffix("")) is None]


class Player:
    """Plays a script over a connection, against what `vlm play` prints for it."""

    def __init__(self, client, printed):
        self.client, self.printed = client, printed
        self.numbers, self.nodes, self.asts = {}, {}, {}

    def declared(self, line):
        """A `declare` line as a client sends it. Notes the process that `vlm play` makes, by its number here."""
        node = int(re.search(r"node=(\d+)", line)[1])
        self.nodes[node] = self.nodes.get(node, 0) + 1
        self.numbers[str(65536 * node + self.nodes[node])] = str(65536 + sum(self.nodes.values()))
        return re.sub(r" (node=\d+|group=\d+|syslck\b)", "", line)

    def wanted(self, line):
        """A printed line with the process numbers of the service."""
        return re.sub(r"(process )(\d+)", lambda it: it[1] + self.numbers[it[2]], line)

    def answer(self):
        """The next line that is no AST. An AST is kept, and its block line, which ends it, left out."""
        while True:
            line = self.client.line()
            ast = re.match(r"(\w+): (completion|blocking) ", line)
            if not ast:
                return line
            self.asts.setdefault(ast[1], []).append(line)
            if ast[2] == "completion":
                self.client.line()

    def play(self, line):
        """What is wrong with the answer to a line."""
        words = line.split()
        if not words or words[0].startswith("#"):
            self.client.send(line)
        elif words[0] == "ast":
            # (all ASTs of the steps before have come once this is answered)
            self.client.send("alive")
            self.answer()
            taken = self.asts.get(words[1], [])
            yield from difference(taken.pop(0) if taken else f"{words[1]}: none", next(self.printed))
        elif words[0] in ("show", "tails"):
            self.client.send(line)
            while found := self.answer():
                yield from difference(found, self.wanted(next(self.printed)))
        else:
            self.client.send(self.declared(line) if words[0] == "declare" else line)
            yield from difference(self.answer(), self.wanted(next(self.printed)))


def worked(script, start, _program):
    """What is wrong with a worked script over the socket of a daemon or of a replica."""
    printed = iter(script.with_suffix(".stdout").read_text().splitlines())
    other = NOBODY if "NOSYSLCK" in script.with_suffix(".stdout").read_text() else None
    settings = (f"group {os.getgid()} 1", f"group {NOBODY} 1", f"syslck {os.getgid()}")
    with start(*settings) as daemon, daemon.client(other) as client:
        client.ask("open")
        player = Player(client, printed)
        for number, line in enumerate(script.read_bytes().decode("latin-1").splitlines(), 1):
            yield from (f"line {number}, {line}: {it}" for it in player.play(line))
    if rest := list(printed):
        yield f"not printed: {rest}"


def enough_worked(_program):
    """Most worked scripts are playable."""
    if len(playable()) < 45:
        yield f"only {len(playable())} worked scripts are played"


def random_script(seed):
    """A script of random lines of three processes on few names, and what the library's player prints for it."""
    pick = random.Random(seed)
    names = ["P", "Q", "R"]
    lines = [f"declare {name} node=1 group=1 quota=20 blocks=9" for name in names]
    for number in range(300):
        name, block = pick.choice(names), pick.randint(1, 9)
        if number % 20 == 19:
            # (another process takes its place: in the daemon the same process of the manager)
            names[names.index(name)] = f"P{number}"
            lines += [f"end {name}", f"declare P{number} node=1 group=1 quota=20 blocks=9"]
            continue
        flags = " ".join(pick.sample(["valblk", "noqueue", "syncsts", "wide", "ast=1", "bast=2", "param=3"], 3))
        lines.append(pick.choice([
            f"enq {name} {pick.choice(MODES)} name={pick.choice('AB')} block={block} {flags}",
            f"enq {name} {pick.choice(MODES)} name=S parent=@{pick.randint(1, 9)} block={block} {flags}",
            f"cvt {name} @{pick.randint(1, 9)} {pick.choice(MODES)} block={block} {flags}",
            f"cvt {name} {pick.randint(1, 60)} {pick.choice(MODES)} block={block} {flags}",
            f"deq {name} @{pick.randint(1, 9)} {pick.choice(['', 'cancel', 'deqall', 'invvalblk'])}",
            f"deq {name} {pick.randint(1, 60)} value={number:032x}",
            f"set {name} block={block} value={number:032x}", f"block {name} {block}", f"tail {name} {block}",
            f"ast {name}", "show", "tails"]))
    return "".join(f"{it}\n" for it in [*lines, *(f"ast {name}" for name in names for _ in range(300))])


def random_lines(_program):
    """What is wrong with random scripts over the socket: they print what the library's player prints. That one ends
    processes by a rundown; the daemon keeps them for reuse."""
    player = Path(ROOM().name) / "player of random scripts"
    wrong = list(library.ran("cc", "-std=gnu11", "-O2", f"-I{library.prefix()}/include", library.PLAYER,
                             library.prefix() / "lib" / "libvlm.a", "-pthread", "-o", player))
    yield from wrong
    for seed in range(0 if wrong else 12):
        script = random_script(seed)
        printed = subprocess.run([player], input=script, capture_output=True, text=True, check=True).stdout
        with Daemon("search 100000000") as daemon, daemon.client() as client:
            client.ask("open")
            playing = Player(client, iter(printed.splitlines()))
            for line in script.splitlines():
                yield from (f"seed {seed}, {line}: {it}" for it in playing.play(line))


def tests():
    return [Test("enough worked scripts", enough_worked), Test("random scripts over the socket", random_lines),
            *(Test(f"worked script {it.name} {where}", partial(worked, it, start)) for it in playable()
              for where, start in (("over the socket", Daemon), ("at a replica", lone_replica)))]
