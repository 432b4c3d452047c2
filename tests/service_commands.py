"""The commands of the lock service: vlm lock, who, metrics and kill, over a vlmd, with kills of each of them. An
outside witness sees that no two commands hold a lock at once: each takes a lock of the file system without waiting."""

import json
import os
import pty
import re
import select
import signal
import socket
import subprocess
import tempfile
import time
from argparse import Namespace
from functools import partial
from pathlib import Path

import library
from daemons import PLAIN, Daemon
from harness import ROOM, TOP, Once, Test, difference
from proxies import Proxy, addresses

LAYERS = TOP / "bindings" / "c"
SOURCES = [*sorted((TOP / "service" / "commands").glob("*.c")), *sorted(LAYERS.glob("vlm_client*.c")),
           LAYERS / "vlm_conditions.c"]
VALUE = "000102030405060708090a0b0c0d0e0f"
# How long a command may take.
SECONDS = 60


def compiled():
    """The command vlm where an installation has it, with a stub in the place of the proved program. Its path."""
    prefix = Path(ROOM().name) / "commands"
    for folder in ("bin", "lib", "libexec/vlm"):
        (prefix / folder).mkdir(parents=True)
    sanitized = ["-O1", "-g", "-fsanitize=address,undefined", "-fno-sanitize-recover=all"]
    wrong = list(library.ran("cc", "-std=gnu11", *library.STRICT, *sanitized, f"-I{TOP}/include",
                             '-DVLM_TLS_BESIDE="../lib/"', *SOURCES, "-pthread", "-o", prefix / "bin" / "vlm"))
    if library.has_openssl():
        wrong += library.ran("cc", "-std=c11", *library.STRICT, *sanitized, "-shared", "-fPIC", library.TLS,
                             *library.OPENSSL, "-o", prefix / "lib" / "libvlm-tls.so.1")
    if wrong:
        raise RuntimeError(wrong[0])
    stub = prefix / "libexec" / "vlm" / "vlm"
    stub.write_text('#!/bin/sh\necho "program: $*"\nexit 3\n')
    stub.chmod(0o755)
    return prefix / "bin" / "vlm"


VLM = Once(compiled)


def start(daemon, *words, socket=None, **how):
    env = {**os.environ, "VLM_SOCKET": socket or daemon.socket, "ASAN_OPTIONS": "detect_leaks=0"}
    return subprocess.Popen([VLM(), *map(str, words)], env=env, stdout=subprocess.PIPE, stderr=subprocess.PIPE,
                            text=True, **how)


def run(daemon, *words, socket=None):
    """The status of a command, and what it printed."""
    made = start(daemon, *words, socket=socket)
    printed, told = made.communicate(timeout=SECONDS)
    return made.returncode, printed or told


def until(holds):
    """Waits until something holds."""
    for _ in range(400):
        if holds():
            return True
        time.sleep(0.02)
    return False


def holds(daemon, count=1):
    return until(lambda: daemon.metric("locks") == count)


def statuses(_program):
    """Each status of vlm lock."""
    with Daemon() as daemon:
        for words, wanted in ((["A", "sh", "-c", "exit 7"], (7, "")), (["A", "echo", "a"], (0, "a\n")),
                              (["A", "sh", "-c", "kill -9 $$"], (137, "")), (["x:", "true"], (0, "")),
                              (["a b", "true"], (0, "")), ([31 * "n", "true"], (0, ""))):
            yield from difference((words, run(daemon, "lock", *words)), (words, wanted))
        yield from difference(run(daemon, "lock", "A", "no-such-command")[0], 127)
        yield from difference(run(daemon, "lock", "A", "/etc/passwd")[0], 126)
        for words in ([], ["A"], ["-x", "A", "true"], ["", "true"], [32 * "n", "true"], ["-m", "XX", "A", "true"],
                      ["-w", "-1", "A", "true"], ["-E", "256", "A", "true"], ["--value", "00", "A", "true"],
                      ["--on-blocking", "NO", "A", "true"]):
            yield from difference((words, run(daemon, "lock", *words)[0]), (words, 64))
        holder = start(daemon, "lock", "A", "sleep", "20")
        holds(daemon)
        began = time.monotonic()
        for words, wanted in ((["-n"], 1), (["-n", "-E", "9"], 9), (["-w", "0.3"], 1), (["-w", "0", "-E", "0"], 0)):
            yield from difference((words, run(daemon, "lock", *words, "A", "echo", "a")), (words, (wanted, "")))
        if not 0.3 < time.monotonic() - began < 15:
            yield "the wait was of another length"
        yield from difference(holds(daemon), True)
        holder.terminate()
        yield from difference(holder.wait(20), 143)
        yield from difference(holds(daemon, 0), True)
        # (without a standard output, what the command prints does not go to the daemon)
        talks = start(daemon, "lock", "A", "sh", "-c", "echo end P; read x", stdin=subprocess.PIPE,
                      preexec_fn=partial(os.close, 1))
        holds(daemon)
        yield from difference(run(daemon, "lock", "-n", "A", "true")[0], 1)
        print(file=talks.stdin, flush=True)
        yield from difference(talks.wait(20), 0)
        # (its parent may have ignored the ends of children)
        ignoring = partial(signal.signal, signal.SIGCHLD, signal.SIG_IGN)
        yield from difference(start(daemon, "lock", "A", "sh", "-c", "exit 7", preexec_fn=ignoring).wait(20), 7)
    with Daemon("locks 1") as daemon, daemon.client().begin("P") as client:
        client.ask("enq P EX name=A block=1")
        # (its refusal and its time-out meet)
        yield from difference(run(daemon, "lock", "-w", "0", "B", "true"), (69, "vlm lock: P: EXENQLM\n"))
    yield from difference(run(daemon, "lock", "A", "true")[0], 69)


def values(_program):
    """The value block goes from command to command while somebody has the lock, and is not told if it is invalid."""
    with Daemon() as daemon, daemon.client().begin("P") as client:
        yield from difference(run(daemon, "lock", "--value", VALUE, "A", "true"), (0, ""))
        yield from difference(run(daemon, "lock", "A", "sh", "-c", "echo $VLM_VALUE"), (0, 32 * "0" + "\n"))
        client.ask("enq P NL name=A block=1")
        yield from difference(run(daemon, "lock", "--value", VALUE, "A", "true"), (0, ""))
        yield from difference(run(daemon, "lock", "-m", "PR", "A", "sh", "-c", "echo $VLM_VALUE"), (0, VALUE + "\n"))
        yield from difference(run(daemon, "lock", "-m", "PR", "--value", VALUE, "A", "true")[0], 64)
        client.ask("cvt P @1 EX block=1")
        client.ask("declare Q")
        client.ask("enq Q NL name=A block=1")
        client.ask("deq P @1 invvalblk")
        yield from difference(run(daemon, "lock", "A", "sh", "-c", "echo ${VLM_VALUE-none}"), (0, "none\n"))


def tokens(_program):
    """The fencing token of the lock goes to the command: a later one is greater, whatever became of the first."""
    with Daemon() as daemon, daemon.client() as client:
        script = "echo $VLM_TOKEN; exec sleep 100"
        holder = start(daemon, "lock", "A", "sh", "-c", script)
        first = int(holder.stdout.readline())
        _, lock, *_ = client.ask_all("locks")[0].split()
        yield from difference(client.ask_all(f"token {lock}"), [f"token {first}"])
        yield from difference(run(daemon, "kill", run(daemon, "who")[1].splitlines()[1].split()[4]), (0, ""))
        other = start(daemon, "lock", "A", "sh", "-c", script)
        second = int(other.stdout.readline())
        yield from difference((holder.wait(20), second > first), (75, True))
        other.terminate()
        yield from difference(other.wait(20), 143)


def no_tokens(_program):
    """A service that does not know tokens runs the command without one."""
    with socket.socket(socket.AF_UNIX) as listener, tempfile.TemporaryDirectory() as folder:
        listener.bind(f"{folder}/socket")
        listener.listen()
        listener.settimeout(20)
        made = start(Namespace(socket=f"{folder}/socket"), "lock", "A", "sh", "-c", "echo ${VLM_TOKEN-none}")
        with listener.accept()[0] as service:
            service.settimeout(20)
            service.sendall(b"vlm protocol 1 epoch 0\n")
            for wanted, answer in ((b"enq P", "P: NORMAL lock 1\nP: completion 1 param 0 lock 1\n"
                                    f"P: block 1 status 1 lock 1 value {VALUE}\n"),
                                   (b"token 1\n", "unknown command\n"), (b"close\n", "P: NORMAL\nclosed\n")):
                heard = b""
                while wanted not in heard:
                    heard += service.recv(1000)
                service.sendall(answer.encode())
            yield from difference((made.wait(20), made.stdout.read()), (0, "none\n"))


def blocking(_program):
    """A command that asked for it gets a signal when its lock is in the way."""
    with Daemon() as daemon:
        script = "trap 'exit 5' USR1; echo ready; sleep 20 >/dev/null 2>&1 & wait"
        holder = start(daemon, "lock", "--on-blocking", "USR1", "A", "sh", "-c", script)
        holder.stdout.readline()
        yield from difference(run(daemon, "lock", "A", "echo", "a"), (0, "a\n"))
        yield from difference(holder.wait(20), 5)


def blocking_at_start(_program):
    """A command gets the signal too if another request waits when its lock is granted."""
    with Daemon() as daemon, daemon.client().begin("P") as client:
        client.ask("enq P EX name=A block=1")
        holder = start(daemon, "lock", "--on-blocking", "USR1", "A", "sleep", "100")
        holds(daemon, 2)
        waiter = start(daemon, "lock", "A", "true")
        holds(daemon, 3)
        client.ask("deq P @1")
        yield from difference((holder.wait(50), waiter.wait(50)), (128 + signal.SIGUSR1, 0))


def signals(_program):
    """The command takes each signal that the completion for bash offers."""
    script = '. "$0"; COMP_WORDS=(vlm lock --on-blocking ""); COMP_CWORD=3; _vlm; echo "${COMPREPLY[@]}"'
    offered = subprocess.run(["bash", "-c", script, TOP / "service/commands/completion.bash"], capture_output=True,
                             text=True, timeout=20).stdout.split()
    if len(offered) < 30:
        yield f"the completion offers {offered}"
    with Daemon() as daemon:
        for name in (*offered, "CHLD", "64"):
            yield from difference((name, run(daemon, "lock", "--on-blocking", name, "A", "true")[0]), (name, 0))
        for name in ("SIG", "SIGSIGINT", "", "0", "65", "int"):
            yield from difference((name, run(daemon, "lock", "--on-blocking", name, "A", "true")[0]), (name, 64))


def lost(_program):
    """If the daemon is killed the command gets SIGTERM, and the status is 75. So it is if the session is killed."""
    with Daemon("grace 0") as daemon:
        for end in (lambda: run(daemon, "kill", run(daemon, "who")[1].splitlines()[1].split()[4]), daemon.kill):
            script = "trap 'echo told; exit 1' TERM; echo ready; sleep 20 >/dev/null 2>&1 & wait"
            holder = start(daemon, "lock", "A", "sh", "-c", script)
            holder.stdout.readline()
            end()
            printed, told = holder.communicate(timeout=20)
            yield from difference((holder.returncode, printed, told), (75, "told\n", "vlm lock: the lock is lost\n"))


def killed(_program):
    """A wrapper that is killed frees nothing while its command runs; a killed command frees the lock."""
    with Daemon() as daemon:
        wrapper = start(daemon, "lock", "A", "sh", "-c", "echo $$; exec sleep 20")
        child = int(wrapper.stdout.readline())
        wrapper.kill()
        wrapper.wait()
        yield from difference(run(daemon, "lock", "-n", "A", "true")[0], 1)
        os.kill(child, signal.SIGKILL)
        yield from difference(run(daemon, "lock", "-w", "10", "A", "echo", "a"), (0, "a\n"))
        wrapper = start(daemon, "lock", "A", "sh", "-c", "echo $$; exec sleep 20")
        os.kill(int(wrapper.stdout.readline()), signal.SIGKILL)
        yield from difference(wrapper.wait(20), 137)
        # (what a command leaves behind keeps the connection, and not the lock)
        wrapper = start(daemon, "lock", "A", "sh", "-c", "sleep 5 >/dev/null 2>&1 &")
        yield from difference((wrapper.wait(20), run(daemon, "lock", "-n", "A", "true")[0]), (0, 0))


# Takes a lock of a file without waiting, and says if another has it.
WITNESS = 'flock -n "$0" sh -c "sleep 0.0$1" || echo conflict >>"$0.wrong"'


def witnessed(_program):
    """Among commands that are killed with their wrappers at any moment no two hold the lock at once."""
    with Daemon() as daemon, tempfile.TemporaryDirectory() as folder:
        file = Path(folder) / "held"
        for number in range(60):
            running = [start(daemon, "lock", "A", "sh", "-c", WITNESS, file, number % 3, start_new_session=True)
                       for _ in range(4)]
            time.sleep(0.01 * (number % 4))
            for at, made in enumerate(running):
                if at % 2 == number % 2:
                    os.killpg(made.pid, signal.SIGKILL)
            for made in running:
                made.communicate(timeout=20)
        yield from difference((Path(folder) / "held.wrong").exists(), False)
        yield from difference(holds(daemon, 0), True)


# Goes on under the lock for a while after its shell was ended by a signal.
LINGERER = 'flock -n "$0" sh -c "echo held >>$0.told; sleep 0.4" || echo conflict >>"$0.told"'


def witnessed_ends(_program):
    """Where the daemon is killed again and again no two commands hold the lock at once, though each goes on for a while
    after it was told that the lock is lost: the next daemon lets nobody in for the grace time."""
    with tempfile.TemporaryDirectory() as folder:
        told = Path(folder) / "held.told"
        told.touch()
        for _ in range(4):
            before = told.stat().st_size
            with Daemon("grace 2000", folder=folder) as daemon:
                running = [start(daemon, "lock", "A", "sh", "-c", LINGERER, Path(folder) / "held") for _ in range(3)]
                yield from difference(until(lambda size=before: told.stat().st_size > size), True)
                daemon.kill()
                statuses = sorted(made.wait(SECONDS) for made in running)
                if not set(statuses) <= {0, 69, 75} or 75 not in statuses:
                    yield f"the commands ended with {statuses}"
        yield from difference(set(told.read_text().splitlines()), {"held"})


def replicated(_program):
    """What is wrong with the commands at addresses of replicas, of which the first is dead: statuses, values, signals,
    waits, and a connection that ends."""
    with Daemon() as daemon, Proxy(daemon.socket) as dead, Proxy(daemon.socket) as proxy:
        dead.refuse()
        words = addresses(dead, proxy)
        with daemon.client().begin("P") as client:
            client.ask("enq P NL name=A block=1")
            for asked, wanted in ((["--value", VALUE, "A", "sh", "-c", "exit 7"], (7, "")),
                                  (["-m", "PR", "A", "sh", "-c", "echo $VLM_VALUE"], (0, VALUE + "\n")),
                                  (["a b", "echo", "a"], (0, "a\n")), ([32 * "n", "true"], (64, None))):
                status, printed = run(daemon, "lock", *asked, socket=words)
                yield from difference((status, wanted[1] and printed), wanted)
            client.ask("cvt P @1 EX block=1")
            for asked in (["-n", "A", "true"], ["-w", "0.1", "A", "true"]):
                yield from difference(run(daemon, "lock", *asked, socket=words), (1, ""))
        script = "trap 'exit 5' USR1; echo ready; sleep 50 >/dev/null 2>&1 & wait"
        holder = start(daemon, "lock", "--connect", words, "--on-blocking", "USR1", "A", "sh", "-c", script)
        holder.stdout.readline()
        rows = [it.split() for it in run(daemon, "who", "--connect", words, "A")[1].splitlines()[1:]]
        yield from difference([it[:4] for it in rows], [["A", "EX", "-", "granted"]])
        proxy.cut()
        yield from difference(run(daemon, "lock", "-n", "A", "true")[0], 1)
        yield from difference(run(daemon, "lock", "A", "echo", "a"), (0, "a\n"))
        yield from difference(holder.wait(SECONDS), 5)
        yield from difference(daemon.metric("sessions"), 0)


def replicas_lost(_program):
    """A command at replicas gets SIGTERM when its session is killed, when no replica answers for the time of the lease,
    and when its wrapper is killed. The first two have the status 75."""
    with Daemon() as daemon, Proxy(daemon.socket) as proxy:
        words = addresses(proxy)
        for end in (lambda: run(daemon, "kill", "--connect", words, run(daemon, "who")[1].splitlines()[1].split()[4]),
                    proxy.refuse):
            script = "trap 'echo told; exit 1' TERM; echo ready; sleep 50 >/dev/null 2>&1 & wait"
            holder = start(daemon, "lock", "A", "sh", "-c", script, socket=words)
            holder.stdout.readline()
            end()
            printed, wrong = holder.communicate(timeout=SECONDS)
            yield from difference((holder.returncode, printed, wrong), (75, "told\n", "vlm lock: the lock is lost\n"))
        for asked in (["lock", "A", "true"], ["who"], ["metrics"], ["kill", 16 * "0"]):
            status, wrong = run(daemon, *asked, socket=words)
            yield from difference((asked, status, words in wrong), (asked, 69, True))
        proxy.listen()
        # (the system sends the signal once for each thread of the wrapper that ends)
        script = "trap 'trap \"\" TERM; echo told; exit 1' TERM; echo ready; sleep 50 >/dev/null 2>&1 & wait"
        wrapper = start(daemon, "lock", "A", "sh", "-c", script, socket=words)
        wrapper.stdout.readline()
        wrapper.kill()
        yield from difference(wrapper.communicate(timeout=SECONDS)[0], "told\n")


def unprinted():
    """An answer that can't be printed, or that ends early, is told as such."""
    with Daemon() as daemon, open("/dev/full", "w") as full:
        for words in (["who"], ["who", "--json"], ["metrics"], ["lock", "--help"]):
            made = subprocess.run([VLM(), *words], stdout=full, stderr=subprocess.PIPE, text=True, timeout=SECONDS,
                                  env={**os.environ, "VLM_SOCKET": daemon.socket})
            yield from difference((words, made.returncode, made.stderr),
                                  (words, 69, "vlm: standard output can't be written\n"))
    with tempfile.TemporaryDirectory() as folder, socket.socket(socket.AF_UNIX) as listener:
        listener.bind(f"{folder}/socket")
        listener.listen()
        command = start(None, "kill", 16 * "0", socket=f"{folder}/socket")
        with listener.accept()[0] as client:
            client.sendall(b"vlm protocol 1 epoch 0\n")
        told = command.communicate(timeout=SECONDS)
        yield from difference((command.returncode, *told), (69, "", "vlm: the service has gone\n"))
        command = start(None, "metrics", socket=f"{folder}/socket")
        with listener.accept()[0] as client:
            client.sendall(b"vlm protocol 1 epoch 0\nvlmd_locks 2\n")
            client.recv(100)
        told = command.communicate(timeout=SECONDS)
        yield from difference((command.returncode, *told), (69, "vlmd_locks 2\n", "vlm: the service has gone\n"))


def told(_program):
    """What who, metrics and kill print."""
    with Daemon() as daemon:
        holder, waiter = start(daemon, "lock", "A", "sleep", "20"), None
        holds(daemon)
        waiter = start(daemon, "lock", "-m", "PR", "A", "true")
        holds(daemon, 2)
        rows = [it.split() for it in run(daemon, "who")[1].splitlines()]
        yield from difference([it[:4] for it in rows[1:]], [["A", "EX", "-", "granted"], ["A", "-", "PR", "waiting"]])
        yield from difference((rows[1][7], rows[2][9], len(rows[0])), ("sleep", rows[1][4], 10))
        waiting = json.loads(run(daemon, "who", "--json", "-w", "A")[1])
        yield from difference([(it["name"], it["held"], it["wanted"], it["pid"], it["blocked_by"]) for it in waiting],
                              [("A", None, "PR", waiter.pid, rows[1][4])])
        yield from difference(json.loads(run(daemon, "who", "--json", "B")[1]), [])
        yield from difference(bool(re.search(r"^vlmd_locks 2$", run(daemon, "metrics")[1], re.M)), True)
        yield from difference(run(daemon, "kill", 16 * "0"), (1, "vlm kill: no such session\n"))
        yield from difference(run(daemon, "kill", rows[1][4]), (0, ""))
        yield from difference((holder.wait(20), waiter.wait(20)), (75, 0))
        yield from difference(run(daemon, "metrics", "--connect", daemon.socket, socket="/nowhere")[0], 0)
        for words in (["kill"], ["kill", "1"], ["kill", "--connect"], ["metrics", "--all"], ["metrics", "all"],
                      ["who", "A", "B"], ["who", "-x"], ["who", ""], ["who", 32 * "A"], ["who", "x:4g"], ["who", "x:4"],
                      ["who", "x:"], ["who", f"x:{32 * '41'}"]):
            yield from difference((words, run(daemon, *words)[0]), (words, 64))
        for name, asked, printed in (("a b", "a b", "x:612062"), ("a b", "x:612062", "x:612062"),
                                     ("\u00e9", "\u00e9", "x:c3a9"), ("\u00e9", "x:C3A9", "x:c3a9"),
                                     ("a\nb", "a\nb", "x:610a62"), ("a#", "a#", "a#"), ("A", "x:41", "A"),
                                     ("x:41", "x:783a3431", "x:783a3431")):
            words = "lock", name, VLM(), "who", asked
            yield from difference((words, run(daemon, *words)[1].split("\n")[1].split()[:1]), (words, [printed]))
        for words in (["lock", 32 * "A", "true"], ["lock", "", "true"], ["who", 32 * "A"]):
            told = run(daemon, *words)[1].splitlines()[0]
            yield from difference((words, told), (words, "vlm: the name of a lock has 1 to 31 bytes"))
    yield from unprinted()


def front(_program):
    """All other words go to the proved program."""
    with Daemon() as daemon:
        for words in (["play"], ["--help"], [], ["frob", "lock"]):
            yield from difference((words, run(daemon, *words)), (words, (3, f"program: {' '.join(words)}\n")))
        for command in ("lock", "who", "metrics", "kill"):
            status, told = run(daemon, command, "--help")
            yield from difference((status, told.startswith(f"usage: vlm {command} ")), (0, True))


def turned_away(_program):
    """A command says why it is not let in: its user has no group or too many connections, there is no socket, or nobody
    greets it."""
    with Daemon("group 54321 5") as daemon:
        yield from difference(run(daemon, "who"), (69, f"vlm: {daemon.socket}: no group\n"))
    with Daemon("connections 1") as daemon, Proxy(daemon.socket) as proxy:
        replica = addresses(proxy)
        # (the last client may not have left yet)
        while not (first := daemon.client()).is_quiet():
            first.close()
        for words in (["who"], ["metrics"], ["kill", 16 * "0"], ["lock", "A", "true"]):
            yield from difference((words, run(daemon, *words)),
                                  (words, (69, f"vlm: {daemon.socket}: too many connections\n")))
        yield from difference(run(daemon, "who", socket=replica),
                              (69, f"vlm: no replica answers at {replica}: too many connections\n"))
        first.close()
    with tempfile.TemporaryDirectory() as folder, socket.socket(socket.AF_UNIX) as listener:
        listener.bind(f"{folder}/socket")
        for path, why in ((f"{folder}/none", "No such file or directory: is vlmd running?"),
                          (f"{folder}/socket", "Connection refused: is vlmd running?"),
                          (f"{folder}/socket/none", "Not a directory")):
            yield from difference(run(None, "who", socket=path), (69, f"vlm: {path}: {why}\n"))
        listener.listen()
        for greeting, wanted in ((b"", ": vlmd does not answer: its log may say why"),
                                 (b"vlm protocol 2 epoch 0\n", " speaks another protocol")):
            command = start(None, "who", socket=f"{folder}/socket")
            with listener.accept()[0] as client:
                client.sendall(greeting)
            told = command.communicate(timeout=SECONDS)[1]
            yield from difference((command.returncode, told), (69, f"vlm: {folder}/socket{wanted}\n"))


def shown_shells(_program):
    """What is wrong with the commands that the README shows in two shells: the second one gives up when its time is
    over, and `vlm who` shows the holder. All that takes less than a minute."""
    begun = time.monotonic()
    page = (TOP / "README.md").read_text()
    shown = re.search(r"^```text\n(\$ vlmd &\n.*?)^```", page, re.M | re.S)[1].splitlines()
    daemon, hold, ask, look = (re.split(r" {3,}", line)[0].removeprefix("$ ") for line in shown)
    seconds = int(re.search(r"-w (\d+)", ask)[1])
    with tempfile.TemporaryDirectory() as folder:
        env = {**os.environ, "VLM_SOCKET": f"{folder}/lock.sock", "ASAN_OPTIONS": "detect_leaks=0",
               "PATH": f"{VLM().parent}:{PLAIN().parent}:{os.environ['PATH']}"}
        script = f"{daemon}\nuntil [ -S $VLM_SOCKET ]; do sleep 0.05; done\n{hold}"
        first = subprocess.Popen(["sh", "-c", script], env=env, stderr=subprocess.DEVNULL, start_new_session=True)

        def second(command):
            return subprocess.run(["sh", "-c", command], env=env, capture_output=True, text=True,
                                  timeout=SECONDS).stdout

        is_held = until(lambda: re.search(r"^backup +EX +- +granted .* sleep ", second(look), re.M))
        began = time.monotonic()
        yield from difference((is_held, second(ask)), (True, "busy\n"))
        if time.monotonic() - began < seconds:
            yield "it did not wait"
        if time.monotonic() - begun > 60:
            yield "it takes more than a minute"
        os.killpg(first.pid, signal.SIGTERM)
        first.wait(SECONDS)


def by_launcher(_program):
    """./vlm lock compiles the commands and runs them."""
    with Daemon() as daemon:
        env = {**os.environ, "VLM_SOCKET": daemon.socket}
        yield from library.ran(TOP / "vlm", "lock", "A", "true", env=env)
        yield from library.ran(TOP / "vlm", "who", env=env)


def completed(_program):
    """The completion for bash offers the commands, modes and signals."""
    script = ('. "$0"; COMP_WORDS=(vlm "$@"); COMP_CWORD=$#; _vlm; echo "${COMPREPLY[@]}"')
    for words, wanted in ((["lo"], "lock"), (["lock", "-m", "P"], "PR PW"), (["lock", "--va"], "--value"),
                          (["who", "--j"], "--json"), (["lock", "--co"], "--connect"), (["who", "--co"], "--connect"),
                          (["kill", "-"], "--connect --help"), (["metrics", "--c"], "--connect"),
                          (["lock", "--on-blocking", "SIGUSR"], "SIGUSR1 SIGUSR2")):
        made = subprocess.run(["bash", "-c", script, TOP / "service/commands/completion.bash", *words],
                              capture_output=True, text=True, timeout=20)
        yield from difference((words, made.stdout.strip(), made.stderr), (words, wanted, ""))


def typed(keys, env, folder):
    """What an interactive bash with the completion has in its line after these keys."""
    run, terminal = pty.fork()
    if run == 0:
        os.chdir(folder)
        os.execvpe("bash", ["bash", "--norc", "--noprofile", "-i"], {**os.environ, **env, "TERM": "dumb", "PS1": "> "})
    os.write(terminal, f". '{TOP}/service/commands/completion.bash'\n{keys}\x01echo '[\x05]'\nexit\n".encode())
    text, until = b"", time.monotonic() + SECONDS
    while select.select([terminal], [], [], max(0, until - time.monotonic()))[0]:
        try:
            text += os.read(terminal, 65536)
        except OSError:  # (bash has ended)
            break
    os.kill(run, signal.SIGKILL)
    os.close(terminal)
    os.waitpid(run, 0)
    return re.findall(r"^\[(.*)\]\r?$", text.decode(), re.M)


def completed_in_bash(_program):
    """In a bash a file's name is completed as a word of its own, and a service that says nothing holds nobody up."""
    with tempfile.TemporaryDirectory() as folder, socket.socket(socket.AF_UNIX) as silent:
        (Path(folder) / "my file").touch()
        silent.bind(f"{folder}/silent")
        silent.listen()
        env = {"VLM_SOCKET": f"{folder}/silent", "PATH": f"{VLM().parent}:{os.environ['PATH']}"}
        yield from difference(typed("vlm lock A ./my\t", env, folder), ["vlm lock A ./my\\ file "])
        yield from difference(typed("vlm kill \t", env, folder), ["vlm kill "])


def tests():
    checks = {"commands that are not let in": turned_away,
              "statuses of vlm lock": statuses, "the value block of vlm lock": values, "signals to commands": blocking,
              "names of signals": signals, "signals at the start": blocking_at_start, "the token of vlm lock": tokens,
              "a service without tokens": no_tokens, "locks that are lost": lost, "commands at replicas": replicated,
              "locks at replicas that are lost": replicas_lost, "killed commands": killed,
              "commands and a witness": witnessed, "killed daemons and a witness": witnessed_ends,
              "vlm who, metrics and kill": told, "words of the program": front, "./vlm lock": by_launcher,
              "the shells of the README": shown_shells,
              "completion": completed, "completion in bash": completed_in_bash}
    return [Test(name, check) for name, check in checks.items()]
