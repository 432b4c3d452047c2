"""Scripts whose reads or writes fail, or move one byte at a time. Each place of the stored script and of its text is
tried in turn."""

import os
import re
import resource
import socket
import subprocess
import tempfile

from harness import Ended, INTERPOSERS, SECONDS, STORED, Test, difference, run

SCRIPT = (STORED / "stdin").read_bytes()
TEXT = (STORED / "stdout").read_bytes()
DECLARED = b"declare P node=1 group=1 quota=9 blocks=4\n"

# How a beginning of the stored script may end where it stops within a line.
FAULT = re.compile(rb"line [1-7]: (unknown command|wrong word|number out of range|unknown name)\n")


def play(program, **how):
    """Plays with these streams. Says how the run ended."""
    ended = subprocess.run([program, "play"], stderr=subprocess.PIPE, timeout=SECONDS, **how)
    return Ended(ended.returncode, ended.stdout, ended.stderr)


def beginnings(program):
    """Each beginning of the stored script prints a beginning of its text, and ends or stops at a fault."""
    for size in range(len(SCRIPT) + 1):
        found = run(["vlm", "play"], program, SCRIPT[:size])
        is_ended = (found.status, found.told) == (0, b"") or found.status == 1 and FAULT.fullmatch(found.told)
        if not is_ended or not TEXT.startswith(found.printed):
            yield f"at {size}: {found}"


def failing_reads(program):
    """A run whose script can't be read to its end prints nothing. The read fails after the bytes that were sent: their
    sender closed its socket with unread bytes."""
    for size in range(len(SCRIPT) + 1):
        sender, script = socket.socketpair()
        with script:
            sender.sendall(SCRIPT[:size])
            script.sendall(b"never read")
            sender.close()
            yield from difference(play(program, stdin=script, stdout=subprocess.PIPE), Ended(3, b"", b"read\n"))


def failing_writes(program):
    """A run whose text can't be written to its end leaves its first part. The limit on a file's size makes the write
    fail."""
    for size in range(len(TEXT)):
        with tempfile.TemporaryFile() as printed:
            ended = play(program, input=SCRIPT, stdout=printed, restore_signals=False,
                         preexec_fn=lambda: resource.setrlimit(resource.RLIMIT_FSIZE, (size, size)))
            printed.seek(0)
            yield from difference(ended._replace(printed=printed.read()), Ended(3, TEXT[:size], b"write\n"))


def single_bytes(program):
    """Reads and writes that move one byte each change nothing. The interposer reports each byte that it moved."""
    with tempfile.TemporaryFile() as report:
        moving = {"LD_PRELOAD": INTERPOSERS["single_bytes"](), "REPORT": str(report.fileno())}
        ended = play(program, input=SCRIPT, stdout=subprocess.PIPE, env=moving, pass_fds=[report.fileno()])
        yield from difference(ended, Ended(0, TEXT, b""))
        moved = os.fstat(report.fileno()).st_size
        if moved != len(SCRIPT) + len(TEXT):
            yield f"{moved} bytes were moved one by one"


def closed_readers(program):
    """A run whose reader has gone ends at the next write, and says so."""
    names = b"".join(b"enq P NL name=A%d block=1\n" % number for number in range(9))
    for size in (0, 10):
        with tempfile.TemporaryFile() as script:
            script.write(DECLARED + names + 300 * b"show\n")
            script.seek(0)
            started = subprocess.Popen([program, "play"], stdin=script, stdout=subprocess.PIPE,
                                       stderr=subprocess.PIPE)
            started.stdout.read(size)
            started.stdout.close()
            _, told = started.communicate(timeout=SECONDS)
            yield from difference((started.returncode, told), (3, b"write\n"))


def tests():
    return [Test("beginnings of a script", beginnings), Test("reads that fail", failing_reads),
            Test("writes that fail", failing_writes), Test("single bytes", single_bytes),
            Test("readers that go", closed_readers)]
