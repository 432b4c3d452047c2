"""The layer for programs of OpenVMS: each service of starlet.h over both lock managers, worked scripts that processes
make by sys$enq, and the programs of vms/examples as processes beside each other, some of which are killed. Programs are
compiled with sanitizers, by each compiler, and over the installed libraries. Without the header of libuv all tests are
left out."""

import os
import re
import shlex
import shutil
import socket
import subprocess
import tempfile
import time
from concurrent.futures import ThreadPoolExecutor
from functools import partial
from pathlib import Path

import library
import service
import service_tls
import tls_keys
import vms_scripts
from daemons import PLAIN, SECONDS, Daemon
from harness import PLAIN_ROOM, ROOM, TOP, Once, Test, difference, ends_of
from proxies import Proxy, addresses

HERE = Path(__file__).resolve().parent / "vms"
HEADERS = sorted((TOP / "vms" / "include").glob("*.h"))
EXAMPLES = sorted((TOP / "vms" / "examples").glob("*.c"))
SOURCES = [*sorted((TOP / "vms").glob("*.c")), *library.LAYER_SOURCES, *service.CLIENT]
# A dollar in a name is no C of the standard.
DOLLARS = {"gcc": [], "clang": ["-Wno-dollar-in-identifier-extension"]}
SANITIZERS = library.SANITIZERS[1:]
# Milliseconds of the deadlock wait in tests.services, and the quota of locks that it reaches.
WAIT, QUOTA = 3000, 40
# After how many bytes at most a connection is cut.
MOST_BYTES = 5000
# How long random calls are made.
CHAOS_SECONDS = 5
# Of a program that is killed, and of the library below it, which closes nothing at a loss.
IN_TESTS = {"TSAN_OPTIONS": "report_thread_leaks=0", "ASAN_OPTIONS": "detect_leaks=0"}


def missing():
    """What is not there that these tests need."""
    return service.missing()


def words(compiler, sanitizer):
    return [compiler, "-std=gnu11", *library.STRICT, *DOLLARS[compiler], "-O1", "-g", "-pthread",
            f"-fsanitize={sanitizer}", "-fno-sanitize-recover=all", f"-I{TOP}/vms/include", f"-I{TOP}/include"]


def made_layer(compiler, sanitizer):
    """The objects of the layer and of those below it, with a sanitizer. Raises what the compiler says."""
    folder = tempfile.mkdtemp(dir=ROOM().name)
    wrong = list(library.ran(*words(compiler, sanitizer), "-c", *SOURCES, cwd=folder))
    if wrong:
        raise RuntimeError(wrong[0])
    return sorted(Path(folder).glob("*.o"))


LAYERS = {(compiler, sanitizer): Once(partial(made_layer, compiler, sanitizer))
          for compiler in library.COMPILERS for sanitizer in SANITIZERS}


def made_program(source, compiler, sanitizer, *more):
    """A program over the layer, with more words for the compiler. Raises what the compiler says."""
    made = Path(tempfile.mkdtemp(dir=ROOM().name)) / source.stem
    wrong = list(library.ran(*words(compiler, sanitizer), *more, source, *LAYERS[compiler, sanitizer](),
                             library.prefix() / "lib" / "libvlm.a", "-o", made))
    if wrong:
        raise RuntimeError(wrong[0])
    return made


def first_links():
    """A compiler and a sanitizer that link."""
    return next((compiler, sanitizer) for sanitizer in SANITIZERS for compiler in library.COMPILERS
                if library.links(compiler, sanitizer))


PLAYER = Once(lambda: made_program(HERE / "player.c", *first_links()))


def environment(daemon=None, **settings):
    """The environment of a program: where its locks are, and other settings of VLM$."""
    given = {f"VLM${name}": str(value) for name, value in settings.items()}
    if daemon is not None:
        given["VLM$SERVICE"] = daemon.address
    return {**os.environ, **given}


# Each service.

def services(compiler, sanitizer, _program):
    """What is wrong with the services, by a compiler and a sanitizer: in one process, over the lock service, and when
    that is lost or not there."""
    made = made_program(HERE / "services.c", compiler, sanitizer, "-Wl,--wrap=calloc,--wrap=realloc")
    yield from library.ran(made, env=environment(ENQLM=QUOTA, DEADLOCK_WAIT=WAIT / 1000))
    # (what is no number is ignored)
    yield from library.ran(made, "waits", env=environment(ASTS="wait", ENQLM="many", DEADLOCK_WAIT="long"))
    yield from library.ran(made, "memory", env=environment())
    with Daemon(f"search {WAIT}", made=PLAIN) as daemon:
        yield from library.ran(made, env=environment(daemon, ENQLM=QUOTA))
        for word in ("forked", "declared", "memory"):
            yield from library.ran(made, word, env=environment(daemon))
        lost = {**environment(daemon), **IN_TESTS}
        yield from library.ran(made, "lost", daemon.run.pid, env=lost)
    yield from library.ran(made, "unreachable", env=environment(SERVICE="/nowhere/at/all"))
    yield from library.ran(made, "unsupported", env=environment(SERVICE="etcd"))
    with socket.socket(socket.AF_UNIX) as deaf:
        path = f"{tempfile.mkdtemp(dir=ROOM().name)}/deaf"
        deaf.bind(path)
        deaf.listen()
        yield from library.ran(made, "opening", env=environment(SERVICE=path))


# A locale with a decimal comma.
COMMA = """\
comment_char %
escape_char /
LC_NUMERIC
decimal_point ","
thousands_sep "."
grouping 3
END LC_NUMERIC
"""


def in_locale(_program):
    """What is wrong with a deadlock wait of a fraction of a second, in a locale with a decimal comma."""
    made = made_program(HERE / "services.c", *first_links(), "-Wl,--wrap=calloc,--wrap=realloc")
    folder = Path(tempfile.mkdtemp(dir=ROOM().name))
    (folder / "comma").write_text(COMMA)
    # (it warns of what the locale leaves out, and ends with 1)
    subprocess.run(["localedef", "-c", "-i", folder / "comma", "-f", "UTF-8", folder / "xx_XX.UTF-8"],
                   capture_output=True)
    for wait in ("0.2", "0.0001"):
        given = {**environment(DEADLOCK_WAIT=wait), "LOCPATH": str(folder), "LC_ALL": "xx_XX.UTF-8"}
        yield from library.ran(made, "locale", env=given)


def replicas(_program):
    """What is wrong with the services at replicas of the lock service, of which one is dead, while the connections of
    the other one are cut."""
    made = made_program(HERE / "services.c", *first_links(), "-Wl,--wrap=calloc,--wrap=realloc")
    with Daemon(f"search {WAIT}", made=PLAIN) as daemon, Proxy(daemon.socket) as dead:
        with Proxy(daemon.socket, most=MOST_BYTES) as proxy:
            dead.refuse()
            given = environment(SERVICE=addresses(dead, proxy), ENQLM=QUOTA)
            yield from library.ran(made, env={**given, "CARRIER": str(os.getpid())})
            yield from difference(proxy.cuts > 0, True)
        yield from library.ran(made, "unreachable", env=environment(SERVICE=addresses(dead)))


def secured(_program):
    """What is wrong with the services at a replica of the lock service, by TLS."""
    made = made_program(HERE / "services.c", *first_links(), "-Wl,--wrap=calloc,--wrap=realloc")
    given = {**environment(ENQLM=QUOTA), **tls_keys.environment("alice"),
             "LD_LIBRARY_PATH": str(library.prefix() / "lib")}
    rights = f"alice uid={os.getuid()} group=1 syslck\n"
    with service_tls.Secured(f"search {WAIT}", rights=rights, made=PLAIN) as daemon:
        # (a client of TCP has no process on this machine)
        yield from library.ran(made, env={**given, "VLM$SERVICE": daemon.secured, "CARRIER": "0"})


def chaos(sanitizer, _program):
    """What is wrong with threads that make random calls, in one process, and in three over the lock service."""
    compiler = next(it for it in library.COMPILERS if library.links(it, sanitizer))
    made = made_program(HERE / "chaos.c", compiler, sanitizer)
    yield from library.ran(made, CHAOS_SECONDS, 0, env=environment(DEADLOCK_WAIT=0.02))
    with Daemon("search 10", made=PLAIN) as daemon, ThreadPoolExecutor(3) as pool:
        def run(seed):
            return list(library.ran(made, CHAOS_SECONDS, seed, env=environment(daemon)))
        yield from (it for wrong in pool.map(run, (1, 2, 3)) for it in wrong)


# The examples.

class Stage:
    """A daemon, or what stands for one, and the examples as programs, with a folder for their files."""

    def __init__(self, sanitizer, daemon=None):
        compiler = next(it for it in library.COMPILERS if library.links(it, sanitizer))
        self.made = {it.stem: made_program(it, compiler, sanitizer) for it in EXAMPLES}
        self.folder = Path(tempfile.mkdtemp(dir=ROOM().name))
        self.daemon = daemon or Daemon("search 10", made=PLAIN)

    def __enter__(self):
        return self

    def __exit__(self, *told):
        self.daemon.__exit__(*told)

    def await_locks(self, count):
        end = time.monotonic() + SECONDS
        while self.daemon.metric("locks") != count and time.monotonic() < end:
            time.sleep(0.01)

    def file(self):
        made = Path(tempfile.mkdtemp(dir=self.folder)) / "file"
        made.touch()
        return made

    def start(self, name, *given, **how):
        return subprocess.Popen([self.made[name], *map(str, given)], env={**environment(self.daemon), **IN_TESTS},
                                stdin=subprocess.PIPE, stdout=subprocess.PIPE, stderr=subprocess.PIPE,
                                text=True, errors="surrogateescape", **how)

    def run(self, name, *given):
        """What a program prints."""
        return ended(self.start(name, *given))


def ended(run):
    """What a program printed that ends well."""
    printed, told = run.communicate(timeout=SECONDS)
    if run.returncode or "Sanitizer" in told:
        raise RuntimeError(f"{run.args}: {run.returncode}: {ends_of(told)}")
    return printed


def shown(name):
    """The lines that an example is to print."""
    return (TOP / "vms" / "examples" / f"{name}.out").read_text().splitlines()


def cache(stage):
    """Four processes keep a page. One is killed in the middle, and the others go on."""
    file = stage.file()
    runs = [stage.start("cache", file, 300) for _ in range(4)]
    killed = stage.start("cache", file, 1000000)
    time.sleep(0.3)
    killed.kill()
    killed.wait()
    for run in runs:
        yield from difference(ended(run).splitlines(), shown("cache"))
    version, number = (int.from_bytes(file.read_bytes()[at:at + 4], "little") for at in (0, 4))
    if number != version or number < 300:
        yield f"the page has version {version} and number {number}"


def doorbell(stage):
    """Three callers leave messages. One whose connection ends while it is in leaves none."""
    owner = stage.start("doorbell")
    printed = [owner.stdout.readline()]
    for message in ("hello", "is anybody there"):
        stage.run("doorbell", message)
        printed.append(owner.stdout.readline())
    with stage.daemon.client().begin("P") as gone:
        gone.ask("enq P EX name=DOORBELL block=1 ast=1")
        gone.line()
    printed.append(owner.stdout.readline())
    stage.run("doorbell", "bye")
    yield from difference([it.removesuffix("\n") for it in printed] + ended(owner).splitlines(), shown("doorbell"))


def accounts(stage, transfers=25):
    """Transfers of four processes leave the sum as it was, also for an audit meanwhile."""
    file = stage.file()
    yield from difference(stage.run("accounts", file).splitlines(), shown("accounts"))
    runs = [stage.start("accounts", file, transfers) for _ in range(4)]
    yield from difference(stage.run("accounts", file).splitlines(), shown("accounts"))
    yield from (it for run in runs for it in difference(ended(run), f"{transfers} transfers\n"))
    yield from difference(stage.run("accounts", file).splitlines(), shown("accounts"))


def leader(stage):
    """Of three processes one leads, and is killed; the next one knows, and resigns; the third one leads then."""
    runs = []
    for name in "ABC":
        runs.append(stage.start("leader", name))
        stage.await_locks(len(runs))
    printed = [runs[0].stdout.readline()]
    runs[0].kill()
    printed.append(runs[1].stdout.readline())
    printed += [f"{it}\n" for it in ended(runs[1]).splitlines()]
    printed.append(runs[2].stdout.readline())
    printed += [f"{it}\n" for it in ended(runs[2]).splitlines()]
    runs[0].wait()
    yield from difference([it.removesuffix("\n") for it in printed], shown("leader"))


def listing(stage):
    """The locks of three clients of the service, listed. Numbers of processes differ from run to run."""
    first, second, third = clients = [stage.daemon.client().begin(name) for name in "PQR"]
    for client, line in ((first, "enq P PR name=BANK block=1"), (first, "enq P CW name=TABLE block=2 parent=@1"),
                         (second, "enq Q PR name=BANK block=1"), (first, "cvt P @1 EX block=1"),
                         (second, "enq Q EX name=x:01ff block=2 system"), (third, "enq R PW name=BANK block=1")):
        client.ask(line)
    found = stage.run("show_lock").replace("\x01\udcff", "01ff")
    for client in clients:
        client.close()
    yield from difference(re.sub(r"process \d+", "process N", found).splitlines(), shown("show_lock"))


def examples(check, sanitizer, _program):
    """What is wrong with an example, with a sanitizer."""
    with Stage(sanitizer) as stage:
        yield from check(stage)


def alone(_program):
    """Examples in one process, without a lock service."""
    compiler, sanitizer = first_links()
    file = Path(tempfile.mkdtemp(dir=ROOM().name)) / "file"
    cases = (("cache", ["20"], "20 rounds, 0 old pages\n"), ("counter", None, "1, 0\n1, 1\n1, 2\n"),
             ("accounts", ["5"], "5 transfers\n"), ("leader", None, "A leads, term 1\nA resigns\n"),
             ("show_lock", None, ""))
    for name, given, wanted in cases:
        file.write_bytes(b"")
        made = made_program(TOP / "vms" / "examples" / f"{name}.c", compiler, sanitizer)
        line = [made, file, *given] if given else [made, "A"] if name == "leader" else [made]
        done = subprocess.run(line, env=environment(), stdin=subprocess.DEVNULL, capture_output=True, text=True,
                              timeout=SECONDS)
        yield from (f"{name}: {it}" for it in difference((done.returncode, done.stdout), (0, wanted)))


# The installation.

def declared():
    """The services and routines that the headers declare."""
    text = "\n".join(it.read_text() for it in HEADERS)
    return set(re.findall(r"^(?:unsigned )?int ((?:sys|lib)\$\w+)\(", text, re.M))


def names_shown(_program):
    """Each library shows the services alone, and the shared one has its name for the loader and needs libvlm."""
    lib = library.prefix() / "lib"
    for name, given in (("libvlmvms.a", []), ("libvlmvms.so", ["-D"])):
        told = library.told_by_kit("llvm-nm", "--defined-only", "--extern-only", "-j", *given, lib / name)
        yield from difference({it for it in told.split() if not it.endswith(":")}, declared())
    told = library.told_by_kit("llvm-readelf", "-d", lib / "libvlmvms.so")
    for part in (f"soname: [{library.SONAME.replace('libvlm', 'libvlmvms')}]", f"library: [{library.SONAME}]"):
        if part not in told:
            yield f"the shared library has no {part}"


def linked():
    """The words by which a program is compiled over the shared libraries, as the package tells, and over the static
    ones."""
    lib = library.prefix() / "lib"
    told = subprocess.run(["pkg-config", "--cflags", "--libs", "vlm-vms"], capture_output=True, text=True, check=True,
                          env={**os.environ, "PKG_CONFIG_PATH": str(lib / "pkgconfig")}).stdout
    return (shlex.split(told),
            [f"-I{lib}/../include/vlm-vms", lib / "libvlmvms.a", lib / "libvlm.a", "-pthread"])


def by_package(compiler, standard, _program):
    """What is wrong with an example over the installed libraries, in a standard of C."""
    env = {**os.environ, "LD_LIBRARY_PATH": str(library.prefix() / "lib")}
    # (C23 has no type for a routine with any argument)
    strict = [it for it in library.STRICT if it != "-Wpedantic" or standard != "c2x"]
    for options in linked():
        made = Path(tempfile.mkdtemp(dir=ROOM().name)) / "leader"
        wrong = list(library.ran(compiler, f"-std={standard}", *strict, *DOLLARS[compiler],
                                 TOP / "vms" / "examples" / "leader.c", *options, "-o", made))
        yield from wrong
        if not wrong:
            done = subprocess.run([made, "A"], env=env, stdin=subprocess.DEVNULL, capture_output=True, text=True,
                                  timeout=SECONDS)
            yield from difference((done.returncode, done.stdout), (0, "A leads, term 1\nA resigns\n"))


def headers(compiler, _program):
    """Each header compiles alone, also as C++."""
    for header in HEADERS:
        for language, standard in (("c", "c11"), ("c", "c2x"), ("c++", "c++17")):
            source = Path(tempfile.mkdtemp(dir=ROOM().name)) / "alone.c"
            source.write_text(f"#include <{header.name}>\nint main(void) {{ return 0; }}\n")
            yield from library.ran(compiler, "-x", language, f"-std={standard}", *library.STRICT, *DOLLARS[compiler],
                                   "-fsyntax-only", f"-I{TOP}/vms/include", source)


def page(_program):
    """docs/VMS.md names each service and setting."""
    text = (TOP / "docs" / "VMS.md").read_text()
    named = set(re.findall(r"`((?:sys|lib)\$\w+)`", text))
    yield from (f"docs/VMS.md has no {name}" for name in sorted(declared() - named))
    settings = {name for it in SOURCES for name in re.findall(r'vms_setting\("(\w+)"\)', it.read_text())}
    yield from (f"docs/VMS.md has no VLM${name}" for name in sorted(settings) if f"`VLM${name}`" not in text)


def meanings(_program):
    """The headers say what each flag and condition means, or else docs/MACHINE.md does of the same name, or starlet.h
    at the services."""
    machine = (TOP / "docs" / "MACHINE.md").read_text()
    said = "".join(re.search(rf"^## {it} .*?(?=^## )", machine, re.M | re.S)[0] for it in ("Flags", "Conditions"))
    said = set(re.findall(r"\b\d+\s+([A-Z]+)\b", said))
    services = set(re.findall(r"SS\$_\w+", (TOP / "vms" / "include" / "starlet.h").read_text()))
    count = 0
    for header in HEADERS:
        lines = header.read_text().splitlines()
        for above, line in zip(lines, lines[1:]):
            named = re.match(r"#define ((?:SS\$_|LCK\$M_)(\w+)) \w+(.*)", line)
            if not named:
                continue
            count += 1
            if not (above.endswith("*/") or "/*" in named[3] or named[2] in said or named[1] in services):
                yield f"{header.name} does not say what {named[1]} means"
    if count < 40:
        yield f"the headers define {count} flags and conditions"


def by_page(_program):
    """The example of docs/VMS.md is compiled and run as the page says, here without a vlmd."""
    [lines] = re.findall(r"```sh\n(export .*?)```", (TOP / "docs" / "VMS.md").read_text(), re.S)
    # (the page's words are for a PREFIX without blanks)
    linked = Path(PLAIN_ROOM().name) / "for-vms"
    linked.symlink_to(library.prefix())
    lines = lines.replace("PREFIX", str(linked)).replace("=/run/vlm/lock.sock", "=")
    folder = tempfile.mkdtemp(dir=ROOM().name)
    shutil.copy(TOP / "vms" / "examples" / "counter.c", folder)
    done = subprocess.run(["sh", "-e", "-c", lines], cwd=folder, capture_output=True, text=True, timeout=SECONDS)
    yield from difference((done.returncode, done.stdout, done.stderr), (0, "1, 0\n1, 1\n1, 2\n", ""))


def first():
    return service.first()


def once():
    if missing():
        return []
    links = [(compiler, sanitizer) for compiler in library.COMPILERS for sanitizer in SANITIZERS
             if library.links(compiler, sanitizer)]
    found = [Test(f"the services by {compiler} with the sanitizer {sanitizer}", partial(services, compiler, sanitizer))
             for compiler, sanitizer in links]
    found += [Test(f"the example {check.__name__} with the sanitizer {sanitizer}", partial(examples, check, sanitizer))
              for check in (cache, doorbell, accounts, leader, listing)
              for sanitizer in sorted({it for _, it in links})]
    found += [Test(f"random calls of threads with the sanitizer {sanitizer}", partial(chaos, sanitizer))
              for sanitizer in sorted({it for _, it in links})]
    found += [Test("the services at replicas", replicas)] * bool(links)
    found += [Test("a decimal comma", in_locale)] * (bool(links) and bool(shutil.which("localedef")))
    found += [Test("the services by TLS", secured)] * (bool(links) and not service_tls.missing())
    found += [Test("examples alone", alone), Test("the names that the libraries for OpenVMS show", names_shown),
              Test("docs/VMS.md against the headers", page), Test("flags and conditions in the headers", meanings)]
    found += [Test("the commands of docs/VMS.md", by_page)] * bool(shutil.which("pkg-config"))
    for compiler in filter(shutil.which, library.COMPILERS):
        found.append(Test(f"the headers for OpenVMS by {compiler}", partial(headers, compiler)))
        found += [Test(f"pkg-config of the layer for OpenVMS and {compiler} with {standard}",
                       partial(by_package, compiler, standard))
                  for standard in ("gnu11", "c11", "c2x") if shutil.which("pkg-config")]
    return found + vms_scripts.tests(PLAYER)
