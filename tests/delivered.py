"""What `./vlm package` makes: the same bytes twice, with their checksums and lists. Then the packages in clean roots of
Debian 12, as new users have them: one who locks, one who programs, and one who has pip and the archive alone."""

import hashlib
import json
import os
import re
import shlex
import shutil
import subprocess
import sys
import tarfile
import tempfile
import threading
from pathlib import Path

import clean_roots
import docs
import library
from clean_roots import Failed, Machine, Root
from harness import PLAY, ROOM, TOP, Test, difference, ends_of

VERSION = (TOP / "VERSION").read_text().strip()
FITS = VERSION.rpartition(".")[0]
# The version after it, to which an upgrade goes.
NEXT = f"{FITS}.{int(VERSION.rpartition('.')[2]) + 1}"
DEBIAN = (f"libvlm{FITS}", "libvlm-dev", "vlm", "libvlm-doc", "python3-vlm")
ARCHIVE = TOP / "crates" / "vlm_capi" / "out" / "libvlm_capi.a"
RECORD = TOP / "crates" / "vlm" / "out" / "vlm.proved"
# How long a whole run of ./vlm package may take after a proof.
PACKAGE_SECONDS = 300
MAKE = ("import sys; from pathlib import Path; from packing import make_packages; "
        "make_packages(Path(sys.argv[1]), Path(sys.argv[2]), Path(sys.argv[3]), sys.argv[4])")
COMPILERS = "gcc libc6-dev pkgconf cmake make cargo-web rustc-web"


def missing():
    """What is not there that some of these tests need."""
    return clean_roots.missing() + [tool for tool in ("lintian", "systemd-nspawn") if not shutil.which(tool)]


def room():
    return Path(ROOM().name)


def made(tree, program, version):
    """Makes the packages of a version from a tree, over a program and the proved archive."""
    folder = Path(tempfile.mkdtemp(dir=room()))
    time = subprocess.run(["git", "-C", TOP, "log", "-1", "--format=%ct"], capture_output=True, text=True).stdout
    words = [sys.executable, "-c", MAKE, folder, program, ARCHIVE, version]
    ended = subprocess.run([str(it) for it in words], cwd=tree / "tools", capture_output=True, text=True,
                           timeout=PACKAGE_SECONDS, env={**os.environ, "SOURCE_DATE_EPOCH": time.strip() or "1"})
    if ended.returncode:
        raise Failed(ends_of(ended.stderr))
    return folder


class Packages:
    """The packages of the tree, and those of the next version. Each set is made once."""

    lock = threading.Lock()
    sets: dict = {}

    @classmethod
    def of(cls, program, version=VERSION):
        with cls.lock:
            if version not in cls.sets:
                cls.sets[version] = made(TOP, Path(program).resolve(), version)
            return cls.sets[version]


def names_of(version):
    """The names of all that is made, with a star for the C library of the wheel."""
    debian = [f"{name}_{version}_{'all' if name in DEBIAN[3:] else 'amd64'}.deb" for name in DEBIAN]
    return sorted([*debian, f"vlm-{version}-linux-x86_64.tar.gz", f"vlm-{version}-py3-none-*.whl", "SHA256SUMS",
                   f"vlm-{version}.tar.gz", f"vlm-{version}.crate", f"vlm-sys-{version}.crate",
                   f"vlm-{version}.spdx.json"])


def by_command(_program):
    """`./vlm package` leaves its files, with right checksums, and the same bytes as a copy of the tree in another
    place."""
    folder, copy = room() / "by the command", room() / "a copy"
    yield from library.ran(TOP / "vlm", "package", folder, seconds=PACKAGE_SECONDS)
    yield from library.ran("sha256sum", "--check", "--strict", "--quiet", "SHA256SUMS", cwd=folder)
    names = sorted(re.sub(r"manylinux_\d+_\d+_x86_64", "*", it.name) for it in folder.iterdir())
    yield from difference(names, names_of(VERSION))
    yield from library.ran("git", "clone", "--quiet", "--shared", TOP, copy)
    changed = subprocess.run(["git", "ls-files", "-mo", "--exclude-standard"], cwd=TOP, capture_output=True, text=True)
    for name in [*changed.stdout.splitlines(), str(RECORD.relative_to(TOP))]:
        (copy / name).parent.mkdir(parents=True, exist_ok=True)
        shutil.copy(TOP / name, copy / name)
    again = made(copy, TOP / "crates" / "vlm" / "out" / "vlm", VERSION)
    yield from difference((again / "SHA256SUMS").read_text(), (folder / "SHA256SUMS").read_text())


def listed_content(program):
    """The list of SPDX has each file of the archive with its checksum, and the archive has what installations have."""
    folder = Packages.of(program)
    bill = json.loads((folder / f"vlm-{VERSION}.spdx.json").read_text())
    rows = bill["files"]
    known = [it["SPDXID"] for it in [bill, *bill["packages"], *rows]]
    named = {it[end] for it in bill["relationships"] for end in ("spdxElementId", "relatedSpdxElement")}
    yield from difference((named - set(known), len(known)), (set(), len(set(known))))
    told = {row["fileName"]: row["checksums"][1]["checksumValue"] for row in rows}
    top = f"vlm-{VERSION}-linux-x86_64"
    with tarfile.open(folder / f"{top}.tar.gz") as packed:
        files = {it.name.replace(top, ".", 1): packed.extractfile(it).read() for it in packed if it.isfile()}
    yield from difference({name: hashlib.sha256(text).hexdigest() for name, text in files.items()}, told)
    names = {name.removeprefix("./") for name in files}
    lacking = {*library.FILES, *library.SERVICE_FILES} - names
    yield from difference(lacking, set())


def checked_by_lintian(program):
    """lintian finds no error."""
    packages = sorted(Packages.of(program).glob("*.deb"))
    yield from library.ran("lintian", "--fail-on", "error", "--allow-root", *packages)


def missing_call(program):
    """A library that has lost a call is no version of the same first two numbers: it can't be packed."""
    tree = room() / "a tree with one call more"
    shutil.copytree(TOP / "tools", tree / "tools", ignore=shutil.ignore_patterns("__pycache__"))
    for name in ("include", "bindings", "docs", "man", "service", "vms", "examples", "KIT", "VERSION", "README.md",
                 "CHANGELOG.md", "SECURITY.md", "crates.txt"):
        (tree / name).symlink_to(TOP / name)
    shutil.copytree(TOP / "packaging", tree / "packaging")
    with (tree / "packaging" / "libvlm.symbols").open("a") as symbols:
        symbols.write(f" vlm_zz_gone@Base {VERSION}\n")
    try:
        made(tree, Path(program).resolve(), VERSION)
        yield "a library without a call of the list is packed"
    except Failed as failed:
        if "vlm_zz_gone" not in str(failed):
            yield str(failed)


def root_with_packages(name, program):
    """A root with the packages of both versions in folders of their own."""
    root = Root.copy(name)
    root.put(*Packages.of(program).iterdir(), place="packages")
    root.put(*Packages.of(program, NEXT).iterdir(), place="next")
    return root


# Steps of the user who locks.

def plays(root):
    """`vlm play` prints for the script of the README what the README says."""
    case = next(it for it in docs.shown_cases() if it.name.startswith("README.md"))
    root.write("script", case.script.decode())
    yield from difference(root.run("vlm play < script", "user").stdout, case.wanted.printed.decode())


SHELLS = """export VLM_SOCKET=/tmp/lock.sock
rm -f $VLM_SOCKET*
vlmd 2>log &
until [ -S $VLM_SOCKET ]; do sleep 0.05; done
sh -c 'exec vlm lock backup sleep 3' &
holder=$!
until vlm who | grep -q '^backup.* granted .* sleep '; do sleep 0.05; done
sh -c 'vlm lock -w 0.5 backup echo mine || echo busy'
wait $holder
sh -c 'vlm lock -w 5 backup echo mine || echo busy'
"""


def locks(root):
    """A daemon, and two shells that lock the same name."""
    yield from difference(root.run(SHELLS, "user").stdout, "busy\nmine\n")


def reads(root):
    """man shows the pages of the calls and the commands."""
    for page, word in (("vlm_enq", r"vlm_enq\(vlm \*handle"), ("3 vlm", "LIBRARY|CALLS"), ("1 vlm", "SCRIPTS"),
                       ("vlmd", "CONFIGURATION"), ("vlm-lock", "SYNOPSIS"), ("vlm-who", "SYNOPSIS"),
                       ("vlm-protocol", "SINGLE LOCKS"), ("vlm-draw", "--svg")):
        text = root.run(f"man {page}", "user").stdout
        if not re.search(word, text):
            yield f"man {page} shows {text[:200]!r}"


def uses_python(root):
    """Python has the package, and vlm-draw makes a page."""
    block = docs.fenced(TOP / "docs" / "LIBRARY.md", "python")[0][0]
    root.write("first.py", block)
    root.write("cycle", (PLAY / "a-circle-of-three").read_text())
    ended = root.run("python3 first.py && vlm-draw cycle", "user")
    if ended.returncode or not ended.stdout.lower().startswith("<!doctype html"):
        yield f"{ended.returncode}: {ended.stdout[-300:]}"


def tells_proof(root):
    """`vlm --proof` prints what the proof noted, and the checksum of the program that is installed."""
    noted = RECORD.read_text().splitlines() if RECORD.exists() else ["", "no record", "no record"]
    text = root.need("vlm --proof; sha256sum /usr/libexec/vlm/vlm", "user")
    lines = text.splitlines()
    yield from difference(lines[:3], [f"version {VERSION}", f"proved {noted[1]}", f"kit {noted[2]}"])
    yield from difference(lines[4], f"program {lines[-1].split()[0]} libexec/vlm/vlm")
    yield from difference(root.need("vlm --version"), f"vlm {VERSION}\n")


def has_units(root):
    """systemd is to start the socket, and the group that may connect is there."""
    link = root.folder / "etc/systemd/system/sockets.target.wants/vlmd.socket"
    if not link.is_symlink() or not root.run("getent group vlm && test -f /lib/systemd/system/vlmd.socket").stdout:
        yield "there is no group vlm, or no link to vlmd.socket"


HELD = """export VLM_SOCKET=/tmp/held.sock
vlmd 2>/dev/null &
until [ -S $VLM_SOCKET ]; do sleep 0.05; done
vlm lock backup sleep 100 &
until vlm who | grep -q '^backup.* granted '; do sleep 0.05; done
apt-get install /next/*.deb >upgrade.log 2>&1 || cat upgrade.log
vlm who | grep -c '^backup.* granted '
"""


def upgrades(root):
    """An upgrade to the next version lets a running daemon and its locks be."""
    yield from difference(root.run(HELD).stdout, "1\n")
    told = root.need("dpkg-query -W -f '${Version}\\n' " + " ".join(DEBIAN))
    yield from difference(told, f"{NEXT}\n" * len(DEBIAN))
    yield from plays(root)
    yield from locks(root)


def leaves(root):
    """A removal leaves the configuration alone, and a purge nothing: also not what `systemctl enable` has made."""
    wants = "etc/systemd/system/multi-user.target.wants"
    root.need(f"mkdir -p /{wants} && ln -s /lib/systemd/system/vlmd.service /{wants}")
    root.need("apt-get remove " + " ".join(DEBIAN))
    left = [name for name in root.paths("vlm") if not name.startswith("var/lib/dpkg/info/vlm.")]
    yield from difference(left, [f"{wants}/vlmd.service",
                                 "etc/systemd/system/sockets.target.wants/vlmd.socket", "etc/vlmd.conf",
                                 "var/lib/systemd/deb-systemd-helper-enabled/sockets.target.wants/vlmd.socket",
                                 "var/lib/systemd/deb-systemd-helper-enabled/vlmd.service.dsh-also",
                                 "var/lib/systemd/deb-systemd-helper-enabled/vlmd.socket.dsh-also"])
    root.need("apt-get purge vlm")
    yield from difference(root.paths("vlm"), [])
    yield from difference(root.run("getent group vlm; dpkg -l | grep vlm").stdout, "")


# Steps of the user who programs.

RUN_EXAMPLES = """cd /usr/share/doc/libvlm-doc/examples/c
for source in *.c; do
    name=${source%.c}
    cc -std=c11 -pthread $source $(pkg-config --cflags --libs vlm) -o ~/$name && ~/$name | cmp - $name.out ||
        echo "$name is wrong"
done
cc -std=c11 -static two.c $(pkg-config --static --cflags --libs vlm) -o ~/static && ~/static | cmp - two.out
"""


def compiles(root):
    """The programs in C of the README and of the pages, by pkg-config."""
    lines = docs.fenced(TOP / "README.md", "c")[0][0]
    root.write("readme.c", "#include <vlm.h>\nint main(void) {\nuint32_t pid, lock;\nconst uint8_t name[] = {'A'};\n"
               + lines + "vlm_close(&handle);\nreturn 0;\n}\n")
    script = "cc -std=c11 readme.c $(pkg-config --cflags --libs vlm) -o readme && ./readme\n" + RUN_EXAMPLES
    yield from difference(root.run(script, "user").stdout, "")


def uses_cmake(root):
    root.write("project/CMakeLists.txt", library.PROJECT.replace("@VERSION@", VERSION))
    script = "cp /usr/share/doc/libvlm-doc/examples/c/two.* project && cmake -S project -B built && " \
             "cmake --build built && built/shared | cmp - project/two.out && built/static | cmp - project/two.out"
    ended = root.run(script, "user")
    if ended.returncode:
        yield ends_of(ended.stdout)


CARGO = """[package]
name = "user"
version = "1.0.0"
edition = "2021"
[dependencies]
vlm = {{ path = "../vlm-{0}" }}
[patch.crates-io]
vlm-sys = {{ path = "../vlm-sys-{0}" }}
"""


def uses_cargo(root):
    """The crates, as cargo packs them, are built against the package libvlm-dev."""
    root.write("crate/Cargo.toml", CARGO.format(VERSION))
    root.write("crate/src/main.rs", (TOP / "bindings/rust/examples/cache.rs").read_text())
    script = "for it in /packages/*.crate; do tar xzf $it; done; cd crate && cargo run --offline --quiet"
    ended = root.run(script, "user")
    if ended.returncode or "400 updates, the last version is 400, 0 updates were lost\n" not in ended.stdout:
        yield ends_of(ended.stdout)


def goes_on(root):
    """A program that was linked before the upgrade runs with the next version of the library."""
    root.need("apt-get install /next/libvlm*.deb")
    script = "./two | cmp - /usr/share/doc/libvlm-doc/examples/c/two.out && ldd ./two && ls -l /usr/lib/*/libvlm.so.*"
    ended = root.run(script, "user")
    if ended.returncode or f"libvlm.so.{FITS} => " not in ended.stdout or f"libvlm.so.{NEXT}\n" not in ended.stdout:
        yield ends_of(ended.stdout)


# Steps of the user of pip and the archive.

def has_wheel(root):
    """The wheel has the library in it, so a new environment needs nothing else."""
    block = docs.fenced(TOP / "docs" / "LIBRARY.md", "python")[0][0]
    root.write("first.py", block)
    root.write("cycle", (PLAY / "a-circle-of-three").read_text())
    ended = root.run("python3 -m venv venv && venv/bin/pip install --quiet --no-index /packages/*.whl && "
                     "venv/bin/python first.py && venv/bin/vlm-draw cycle", "user")
    if ended.returncode or not ended.stdout.lower().startswith("<!doctype html"):
        yield f"{ended.returncode}: {ended.stdout[-300:]}"


def has_archive(root):
    """The archive runs where it is unpacked, and the sources for Python use its library."""
    case = next(it for it in docs.shown_cases() if it.name.startswith("README.md"))
    root.write("script", case.script.decode())
    top = shlex.quote(f"a folder/vlm-{VERSION}-linux-x86_64")
    yield from difference(root.run("mkdir 'a folder' && tar xzf /packages/vlm-*-linux-x86_64.tar.gz -C 'a folder' && "
                                   f"{top}/bin/vlm play < script", "user").stdout, case.wanted.printed.decode())
    ended = root.run(f"export PATH=$PWD/{top}/bin:$PATH VLM_PREFIX=$PWD/{top}\n{SHELLS}python3 -m venv other && "
                     f"other/bin/pip install --quiet --no-index /packages/vlm-{VERSION}.tar.gz && "
                     "other/bin/python first.py", "user")
    yield from difference((ended.returncode, ended.stdout), (0, "busy\nmine\n"))


# Steps of a machine with systemd.

KEPT = """vlm lock backup sleep 60 2>held.log &
until vlm who | grep -q '^backup.* granted '; do sleep 0.05; done
systemctl show --property MainPID vlmd >before
{ apt-get install /next/vlm_*.deb || cat held.log; } >upgrade.log 2>&1
systemctl show --property MainPID vlmd | diff before - && vlm who | grep -c '^backup.* granted '
apt-get remove vlm >remove.log 2>&1
cat held.log
ls -d /run/vlm /var/lib/vlmd
systemctl is-active vlmd.socket vlmd.service
"""
KEPT_PRINTS = """1
vlm lock: the lock is lost
ls: cannot access '/run/vlm': No such file or directory
/var/lib/vlmd
inactive
inactive
"""


def is_served(machine):
    """The package starts the socket, and the daemon at the first connection. Members of the group may connect."""
    machine.need("apt-get install /packages/vlm_*.deb && usermod --append --groups vlm user && useradd stranger")
    yield from difference(machine.run("systemctl is-active vlmd.socket vlmd.service").stdout, "active\ninactive\n")
    yield from difference(machine.run("vlm lock backup echo mine", "user").stdout, "mine\n")
    yield from difference(machine.run("systemctl is-active vlmd.socket vlmd.service").stdout, "active\nactive\n")
    yield from difference(machine.run("systemctl reload vlmd").stdout, "")
    yield from difference(machine.run("vlm lock backup echo mine", "stranger").returncode, 69)


# A start fails as long as something else has the name of the state file. A wrong configuration is for a person to mend.
AGAIN = """systemctl stop vlmd 2>/dev/null
mv /var/lib/vlmd/state /tmp && mkdir /var/lib/vlmd/state
vlm lock backup echo mine &
until [ "$(systemctl show --property NRestarts --value vlmd)" -ge 6 ]; do sleep 0.1; done
rmdir /var/lib/vlmd/state && mv /tmp/state /var/lib/vlmd
wait
echo frob >/etc/vlmd.conf
systemctl restart vlmd 2>/dev/null || systemctl show --property ExecMainStatus --property NRestarts vlmd
vlm who 2>/dev/null || echo $?
: >/etc/vlmd.conf
systemctl restart vlmd
vlm lock backup echo mine
"""


def is_started_again(machine):
    """A daemon that can't start is started until it can. With a wrong configuration it is not."""
    yield from difference(machine.run(AGAIN).stdout, "mine\nNRestarts=0\nExecMainStatus=2\n69\nmine\n")


# Starts Debian's etcd. The root shares the network of this machine, so etcd gets ports of its own.
ETCD = """systemctl mask etcd.service
apt-get install etcd-server python3-etcd3 && systemd-run --unit=list etcd --data-dir /tmp/list --name m1 \\
    --listen-client-urls http://127.0.0.1:23790 --advertise-client-urls http://127.0.0.1:23790 \\
    --listen-peer-urls http://127.0.0.1:23791 --initial-advertise-peer-urls http://127.0.0.1:23791 \\
    --initial-cluster m1=http://127.0.0.1:23791
"""
# The daemon of the unit is a replica, and so is one that root starts. Once the list lacks a batch, systemd does not
# start it again.
REPLICAS = """printf 'etcd 127.0.0.1:23790\\nlisten 127.0.0.1:7001\\n' >/etc/vlmd.conf
systemctl daemon-reload && systemctl restart vlmd
vlmd -s /tmp/other.sock --listen 127.0.0.1:7002 2>/dev/null &
until VLM_SOCKET=/tmp/other.sock vlm who; do sleep 0.1; done >/dev/null 2>&1
vlm lock --connect tcp:127.0.0.1:7001 backup \\
    sh -c 'vlm lock --connect tcp:127.0.0.1:7002 -n backup echo mine || echo busy'
vlm lock --connect tcp:127.0.0.1:7002 -w 5 backup echo mine
kill %1
python3 -c "import etcd3
list = etcd3.client('127.0.0.1', 23790)
list.delete(min(it.key for _, it in list.get_prefix('vlm/entries/')))"
systemctl restart vlmd 2>/dev/null || systemctl show --property ExecMainStatus --property NRestarts vlmd
rm -r /etc/systemd/system/vlmd.service.d
: >/etc/vlmd.conf
systemctl daemon-reload && systemctl restart vlmd
"""


def is_replicated(machine):
    """With what docs/CLUSTER.md adds to the unit, the daemon is a replica. Another one has the same locks. It is not
    started again on a list that has lost a part."""
    added = re.search(r"^```text\n(\[Unit\]\n.*?)^```", (TOP / "docs" / "CLUSTER.md").read_text(), re.M | re.S)[1]
    machine.need(ETCD)
    folder = machine.folder / "etc/systemd/system/vlmd.service.d"
    folder.mkdir()
    (folder / "override.conf").write_text(added)
    yield from difference(machine.run(REPLICAS).stdout, "busy\nmine\nNRestarts=0\nExecMainStatus=3\n")


def is_kept(machine):
    """An upgrade lets the daemon and its locks be. A removal ends it and tells holders, a purge takes the group and the
    last epoch. What Python compiled for a replica of root goes too."""
    yield from difference(machine.run(KEPT).stdout, KEPT_PRINTS)
    machine.need("gpasswd --delete user vlm && apt-get purge vlm")
    folders = "/var/lib/vlmd /var/lib/private/vlmd /usr/libexec/vlm"
    left = machine.run(f"getent group vlm; ls -d {folders} 2>/dev/null").stdout
    yield from difference(left, "")


def with_systemd(program):
    """What is wrong with the lock service on a machine that systemd has booted."""
    with root_with_packages("a-machine", program) as root:
        root.need("apt-get install systemd-sysv dbus libuv1 libssl3")
        with Machine(root.folder) as machine:
            for step in (is_served, is_started_again, is_replicated, is_kept):
                yield from (f"{step.__name__}: {it}" for it in step(machine))


# Each user: what apt installs, and the steps.
USERS = {
    "a user who locks": ("cd /packages && apt install ./*.deb",
                         (plays, locks, reads, uses_python, tells_proof, has_units, upgrades, leaves)),
    "a user who programs": (f"apt-get install {COMPILERS} /packages/libvlm*.deb",
                            (compiles, uses_cmake, uses_cargo, goes_on)),
    "a user of pip and the archive": ("apt-get install python3-venv libuv1 libssl3", (has_wheel, has_archive)),
}


def lives(name, program):
    """What is wrong with the steps of a user in a root of their own."""
    installs, steps = USERS[name]
    with root_with_packages(name.replace(" ", "-"), program) as root:
        root.need(installs)
        for step in steps:
            yield from (f"{step.__name__}: {it}" for it in step(root))


def user(name):
    return Test(name, lambda program: lives(name, program))


def once():
    found = [Test("./vlm package, and a copy of the tree", by_command), Test("the list of SPDX", listed_content),
             Test("a call that has gone", missing_call)]
    found += [Test("lintian", checked_by_lintian)] * bool(shutil.which("lintian"))
    if not clean_roots.missing():
        found += [user(name) for name in USERS]
        found += [Test("a machine with systemd", with_systemd)] * bool(shutil.which("systemd-nspawn"))
    return found
