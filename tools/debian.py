"""Makes the packages of Debian from the files of an installation, with dpkg's own tools. The folder packaging has what
they tell of themselves, and their scripts."""

import gzip
import hashlib
import os
import shutil
import subprocess
import sys
from datetime import datetime, timezone
from email.utils import format_datetime
from pathlib import Path

from libraries import TLS_LIBRARY, fits_of
from packages import write_packages
from project import MISSING, TOP, UNANSWERED, fail
from staging import DOCUMENTS, names_in, set_modes

PACKAGING = TOP / "packaging"
PYTHON = TOP / "bindings" / "python"
TOOLS = ("dpkg-gensymbols", "dpkg-shlibdeps", "dpkg-gencontrol", "dpkg-deb", "strip")
# Where Debian has libraries, below usr.
PLACE = "lib/x86_64-linux-gnu"
MODULES = "usr/lib/python3/dist-packages"
# What each package has of an installation: files and folders there, and their place in the package.
CONTENT = {
    "libvlm@FITS@": (("lib/libvlm.so.*", f"usr/{PLACE}"), ("lib/libvlm-tls.so.*", f"usr/{PLACE}")),
    "libvlm-dev": (("include/*", "usr/include"), ("lib/libvlm*.a", f"usr/{PLACE}"), ("lib/libvlm.so", f"usr/{PLACE}"),
                   ("share/man/man3/*", "usr/share/man/man3")),
    "vlm": (("bin/*", "usr/bin"), ("libexec/vlm/vlm", "usr/libexec/vlm"),
            ("libexec/vlm/list/*", "usr/libexec/vlm/list"), ("share/man/man1/vlm*", "usr/share/man/man1"),
            ("share/man/man7/*", "usr/share/man/man7"), ("share/man/man8/*", "usr/share/man/man8"),
            ("lib/systemd/system/*", "lib/systemd/system"),
            ("share/bash-completion/completions/vlm", "usr/share/bash-completion/completions"),
            ("share/vlm/vlmd.conf", "etc"), ("share/vlm/proved", "usr/share/vlm")),
    "libvlm-doc": ((f"{DOCUMENTS}/*", "usr/share/doc/libvlm-doc"),),
    "python3-vlm": (),
}
# The packages with proved code. Each has the record of its proof.
WITH_CODE = ("libvlm@FITS@", "libvlm-dev", "vlm")
PYTHON_COMMAND = """#!/usr/bin/python3
import sys

from vlm.draw.command import main

sys.exit(main())
"""


def ran(*words, folder):
    """Runs a command of dpkg."""
    ended = subprocess.run([str(word) for word in words], cwd=folder, capture_output=True, text=True)
    if ended.returncode:
        fail(MISSING, f"{words[0]} fails: {ended.stderr.strip()[-1500:]}")


def epoch():
    """The time that all packed files get, in seconds."""
    return int(os.environ["SOURCE_DATE_EPOCH"])


class Maker:
    """Makes the packages of one installation: the folder of its files, their version, and a folder to work in."""

    def __init__(self, staged, version, room):
        self.staged, self.version, self.room = staged, version, room
        maintainer = (PACKAGING / "maintainer").read_text().strip()
        date = format_datetime(datetime.fromtimestamp(epoch(), timezone.utc))
        self.values = {"@VERSION@": version, "@FITS@": fits_of(version), "@MAINTAINER@": maintainer, "@DATE@": date}
        (room / "debian").mkdir()
        for name in ("control", "changelog", "libvlm.symbols"):
            (room / "debian" / name).write_text(self.filled((PACKAGING / name).read_text()))

    def filled(self, text):
        for word, value in self.values.items():
            text = text.replace(word, value)
        return text

    def tree(self, package):
        return self.room / "trees" / package

    def put_content(self, package, content):
        """Puts files of the installation into the tree of a package, as Debian wants them."""
        for pattern, place in content:
            folder = self.tree(package) / place
            folder.mkdir(parents=True, exist_ok=True)
            for file in sorted(self.staged.glob(pattern)):
                put(file, folder / file.name)

    def put_documents(self, package, has_code):
        folder = self.tree(package) / "usr" / "share" / "doc" / package
        folder.mkdir(parents=True, exist_ok=True)
        shutil.copy(PACKAGING / "copyright", folder)
        (folder / "changelog.gz").write_bytes(packed((self.room / "debian" / "changelog").read_bytes()))
        if has_code:
            shutil.copy(self.staged / "share" / "vlm" / "proved", folder)
        overrides = PACKAGING / f"{package}.lintian-overrides"
        if overrides.exists():
            put(overrides, self.tree(package) / "usr" / "share" / "lintian" / "overrides" / package)

    def put_scripts(self, package):
        folder = self.tree(package) / "DEBIAN"
        folder.mkdir(parents=True)
        for script in ("postinst", "prerm", "postrm"):
            source = PACKAGING / f"{package}.{script}"
            if source.exists():
                shutil.copy(source, folder / script)
                (folder / script).chmod(0o755)

    def finish_library(self):
        """Checks that the library shows the calls of its list of symbols, and tells the loader of it."""
        fits, tree = fits_of(self.version), self.tree(f"libvlm{fits_of(self.version)}")
        library = tree / "usr" / PLACE / f"libvlm.so.{self.version}"
        for made in (library, tree / "usr" / PLACE / TLS_LIBRARY):
            ran("strip", "--strip-unneeded", "--remove-section=.comment", made, folder=self.room)
            made.chmod(0o644)
        # (told the version in which a call came, dpkg-gensymbols would let it go again)
        told = subprocess.run(["dpkg-gensymbols", "-c4", f"-plibvlm{fits}", f"-v{self.version}+", f"-P{tree}",
                               f"-e{library}", f"-I{self.room}/debian/libvlm.symbols", f"-O{tree}/DEBIAN/symbols"],
                              cwd=self.room, capture_output=True, text=True)
        if told.returncode:
            fail(UNANSWERED, "the calls of the library are not those of packaging/libvlm.symbols:\n" + told.stdout)
        names = (f"libvlm {fits}", TLS_LIBRARY.replace(".so.", " "))
        (tree / "DEBIAN" / "shlibs").write_text("".join(f"{it} libvlm{fits} (>= {self.version})\n" for it in names))
        (tree / "DEBIAN" / "triggers").write_text("activate-noawait ldconfig\n")

    def finish_development(self):
        tree = self.tree("libvlm-dev")
        ran("strip", "--strip-debug", "--remove-section=.comment", "--enable-deterministic-archives",
            *sorted((tree / "usr" / PLACE).glob("*.a")), folder=self.room)
        write_packages(tree / "usr" / PLACE, self.version, PLACE, "/usr")

    def finish_program(self):
        tree = self.tree("vlm")
        for name in ("vlm", "vlmd"):
            ran("strip", "--remove-section=.comment", tree / "usr" / "bin" / name, folder=self.room)
        (tree / "DEBIAN" / "conffiles").write_text("/etc/vlmd.conf\n")

    def finish_python(self):
        """Puts the package for Python into its tree, as pip would install it, and its command."""
        sys.path.insert(0, str(PYTHON))
        import wheels
        tree = self.tree("python3-vlm")
        for name, text in wheels.installed_files(self.version).items():
            write(tree / MODULES / name, text)
        write(tree / "usr" / "bin" / "vlm-draw", PYTHON_COMMAND.encode())
        (tree / "usr" / "bin" / "vlm-draw").chmod(0o755)
        put(TOP / "man" / "vlm-draw.1", tree / "usr" / "share" / "man" / "man1" / "vlm-draw.1")

    def pack(self, package, folder):
        """Makes a package of its tree."""
        tree, room = self.tree(package), self.room
        programs = [it for it in sorted(tree.rglob("*")) if is_program(it)]
        # (programs without TLS need no OpenSSL)
        optional = [it for it in programs if it.name == TLS_LIBRARY]
        needed = [it for it in programs if it not in optional]
        substitutes = room / f"{package}.substvars"
        substitutes.touch()
        if programs:
            ran("dpkg-shlibdeps", f"-T{substitutes}", f"-xlibvlm{fits_of(self.version)}", *needed,
                *["-dRecommends"] * bool(optional), *optional, folder=room)
        set_modes(tree)
        write(tree / "DEBIAN" / "md5sums", sums_of(tree).encode())
        ran("dpkg-gencontrol", f"-p{package}", f"-P{tree}", f"-T{substitutes}", f"-f{room}/files", "-cdebian/control",
            "-ldebian/changelog", folder=room)
        set_times(tree)
        ran("dpkg-deb", "--root-owner-group", "-Zxz", "--threads-max=1", "--build", tree, folder, folder=room)

    def make(self, folder):
        """Makes all packages in a folder."""
        for name, content in CONTENT.items():
            package = self.filled(name)
            self.put_scripts(package)
            self.put_content(package, content)
            self.put_documents(package, name in WITH_CODE)
        self.finish_library()
        self.finish_development()
        self.finish_program()
        self.finish_python()
        for name in CONTENT:
            self.pack(self.filled(name), folder)


def is_program(file):
    """Whether a file is a program or a shared library."""
    return file.is_file() and not file.is_symlink() and file.read_bytes()[:4] == b"\x7fELF"


def packed(text):
    """Bytes as gzip packs them, without a time."""
    return gzip.compress(text, 9, mtime=0)


def write(file, text):
    file.parent.mkdir(parents=True, exist_ok=True)
    file.write_bytes(text)
    file.chmod(0o644)


def put(file, place):
    """Copies a file, a link or a folder to its place in a package. Manual pages are packed, and a page that only leads
    to another becomes a link to it."""
    text = b"" if file.is_dir() else file.read_bytes()
    if file.is_symlink():
        place.symlink_to(os.readlink(file))
    elif file.is_dir():
        shutil.copytree(file, place)
    elif "share/man" in str(place) and text.startswith(b".so "):
        place.with_name(place.name + ".gz").symlink_to(Path(text.decode().split()[1]).name + ".gz")
    elif "share/man" in str(place):
        write(place.with_name(place.name + ".gz"), packed(text))
    else:
        write(place, text)
        place.chmod(0o755 if os.access(file, os.X_OK) else 0o644)


def sums_of(tree):
    """The checksums of a package's files, as dpkg checks them."""
    names = [it for it in names_in(tree) if not it.startswith("DEBIAN/") and not (tree / it).is_symlink()]
    return "".join(f"{hashlib.md5((tree / it).read_bytes()).hexdigest()}  {it}\n" for it in names)


def set_times(tree):
    for file in [tree, *tree.rglob("*")]:
        os.utime(file, (epoch(), epoch()), follow_symlinks=False)


def need_tools():
    """Wants dpkg's tools, before anything that takes long."""
    absent = [tool for tool in TOOLS if not shutil.which(tool)]
    if absent:
        fail(MISSING, f"{absent[0]} is not there: install dpkg-dev and binutils")


def make_debian(staged, version, folder, room):
    """Makes the packages of Debian in a folder, from the files of an installation."""
    Maker(staged, version, room).make(folder)
