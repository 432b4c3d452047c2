"""Makes the files of an installation in a folder: what `./vlm install` puts into PREFIX, and what packages are made
of."""

import os
import shutil
import subprocess

from libraries import TLS_LIBRARY, has_openssl, has_uv, make_commands, make_daemon, make_libraries, make_tls
from manual_pages import write_manual_pages
from packages import write_packages
from project import TOP, UNANSWERED, VERSION, fail, say
from proof_record import record_text

DOCUMENTS = "share/doc/vlm"
# The list of all files.
FILES = "share/vlm/files"
# Each after those that it is in.
FOLDERS = ("bin", "include", "include/vlm-vms", "lib", "lib/pkgconfig", "lib/cmake", "lib/cmake/vlm", "libexec",
           "libexec/vlm", "share", "share/bash-completion", "share/bash-completion/completions", "share/doc", DOCUMENTS,
           f"{DOCUMENTS}/docs", f"{DOCUMENTS}/examples", f"{DOCUMENTS}/examples/c", f"{DOCUMENTS}/vms",
           f"{DOCUMENTS}/vms/examples", "share/man", "share/man/man1", "share/man/man3", "share/vlm")
SERVICE_FOLDERS = ("lib/systemd", "lib/systemd/system", "libexec/vlm/list", "share/man/man7", "share/man/man8")
HEADERS = sorted((TOP / "include").glob("*.h*"))
# Files that are installed as they are, and their folders. The documents keep their places, so that their links lead to
# each other.
COPIED = {
    **{header: "include" for header in HEADERS},
    **{header: "include/vlm-vms" for header in sorted((TOP / "vms" / "include").glob("*.h"))},
    TOP / "man" / "vlm.1": "share/man/man1",
    TOP / "man" / "vlm-lock.1": "share/man/man1",
    TOP / "man" / "vlm-who.1": "share/man/man1",
    TOP / "man" / "vlm.3": "share/man/man3",
    **{TOP / name: DOCUMENTS for name in ("README.md", "CHANGELOG.md", "SECURITY.md")},
    **{page: f"{DOCUMENTS}/docs" for page in sorted((TOP / "docs").glob("*"))},
    **{example: f"{DOCUMENTS}/examples/c" for example in sorted((TOP / "examples" / "c").glob("*"))},
    **{example: f"{DOCUMENTS}/vms/examples" for example in sorted((TOP / "vms" / "examples").glob("*"))},
}
# Of the service.
SERVICE = {
    **{file: "libexec/vlm/list" for file in sorted((TOP / "service" / "list").glob("*")) if file.is_file()},
    TOP / "service" / "systemd" / "vlmd.service": "lib/systemd/system",
    TOP / "service" / "systemd" / "vlmd.socket": "lib/systemd/system",
    TOP / "service" / "vlmd.conf": "share/vlm",
    TOP / "man" / "vlm-protocol.7": "share/man/man7",
    TOP / "man" / "vlmd.8": "share/man/man8",
}


def folders():
    return FOLDERS + SERVICE_FOLDERS * has_uv()


def need_version(program):
    """Wants a program of the version that all else has."""
    told = subprocess.run([program, "--version"], capture_output=True, text=True)
    if told.returncode or told.stdout != f"vlm {VERSION}\n":
        fail(UNANSWERED, f"the program tells another version than {VERSION}, that of the file VERSION")


def make_files(made, program, archive, version=VERSION):
    """Makes all files of an installation in a folder, from the proved program and the proved archive. One of them lists
    all of them."""
    need_version(program)
    for name in folders():
        (made / name).mkdir()
    make_libraries(made / "lib", archive, version)
    write_packages(made / "lib", version)
    shutil.copy(program, made / "libexec" / "vlm" / "vlm")
    make_commands(made / "bin" / "vlm")
    shutil.copy(TOP / "service" / "commands" / "completion.bash", made / "share/bash-completion/completions/vlm")
    if has_openssl():
        make_tls(made / "lib" / TLS_LIBRARY)
    else:
        say("TLS is left out: there are no headers of OpenSSL 3 (Debian has them in libssl-dev)")
    copied = dict(COPIED)
    if has_uv():
        make_daemon(made / "bin" / "vlmd", made / "lib")
        copied.update(SERVICE)
    else:
        say("the lock service is left out: there is no uv.h (Debian has it in libuv1-dev)")
    for file, folder in copied.items():
        shutil.copy(file, made / folder)
    write_manual_pages(made / "share" / "man" / "man3", [it for it in HEADERS if it.suffix == ".h"], version)
    (made / "share" / "vlm" / "proved").write_text(record_text(program, archive, version))
    listed = made / FILES
    listed.touch()
    listed.write_text("".join(f"{name}\n" for name in names_in(made)))
    set_modes(made)


def set_modes(folder):
    """Gives files and folders the usual modes: the clone of a user whose umask is another one has others."""
    for it in folder.rglob("*"):
        if not it.is_symlink():
            it.chmod(0o755 if it.is_dir() or os.access(it, os.X_OK) else 0o644)


def names_in(folder):
    """The paths of the files and links in a folder."""
    return sorted(str(file.relative_to(folder)) for file in folder.rglob("*") if file.is_symlink() or file.is_file())
