"""Replicas of vlmd over etcd, as they are installed: members of etcd that fail, chunks, two replicas by their lines, a
leader that hangs, programs over replicas, and two minutes of faults. They need etcd, Debian's Python with its package
etcd3, and the header of libuv, and are skipped without them."""

import os
import shutil
import subprocess

import library
import replicated_clients
import tls_keys
from harness import Test, TOP

PROGRAMS = TOP / "tests" / "replicated"
# The Python for which Debian packs the client library of etcd.
DEBIAN_PYTHON = "/usr/bin/python3"
FAULT_SECONDS, LONGEST = 120, 400
# The tests that need certificates.
WITH_KEYS = "test_tls.py"


def has_etcd3():
    """Whether Debian's Python has the client library."""
    words = [DEBIAN_PYTHON, "-c", "import etcd3"]
    return os.path.exists(DEBIAN_PYTHON) and not subprocess.run(words, capture_output=True).returncode


def missing():
    """What is not there that these tests need."""
    return ["etcd"] * (not shutil.which("etcd")) + ["python3-etcd3"] * (not has_etcd3()) \
        + ["uv.h of libuv1-dev"] * (not library.has_uv())


def installed(_program):
    """The library is installed where the part `library` installs it."""
    if not (library.prefix() / "bin" / "vlmd").exists():
        yield from library.installed(None)


def runs(name, *words):
    """A test that a program ends well."""
    def check(_program):
        keys = {"VLM_KEYS": str(tls_keys.KEYS())} if name == WITH_KEYS else {}
        env = {**os.environ, **keys, "VLM_PREFIX": str(library.prefix()), "PYTHONDONTWRITEBYTECODE": "1"}
        return library.ran(DEBIAN_PYTHON, name, *words, cwd=PROGRAMS, env=env, seconds=LONGEST)

    return check


def first():
    return [] if missing() else [Test("the library", installed)]


def over_etcd():
    """The tests, whether they can run here or not."""
    return [Test("members of etcd that fail, and chunks", runs("test_list.py")),
            Test("replicas by their lines", runs("test_service.py")),
            Test("settings of replicas", runs("test_settings.py")),
            Test("the sessions of the page", runs("test_page.py")),
            *[Test("TLS to clients and to etcd", runs(WITH_KEYS))] * library.has_openssl(),
            Test("a leader of etcd that hangs", runs("hang.py", "--clients", 12, "--seconds", 5, "--lease", 20)),
            Test("leases while etcd's leader or their clients hang",
                 runs("leases.py", "--pairs", 10, "--fault", "leader for long", "--fault", "clients")),
            *replicated_clients.tests(),
            Test("two minutes of faults", runs("faults.py", "--seconds", FAULT_SECONDS))]


def once():
    return [] if missing() else over_etcd()
