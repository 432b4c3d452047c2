"""How the package finds the library, in programs of their own."""

import os
import shutil
import subprocess
import sys
import tempfile
import unittest
from pathlib import Path

import vlm
from vlm._library import LIBRARY

FOLDER = Path(__file__).resolve().parents[1]
NOWHERE = "/nowhere/libvlm.so.0.2"


def ended(program, folder="/", **variables):
    """A program that ran in a folder with the package and these variables."""
    env = {name: value for name, value in os.environ.items() if name not in ("VLM_LIBRARY", "VLM_PREFIX")}
    return subprocess.run([sys.executable, "-c", program], capture_output=True, text=True, timeout=60, cwd=folder,
                          env={**env, "PYTHONPATH": str(FOLDER), **variables})


def imported(folder="/", **variables):
    """What a program says that makes a call of the library."""
    made = ended("import vlm; vlm.LockManager().close(); print('imported')", folder, **variables)
    return made.stdout or made.stderr.splitlines()[-1]


class Library(unittest.TestCase):
    def setUp(self):
        self.room = tempfile.TemporaryDirectory()
        self.addCleanup(self.room.cleanup)
        self.lib = Path(self.room.name) / "lib"
        self.lib.mkdir()
        vlm.LockManager().close()
        self.file = Path(LIBRARY._name)
        if not self.file.is_absolute():
            self.skipTest("the library is where the loader looks, and these tests need its file")

    def test_a_file_is_named(self):
        self.assertEqual(imported(VLM_LIBRARY=str(self.file)), "imported\n")
        self.assertEqual(imported(VLM_LIBRARY=str(self.file), VLM_PREFIX="/nowhere"), "imported\n")

    def test_a_prefix_is_named(self):
        (self.lib / "libvlm.so.0.2").symlink_to(self.file)
        self.assertEqual(imported(VLM_PREFIX=self.room.name), "imported\n")

    def test_an_empty_prefix_names_no_folder(self):
        (self.lib / "libvlm.so.0.2").write_text("no library")
        (Path(self.room.name) / "libvlm.so.0.2").symlink_to(self.file)
        self.assertEqual(imported(self.room.name, VLM_PREFIX="", LD_LIBRARY_PATH=self.room.name), "imported\n")

    def test_a_wheel_has_it(self):
        shutil.copytree(FOLDER / "vlm", self.lib / "vlm")
        shutil.copy(self.file, self.lib / "vlm" / "libvlm.so.0.2")
        self.assertEqual(imported(PYTHONPATH=str(self.lib)), "imported\n")
        self.assertIn("ImportError: ", imported(PYTHONPATH=str(self.lib), VLM_LIBRARY="/nowhere/libvlm.so"))

    def test_the_loader_finds_it(self):
        (self.lib / "libvlm.so.0.2").symlink_to(self.file)
        self.assertEqual(imported(LD_LIBRARY_PATH=str(self.lib)), "imported\n")
        self.assertEqual(imported(LD_LIBRARY_PATH=str(self.lib), VLM_PREFIX="/nowhere"), "imported\n")

    def test_a_program_that_makes_no_call_needs_no_library(self):
        made = ended("import vlm.script, vlm.draw.command; print(vlm.script.lines_of(b'show'))", VLM_LIBRARY=NOWHERE)
        self.assertEqual((made.stdout, made.stderr), ("[b'show']\n", ""))

    def test_it_is_not_there(self):
        for call in ("LockManager()", "Shared()", "Hub(1)", "connect('/nowhere')", "Condition.ABORT.manual_name"):
            with self.subTest(call):
                error = ended(f"import vlm\nvlm.{call}", VLM_LIBRARY=NOWHERE).stderr
                self.assertEqual(error.count("Traceback"), 1)
                self.assertRegex(error, rf"\nImportError: the library {NOWHERE} of the lock manager can't be used: "
                                        r".* ./vlm install PREFIX.*\n\Z")

    def test_the_command_says_so_too(self):
        program = "import runpy, sys; sys.argv[1:] = ['/dev/null']; runpy.run_module('vlm.draw')"
        made = ended(program, VLM_LIBRARY=NOWHERE)
        self.assertRegex(made.stderr, rf"\Athe library {NOWHERE} of the lock manager can't be used: .*\n\Z")

    def test_it_is_another_library(self):
        (self.lib / "libvlm.so.0.2").write_text("no library")
        self.assertIn("ImportError: the library ", imported(VLM_PREFIX=self.room.name))
        self.assertIn("vlm_version", imported(VLM_LIBRARY="libc.so.6"))

    def test_it_has_another_version(self):
        program = "import vlm; vlm._library.VERSION = {:#08x}; vlm.Shared().close(); print('opened')"
        for version, is_fit in ((0x200, True), (0x2ff, True), (0x100, False), (0x300, False), (0x10200, False)):
            with self.subTest(version):
                made = ended(program.format(version), VLM_LIBRARY=str(self.file))
                wanted = r"\Aopened\n\Z" if is_fit else r"ImportError: the library .* it is of version 0\.2, and "
                self.assertRegex(made.stdout + made.stderr, wanted)


if __name__ == "__main__":
    unittest.main()
