"""The program that `make install` puts on the path, beside a stand-in for the proved one."""

import pathlib
import subprocess
import tempfile
import unittest

from tests.tools import TOOLS, TOP

STAND_IN = """#!/bin/sh
[ "$*" != --version ] || { echo "flashplay 1.2.3"; exit 0; }
echo "$#: $*"
cat
exit 3
"""


class Installed(unittest.TestCase):
    def setUp(self):
        folder = tempfile.TemporaryDirectory()
        self.addCleanup(folder.cleanup)
        self.folder = pathlib.Path(folder.name)
        library, path = self.folder / "lib/mintlintel", self.folder / "bin"
        library.mkdir(parents=True)
        path.mkdir()
        programs = {"flashplay": STAND_IN, "flashplay-image": STAND_IN.replace("exit 3", "exit 4"), "flashplay-cuts": STAND_IN.replace("exit 3", "exit 5")}
        for file, text in {**{library / name: text for name, text in programs.items()}, path / "flashplay": (TOOLS / "flashplay").read_text()}.items():
            file.write_text(text)
            file.chmod(0o755)
        (library / "BUILT_FROM").write_text("commit 1a2b\nproved with kit-1 logic 11\n")

    def run_it(self, *words, given=""):
        done = subprocess.run([self.folder / "bin/flashplay", *words], input=given, capture_output=True, text=True)
        return done.returncode, done.stdout, done.stderr

    def test_version_names_commit_and_toolchain(self):
        for word in ("--version", "-V"):
            self.assertEqual(self.run_it(word), (0, "flashplay 1.2.3\ncommit 1a2b\nproved with kit-1 logic 11\n", ""))

    def test_passes_on_arguments_streams_and_status(self):
        self.assertEqual(self.run_it(given="a trace"), (3, "0: \na trace", ""))
        self.assertEqual(self.run_it("--wear", "a file", "*", "", given=""), (3, "4: --wear a file * \n", ""))
        self.assertEqual(self.run_it("--blocks=2", "--version"), (3, "2: --blocks=2 --version\n", ""))

    def test_calls_of_an_image_go_to_its_program(self):
        for words in (("image", "disk.img"), ("--image", "disk.img"), ("--quiet", "--image=disk.img"), ("image", "--help")):
            self.assertEqual(self.run_it(*words, given="a trace"), (4, f"{len(words)}: {' '.join(words)}\na trace", ""))
        status, told, _ = self.run_it("--help")
        self.assertEqual((status, told.splitlines()[0]), (3, "1: --help"))

    def test_calls_of_cuts_go_to_its_program_without_that_word(self):
        self.assertEqual(self.run_it("cuts", "--seed", "1", given="a trace"), (5, "2: --seed 1\na trace", ""))
        self.assertEqual(self.run_it("cuts"), (5, "0: \n", ""))

    def test_refuses_arguments_of_cuts_that_are_not_text(self):
        for words in ((b"\xff",), (b"--seed", b"1", b"--pages=\xc3")):
            self.assertEqual(self.run_it("cuts", *words), (2, "", "flashplay: cuts: an argument isn't UTF-8\n"))
            self.assertEqual(subprocess.run([TOP / "flashplay", "cuts", *words], capture_output=True, text=True).returncode, 2)
        self.assertEqual(self.run_it("cuts", "--pages=é"), (5, "1: --pages=é\n", ""))

    def test_the_tools_are_words_of_it(self):
        tool = self.folder / "bin/flashplay-simulate"
        tool.write_text(STAND_IN)
        tool.chmod(0o755)
        self.assertEqual(self.run_it("simulate", "a log", "--out", "", given="lines"), (3, "3: a log --out \nlines", ""))
        (self.folder / "flashplay").symlink_to(self.folder / "bin/flashplay")
        done = subprocess.run([self.folder / "flashplay", "simulate", "--help"], capture_output=True, text=True)
        self.assertEqual((done.returncode, done.stdout), (3, "1: --help\n"))
