"""What a wheel is built from, and what its builder is told, beside a stand-in for the library's Makefile."""

import os
import pathlib
import shutil
import subprocess
import sys
import tempfile
import unittest
import zipfile

PYTHON = pathlib.Path(__file__).resolve().parents[1]
VERSION = next(line.split('"')[1] for line in (PYTHON / "pyproject.toml").read_text().splitlines() if line.startswith("version"))
MAKEFILE = """all quick:
\t@echo made $@ >>made; echo checked low::first, 1 of 3; [ ! -e fails ] || { echo "low is not proved"; exit 1; }
\t@mkdir -p out/quick; echo "$$SAYS" >out/libmintlintel.so; echo "0.1.0, not proved" >out/quick/libmintlintel.so
"""
BUILD = "import sys, packing; packing.TOLD_EACH = 0; print(packing.build_wheel(sys.argv[1]))"


class Packing(unittest.TestCase):
    def setUp(self):
        folder = tempfile.TemporaryDirectory()
        self.addCleanup(folder.cleanup)
        self.top = pathlib.Path(folder.name)
        shutil.copytree(PYTHON, self.top / "python", ignore=shutil.ignore_patterns("__pycache__", "tests"))
        (self.top / "Makefile").write_text(MAKEFILE)
        (self.top / "bin").mkdir()
        (self.top / "bin/rt").write_text("#!/bin/sh\n")
        (self.top / "bin/rt").chmod(0o755)

    def build(self, says="0.1.0", path="", **environment):
        """The status of a build, its wheel's name, and what it told. There is no terminal."""
        given = {name: value for name, value in os.environ.items() if not name.startswith("MINTLINTEL")} | {"SAYS": says, **environment}
        given["PATH"] = path or f"{self.top / 'bin'}:{given['PATH']}"
        call = [sys.executable, "-B", "-c", BUILD, self.top]
        done = subprocess.run(call, cwd=self.top / "python", env=given, capture_output=True, text=True, start_new_session=True)
        return done.returncode, (done.stdout.splitlines() or [""])[-1], done.stderr

    def made(self):
        return (self.top / "made").read_text().split()

    def test_makes_the_proved_library_and_tells_how_far_it_is(self):
        status, name, told = self.build()
        self.assertEqual((status, name.split("-")[:2], self.made()), (0, ["mintlintel", VERSION], ["made", "all"]))
        first, second = told.splitlines()
        self.assertRegex(first, r"^mintlintel: make -C .* all: a whole proof takes half an hour or more .*MINTLINTEL_UNPROVED=1, in two to four minutes$")
        self.assertEqual(second, "mintlintel: low: 1 of 3 functions are proved, after 0 min 0 s")

    def test_takes_the_library_without_proof_when_told(self):
        status, name, told = self.build(MINTLINTEL_UNPROVED="1")
        self.assertEqual((status, name.split("-")[:2], self.made()), (0, ["mintlintel", f"{VERSION}+unproved"], ["made", "quick"]))
        self.assertIn("quick: the library without proof, in two to four minutes\n", told)
        with zipfile.ZipFile(self.top / name) as wheel:
            self.assertIn(f"\nVersion: {VERSION}+unproved\n", wheel.read(f"mintlintel-{VERSION}+unproved.dist-info/METADATA").decode())

    def test_takes_the_library_of_a_folder(self):
        self.build(MINTLINTEL_UNPROVED="1")
        quick = str(self.top / "out/quick")
        for given, wanted in (({}, 1), ({"MINTLINTEL_UNPROVED": "1"}, 0)):
            self.assertEqual(self.build(MINTLINTEL_LIB=quick, **given)[0], wanted)
        self.assertEqual(self.made(), ["made", "quick"])

    def test_each_refusal_names_its_cure(self):
        for given, said in (
            ({"says": "0.1.0, not proved"}, "is not proved, and is not packed; the library without proof is taken by MINTLINTEL_UNPROVED=1"),
            ({"path": str(self.top / "none")}, "its toolchain, rt, isn't on the path: MINTLINTEL_LIB names a folder"),
            ({"MINTLINTEL_LIB": "/no/such"}, "/no/such/libmintlintel.so isn't there: make -C bindings makes it in bindings/out"),
        ):
            status, name, told = self.build(**given)
            self.assertEqual((status, said in told), (1, True), told)
        (self.top / "fails").touch()
        status, name, told = self.build()
        self.assertEqual((status, told.splitlines()[-1].endswith("the library without proof is taken by MINTLINTEL_UNPROVED=1")), (1, True), told)
        (self.top / "Makefile").unlink()
        self.assertIn("this folder has no library's sources: MINTLINTEL_LIB names a folder", self.build()[2])


if __name__ == "__main__":
    unittest.main()
