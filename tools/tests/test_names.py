"""The tools by their installed names: usage, faults, version, manual pages and completion."""

import contextlib
import pathlib
import re
import subprocess
import tempfile
import unittest

from tests.tools import TOOLS, TOP

NAMES = ("trace", "simulate", "report", "sweep", "model", "crash")
# What stands for the program: its help has an option, a status and a fault of two lines.
PROGRAM = """#!/bin/sh
echo 'Plays a trace.

Usage: flashplay [OPTIONS]

Options:
      --blocks <N>  Blocks [default: 64]

Status: 0 everything was written; 1 input failed.

Faults, on standard error:
  wear: failed, collections: failed
                    the file is not complete: run again'
"""
# What stands for the program over an image.
IMAGE_PROGRAM = """#!/bin/sh
echo 'Options:
      --image FILE  The file
      --sync {always,never}  When'
"""
CUTS_PROGRAM = """#!/bin/sh
echo 'Options:
      --cut-every <N>  Cuts the power'
"""


PROGRAMS = {"flashplay": PROGRAM, "flashplay-image": IMAGE_PROGRAM, "flashplay-cuts": CUTS_PROGRAM}


@contextlib.contextmanager
def installed():
    """A folder with links to the tools by their installed names, and a program."""
    with tempfile.TemporaryDirectory() as folder:
        folder = pathlib.Path(folder)
        for name in NAMES:
            (folder / f"flashplay-{name}").symlink_to(TOOLS / name)
        for name, text in PROGRAMS.items():
            (folder / name).write_text(text)
            (folder / name).chmod(0o755)
        yield folder


def told(*words):
    return subprocess.run([str(word) for word in words], stdin=subprocess.DEVNULL, capture_output=True, text=True)


class Names(unittest.TestCase):
    def test_tools_call_themselves_by_the_name_that_they_were_called_by(self):
        with installed() as folder:
            for name in NAMES:
                own = f"flashplay-{name}"
                with self.subTest(name):
                    text = told(folder / own, "--help").stdout
                    self.assertTrue(text.startswith(f"usage: {own} "), text[:80])
                    self.assertNotRegex(text, rf"tools/|(?<!flashplay-)\b{name} (make|--|LOG|ANSWERS)")
                    self.assertRegex(told(folder / own, "--no-such-option").stderr, rf"(?m)^{own}: error: ")
            self.assertTrue(told(folder / "flashplay-report", folder / "none").stderr.startswith("flashplay-report: "))
            self.assertTrue(told(folder / "flashplay-trace", "make", "zipf").stderr.startswith("usage: flashplay-trace make KIND"))

    def test_version_is_that_of_the_changes(self):
        version = re.search(r"^## (\S+)$", (TOP / "CHANGELOG.md").read_text(), re.M)[1]
        with installed() as folder:
            for name in NAMES:
                self.assertEqual(told(folder / f"flashplay-{name}", "--version").stdout, f"flashplay-{name} {version}\n")
                self.assertEqual(told(TOOLS / name, "--version").stdout, f"{name} {version}\n")

    def test_manual_pages_have_examples_and_name_the_other_pages(self):
        for name in NAMES:
            page = told(TOP / "packaging/tool-manual", name, "1.2.3").stdout
            with self.subTest(name):
                self.assertNotIn("tools/", page)
                sections = re.split(r"^\.SH ", page, flags=re.M)
                titles = [section.splitlines()[0] for section in sections[1:]]
                self.assertLessEqual({"NAME", "SYNOPSIS", "DESCRIPTION", "EXAMPLES", "OPTIONS", "EXIT STATUS", "SEE ALSO"}, set(titles))
                examples = next(section for section in sections if section.startswith("EXAMPLES"))
                self.assertIn(f"flashplay\\-{name} ", examples)

    def test_manual_of_the_program_takes_options_statuses_and_faults_from_its_help(self):
        with installed() as folder:
            page = told(TOP / "packaging/manual", *(folder / name for name in PROGRAMS), "1.2.3").stdout
        options = ["\\-\\-blocks <N>\\fR\nBlocks", "\\-\\-image FILE\\fR\nThe file\n", "\\-\\-cut\\-every <N>\\fR\nCuts the power\n"]
        for text in ("Mintlintel 1.2.3", *options, "\\fB1\\fR\ninput failed\n", "wear: failed, collections: failed\\fR\nthe file is not"):
            self.assertIn(text, page)
        titles = re.findall(r"^\.SH (.*)$", page, re.M)
        wanted = "NAME,SYNOPSIS,DESCRIPTION,EXAMPLES,OPTIONS,DEVICES IN A FILE,POWER CUTS,FILES,EXIT STATUS,DIAGNOSTICS,SEE ALSO"
        self.assertEqual(",".join(titles), wanted)
        self.assertNotRegex(page, r"@[A-Z]+@")

    def test_completion_offers_options_commands_and_choices(self):
        ask = 'source "$1"; shift; COMP_WORDS=("$@"); COMP_CWORD=$(($# - 1)); _flashplay; echo "${COMPREPLY[*]}"'
        with installed() as folder:
            script = folder / "completion"
            script.write_text(told(TOP / "packaging/completion", "bash", *(folder / name for name in PROGRAMS)).stdout)
            for words, wanted in (
                (("flashplay", "--b"), "--blocks"),
                (("flashplay", "--i"), "--image"),
                (("flashplay", "im"), "image"),
                (("flashplay", "cu"), "cuts"),
                (("flashplay", "si"), "simulate"),
                (("flashplay", "--cu"), "--cut-every"),
                (("flashplay", "--sync", "n"), "never"),
                (("/usr/bin/flashplay-trace", ""), "make convert join --help --version"),
                (("flashplay-trace", "make", "z"), "zipf"),
                (("flashplay-trace", "convert", "--action", ""), "Q D C"),
                (("flashplay-report", "--erases"), "--erases-picture"),
                (("flashplay-report", "answ"), ""),
            ):
                done = told("bash", "-uc", ask, "bash", script, *words)
                self.assertEqual((done.stdout, done.stderr), (f"{wanted}\n", ""), words)
