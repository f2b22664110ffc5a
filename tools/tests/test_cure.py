"""The line behind a fault: only a terminal gets it, and the options that it names make the call work."""

import os
import pathlib
import pty
import re
import subprocess
import sys
import tempfile
import unittest

from simulation import cures, device
from tests.tools import TOOLS

FIRST = b"0,write,0,41\n0,read,0,\n"
# Numbers that make no device, and what is said of them: what was found, and the options of which each makes one.
NUMBERS = (
    ("--blocks 3", "3,072 sectors do not fit 3 blocks of 64 pages: --sectors 127, or --blocks 50"),
    ("--blocks=3 --luns 3", "3,072 sectors do not fit 3 blocks of 64 pages: --sectors 127, or --blocks 51"),
    ("--sectors 4033 --blocks 64", "4,033 sectors do not fit 64 blocks of 64 pages: --sectors 4031, or --blocks 65"),
    ("--blocks 3 --workers 2", "3,072 sectors do not fit 3 blocks of 64 pages: --sectors 64, or --blocks 50"),
    ("--luns 3", "64 blocks aren't a multiple of 3 LUNs: --blocks 63, or --blocks 66"),
    ("--luns 9", "9 luns, and a device has 1 to 8: --luns 8"),
    ("--endurance 0", "0 endurance, and a device has 1 to 1,000,000: --endurance 1"),
    ("--brooms 2", "brooms work beside workers, and there are none: --workers 1, or without --brooms"),
    ("--workers 501 --blocks 600", "501 workers, and a run has at most 500: --workers 500"),
    ("--workers 4 --brooms 2 --blocks 8 --sectors 2", "2 sectors do not fit 8 blocks of 64 pages: --blocks 9"),
    ("--words 512 --blocks 4096", "134,487,040 words of memory, and a device has at most 16,777,216: --words 62 fits"),
)
# Traces with a fault by pages of 8 bytes, and what is said of it.
TRACES = (
    (b"\n0,read,0,\n0,write,0,041\n", "`0,write,0,041`: 3 digits, and each byte has two: 0041 would do"),
    (b"0,write,0,4x\n", "`0,write,0,4x`: 'x' is no digit of 0-9, a-f or A-F"),
    (b"0,write,0,010203040506070809\n", "9 bytes, and a page has 8: --words 2"),
    (b"0,read,3072,\n", "`0,read,3072,`: sector '3072': there are 0 to 3,071: --sectors 3073"),
    (b"0,read,99999,\n", "there are 0 to 3,071: --sectors 100000 --blocks 1564"),
    (b"500,read,0,\n", "worker '500': there are 0 to 499: at most 500 can be given"),
    (b"0,Read,0,\n", "'Read' is none of read, write, new, trim, meet: write 'read'"),
    (b"0,read,0\n", "3 fields, and a line has four: worker,op,sector,data"),
    (b"0,read,0,41\n", "a read has no data, and a meet worker and sector 0: leave it out"),
    (b"fio version 3 iolog\n", "this is a log of fio: flashplay simulate LOG"),
    (b"[job]\nsize=1m\n", "this is a job file of fio: flashplay simulate JOB"),
    (b"# Mixed,\n; written at random.\n\n[job]\nsize=1m\n", "this is a job file of fio: flashplay simulate JOB"),
    (b'0,write,0,"41"\n0,write,0,4x\n', "an odd number of digits, or another character: write two digits of 0-9, a-f or A-F for each byte"),
)


def at_a_terminal(*call, given=FIRST):
    """The status, the output and what a terminal shows as standard error. The input is a file."""
    ours, theirs = pty.openpty()
    with tempfile.TemporaryFile() as source:
        source.write(given)
        source.seek(0)
        run = subprocess.Popen(call, stdin=source, stdout=subprocess.PIPE, stderr=theirs)
        os.close(theirs)
        shown, told = b"", run.stdout.read()
        try:
            while piece := os.read(ours, 65536):
                shown += piece
        except OSError:
            pass  # the terminal's end
        run.stdout.close()
        os.close(ours)
        lines = [line for line in shown.decode().replace("\r\n", "\n").splitlines() if "is not proved yet" not in line]
        return run.wait(), told, lines


def apart(*call, given=FIRST):
    done = subprocess.run(call, input=given, capture_output=True)
    return done.returncode, done.stdout, [line for line in done.stderr.decode().splitlines() if "is not proved yet" not in line]


class Cures(unittest.TestCase):
    @classmethod
    def setUpClass(cls):
        device.build()

    def check(self, words, given, said):
        status, told, lines = at_a_terminal(device.LAUNCHER, *words, given=given)
        self.assertEqual((status, told, lines[:-1]), apart(device.LAUNCHER, *words, given=given))
        self.assertEqual(len(lines), 2)
        self.assertIn(said, lines[1])

    def test_tells_what_makes_a_device(self):
        for words, said in NUMBERS:
            with self.subTest(words):
                words = words.replace("=", " ").split()
                self.check([*words, "--words", "1"] if "--words" not in words else words, FIRST, said)
                given = dict(zip(words[::2], words[1::2]))
                for option, number in re.findall(r"(--[a-z]+) (\d+)", said):
                    call = [word for pair in {"--words": "1", **given, option: number}.items() for word in pair]
                    self.assertEqual(apart(device.LAUNCHER, *call)[0], 0, call)

    def test_tells_what_is_wrong_with_a_line(self):
        for given, said in TRACES:
            with self.subTest(given):
                self.check(("--words", "1"), given, said)

    def test_tells_what_the_help_says_of_other_faults(self):
        self.check(("--wear", "/no/such/folder/wear"), FIRST, "nothing was played: look at the folder and its permissions")
        refused = b"".join(b"0,write,0,41\n" for _ in range(600))
        words = ("--words", "1", "--blocks", "3", "--pages", "2", "--sectors", "3", "--endurance", "2", "--quiet", "--all-written")
        self.check(words, refused, "give more --blocks, --endurance, --brooms or --patience")

    def test_tells_nothing_of_a_run_without_a_fault(self):
        self.assertEqual(at_a_terminal(device.LAUNCHER, "--words", "1"), apart(device.LAUNCHER, "--words", "1"))

    def test_a_pipe_as_input_is_not_read_again(self):
        self.assertIsNone(self.line_of_a_pipe())

    def line_of_a_pipe(self):
        program = "import sys; sys.path.insert(0, sys.argv[1]); from simulation import cures; print(cures.line_of(1))"
        done = subprocess.run([sys.executable, "-B", "-c", program, TOOLS], input=b"0,read,0\n", capture_output=True, check=True)
        return None if done.stdout == b"None\n" else done.stdout

    def test_passes_on_arguments_streams_and_signals(self):
        with tempfile.TemporaryDirectory() as folder:
            program = pathlib.Path(folder) / "program"
            program.write_text('#!/bin/sh\nprintf "%s\\n" "$@"\ncat\necho "line 0: Other" >&2\n[ "$1" != end ] || kill -TERM $$\nexit 9\n')
            program.chmod(0o755)
            name = os.fsdecode(b"\xff a")
            self.assertEqual(apart(TOOLS / "cure", program, name, ""), (9, os.fsencode(name) + b"\n\n" + FIRST, ["line 0: Other"]))
            self.assertEqual(apart(TOOLS / "cure", program, "end")[0], -15)


class Numbers(unittest.TestCase):
    def test_reads_the_options_of_a_call(self):
        found = cures.numbers_of(["--wear", "--blocks", "--blocks", "7", "--pages=9", "--workers", "x"])
        self.assertEqual((found["blocks"], found["pages"], found["workers"], found["words"]), (7, 9, 0, 64))
