"""What tools/crash reads of a record and tells, with a stand-in for nbdkit. bindings/nbdkit/check tries it over the plugin."""

import os
import pathlib
import struct
import subprocess
import tempfile
import unittest

from simulation import record
from tests.tools import TOOLS

LENGTH, BEFORE, WRITE, SYNC, FLUSH = 1, 2, 3, 4, 5
# It opens no disk at step 2, and calls the command as nbdkit does.
NBDKIT = """#!/bin/sh
for word; do case $word in cut=*) cut=${word#cut=} ;; unsynced=*) unsynced=${word#unsynced=} ;; esac; last=$word; done
export cut unsynced
[ "$cut" != 2 ] || { echo "it is damaged"; exit 1; }
exec sh -c "$last"
"""


def record_of(*parts, layers=1):
    """A record of kinds with their layers, by docs/FORMATS.md. A write has three bytes."""
    text = b"\x89MNTR\r\n\x1a" + struct.pack("<II", 1, layers)
    for kind, layer in ((LENGTH, 0), (BEFORE, 0), *parts):
        data = b"abc" if kind in (BEFORE, WRITE) else b""
        text += struct.pack("<HHIQ", kind, layer, len(data), 4096) + data
    return text


RUN = ((WRITE, 0), (WRITE, 0), (SYNC, 0), (FLUSH, 0), (WRITE, 0))


class Crash(unittest.TestCase):
    def setUp(self):
        folder = tempfile.TemporaryDirectory()
        self.addCleanup(folder.cleanup)
        self.folder = pathlib.Path(folder.name)
        (self.folder / "nbdkit").write_text(NBDKIT)
        (self.folder / "nbdkit").chmod(0o755)

    def write(self, text):
        path = self.folder / "record"
        path.write_bytes(text)
        return path

    def cuts(self, text, seeds=1):
        return [(cut.step.at, cut.unsynced, cut.seed) for cut in record.cuts_at(record.steps_of(self.write(text)), seeds)]

    def run_it(self, *words, text=record_of(*RUN)):
        call = [TOOLS / "crash", self.write(text), "--plugin", "own", *words]
        done = subprocess.run(call, capture_output=True, text=True, env={**os.environ, "PATH": f"{self.folder}:{os.environ['PATH']}"})
        return done.returncode, done.stdout, done.stderr

    def test_steps_are_writes_and_syncs(self):
        steps = record.steps_of(self.write(record_of(*RUN)))
        found = [(step.at, step.kind, *step.writes, *step.synced, step.flushes) for step in steps]
        wanted = [(1, "a write", 1, 0, 0), (2, "a write", 2, 0, 0), (3, "a sync", 2, 0, 0), (4, "a write", 3, 2, 1), (5, "the end", 3, 2, 1)]
        self.assertEqual(found, wanted)

    def test_a_last_part_that_is_not_whole_is_left_out(self):
        whole = record_of(*RUN)
        for length in range(1, 19):
            self.assertEqual(len(record.steps_of(self.write(whole[:-length]))), 4, length)

    def test_each_different_disk_has_a_cut(self):
        wanted = [(1, "lost", 1), (1, "kept", 1), (1, "some", 1), (2, "kept", 1), (2, "some", 2), (3, "some", 3),
                  (4, "lost", 1), (4, "kept", 1), (4, "some", 4), (5, "some", 5)]  # fmt: skip
        self.assertEqual(self.cuts(record_of(*RUN)), wanted)
        self.assertEqual(len(self.cuts(record_of(*RUN), seeds=3)), len(wanted) + 2 * 5)
        self.assertEqual(self.cuts(record_of((WRITE, 0), (SYNC, 0))), [(1, "lost", 1), (1, "kept", 1), (1, "some", 1), (2, "some", 2)])

    def test_a_sync_of_one_layer_leaves_the_other_in_doubt(self):
        self.assertEqual(self.cuts(record_of((WRITE, 0), (WRITE, 1), (SYNC, 1), layers=2))[-2:], [(4, "lost", 1), (4, "some", 4)])

    def test_tells_what_passed_and_what_failed(self):
        self.assertEqual(self.run_it("--check", "true", "--steps", "3-5")[0], 0)
        status, told, errors = self.run_it("--check", '[ "$cut$unsynced" != 4lost ] || { echo "it is lost"; exit 7; }')
        self.assertEqual((status, errors), (4, ""))
        lines = told.splitlines()
        self.assertEqual(lines[0], "3 writes and 1 syncs; 1 flushes of clients were answered; 5 cuts")
        self.assertEqual([line.split() for line in lines[2:5]], [["lost", "2", "0", "1"], ["kept", "3", "1", "0"], ["some", "5", "1", "0"]])
        for text in ("step 2 of 4, a write, behind 0 flushes, kept: the disk wasn't opened\n  it is damaged\n",
                     "step 4 of 4, a write, behind 1 flushes, lost: the command has failed: status 7\n  it is lost\n  flushes=1 nbdkit -U - own "):
            self.assertIn(text, told)

    def test_command_has_the_flushes_and_a_folder_of_its_own(self):
        check = f'[ "$flushes" = 1 ] && echo "$TMPDIR" >>{self.folder}/told && [ -d "$TMPDIR" ] && [ -z "$(ls -A "$TMPDIR")" ] && mktemp'
        self.assertEqual(self.run_it("--check", check, "--steps", "4-9")[0], 0)
        folders = (self.folder / "told").read_text().split()
        self.assertEqual((len(set(folders)), any(os.path.exists(folder) for folder in folders)), (4, False))

    def test_a_command_that_does_not_end_has_failed_and_is_ended(self):
        status, told, _ = self.run_it("--check", f"echo $$ >>{self.folder}/told; sleep 300", "--timeout", "1", "--steps", "5-5")
        self.assertEqual((status, told.count("the command has failed: it didn't end in time")), (4, 3), told)
        for process in (self.folder / "told").read_text().split():
            self.assertRaises(ProcessLookupError, os.kill, int(process), 0)

    def test_refuses_what_is_no_record_and_other_arguments(self):
        for text, message in ((b"", "isn't a record"), (b"x" * 64, "isn't a record"), (record_of(layers=17), "isn't a record"),
                              (record_of((9, 0)), "is damaged before byte 67")):
            status, _, errors = self.run_it("--check", "true", text=text)
            self.assertEqual((status, message in errors), (3, True), errors)
        for words in ((), ("--check", "true", "--steps", "3-2"), ("--check", "true", "--every", "0")):
            self.assertEqual(self.run_it(*words)[0], 2, words)


if __name__ == "__main__":
    unittest.main()
