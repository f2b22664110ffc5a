import json
import os
import tempfile
import unittest

from tests.packages import needs
from tests.tools import Run

NUMBERS = {
    "blocks": 3, "pages": 4, "page_bytes": 1000, "endurance": 10, "programs": 20, "copies": 5, "erases": 6, "free_blocks": 1, "retired_blocks": 1,
    "waits": 2, "waited_ms": 7, "no_space": 0,
}
BLOCKS = "block,erases,retired\n0,1,0\n1,5,1\n2,0,0\n"


def counts(blocks=BLOCKS, **other):
    numbers = {**NUMBERS, **other}
    return ("name,number\n" + "".join(f"{name},{number}\n" for name, number in numbers.items() if number is not None) + blocks).encode()


def report(text, *words):
    return Run("report", "-", *words, given=text)


class BlockDeviceCounts(unittest.TestCase):
    def test_reports_counts(self):
        reported = json.loads(report(counts(), "--json").text)
        wanted = {**NUMBERS, "write_amplification": 1.25, "erases_per_gigabyte": 300_000, "erases_least": 0, "erases_median": 1, "erases_most": 5}
        self.assertEqual({name: reported[name] for name in wanted}, wanted)
        self.assertAlmostEqual(reported["share_of_endurance"], 25 / 120)
        text = report(counts()).text
        self.assertIn("write amplification  1.250 (20 pages written, 5 copied)\n", text)
        self.assertIn("of all programs      20.83 % are done\n", text)
        self.assertIn("endurance used       the mean block 20 %, the worst 50 %, 2.50 times the mean (of 10 erases)\n", text)

    def test_reports_unwritten_device(self):
        text = report(counts("block,erases,retired\n0,0,0\n1,0,0\n2,0,0\n", programs=0, copies=0, erases=0)).text
        self.assertIn("write amplification  nothing was written\n", text)

    def test_refuses_broken_counts(self):
        rows = [
            (counts(waits=None), "the counts lack waits"),
            (counts("block,erases,retired\n0,1,0\n1,5,1\n"), "cut short: 2 of 3 blocks"),
            (counts(erases=7), "the blocks' erases aren't the erases of the device"),
            (counts(BLOCKS.replace("2,0,0", "3,0,0")), "block 2 is expected here"),
            (counts(BLOCKS.replace("2,0,0", "2,0")), "a block has 3 fields"),
            (counts(BLOCKS.replace("2,0,0", "2,0,2")), "the mark (1 of a retired block, 0 of another) '2' isn't a whole number from 0 to 1"),
            (counts(programs="many"), "the programs 'many' isn't a whole number"),
        ]
        for text, message in rows:
            done = report(text)
            self.assertEqual((done.status, message in done.errors), (3, True), done.errors)

    def test_refuses_files_of_a_run(self):
        done = report(counts(), "--wear", "wear.csv")
        self.assertEqual((done.status, "use --wear" in done.errors), (2, True), done.errors)

    @needs("matplotlib")
    def test_draws_erases(self):
        with tempfile.TemporaryDirectory() as folder:
            picture = os.path.join(folder, "erases.svg")
            self.assertEqual(report(counts(), "--erases-picture", picture).status, 0)
            with open(picture, encoding="utf-8") as file:
                self.assertIn("3 blocks of 4 pages of 1,000 bytes", file.read())
