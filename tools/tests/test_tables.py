"""Rows of the tables that docs shows, counted again from a model of the layer in place of the program."""

import itertools
import json
import re

from simulation import estimates, model
from tests.packages import needs
from tests.test_report import InFolder
from tests.tools import TOP, Run, make

PART = TOP / "examples/parts/dftl_large_block.toml"


def rows_of(page):
    """The cells of each row of a page's measured table, by the percentage in its first cell."""
    text = (TOP / "docs" / page).read_text(encoding="utf-8")
    table = text.split("<!-- measured: begin -->")[1].split("<!-- measured: end -->")[0]
    rows = [[cell.strip() for cell in line.strip("|").split("|")] for line in table.splitlines() if re.match(r"\| [\d.]+ %", line)]
    return {float(row[0].removesuffix(" %")): row[1:] for row in rows}


class TableTest(InFolder):
    def reported(self, kind, percent, blocks, rounds, settle, *words, rate=(), seed=1):
        """The report of the lines behind the fill and the rounds that settle the device."""
        pages = 64
        sectors = int(blocks * pages * percent / 100 + 1e-9)
        made = (kind, "--fill", "--sectors", sectors, "--lines", rounds * blocks * pages, "--data", "zeros", "--seed", seed, *rate)
        played = model.Model(1, blocks, pages, 1, sectors, 1_000_000)
        answers = self.file("answers", "".join(played.play(make(*made).bytes)).encode())
        log = self.file("log", played.log().encode())
        done = Run("report", answers, "--collections", log, "--from-line", sectors + settle * blocks * pages + 1, "--json", *words)
        self.assertEqual(done.status, 0, done.errors)
        return json.loads(done.text)


class Amplification(TableTest):
    def test_estimates_of_all_rows(self):
        rows = rows_of("AMPLIFICATION.md")
        self.assertGreater(len(rows), 10)
        for percent, (measured, estimate, ratio, limit) in rows.items():
            a = 1023 / 1024 * 100 / percent
            # The sectors are a whole number.
            self.assertAlmostEqual(float(estimate), estimates.for_blocks(a, 64), delta=0.004)
            self.assertAlmostEqual(float(limit), estimates.in_the_limit(a), delta=0.004)
            self.assertAlmostEqual(float(ratio), float(measured) / float(estimate), delta=0.0011)

    def test_measured_row(self):
        self.assertEqual(f"{self.reported('uniform', 50, 1024, 8, 4, seed=11)['write_amplification']:.3f}", rows_of("AMPLIFICATION.md")[50][0])


@needs("numpy")
class Response(TableTest):
    def test_measured_rows(self):
        rows = rows_of("RESPONSE.md")
        for (kind, place), percent in itertools.product((("uniform", 0), ("zipf", 5)), (60,)):
            self.check_row(kind, percent, rows[percent][place : place + 5])
        self.check_row("uniform", 80, rows[80][:5])

    def check_row(self, kind, percent, wanted):
        arrivals = self.folder / "arrivals"
        words = ("--part", PART, "--arrivals", arrivals)
        told = self.reported(kind, percent, 256, 12, 4, *words, rate=("--rate", 739, "--arrivals", arrivals))
        waits = (told[f"response_writes_{name}_us"] for name in ("mean", "p99", "p999"))
        found = [f"{told['write_amplification']:.3f}", f"{told['load']:.3f}", *("grows" if wait is None else f"{wait:,.0f}" for wait in waits)]
        with self.subTest(kind, percent=percent):
            self.assertEqual(found, wanted)

