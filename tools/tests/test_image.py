"""Simulations that start from a device in a file. Each number is counted by awk over the files of the run."""

import csv
import hashlib
import subprocess

from simulation import device
from tests.packages import needs
from tests.test_report import InFolder
from tests.test_simulate import SECTORS, log_of
from tests.test_window import awk
from tests.tools import Run

NUMBERS = {"blocks": 30, "pages": 16, "words": 1, "sectors": SECTORS}
OWN = [word for name, number in NUMBERS.items() for word in (f"--{name}", str(number))]


class WithImages(InFolder):
    def setUp(self):
        super().setUp()
        self.image, self.out = self.aged("disk.img", 3000), self.folder / "out"
        self.sum = self.sum_of_image()

    def aged(self, name, lines, *numbers):
        """An image on which a trace was played."""
        path, trace = self.folder / name, Run("trace", "make", "uniform", "--sectors", SECTORS, "--lines", lines, "--fill", "--seed", 5).bytes
        call = [device.LAUNCHER, "--image", path, "--sync", "never", "--quiet", *(numbers or OWN)]
        subprocess.run(call, input=trace, check=True, capture_output=True)
        return path

    def sum_of_image(self):
        return hashlib.sha256(self.image.read_bytes()).hexdigest()


@needs("parallel")
class Sweep(WithImages):
    def test_plays_the_trace_on_a_copy_of_each_image(self):
        trace = self.file("trace.csv", Run("trace", "make", "zipf", "--sectors", SECTORS, "--lines", 2000, "--seed", 6).bytes)
        other = self.aged("other.img", 500, "--blocks", "40", "--pages", "16", "--words", "1", "--sectors", str(SECTORS))
        done = Run("sweep", "--out", self.out, "--trace", trace, "--image", self.image, "--image", other)
        self.assertEqual(done.status, 0, done.errors)
        self.assertIn("2 points, the whole of each run; no write was refused", done.text)
        with open(self.out / "sweep.csv", newline="") as table:
            rows = list(csv.DictReader(table))
        self.assertEqual([(row["image"], row["blocks"], row["lines"], row["worn"], row["endurance"]) for row in rows],
                         [("1", "30", "2000", "0", ""), ("2", "40", "2000", "0", "")])  # fmt: skip
        self.assertEqual(self.sum_of_image(), self.sum)
        for row, path in zip(rows, (self.image, other)):
            call = [device.LAUNCHER, "--image", path, "--sync", "never", "--quiet"]
            last = subprocess.run(call, input=trace.read_bytes(), check=True, capture_output=True).stdout.decode().strip()
            self.assertEqual(last, f"end,{row['programs']},{row['copies']},{row['erases']}")

    def test_refuses_what_an_image_has_or_lacks(self):
        for words in (("--blocks", "30"), ("--settle", 1), ("--from-line", 5), ("--utilisation", "50")):
            done = Run("sweep", "--out", self.out, "--trace", self.file("trace.csv", b"0,read,0,\n"), "--image", self.image, *words)
            self.assertEqual((done.status, f"{words[0]} isn't for devices that start from images" in done.errors), (2, True), done.errors)


@needs("numpy", "matplotlib")
class Simulate(WithImages):

    def simulate(self, *words, image=None, out=None, status=0):
        log = self.file("job.log", log_of(4))
        done = Run("simulate", log, "--page-bytes", 4096, "--image", image or self.image, "--out", out or self.out, *words)
        self.assertEqual(done.status, status, done.errors)
        return done

    def row(self, out):
        with open(out / "table.csv", newline="") as table:
            (row,) = csv.DictReader(table)
        return row, next(out.glob("op-*"))

    def check_row(self, out, endurance):
        row, folder = self.row(out)
        answers, wear, before = (folder / f"{name}.csv" for name in ("answers", "wear", "before"))
        (written,) = awk('$2 == "write" { n++ } END { print n }', answers)
        programs, copies, erases = awk('$1 == "end" { print $2, $3, $4 }', answers)
        trims = programs - written
        self.assertEqual(trims, awk('$2 == "trim" && $4 == "written" { n++ } END { print n + 0 }', answers)[0])
        self.assertEqual([float(row[name]) for name in ("pages_written", "pages_copied", "erases", "blocks")], [programs, copies, erases, 30])
        self.assertAlmostEqual(float(row["write_amplification"]), (programs + copies) / programs, places=6)
        (was,) = awk("NR > 1 { s += $2 } END { print s }", before)
        worst, now = awk("NR > 1 { s += $2; if ($2 > m) m = $2 } END { print m, s }", wear)
        self.assertEqual((now - was, was > 100), (erases, True))
        self.assertAlmostEqual(float(row["endurance_used_worst"]), worst / endurance)
        return folder, now

    def test_ages_a_copy_which_the_next_simulation_may_start_from(self):
        done = self.simulate("--endurance", 5000)
        folder, erases = self.check_row(self.out, 5000)
        self.assertIn("the whole run, ", done.lines[0])
        self.assertEqual(self.sum_of_image(), self.sum)
        self.assertEqual(folder.name, "op-20")
        again = self.folder / "again"
        self.simulate(image=folder / "device.img", out=again)
        (was,) = awk("NR > 1 { s += $2 } END { print s }", self.check_row(again, 1000)[0] / "before.csv")
        self.assertEqual(was, erases)
        # The manifest says all of it, and refuses an image that was changed.
        played = Run("simulate", self.out / "run.toml", "--out", self.folder / "third")
        self.assertEqual((played.status, played.lines), (0, done.lines), played.errors)
        self.image.write_bytes(self.image.read_bytes()[:-1] + b"x")
        changed = Run("simulate", self.out / "run.toml", "--out", self.folder / "fourth")
        self.assertEqual((changed.status, "isn't the file that" in changed.errors), (3, True), changed.errors)

    def test_plays_on_a_device_with_more_blocks_than_one_in_memory(self):
        large, last = self.folder / "large.img", 7_999
        numbers = ("--words", "1", "--blocks", "4200", "--pages", "2", "--sectors", str(last + 1))
        subprocess.run([device.LAUNCHER, "--image", large, "--sync", "never", *numbers], input=b"0,write,0,\n", check=True, capture_output=True)
        log = self.file("large.log", b"fio version 2 iolog\ndisk add\ndisk open\n" + 2 * (b"disk write %d 4096\n" % (last * 4096)))
        done = Run("simulate", log, "--page-bytes", 4096, "--image", large, "--out", self.out)
        self.assertEqual(done.status, 0, done.errors)
        row, folder = self.row(self.out)
        self.assertEqual((row["blocks"], row["pages_written"]), ("4200", "2"))
        self.assertEqual((folder / "answers.csv").read_text().splitlines()[:2], [f"1,write,{last},empty", f"2,write,{last},written"])

    def test_refuses_what_an_image_has_or_lacks(self):
        for words, message in (
            (("--over-provisioning", 7), "over_provisioning isn't for a device that starts from an image"),
            (("--precondition", "fill"), "precondition isn't for a device"),
            (("--pages", 32), "pages is 32, and the image has 16"),
        ):
            self.assertIn(message, self.simulate(*words, status=2).errors)
        other = self.file("other.img", b"something else, of more than 32 bytes")
        self.assertIn("isn't an image of format 1, 2 or 3", self.simulate(image=other, status=3).errors)

    def test_report_counts_the_erases_since_the_run_began(self):
        self.simulate()
        _, folder = self.row(self.out)
        files = (folder / "answers.csv", "--wear", folder / "wear.csv")
        self.assertIn("they are of two runs", Run("report", *files).errors)
        told = Run("report", *files, "--wear-before", folder / "before.csv")
        self.assertEqual(told.status, 0, told.errors)
        swapped = Run("report", folder / "answers.csv", "--wear", folder / "before.csv", "--wear-before", folder / "wear.csv")
        self.assertEqual((swapped.status, "it is of another device" in swapped.errors), (3, True))
        self.assertEqual(Run("report", folder / "answers.csv", "--wear-before", folder / "before.csv").status, 2)
