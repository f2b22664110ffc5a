"""A newcomer's three jobs, each by one command: compare two over-provisionings, see how worn a device is, and measure a workload on a device
that was aged first. Each number is counted by awk over the files of the runs."""

import csv
import random
import re
import tomllib
import unittest

from simulation import device, job, manifest
from tests.browser import Browser
from tests.packages import needs
from tests.test_report import InFolder
from tests.test_window import awk
from tests.tools import TOP, Run

PART = TOP / "examples/parts/dftl_large_block.toml"
SECTORS = 400


def log_of(seed, lines=1500, gap=6000, name="disk"):
    """An iolog of requests of one to four pages at random, which touches each page up to the highest."""
    seeded, time = random.Random(seed), 0
    rows = ["fio version 3 iolog", f"0 {name} add", f"0 {name} open"]
    for number in range(lines):
        time += int(seeded.expovariate(1 / gap))
        pages = seeded.choice((1, 1, 2, 4))
        first = SECTORS - pages if number == 0 else seeded.randrange(SECTORS - pages + 1)
        rows.append(f"{time} {name} {seeded.choices(('read', 'write', 'trim'), (30, 69, 1))[0]} {4096 * first} {4096 * pages}")
    return "\n".join([*rows, f"{time} {name} close", ""]).encode()


@needs("numpy", "matplotlib")
class SimulateTest(InFolder):
    def setUp(self):
        super().setUp()
        self.out = self.folder / "out"

    def simulate(self, *words, log=None, status=0):
        log = log or self.file("job.log", log_of(4))
        done = Run("simulate", *([log] if not isinstance(log, list) else log), "--out", self.out, *words)
        self.assertEqual(done.status, status, done.errors)
        return done

    def rows(self):
        with open(self.out / "table.csv", newline="") as table:
            return list(csv.DictReader(table))

    def check_row(self, row, before, endurance=1000):
        """A row of the table, counted independently over the files of the run."""
        folder = self.out / f"op-{row['over_provisioning']}"
        answers, log, wear = (folder / f"{name}.csv" for name in ("answers", "collections", "wear"))
        (written,) = awk('$1 > before && $2 == "write" && $4 != "worn" { n++ } END { print n }', answers, before=before)
        copied, erased = awk("NR > 1 && $1 > before { c += $3; e++ } END { print c + 0, e + 0 }", log, before=before)
        self.assertEqual((float(row["pages_written"]), float(row["pages_copied"]), float(row["erases"])), (written, copied, erased))
        self.assertAlmostEqual(float(row["write_amplification"]), (written + copied) / written, places=6)
        worst, mean, blocks = awk("NR > 1 { if ($2 > m) m = $2; s += $2; n++ } END { print m + 0, s / n, n }", wear)
        self.assertEqual((float(row["endurance_used_worst"]), float(row["blocks"])), (worst / endurance, blocks))
        self.assertAlmostEqual(float(row["endurance_used_mean"]), mean / endurance)
        (whole,) = awk('$2 == "write" && $4 != "worn" { n++ } END { print n }', answers)
        left = (endurance - worst) * mean * blocks / worst * 16 * 4096 * written / (written + copied)
        self.assertAlmostEqual(float(row["bytes_at_end"]) / (4096 * whole + left), 1, places=6)
        return folder


class ThreeJobs(SimulateTest):
    words = ("--page-bytes", 4096, "--pages", 16)

    def test_compares_two_over_provisionings(self):
        done = self.simulate(*self.words, "--over-provisioning", "15,50")
        rows = self.rows()
        for row in rows:
            self.check_row(row, 0)
            # The pages beyond the sectors, in percent of the sectors.
            self.assertAlmostEqual(float(row["over_provisioning_of_blocks"]), 100 * (float(row["blocks"]) * 16 / SECTORS - 1))
        self.assertEqual([row["blocks"] for row in rows], ["29", "38"])
        self.assertEqual(rows[0]["lines"], rows[1]["lines"])
        self.assertGreater(float(rows[0]["write_amplification"]), float(rows[1]["write_amplification"]))
        self.assertEqual(done.lines[0], f"the whole run, {int(rows[0]['lines']):,} lines; no write was refused")
        self.assertIn("over-provisioning  blocks  write amplification", done.lines[1])
        self.assertIn(f"{float(rows[0]['write_amplification']):.3f}", done.lines[2])

    def test_tells_how_worn_a_device_is(self):
        done = self.simulate(*self.words, "--over-provisioning", "15", "--endurance", 50)
        (row,) = self.rows()
        self.check_row(row, 0, endurance=50)
        self.assertIn(f"{100 * float(row['endurance_used_worst']):.3g} %", done.lines[2])
        page = (self.out / "op-15/index.html").read_text()
        self.assertIn("endurance 50, far above</text>", page)
        self.assertIn("TBW", page)

    def test_tells_of_a_device_that_has_ended(self):
        done = self.simulate(*self.words, "--over-provisioning", "15", "--endurance", 3)
        (refused,) = awk('$4 == "worn" { n++ } END { print n }', self.out / "op-15/answers.csv")
        self.assertRegex(done.lines[0], f"REFUSED: {int(refused):,} writes at 16 %$")
        self.assertRegex((self.out / "index.html").read_text(), r"</h1>\n<p class=alarm>the whole run, [\d,]+ lines; REFUSED")
        self.assertEqual(self.rows()[0]["refused_writes"], str(int(refused)))

    def test_measures_a_workload_on_an_aged_device(self):
        self.simulate(*self.words, "--over-provisioning", "15,50", "--precondition", "uniform:3", "--part", PART)
        before = 4 * SECTORS
        for row in self.rows():
            folder = self.check_row(row, before)
            # One queue, first come first served, over requests: an erase takes 2,000, a copy a read and a program.
            program = """
                FILENAME ~ /collections/ { if (FNR > 1) collection[$1] = 2000 + $3 * (130.9 + 405.9); next }
                FILENAME ~ /requests/ { request[FNR + before] = $1; next }
                FILENAME ~ /job.arrivals/ { time[FNR + before] = $1; next }
                $1 == "end" || $1 <= before { next }
                {
                    service = collection[$1] + ($2 == "write" ? 405.9 : $2 == "read" && $4 != "empty" ? 130.9 : 0)
                    begin = time[$1] > done ? time[$1] : done
                    done = begin + service
                    if (request[$1] != last && $2 == op) order[++n] = request[$1]
                    last = request[$1]
                    if ($2 == op) took[last] = done - time[$1]
                }
                END { for (i = 1; i <= n; i++) print took[order[i]] }
            """
            files = [folder / "collections.csv", self.out / "job.requests", self.out / "job.arrivals", folder / "answers.csv"]
            for op in ("write", "read"):
                times = sorted(awk(program, *files, before=before, op=op))
                for name, share in (("p50", 50), ("p99", 99), ("p999", 99.9)):
                    self.assertAlmostEqual(float(row[f"{op}_{name}_us"]), times[-int(-len(times) * share // 100) - 1], places=2)
            page = (folder / "index.html").read_text()
            self.assertIn(f"lines {before + 1:,} to", page)
        self.assertEqual((self.out / "trace.mark").read_text(), f"{before}\n")
        index = (self.out / "index.html").read_text()
        self.assertIn("behind 1,600 of precondition", index)
        for op in ("writes", "reads"):
            self.assertIn(f"latency of {op} (ms)</text>", index)

    def test_clients_make_their_requests_when_their_last_ones_are_done(self):
        """A loop of clients over one device, step by step: it serves what was asked first, and who was served asks next."""
        self.simulate(*self.words, "--over-provisioning", "15", "--precondition", "fill", "--part", PART, "--clients", 3)
        folder = self.out / "op-15"
        services = awk("""
            FILENAME ~ /collections/ { if (FNR > 1) collection[$1] = 2000 + $3 * (130.9 + 405.9); next }
            FILENAME ~ /requests/ { request[FNR + before] = $1; next }
            $1 == "end" || $1 <= before { next }
            {
                n = request[$1]
                took[n] += collection[$1] + ($2 == "write" ? 405.9 : $2 == "read" && $4 != "empty" ? 130.9 : 0)
                op[n] = $2
            }
            END { for (i = 1; i <= n; i++) print took[i], op[i] == "write" }
        """, folder / "collections.csv", self.out / "job.requests", folder / "answers.csv", before=SECTORS)  # fmt: skip
        waiting, clock, writes = [(0.0, client) for client in range(3)], 0.0, []
        for took, is_write in zip(services[::2], services[1::2]):
            waiting.sort()
            asked, client = waiting.pop(0)
            clock = max(clock, asked) + took
            writes += [clock - asked] if is_write else []
            waiting.append((clock, client))
        writes.sort()
        (row,) = self.rows()
        for name, share in (("p50", 50), ("p99", 99), ("p999", 99.9)):
            self.assertAlmostEqual(float(row[f"write_{name}_us"]), writes[-int(-len(writes) * share // 100) - 1], places=2)
        self.assertEqual(row["load"], "")
        self.assertIn("clients = 3\n", (self.out / "run.toml").read_text())
        self.assertIn("3 clients, each with one request at a time", (folder / "index.html").read_text())
        for words in (("--clients", 3), ("--clients", 3, "--part", PART, "--speed", 2)):
            self.assertIn("clients need the times of a part, and no speed", self.simulate(*self.words, "--over-provisioning", "15", *words, status=2).errors)

    def test_other_victims_are_played_by_the_model(self):
        figures = {}
        for policy in ("greedy", "oldest"):
            self.simulate(*self.words, "--over-provisioning", "15", "--victims", policy, "--force")
            (row,) = self.rows()
            self.check_row(row, 0)
            figures[policy] = float(row["write_amplification"])
        self.assertLess(figures["greedy"], figures["oldest"])
        self.assertIn('victims = "oldest"\n', (self.out / "run.toml").read_text())

    def test_warns_of_a_device_that_was_never_full(self):
        done = self.simulate(*self.words, "--over-provisioning", "15,900")
        told = "900 %: the device was never full and nothing was collected, so this is no steady state: age it first by a precondition, or write more"
        self.assertEqual(done.lines[-1], told)
        self.assertEqual([row["write_amplification"] == "1" for row in self.rows()], [False, True])
        self.assertIn(f"<p class=alarm>{told}</p>", (self.out / "index.html").read_text())
        self.assertNotIn("never full", self.simulate(*self.words, "--over-provisioning", "15", "--force").text)

    def test_names_the_speed_that_a_device_carries(self):
        words = (*self.words, "--over-provisioning", "15", "--part", PART)
        said = self.simulate(*words, "--speed", 100).lines[-1]
        self.assertIn("the device cannot carry this load", said)
        speed = re.search(r"--speed (\S+) slows the arrivals to what it carries$", said)[1]
        self.assertNotIn("cannot carry", self.simulate(*words, "--speed", speed, "--force").text)


class Manifests(SimulateTest):
    words = ("--page-bytes", 4096, "--pages", 16, "--over-provisioning", "15", "--precondition", "fill", "--part", PART)

    def test_manifest_plays_again(self):
        done = self.simulate(*self.words)
        first, text = self.rows(), (self.out / "run.toml").read_text()
        keys = tomllib.loads(text)
        self.assertEqual((keys["over_provisioning"], keys["device"]["sectors"], keys["logs"]), ([15], SECTORS, ["../job.log"]))
        for name in device.DEFAULTS:
            self.assertEqual(text.count(f"\n{name} = "), name != "blocks")
        moved = self.folder / "elsewhere/deep"
        moved.mkdir(parents=True)
        (moved / "run.toml").write_text(text.replace("../job.log", "../../job.log"))
        again = Run("simulate", moved / "run.toml", "--out", self.folder / "again")
        self.assertEqual((again.status, again.text), (0, done.text))
        self.out = self.folder / "again"
        self.assertEqual(self.rows(), first)
        done = Run("simulate", moved / "run.toml", "--endurance", 5, "--out", self.folder / "never")
        self.assertEqual((done.status, "--endurance stands in the manifest: change it there" in done.errors), (2, True))
        # Changed by hand, it plays what it says then.
        (moved / "run.toml").write_text((moved / "run.toml").read_text().replace("[15.0]", "[50]"))
        self.assertEqual(Run("simulate", moved / "run.toml", "--out", self.folder / "changed").status, 0)
        self.out = self.folder / "changed"
        self.assertEqual([row["blocks"] for row in self.rows()], ["38"])

    def test_same_call_replaces_and_another_is_refused(self):
        first = self.simulate(*self.words)
        self.assertEqual(self.simulate(*self.words).text, first.text)
        refused = self.simulate(*self.words, "--endurance", 50, status=1)
        self.assertIn("out has another simulation; --force replaces it", refused.errors)
        self.simulate(*self.words, "--endurance", 50, "--force")
        (self.folder / "own").mkdir()
        (self.folder / "own/file").write_text("kept")
        self.out = self.folder / "own"
        self.assertIn("own has other files: name a new folder", self.simulate(*self.words, status=1).errors)

    def test_refuses_broken_manifest(self):
        self.simulate(*self.words)
        text = (self.out / "run.toml").read_text()
        for before, after, message, status in (
            ("page_bytes = 4096", "page_bytes = 4096.5", "page_bytes 4096.5 isn't a whole number from 1 to", 2),
            ("[15.0]", "[15.0, 15.0]", "each once", 2),
            ("[15.0]", "[-1]", "over_provisioning -1 isn't a number from 0 to 10,000", 2),
            ("[15.0]", "7", "over_provisioning isn't a list", 2),
            ("speed = 1.0", "speed = nan", "speed nan isn't a number from 0.001 to 1,000", 2),
            ("speed = 1.0", "sped = 1.0", "'sped' isn't a key of a manifest", 3),
            ("sectors = 400", "", "sectors None isn't a whole number", 2),
            ("sectors = 400", "sectors = 2000000", "sectors 2000000 isn't a whole number from 1 to 1,048,576", 2),
            ('precondition = "fill"', 'precondition = "uniform:x"', "'x' isn't a number", 3),
            ('format = "fio"', 'format = "csv"', "format 'csv' is none of fio, msr, blkparse", 2),
            ("read = ", "reed = ", "'reed' isn't a key of a part", 3),
            ("[device]", "[" * 500, "isn't a TOML file", 3),
            ('sums = ["', 'sums = ["0', "isn't the file that", 3),
            ("../job.log", "../none.log", "No such file", 1),
        ):
            with self.subTest(after):
                self.assertIn(before, text)
                broken = self.file("broken.toml", text.replace(before, after).replace("../job.log", "job.log").encode())
                done = Run("simulate", broken, "--out", self.folder / "never")
                self.assertEqual((done.status, message in done.errors), (status, True), done.errors)

    def test_text_of_a_manifest_is_read_back(self):
        made = manifest.Manifest(["/a/b \"c\"\\\x01é😀.log"], "msr", 512, [7.0], {"luns": 1, "pages": 4, "words": 1, "sectors": 9, "endurance": 5})
        made.log_device = "hm_0"
        path = self.file("run.toml", manifest.text_of(made, self.folder).encode())
        self.assertTrue(manifest.is_same(manifest.load(path), made))


class Logs(SimulateTest):
    words = ("--page-bytes", 4096, "--pages", 16, "--over-provisioning", "20")

    def test_merges_logs_by_their_times(self):
        logs = [self.file(f"job.log.{number}", log_of(number, 400)) for number in (1, 2, 3)]
        self.simulate(*self.words, log=logs)
        both = self.out
        rows = sorted((int(line.split()[0]), place, line) for place, log in enumerate(logs) for line in log.read_text().splitlines() if len(line.split()) == 5)
        merged = "fio version 3 iolog\n" + "".join(f"{line}\n" for _, _, line in rows)
        self.out = self.folder / "one"
        self.simulate(*self.words, log=self.file("merged.log", merged.encode()))
        for name in ("job.csv", "job.arrivals", "job.requests", "table.csv"):
            self.assertEqual((both / name).read_bytes(), (self.out / name).read_bytes())

    def test_says_why_it_cannot_merge(self):
        old = self.file("old.log", b"fio version 2 iolog\ndisk write 0 4096\n")
        done = self.simulate(*self.words, log=[old, self.file("new.log", log_of(1, 10))], status=1)
        self.assertIn("old.log is an iolog of version 2, which has no times, so several logs can't be merged", done.errors)
        two = [self.file("a.log", log_of(1, 10, name="a")), self.file("b.log", log_of(2, 10, name="b"))]
        done = self.simulate(*self.words, log=two, status=3)
        self.assertIn("the log names a second device", done.errors)
        back = self.file("back.log", b"fio version 3 iolog\n5 disk write 0 4096\n4 disk write 0 4096\n")
        done = self.simulate(*self.words, "--sectors", 400, log=[two[0], back], status=3)
        self.assertIn("back.log: line 3: its time is before that of a line before it", done.errors)

    def test_log_without_times_has_amplification_alone(self):
        rows = [f"disk write {4096 * (number * 7 % 200)} 4096" for number in range(2000)]
        self.simulate(*self.words, "--part", PART, log=self.file("old.log", ("fio version 2 iolog\n" + "\n".join(rows) + "\n").encode()))
        (row,) = self.rows()
        self.check_row(row, 0)
        self.assertEqual(row["load"], "")
        self.assertNotEqual(row["write_p99_us"], "")

    def test_sectors_and_formats(self):
        msr = b"".join(b"%d,hm,0,Write,%d,4096,1\n" % (number * 1000, 4096 * (10_000_000 + number % 50)) for number in range(400))
        log = self.file("hm_0.csv", msr)
        done = self.simulate(*self.words, log=log, status=1)
        self.assertIn("the logs need 10,000,050 sectors, and a device has at most 1,048,576; --dense", done.errors)
        self.simulate(*self.words, "--dense", log=log)
        keys = tomllib.loads((self.out / "run.toml").read_text())
        self.assertEqual((keys["format"], keys["device"]["sectors"], keys["numbering"]), ("msr", 50, "dense"))
        self.assertEqual(job.format_of(TOP / "tools/tests/logs/blkparse.txt"), "blkparse")

    def test_refuses_invalid_arguments(self):
        log = self.file("job.log", log_of(1, 10))
        for words, message in (
            (("--over-provisioning", "7"), "--page-bytes is missing"),
            (("--page-bytes", 4096), "--over-provisioning is missing"),
            ((*self.words, "--precondition", "uniform:nan"), "'nan' isn't a number from 0 to 1,000"),
            (("--page-bytes", 4096, "--over-provisioning", "7,7"), "each once"),
            (("--page-bytes", 4096, "--over-provisioning", "7,x"), "'x' isn't a number"),
            ((*self.words, "--read-time", "5"), "the time 'program' is missing"),
        ):
            with self.subTest(message):
                self.assertIn(message, self.simulate(*words, log=log, status=2).errors)
        self.assertIn("No such file", self.simulate(*self.words, log=self.folder / "none", status=1).errors)


@needs("chromium")
class Pages(SimulateTest, Browser):
    """The page of several devices, as Chromium shows it."""

    def test_three_widths_without_overlaps(self):
        self.simulate("--page-bytes", 4096, "--pages", 16, "--over-provisioning", "15,28,50,100", "--precondition", "fill", "--part", PART)
        page = (self.out / "index.html").read_text()
        self.check_widths(page, 4)

    def test_page_names_devices_and_manifest(self):
        self.simulate("--page-bytes", 4096, "--pages", 16, "--over-provisioning", "15,50")
        page = (self.out / "index.html").read_text()
        for percent in (15, 50):
            self.assertIn(f'<a href="op-{percent}/index.html">', page)
            self.assertTrue((self.out / f"op-{percent}/index.html").exists())
        self.assertIn("over-provisioning (%)</text>", page)
        self.assertIn("over_provisioning = [15.0, 50.0]", page)


class Devices(unittest.TestCase):
    def test_blocks_are_the_nearest_that_make_a_device(self):
        for luns in (1, 4):
            for sectors in (1, 64, 3072, 100_000):
                numbers = {"luns": luns, "pages": 64, "words": 1, "sectors": sectors, "endurance": 5}
                wished = [0.0, 7.0, 28.0, 100.0]
                for percent, made in manifest.Manifest([], "fio", 512, wished, numbers).devices().items():
                    self.assertIsNone(device.fault_of(made))
                    self.assertTrue(abs(made["blocks"] * 64 - sectors * (1 + percent / 100)) <= 32 * luns or made["blocks"] == device.fewest_blocks(made))
