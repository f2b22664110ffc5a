import csv
import gzip
import os
import pathlib
import random
import signal
import subprocess
import sys
import tempfile
import time
import unittest
from unittest import mock

from simulation import device, grid, model
from tests import sshd
from tests.packages import needs
from tests.test_model import random_run
from tests.tools import TOOLS, TOP, Run

SMALL = ("--blocks", "8", "--words", "1", "--endurance", "1000")


class Grids(unittest.TestCase):
    def test_parses_lists_and_ranges(self):
        self.assertEqual(grid.numbers_in("50,60:80:10,95", "utilisation"), [50, 60, 70, 80, 95])
        for text in ("", "1,,2", "1:2", "2:3:0", "90:50:10", "x", "inf", "nan", "1:2:1e-300", "101", "-5", "1_0", "1:2:3:4"):
            with self.subTest(text), self.assertRaises(ValueError):
                grid.numbers_in(text, "utilisation")
        for text in ("8.7", "8:9:0.5", "-8", "1:4000000000:1"):
            with self.subTest(text), self.assertRaises(ValueError):
                grid.numbers_in(text, "blocks")

    def test_has_a_bounded_number_of_points(self):
        with self.assertRaisesRegex(ValueError, "10,000,000 points"):
            grid.points_of({name: list(range(1, 10 + 1)) for name in grid.AXES})
        for text in ("x", "blocks", "blocks=", "blocks=8.7", "colour=3", "blocks=8,,pages=4"):
            with self.subTest(text), self.assertRaises(ValueError):
                grid.point_in(text)

    def test_points_are_all_combinations(self):
        points = grid.points_of({"pages": [8, 16], "utilisation": [50, 75]})
        self.assertEqual([point.device["sectors"] for point in points], [256, 384, 512, 768])
        large = grid.points_of({"sectors": [1_048_575], "endurance": [1_000_000]}) + grid.points_of({"utilisation": [200 / 3]})
        for point in points + large:
            self.assertEqual(grid.point_in(str(point)), point)


class QuietTotals(unittest.TestCase):
    def test_totals_come_from_quiet_run_if_lines_are_plain(self):
        numbers = {"luns": 1, "blocks": 3, "pages": 2, "words": 1, "sectors": 3, "endurance": 1}
        writes = "".join(f"0,write,{n % 2},{n:02x}\n" for n in range(7))
        # Six writes fill the device and its last erase; the seventh is refused.
        wanted = device.Totals(9, 6, 0, 1, 1)
        for text, plays in [
            (f"{writes}0,read,1,\n0,meet,0,\n", 1),
            (f"{writes}0,read,1,\n0,trim,1,", 1),
            (f"\n{writes}0,read,1,\n0,trim,1,\n", 2),
            (f"{writes}\n0,read,1,\n\n0,trim,1,\n", 2),
            (f"\ufeff{writes}0,read,1,\n0,trim,1,\n", 2),
            (f'{writes}0,"read",1,\n0,trim,1,\n', 2),
            (f"{writes}0,read,1,\r\n0,trim,1,\n", 2),
            (f"{writes}0,new,1,\n0,trim,1,\n", 2),
        ]:
            with self.subTest(text), mock.patch.object(device, "run", wraps=device.run) as run:
                lines = text.encode().splitlines(keepends=True)
                self.assertEqual(device.play(numbers, lambda sink: [sink.write(line) for line in lines]), wanted)
                self.assertEqual([call.args[3:] for call in run.call_args_list], [(("--quiet",),), ()][:plays])


@needs("parallel", "matplotlib")
class Sweeps(unittest.TestCase):
    def setUp(self):
        folder = tempfile.TemporaryDirectory()
        self.addCleanup(folder.cleanup)
        self.out = pathlib.Path(folder.name) / "out"

    def rows(self):
        with open(self.out / "sweep.csv", newline="") as table:
            return list(csv.DictReader(table))

    def test_row_for_each_point_and_resume(self):
        words = ("--out", self.out, "--make", "sequential --fill", "--rounds", "2", "--settle", "1", *SMALL, "--pages", "4,8", "--utilisation", "50")
        done = Run("sweep", *words, "--plot")
        self.assertEqual((done.status, done.errors), (0, ""))
        rows = self.rows()
        # Written in order, a victim has no live page, so nothing is copied; a block is erased for each that is filled.
        found = [[row[name] for name in ("pages", "sectors", "lines", "programs", "copies", "erases", "worn")] for row in rows]
        # Both are measured over as many lines, a round of the larger one: of 64 pages the smaller one has 32.
        self.assertEqual(found, [["4", "16", "64", "64", "0", "16", "0"], ["8", "32", "64", "64", "0", "8", "0"]])
        self.assertEqual(done.text, "sweep: 2 points, the lines of each behind the first 64 and the fill; no write was refused\n")
        picture = (self.out / "sweep.svg").read_text()
        for text in ("pages per block", "write amplification", "8 blocks · sequential --fill"):
            self.assertIn(text, picture)
        # The last job is taken out of the log, as if it had been cut off: it alone is played again.
        log = self.out / "jobs.log"
        first = [line for line in log.read_text().splitlines() if not line.startswith("2\t")]
        log.write_text("\n".join([*first, ""]))
        self.assertEqual(Run("sweep", *words, "--resume").status, 0)
        self.assertEqual([line.split("\t")[0] for line in log.read_text().splitlines()], ["Seq", "1", "2"])
        self.assertEqual(self.rows(), rows)
        self.assertIn("has a sweep already", Run("sweep", *words).errors)
        self.assertIn("is another one", Run("sweep", *words, "--resume", "--luns", "2").errors)
        (self.out / "own").write_text("kept")
        self.assertEqual(Run("sweep", *words, "--force", "--luns", "2").status, 0)
        self.assertEqual([row["luns"] for row in self.rows()], ["2", "2"])
        self.assertEqual({path.name.split(",")[0] for path in (self.out / "points").iterdir()}, {"luns=2"})
        self.assertFalse((self.out / "sweep.svg").exists())
        self.assertTrue((self.out / "own").exists())

    def test_plays_trace_on_each_device_and_reports_invalid_one(self):
        trace = TOP / "examples/collection.csv"
        done = Run("sweep", "--out", self.out, "--trace", trace, "--blocks", "2,3", "--pages", "2", "--words", "1", "--sectors", "3", "--endurance", "10")
        self.assertEqual(done.status, 1)
        told = "no device has 2 blocks: a device has 3 to 4,096, and the nearest has 3"
        self.assertIn(f"blocks=2,pages=2,words=1,sectors=3,endurance=10: {told}\n", done.errors)
        self.assertIn("1 of 2 points make no device, and --resume can't change that", done.errors)
        found = [[row[name] for name in ("lines", "programs", "copies", "erases", "write_amplification")] for row in self.rows()]
        self.assertEqual(found, [["9", "5", "1", "1", "1.200000"]])


    @needs("numpy")
    def test_rows_with_response_times(self):
        times = ("--read-time", "1", "--program-time", "10", "--erase-time", "1000", "--transfer-time", "0.5")
        rounds = ("--rounds", "2", "--settle", "1")
        words = ("--out", self.out, "--make", "sequential --fill --interval 100000", *rounds, *SMALL, "--pages", "4", "--utilisation", "50")
        done = Run("sweep", *words, *times, "--plot", "--up", "write_p99_us")
        self.assertEqual((done.status, done.errors), (0, ""))
        (row,) = self.rows()
        # Of 32 lines 24 are a write, and 8 an erase and a write; nothing waits. The last arrives 31 intervals behind the first.
        self.assertEqual([float(row[name]) for name in ("write_mean_us", "write_p99_us", "write_p999_us")], [(24 * 10.5 + 8 * 1010.5) / 32, 1010.5, 1010.5])
        self.assertAlmostEqual(float(row["load"]), (32 * 10.5 + 8 * 1000) / 3_100_000, places=6)
        self.assertEqual([row[name] for name in ("lines", "programs", "copies", "erases", "worn")], ["32", "32", "0", "8", "0"])
        self.assertIn("p99 latency of writes (µs)", (self.out / "sweep.svg").read_text())

    @needs("numpy")
    def test_response_times_with_arrivals(self):
        arrivals = self.out.parent / "arrivals"
        arrivals.write_text("".join(f"{line * 4 if line < 8 else 4000}\n" for line in range(9)))
        times = ("--read-time", "1", "--program-time", "10", "--erase-time", "1000", "--transfer-time", "0")
        device = (TOP / "examples/collection.args").read_text().split()
        words = ("--trace", TOP / "examples/collection.csv", "--arrivals", arrivals, *device, *times)
        done = Run("sweep", "--out", self.out, *words, "--speed", "2")
        self.assertEqual((done.status, done.errors), (0, ""))
        # Writes arrive at 0, 2, 4, 6 and 8 and take 10, the last one 11 for its copy and 1,000 for its erase before that.
        self.assertEqual(float(self.rows()[0]["write_mean_us"]), (10 + 18 + 26 + 34 + 1053) / 5)
        # Faster, more work arrives than the device can do.
        done = Run("sweep", "--out", self.out, *words, "--speed", "4", "--force")
        self.assertEqual(done.lines[1], "sweep: 3 blocks of 2 pages, 3 sectors: the device cannot carry this load: 1.062 of it")
        self.assertEqual([self.rows()[0][name] for name in ("write_mean_us", "write_p99_us", "write_p999_us")], ["", "", ""])

    @needs("numpy")
    def test_latencies_are_of_requests_also_of_a_trace_that_is_cut(self):
        arrivals, requests = self.out.parent / "arrivals", self.out.parent / "requests"
        arrivals.write_text("".join(f"{line // 2 * 1000}\n" for line in range(9)))
        requests.write_text("".join(f"{line // 2 + 1},16\n" for line in range(9)))
        times = ("--read-time", "1", "--program-time", "10", "--erase-time", "1000", "--transfer-time", "0")
        device = (TOP / "examples/collection.args").read_text().split()
        words = ("--trace", TOP / "examples/collection.csv", "--arrivals", arrivals, "--requests", requests, *device, *times)
        done = Run("sweep", "--out", self.out, *words, "--rounds", "0.67")
        self.assertEqual((done.status, done.errors), (0, ""))
        # The first four lines are two requests of two writes each.
        self.assertEqual([self.rows()[0][name] for name in ("lines", "write_mean_us", "write_p999_us")], ["4", "20.000", "20.000"])

    def test_counts_behind_line_and_tells_of_refused_writes(self):
        mark = self.out.parent / "mark"
        mark.write_text("4\n")
        device = ("--blocks", "3", "--pages", "2", "--words", "1", "--sectors", "3", "--endurance", "1,10")
        trace = self.out.parent / "trace.csv"
        trace.write_text("".join(f"0,write,{sector},\n" for sector in (0, 1, 2, 0, 2, 0, 1, 2)))
        done = Run("sweep", "--out", self.out, "--trace", trace, "--from-mark", mark, *device)
        self.assertEqual((done.status, done.errors), (0, ""))
        refused = "REFUSED: 3 of 4 writes at 3 blocks of 2 pages, 3 sectors"
        self.assertEqual(done.lines[0], f"sweep: 2 points, the lines of each behind the first 4; {refused}")
        self.assertEqual([[row[name] for name in ("lines", "programs", "worn")] for row in self.rows()], [["4", "1", "3"], ["4", "4", "0"]])

    @needs("numpy")
    def test_rows_agree_with_model_on_random_traces(self):
        """Each row with times has the totals and the mean of the writes as the model counts them, and the totals of a row without times."""
        times = ("--read-time", "1", "--program-time", "10", "--copyback-time", "9", "--erase-time", "1000", "--transfer-time", "0.5")
        seeded = random.Random(31)
        trace, played = self.out.parent / "trace.csv", 0
        for number in range(4):
            numbers, text = random_run(seeded)
            trace.write_text(text)
            counted = model.Model(**numbers)
            answers = [line.rstrip("\n").split(",") for line in counted.play(text.encode())][:-1]
            writes = [line for line in answers if line[1] in ("write", "new")]
            copybacks = sum(collection.copybacks for collection in counted.collections)
            service = counted.programs * 10.5 + copybacks * 9 + (counted.copies - copybacks) * 12 + len(counted.collections) * 1000
            totals = [len(answers), counted.programs, counted.copies, len(counted.collections), sum(line[3] == "worn" for line in answers)]
            with self.subTest(number=number, device=numbers):
                for words in ((), times):
                    done = Run("sweep", "--out", self.out, "--trace", trace, "--force", *device.words_of(numbers), *words)
                    self.assertEqual((done.status, done.errors), (0, ""))
                    (row,) = self.rows()
                    self.assertEqual([int(row[name]) for name in ("lines", "programs", "copies", "erases", "worn")], totals)
                if writes:
                    self.assertAlmostEqual(float(row["write_mean_us"]), service / len(writes), places=2)
                    played += len(counted.collections)
        self.assertGreater(played, 0)

    @needs("numpy")
    def test_point_with_incomplete_log_fails(self):
        wrong = self.out.parent / "wrong"
        wrong.write_text(f"#!/bin/sh\n{device.LAUNCHER} \"$@\" || exit\nfor file; do :; done\n[ ! -f \"$file\" ] || sed -i '$d' \"$file\"\n")
        wrong.chmod(0o755)
        numbers = (TOP / "examples/collection.args").read_text().split()
        times = ("--read-time", "1", "--program-time", "10", "--erase-time", "1000", "--transfer-time", "0")
        with mock.patch.dict(os.environ, {"FLASHPLAY": str(wrong)}):
            done = Run("sweep", "--out", self.out, "--trace", TOP / "examples/collection.csv", *numbers, *times)
        self.assertEqual(done.status, 1)
        self.assertIn("the log has 0 erases and 0 copies, and the answers 1 and 1", done.errors)

    def test_missing_trace_leaves_no_folder(self):
        done = Run("sweep", "--out", self.out, "--trace", "/no/such/trace", "--blocks", "8")
        self.assertEqual((done.status, done.errors, self.out.exists()), (1, "sweep: /no/such/trace: No such file or directory\n", False))

    def test_refuses_trace_without_an_end(self):
        done = Run("sweep", "--out", self.out, "--trace", "/dev/zero", "--blocks", "8")
        self.assertEqual((done.status, done.errors, self.out.exists()), (1, "sweep: /dev/zero: a device, which may have no end\n", False))

    def test_refuses_changed_trace(self):
        trace = self.out.parent / "trace.csv"
        trace.write_text("0,write,0,\n")
        words = ("--out", self.out, "--trace", trace, *SMALL, "--pages", "4", "--sectors", "4")
        self.assertEqual(Run("sweep", *words).status, 0)
        trace.write_text("0,write,1,\n")
        self.assertIn("is another one", Run("sweep", *words, "--resume").errors)
        point = Run("sweep", "--trace", trace, "--trace-sum", "0" * 64, "--point", "blocks=8,sectors=40")
        self.assertEqual((point.status, point.errors), (1, f"sweep: {trace} has changed since the sweep began\n"))

    def test_interrupt_says_how_to_resume(self):
        words = ["--out", self.out, "--make", "uniform --fill", "--rounds", "200", *SMALL, "--pages", "256", "--utilisation", "50:90:1", "--jobs", "1"]
        call = {"stderr": subprocess.PIPE, "text": True, "start_new_session": True, "preexec_fn": default_signals}
        with subprocess.Popen([sys.executable, TOOLS / "sweep", *words], **call) as run:
            while not (self.out / "jobs.log").exists():
                time.sleep(0.05)
            time.sleep(0.5)
            os.killpg(run.pid, signal.SIGINT)
            errors = run.stderr.read()
        self.assertEqual(run.returncode, 130)
        self.assertIn(f"sweep: interrupted; the same call with --resume continues the sweep in {self.out}\n", errors)

    @needs("ssh", "sshd", "rsync")
    def test_copies_trace_to_other_machines(self):
        trace, away = self.out.parent / "trace.csv", self.out.parent / "away.csv"
        trace.write_bytes(gzip.compress((TOP / "examples/collection.csv").read_bytes()))
        # On the other machine the trace is nowhere but where it was handed over: it is away while anything but rsync runs there.
        forced = self.out.parent / "forced"
        lines = [
            "#!/bin/sh",
            'case "$SSH_ORIGINAL_COMMAND" in *rsync*) exec sh -c "$SSH_ORIGINAL_COMMAND" ;; esac',
            f"mv {trace} {away}",
            f'{other_program()} sh -c "$SSH_ORIGINAL_COMMAND"',
            "status=$?",
            f"mv {away} {trace}",
            "exit $status",
        ]
        forced.write_text("\n".join([*lines, ""]))
        forced.chmod(0o755)
        machines = self.out.parent / "machines"
        with sshd.running(forced) as machine:
            machines.write_text(f"1/{machine}\n")
            words = ("--sectors", "3", "--words", "1", "--endurance", "10", "--pages", "2", "--blocks", "3,4")
            done = Run("sweep", "--out", self.out, "--trace", trace, *words, "--sshloginfile", machines, "--jobs", "1")
        self.assertEqual((done.status, done.errors), (0, ""))
        self.assertEqual([row["erases"] for row in self.rows()], ["1", "0"])
        hosts = {line.split("\t")[1] for line in (self.out / "jobs.log").read_text().splitlines()[1:]}
        self.assertEqual(len(hosts), 1)
        self.assertIn("127.0.0.1", hosts.pop())


def default_signals():
    """What whoever started the tests ignores isn't ignored here: a shell has jobs in the background ignore an interrupt."""
    for number in (signal.SIGINT, signal.SIGQUIT):
        signal.signal(number, signal.SIG_DFL)


def other_program():
    """The setting by which another machine plays with the program that this one uses, if that isn't the launcher."""
    return f"FLASHPLAY={os.environ['FLASHPLAY']}" if "FLASHPLAY" in os.environ else ""


class Refusals(unittest.TestCase):
    def test_names_command_that_installs_parallel(self):
        path = os.environ["PATH"]
        self.addCleanup(os.environ.__setitem__, "PATH", path)
        os.environ["PATH"] = "/nowhere"
        with tempfile.TemporaryDirectory() as folder:
            done = Run("sweep", "--out", os.path.join(folder, "out"), "--make", "uniform")
        self.assertEqual(done.status, 1)
        self.assertIn("apt-get install parallel", done.errors)

    def test_refuses_invalid_arguments(self):
        uniform = "--make", "uniform"
        refused = [
            ("--make", "normal"), ("--make", "uniform '"), ("--make", "uniform --exponent nan"), ("--make", "uniform --what"),
            ("--trace", "x", *uniform), (),
            *((*uniform, *words.split()) for words in (
                "--pages a", "--blocks 8.7", "--blocks inf", "--pages nan", "--blocks=-8", "--blocks 1:2:1e-300", "--blocks 90:50:10", "--point x",
                "--rounds inf", "--rounds 1000000", "--jobs x", "--from-line 5", "--utilisation 101", "--settle 9",
                "--resume --force", "--up load", "--speed 0", "--part /nowhere --arrivals a",
            )),
        ]
        for words in refused:
            with self.subTest(words):
                self.assertEqual(Run("sweep", "--out", "/nowhere/out", *words).status, 2)
