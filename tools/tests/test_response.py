"""Response times: rows by hand, sums against the totals, the closed form of a queue with constant service, and a large run."""

import json
import os
import random
import subprocess
import sys

from simulation import faults, model, part
from simulation.device import LAUNCHER
from tests.packages import needs
from tests.test_model import LONG, random_run
from tests.test_report import InFolder
from tests.tools import TOOLS, TOP, Run, convert, make

PARTS = TOP / "examples/parts"
LOG_HEAD = "line,victim,copied,copybacks,erases,outcome\n"
# A part whose times can be distinguished in every sum.
TIMES = ("--read-time", 1, "--program-time", 10, "--copyback-time", 100, "--erase-time", 1000, "--transfer-time", 0.5)
NO_COPYBACK = tuple(word for pair in zip(TIMES[::2], TIMES[1::2]) if pair[0] != "--copyback-time" for word in pair)
FIGURES = ("mean", "median", "p95", "p99", "p999", "p9999", "longest")


class ResponseTest(InFolder):
    def reported(self, answers, log, *words, times=TIMES):
        """The report of answers and collections, each a line."""
        answers, log = self.file("answers", answers.encode()), self.file("log", (LOG_HEAD + log).encode())
        done = Run("report", answers, "--json", "--collections", log, *times, *words)
        self.assertEqual(done.status, 0, done.errors)
        return json.loads(done.text)

    def arrivals(self, *times):
        return "--arrivals", self.file("arrivals", "".join(f"{time}\n" for time in times).encode())


@needs("numpy")
class ServiceTimes(ResponseTest):
    def longest(self, answer, end, log="", times=TIMES):
        """The time of the last line, with as many lines before it that take none."""
        return self.reported(answer + end, log, times=times)["response_all_longest_us"]

    def test_read_of_data(self):
        self.assertEqual(self.longest("1,read,0,0000000000000000\n", "end,0,0,0\n"), 1.5)

    def test_write_without_collection(self):
        self.assertEqual(self.longest("1,write,0,empty\n", "end,1,0,0\n"), 10.5)
        self.assertEqual(self.longest("1,new,0,empty\n", "end,1,0,0\n"), 10.5)

    def test_lines_that_take_no_time(self):
        for line in ("read,0,empty", "trim,0,written", "trim,0,empty", "new,0,written", "new,0,worn", "write,0,worn"):
            with self.subTest(line):
                self.assertEqual(self.longest(f"1,{line}\n", "end,0,0,0\n"), 0)
        self.assertEqual(self.reported("1,meet,0,met\nend,0,0,0\n", "")["response_all_count"], 0)

    def test_write_with_collection(self):
        # Three live pages on one LUN: 3 copybacks, an erase, and the write.
        self.assertEqual(self.longest("1,write,0,written\n", "end,1,3,1\n", "1,0,3,3,1,freed\n"), 300 + 1000 + 10.5)
        # To another LUN each page is read, goes over the bus twice and is programmed.
        self.assertEqual(self.longest("1,write,0,written\n", "end,1,3,1\n", "1,0,3,0,1,freed\n"), 3 * (1 + 2 * 0.5 + 10) + 1000 + 10.5)
        # Two of three on one LUN, without a copyback of the part: read and program, which need no transfer.
        self.assertEqual(self.longest("1,write,0,written\n", "end,1,3,1\n", "1,0,3,2,1,freed\n", NO_COPYBACK), 2 * 11 + 12 + 1000 + 10.5)
        # No live page: the erase alone.
        self.assertEqual(self.longest("1,write,0,written\n", "end,1,0,1\n", "1,0,0,0,1,freed\n"), 1000 + 10.5)

    def test_failed_erase_takes_time_and_refused_write_none(self):
        reported = self.reported("1,write,0,written\n2,write,0,worn\nend,1,1,1\n", "1,0,1,1,1,retired\n")
        self.assertEqual([reported[f"response_writes_{name}"] for name in ("count", "longest_us", "mean_us")], [2, 1110.5, 1110.5 / 2])


@needs("numpy")
class ProgramRuns(ResponseTest):
    """Runs of the program with its own log, and the sum of their services by hand."""

    def sum_of(self, words, trace, times=TIMES):
        log = self.folder / "log"
        call = [LAUNCHER, *words.split(), "--collections", log]
        answers = self.file("answers", subprocess.run(call, input=trace.encode(), capture_output=True, check=True).stdout)
        reported = json.loads(Run("report", answers, "--json", "--collections", log, *times).text)
        return reported["time_whole_us"], reported["response_writes_longest_us"]

    def test_two_luns_with_both_ways_to_copy(self):
        # Nine writes; lines 7 and 9 copy a page to the other LUN, and line 8 one within its LUN.
        trace = "".join(f"0,write,{sector},\n" for sector in (0, 1, 2, 3, 0, 2, 4, 4, 4))
        words = "--luns 2 --blocks 4 --pages 2 --words 1 --sectors 5"
        self.assertEqual(self.sum_of(words, trace), (9 * 10.5 + 3 * 1000 + 2 * 12 + 100, 1110.5))
        self.assertEqual(self.sum_of(words, trace, NO_COPYBACK), (9 * 10.5 + 3 * 1000 + 2 * 12 + 11, 1022.5))

    def test_last_erase_and_refused_writes(self):
        # Line 5 copies a page and erases; it fills the last block, and lines 6 to 12 are refused.
        words = "--blocks 3 --pages 2 --words 1 --sectors 3 --endurance 1"
        self.assertEqual(self.sum_of(words, LONG), (5 * 10.5 + 100 + 1000, 1110.5))


@needs("numpy")
class Queues(ResponseTest):
    answers = "1,write,0,empty\n2,write,0,written\n3,read,0,0000000000000000\n4,meet,0,met\n5,read,1,empty\n6,write,0,written\nend,3,1,1\n"
    log = "2,0,1,1,1,freed\n"

    def test_hand_computed_rows(self):
        # Line 1 arrives at 100 and takes 10.5. Line 2 arrives 4 later, waits 6.5 and takes 1110.5: done 1121 behind the first arrival.
        # Line 3 arrives at 20, waits 1101 and takes 1.5. Line 5 arrives at 1000, waits 122.5 and takes none. Line 6 arrives at 2000.
        reported = self.reported(self.answers, self.log, *self.arrivals(100, 104, 120, 121, 1100, 2100), "--page-bytes", 1000)
        wanted = {
            "response_all_count": 5, "response_reads_count": 2, "response_writes_count": 3,
            "response_writes_mean_us": (10.5 + 1117 + 10.5) / 3, "response_writes_median_us": 10.5, "response_writes_longest_us": 1117,
            "response_reads_mean_us": (1102.5 + 122.5) / 2, "response_reads_median_us": 122.5, "response_reads_p99_us": 1102.5,
            "response_all_median_us": 122.5,
            # The collection runs from 10.5 to 1110.5: line 2 meets all of it, line 3 from its arrival at 20 on, line 5 from 1000 on.
            "collection_met_share": 3 / 5, "collection_met_mean_us": (1100 + 1090.5 + 110.5) / 3, "collection_met_longest_us": 1100,
            "time_reads_us": 1.5, "time_programs_us": 31.5, "time_copies_us": 100, "time_erases_us": 1000, "time_rest_us": 877.5, "time_whole_us": 2010.5,
            "load": 1133 / 2000, "requests_per_second": 5 / 2010.5e-6, "megabytes_per_second": 4 * 1000 / 2010.5,
        }
        for name, number in wanted.items():
            self.assertAlmostEqual(reported[name], number, places=6, msg=name)

    def test_idle_time_does_not_shorten_later_lines(self):
        # A write at 0, done at 10.5; one at 1,000, done at 1,010.5; one at 1,003 waits 7.5 for it.
        reported = self.reported("1,write,0,empty\n2,write,0,written\n3,write,0,written\nend,3,0,0\n", "", *self.arrivals(0, 1000, 1003))
        self.assertEqual((reported["response_writes_longest_us"], reported["response_writes_median_us"]), (18, 10.5))
        self.assertEqual((reported["time_whole_us"], reported["time_rest_us"]), (1021, 1021 - 31.5))

    def test_speed_option(self):
        slow = self.reported(self.answers, self.log, *self.arrivals(0, 4, 20, 21, 1000, 2000))
        fast = self.reported(self.answers, self.log, *self.arrivals(0, 8, 40, 42, 2000, 4000), "--speed", 2)
        self.assertEqual(slow, fast)

    def test_from_line_option(self):
        reported = self.reported(self.answers, self.log, *self.arrivals(100, 104, 120, 121, 1100, 2100), "--from-line", 3)
        self.assertEqual((reported["response_all_count"], reported["response_reads_longest_us"], reported["collection_met_longest_us"]), (3, 1102.5, 1090.5))
        self.assertEqual((reported["time_erases_us"], reported["time_reads_us"], reported["time_programs_us"]), (0, 1.5, 10.5))
        # From the arrival of line 3 to the end are 1990.5, of which 1101 go to what stood in front of it.
        self.assertAlmostEqual(reported["time_rest_us"], 1990.5 - 1101 - 12)

    def test_percentiles(self):
        # Lines that arrive at once wait for all in front of them: the times are 1.5, 3, 4.5 and so on.
        lines = "".join(f"{line},read,0,0000000000000000\n" for line in range(1, 1001))
        reported = self.reported(lines + "end,0,0,0\n", "", *self.arrivals(*[7] * 1000))
        wanted = (1.5 * 500.5, 750, 1425, 1485, 1498.5, 1500, 1500)
        self.assertEqual([reported[f"response_reads_{name}_us"] for name in FIGURES], list(wanted))

    def test_refuses_broken_arrivals(self):
        for times, message in [
            ((0, 1, 2, 1, 5, 6), "line 4: an arrival before that of the line before it"),
            ((0, 1, 2), "line 4: there are 3 arrivals, and 6 answers: they are of two traces"),
            ((0, 1, 2, 3, 4, 5, 6), "line 7: there are 7 arrivals, and 6 answers"),
            ((0, 1, "x", 3, 4, 5), "line 3: 'x' isn't a time in microseconds"),
            ((0, 1, 2, 3, -4, 5), "line 5: '-4' isn't a time in microseconds"),
            ((0, 1, 2, "1e3", 4, 5), "line 4: '1e3' isn't a time in microseconds"),
            ((0, 1, "", 3, 4, 5), "line 3: '' isn't a time in microseconds"),
        ]:
            with self.subTest(times):
                self.file("answers", self.answers.encode())
                self.file("log", (LOG_HEAD + self.log).encode())
                done = Run("report", self.folder / "answers", "--collections", self.folder / "log", *TIMES, *self.arrivals(*times))
                self.assertEqual((done.status, done.text), (3, ""))
                self.assertIn(message, done.errors)

    def test_refuses_invalid_arguments(self):
        files = self.file("answers", self.answers.encode()), "--collections", self.file("log", (LOG_HEAD + self.log).encode())
        times = (("--speed", "0"), ("--from-line", "0"), ("--from-line", "7"), ("--arrivals", "/nowhere", "--speed", "nan"))
        for words in (("--arrivals", "x"), *((*TIMES, *words) for words in times), ("--response-picture", "x.svg"), TIMES[:-2]):
            with self.subTest(words):
                self.assertEqual(Run("report", *files, *words).status, 2)
        self.assertEqual(Run("report", files[0], *TIMES).status, 2)
        quiet = Run("report", self.file("quiet", b"end,3,1,1\n"), *files[1:], *TIMES)
        self.assertIn("the answers have only their last line", quiet.errors)


@needs("numpy")
class Sums(ResponseTest):
    def test_sum_of_service_times_follows_from_totals(self):
        seeded = random.Random(23)
        for number in range(20):
            device, trace = random_run(seeded)
            played = model.Model(**device)
            answers = "".join(played.play(trace.encode()))
            with self.subTest(number=number, device=device):
                reported = self.reported(answers, "".join(played.log().splitlines(keepends=True)[1:]))
                reads = sum(line.split(",")[1] == "read" and not line.endswith("empty") for line in answers.splitlines()[:-1])
                copybacks = sum(collection.copybacks for collection in played.collections)
                erases = sum(block.erases for block in played.blocks)
                wanted = reads * 1.5 + played.programs * 10.5 + copybacks * 100 + (played.copies - copybacks) * 12 + erases * 1000
                self.assertAlmostEqual((reported["response_all_mean_us"] or 0) * reported["response_all_count"], wanted, places=3)
                self.assertAlmostEqual(reported["time_whole_us"], wanted, places=3)


@needs("numpy", "matplotlib")
class SmallRuns(InFolder):
    def test_reports_and_draws_small_runs(self):
        log = self.file("log", LOG_HEAD.encode())
        # The page draws the others.
        kinds = ("collections", "victims")
        pictures = [word for kind in kinds for word in (f"--{kind}-picture", self.folder / f"{kind}.svg")]
        for lines, writes in (("", 0), ("1,meet,0,met\n", 0), ("1,trim,0,empty\n", 0), ("1,read,0,empty\n2,read,0,empty\n", 0), ("1,write,0,empty\n", 1)):
            with self.subTest(lines):
                answers = self.file("answers", f"{lines}end,{writes},0,0\n".encode())
                done = Run("report", answers, "--collections", log, *TIMES, *pictures, "--page", self.folder / "page.html")
                self.assertEqual((done.status, done.errors), (0, ""))
                self.assertRegex(done.text, f"latency of writes +{'1: mean 10.5 µs' if writes else 'none'}")
                self.assertIn("<svg", (self.folder / "page.html").read_text())


class Parts(InFolder):
    good = 'name = "x"\nread = 25\nprogram = 200.5\nerase = 1500\ntransfer = 0\ncopyback = 220\n'

    def read(self, text):
        return part.part_in(part.read_part(self.file("part.toml", text.encode())), "part.toml")

    def test_reads_part_file(self):
        self.assertEqual(self.read(self.good), part.Part("x", 25_000, 200_500, 1_500_000, 0, 220_000))

    def test_reads_example_parts(self):
        dftl = part.part_in(part.read_part(PARTS / "dftl_large_block.toml"), "dftl")
        self.assertEqual((dftl.read, dftl.program, dftl.erase, dftl.transfer, dftl.copyback), (130_900, 405_900, 2_000_000, 0, None))
        for path in PARTS.glob("*.toml"):
            part.part_in(part.read_part(path), path)

    def test_refuses_invalid_times(self):
        for text, message in [
            (self.good.replace("copyback = 220", "copyback = 0"), "the copyback 0 is less than a nanosecond; leave it out for a part without it"),
            (self.good.replace("read = 25", "read = -1"), "the read -1 isn't a number from 0 to 1,000,000,000, in microseconds"),
            (self.good.replace("read = 25", "read = 0"), "the read 0 is less than a nanosecond"),
            (self.good.replace("transfer = 0", "transfer = -0.5"), "the transfer -0.5 isn't a number"),
            (self.good.replace("erase = 1500", "erase = inf"), "the erase inf isn't a number"),
            (self.good.replace("erase = 1500", "erase = nan"), "the erase nan isn't a number"),
            (self.good.replace("erase = 1500", 'erase = "1500"'), "the erase '1500' isn't a number"),
            (self.good.replace("erase = 1500", "erase = true"), "the erase True isn't a number"),
            (self.good.replace("program = 200.5\n", ""), "the time 'program' is missing"),
            (self.good + "tPROG = 3\n", "'tPROG' isn't a key of a part"),
            (self.good + "read = 3\n", "isn't a TOML file"),
            ("\x00", "isn't a TOML file"),
        ]:
            with self.subTest(message), self.assertRaises(faults.Fault) as caught:
                self.read(text)
            self.assertIn(message, str(caught.exception))

    @needs("numpy")
    def test_single_time_replaces_that_of_file(self):
        answers, log = self.file("answers", b"1,write,0,empty\nend,1,0,0\n"), self.file("log", LOG_HEAD.encode())
        file = self.file("part.toml", self.good.encode())
        done = Run("report", answers, "--collections", log, "--part", file, "--program-time", 100, "--json")
        self.assertEqual(json.loads(done.text)["response_writes_mean_us"], 100)
        text = Run("report", answers, "--collections", log, "--part", file).text
        self.assertIn("x (read 25, program 200.5, copyback 220, erase 1,500, transfer 0 µs)", text)
        done = Run("report", answers, "--collections", log, "--part", self.file("part.toml", b"read = 0\n"))
        self.assertEqual(done.status, 3)
        self.assertIn("part.toml: the time 'program' is missing", done.errors)


class Arrivals(InFolder):
    def convert(self, name, log, *words, **numbers):
        path = self.folder / "arrivals"
        done = convert(name, log, "--arrivals", path, *words, **numbers)
        return done, path.read_text().split() if path.exists() else None

    def test_msr_timestamps(self):
        log = b"128166372003061629,hm,1,Write,0,8192,413\n128166372003061631,hm,1,Read,0,1,9\n"
        self.assertEqual(self.convert("msr", log)[1], ["0.000", "0.000", "0.200"])

    def test_blkparse_timestamps(self):
        log = b"8,0 0 1 1.000000001 5 D W 0 + 8 [a]\n8,0 0 2 2.000001001 5 D R 0 + 8 [a]\n"
        self.assertEqual(self.convert("blkparse", log)[1], ["0.000", "1000001.000"])

    def test_fio_timestamps(self):
        log = b"fio version 3 iolog\n18 disk add\n103 disk write 0 4096\n104 disk sync 0 0\n117 disk write 4096 4096\n"
        self.assertEqual(self.convert("fio", log)[1], ["0.000", "14.000"])

    @needs("fio")
    def test_rate_of_installed_fio(self):
        words = ["--name=job", "--ioengine=null", "--filename=disk", "--size=400k", "--rw=write", "--bs=4k", "--rate_iops=500"]
        subprocess.run(["fio", *words, f"--write_iolog={self.folder}/log"], cwd=self.folder, check=True, capture_output=True)
        done, times = self.convert("fio", (self.folder / "log").read_bytes())
        self.assertEqual((done.status, len(times)), (0, 100))
        # 99 intervals of 2,000 microseconds.
        self.assertAlmostEqual(float(times[-1]) / 198_000, 1, delta=0.1)

    def test_refuses_decreasing_and_missing_timestamps(self):
        done, _ = self.convert("msr", b"2,hm,1,Write,0,1,413\n1,hm,1,Read,0,1,9\n")
        self.assertEqual(done.status, 3)
        self.assertIn("line 2: its time is before that of line 1", done.errors)
        done, _ = self.convert("fio", b"fio version 2 iolog\ndisk write 0 4096\n")
        self.assertIn("an iolog of version 2 has no times", done.errors)

    def test_made_arrivals_leave_trace_unchanged(self):
        words = ("uniform", "--sectors", "9", "--lines", "50", "--fill")
        plain = make(*words)
        timed = make(*words, "--rate", "100", "--arrivals", self.folder / "a")
        self.assertEqual(timed.bytes, plain.bytes)
        times = [float(line) for line in (self.folder / "a").read_text().split()]
        self.assertEqual((len(times), times), (59, sorted(times)))
        for seed, name in ((1, "again"), (2, "other")):
            make(*words, "--rate", "100", "--seed", seed, "--arrivals", self.folder / name)
        again, other = ((self.folder / name).read_bytes() for name in ("again", "other"))
        self.assertEqual(again, (self.folder / "a").read_bytes())
        self.assertNotEqual(again, other)
        make(*words, "--interval", "2.5", "--arrivals", self.folder / "b")
        self.assertEqual((self.folder / "b").read_text().split()[:3], ["0.000", "2.500", "5.000"])

    def test_made_arrivals_have_exponential_intervals(self):
        make("uniform", "--sectors", "9", "--lines", "100000", "--rate", "1000", "--arrivals", self.folder / "a")
        times = [float(line) for line in (self.folder / "a").read_text().split()]
        gaps = [after - before for before, after in zip(times, times[1:])]
        mean = sum(gaps) / len(gaps)
        # Of an exponential distribution the deviation is the mean, and a share of 1/e is longer than it.
        self.assertAlmostEqual(mean, 1000, delta=15)
        self.assertAlmostEqual((sum((gap - mean) ** 2 for gap in gaps) / len(gaps)) ** 0.5, 1000, delta=20)
        self.assertAlmostEqual(sum(gap > 1000 for gap in gaps) / len(gaps), 0.3679, delta=0.006)

    def test_refuses_invalid_options(self):
        to = "--arrivals", self.folder / "a"
        for words in (("--rate", "5"), to, ("--rate", "0", *to), ("--rate", "nan", *to), ("--interval", "-1", *to), ("--rate", "1", "--interval", "1", *to)):
            with self.subTest(words):
                self.assertEqual(make("uniform", "--sectors", "9", "--lines", "5", *words).status, 2)


@needs("numpy")
class ClosedForm(InFolder):
    def test_reads_wait_as_in_queue_with_constant_service(self):
        """The mean waiting of Poisson arrivals at a server with constant service s and load rho is rho s / (2 (1 - rho))."""
        count, service = 1_000_000, 100
        arrivals = self.folder / "arrivals"
        make("sequential", "--sectors", "1", "--lines", str(count), "--reads", "100", "--rate", "1000", "--arrivals", arrivals)
        answers = self.file("answers", b"".join(b"%d,read,0,0000000000000000\n" % line for line in range(1, count + 1)) + b"end,0,0,0\n")
        log = self.file("log", LOG_HEAD.encode())
        part = ("--read-time", service - 20, "--transfer-time", 20, "--program-time", 1, "--erase-time", 1)
        for load in (0.3, 0.6, 0.8):
            with self.subTest(load):
                done = Run("report", answers, "--json", "--collections", log, *part, "--arrivals", arrivals, "--speed", 10 * load)
                reported = json.loads(done.text)
                waiting = reported["response_reads_mean_us"] - service
                self.assertAlmostEqual(waiting / (load * service / (2 * (1 - load))), 1, delta=0.03)
                self.assertAlmostEqual(reported["load"] / load, 1, delta=0.01)


def answer_of(line):
    """Of each third line a read of data, and else a write."""
    return b"%d,write,%d,written\n" % (line, line % 3072) if line % 3 else b"%d,read,7,00000000000000%02x\n" % (line, line % 256)


@needs("numpy")
class Large(InFolder):
    COUNT = 5_000_000

    def setUp(self):
        import numpy

        super().setUp()
        lines = numpy.arange(1, self.COUNT + 1)
        with open(self.folder / "answers", "wb") as sink:
            for first in range(1, self.COUNT + 1, 100_000):
                sink.write(b"".join(map(answer_of, range(first, first + 100_000))))
            writes = int((lines % 3 > 0).sum())
            collections = lines[lines % 64 == 1]
            collections = collections[collections % 3 > 0]
            sink.write(b"end,%d,%d,%d\n" % (writes, 40 * len(collections), len(collections)))
        self.file("log", LOG_HEAD.encode() + b"".join(b"%d,%d,40,20,1,freed\n" % (line, line % 4096) for line in collections.tolist()))
        self.file("arrivals", b"".join(b"%d.%03d\n" % (line * 900, line % 1000) for line in range(1, self.COUNT + 1)))

    def report(self, *words):
        """Checks that a report takes at most a minute of processor time and 1.5 GB of memory. How long it takes by the clock also depends on what
        else runs."""
        files = ("--collections", self.folder / "log", "--arrivals", self.folder / "arrivals")
        call = [sys.executable, TOOLS / "report", self.folder / "answers", "--json", *files, *map(str, TIMES), *words]
        with open(self.folder / "out", "wb") as sink:
            process = subprocess.Popen(call, stdout=sink)
            _, status, usage = os.wait4(process.pid, 0)
        process.returncode = os.waitstatus_to_exitcode(status)
        self.assertEqual(process.returncode, 0)
        self.assertEqual(json.loads((self.folder / "out").read_text())["response_all_count"], self.COUNT)
        self.assertLess(usage.ru_utime + usage.ru_stime, 60)
        self.assertLess(usage.ru_maxrss / 1_000_000, 1.5)

    def test_report_of_five_million_lines_is_within_limits(self):
        self.report()

    @needs("matplotlib")
    def test_page_of_five_million_lines_is_within_limits(self):
        self.report("--page", self.folder / "page.html")
        page = (self.folder / "page.html").read_text()
        self.assertEqual(page.count("<svg"), 4)
        self.assertLess(len(page), 1_000_000)
