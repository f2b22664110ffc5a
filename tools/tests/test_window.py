"""One window for everything: reports of the lines behind a precondition, counted independently by awk over the files of the run."""

import json
import pathlib
import subprocess
import unittest

from simulation import device, estimates, model
from tests.packages import needs
from tests.test_report import BROOMS, COLLECTION, LOG, InFolder, report
from tests.tools import TOP, Run, make

DEVICE = {"luns": 1, "blocks": 16, "pages": 16, "words": 1, "sectors": 200, "endurance": 1000}
PART = ("--read-time", 1, "--program-time", 10, "--erase-time", 1000, "--transfer-time", 0)


def awk(program, *files, **variables):
    """What a program of awk prints: one number for each word."""
    words = [word for name, value in {"OFMT": "%.17g", **variables}.items() for word in ("-v", f"{name}={value}")]
    return [float(word) for word in subprocess.run(["awk", "-F,", *words, program, *files], capture_output=True, text=True, check=True).stdout.split()]


class WindowTest(InFolder):
    def played(self, trace: bytes, numbers=DEVICE):
        """A run of the model: the words of a report on it."""
        run = model.Model(**numbers)
        answers = self.file("answers", "".join(run.play(trace)).encode())
        files = ("--wear", self.file("wear", run.wear().encode()), "--collections", self.file("log", run.log().encode()))
        return answers, *files, *device.words_of(numbers), "--page-bytes", 4096

    def reported(self, *words):
        done = Run("report", *words, "--json")
        self.assertEqual((done.status, done.errors), (0, ""))
        return json.loads(done.text)


class Windows(WindowTest):
    trace = make("zipf", "--sectors", "200", "--lines", "3000", "--reads", "20", "--trims", "5", "--fill", "--data", "zeros").bytes

    def test_counts_behind_a_line_are_those_of_awk(self):
        words, log = self.played(self.trace), self.folder / "log"
        # At a line that collects, and at the one behind it.
        collecting = int(log.read_text().splitlines()[60].split(",")[0])
        for first in (collecting, collecting + 1):
            with self.subTest(first):
                self.check_window(words, first)

    def check_window(self, words, first):
        answers, log = (self.folder / name for name in ("answers", "log"))
        whole, window = self.reported(*words), self.reported(*words, "--from-line", first)
        writes, reads = awk('$1 != "end" && $1 >= first { w += $2 == "write" && $4 != "worn"; r += $2 == "read" } END { print w, r }', answers, first=first)
        copied, erases = awk("NR > 1 && $1 >= first { c += $3; e++ } END { print c, e }", log, first=first)
        self.assertEqual((window["programs"], window["copies"], window["erases"], window["collections"]), (writes, copied, erases, erases))
        self.assertEqual((window["first_line"], window["last_line"], window["lines"]), (first, 3200, 3201 - first))
        self.assertEqual(window["reads_data"] + window["reads_empty"], reads)
        self.assertAlmostEqual(window["write_amplification"], (writes + copied) / writes)
        self.assertNotEqual(window["write_amplification"], whole["write_amplification"])
        (most,) = awk("NR > 1 && $1 >= first { n[$2]++ } END { for (b in n) if (n[b] > m) m = n[b]; print m }", log, first=first)
        self.assertEqual(window["erases_most"], most)
        self.assertAlmostEqual(window["victim_live_pages_mean"], copied / erases)

    def test_first_line_says_the_window_and_what_was_refused(self):
        words = self.played(self.trace)
        self.assertEqual(Run("report", *words).lines[0].split("  ")[-1], "the whole run, 3,200 lines; no write was refused")
        mark = self.file("mark", b"1200\n")
        self.assertEqual(Run("report", *words, "--from-mark", mark).lines[0].split("  ")[-1], "lines 1,201 to 3,200; no write was refused")
        worn = {**DEVICE, "endurance": 3}
        words = self.played(self.trace, worn)
        answers = self.folder / "answers"
        refused, first = awk('$4 == "worn" { n++; if (!f) f = $1 } END { print n, f }', answers)
        (writes,) = awk('$2 == "write" { n++ } END { print n }', answers)
        told = f"REFUSED: {int(refused):,} of {int(writes):,} writes ({int(refused):,} worn), the first at line {int(first):,}"
        self.assertIn(told, Run("report", *words).lines[0])

    @needs("matplotlib", "numpy")
    def test_page_says_the_window_and_what_was_refused(self):
        words, page = self.played(self.trace, {**DEVICE, "endurance": 3}), self.folder / "page.html"
        self.assertEqual(Run("report", *words, "--page", page).status, 0)
        self.assertRegex(page.read_text(), r"</h1>\n<p class=alarm>the whole run, 3,200 lines; REFUSED: [\d,]+ of [\d,]+ writes")
        self.assertEqual(Run("report", *words, "--from-line", 50, "--page", page).status, 0)
        self.assertRegex(page.read_text(), r"</h1>\n<p class=alarm>lines 50 to 3,200; REFUSED")

    def test_window_needs_the_lines_and_the_log(self):
        words = self.played(self.trace)
        for given, message in (
            ((words[0], "--from-line", 5), "a window of lines needs --collections"),
            ((*words, "--from-line", 3201), "line 3,201 comes after the last of the answers' 3,200 lines"),
            ((self.file("quiet", b"end,5,1,1\n"), "--collections", self.file("log_of_five", LOG), "--from-line", 2), "only their last line"),
            ((*words, "--from-line", 5, "--from-mark", "mark"), "not allowed with"),
        ):
            done = Run("report", *given)
            self.assertEqual((done.status, done.text), (2, ""), done.errors)
            self.assertIn(message, done.errors)

    def test_workers_run_has_amplification_by_its_brooms(self):
        answers = b"1,write,0,empty\n2,write,1,empty\n3,new,1,written\n4,new,2,empty\n5,read,0,empty\nend\n"
        reported = json.loads(report(answers, "--json", "--collections", self.file("log", BROOMS)).text)
        # Four pages programmed for writes, one of them by a `new` in vain, and 15 by the brooms.
        self.assertEqual((reported["programs"], reported["copies"], reported["erases"], reported["write_amplification"]), (4, 15, 4, 19 / 4))
        done = Run("report", COLLECTION, "--collections", self.file("log", BROOMS))
        self.assertEqual(done.status, 3)


class ClosedForms(WindowTest):
    # Of devices with 1,024 blocks of 64 pages, at a utilisation in percent of all pages.
    AMPLIFICATIONS = {50: 1.239, 70: 1.837, 88: 4.118, 95: 8.958}

    def test_amplification_of_uniform_writes(self):
        """Behind a window's first line, on devices of 256 blocks with as many pages for each sector, without the spare, as those have."""
        blocks, pages = 256, 64
        for percent, wanted in self.AMPLIFICATIONS.items():
            sectors = round((blocks - 1) * pages * percent / 100 * 1024 / 1023)
            numbers = {"luns": 1, "blocks": blocks, "pages": pages, "words": 1, "sectors": sectors, "endurance": 1_000_000}
            lines = 7 * blocks * pages
            trace = make("uniform", "--fill", "--sectors", sectors, "--lines", lines, "--data", "zeros", "--seed", 3).bytes
            found = self.reported(*self.played(trace, numbers), "--from-line", sectors + 3 * blocks * pages + 1)["write_amplification"]
            with self.subTest(percent):
                self.assertAlmostEqual(found / wanted, 1, delta=0.01)
                self.assertAlmostEqual(estimates.for_blocks(1023 / 1024 * 100 / percent, pages) / wanted, 1, delta=0.001)


class Life(WindowTest):
    def test_life_is_that_of_awk(self):
        words = self.played(Windows.trace)
        reported, answers, wear = self.reported(*words), self.folder / "answers", self.folder / "wear"
        total, worst, blocks = awk("NR > 1 { s += $2; if ($2 > m) m = $2; n++ } END { print s, m, n }", wear)
        programs, copies = awk('$1 == "end" { print $2, $3 }', answers)
        self.assertEqual((reported["endurance"], reported["life_used_worst"], reported["life_used_mean"]), (1000, worst / 1000, total / blocks / 1000))
        self.assertAlmostEqual(reported["life_worst_by_mean"], worst * blocks / total)
        # What is left: each erase that the blocks will have makes room for 16 pages, of which programs / (programs + copies) are of the host.
        left = (1000 - worst) * total / worst * 16 * 4096 * programs / (programs + copies)
        self.assertAlmostEqual(reported["life_bytes_left"] / left, 1)
        self.assertAlmostEqual(reported["life_bytes_at_end"] / (programs * 4096 + left), 1)
        text = Run("report", *words).text
        self.assertRegex(text, r"endurance used +the mean block [\d.]+ %, the worst [\d.]+ %, 1\.\d\d times the mean \(of 1,000 erases\)")
        self.assertRegex(text, r"life +[\d.]+ MB can still be written; TBW [\d.]+ MB at the end \(extrapolated\)")

    def test_extrapolation_is_near_a_whole_life(self):
        """A run to the device's end writes about as many bytes as were extrapolated from its first part."""
        numbers = {**DEVICE, "endurance": 40}
        first = self.reported(*self.played(make("uniform", "--sectors", 200, "--lines", 3000, "--fill", "--data", "zeros").bytes, numbers))
        whole = self.reported(*self.played(make("uniform", "--sectors", 200, "--lines", 20_000, "--fill", "--data", "zeros").bytes, numbers))
        self.assertGreater(whole["writes_refused"], 0)
        self.assertAlmostEqual(first["life_bytes_at_end"] / whole["bytes_written"], 1, delta=0.15)
        self.assertEqual((whole["retired_blocks"], whole["life_used_worst"], whole["life_bytes_left"]), (1, 1, None))

    def test_retired_blocks_and_unknown_lives(self):
        words = self.played(Windows.trace, {**DEVICE, "endurance": 3})
        self.assertRegex(Run("report", *words).text, r"life +blocks retired: 1; a device for one thread ends soon after the first")
        self.assertIsNone(self.reported(*words[:5])["endurance"])
        done = Run("report", *self.played(Windows.trace), "--endurance", 5)
        self.assertEqual(done.status, 3)
        self.assertIn("the log has a victim that the device of the options can't have", done.errors)
        answers, *words = self.played(Windows.trace)
        done = Run("report", answers, *words[:2], *words[4:], "--endurance", 5)
        self.assertEqual(done.status, 3)
        self.assertIn("more erases than the endurance of 5", done.errors)

    @needs("matplotlib")
    def test_wear_picture_has_line_of_endurance(self):
        picture = self.folder / "wear.svg"
        near, far = (self.played(Windows.trace, {**DEVICE, "endurance": endurance}) for endurance in (60, 1000))
        for words, endurance in ((far, "endurance 1,000, far above<"), (near, "endurance 60<")):
            self.assertEqual(Run("report", *words, "--erases-picture", picture).status, 0)
            self.assertIn(endurance, picture.read_text())
            # The bars begin at zero.
            self.assertRegex(picture.read_text(), r'id="ytick_1">(?s:.){0,900}>0</text>')
        self.assertEqual(Run("report", *words, "--from-line", 1000, "--erases-picture", picture).status, 0)
        self.assertIn("before these lines", picture.read_text())


@needs("numpy")
class Joined(WindowTest):
    """A trace behind a precondition: its queue begins when the precondition is done."""

    precondition, arrivals = "uniform --sectors 200 --lines 2000 --fill --data zeros --seed 5".split(), ("--rate", "20")

    def join(self):
        first, second = self.file("first.csv", make(*self.precondition).bytes), self.folder / "second.csv"
        times = self.folder / "second.arrivals"
        second.write_bytes(make("uniform", "--sectors", 200, "--lines", 1500, "--seed", 9, "--reads", 30, *self.arrivals, "--arrivals", times).bytes)
        words = ("--mark", self.folder / "mark", "--arrivals-of", times, "--arrivals", self.folder / "arrivals")
        done = Run("trace", "join", first, second, *words)
        self.assertEqual((done.status, done.errors), (0, ""))
        self.assertEqual(done.bytes, first.read_bytes() + second.read_bytes())
        self.assertEqual((self.folder / "mark").read_text(), "2200\n")
        return done.bytes

    def test_latencies_behind_precondition_are_those_of_awk(self):
        words = self.played(self.join())
        reported = self.reported(*words, "--from-mark", self.folder / "mark", *PART, "--arrivals", self.folder / "arrivals")
        # One queue, first come first served, from the mark on; a write that collects copies by read and program.
        program = """
            FILENAME ~ /log$/ { if (FNR > 1) collection[$1] = 1000 + $3 * 11; next }
            FILENAME ~ /arrivals$/ { time[FNR + 2200] = $1; next }
            $1 == "end" || $1 <= 2200 { next }
            {
                service = collection[$1] + ($2 == "write" ? 10 : $4 == "empty" ? 0 : 1)
                begin = time[$1] > done ? time[$1] : done
                done = begin + service
                sum += done - time[$1]; n++
            }
            END { print sum / n, n }
        """
        files = [self.folder / name for name in ("log", "second.arrivals", "answers")]
        mean, count = awk(program, *files)
        self.assertEqual(reported["response_all_count"], count)
        self.assertAlmostEqual(reported["response_all_mean_us"], mean, places=3)
        self.assertLess(mean, 2000)

    def test_arrivals_of_precondition_have_no_plus(self):
        self.join()
        lines = (self.folder / "arrivals").read_text().split()
        self.assertEqual((lines[:2200], [line[0] for line in lines[2200:]]), (["0.000"] * 2200, ["+"] * 1500))
        log, answers = self.file("log", LOG), self.file("a", COLLECTION.read_bytes())
        for times, message in (("0\n" * 4 + "+3\n" * 4 + "9\n", "line 9: '9' has no plus"), ("0\n" * 4 + "+3\n+2\n" + "+9\n" * 3, "line 6: an arrival before")):
            done = Run("report", answers, "--collections", log, *PART, "--arrivals", self.file("times", times.encode()))
            self.assertEqual(done.status, 3)
            self.assertIn(message, done.errors)

    def test_refuses_what_it_cannot_join(self):
        good, times = self.file("good", b"0,write,1,\n0,read,1,\n"), self.file("times", b"0.000\n1.000\n2.000\n")
        out = ("--arrivals", self.folder / "out")
        for words, message, status in (
            ((good, self.file("bad", b"0,write,1\n")), "line 1: '0,write,1' isn't a plain line", 3),
            ((good, self.file("quoted", b'0,"read",1,\n')), "isn't a plain line", 3),
            ((good, good, "--arrivals-of", times, *out), "times has 3 lines, and the trace 2", 3),
            ((good, good, "--arrivals-of", self.file("plus", b"+1\n2\n"), *out), "line 1: '+1' isn't such a line", 3),
            ((good, good, *out), "--arrivals-of and --arrivals need each other", 2),
            ((good, "/no/such/trace"), "No such file or directory", 1),
        ):
            with self.subTest(message):
                done = Run("trace", "join", *words)
                self.assertEqual(done.status, status)
                self.assertIn(message, done.errors)


@needs("numpy")
class Requests(WindowTest):
    answers = b"1,write,0,empty\n2,write,1,empty\n3,write,2,empty\n4,read,0,0000000000000000\n5,read,1,0000000000000000\n6,write,0,written\nend,4,0,0\n"
    log = LOG.splitlines(keepends=True)[0]

    def words(self, requests):
        files = "--collections", self.file("log", self.log), "--requests", self.file("requests", requests)
        return self.file("answers", self.answers), *files, *PART

    def test_hand_computed_requests(self):
        # Requests of two writes at 0, of a write and none at 5, of two reads at 100, and of a write at 200: 20, 25, 2 and 10.
        times = self.file("times", b"0\n0\n5\n100\n100\n200\n")
        words = self.words(b"1,8192\n1,8192\n2,100\n3,8192\n3,8192\n4,4096\n")
        reported = self.reported(*words, "--arrivals", times)
        wanted = {
            "response_by": "request", "response_all_count": 4, "response_writes_count": 3, "response_reads_count": 1,
            "response_writes_mean_us": (20 + 25 + 10) / 3, "response_writes_longest_us": 25, "response_reads_mean_us": 2,
            "requests_per_second": 4 / 210e-6, "megabytes_per_second": (8192 + 100 + 8192 + 4096) / 210,
        }  # fmt: skip
        for name, number in wanted.items():
            with self.subTest(name):
                self.assertAlmostEqual(reported[name], number, places=6) if isinstance(number, float) else self.assertEqual(reported[name], number)
        text = Run("report", *words, "--arrivals", times).text
        self.assertRegex(text, "times +waiting and service, .*; by request\n")
        self.assertRegex(text, "throughput +19,047.6 requests a second")
        # By page: the two writes are 10 and 20.
        by_page = self.reported(*words[:3], *PART, "--arrivals", times)
        self.assertEqual((by_page["response_by"], by_page["response_writes_count"], by_page["response_writes_mean_us"]), ("page", 4, (10 + 20 + 25 + 10) / 4))

    def test_requests_of_a_window_are_those_that_begin_in_it(self):
        words = self.words(b"0,0\n1,8192\n1,8192\n2,8192\n2,8192\n3,4096\n")
        self.assertEqual([self.reported(*words, "--from-line", line)["response_all_count"] for line in (1, 2, 3, 4, 5)], [3, 3, 2, 2, 1])

    def test_convert_writes_requests(self):
        log = b"fio version 3 iolog\n0 disk add\n5 disk write 0 8192\n9 disk trim 1 4096\n17 disk read 4095 2\n"
        words = ("--page-bytes", 4096, "--sectors", 9, "--requests", self.folder / "requests", "--arrivals", self.folder / "arrivals")
        done = Run("trace", "convert", "fio", *words, given=log)
        self.assertEqual(done.lines, ["0,write,0,00000001", "0,write,1,00000002", "0,read,0,", "0,read,1,"])
        # The trim covers no whole page, so it has no line and no number.
        self.assertEqual((self.folder / "requests").read_text(), "1,8192\n1,8192\n2,2\n2,2\n")
        self.assertEqual((self.folder / "arrivals").read_text(), "0.000\n0.000\n12.000\n12.000\n")


@needs("numpy", "matplotlib")
class Overloaded(WindowTest):
    answers = b"1,write,0,empty\n2,write,1,empty\n3,write,2,empty\nend,3,0,0\n"

    def test_overloaded_queue_is_told_as_that(self):
        # Writes of 10 at 0, 5 and 10: three times the work of a device in the time between the first and the last.
        files = "--collections", self.file("log", Requests.log), "--arrivals", self.file("times", b"0\n5\n10\n")
        answers, page = self.file("answers", self.answers), self.folder / "page.html"
        told = "the device cannot carry this load: 3.000 of it; the queue grows as long as the run lasts, and no latency can be given"
        told += "; --speed 0.31 slows the arrivals to what it carries"
        self.assertFalse(self.reported(answers, *files, *PART, "--speed", 0.31)["overloaded"])
        self.assertTrue(self.reported(answers, *files, *PART, "--speed", 0.34)["overloaded"])
        done = Run("report", answers, *files, *PART, "--page", page)
        self.assertRegex(done.text, f"latency +{told}\n")
        self.assertNotRegex(done.text, "p99|waited behind a collection")
        reported = self.reported(answers, *files, *PART)
        self.assertEqual((reported["overloaded"], reported["load"], reported["response_writes_count"]), (True, 3, 3))
        self.assertEqual([value for name, value in reported.items() if name.startswith("response_") and name.endswith("_us") and value is not None], [])
        self.assertIn("<strong>overloaded</strong><span>3.000 of what the device can carry</span>", page.read_text())
        self.assertIn(told[1:], page.read_text())
        done = Run("report", answers, *files, *PART, "--response-picture", self.folder / "tail.svg")
        self.assertEqual((done.status, pathlib.Path(self.folder / "tail.svg").exists()), (1, False))
        self.assertIn("tail.svg isn't drawn: the device cannot carry this load", done.errors)

    def test_units_scale(self):
        answers = self.file("answers", b"1,write,0,empty\n2,write,1,empty\n3,write,2,empty\nend,3,0,0\n")
        times = "--read-time", 1, "--erase-time", 1, "--transfer-time", 0
        for program, wanted in ((405.9, "405.9 µs"), (20_125, "20.12 ms"), (3_500_000, "3.5 s")):
            text = Run("report", answers, "--collections", self.file("log", Requests.log), *times, "--program-time", program).text
            self.assertRegex(text, f"latency of writes +3: mean {wanted}, median {wanted}, p95 {wanted}, p99 {wanted}, p99.9 {wanted}")
        self.assertIn("idle 0.0 %", text)


class Examples(unittest.TestCase):
    def test_example_of_readme_is_reported(self):
        self.assertEqual(Run("report", TOP / "examples/collection.out").lines[0].split("  ")[-1], "the whole run, 9 lines; no write was refused")
