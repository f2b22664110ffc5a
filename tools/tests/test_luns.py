"""Response times of several LUNs: rows by hand, the queue with constant service, and each line's times counted again from where the model puts it."""

import io
import random
import unittest

from simulation import answers, arrivals, collected, latency, luns, model, part, response
from simulation.device import DEFAULTS
from tests.packages import needs
from tests.test_model import random_run
from tests.test_response import LOG_HEAD, TIMES, ResponseTest
from tests.tools import Run

READS, WRITES = answers.READ_DATA, answers.PAIRS.index("write empty")
PART = part.Part("", 1_000, 10_000, 1_000_000, 500, 100_000)


class Placed(model.Model):
    """The model, with the LUN of each line and those that its collection takes."""

    def answer(self, line, op, sector, data):
        before, self.collecting = self.places[sector] if self.places[sector] else None, set()
        told = super().answer(line, op, sector, data)
        place = before if op == "read" else self.places[sector] if op in ("write", "new") and told != "worn" and (op, told) != ("new", "written") else None
        self.of_lines.append((None if place is None else self._lun(place[0]), self.collecting))
        return told

    def _lun(self, block):
        return block // self.blocks_of_a_lun

    def _collect(self, line):
        into = self.spare
        super()._collect(line)
        self.collecting = {self._lun(self.collections[-1].victim), self._lun(into)}


def run_of(numbers, trace):
    """A run on the model: the model, its answers and its log, as they are read."""
    played = Placed(**numbers)
    played.of_lines = []
    told = "".join(played.play(trace.encode()))
    return played, answers.read_answers(io.BytesIO(told.encode())), collected.read_log(io.BytesIO(played.log().encode()))


def counted_again(played, arrived, services, collections):
    """When each line begins, by all lines before it: it comes behind each that takes a LUN of its own, until that lets the LUN go."""
    held, begins = [], []
    for at, service, collection, (lun, collecting) in zip(arrived, services, collections, played.of_lines):
        own = ({lun} if lun is not None else set()) | collecting
        begin = max([at, *(until for taken, until in held if taken in own)])
        held += [(taken, begin + (service if taken == lun else collection)) for taken in own]
        begins.append(begin if own else at)
    return begins


@needs("numpy")
class CountedAgain(unittest.TestCase):
    def runs(self, count):
        import numpy

        seeded = random.Random(41)
        for number in range(count):
            numbers, trace = random_run(seeded)
            played, told, log = run_of(numbers, trace)
            times = numpy.cumsum(numpy.array([seeded.randrange(200_000) for _ in range(told.lines)], dtype=numpy.int64))
            with self.subTest(number=number, numbers=numbers):
                yield numbers, played, told, log, arrivals.Arrivals(times, 0)

    def test_lines_of_several_luns_begin_as_counted_again(self):
        import numpy

        seen = 0
        for numbers, played, told, log, times in self.runs(60):
            found = response.respond(told, log, PART, times, numbers=numbers).lines
            if numbers["luns"] > 1:
                collection = [int(after) for after in response._collection_times(numpy, told.lines, log, PART)]
                wanted = counted_again(played, found.arrival.tolist(), found.service.tolist(), collection)
                self.assertEqual(found.begin.tolist(), wanted)
                seen += bool(collection)
        self.assertGreater(seen, 20)

    def test_one_lun_is_one_queue(self):
        import numpy

        for numbers, _, told, log, times in self.runs(20):
            one = {**numbers, "luns": 1}
            places = luns.places_of(numpy, told, collected.Collections(log.lines, log.victims, log.copied, log.copied, log.erases), one)
            found, collection = response.respond(told, log, PART, times), response._collection_times(numpy, told.lines, log, PART)
            begin, _ = luns.queue(numpy, places, found.lines.arrival, found.lines.service, collection)
            works = places.lun >= 0
            self.assertEqual(begin[works].tolist(), found.lines.begin[works].tolist())

    def test_time_of_luns_adds_up(self):
        for numbers, _, told, log, times in self.runs(20):
            found = latency.summarise(response.respond(told, log, PART, times, first_line=max(1, told.lines // 2), numbers=numbers), 8)
            self.assertGreaterEqual(found["time_rest_us"], 0)
            self.assertEqual(found["response_luns"], numbers["luns"])


@needs("numpy")
class ClosedForm(unittest.TestCase):
    def test_reads_at_four_luns_wait_as_in_four_queues(self):
        """Poisson arrivals, each at one of four LUNs at random, are Poisson arrivals at each. With constant service s and load rho of a LUN, the mean
        waiting is rho s / (2 (1 - rho))."""
        import numpy

        seeded, count, service = numpy.random.default_rng(7), 400_000, 100_000
        # Eight blocks of 64 pages, two in a LUN: sectors 0, 128, 256 and 384 are each in another LUN.
        numbers, written = {**DEFAULTS, "luns": 4, "blocks": 8, "sectors": 400}, 400
        told = answers.Answers(bytearray([WRITES] * written + [READS] * count), programs=written, copies=0, erases=0)
        told.sectors.extend([*range(written), *(128 * seeded.integers(4, size=count)).tolist()])
        gaps = seeded.exponential(1, size=count)
        for load in (0.3, 0.6, 0.8):
            with self.subTest(load):
                times = numpy.concatenate([numpy.arange(written) - 10**9, numpy.cumsum(gaps * service / (4 * load)).astype(numpy.int64)]) + 10**9
                part_of_reads = part.Part("", service - 20_000, 1, 1, 20_000)
                found = response.respond(told, collected.Collections(), part_of_reads, arrivals.Arrivals(times, 0), first_line=written + 1, numbers=numbers)
                waiting = float((found.response() - service).mean())
                self.assertAlmostEqual(waiting / (load * service / (2 * (1 - load))), 1, delta=0.04)
                self.assertAlmostEqual(latency.summarise(found, None)["load"] / load, 1, delta=0.02)
                # One LUN would have four times the load.
                single = latency.summarise(response.respond(told, collected.Collections(), part_of_reads, arrivals.Arrivals(times, 0)), None)
                self.assertEqual(single["overloaded"], load > 0.25)


@needs("numpy")
class Reports(ResponseTest):
    """Two LUNs of two blocks with two pages each. Lines 1 to 6 fill blocks 0, 1 and 2; line 7 collects block 0 into the spare, block 3 of LUN 1."""

    device = ("--luns", 2, "--blocks", 4, "--pages", 2, "--words", 1, "--sectors", 5)
    answers = "".join(f"{line},write,{sector},{was}\n" for line, (sector, was) in enumerate(
        [(0, "empty"), (1, "empty"), (2, "empty"), (3, "empty"), (0, "written"), (2, "written"), (4, "empty")], 1))  # fmt: skip
    reads = "8,read,3,0000000000000000\n9,read,0,0000000000000000\n10,read,4,0000000000000000\n11,trim,4,written\nend,7,1,1\n"
    log = "7,0,1,0,1,freed\n"

    def test_hand_computed_rows(self):
        # Line 7 begins at 10,000, copies a page to the other LUN (12) and erases (1,000), so LUN 0 is free at 11,012 and LUN 1, behind the
        # program, at 11,022.5. Line 8 reads block 1 of LUN 0 from 11,012 on, and lines 9 and 10 read LUN 1 from 11,022.5 on. The trim waits for none.
        times = self.arrivals(*range(0, 600, 100), 10_000, 10_001, 10_002, 10_003, 10_004)
        reported = self.reported(self.answers + self.reads, self.log, *times, *self.device)
        wanted = {
            "response_writes_longest_us": 1022.5, "response_reads_median_us": 1022.0, "response_reads_longest_us": 1022.5, "response_luns": 2,
            "response_reads_mean_us": ((11_013.5 - 10_001) + (11_024 - 10_002) + (11_025.5 - 10_003)) / 3,
            "collection_met_longest_us": 1012, "collection_met_mean_us": (1012 + 1011 + 1010 + 1009) / 4,
            "time_whole_us": 2 * 11_025.5, "time_erases_us": 1000, "time_copies_us": 12,
        }  # fmt: skip
        for name, number in wanted.items():
            self.assertAlmostEqual(reported[name], number, places=6, msg=name)

    def test_clients_of_two_luns(self):
        # The writes take what they take. Then two clients read: lines 8 and 9 at once at two LUNs, and line 10 behind line 8's client.
        words = (*self.device, "--from-line", 8, "--clients", 2)
        reported = self.reported(self.answers + self.reads, self.log, *words)
        self.assertEqual([reported[f"response_reads_{name}_us"] for name in ("median", "longest", "mean")], [1.5, 1.5, 1.5])
        text = Run("report", self.folder / "answers", "--collections", self.folder / "log", *TIMES, *words).text
        self.assertIn("a queue for each of 2 LUNs, 2 clients", text)
        self.assertIn("time of 2 LUNs", text)

    def test_request_is_done_when_all_its_lines_are(self):
        lines = self.file("requests", b"".join(b"%d,8\n" % number for number in (1, 2, 3, 4, 5, 6, 7, 8, 8, 8, 9)))
        times = self.arrivals(*range(0, 600, 100), *[20_000] * 5)
        reported = self.reported(self.answers + self.reads, self.log, *times, *self.device, "--requests", lines)
        # Line 10 is behind line 9 at LUN 1, and line 8 was done before.
        self.assertEqual((reported["response_reads_count"], reported["response_reads_longest_us"]), (1, 1025.5))

    def test_refuses_device_of_another_run(self):
        more_blocks, fewer_sectors = ("--luns", 2, "--blocks", 8, *self.device[4:]), (*self.device[:-1], 4)
        for device, told in ((more_blocks, "line 7"), (fewer_sectors, "sector 4"), (self.device[:2], "line 7")):
            with self.subTest(device):
                self.file("answers", (self.answers + self.reads).encode())
                log = self.file("log", (LOG_HEAD + self.log).encode())
                done = Run("report", self.folder / "answers", "--collections", log, *TIMES, "--words", 1, *device)
                self.assertEqual((done.status, done.text), (3, ""))
                self.assertIn(told, done.errors)
