"""Each number that the tools are given, as an option or in a file: what is outside its range is refused with a message, by status 2 or 3,
and nothing ends with a traceback, with a wrong number, or not at all."""

import unittest

from simulation import device, lines, numbers
from simulation.faults import LineFault
from tests.packages import needs
from tests.test_block_device import counts
from tests.test_report import BROOMS, COLLECTION, LOG, WEAR, InFolder
from tests.tools import Run, convert

NINES = "9" * 20
NOT_NUMBERS = ("", "x", "nan", "inf", "-1", "1e300", "1_0", " 1", "0x10", "1.5.2", "٣", NINES + "9", "1" * 5000)
TIMES = ("--read-time", "1", "--program-time", "10", "--erase-time", "1000", "--transfer-time", "0.5")


class Reader(unittest.TestCase):
    def test_reads_numbers_of_the_range(self):
        whole, decimal = numbers.Number(3, 4096), numbers.Number(0.5, 100, whole=False)
        self.assertEqual([whole.read(text) for text in ("3", "4096", "+7", "0005")], [3, 4096, 7, 5])
        self.assertEqual([decimal.read(text) for text in ("0.5", "100", "1e1", "+2.50", ".7", "3.")], [0.5, 100, 10, 2.5, 0.7, 3])

    def test_refuses_others_with_the_range(self):
        whole, decimal = numbers.Number(3, 4096), numbers.Number(0.5, 100, whole=False)
        for text in (*NOT_NUMBERS, "2", "4097", "8.7"):
            with self.subTest(text), self.assertRaisesRegex(ValueError, "isn't a whole number from 3 to 4,096"):
                whole.read(text)
        for text in (*NOT_NUMBERS, "0.4", "100.1", "."):
            with self.subTest(text), self.assertRaisesRegex(ValueError, "isn't a number from 0.5 to 100"):
                decimal.read(text)
        for value in (2, 4097, 8.5, True, "8", None):
            with self.subTest(value), self.assertRaises(ValueError):
                whole.check(value, "blocks")

    def test_reads_fields(self):
        self.assertEqual(lines.number_in(b"12", 1, "sector"), 12)
        for field in (b"", b"-1", b"1.5", NINES.encode(), b"\xb2", b"1_0"):
            with self.subTest(field), self.assertRaisesRegex(LineFault, "line 7: the sector .* isn't a whole number from 0 to"):
                lines.number_in(field, 7, "sector", numbers.OFFSET)


class Devices(unittest.TestCase):
    def fault(self, **other):
        return device.fault_of({**device.DEFAULTS, **other})

    def test_messages_tell_what_was_given_the_limit_and_the_nearest(self):
        for other, message in (
            ({"blocks": 2}, "2 blocks: a device has 3 to 4,096, and the nearest has 3"),
            ({"pages": 0}, "0 pages: a device has 1 to 16,384, and the nearest has 1"),
            ({"luns": 2, "blocks": 63}, "63 blocks aren't a multiple of 2 LUNs: the nearest are 62 and 64 blocks"),
            ({"sectors": 4032}, "4,032 sectors, and 64 blocks of 64 pages take at most 4,031: 65 blocks are enough"),
            ({"luns": 2, "sectors": 4032}, "4,032 sectors, and 64 blocks of 64 pages take at most 4,031: 66 blocks are enough"),
            ({"sectors": 1_000_000, "words": 1}, "1,000,000 sectors, and 64 blocks of 64 pages take at most 4,031: 4,096 blocks need 245 pages each"),
            ({"blocks": 4096}, "17,046,528 words of memory, and a device has at most 16,777,216: --words 62 fits, and the same pages"),
            ({"blocks": 4096, "pages": 16384}, "with --words 1 as many as 511 blocks fit"),
        ):
            with self.subTest(other):
                self.assertIn(message, self.fault(**other))
        self.assertIsNone(self.fault())

    def test_nearest_devices_are_devices_and_the_ones_beside_them_are_not(self):
        for sectors in (1, 63, 64, 3072, 4031, 4032, 100_000):
            numbers_of = {**device.DEFAULTS, "words": 1, "sectors": sectors}
            blocks = device.fewest_blocks(numbers_of)
            self.assertIsNone(device.fault_of({**numbers_of, "blocks": blocks}))
            self.assertIsNotNone(device.fault_of({**numbers_of, "blocks": blocks - 1}))
        self.assertIsNone(self.fault(blocks=4096, words=62))
        self.assertIsNotNone(self.fault(blocks=4096, words=63))
        self.assertIsNone(self.fault(blocks=511, pages=16384, words=1))
        self.assertIsNotNone(self.fault(blocks=512, pages=16384, words=1))


class Options(InFolder):
    def refuses(self, name, words, options, values=NOT_NUMBERS):
        for option in options:
            for value in values:
                with self.subTest(name, option=option, value=value[:30]):
                    done = Run(name, *words, f"{option}={value}")
                    self.assertEqual((done.status, done.text), (2, ""), done.errors)
                    self.assertIn(option, done.errors)

    def test_options_of_trace(self):
        made = ("make", "uniform", "--sectors", "9", "--lines", "5")
        options = ("--sectors", "--lines", "--reads", "--trims", "--meets", "--exponent", "--hot-sectors", "--hot-share", "--data-bytes", "--seed")
        self.refuses("trace", made, options)
        self.refuses("trace", (*made, "--arrivals", self.folder / "a"), ("--rate", "--interval"), (*NOT_NUMBERS, "1e-320", "0"))
        self.refuses("trace", ("convert", "fio", "--page-bytes", "4096", "--sectors", "9"), ("--page-bytes", "--sectors", "--lines"))
        self.assertEqual(Run("trace", "make", "uniform", "--sectors", "9999999999999", "--lines", "1").status, 2)

    def test_options_of_report(self):
        devices = tuple(f"--{name}" for name in device.DEFAULTS)
        log = ("--collections", self.file("log", LOG))
        self.refuses("report", (COLLECTION, *log), (*devices, "--page-bytes", "--pieces", "--speed", "--from-line"))
        self.refuses("report", (COLLECTION, *log), ("--read-time", "--program-time", "--copyback-time", "--erase-time", "--transfer-time"))
        for words in (("--speed", "1e-10"), ("--pieces", "1000000000000"), ("--blocks", "0"), ("--pages", "0"), ("--blocks", "8.7")):
            self.assertEqual(Run("report", COLLECTION, *words).status, 2)

    def test_options_of_model(self):
        self.refuses("model", (), [f"--{name}" for name in device.DEFAULTS])

    def test_options_of_simulate(self):
        words = ("x", "--page-bytes", "4096", "--over-provisioning", "7", "--out", self.folder / "out")
        names = [f"--{name}" for name in device.DEFAULTS if name != "blocks"]
        self.refuses("simulate", words, [*names, "--page-bytes", "--over-provisioning", "--speed", "--read-time"])

    def test_times_that_are_too_long_for_a_file_of_arrivals(self):
        done = Run("trace", "make", "uniform", "--sectors", "9", "--lines", "2000", "--interval", "1e9", "--arrivals", self.folder / "a")
        self.assertEqual(done.status, 1)
        self.assertIn("a time has at most 12 digits", done.errors)


class Files(InFolder):
    def refuses(self, rows):
        for words, message in rows:
            with self.subTest(message):
                done = Run("report", *words)
                self.assertEqual((done.status, done.text), (3, ""), done.errors)
                self.assertIn(message, done.errors)

    def test_answers(self):
        for text, message in (
            (f"1,write,{NINES},empty\nend,1,0,0\n", "the sector '99999999999999999999' isn't a whole number"),
            ("1,write,10000000,empty\nend,1,0,0\n", "the sector 10,000,000 isn't one of the 10,000,000"),
            ("1,read,0,zzzzzzzzzzzzzzzz\nend,0,0,0\n", "'zzzzzzzzzzzzzzzz' isn't an answer of a read"),
            ("1,read,0,00000000000000 0\nend,0,0,0\n", "isn't an answer of a read"),
            ("1,read,0,data\nend,0,0,0\n", "'data' isn't an answer of a read"),
            ("end,0,7,9\n", "no run has 7 copies and 9 erases for 0 programs"),
            ("end,5,0,6\n", "no run has 0 copies and 6 erases for 5 programs"),
            ("end,5,99999,1\n", "no run has 99,999 copies and 1 erases"),
            (f"end,{NINES}9,0,0\n", "the programs '999999999999999999999' isn't a whole number"),
        ):
            self.refuses([((self.file("answers", text.encode()),), message)])

    def test_answers_have_each_sector_that_a_trace_names(self):
        done = Run("report", self.file("answers", b"1,write,9999999,empty\nend,1,0,0\n"))
        self.assertEqual((done.status, done.errors), (0, ""))

    def test_wear_and_log(self):
        for text, message in (
            (WEAR.replace(b"0,1,0,0", b"0,1000001,0,0"), "the erases '1000001' isn't a whole number from 0 to 1,000,000"),
            (WEAR.replace(b"1,0,1,0", b"1,0,16385,0"), "the live pages '16385' isn't a whole number from 0 to 16,384"),
            (WEAR.replace(b"0,1,0,0", f"0,{NINES},0,0".encode()), "isn't a whole number"),
        ):
            self.refuses([((COLLECTION, "--wear", self.file("wear", text)), message)])
        for text, message in (
            (LOG.replace(b"5,0,1,1,1", b"5,4096,1,1,1"), "the victim '4096' isn't a whole number from 0 to 4,095"),
            (LOG.replace(b"5,0,1,1,1", b"0,0,1,1,1"), "the line '0' isn't a whole number from 1 to"),
            (LOG.replace(b"5,0,1,1,1", f"5,0,{NINES},1,1".encode()), "the copied '99999999999999999999' isn't"),
            (BROOMS.replace(b"0,5,12", f"0,5,{NINES}9".encode()), "the moved '999999999999999999999' isn't a whole number"),
        ):
            self.refuses([((COLLECTION, "--collections", self.file("log", text)), message)])

    def test_counts_of_a_block_device(self):
        for other, message in (
            ({"endurance": 0}, "the endurance '0' isn't a whole number from 1 to 1,000,000"),
            ({"pages": 0}, "the pages '0' isn't a whole number from 1 to 16,384"),
            ({"page_bytes": 0}, "the page_bytes '0' isn't a whole number from 1 to 4,096"),
            ({"programs": 0}, "5 copies and 6 erases, where nothing was written"),
        ):
            self.refuses([((self.file("counts", counts(**other)),), message)])
        none = counts().replace(b"blocks,3\n", b"blocks,0\n", 1)
        self.refuses([((self.file("counts", none),), "the blocks '0' isn't a whole number from 3 to 4,096")])

    @needs("numpy")
    def test_part_mark_and_requests(self):
        log = ("--collections", self.file("log", LOG))
        for text, message in (("read = " + "[" * 500, "isn't a TOML file"), ("read = " + "9" * 5000, "isn't a TOML file"), ("read = inf\n", "the time")):
            self.refuses([((COLLECTION, *log, "--part", self.file("part", text.encode())), message)])
        for text in ("", "x", "-1", NINES, "1.5"):
            self.refuses([((COLLECTION, *log, "--from-mark", self.file("mark", text.encode())), "a mark is the number of a precondition's lines")])
        good = "".join(f"{line},8\n" for line in range(1, 10))
        for text, message in (
            (good.replace("2,8", "3,8"), "line 2: request 3, and request 2 is expected here"),
            ("1,8\n1,9\n" + "".join(f"{line},8\n" for line in range(2, 9)), "line 2: another number of bytes than in the line before"),
            (good.replace("2,8", f"2,{NINES}"), f"line 2: '2,{NINES}' isn't the number of a request and its bytes"),
            (good.replace("9,8\n", ""), "there are 8 lines of requests, and 9 answers"),
            (good + "10,x\n", "line 10: '10,x' isn't the number of a request"),
        ):
            self.refuses([((COLLECTION, *log, *TIMES, "--requests", self.file("requests", text.encode())), message)])

    def test_logs_of_other_tools(self):
        for name, log in (
            ("fio", f"fio version 2 iolog\nf write {NINES} 4096\n"),
            ("fio", f"fio version 2 iolog\nf trim 0 {NINES}\n"),
            ("fio", f"fio version 3 iolog\n{NINES} f write 0 4096\n"),
            ("msr", f"1,a,0,Write,{NINES},4096,1\n"),
            ("msr", f"{NINES},a,0,Write,0,4096,1\n"),
            ("blkparse", f"8,0 0 1 0.1 5 D D {NINES} + 8 [a]\n"),
            ("blkparse", f"8,0 0 1 0.1 5 D D 0 + {NINES} [a]\n"),
            ("blkparse", f"8,0 0 1 {NINES}.1 5 D D 0 + 8 [a]\n"),
        ):
            for words in ((), ("--dense",), ("--wrap",)):
                with self.subTest(log, words=words):
                    done = convert(name, log.encode(), *words)
                    self.assertEqual((done.status, done.text), (3, ""))
                    self.assertIn("isn't a whole number from 0 to", done.errors)

    def test_whole_range_of_offsets_is_converted(self):
        most = 2**63 - 1
        for words, sectors in ((("--dense",), ["0,write,0,00000001"]), (("--wrap",), ["0,write,99,00000001"])):
            done = convert("fio", f"fio version 2 iolog\nf trim {most} {most}\nf write {most - 1} 1\nf trim 0 4095\n".encode(), *words)
            self.assertEqual(done.status, 0, done.errors)
            self.assertEqual(len([line for line in done.lines if "write" in line]), len(sectors))


