"""The model against rows by hand, and against the program: the same answers, the same wear, the same log, the same faults."""

import math
import pathlib
import random
import subprocess
import tempfile
import unittest

from simulation import device, model
from tests.tools import TOP, Run

HEAD = "line,victim,copied,copybacks,erases,outcome\n"
LONG = "".join(f"0,write,{sector},\n" for sector in (0, 1, 2, 0, 2, 0, 1, 2, 0, 1, 2, 0))


def played(trace, words):
    """What the program made of a trace: its status, answers, faults, wear and log of collections."""
    with tempfile.TemporaryDirectory() as folder:
        wear, log = (pathlib.Path(folder) / name for name in ("wear", "log"))
        done = subprocess.run([device.LAUNCHER, *words, "--wear", wear, "--collections", log], input=trace, capture_output=True)
        # The launcher's messages about a build aren't faults of the trace.
        errors = "".join(line for line in done.stderr.decode().splitlines(keepends=True) if not line.startswith("flashplay: "))
        return done.returncode, done.stdout.decode(), errors, *(file.read_text() if file.exists() else "" for file in (wear, log))


class HandComputedRows(unittest.TestCase):
    """Rows that were worked out by hand; the answers are those of the program."""

    def check_log(self, words, trace, rows):
        with tempfile.TemporaryDirectory() as folder:
            wear, log = (pathlib.Path(folder) / name for name in ("wear", "log"))
            done = Run("model", *words.split(), "--wear", wear, "--collections", log, given=trace.encode())
            self.assertEqual(log.read_text(), HEAD + rows)
            self.assertEqual((done.status, done.text, done.errors, wear.read_text(), log.read_text()), played(trace.encode(), words.split()))

    def test_example_collects_at_line_5(self):
        # Blocks 0 and 1 are full; sectors 0 and 2 are written again, so block 0 has only sector 1.
        trace = (TOP / "examples/collection.csv").read_text()
        self.check_log("--blocks 3 --pages 2 --words 1 --sectors 3 --endurance 10", trace, "5,0,1,1,1,freed\n")

    def test_log_without_collections_has_only_header(self):
        self.check_log("--blocks 3 --pages 2 --words 1 --sectors 3", "0,write,0,\n0,read,0,\n", "")

    def test_copyback_only_within_lun(self):
        # LUN 0 has blocks 0 and 1, LUN 1 blocks 2 and 3, the spare. Line 7: block 0 has sector 0 dead and 1 live; it goes to block 3
        # of the other LUN, and block 0 is the spare. Line 8 fills block 3. Line 9: block 1 has sector 2 dead and 3 live, and goes to 0.
        trace = "".join(f"0,write,{sector},\n" for sector in (0, 1, 2, 3, 0, 2, 4, 4, 4))
        self.check_log("--luns 2 --blocks 4 --pages 2 --words 1 --sectors 5", trace, "7,0,1,0,1,freed\n8,1,1,1,1,freed\n9,3,1,0,1,freed\n")

    def test_failed_erase_retires_victim_and_is_last(self):
        self.check_log("--blocks 3 --pages 2 --words 1 --sectors 3 --endurance 1", LONG, "5,0,1,1,1,retired\n")


class Policies(unittest.TestCase):
    """Other victims than those of the layer."""

    numbers = {"luns": 1, "blocks": 64, "pages": 32, "words": 1, "sectors": 1420, "endurance": 1_000_000}

    def amplification(self, victims, hot):
        """Of writes behind a fill and as many writes as settle: to random sectors, or nine of ten to a tenth of them."""
        seeded, sectors, counted = random.Random(5), self.numbers["sectors"], model.Model(**self.numbers, victims=victims)
        writes = [*range(sectors), *(seeded.randrange(sectors // 10 if hot and seeded.random() < 0.9 else sectors) for _ in range(24_000))]
        for line, sector in enumerate(writes, 1):
            self.assertIn(counted.answer(line, "write", sector, ""), ("empty", "written"))
            if line == sectors + 12_000:
                before = counted.programs, counted.copies
        programs, copies = counted.programs - before[0], counted.copies - before[1]
        live = sum(block.live for block in counted.blocks)
        self.assertEqual(live, sectors)
        return (programs + copies) / programs

    def test_the_oldest_block_costs_what_theory_says(self):
        # The live part f of the oldest block solves f = exp(-a (1 - f)), for a pages for each sector (Desnoyers 2012).
        pages, live = 63 * 32 / self.numbers["sectors"], 0.5
        for _ in range(1000):
            live = math.exp(-pages * (1 - live))
        self.assertAlmostEqual(self.amplification("oldest", hot=False) * (1 - live), 1, delta=0.03)

    def test_greedy_is_the_best_where_all_writes_go_to_one_block(self):
        for hot, worst in ((False, "cost-benefit"), (True, "oldest")):
            found = {name: self.amplification(name, hot) for name in model.POLICIES}
            self.assertEqual((min(found, key=found.get), max(found, key=found.get)), ("greedy", worst))

    def test_only_refusals_depend_on_the_policy(self):
        seeded = random.Random(23)
        for _ in range(30):
            numbers, trace = random_run(seeded)
            numbers["endurance"] = 1_000_000
            played = {tuple(model.Model(**numbers, victims=name).play(trace.encode()))[:-1] for name in model.POLICIES}
            self.assertEqual(len(played), 1)

    def test_is_an_option_of_the_tool(self):
        seeded = random.Random(2)
        trace = "".join(f"0,write,{seeded.randrange(15)},\n" for _ in range(200)).encode()
        words = ("--blocks", 6, "--pages", 4, "--words", 1, "--sectors", 15)
        done = [Run("model", *words, *more, given=trace).text for more in ((), ("--victims", "greedy"), ("--victims", "oldest"))]
        self.assertEqual(done[0], done[1])
        self.assertNotEqual(done[0], done[2])


class ModelAgainstProgram(unittest.TestCase):
    def test_same_answers_wear_and_log_on_random_traces(self):
        seeded = random.Random(17)
        for number in range(60):
            numbers, trace = random_run(seeded)
            counted = model.Model(**numbers)
            answers = "".join(counted.play(trace.encode()))
            with self.subTest(number=number, device=numbers):
                self.assertEqual(played(trace.encode(), device.words_of(numbers)), (0, answers, "", counted.wear(), counted.log()))

    def test_same_answers_and_faults_on_unusual_traces(self):
        words = "--blocks 3 --pages 2 --words 1 --sectors 3 --endurance 10".split()
        records = [
            b"", b'007,"read",002,', b"0,write,0,aBcD\n0,read,0,", b'0,write,0,"41', b'0,"re"ad,2,', b'0,"read\n",2,',
            b"\xef\xbb\xbf0,meet,0,\r\n\r\n0,read,0,\r0,trim,1,", b"worker,op,sector,data", b'0,re"ad,2,', b"0,read,2", b"0,read,2,,",
            b"500,read,0,", b"00000000,read,0,", b" 0,read,0,", b"0,READ,0,", b"0,read,-1,",
            b"0,read,3,", b"0,write,0,4", b"0,new,0,4g", b"0,write,0,010203040506070809", b"0,read,0,41", b"1,meet,0,", b"0,meet,1,", b"0,meet,0,00",
            b"\xff,read,0,", b'""', b"0,write,0,\n0,read,9,\n0,nop,0,\n",
        ]
        for record in records:
            with self.subTest(record):
                status, answers, errors, *_ = played(record, words)
                done = Run("model", *words, given=record)
                self.assertEqual((done.status, done.text, done.errors.removeprefix("model: ")), (status, answers, errors))

    def test_same_refusals_of_invalid_devices(self):
        for words in (
            "--luns 0", "--luns 9", "--luns 3", "--blocks 2", "--blocks 4097", "--pages 0", "--pages 16385", "--words 513", "--sectors 0", "--sectors 1048577",
            "--endurance 0", "--endurance 1000001", "--blocks 4096 --words 512", "--sectors 4032", "--luns 9 --blocks 2",
        ):
            with self.subTest(words):
                status, answers, errors, *_ = played(b"", words.split())
                done = Run("model", *words.split())
                self.assertEqual((done.status, done.text, done.errors.removeprefix("model: ")), (status, answers, errors))
                self.assertEqual(status, 2)


def random_run(seeded):
    """A small device, and a trace that fills it and wears it out at times."""
    luns, pages = seeded.choice((1, 1, 2, 4)), seeded.choice((1, 2, 3, 8))
    blocks = luns * seeded.randint(2 if luns > 1 else 3, 6)
    sectors = seeded.randint(1, (blocks - 1) * pages - 1)
    numbers = {"luns": luns, "blocks": blocks, "pages": pages, "words": 1, "sectors": sectors, "endurance": seeded.choice((1, 3, 1000))}
    ops = seeded.choices(("write", "new", "read", "trim", "meet"), (70, 5, 15, 10, 1), k=seeded.randint(0, 600))
    return numbers, "".join(line_of(op, seeded, sectors) for op in ops)


def line_of(op, seeded, sectors):
    if op == "meet":
        return "0,meet,0,\n"
    data = f"{seeded.getrandbits(32):08X}" if op in ("write", "new") else ""
    return f"0,{op},{seeded.randrange(sectors)},{data}\n"
