import collections
import unittest

from tests.tools import make


def sectors(done):
    return [int(line.split(",")[2]) for line in done.lines]


class MadeTraces(unittest.TestCase):
    def test_same_seed_makes_same_trace(self):
        for kind in ("uniform", "sequential", "zipf", "hot-cold"):
            words = (kind, "--sectors", "50", "--lines", "200", "--fill", "--reads", "30", "--trims", "10", "--meets", "1", "--data", "random")
            with self.subTest(kind):
                first, second, other = make(*words, "--seed", "5"), make(*words, "--seed", "5"), make(*words, "--seed", "6")
                self.assertEqual(first.bytes, second.bytes)
                self.assertNotEqual(first.bytes, other.bytes)
                self.assertEqual(len(first.lines), 250)

    def test_fill_writes_each_sector_once_with_line_number(self):
        self.assertEqual(
            make("sequential", "--sectors", "3", "--lines", "2", "--fill").lines,
            ["0,write,0,00000001", "0,write,1,00000002", "0,write,2,00000003", "0,write,0,00000004", "0,write,1,00000005"],
        )

    def test_shorter_trace_is_beginning_of_longer_one(self):
        short, long = (make("zipf", "--sectors", "20", "--lines", lines) for lines in ("50", "100"))
        self.assertEqual(short.lines, long.lines[:50])

    def test_shares_of_ops(self):
        done = make("uniform", "--sectors", "10", "--lines", "20000", "--reads", "30", "--trims", "20", "--meets", "5", "--data", "zeros")
        shares = collections.Counter(line.split(",")[1] for line in done.lines)
        for op, share in {"read": 30, "trim": 20, "meet": 5, "write": 45}.items():
            self.assertAlmostEqual(shares[op] / 200, share, delta=1.5)

    def test_zipf_probabilities(self):
        done = make("zipf", "--sectors", "100", "--lines", "100000", "--exponent", "1")
        counts = sorted(collections.Counter(sectors(done)).values(), reverse=True)
        harmonic = sum(1 / rank for rank in range(1, 101))
        for rank in (1, 2, 4, 8):
            self.assertAlmostEqual(counts[rank - 1] * rank * harmonic / 100_000, 1, delta=0.06)

    def test_share_of_hot_sectors(self):
        done = make("hot-cold", "--sectors", "100", "--lines", "20000", "--hot-sectors", "10", "--hot-share", "70")
        hot = sum(sector < 10 for sector in sectors(done))
        self.assertAlmostEqual(hot / 200, 70, delta=1.5)

    def test_uniform_reads_and_trims_with_hot_writes(self):
        done = make("hot-cold", "--sectors", "100", "--lines", "20000", "--hot-share", "100", "--reads", "30", "--trims", "20", "--uniform-reads")
        hot = collections.Counter(line.split(",")[1] for line in done.lines if int(line.split(",")[2]) < 20)
        self.assertEqual(hot["write"], sum(",write," in line for line in done.lines))
        self.assertAlmostEqual((hot["read"] + hot["trim"]) / 100, 20, delta=2)

    def test_uniform_probabilities(self):
        counts = collections.Counter(sectors(make("uniform", "--sectors", "10", "--lines", "50000")))
        for sector in range(10):
            self.assertAlmostEqual(counts[sector] / 5000, 1, delta=0.08)

    def test_refuses_invalid_arguments(self):
        for words in (("uniform", "--reads", "101"), ("uniform", "--reads", "60", "--trims", "60"), ("hot-cold", "--hot-sectors", "0"), ("normal",)):
            with self.subTest(words):
                self.assertEqual(make(*words, "--sectors", "10", "--lines", "1").status, 2)
