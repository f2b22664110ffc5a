"""Makes a trace from a seed."""

import argparse
import bisect
import itertools
from array import array

from . import traces
from .device import IMAGE_RANGES, RANGES
from .numbers import LINE_COUNT, PERCENT, Number


KINDS = ("uniform", "sequential", "zipf", "hot-cold")
EXPONENT = Number(0, 10, whole=False)
DATA_BYTES = Number(1, 8 * RANGES["words"].most)
SEED = Number(0, 2**63 - 1)
RATE, INTERVAL = Number(0.001, 1_000_000_000, whole=False), Number(0.001, 1_000_000_000, whole=False)


def add_options(parser, sized=True):
    """The options of `trace make`; without `sized` the caller passes the sectors and the lines."""
    parser.add_argument("kind", choices=KINDS, help="which sectors the lines name")
    if sized:
        parser.add_argument("--sectors", type=IMAGE_RANGES["sectors"], required=True, metavar="N", help="sectors of the device")
        parser.add_argument("--lines", type=LINE_COUNT, required=True, metavar="N", help="lines, without those of --fill")
    parser.add_argument("--fill", action="store_true", help="write each sector once, in order, before the lines")
    parser.add_argument("--reads", type=PERCENT, default=0, metavar="PERCENT", help="share of the lines that are reads (0); the rest are writes")
    parser.add_argument("--trims", type=PERCENT, default=0, metavar="PERCENT", help="share of the lines that are trims (0)")
    parser.add_argument("--meets", type=PERCENT, default=0, metavar="PERCENT", help="share of the lines at which all workers meet (0)")
    exponent = "zipf: the sector of rank r has a probability proportional to r to the power of -X (0.99)"
    parser.add_argument("--exponent", type=EXPONENT, default=0.99, metavar="X", help=exponent)
    parser.add_argument("--hot-sectors", type=PERCENT, default=20, metavar="PERCENT", help="hot-cold: this share of the sectors, the first ones, is hot (20)")
    parser.add_argument("--hot-share", type=PERCENT, default=80, metavar="PERCENT", help="hot-cold: share of the lines that name a hot sector (80)")
    uniform = "reads and trims name all sectors with the same probability; the kind is that of the writes alone"
    parser.add_argument("--uniform-reads", action="store_true", help=uniform)
    parser.add_argument("--data-bytes", type=DATA_BYTES, default=8, metavar="N", help="with --data random: bytes of a write (8)")
    parser.add_argument("--rate", type=RATE, metavar="N", help="arrivals: N lines a second, at exponential intervals from the seed")
    parser.add_argument("--interval", type=INTERVAL, metavar="US", help="arrivals: one line every US microseconds")
    parser.add_argument("--seed", type=SEED, default=1, metavar="N", help="the same seed makes the same trace (1)")


def check(options):
    """Raises `argparse.ArgumentTypeError` if no trace can be made by the numbers."""
    given = options.reads + options.trims + options.meets
    if given > 100:
        raise argparse.ArgumentTypeError(f"--reads, --trims and --meets are {given:g} percent together, and at most 100 are")
    if options.rate is not None and options.interval is not None:
        raise argparse.ArgumentTypeError("arrivals have a --rate or an --interval, and not both")
    if options.kind == "hot-cold" and not 0 < hot_count(options) < options.sectors:
        told = f"--hot-sectors {options.hot_sectors:g} makes {hot_count(options):,} of {options.sectors:,} sectors hot"
        raise argparse.ArgumentTypeError(f"{told}, and at least one is hot, and one cold")


def make(options, random, writer):
    if options.fill:
        for sector in range(options.sectors):
            writer.write(sector)
    sectors = itertools.islice(_pattern(options, random), options.lines)
    if options.reads or options.trims or options.meets:
        _mixed(options, random, sectors, writer)
    else:
        for sector in sectors:
            writer.write(sector)


def _mixed(options, random, sectors, writer):
    reads = options.reads / 100
    trims = reads + options.trims / 100
    meets = trims + options.meets / 100
    for sector in sectors:
        share = random.random()
        if options.uniform_reads and share < trims:
            sector = int(random.random() * options.sectors)
        if share < reads:
            writer.read(sector)
        elif share < trims:
            writer.trim(sector)
        elif share < meets:
            writer.meet()
        else:
            writer.write(sector)


def _pattern(options, random):
    if options.kind == "sequential":
        return itertools.cycle(range(options.sectors))
    if options.kind == "zipf":
        return zipf(random, options.sectors, options.exponent)
    if options.kind == "hot-cold":
        return hot_cold(random, options.sectors, hot_count(options), options.hot_share / 100)
    return uniform(random, options.sectors)


# Of a random.Random only `random` and `getrandbits` are called, whose sequences Python keeps from version to version.


def uniform(random, sectors):
    while True:
        yield int(random.random() * sectors)


def zipf(random, sectors, exponent):
    """Sectors by Zipf's law; which sector has which rank is random."""
    sums = array("d", itertools.accumulate(rank**-exponent for rank in range(1, sectors + 1)))
    by_rank = shuffled(random, sectors)
    while True:
        yield by_rank[bisect.bisect(sums, random.random() * sums[-1], 0, sectors - 1)]


def shuffled(random, count):
    numbers = array("L", range(count))
    for last in range(count - 1, 0, -1):
        other = int(random.random() * (last + 1))
        numbers[last], numbers[other] = numbers[other], numbers[last]
    return numbers


def hot_cold(random, sectors, hot, share):
    while True:
        if random.random() < share:
            yield int(random.random() * hot)
        else:
            yield hot + int(random.random() * (sectors - hot))


def hot_count(options):
    return round(options.sectors * options.hot_sectors / 100)


def data_of(kind, random, count):
    """What a write holds: the number of its line, zeros, or random bytes."""
    if kind == "random":
        return traces.random_bytes(random, count)
    return traces.zeros if kind == "zeros" else traces.line_number
