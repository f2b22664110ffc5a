"""The numbers of a device, and plays on it."""

import contextlib
import os
import pathlib
import subprocess
from dataclasses import dataclass

from .faults import ARGUMENTS, Fault
from .numbers import Number

TOP = pathlib.Path(__file__).resolve().parents[2]
# The program that plays: the repository's launcher, or what the environment names in its place.
LAUNCHER = os.environ.get("FLASHPLAY") or str(TOP / "flashplay")
# The options of flashplay and their defaults.
DEFAULTS = {"luns": 1, "blocks": 64, "pages": 64, "words": 64, "sectors": 3072, "endurance": 1000}
RANGES = {
    "luns": Number(1, 8),
    "blocks": Number(3, 4096),
    "pages": Number(1, 16_384),
    "words": Number(1, 512),
    "sectors": Number(1, 1_048_576),
    "endurance": Number(1, 1_000_000),
}
# Those of a device in a file; a trace names no more sectors, since their numbers have seven digits.
IMAGE_RANGES = {**RANGES, "blocks": Number(3, 1_048_576), "words": Number(1, 8192), "sectors": Number(1, 10_000_000)}
# In memory the sectors, the blocks, and the words of all pages with one more for each page, are at most as many.
MOST_WORDS = 16_777_216
READ_AT_ONCE = 1 << 20


@dataclass
class Totals:
    """The totals of a run, and how many of its writes were refused."""

    lines: int
    programs: int
    copies: int
    erases: int
    worn: int


def add_options(parser, ranges=RANGES):
    for name, default in DEFAULTS.items():
        parser.add_argument(f"--{name}", type=ranges[name], metavar="N", help=f"as for flashplay ({default})")


def numbers_of(options):
    """The device that the options name."""
    given = {name: getattr(options, name) for name in DEFAULTS}
    return {name: DEFAULTS[name] if number is None else number for name, number in given.items()}


def is_named(options):
    """Whether an option names a number of the device."""
    return any(getattr(options, name) is not None for name in DEFAULTS)


def pages_of(numbers) -> int:
    return numbers["blocks"] * numbers["pages"]


def over_provisioning(numbers) -> float:
    """The pages beyond the sectors, in percent of the sectors."""
    return 100 * (pages_of(numbers) - numbers["sectors"]) / numbers["sectors"]


def shown(numbers):
    """A device as a title names it."""
    luns = f"{numbers['luns']:,} LUNs, " if numbers["luns"] > 1 else ""
    percent = 100 * numbers["sectors"] / pages_of(numbers)
    return f"{luns}{numbers['blocks']:,} blocks of {numbers['pages']:,} pages, {numbers['sectors']:,} sectors ({percent:.3g} %)"


def fault_of(numbers, shared=False, ranges=RANGES) -> str | None:
    """Why these numbers make no device for one thread: what was given, the limit, and the nearest device. None if they make one. A
    shared device may have one sector more, and one in a file has the ranges of images."""
    luns, blocks, pages, words, sectors, _ = (numbers[name] for name in RANGES)
    for name, wanted in ranges.items():
        if numbers[name] not in wanted:
            nearest = min(max(numbers[name], wanted.least), wanted.most)
            return f"{numbers[name]:,} {name}: a device has {wanted.least:,} to {wanted.most:,}, and the nearest has {nearest:,}"
    if blocks % luns:
        fewer, more = blocks // luns * luns, -(-blocks // luns) * luns
        return f"{blocks:,} blocks aren't a multiple of {luns} LUNs: the nearest are {fewer:,} and {more:,} blocks"
    taken = sectors + blocks + pages_of(numbers) * (words + 1)
    if taken > MOST_WORDS and ranges is RANGES:
        return f"{taken:,} words of memory, and a device has at most {MOST_WORDS:,}: {_smaller(numbers)}"
    if sectors >= (blocks - 1) * pages + shared:
        return f"{sectors:,} sectors, and {blocks:,} blocks of {pages:,} pages take at most {(blocks - 1) * pages - 1:,}: {_more_blocks(numbers)}"
    return None


def _smaller(numbers) -> str:
    pages, rest = pages_of(numbers), MOST_WORDS - numbers["sectors"] - numbers["blocks"]
    if rest >= 2 * pages:
        return f"--words {rest // pages - 1} fits, and the same pages are programmed, copied and erased with fewer words"
    luns, of_a_block = numbers["luns"], 1 + 2 * numbers["pages"]
    blocks = (MOST_WORDS - numbers["sectors"]) // of_a_block // luns * luns
    return f"with --words 1 as many as {blocks:,} blocks fit"


def _more_blocks(numbers) -> str:
    blocks = fewest_blocks(numbers)
    if blocks in RANGES["blocks"]:
        return f"{blocks:,} blocks are enough"
    return f"{RANGES['blocks'].most:,} blocks need {numbers['sectors'] // (RANGES['blocks'].most - 1) + 1:,} pages each"


def fewest_blocks(numbers) -> int:
    """The fewest blocks for the sectors: one is the spare, and one page more than the sectors is in the others."""
    blocks, luns = max(RANGES["blocks"].least, numbers["sectors"] // numbers["pages"] + 2), numbers["luns"]
    return -(-blocks // luns) * luns


def check(numbers, shared=False, ranges=RANGES):
    """Refuses numbers that make no device."""
    if fault := fault_of(numbers, shared, ranges):
        raise Fault(f"no device has {fault}", ARGUMENTS)


def words_of(device):
    return [word for name, number in device.items() for word in (f"--{name}", str(number))]


def build():
    """Lets the launcher build the program if it isn't built."""
    done = subprocess.run([LAUNCHER, "--help"], stdin=subprocess.DEVNULL, stdout=subprocess.DEVNULL)
    if done.returncode != 0:
        raise Fault(f"{LAUNCHER} failed with status {done.returncode}")


class Counted:
    """Passes a trace on, whole lines at a time, and counts its lines and its writes. The counts are exact if the lines are plain, as
    tools/trace writes them: each is a record, and only the op of a write stands as `write` between commas."""

    def __init__(self, sink):
        self._sink = sink
        self._last = b"\n"
        self.lines = 0
        self.writes = 0
        self.plain = True

    def write(self, lines):
        self.lines += lines.count(b"\n")
        self.writes += lines.count(b",write,")
        self.plain = self.plain and not any(mark in lines for mark in (b'"', b"\r", b",new,", b"\n\n")) and lines[:1] != b"\n" and lines.isascii()
        self._last = lines[-1:] or self._last
        self._sink.write(lines)

    def flush(self):
        self._sink.flush()

    def records(self):
        return self.lines + (self._last != b"\n")


def play(device, feed):
    """Plays the trace that `feed` writes, and returns its totals, without the answers: each write that wasn't refused programmed a page.
    Only if a line isn't plain, the trace is played again and the answers are counted as they come."""
    counted = None

    def counting(sink):
        nonlocal counted
        counted = Counted(sink)
        feed(counted)

    programs, copies, erases = _totals(run(device, counting, lambda source: source.read(), ("--quiet",)))
    if counted.plain:
        return Totals(counted.records(), programs, copies, erases, counted.writes - programs)
    return totals_of(run(device, feed, read_lines))


def totals_of(answers) -> Totals:
    """The totals of the answers that were read line by line."""
    lines, worn, last = answers
    return Totals(lines - 1, *_totals(last), worn)


def _totals(line):
    """The pages programmed for writes, the pages copied and the erases."""
    return [int(text) for text in line.split(b",")[1:]]


def run(device, feed, reader, further=(), program=LAUNCHER):
    """Plays the trace that `feed` writes, with further options, and returns what `reader` returns for the answers."""
    words = [*words_of(device), *further]
    with subprocess.Popen([program, *words], stdin=subprocess.PIPE, stdout=subprocess.PIPE, stderr=subprocess.PIPE) as run:
        # The program writes nothing before it has read the whole trace; if it stops reading, it reports why.
        with contextlib.suppress(BrokenPipeError):
            feed(run.stdin)
        with contextlib.suppress(BrokenPipeError):
            run.stdin.close()
        try:
            told = reader(run.stdout)
        except Fault as fault:
            told = fault
        errors = run.stderr.read().decode("utf-8", "replace").strip()
    if run.returncode != 0:
        raise Fault(f"flashplay {' '.join(words)} ended with status {run.returncode}: {errors}")
    if isinstance(told, Fault):
        raise told
    return told


def read_lines(source):
    """How many lines there are, how many of them are refusals, and the last one."""
    lines, worn, rest = 0, 0, b""
    while piece := source.read(READ_AT_ONCE):
        rest += piece
        whole, mark, rest_of_line = rest.rpartition(b"\n")
        if mark:
            lines += whole.count(b"\n") + 1
            worn += (whole + mark).count(b",worn\n")
            last, rest = whole[whole.rfind(b"\n") + 1 :], rest_of_line
    return lines, worn, last if lines else b""
