"""Arrival times: a line for each line of a trace, in microseconds with at most three digits after the point. In the tools they are
whole nanoseconds. A time with a plus counts from the moment at which all lines without one are done."""

import math
import random
import re
from dataclasses import dataclass

from .faults import Fault, LineFault
from .lines import shown
from .traces import Column

NANOSECONDS = 1_000
# A time has at most 12 digits before the point.
TIMES = 10**12 * NANOSECONDS
CHUNK = 1 << 20
LINES = re.compile(rb"(?:\+?\d{1,12}(?:\.\d{1,3})?\n)*")
LINE = re.compile(rb"\+?\d{1,12}(?:\.\d{1,3})?")


def text_of(time: int) -> bytes:
    return b"%d.%03d\n" % divmod(time, NANOSECONDS)


class ArrivalsWriter(Column):
    """Writes the arrival of each line of a trace, at the times that an iterator yields."""

    def __init__(self, sink, times):
        super().__init__(sink)
        self._times = iter(times)

    def line(self) -> bytes:
        time = next(self._times)
        if time >= TIMES:
            raise Fault(f"a line would arrive after {time // NANOSECONDS:,} µs, and a time has at most 12 digits")
        return text_of(time)


class Clock(ArrivalsWriter):
    """Writes the time of the request whose lines are being written, since that of the first one."""

    def __init__(self, sink):
        super().__init__(sink, iter(self._since, None))
        self._first = self._now = None
        self._line = 0

    def _since(self) -> int:
        return self._now - self._first

    def turn(self, request):
        if self._now is not None and request.time < self._now:
            raise LineFault(request.line, f"its time is before that of line {self._line:,}: sort the log by time first")
        self._first = request.time if self._first is None else self._first
        self._now, self._line = request.time, request.line


def made(options):
    """Times without end: one after the other at the interval, or exponential at the rate, from the seed. The sectors that the seed
    makes are the same with arrivals and without."""
    if options.interval is not None:
        step = options.interval * NANOSECONDS
        return (round(number * step) for number in _from_zero())
    return _exponential(random.Random(f"arrivals {options.seed}"), 1_000_000_000 / options.rate)


def _from_zero():
    number = 0
    while True:
        yield number
        number += 1


def _exponential(seeded, mean):
    now = 0.0
    while True:
        now -= math.log(1 - seeded.random()) * mean
        yield round(now)


@dataclass
class Arrivals:
    """The times of the lines; those from `drained` on count from the moment at which the lines before are done."""

    times: object
    drained: int


def read_arrivals(source) -> Arrivals:
    """The times, none before the one that precedes it."""
    import numpy

    parts, line, rest, first = [], 0, b"", None
    while piece := source.read(CHUNK):
        whole, mark, rest = (rest + piece).replace(b"\r\n", b"\n").rpartition(b"\n")
        first = _first_plus(whole + mark, line, first)
        parts.append(_times(numpy, whole + mark, line))
        line += len(parts[-1])
    if rest:
        first = _first_plus(rest + b"\n", line, first)
        parts.append(_times(numpy, rest + b"\n", line))
    times = numpy.concatenate(parts) if parts else numpy.zeros(0, dtype=numpy.int64)
    drained = len(times) if first is None else first
    backwards = numpy.flatnonzero(times[1:] < times[:-1])
    backwards = backwards[backwards != drained - 1]
    if len(backwards):
        raise LineFault(int(backwards[0]) + 2, "an arrival before that of the line before it")
    return Arrivals(times, drained)


def _first_plus(text: bytes, before: int, first):
    """The first line with a plus, counted from 0, if there is one; all that follow have one too."""
    if first is None and b"+" not in text:
        return None
    for number, line in enumerate(text.split(b"\n")[:-1], before):
        if first is None and line.startswith(b"+"):
            first = number
        if first is not None and not line.startswith(b"+"):
            raise LineFault(number + 1, f"{shown(line)} has no plus, and a line before it has one")
    return first


def _times(numpy, text, before):
    lines = text.split(b"\n")[:-1]
    if not LINES.fullmatch(text):
        number, line = next((number, line) for number, line in enumerate(lines, before + 1) if not LINE.fullmatch(line))
        raise LineFault(number, f"{shown(line)} isn't a time in microseconds, with at most 12 digits and 3 after the point")
    return numpy.rint(numpy.array(list(map(float, lines))) * NANOSECONDS).astype(numpy.int64)


def check_length(times, lines):
    if len(times) != lines:
        at = min(len(times), lines) + 1
        raise Fault(f"line {at:,}: there are {len(times):,} arrivals, and {lines:,} answers: they are of two traces", 3)
