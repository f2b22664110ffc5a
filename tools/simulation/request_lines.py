"""The request that each line of a trace belongs to: a file with a line `REQUEST,BYTES` for each line of the trace. Requests are numbered
from 1; lines of the number 0, such as those of a precondition, belong to none."""

import re
from dataclasses import dataclass

from .faults import BROKEN, Fault, LineFault
from .lines import shown
from .traces import Column

LINES = re.compile(rb"(?:\d{1,8},\d{1,18}\n)*")
LINE = re.compile(rb"\d{1,8},\d{1,18}")
MOST_BYTES = 10**18 - 1


class RequestsWriter(Column):
    """Writes the number and the bytes of the request whose lines are being written."""

    def __init__(self, sink):
        super().__init__(sink)
        self._number = 0
        self._bytes = 0
        self._begun = False

    def turn(self, request):
        """A request that has no line isn't counted."""
        self._bytes, self._begun = min(request.length, MOST_BYTES), False

    def line(self) -> bytes:
        self._number += not self._begun
        self._begun = True
        return b"%d,%d\n" % (self._number, self._bytes)


@dataclass
class Requests:
    """Arrays of numpy: for each request its first and its last line, counted from 0, and its bytes."""

    first: object
    last: object
    bytes: object

    def __len__(self) -> int:
        return len(self.first)


def read_requests(source, lines: int) -> Requests:
    """The requests of a trace of so many lines, in their order."""
    import numpy

    text = source.read().replace(b"\r\n", b"\n")
    text += b"" if text.endswith(b"\n") or not text else b"\n"
    if not LINES.fullmatch(text):
        number, line = next((number, line) for number, line in enumerate(text.split(b"\n"), 1) if not LINE.fullmatch(line))
        raise LineFault(number, f"{shown(line)} isn't the number of a request and its bytes, such as 1,4096")
    fields = numpy.fromstring(text.replace(b",", b" "), dtype=numpy.int64, sep=" ").reshape(-1, 2)
    if len(fields) != lines:
        raise Fault(f"there are {len(fields):,} lines of requests, and {lines:,} answers: they are of two traces", BROKEN)
    numbers = fields[:, 0]
    starts = numpy.flatnonzero(numpy.diff(numbers, prepend=0))
    _check(numpy, fields, starts)
    ends = numpy.append(starts[1:], lines) - 1
    return Requests(starts, ends, fields[starts, 1]) if len(starts) else Requests(starts, starts, starts)


def _check(numpy, fields, starts):
    """The numbers begin with 0 or 1 and grow by one; all lines of a request have the same bytes."""
    wrong = numpy.flatnonzero(fields[starts, 0] != numpy.arange(1, len(starts) + 1))
    if len(wrong):
        line = int(starts[wrong[0]])
        raise LineFault(line + 1, f"request {int(fields[line, 0]):,}, and request {int(wrong[0]) + 1:,} is expected here")
    same = numpy.flatnonzero((numpy.diff(fields[:, 0]) == 0) & (numpy.diff(fields[:, 1]) != 0))
    if len(same):
        raise LineFault(int(same[0]) + 2, "another number of bytes than in the line before, which is of the same request")
