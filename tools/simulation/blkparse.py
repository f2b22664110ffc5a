"""The requests of blkparse's text, in its default format."""

import re

from .faults import LineFault
from .lines import number_in, shown
from .numbers import OFFSET, TIMESTAMP, Number
from .requests import READ, TRIM, WRITE, PassedOver, Request

SECTOR_BYTES = 512
SECTORS = Number(0, OFFSET.most // SECTOR_BYTES)
SECOND = 1_000_000_000
EVENT = re.compile(rb"\s*\d+,\d+\s")
# The counts that follow the events: of each processor, of a device, and of all.
SUMMARY = re.compile(rb"CPU ?\d+ \(|Total \(")
OPS = {b"R": READ, b"W": WRITE, b"D": TRIM}
HEAD_FIELDS = 7
# A request is queued (Q), issued to the driver (D), or complete: such an event ends with its error.
COMPLETE = b"C"


def requests(lines, action):
    """A line of an event is `device processor sequence time process action kind sector + count [who]`."""
    in_summary = False
    for number, line in lines:
        if EVENT.match(line):
            yield _event(number, line, action)
        elif SUMMARY.match(line):
            in_summary = True
        elif line.strip() and not in_summary and not line.startswith(b"Input file "):
            raise LineFault(number, f"{shown(line)} isn't an event of blkparse")


def _event(line, text, wanted):
    fields = text.split()
    if len(fields) < HEAD_FIELDS:
        raise LineFault(line, "the event is cut short")
    device, processor, sequence, time, process, action, kind = fields[:HEAD_FIELDS]
    number_in(processor, line, "processor")
    number_in(sequence, line, "sequence number")
    number_in(process, line, "process")
    nanoseconds = _nanoseconds(time, line)
    if not action.isalpha():
        raise LineFault(line, f"{shown(action)} isn't an action of blkparse")
    if action != wanted:
        return PassedOver("other action")
    return _of_kind(line, device, action, kind, fields[HEAD_FIELDS:], nanoseconds)


def _nanoseconds(time, line):
    """Seconds with nine digits after the point are nanoseconds without it."""
    number_in(time.replace(b".", b"", 1), line, "time", TIMESTAMP)
    seconds, _, rest = time.partition(b".")
    return int(seconds or b"0") * SECOND + int(rest[:9].ljust(9, b"0"))


def _of_kind(line, device, action, kind, rest, time):
    if not rest or not rest[-1].endswith(b"]"):
        raise LineFault(line, "the event is cut short")
    # A flush before the request is an F before its letter.
    op = OPS.get(kind.lstrip(b"F")[:1])
    if op is None:
        return PassedOver("flush" if kind.startswith(b"F") else "command without data")
    if len(rest) < 2 or rest[1] != b"+":
        return PassedOver("command without data")
    if len(rest) < 4:
        raise LineFault(line, "the event is cut short")
    if action == COMPLETE and rest[-1] != b"[0]":
        return PassedOver("failed request")
    sector, count = (number_in(field, line, what, SECTORS) for field, what in ((rest[0], "sector"), (rest[2], "count")))
    return Request(line, op, device, sector * SECTOR_BYTES, count * SECTOR_BYTES, time)
