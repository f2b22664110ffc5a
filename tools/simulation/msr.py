"""The requests of the block traces of MSR Cambridge, as SNIA keeps them."""

import re

from .faults import LineFault
from .lines import number_in, shown
from .numbers import OFFSET
from .requests import READ, WRITE, Request

HEAD = b"timestamp,hostname,disknumber,type,offset,size,responsetime"
FIELDS = 7
OPS = {b"read": READ, b"write": WRITE}
# A timestamp counts steps of 100 nanoseconds.
STEP = 100
LINE = re.compile(rb"(\d{1,20}),([^,]*),(\d{1,20}),(read|write),(\d{1,20}),(\d{1,20}),\d{1,20}", re.IGNORECASE)


def requests(lines):
    """Each line is `Timestamp,Hostname,DiskNumber,Type,Offset,Size,ResponseTime`; some copies have a line of these names first."""
    for number, line in lines:
        found = LINE.fullmatch(line)
        if found:
            time, host, disk, kind, offset, size = found.groups()
            ranged = (number_in(field, number, what, OFFSET) for field, what in ((offset, "offset"), (size, "size"), (time, "timestamp")))
            offset, size, time = ranged
            yield Request(number, OPS[kind.lower()], host + b"_" + disk, offset, size, time * STEP)
        elif line and not (number == 1 and line.lower() == HEAD):
            _refuse(number, line)


def _refuse(line, text):
    """Reports what is wrong with a line that isn't a request."""
    fields = text.split(b",")
    if len(fields) != FIELDS:
        raise LineFault(line, f"{FIELDS} fields are expected, and these are {len(fields)}")
    timestamp, _, disk, kind, offset, size, response = fields
    if kind.lower() not in OPS:
        raise LineFault(line, f"the type {shown(kind)} is neither Read nor Write")
    for field, what in ((timestamp, "timestamp"), (disk, "disk number"), (offset, "offset"), (size, "size"), (response, "response time")):
        number_in(field, line, what)
