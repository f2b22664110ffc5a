"""The requests of fio's iolog, versions 2 and 3."""

from .faults import Fault, LineFault
from .lines import number_in, shown
from .numbers import OFFSET, TIMESTAMP
from .requests import READ, TRIM, WRITE, PassedOver, Request

VERSIONS = {b"fio version 2 iolog": 2, b"fio version 3 iolog": 3}
FILE_ACTIONS = {b"add", b"open", b"close"}
OPS = {b"read": READ, b"write": WRITE, b"trim": TRIM}
NO_DATA = {b"wait", b"sync", b"datasync", b"sync_file_range", b"syncfs"}
MICROSECOND = 1_000


def requests(lines, timed=False):
    """Version 2 has lines `file action` and `file action offset length`; version 3 has a timestamp in microseconds before them."""
    number, head = next(lines, (1, b""))
    version = VERSIONS.get(head.strip())
    if version is None:
        raise LineFault(number, f"an iolog begins with `fio version 2 iolog` or `fio version 3 iolog`, and this one with {shown(head)}")
    if timed and version == 2:
        raise Fault("an iolog of version 2 has no times; fio 3.31 and later write version 3")
    for number, line in lines:
        fields = line.split()
        if not fields:
            continue
        if line.strip() in VERSIONS:
            raise LineFault(number, "a second iolog begins here, as if two jobs wrote into one file: convert each by itself")
        time = number_in(fields.pop(0), number, "timestamp", TIMESTAMP) * MICROSECOND if version == 3 else None
        yield _request(number, fields, time)


def _request(line, fields, time):
    if len(fields) < 2:
        raise LineFault(line, "a file and an action are expected")
    name, action, *numbers = fields
    op = OPS.get(action)
    if op is None:
        if action not in FILE_ACTIONS and action not in NO_DATA:
            raise LineFault(line, f"{shown(action)} isn't an action of an iolog")
        for field in numbers:
            number_in(field, line, "number")
        return PassedOver("file action" if action in FILE_ACTIONS else action.decode())
    if len(numbers) != 2:
        raise LineFault(line, f"a {op} has an offset and a length, and this one {len(numbers)} numbers")
    offset, length = (number_in(field, line, what, OFFSET) for field, what in zip(numbers, ("offset", "length")))
    return Request(line, op, name, offset, length, time)
