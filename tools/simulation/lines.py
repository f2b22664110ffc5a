"""Lines of a text, one at a time, with their numbers from 1."""

from . import numbers
from .faults import LineFault

LONGEST = 65_536


def numbered_lines(source):
    """Each line without its end. A line is bounded, so that no input takes much memory."""
    number = 0
    while line := source.readline(LONGEST + 1):
        number += 1
        if len(line) > LONGEST:
            raise LineFault(number, f"more than {LONGEST:,} bytes")
        yield number, line.rstrip(b"\r\n")


def number_in(field: bytes, line: int, what: str, wanted=numbers.COUNT) -> int:
    """A field as a whole number within its range."""
    if field.isdigit() and len(field) <= 20 and (number := int(field)) in wanted:
        return number
    raise LineFault(line, f"the {what} {shown(field)} isn't {wanted.told()}")


def shown(field: bytes) -> str:
    """A field as a message shows it."""
    return numbers.shown(field.decode("utf-8", "backslashreplace"))
