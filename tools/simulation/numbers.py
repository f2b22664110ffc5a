"""The one reader of every number that the tools are given: as an option, as a field of a file, or in a manifest. Each has a range, and
what is outside it is refused with what was given and the range."""

import argparse
import re
from dataclasses import dataclass

WHOLE = re.compile(r"[+-]?\d{1,20}", re.ASCII)
DECIMAL = re.compile(r"[+-]?(?:\d{1,20}(?:\.\d{0,20})?|\.\d{1,20})(?:[eE][+-]?\d{1,3})?", re.ASCII)


@dataclass(frozen=True)
class Number:
    """From where to where a number runs, and whether it is whole. As a type of argparse it reads an option."""

    least: float
    most: float
    whole: bool = True

    def __contains__(self, number) -> bool:
        return self.least <= number <= self.most

    def __call__(self, text: str):
        try:
            return self.read(text)
        except ValueError as error:
            raise argparse.ArgumentTypeError(str(error)) from None

    def read(self, text: str):
        """The number that a text is; raises ValueError with the range."""
        if (WHOLE if self.whole else DECIMAL).fullmatch(text):
            number = int(text) if self.whole else float(text)
            if number in self:
                return number
        raise ValueError(f"{shown(text)} isn't {self.told()}")

    def check(self, number, what: str):
        """A number that is one already, such as that of a manifest."""
        is_number = isinstance(number, int if self.whole else (int, float)) and not isinstance(number, bool)
        if not is_number or number not in self:
            raise ValueError(f"{what} {number!r} isn't {self.told()}")
        return number

    def told(self) -> str:
        return f"a {'whole ' if self.whole else ''}number from {_plain(self.least)} to {_plain(self.most)}"


def _plain(number) -> str:
    return f"{number:,}" if isinstance(number, int) else f"{number:,.10g}"


def shown(text: str) -> str:
    """What was given, as a message shows it."""
    return repr(text if len(text) <= 40 else text[:37] + "...")


# The most bytes of a trace that flashplay accepts, and the most lines of one: `0,read,0,` with its end has ten bytes.
TRACE_BYTES = 268_435_456
LINES = TRACE_BYTES // 10
COUNT = Number(0, 2**64 - 1)
LINE_COUNT = Number(0, LINES)
LINE = Number(1, LINES)
PAGE_BYTES = Number(1, 1 << 30)
# A place in a device, in bytes, and the time of a log in its own unit.
OFFSET = Number(0, 2**63 - 1)
TIMESTAMP = Number(0, 2**63 - 1)
PERCENT = Number(0, 100, whole=False)
MICROSECONDS = Number(0, 1_000_000_000, whole=False)
SPEED = Number(0.001, 1_000, whole=False)
PIECES = Number(1, 1_000)
CLIENTS = Number(1, 65_536)
ROUNDS = Number(0, 1_000_000, whole=False)
