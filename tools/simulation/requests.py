"""Requests of a block device's log, and the sectors that they touch."""

import collections
from dataclasses import dataclass

from .faults import LineFault

READ, WRITE, TRIM = "read", "write", "trim"


@dataclass(slots=True)
class Request:
    """Some bytes of a device, read, written or trimmed; `line` is the log's line, and the time is in nanoseconds if the log has it."""

    line: int
    op: str
    device: bytes
    offset: int
    length: int
    time: int | None = None


@dataclass(slots=True)
class PassedOver:
    """A line that touches no data, and its kind."""

    what: str


def pages_of(request, page_bytes):
    """The pages that a request touches. For a trim, only those that lie in it completely, since the rest of a page stays."""
    end = request.offset + request.length
    if request.op == TRIM:
        return range(-(-request.offset // page_bytes), end // page_bytes)
    return range(request.offset // page_bytes, -(-end // page_bytes))


class Within:
    """Each page is the sector with its number; a page past the device's end is refused."""

    def __init__(self, sectors):
        self._sectors = sectors

    def sectors_of(self, request, pages):
        if pages and pages[-1] >= self._sectors:
            past = f"page {pages[-1]:,} is past the end of the device of {self._sectors:,} sectors"
            raise LineFault(request.line, f"{past}; --wrap maps such pages into it, and --dense renumbers the pages")
        return pages


class Folded:
    """Each page is the sector with its number modulo the device's sectors."""

    def __init__(self, sectors):
        self._sectors = sectors

    def sectors_of(self, request, pages):
        if request.op == TRIM:
            pages = pages[: self._sectors]
        return (page % self._sectors for page in pages)


class Dense:
    """The pages of all devices are numbered in the order in which a read or a write first touches them."""

    def __init__(self, sectors):
        self._sectors = sectors
        self._numbers = collections.defaultdict(dict)
        self._used = 0

    def sectors_of(self, request, pages):
        numbers = self._numbers[request.device]
        if request.op == TRIM:
            return self._known(numbers, pages)
        return (self._number(numbers, page, request.line) for page in pages)

    def _number(self, numbers, page, line):
        number = numbers.get(page)
        if number is None:
            if self._used == self._sectors:
                raise LineFault(line, f"with this line the log touches more than the {self._sectors:,} pages for which the device has sectors")
            number = numbers[page] = self._used
            self._used += 1
        return number

    def _known(self, numbers, pages):
        # A page that nothing touched yet is empty, and trimming it needs no sector.
        if len(pages) <= len(numbers):
            return (numbers[page] for page in pages if page in numbers)
        return (numbers[page] for page in sorted(numbers) if page in pages)


class Devices:
    """Which requests are taken: those of the device that was selected; otherwise those of all devices, if several are allowed;
    otherwise those of the only device that the log names."""

    def __init__(self, wanted, several):
        self._wanted = wanted
        self._several = several
        self._only = None

    def takes(self, request):
        if self._wanted is not None or self._several:
            return self._wanted in (None, request.device)
        if self._only is None:
            self._only = request.device
        if self._only != request.device:
            first, second = (name.decode("utf-8", "backslashreplace") for name in (self._only, request.device))
            raise LineFault(
                request.line, f"the log names a second device, {second} in addition to {first}; --device selects one of them, and --dense takes all"
            )
        return True
