"""A device for one thread. A lock in it lets threads take turns."""

from __future__ import annotations

from typing import NamedTuple, Optional

from . import _library
from ._library import LIBRARY
from .buffers import Buffer, WritableBuffer, bytes_of, new_bytes
from .faults import checked, checked_block, refuse_numbers
from .numbers import Numbers, number, taken
from .owning import Owner


class Counts(NamedTuple):
    """Pages programmed for writes, pages relocated, and erase commands."""

    programs: int
    copies: int
    erases: int


class Block(NamedTuple):
    """A block's erase commands, its live pages, and whether it is retired."""

    erases: int
    live: int
    retired: bool


class Device(Owner):
    """A device with every sector empty; a page has 8 times `words` bytes. It collects garbage inside the write that finds no page."""

    _close_handle = LIBRARY.mintlintel_one_close

    def __init__(self, *, blocks: int, pages: int, words: int, sectors: int, endurance: int, luns: int = 1) -> None:
        super().__init__(_library.Handle())
        given = {"luns": luns, "blocks": blocks, "pages": pages, "words": words, "sectors": sectors, "endurance": endurance}
        self._numbers, beyond = taken({**given, "hosts": 0, "brooms": 0})
        code = LIBRARY.mintlintel_one_open(self._handle, *self._numbers[:6])
        if code:
            refuse_numbers(code, self._numbers, beyond)
        self.page_bytes = self._numbers.page_bytes
        self.sectors = self._numbers.sectors
        self.blocks = self._numbers.blocks

    def read(self, sector: int) -> Optional[bytes]:
        """The page of a sector, or None for an empty one."""
        page, start = new_bytes(self.page_bytes)
        place = number(sector)
        with self._lock:
            code = LIBRARY.mintlintel_one_read(self._handle, place, start, self.page_bytes)
        return page if checked(code, self._numbers, sector) else None

    def read_into(self, sector: int, buffer: WritableBuffer) -> bool:
        """Reads a sector into a writable buffer of one page. An empty sector leaves the buffer unchanged; then it returns False."""
        place = number(sector)
        with bytes_of(buffer, writable=True) as (start, length), self._lock:
            code = LIBRARY.mintlintel_one_read(self._handle, place, start, length)
        return checked(code, self._numbers, sector, length)

    def write(self, sector: int, page: Buffer) -> bool:
        """Writes a page, any buffer of its bytes. Returns whether the sector was written."""
        place = number(sector)
        with bytes_of(page) as (start, length), self._lock:
            code = LIBRARY.mintlintel_one_write(self._handle, place, start, length)
        return checked(code, self._numbers, sector, length)

    def write_new(self, sector: int, page: Buffer) -> bool:
        """Writes a page to a sector if it is empty. Returns whether the sector was written before and so is unchanged."""
        place = number(sector)
        with bytes_of(page) as (start, length), self._lock:
            code = LIBRARY.mintlintel_one_write_new(self._handle, place, start, length)
        return checked(code, self._numbers, sector, length)

    def trim(self, sector: int) -> bool:
        """Empties a sector. Returns whether it was written."""
        place = number(sector)
        with self._lock:
            code = LIBRARY.mintlintel_one_trim(self._handle, place)
        return checked(code, self._numbers, sector)

    def counts(self) -> Counts:
        """The totals so far."""
        totals = _library.Totals()
        with self._lock:
            checked(LIBRARY.mintlintel_one_counts(self._handle, totals))
        return Counts(totals.programs, totals.copies, totals.erases)

    def block(self, block: int) -> Block:
        """The counts of a block so far."""
        report, place = _library.Block(), number(block)
        with self._lock:
            code = LIBRARY.mintlintel_one_block(self._handle, place, report)
        checked_block(code, block, self._numbers)
        return Block(report.erases, report.live, bool(report.retired))

    def numbers(self) -> Numbers:
        """The numbers that the device was made with."""
        report = _library.Numbers()
        with self._lock:
            checked(LIBRARY.mintlintel_one_numbers(self._handle, report))
        return Numbers.of(report)
