"""Requests of a log, played on a device."""

from __future__ import annotations

import logging
import time
from typing import TYPE_CHECKING, Iterable, Iterator, Protocol, TypeVar

if TYPE_CHECKING:
    from .device import Device
    from .durable import DurableDevice

LOGGER = logging.getLogger("mintlintel")
# A replay that takes longer says what it is doing, and again each time that it has taken twice as long.
QUIET_SECONDS = 10.0
PAGES_BETWEEN_LOOKS = 1024


class Request(Protocol):
    """Some bytes of a device: `op` is `read`, `write` or `trim`. The readers of tools/simulation give such objects."""

    op: str
    offset: int
    length: int


_RequestType = TypeVar("_RequestType", bound=Request)


def _pages_of(request: Request, page_bytes: int) -> range:
    """The pages that a request touches. Of a trim those that are in it as a whole, since the rest of a page stays."""
    if request.offset < 0 or request.length < 0:
        raise ValueError(f"a request has an offset and a length from 0 on, and not {request.offset:,} and {request.length:,}")
    end = request.offset + request.length
    if request.op == "trim":
        return range(-(-request.offset // page_bytes), end // page_bytes)
    return range(request.offset // page_bytes, -(-end // page_bytes))


class _Progress:
    """Says after a while how far a replay is."""

    def __init__(self, page_bytes: int) -> None:
        self._page_bytes = page_bytes
        self._begun = time.monotonic()
        self._next = QUIET_SECONDS
        self.requests = self.pages = 0

    def count(self) -> None:
        self.pages += 1
        if self.pages % PAGES_BETWEEN_LOOKS == 0:
            self.look()

    def look(self) -> None:
        passed = time.monotonic() - self._begun
        if passed >= self._next:
            self._next = 2 * passed
            told = "replay: in request %s after %.0f s, and %s pages of %s bytes are played; larger pages (page_bytes=) are fewer"
            LOGGER.warning(told, f"{self.requests:,}", passed, f"{self.pages:,}", f"{self._page_bytes:,}")


def replay(device: Device | DurableDevice, requests: Iterable[_RequestType], *, wrap: bool = False, page_bytes: int | None = None) -> Iterator[_RequestType]:
    """Plays each request on the device, and yields it as soon as it was played. Only the next request is read ahead, so a log may have
    any length, and the device's counts can be had after each request.

    A write writes whole pages of zeros. An object without an `op` touches no data, and is passed over. A page past the device is
    raised as NoSuchSector; with `wrap` its number is taken modulo the device's sectors.

    A page of the log has `page_bytes` bytes, and is a sector of the device; if it isn't given, it has as many as the device's page. So
    a device of `words=1` plays a log in pages of 4096 bytes: the same pages are programmed, copied and erased, in less memory.

    A replay that takes more than ten seconds logs how far it is, as a warning of the logger `mintlintel`.

    >>> from types import SimpleNamespace
    >>> log = [SimpleNamespace(op="write", offset=offset, length=1024) for offset in range(0, 8192, 512)]
    >>> with Device(blocks=8, pages=4, words=64, sectors=20, endurance=1000) as device:
    ...     [device.counts().programs for request in replay(device, log)][-1]
    32
    >>> with Device(blocks=8, pages=4, words=1, sectors=20, endurance=1000) as device:
    ...     [device.counts().programs for request in replay(device, log, page_bytes=512)][-1]
    32
    """
    size = device.page_bytes if page_bytes is None else page_bytes
    if size < 1:
        raise ValueError(f"a page has at least 1 byte, and not {size:,}")
    return _played(device, requests, wrap, size)


def _played(device: Device | DurableDevice, requests: Iterable[_RequestType], wrap: bool, page_bytes: int) -> Iterator[_RequestType]:
    page, out, progress = bytes(device.page_bytes), bytearray(device.page_bytes), _Progress(page_bytes)
    for request in requests:
        if not hasattr(request, "op"):
            continue
        if request.op not in ("read", "write", "trim"):
            raise ValueError(f"a request is to read, write or trim, and not to {request.op}")
        progress.requests += 1
        pages = _pages_of(request, page_bytes)
        if wrap and request.op == "trim":
            pages = pages[: device.sectors]
        for number in pages:
            sector = number % device.sectors if wrap else number
            if request.op == "write":
                device.write(sector, page)
            elif request.op == "read":
                device.read_into(sector, out)
            else:
                device.trim(sector)
            progress.count()
        yield request
