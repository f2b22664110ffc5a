"""Converts the log of another tool into a trace."""

import collections
import itertools

from . import blkparse, fio, msr
from .device import IMAGE_RANGES
from .faults import Fault
from .lines import numbered_lines
from .numbers import LINE, PAGE_BYTES
from .requests import READ, TRIM, WRITE, Dense, Devices, Folded, PassedOver, Within, pages_of

FORMATS = ("fio", "msr", "blkparse")
ACTIONS = ("Q", "D", "C")


def add_options(parser):
    parser.add_argument("format", choices=FORMATS, help="fio's iolog (version 2 or 3), MSR Cambridge CSV, or blkparse's text")
    parser.add_argument("--page-bytes", type=PAGE_BYTES, required=True, metavar="N", help="bytes of a page, which is a sector of the trace")
    parser.add_argument("--sectors", type=IMAGE_RANGES["sectors"], required=True, metavar="N", help="sectors of the device")
    add_numbering(parser)
    parser.add_argument("--lines", type=LINE, metavar="N", help="end the trace after N lines")
    parser.add_argument("--quiet", action="store_true", help="no summary on standard error")


def add_numbering(parser):
    """How a log's pages become sectors, and which of its requests are taken."""
    past = parser.add_mutually_exclusive_group()
    past.add_argument("--wrap", action="store_true", help="map pages beyond the device into it, by the page's number modulo the sectors")
    past.add_argument("--dense", action="store_true", help="number the pages in the order in which a read or a write first touches them")
    parser.add_argument("--device", metavar="NAME", help="convert one device: a file of an iolog, HOST_DISK of MSR, MAJOR,MINOR of blkparse")
    what = "blkparse: when a request counts: queued, issued (the default) or complete"
    parser.add_argument("--action", choices=ACTIONS, default="D", help=what)


def requests_in(options, source, timed: bool):
    """The requests of a log, and the lines that are passed over."""
    lines = numbered_lines(source)
    if options.format == "fio":
        return fio.requests(lines, timed)
    if options.format == "msr":
        return msr.requests(lines)
    return blkparse.requests(lines, options.action.encode())


def taken(options, requests, counts):
    """The requests of the devices that are wanted; the others are counted."""
    devices = Devices(options.device.encode() if options.device else None, several=options.dense)
    for request in requests:
        if isinstance(request, PassedOver):
            counts[request.what] += 1
        elif not devices.takes(request):
            counts["other device"] += 1
        else:
            counts["requests"] += 1
            yield request


def convert(options, requests, writer, columns=()):
    """Converts requests; returns how many there were, and how many lines of each kind were skipped. The columns are files beside the
    trace, such as that of the arrivals, and are told of each request before its lines are written."""
    placement = Folded(options.sectors) if options.wrap else Dense(options.sectors) if options.dense else Within(options.sectors)
    puts = {READ: writer.read, WRITE: writer.write, TRIM: writer.trim}
    counts = collections.Counter()
    for request in taken(options, requests, counts):
        for column in columns:
            column.turn(request)
        sectors = placement.sectors_of(request, pages_of(request, options.page_bytes))
        if options.lines:
            sectors = itertools.islice(sectors, options.lines - writer.lines)
        for sector in sectors:
            puts[request.op](sector)
        if writer.lines == options.lines:
            break
    return counts


def summary(counts, lines):
    requests = counts.pop("requests", 0)
    text = f"{requests:,} requests became {lines:,} lines"
    if counts:
        text += "; passed over: " + ", ".join(f"{count:,} of {what}" for what, count in sorted(counts.items()))
    return text


def check_wanted(options, counts):
    """A device that no request names is a mistake of the caller, and no empty trace."""
    if options.device and not counts["requests"]:
        raise Fault(f"no request is of the device {options.device}")
