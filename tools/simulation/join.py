"""Joins two traces: a precondition, which ages the device, and the trace that is measured behind it."""

import contextlib
import pathlib

from . import arrivals, inputs, request_lines
from .faults import BROKEN, Fault, LineFault
from .lines import numbered_lines, shown
from .numbers import LINE_COUNT, TRACE_BYTES

BYTE_ORDER_MARK = b"\xef\xbb\xbf"


def add_options(parser):
    parser.add_argument("precondition", metavar="PRECONDITION", help="the trace that ages the device")
    parser.add_argument("trace", metavar="TRACE", help="the trace that is measured")
    parser.add_argument("--mark", metavar="FILE", help="write the number of the precondition's lines, for --from-mark")
    parser.add_argument("--arrivals-of", metavar="FILE", help="the arrivals of TRACE; needs --arrivals")
    parser.add_argument("--arrivals", metavar="FILE", help="write the arrivals of the result: those of TRACE begin when the precondition is done")
    parser.add_argument("--requests-of", metavar="FILE", help="the requests of TRACE; needs --requests")
    parser.add_argument("--requests", metavar="FILE", help="write the requests of the result")


def check(parser, options):
    for given, wanted in (("arrivals_of", "arrivals"), ("requests_of", "requests")):
        if (getattr(options, given) is None) != (getattr(options, wanted) is None):
            parser.error(f"--{given.replace('_', '-')} and --{wanted} need each other")


def join(options, sink):
    """Writes both traces one behind the other, and the files beside the result. Returns the lines of each."""
    copied = Copied(sink)
    counts = [_copy(path, copied) for path in (options.precondition, options.trace)]
    write_beside(options, *counts)
    return counts


def write_beside(options, before: int, lines: int):
    """Writes the mark, the arrivals and the requests of a result that has `before` lines before the mark and `lines` behind it."""
    if options.mark:
        pathlib.Path(options.mark).write_text(f"{before}\n", encoding="utf-8")
    if options.arrivals:
        _write_column(options.arrivals_of, options.arrivals, b"0.000\n" * before, b"+", arrivals.LINE, lines)
    if options.requests:
        _write_column(options.requests_of, options.requests, b"0,0\n" * before, b"", request_lines.LINE, lines)


class Copied:
    """Passes lines on, up to the bytes that flashplay reads."""

    def __init__(self, sink):
        self._sink = sink
        self._bytes = 0

    def write(self, line: bytes):
        self._bytes += len(line)
        if self._bytes > TRACE_BYTES:
            raise Fault(f"the two traces have more than {TRACE_BYTES:,} bytes together, the most that flashplay reads")
        self._sink.write(line)


def _copy(path, sink) -> int:
    """Copies the records of a trace, a line each, and returns how many there are."""
    count = 0
    with inputs.opened(path) as source:
        for number, line in numbered_lines(source):
            line = line.removeprefix(BYTE_ORDER_MARK) if number == 1 else line
            if line.count(b",") != 3 or b'"' in line or b"\r" in line:
                if not line:
                    continue
                raise Fault(f"{inputs.name_of(path)}: line {number}: {shown(line)} isn't a plain line `worker,op,sector,data` of a trace", BROKEN)
            sink.write(line + b"\n")
            count += 1
    return count


def _write_column(given, path, head: bytes, prefix: bytes, form, lines: int):
    """A file beside the result: lines for the precondition, and behind them those of the trace, each with a prefix."""
    count = 0
    with contextlib.ExitStack() as stack:
        source, sink = stack.enter_context(inputs.opened(given)), stack.enter_context(open(path, "wb"))
        sink.write(head)
        for count, line in numbered_lines(source):
            if not form.fullmatch(line) or line.startswith(b"+"):
                raise Fault(f"{inputs.name_of(given)}: line {count}: {shown(line)} isn't such a line", BROKEN)
            sink.write(prefix + line + b"\n")
    if count != lines:
        raise Fault(f"{inputs.name_of(given)} has {count:,} lines, and the trace {lines:,}", BROKEN)


def read_mark(source) -> int:
    """The number of a precondition's lines."""
    text = source.read(64).strip()
    try:
        return LINE_COUNT.read(text.decode("ascii", "replace"))
    except ValueError as error:
        raise LineFault(1, f"a mark is the number of a precondition's lines: {error}")
