"""The traces that `flashplay` plays, as they are written."""

from .faults import Fault
from .numbers import TRACE_BYTES

CHUNK = 65_536


class TraceWriter:
    """Writes the lines of a trace, and a line into each of the columns beside it. Each command is of worker 0; `data` returns the data
    of a write, from the number of its line."""

    def __init__(self, sink, data, columns=()):
        self.lines = 0
        self._columns = columns
        self._sink = sink
        self._data = data
        self._bytes = 0
        self._waiting = []
        self._waiting_bytes = 0

    def write(self, sector):
        self._put(b"0,write,%d,%b\n" % (sector, self._data(self.lines + 1)))

    def read(self, sector):
        self._put(b"0,read,%d,\n" % sector)

    def trim(self, sector):
        self._put(b"0,trim,%d,\n" % sector)

    def meet(self):
        self._put(b"0,meet,0,\n")

    def _put(self, line):
        if self._bytes + len(line) > TRACE_BYTES:
            raise Fault(f"the trace would have more than {TRACE_BYTES:,} bytes, the most that flashplay reads; --lines limits its length")
        self._bytes += len(line)
        self.lines += 1
        for column in self._columns:
            column.put()
        self._waiting.append(line)
        self._waiting_bytes += len(line)
        if self._waiting_bytes >= CHUNK:
            self.flush()

    def flush(self):
        self._sink.write(b"".join(self._waiting))
        self._sink.flush()
        self._waiting.clear()
        self._waiting_bytes = 0
        for column in self._columns:
            column.flush()


class Column:
    """A file beside a trace, with a line for each of its lines."""

    def __init__(self, sink):
        self._sink = sink
        self._waiting = []

    def put(self):
        self._waiting.append(self.line())
        if len(self._waiting) == 4096:
            self.flush()

    def flush(self):
        self._sink.write(b"".join(self._waiting))
        self._sink.flush()
        self._waiting.clear()

    def line(self) -> bytes:
        raise NotImplementedError


def line_number(line):
    """Eight digits: in a read's answer they are the line of the write that it saw, in hexadecimal."""
    return b"%08x" % line


def zeros(line):
    return b""


def random_bytes(random, count):
    """As many random bytes for each write."""
    return lambda line: b"%0*x" % (2 * count, random.getrandbits(8 * count))
