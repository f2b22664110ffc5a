"""The replay of the Python package, on the model in place of a device of the library: what it programs, copies and erases is what a trace
of the same log does."""

import importlib.util
import io
import types
import unittest
from unittest import mock

from simulation import fio, lines, model
from tests.test_simulate import log_of
from tests.tools import TOP, Run, convert

NUMBERS = {"luns": 1, "blocks": 32, "pages": 16, "words": 1, "sectors": 400, "endurance": 1_000_000}


def load():
    """The module alone: it needs the library only for its types."""
    spec = importlib.util.spec_from_file_location("replaying", TOP / "bindings/python/mintlintel/replaying.py")
    module = importlib.util.module_from_spec(spec)
    spec.loader.exec_module(module)
    return module


class ModelledDevice:
    """A device of the library, as far as a replay uses it."""

    page_bytes, sectors = 8, NUMBERS["sectors"]

    def __init__(self):
        self.model, self.calls = model.Model(**NUMBERS), 0

    def _answer(self, op, sector, data=""):
        self.calls += 1
        return self.model.answer(self.calls, op, sector, data)

    def write(self, sector, page):
        self._answer("write", sector, page.hex())

    def read_into(self, sector, out):
        self._answer("read", sector)

    def trim(self, sector):
        self._answer("trim", sector)


class Replays(unittest.TestCase):
    def setUp(self):
        self.replaying = load()

    def played(self, log, **options):
        device = ModelledDevice()
        count = sum(1 for _ in self.replaying.replay(device, fio.requests(lines.numbered_lines(io.BytesIO(log))), **options))
        return count, device.model.end()

    def test_pages_of_the_log_are_those_of_a_trace(self):
        log = log_of(7, 3000)
        trace = convert("fio", log, "--data", "zeros", sectors=NUMBERS["sectors"])
        words = [word for name, number in NUMBERS.items() for word in (f"--{name}", number)]
        last = Run("model", *words, given=trace.bytes).lines[-1]
        self.assertGreater(int(last.split(",")[2]), 0)
        self.assertEqual(self.played(log, page_bytes=4096), (3000, last + "\n"))

    def test_refuses_negative_bytes(self):
        for offset, length in ((-1, 4096), (0, -4096)):
            request = types.SimpleNamespace(op="write", offset=offset, length=length)
            with self.assertRaisesRegex(ValueError, "from 0 on"):
                list(self.replaying.replay(ModelledDevice(), [request]))
        with self.assertRaisesRegex(ValueError, "at least 1 byte"):
            self.replaying.replay(ModelledDevice(), [], page_bytes=0)

    def test_says_what_it_does_after_ten_seconds(self):
        request = types.SimpleNamespace(op="write", offset=0, length=8 * 4000)
        with mock.patch.object(self.replaying.time, "monotonic", side_effect=(step * 4.0 for step in range(100))):
            with self.assertLogs("mintlintel", "WARNING") as logged:
                list(self.replaying.replay(ModelledDevice(), [request], wrap=True, page_bytes=8))
        told = "replay: in request 1 after 12 s, and 3,072 pages of 8 bytes are played; larger pages (page_bytes=) are fewer"
        self.assertEqual([record.getMessage() for record in logged.records], [told])
        with self.assertNoLogs("mintlintel"):
            self.played(log_of(7, 10), page_bytes=4096)
