"""What the tests share: runs of the tools."""

import contextlib
import io
import pathlib
import runpy
import subprocess
import sys
from unittest import mock

TOOLS = pathlib.Path(__file__).resolve().parents[1]
TOP = TOOLS.parent
LOGS = TOOLS / "tests/logs"


class Run:
    """A tool's run: its status, output and errors. It runs within this process, or, `apart`, in one of its own."""

    def __init__(self, name, *words, given=b"", apart=False):
        call = [str(TOOLS / name), *(str(word) for word in words)]
        self.status, self.bytes, self.errors = (run_apart if apart else run_here)(call, given)
        self.text = self.bytes.decode()
        self.lines = self.text.splitlines()


def run_apart(call, given):
    done = subprocess.run([sys.executable, *call], input=given, capture_output=True)
    return done.returncode, done.stdout, done.stderr.decode()


def run_here(call, given):
    streams = {name: io.TextIOWrapper(io.BytesIO(data)) for name, data in (("stdin", given), ("stdout", b""), ("stderr", b""))}
    status = 0
    with contextlib.ExitStack() as stack:
        stack.enter_context(mock.patch.multiple(sys, argv=call, **streams))
        try:
            runpy.run_path(call[0], run_name="__main__")
        except SystemExit as end:
            status = end.code or 0
        for name in ("stdout", "stderr"):
            streams[name].flush()
    return status, streams["stdout"].buffer.getvalue(), streams["stderr"].buffer.getvalue().decode()


def convert(name, log, *words, page_bytes=4096, sectors=100):
    return Run("trace", "convert", name, "--page-bytes", page_bytes, "--sectors", sectors, *words, given=log)


def make(*words):
    return Run("trace", "make", *words)
