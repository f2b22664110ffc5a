"""Inputs of the tools: files or standard input, as they are or compressed by gzip or zstd."""

import contextlib
import gzip
import io
import os
import shutil
import stat
import subprocess
import sys
import threading
import zlib

from .faults import BROKEN, Fault, LineFault

GZIP, ZSTD = b"\x1f\x8b", b"\x28\xb5\x2f\xfd"
OTHERS = {b"BZh": "bzip2", b"\xfd7zXZ": "xz", b"PK\x03\x04": "zip"}
AT_ONCE = 1 << 20


def name_of(path) -> str:
    return "standard input" if path == "-" else str(path)


def standard_input():
    """The bytes of standard input, which the caller may have closed."""
    if sys.stdin is None:
        raise Fault("standard input is closed")
    return sys.stdin.buffer


@contextlib.contextmanager
def opened(path):
    """The bytes of a file, or of standard input for `-`, as they were before they were compressed."""
    with contextlib.ExitStack() as stack:
        source = standard_input() if path == "-" else stack.enter_context(with_an_end(path))
        yield stack.enter_context(_plain(source, name_of(path)))


def with_an_end(path):
    """A file that was opened to read, unless it is a device that may never end; /dev/null is empty."""
    source = open(path, "rb")
    about = os.fstat(source.fileno())
    if stat.S_ISCHR(about.st_mode) and about.st_rdev != os.stat(os.devnull).st_rdev and not source.isatty():
        source.close()
        raise Fault(f"{name_of(path)}: a device, which may have no end")
    return source


def read(path, reader):
    """The result of a reader of a file; a fault names the file."""
    try:
        with opened(path) as source:
            return reader(source)
    except LineFault as fault:
        raise Fault(f"{name_of(path)}: {fault}", fault.status)


@contextlib.contextmanager
def _plain(source, name):
    if not hasattr(source, "peek"):
        source = io.BufferedReader(source)
    begin = source.peek(8)[:8]
    for mark, kind in OTHERS.items():
        if begin.startswith(mark):
            raise Fault(f"{name} is compressed by {kind}, which the tools don't read: decompress it first (they read gzip and zstd)", BROKEN)
    if begin.startswith(GZIP):
        with _told_as_broken(name):
            yield io.BufferedReader(gzip.GzipFile(fileobj=source), AT_ONCE)
    elif begin.startswith(ZSTD):
        with _zstd(source, name) as plain:
            yield plain
    else:
        yield source


@contextlib.contextmanager
def _told_as_broken(name):
    try:
        yield
    except (gzip.BadGzipFile, EOFError, zlib.error) as error:
        raise Fault(f"{name} isn't a complete gzip file: {error}", BROKEN)


@contextlib.contextmanager
def _zstd(source, name):
    """Debian's zstd decompresses, and its message is reported."""
    if shutil.which("zstd") is None:
        raise Fault(f"{name} is compressed by zstd, which isn't installed: apt-get install zstd")
    with subprocess.Popen(["zstd", "-dcq"], stdin=subprocess.PIPE, stdout=subprocess.PIPE, stderr=subprocess.PIPE) as run:
        feeder = threading.Thread(target=_feed, args=(source, run.stdin), daemon=True)
        feeder.start()
        ended = False
        try:
            yield run.stdout
        finally:
            ended = not run.stdout.read(1)
            run.stdout.close()
            feeder.join()
            errors = run.stderr.read().decode("utf-8", "replace").strip()
            run.wait()
            # The reason replaces what the reader reported for the text that was cut off.
            if ended and run.returncode != 0:
                raise Fault(f"{name} isn't a complete zstd file: {errors}", BROKEN)


def _feed(source, sink):
    # Where the reader has enough, zstd ends first.
    with contextlib.suppress(BrokenPipeError):
        shutil.copyfileobj(source, sink, AT_ONCE)
    with contextlib.suppress(BrokenPipeError):
        sink.close()
