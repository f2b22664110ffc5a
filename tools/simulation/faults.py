"""Failures, and the status with which a tool then ends."""

import os
import signal
import sys

from . import names

FAILED = 1
ARGUMENTS = 2
BROKEN = 3


class Fault(Exception):
    """A failure to report on standard error, with the exit status of the tool."""

    def __init__(self, text, status=FAILED):
        super().__init__(text)
        self.status = status


class LineFault(Fault):
    """A line of an input that isn't what it should be."""

    def __init__(self, line, text):
        super().__init__(f"line {line}: {text}", BROKEN)


def _open_streams():
    """What the caller has closed is opened on nothing, so that no file takes its place; texts have the same bytes by any locale."""
    while (opened := os.open(os.devnull, os.O_RDWR)) <= 2:
        pass
    os.close(opened)
    if sys.stderr is None:
        sys.stderr = open(os.devnull, "w")
    for stream in (sys.stdout, sys.stderr):
        if stream is not None:
            stream.reconfigure(encoding="utf-8", errors="backslashreplace")


def _finish_output():
    """Writes what a tool that fails has printed; what can't be written goes nowhere, at the interpreter's end either."""
    try:
        if sys.stdout is not None:
            sys.stdout.flush()
    except OSError:
        os.dup2(os.open(os.devnull, os.O_WRONLY), sys.stdout.fileno())


def run(main):
    """Runs a tool's `main`, and ends with its status."""
    name = names.own()
    _open_streams()
    try:
        if sys.stdout is None:
            raise Fault("standard output is closed")
        main(sys.argv[1:])
        sys.stdout.flush()
    except Fault as fault:
        _finish_output()
        print(f"{name}: {fault}", file=sys.stderr)
        sys.exit(fault.status)
    except BrokenPipeError:
        # The reader of the output has gone.
        _finish_output()
        sys.exit(FAILED)
    except OSError as error:
        _finish_output()
        print(f"{name}: {error.filename or 'input or output'}: {error.strerror}", file=sys.stderr)
        sys.exit(FAILED)
    except KeyboardInterrupt as interrupt:
        if interrupt.args:
            print(f"{name}: {interrupt}", file=sys.stderr)
        sys.exit(128 + signal.SIGINT)
