"""The trace of a simulation: the logs of a job, merged by their times, behind a precondition."""

import argparse
import collections
import contextlib
import heapq
import os
import pathlib
import random
import re
from dataclasses import dataclass

from . import arrivals, blkparse, convert, fio, inputs, join, make, request_lines, traces
from .device import RANGES
from .faults import Fault, LineFault
from .lines import numbered_lines
from .manifest import NONE, Manifest, rounds_of
from .numbers import LINES
from .requests import TRIM, PassedOver, pages_of
from .titles import printable


@dataclass
class Job:
    """The files of a trace, those beside it None where the logs have no times, and the lines that age the device."""

    trace: pathlib.Path
    arrivals: pathlib.Path | None
    requests: pathlib.Path
    before: int
    lines: int
    told: str


def format_of(path) -> str:
    """The format of a log, by its first line."""
    with inputs.opened(path) as source:
        _, line = next(numbered_lines(source), (1, b""))
    if line.startswith(b"fio version"):
        return "fio"
    return "blkparse" if blkparse.EVENT.match(line) else "msr"


def has_times(path, form: str) -> bool:
    if form != "fio":
        return True
    with inputs.opened(path) as source:
        _, line = next(numbered_lines(source), (1, b""))
    return fio.VERSIONS.get(line.strip()) == 3


def options_of(manifest: Manifest):
    """The options by which the logs are converted."""
    return argparse.Namespace(
        format=manifest.format,
        page_bytes=manifest.page_bytes,
        sectors=manifest.device["sectors"],
        wrap=manifest.numbering == "wrap",
        dense=manifest.numbering == "dense",
        device=manifest.log_device,
        action=manifest.action,
        lines=None,
    )


@contextlib.contextmanager
def merged(logs: list, options, timed: bool):
    """The requests of several logs, in the order of their times."""
    with contextlib.ExitStack() as stack:
        each = [_named(path, options, stack.enter_context(inputs.opened(path)), timed) for path in logs]
        yield each[0] if len(each) == 1 else heapq.merge(*each, key=lambda request: request.time)


def _named(path, options, source, timed: bool):
    """The requests of a log; a fault names its file, and so does a time that goes backwards."""
    before = 0
    try:
        for request in convert.requests_in(options, source, timed):
            if isinstance(request, PassedOver):
                continue
            if timed and request.time < before:
                raise LineFault(request.line, "its time is before that of a line before it: sort the log by time first")
            before = request.time
            yield request
    except LineFault as fault:
        raise Fault(f"{path}: {fault}", fault.status)


def check_times(logs: list, form: str) -> bool:
    """Whether the logs have times, without which several can't be merged."""
    without = [path for path in logs if not has_times(path, form)]
    if without and len(logs) > 1:
        raise Fault(f"{without[0]} is an iolog of version 2, which has no times, so several logs can't be merged; fio 3.31 and later write them")
    return not without


def sectors_of(options, logs: list) -> int:
    """The sectors that the logs need: up to the highest page that they touch, or as many as they touch if the numbering is dense."""
    touched, highest = set(), -1
    with merged(logs, options, timed=len(logs) > 1) as requests:
        for request in convert.taken(options, requests, collections.Counter()):
            pages = pages_of(request, options.page_bytes)
            if not pages or request.op == TRIM and options.dense:
                continue
            highest = max(highest, pages[-1])
            if options.dense:
                touched.update(pages[: RANGES["sectors"].most + 1])
            if len(touched) > RANGES["sectors"].most:
                break
    needed = len(touched) if options.dense else highest + 1
    if not needed:
        raise Fault("no request of the logs touches a page")
    if needed > RANGES["sectors"].most:
        told = "that many pages are touched" if options.dense else "--dense numbers only the pages that are touched"
        raise Fault(f"the logs need {needed:,} sectors, and a device has at most {RANGES['sectors'].most:,}; {told}; --sectors N --wrap maps them")
    return needed


def prepare(manifest: Manifest, folder: pathlib.Path) -> Job:
    """Writes the trace and the files beside it into the folder."""
    timed = check_times(manifest.logs, manifest.format)
    job = {name: folder / f"job.{name}" for name in ("csv", "arrivals", "requests")}
    lines, told = _convert(manifest, job, timed)
    if manifest.precondition == NONE:
        return Job(job["csv"], job["arrivals"] if timed else None, job["requests"], 0, lines, told)
    rounds = rounds_of(manifest.precondition)
    precondition = folder / "precondition.csv" if rounds is not None else manifest.precondition
    if rounds is not None:
        _make_precondition(manifest, rounds, precondition)
    out = {name: folder / f"trace.{name}" for name in ("csv", "arrivals", "requests", "mark")}
    options = argparse.Namespace(
        precondition=precondition, trace=job["csv"], mark=out["mark"], arrivals_of=job["arrivals"], arrivals=out["arrivals"] if timed else None,
        requests_of=job["requests"], requests=out["requests"],
    )  # fmt: skip
    with open(out["csv"], "wb") as sink:
        before, _ = join.join(options, sink)
    return Job(out["csv"], options.arrivals, out["requests"], before, lines, told)


def _convert(manifest: Manifest, job: dict, timed: bool):
    """Writes the trace of the logs, and returns its lines and what became of the requests."""
    options = options_of(manifest)
    with contextlib.ExitStack() as stack:
        sinks = {name: stack.enter_context(open(path, "wb")) for name, path in job.items() if timed or name != "arrivals"}
        columns = [arrivals.Clock(sinks["arrivals"])] if timed else []
        columns.append(request_lines.RequestsWriter(sinks["requests"]))
        writer = traces.TraceWriter(sinks["csv"], traces.zeros, columns)
        requests = stack.enter_context(merged(manifest.logs, options, timed))
        counts = convert.convert(options, requests, writer, columns)
        writer.flush()
    convert.check_wanted(options, counts)
    return writer.lines, convert.summary(counts, writer.lines)


def _make_precondition(manifest: Manifest, rounds: float, path):
    """Each sector is written once in order, and then as many times more as there are rounds, at random sectors."""
    sectors = manifest.device["sectors"]
    lines = round(rounds * sectors)
    if sectors + lines > LINES:
        raise Fault(f"the precondition would have {sectors + lines:,} lines, and a trace has at most {LINES:,}")
    parser = argparse.ArgumentParser()
    make.add_options(parser, sized=False)
    options = parser.parse_args(["uniform", "--fill"])
    options.sectors, options.lines = sectors, lines
    with open(path, "wb") as sink:
        writer = traces.TraceWriter(sink, traces.zeros)
        make.make(options, random.Random(options.seed), writer)
        writer.flush()


def title_of(manifest: Manifest) -> str:
    """The logs, and what aged the device before them."""
    names = [printable(os.path.basename(path)) for path in manifest.logs]
    logs = names[0] if len(names) == 1 else f"{names[0]} and {len(names) - 1} more"
    aged = "" if manifest.precondition == NONE else f", behind {printable(re.sub('.*/', '', manifest.precondition))}"
    return f"{logs}{aged}"
