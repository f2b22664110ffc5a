"""The points of a sweep: each plays a trace on its device, by GNU parallel, and the rows are gathered."""

import argparse
import csv
import io
import itertools
import json
import pathlib
import random
import shlex
import shutil
import subprocess
import sys
import tempfile
import uuid
from dataclasses import dataclass

from . import answers, arrivals, collected, device, grid, image, inputs, latency, make, part, pictures, request_lines, response
from .faults import Fault
from .manifest import sum_of
from .traces import TraceWriter

COLUMNS = (*device.DEFAULTS, "utilisation", "lines", "programs", "copies", "erases", "worn", "write_amplification")
# With the times of a part: the latency of writes, by the name in a report, and the load of the device.
RESPONSES = {"write_mean_us": "response_writes_mean_us", "write_p99_us": "response_writes_p99_us", "write_p999_us": "response_writes_p999_us"}
RESPONSE_COLUMNS = ("load", *RESPONSES)
LINES_AT_ONCE = 4096
SWEEP = device.TOP / "tools/sweep"


def maker(text, point, lines):
    """The options of `trace make` in the text, for a point's device."""
    parser = argparse.ArgumentParser(prog="sweep --make", exit_on_error=False, add_help=False)
    make.add_options(parser, sized=False)
    try:
        options, unknown = parser.parse_known_args(shlex.split(text))
        if unknown:
            raise argparse.ArgumentTypeError(f"{unknown[0]!r} isn't an option of trace make")
        options.sectors, options.lines = point.device["sectors"], lines
        make.check(options)
    except (argparse.ArgumentTypeError, ValueError) as error:
        raise argparse.ArgumentError(None, str(error))
    return options


def play_point(options, point):
    """The row of a point: what was done in the lines that count."""
    device.check(point.device)
    if options.image:
        whole = image.totals(files_of(options)[f"image-{point.names[grid.IMAGE]}"].found(), feeder(options, point))
        row = {grid.IMAGE: point.names[grid.IMAGE], **_totals(whole.lines, whole.programs, whole.copies, whole.erases, whole.worn)}
    elif part.is_named(options):
        row = _responding(options, point)
    elif _lines_before(options, point):
        row = _settled(options, point)
    else:
        whole = device.play(point.device, feeder(options, point))
        row = _totals(whole.lines, whole.programs, whole.copies, whole.erases, whole.worn)
    row |= {**point.device, "utilisation": f"{point.utilisation():.6g}"}
    if options.image:
        row["endurance"] = ""  # an image has none
    return [row[name] for name in columns_of(options)]


def _totals(lines, programs, copies, erases, worn):
    amplification = f"{(programs + copies) / programs:.6f}" if programs else ""
    return {"lines": lines, "programs": programs, "copies": copies, "erases": erases, "worn": worn, "write_amplification": amplification}


def _lines_before(options, point) -> int:
    """How many lines don't count: the fill, and those that settle the device."""
    if not options.before:
        return 0
    fill = point.device["sectors"] if options.make and maker(options.make, point, 0).fill else 0
    return fill + options.before


def _counted(played, log, before: int):
    """The totals of the lines that count."""
    programs, worn = played.programs_within(before, played.lines), sum(played.kinds.count(kind, before) for kind in answers.REFUSED)
    return _totals(played.lines - before, programs, sum(log.copied), len(log), worn)


def _settled(options, point):
    """The totals after the lines that settle the device, from one run and its log."""
    played, log = _with_log(point.device, feeder(options, point))
    before = _within(_lines_before(options, point), played)
    return _counted(played, log.from_line(before + 1), before)


def _within(before: int, played) -> int:
    if before >= max(1, played.lines):
        raise Fault(f"the first {before:,} lines don't count, and the trace has {played.lines:,}")
    return before


def _responding(options, point):
    """The totals and the latencies, from one run and its log."""
    played, log = _with_log(point.device, feeder(options, point))
    before = _within(_lines_before(options, point), played)
    times, given = times_of(options, point, played.lines), requests_of(options, played.lines)
    told = response.respond(played, log, part.part_of(options), times, options.speed, before + 1, given, numbers=point.device)
    figures = latency.summarise(told, None)
    row = _counted(played, log.from_line(before + 1), before)
    waits = {name: "" if figures[key] is None else f"{figures[key]:.3f}" for name, key in RESPONSES.items()}
    return row | waits | {"load": "" if figures["load"] is None else f"{figures['load']:.6f}"}


def _with_log(numbers, feed):
    """The answers of a run, and the log of collections that it wrote."""
    with tempfile.TemporaryDirectory() as folder:
        path = pathlib.Path(folder) / "collections"
        run = device.run(numbers, feed, answers.read_answers, ("--collections", str(path)))
        with open(path, "rb") as source:
            log = collected.read_log(source)
    collected.check(log, run)
    return run, log


def times_of(options, point, lines):
    """The arrivals of a run's lines, or None."""
    import numpy

    if options.arrivals:
        with inputs.opened(files_of(options)["arrivals"].found()) as source:
            given = arrivals.read_arrivals(source)
        kept = slice(None if options.lines is None else lines)
        return arrivals.Arrivals(given.times[kept], min(given.drained, len(given.times[kept])))
    made = maker(options.make, point, 0) if options.make else None
    if made and (made.rate or made.interval):
        times = numpy.fromiter(itertools.islice(arrivals.made(made), lines), dtype=numpy.int64, count=lines)
        return arrivals.Arrivals(times, lines)
    return None


def requests_of(options, lines):
    """The requests of a run's lines, or None."""
    if not options.requests:
        return None
    with inputs.opened(files_of(options)["requests"].found()) as source:
        played = None if options.lines is None else lines
        return request_lines.read_requests(io.BytesIO(b"".join(itertools.islice(source, played))), lines)


def columns_of(options):
    return (grid.IMAGE, *COLUMNS) if options.image else (*COLUMNS, *RESPONSE_COLUMNS) if part.is_named(options) else COLUMNS


def lines_of(rounds, points) -> int:
    """Rounds as lines: as many for each point, so that all are compared over the same lines. A round has a line for each page of the
    largest device."""
    return int(rounds * max(point.pages() for point in points))


def feeder(options, point):
    """Writes the lines of the trace, after the fill if the trace is made."""
    if options.trace:
        trace = files_of(options)["trace"].found()
        return lambda sink: copy_lines(trace, options.lines, sink)

    def feed(sink):
        made = maker(options.make, point, options.lines)
        seeded = random.Random(made.seed)
        writer = TraceWriter(sink, make.data_of("zeros", seeded, 0))
        make.make(made, seeded, writer)
        writer.flush()

    return feed


def copy_lines(path, lines, sink):
    """Copies the first lines of a file, or all, many whole lines at a time."""
    with inputs.opened(path) as trace:
        left = itertools.islice(trace, lines)
        while some := list(itertools.islice(left, LINES_AT_ONCE)):
            sink.write(b"".join(some))


def want_parallel():
    """Ends the tool if GNU parallel is missing; another program has the same name."""
    try:
        told = subprocess.run(["parallel", "--version"], stdin=subprocess.DEVNULL, capture_output=True, text=True).stdout
    except FileNotFoundError:
        told = ""
    if not told.startswith("GNU parallel"):
        raise Fault("a sweep needs GNU parallel, which isn't installed: apt-get install parallel")


# The files that each point reads.
FILES = ("trace", "arrivals", "requests")
# What a sweep leaves in its folder.
KEPT = ("sweep.json", "jobs.log", "sweep.csv", "sweep.svg")


def begin(options, points):
    """The sweep's folder: a new one, or that of the same sweep, to continue it; --force removes what an earlier sweep left there."""
    told = json.dumps({"points": [str(point) for point in points], "call": words_of_play(options)}, indent=1)
    plan = options.out / "sweep.json"
    if plan.exists() and options.force:
        for name in KEPT:
            (options.out / name).unlink(missing_ok=True)
        shutil.rmtree(options.out / "points", ignore_errors=True)
    if not plan.exists():
        options.out.mkdir(parents=True, exist_ok=True)
        plan.write_text(told)
    elif not options.resume:
        raise Fault(f"{options.out} has a sweep already; --resume continues it, and --force starts again")
    elif plan.read_text() != told:
        raise Fault(f"the sweep in {options.out} is another one: continue it with the same options, name another folder, or start again with --force")


@dataclass
class File:
    """A file that each point reads: its path, or a copy with its name that was transferred; its sum shows that it is the same file."""

    path: pathlib.Path
    sum: str

    def found(self):
        for path in (self.path, pathlib.Path(self.path.name)):
            if path.is_file() and sum_of(path) == self.sum:
                return path
        raise Fault(f"{self.path} has changed since the sweep began")


def files_of(options):
    """The files that each point reads, examined before anything is played."""
    given = {name: getattr(options, name) for name in FILES}
    images = {f"image-{place}": file for place, file in enumerate(options.image or [], 1)}
    sums = dict(zip(images, options.image_sum or []))
    kept = {name: File(path.resolve(), sums.get(name) or sum_of(path)) for name, path in images.items()}
    return kept | {name: File(path.resolve(), getattr(options, f"{name}_sum") or sum_of(path)) for name, path in given.items() if path}


def words_of_play(options):
    """The options of the call for a point, without the point."""
    words = [] if options.trace else ["--make", options.make]
    for name, file in files_of(options).items():
        option = name.partition("-")[0]
        words += [f"--{option}", str(file.path), f"--{option}-sum", file.sum]
    for name in ("lines", "before"):
        if getattr(options, name) is not None:
            words += [f"--{name}", str(getattr(options, name))]
    if part.is_named(options):
        words += [*part.words_of(part.part_of(options)), "--speed", repr(options.speed)]
    return words


def play_all(options, points):
    """Lets GNU parallel play each point, and keep its output in the folder; returns the messages of parallel."""
    call = shlex.join([sys.executable if options.sshloginfile is None else "python3", str(SWEEP), *words_of_play(options), "--point"]) + " {}"
    words = ["parallel", "--joblog", str(options.joblog or options.out / "jobs.log"), "--results", f"{options.out}/points/{{}}/"]
    if options.resume:
        words.append("--resume-failed")
    if options.bar:
        words.append("--bar")
    if options.jobs:
        words += ["--jobs", options.jobs]
    if options.sshloginfile:
        words += ["--sshloginfile", str(options.sshloginfile), *_handed_over(options)]
    text = "".join(f"{point}\n" for point in points)
    try:
        done = subprocess.run([*words, call], input=text, text=True, stdout=subprocess.DEVNULL, stderr=None if options.bar else subprocess.PIPE)
    except KeyboardInterrupt:
        raise KeyboardInterrupt(f"interrupted; the same call with --resume continues the sweep in {options.out}")
    return done.stderr or ""


def _handed_over(options):
    """Other machines get the files of the sweep in a folder of their own, which is removed at the end."""
    files = [word for file in files_of(options).values() for word in ("--basefile", f"{file.path.parent}/./{file.path.name}")]
    return ["--workdir", f"/tmp/flashplay-sweep-{uuid.uuid4()}", "--cleanup", *files] if files else []


def gather(options, points, told_by_parallel):
    """Writes the rows of all points into one file, in the grid's order; returns them, and the points that failed with their reasons."""
    rows, failures, columns = [], [], columns_of(options)
    for point in points:
        folder = options.out / "points" / str(point)
        row = (folder / "stdout").read_text().strip() if (folder / "stdout").exists() else ""
        if row.count(",") == len(columns) - 1:
            rows.append(row.split(","))
        else:
            told = (folder / "stderr").read_text().strip() if (folder / "stderr").exists() else ""
            failures.append((point, told or f"it was not played: {told_by_parallel.strip()}"))
    with open(options.out / "sweep.csv", "w", newline="") as sink:
        csv.writer(sink, lineterminator="\n").writerows([columns, *rows])
    return [dict(zip(columns, row)) for row in rows], failures


def label_of(column):
    """The label of an axis of a plot for a column."""
    labels = {
        "utilisation": "utilisation (sectors, % of physical pages)",
        "write_amplification": pictures.AMPLIFICATION,
        "pages": "pages per block",
        "words": "words per page",
        "luns": "LUNs",
        "endurance": "endurance (erases of a block)",
        "load": "load (work / time)",
        "write_mean_us": "mean latency of writes (µs)",
        "write_p99_us": "p99 latency of writes (µs)",
        "write_p999_us": "p99.9 latency of writes (µs)",
    }
    return labels.get(column, column)


def name_of(column, number):
    """The legend for the lines of a plot that have one number of a column."""
    what = {"utilisation": "% utilisation", "pages": "pages per block", "words": "words per page", "luns": "LUNs"}.get(column, column)
    return f"{number:,g} {what}"


def headline(options, rows) -> str:
    """What is counted, and whether writes were refused."""
    told = f"{len(rows):,} points, the whole of each run"
    if options.before:
        fill = " and the fill" if options.make and "--fill" in options.make else ""
        told = f"{len(rows):,} points, the lines of each behind the first {options.before:,}{fill}"
    refused = [f"{int(row['worn']):,} of {int(row['worn']) + int(row['programs']):,} writes at {_named(row)}" for row in rows if int(row["worn"])]
    return f"{told}; " + (f"REFUSED: {'; '.join(refused)}" if refused else "no write was refused")


def overloads(options, rows) -> list:
    """A line for each point whose device can't carry its load."""
    over = [row for row in rows if row.get("load") and float(row["load"]) >= 1]
    return [f"{_named(row)}: the device cannot carry this load: {float(row['load']):.3f} of it" for row in over]


def _named(row) -> str:
    return f"{row['blocks']} blocks of {row['pages']} pages, {row['sectors']} sectors"


def title_of(options, points):
    """What all points of a sweep have in common: the numbers of the device that don't vary, and the trace."""
    same = {name: number for name, number in points[0].device.items() if len({point.device[name] for point in points}) == 1}
    told = [f"{number:,} {name}" for name, number in same.items() if name in ("luns", "blocks", "pages", "sectors") and (name, number) != ("luns", 1)]
    return " · ".join([*([", ".join(told)] if told else []), options.make or options.trace.name])


def series_of(rows, across, up, by):
    """The rows as lines of a plot: a line for each number of `by`, each of points with two numbers."""
    lines = {}
    for row in rows:
        if row[up] != "":
            name = name_of(by, float(row[by])) if by else ""
            lines.setdefault(name, []).append((float(row[across]), float(row[up])))
    return [(name, sorted(points)) for name, points in lines.items()]
