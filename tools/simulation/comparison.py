"""Several devices side by side: a table as text and as CSV, and a page with pictures over their over-provisioning."""

import csv
import pathlib
from dataclasses import dataclass
from html import escape

from . import device, html, latency, life, pictures, summary
from .html import Section
from .run import Run

SIZE = (4.6, 3.4)
AXIS = "over-provisioning (%)"
# A unit of the bytes that a device takes until its end.
UNITS = ((1e12, "TB"), (1e9, "GB"), (1e6, "MB"))
COLUMNS = (
    "over_provisioning", "over_provisioning_of_blocks", "blocks", "lines", "pages_written", "pages_copied", "erases", "refused_writes", "write_amplification",
    "write_p50_us", "write_p99_us", "write_p999_us", "load", "endurance_used_mean", "endurance_used_worst", "bytes_left", "bytes_at_end",
    "read_p50_us", "read_p99_us", "read_p999_us",
)  # fmt: skip


@dataclass
class Compared:
    """A device, and the run on it."""

    wanted: float
    numbers: dict
    run: Run
    page: str

    @property
    def over_provisioning(self) -> float:
        return device.over_provisioning(self.numbers)

    def row(self) -> list:
        """The cells of the CSV file; what isn't known is empty."""
        told, responses, lived = self.run.summary, self.run.responses, life.as_object(self.run.life)
        waits, of_reads = ([responses.get(f"response_{group}_{name}_us") for name in ("median", "p99", "p999")] for group in ("writes", "reads"))
        counts = [told.lines, told.programs, told.copies, told.erases, told.writes_refused, told.write_amplification]
        lives = [lived[f"life_{name}"] for name in ("used_mean", "used_worst", "bytes_left", "bytes_at_end")]
        cells = [self.wanted, self.over_provisioning, self.numbers["blocks"], *counts, *waits, responses.get("load"), *lives, *of_reads]
        return ["" if cell is None else f"{cell:.9g}" if isinstance(cell, float) else cell for cell in cells]

    def texts(self) -> list:
        """The cells of the table that people read."""
        told, responses, lived = self.run.summary, self.run.responses, self.run.life
        overloaded = responses.get("overloaded")
        waits = [responses.get(f"response_writes_{name}_us") for name in ("p99", "p999")]
        shown = ["overloaded" if overloaded else "-" if wait is None else latency.duration(wait) for wait in waits]
        at_end = "-" if not lived or lived.bytes_at_end is None else life.size(lived.bytes_at_end)
        return [
            f"{self.over_provisioning:.3g} %",
            f"{self.numbers['blocks']:,}",
            "-" if told.write_amplification is None else f"{told.write_amplification:.3f}",
            *shown,
            "-" if not lived else life.percent(lived.used_worst),
            at_end,
            f"{told.writes_refused:,}",
        ]


NAMES = ("over-provisioning", "blocks", "write amplification", "p99 of writes", "p99.9 of writes", "endurance used", "TBW (extrapolated)", "refused writes")


def headline(compared: list, before: int) -> str:
    """Which lines the figures are of, and where writes were refused."""
    lines = compared[0].run.answers.lines
    window = f"{lines:,} lines behind {before:,} of precondition" if before else f"the whole run, {lines:,} lines"
    refused = [f"{each.run.summary.writes_refused:,} writes at {each.over_provisioning:.3g} %" for each in compared if each.run.summary.writes_refused]
    return f"{window}; " + (f"REFUSED: {', '.join(refused)}" if refused else "no write was refused")


def text_of(compared: list) -> str:
    rows = [NAMES, *(each.texts() for each in compared)]
    widths = [max(len(row[column]) for row in rows) for column in range(len(NAMES))]
    return "\n".join("  ".join(cell.ljust(width) for cell, width in zip(row, widths)).rstrip() for row in rows)


def warnings(compared: list) -> list:
    """What is said of devices that can't carry their load, and of those that were never full."""
    told = [(each, latency.overload(each.run.responses)) for each in compared if each.run.responses]
    told += [(each, summary.NEVER_FULL) for each in compared if summary.was_never_full(each.run.summary)]
    return [f"{each.over_provisioning:.3g} %: {text}" for each, text in told if text]


def write_csv(compared: list, path):
    with open(path, "w", newline="", encoding="utf-8") as sink:
        csv.writer(sink, lineterminator="\n").writerows([COLUMNS, *(each.row() for each in compared)])


def write_page(title: str, compared: list, before: int, manifest: str, path):
    head = headline(compared, before)
    links = "".join(f'<li><a href="{escape(each.page)}">{each.over_provisioning:.3g} %, {each.numbers["blocks"]:,} blocks</a></li>' for each in compared)
    parts = [
        f'<p{" class=alarm" if "REFUSED" in head else ""}>{escape(head)}</p>',
        *(f"<p class=alarm>{escape(text)}</p>" for text in warnings(compared)),
        html.table("compared", "Side by side", NAMES, [each.texts() for each in compared]),
        html.sections(sections(compared)),
        f'<h2 id="devices">Each device</h2><ul>{links}</ul>',
        html.details("The manifest: run.toml", f"<pre><code>{escape(manifest)}</code></pre>"),
    ]
    pathlib.Path(path).write_text(html.document(title, parts), encoding="utf-8")


def sections(compared: list):
    """Pictures over the over-provisioning, of what is known."""
    yield _section(compared, "amplification", "Write amplification", pictures.AMPLIFICATION, lambda each: each.run.summary.write_amplification)
    for key, group in (("latency", "writes"), ("latency-of-reads", "reads")):
        series = [
            (name, _points(compared, lambda each, key=f"response_{group}_{share}_us": _ms(each.run.responses.get(key))))
            for name, share in (("p99", "p99"), ("p99.9", "p999"))
        ]
        if series[0][1]:
            yield _drawn(key, f"Latency of {group}", f"latency of {group} (ms)", series, " ms")
    unit, name = _unit(compared)
    up = f"written at the end ({name}, extrapolated)"
    yield _section(compared, "life", "Bytes written until the end of life (TBW)", up, lambda each: _at_end(each, unit), f" {name}")


def _section(compared, key, head, up, value, unit=""):
    points = _points(compared, value)
    return _drawn(key, head, up, [("", points)], unit) if points else Section(key, head, "Not known of these runs.", None)


def _points(compared, value) -> list:
    found = ((each.over_provisioning, value(each)) for each in compared)
    return sorted((across, up) for across, up in found if up is not None)


def _ms(microseconds):
    return None if microseconds is None else microseconds / 1_000


def _at_end(each: Compared, unit: float):
    lived = each.run.life
    return None if lived is None or lived.bytes_at_end is None else lived.bytes_at_end / unit


def _unit(compared: list):
    """The unit of the largest of them."""
    most = max((_at_end(each, 1) or 0 for each in compared), default=0)
    return next((row for row in UNITS if most >= row[0]), UNITS[-1])


def _drawn(key, head, up, series, unit="") -> Section:
    told = "; ".join(f"{name + ': ' if name else ''}{', '.join(f'{y:.4g}{unit} at {x:.3g} %' for x, y in points)}" for name, points in series)

    def draw(sink):
        pictures.lines_of_a_sweep(series, AXIS, up, sink, size=SIZE)

    return Section(key, head, told + ".", draw)
