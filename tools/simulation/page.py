"""One page of a run, in a single file that needs nothing else: four figures, pictures with their tables, and what was played."""

import pathlib
import shlex
from html import escape

from . import collected, device, html, latency, life, names, over_time, pictures, response_shapes, titles, wear
from .html import Figure, Section
from .run import Run

SIZE = (4.6, 3.6)
PIECES, ROWS = 20, 16
# The numbers of a device, as a table names them.
FIELDS = {
    "luns": "LUNs", "blocks": "blocks", "pages": "pages in a block", "words": "words in a page (8 bytes each)", "sectors": "sectors",
    "endurance": "endurance (erases of a block)",
}  # fmt: skip


def write(options, run: Run):
    pathlib.Path(options.page).write_text(page(options, run), encoding="utf-8")


def page(options, run: Run) -> str:
    refused = not run.answers.quiet and run.answers.refused_writes() > 0
    rows = [row for row in run.as_rows() if not row[0].startswith("latency of")]
    totals = html.table("totals-table", "What the run did", ("", ""), rows, texts=True)
    parts = [
        f'<p{" class=alarm" if refused else ""}>{escape(run.headline())}</p>',
        html.figures(figures(run)),
        html.sections(sections(run)),
        '<h2 id="totals">Totals and what was played</h2>',
        html.details("Totals", totals),
        *_played(options, run.answers.quiet),
    ]
    return html.document(run.title or f"answers {titles.printable(options.answers)}", parts)


def figures(run: Run) -> list:
    """The head of the page: amplification, the slowest thousandth of the writes, the life that is used, and the refused writes."""
    amplification, slowest = run.summary.write_amplification, run.responses.get("response_writes_p999_us")
    overloaded = bool(run.responses.get("overloaded"))
    waits = "overloaded" if overloaded else "not known" if slowest is None else latency.duration(slowest)
    refused = run.summary.writes_refused
    unknown = "not known"
    return [
        Figure(unknown if amplification is None else f"{amplification:.3f}", "write amplification"),
        Figure(waits, "p99.9 latency of writes" if not overloaded else f"{run.responses['load']:.3f} of what the device can carry", overloaded),
        Figure(life.percent(run.life.used_worst) if run.life else unknown, "of the endurance used by the worst block"),
        Figure(unknown if refused is None else f"{refused:,}", "refused writes", bool(refused)),
    ]


def _played(options, quiet):
    """The device, the trace and the command lines."""
    rows = []
    if device.is_named(options):
        numbers = device.numbers_of(options)
        rows += [(FIELDS[name], f"{number:,}") for name, number in numbers.items()]
        rows.append(("over-provisioning", f"{device.over_provisioning(numbers):.4g} % (pages beyond the sectors, of the sectors)"))
        rows.append(("utilisation", f"{100 * numbers['sectors'] / device.pages_of(numbers):.4g} % (sectors, of all pages)"))
    if options.trace:
        rows.append(("trace", titles.printable(options.trace)))
    if rows:
        yield html.details("Device and trace", html.table("device-table", "Device and trace", ("", ""), rows, texts=True))
    lines = "\n".join(escape(titles.printable(line)) for line in command_lines(options, quiet))
    yield html.details("Command lines", f"<pre><code>{lines}</code></pre>")


def command_lines(options, quiet) -> list:
    """What the caller says made the trace, the run as the options tell it, and this report."""
    lines = list(options.made_by)
    if options.trace and device.is_named(options):
        numbers, trace, answers = device.words_of(device.numbers_of(options)), shlex.quote(options.trace), shlex.quote(options.answers)
        given = {"--wear": options.wear, "--collections": options.collections}
        files = [word for option, name in given.items() if name for word in (option, name)]
        lines.append(f"{shlex.join(['./flashplay', *numbers, *files, *(['--quiet'] if quiet else [])])} < {trace} > {answers}")
    return [*lines, shlex.join([names.of_tools("tools/report"), *options.call])]


def sections(run: Run):
    """What there is to show, in the order of the page."""
    if isinstance(run.log, collected.Collections) and not run.answers.quiet and run.answers.lines:
        yield _amplification(run)
    if run.response and run.responses["overloaded"]:
        yield Section("response", "Latency", f"{latency.overload(run.responses)}.".capitalize(), None)
    elif run.response:
        yield _tails(run)
    if run.response:
        yield _over_time(run)
    if isinstance(run.log, collected.Collections) and len(run.log):
        yield _victims(run)
    if run.blocks:
        yield _wear(run)


def _amplification(run):
    pieces = over_time.in_pieces(run.answers, run.log, PIECES)
    parts = [value for value in (piece.write_amplification() for piece in pieces) if value is not None]
    text = "Nothing was written."
    if parts:
        whole = run.summary.write_amplification
        text = f"{parts[0]:.3f} in the first part with writes, {parts[-1]:.3f} in the last, and {whole:.3f} over all of these lines."
    rows = []
    for piece, so_far in zip(pieces, over_time.so_far(pieces)):
        counts = (f"{count:,}" for count in (piece.programs, piece.copies, piece.collections))
        rows.append((f"{piece.first:,} to {piece.line:,}", *counts, _number(piece.write_amplification(), ".3f"), _number(so_far, ".3f")))
    columns = ("lines", "pages written", "pages copied", "collections", "amplification", "of all so far")

    def draw(sink):
        pictures.amplification_over_time(pieces, sink, size=SIZE)

    return Section("amplification", "Write amplification over time", text, draw, columns, rows)


def _victims(run):
    counts = collected.live_pages(run.log)
    total = len(run.log)
    mean = sum(run.log.copied) / total
    text = f"{total:,} victims had {counts[0][0]:,} to {counts[-1][0]:,} live pages, {mean:.2f} on average."
    rows = [(name, f"{count:,}", f"{100 * count / total:.1f} %") for name, count in _grouped(counts)]

    def draw(sink):
        pictures.live_pages_of_victims(counts, sink, size=SIZE)

    return Section("victims", "Live pages of the victims", text, draw, ("live pages", "collections", "share"), rows)


def _grouped(counts):
    """Numbers and how often each occurs, in ranges so that there are not too many rows."""
    least, most = counts[0][0], counts[-1][0]
    width = -(-(most - least + 1) // ROWS)
    for begin in range(least, most + 1, width):
        end = min(begin + width - 1, most)
        yield f"{begin:,}" if width == 1 else f"{begin:,} to {end:,}", sum(count for number, count in counts if begin <= number <= end)


def _wear(run):
    spread = wear.spread([block.erases for block in run.blocks])
    names = ("least", "first quartile", "median", "third quartile", "most")
    retired = sum(block.retired for block in run.blocks)
    least, _, median, _, most = spread
    within = " in these lines" if run.answers.before else ""
    text = f"A block was erased {least:,g} to {most:,g} times{within}, with the median at {median:,g}; {retired:,} of {len(run.blocks):,} blocks are retired."
    rows = [*((name, f"{number:,g}") for name, number in zip(names, spread)), ("blocks", f"{len(run.blocks):,}"), ("retired", f"{retired:,}")]
    if run.life:
        rows += life.as_rows(run.life, retired)

    def draw(sink):
        pictures.erases_by_block(run.blocks, sink, size=SIZE, endurance=run.life.endurance if run.life else None)

    return Section("wear", "Wear", text, draw, ("erases of a block", ""), rows)


def _tails(run):
    response_of, told = run.response.response(), run.responses
    tails = [(group, response_shapes.tail(response_of[run.response.of(group)])) for group in ("reads", "writes")]
    texts = [_told(told, group) for group in ("reads", "writes") if _figure(told, group, "count")]
    names = {"count": "requests" if told["response_by"] == "request" else "pages", **latency.SHOWN}
    rows = [(name, *(_cell(told, group, key) for group in latency.GROUPS)) for key, name in names.items()]

    def draw(sink):
        pictures.response_tails(tails, sink, size=SIZE)

    return Section("response", "Latency", " ".join(texts) or "No line reads or writes.", draw, ("", *latency.GROUPS), rows)


def _cell(told, group, key) -> str:
    value = _figure(told, group, key)
    return "" if value is None else f"{value:,}" if key == "count" else latency.duration(value)


def _told(told, group) -> str:
    mean, hundredth, longest = (latency.duration(_figure(told, group, key)) for key in ("mean", "p99", "longest"))
    return f"{group.capitalize()} take {mean} on average; one in a hundred takes more than {hundredth}, and the longest {longest}."


def _figure(told, group, key):
    return told[f"response_{group}_{key}" if key == "count" else f"response_{group}_{key}_us"]


def _over_time(run):
    timed = run.response.timed
    parts = response_shapes.over_time(run.response, run.answers.before + 1)
    step = max(1, -(-len(parts) // PIECES))
    unit = "from second" if timed else "from line"
    rows = []
    for some in (parts[place : place + step] for place in range(0, len(parts), step)):
        place = f"{some[0].place:,.3f}" if timed else f"{some[0].place:,.0f}"
        mean, longest = sum(part.mean for part in some) / len(some), max(part.longest for part in some)
        rows.append((place, latency.duration(mean), latency.duration(longest), f"{sum(part.collections for part in some):,}"))
    collecting = sum(bool(part.collections) for part in parts)
    text = f"{collecting:,} of {len(parts):,} parts of the run had collections, which are marked at the bottom."
    columns = (unit, "mean", "longest", "collections")

    def draw(sink):
        pictures.response_over_time(parts, timed, sink, size=SIZE)

    return Section("over-time", "Latency over time", text, draw, columns, rows)


def _number(value, form) -> str:
    return "" if value is None else format(value, form)
