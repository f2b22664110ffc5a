"""Pictures as SVG or PNG, by matplotlib. The same numbers give the same bytes. An SVG is dark where the page around it is."""

import io
import pathlib
import re

from . import debian, over_time
from .faults import ARGUMENTS, Fault
from .wear import spread

BLUE, GOLD, RED, GREEN, GREY = "#1f5fa8", "#b8860b", "#c0392b", "#2e7d32", "#777777"
COLOURS = (BLUE, GOLD, RED, GREEN, "#6a3d9a", "#e377c2", "#17a2b8", GREY)
GRID = "#dddddd"
PAPER, INK = "#ffffff", "#000000"
# Each colour of a picture, and the one that it has in the dark.
DARK = {
    BLUE: "#6aa9f0", GOLD: "#e0b040", RED: "#f08070", GREEN: "#7cc47f", "#6a3d9a": "#b79ae0", "#e377c2": "#f0a8dc", "#17a2b8": "#5fd0e0",
    GREY: "#a0a0a0", GRID: "#3a3e45", "#cccccc": "#3a3e45", PAPER: "#16181b", INK: "#e8e8e6",
}  # fmt: skip
SIZE = (7.2, 4.2)
FORMATS = (".svg", ".png")
DOTS_AN_INCH = 150
# Up to this many blocks have a bar each.
MOST_BARS = 200
# Where erases are less than this share of the endurance, its line is named, and not drawn far above them.
LEAST_SHARE = 0.25
# Tens of thousands and more have a unit, so that numbers don't run into each other on an axis.
UNITS = ((1e9, " G"), (1e6, " M"), (1e3, " k"))
LONGEST_PLAIN = 10_000
AMPLIFICATION = "write amplification"
LINE = "line of the trace"


def want():
    """Ends the tool if matplotlib is missing."""
    debian.want("matplotlib", "pictures")


def check_name(path):
    """A picture's name says what it is."""
    if pathlib.Path(path).suffix.lower() not in FORMATS:
        raise Fault(f"the name of a picture ends with {' or '.join(FORMATS)}: {path}", ARGUMENTS)


def number_on_axis(value, _=None) -> str:
    if abs(value) >= LONGEST_PLAIN:
        for unit, name in UNITS:
            if abs(value) >= unit:
                return f"{round(value / unit, 9):,.10g}{name}"
    return f"{round(value, 9):,.10g}"


def new_axes(across, up, title="", size=SIZE):
    import matplotlib

    matplotlib.use("svg")
    matplotlib.rcParams.update({"svg.hashsalt": "flashplay", "svg.fonttype": "none", "font.size": 10, "axes.grid": True, "grid.color": GRID})
    from matplotlib import pyplot
    from matplotlib.ticker import MaxNLocator

    figure, axes = pyplot.subplots(figsize=size, layout="constrained")
    axes.set_axisbelow(True)
    axes.set_xlabel(across)
    axes.set_ylabel(up, fontsize=9)
    for axis, most in ((axes.xaxis, _most_ticks(size)), (axes.yaxis, 8)):
        axis.set_major_locator(MaxNLocator(nbins=most, steps=[1, 2, 2.5, 5, 10]))
        axis.set_major_formatter(number_on_axis)
    if title:
        figure.suptitle(title, fontsize=9)
    return figure, axes


def _most_ticks(size) -> int:
    """A label has at most some 50 points of an axis."""
    return max(4, int(size[0] * 1.3))


def whole(axes, *names):
    """Ticks only at whole numbers, on the axes `x` or `y`."""
    from matplotlib.ticker import MaxNLocator

    for name in names:
        most = _most_ticks(axes.figure.get_size_inches()) if name == "x" else 8
        getattr(axes, f"{name}axis").set_major_locator(MaxNLocator(nbins=most, steps=[1, 2, 5, 10], integer=True))


def legend_above(axes):
    """Above the picture; a narrow one has two columns, so that a long legend isn't cut off."""
    columns = 4 if axes.figure.get_figwidth() > 6 else 2
    if axes.get_legend_handles_labels()[0]:
        axes.legend(loc="lower center", bbox_to_anchor=(0.5, 1), ncol=columns, frameon=False)


def save(figure, path, title=""):
    """Writes an SVG or a PNG, by the name; `path` may also be a text stream for the SVG. The title is in its metadata too."""
    from matplotlib import pyplot

    titled = {"Title": title} if title else {}
    if isinstance(path, (str, pathlib.Path)) and pathlib.Path(path).suffix.lower() == ".png":
        figure.savefig(path, format="png", dpi=DOTS_AN_INCH, metadata={**titled, "Software": None})
    else:
        drawn = io.StringIO()
        figure.savefig(drawn, format="svg", metadata={**titled, "Date": None, "Creator": None})
        if isinstance(path, io.StringIO):
            path.write(drawn.getvalue())
        else:
            pathlib.Path(path).write_text(with_dark(drawn.getvalue()), encoding="utf-8")
    pyplot.close(figure)


def with_dark(drawn: str) -> str:
    """The picture with a style for the dark: a viewer that knows no such style shows it light."""
    rules = [f'[style*="{kind}: {light}"] {{ {kind}: {dark} !important }}' for light, dark in DARK.items() for kind in ("fill", "stroke")]
    rules.append(f"text {{ fill: {DARK[INK]} !important }}")
    style = "\n".join(["@media (prefers-color-scheme: dark) {", *rules, "}"])
    return re.sub(r"(<svg[^>]*>)", lambda found: f"{found[1]}\n <style>\n{style}\n </style>", drawn, count=1)


def erases_by_block(blocks, path, title="", size=SIZE, endurance=None):
    """The erases of each block with the median and the middle half, and the line of the endurance if it is known: bars, or above some
    200 blocks a sorted curve. Those before the window that is reported are in grey below it."""
    bars = len(blocks) <= MOST_BARS
    figure, axes = new_axes("block" if bars else "blocks, from the least erased to the most", "erases", title, size)
    (_bars if bars else _sorted_curve)(axes, blocks)
    width = len(blocks) - 0.5
    _, first, median, third, most = spread([block.before + block.erases for block in blocks])
    axes.fill_between([-0.5, width], first, third, color=GOLD, alpha=0.35, zorder=3, label="middle half", linewidth=0)
    axes.axhline(median, color=GOLD, zorder=4, label="median")
    axes.set_xlim(-0.5, width)
    axes.set_ylim(0)
    whole(axes, "x", "y")
    if endurance is not None:
        _endurance(axes, endurance, most)
    legend_above(axes)
    save(figure, path, title)


def _endurance(axes, endurance, most):
    """The line that a block's life ends at; far above the erases its number alone, so that bars begin at 0 and can be compared."""
    if most < LEAST_SHARE * endurance:
        axes.plot([], [], linestyle="none", label=f"endurance {endurance:,}, far above")
    else:
        axes.axhline(endurance, color=RED, linestyle="--", zorder=4, label=f"endurance {endurance:,}")
        axes.set_ylim(0, endurance * 1.08)


def _bars(axes, blocks):
    before = [block.before for block in blocks]
    if any(before):
        axes.bar(range(len(blocks)), before, width=0.8, color=GREY, label="before these lines")
    for retired, colour, name in ((False, BLUE, "in use"), (True, RED, "retired")):
        numbers = [number for number, block in enumerate(blocks) if block.retired == retired]
        if numbers:
            erases, bottom = ([values[number] for number in numbers] for values in ([block.erases for block in blocks], before))
            axes.bar(numbers, erases, width=0.8, bottom=bottom, color=colour, label=name)


def _sorted_curve(axes, blocks):
    used = sorted((block.before + block.erases, block.before, block.retired) for block in blocks)
    whole_life, before = [row[0] for row in used], [row[1] for row in used]
    axes.fill_between(range(len(used)), before, whole_life, color=BLUE, alpha=0.2, linewidth=0)
    if any(before):
        axes.fill_between(range(len(used)), before, color=GREY, alpha=0.4, linewidth=0, label="before these lines")
    axes.plot(whole_life, color=BLUE, linewidth=1.5, label="each block")
    retired = [(place, erases) for place, (erases, _, is_retired) in enumerate(used) if is_retired]
    if retired:
        axes.plot(*zip(*retired), color=RED, linestyle="none", marker="o", markersize=4, label="retired", zorder=5)


def amplification_over_time(pieces, path, title="", size=SIZE):
    """A step for each part of the run, and the amplification of all so far."""
    figure, axes = new_axes(LINE, AMPLIFICATION, title, size)
    parts = [piece.write_amplification() for piece in pieces]
    _steps(axes, pieces, parts, "of each part")
    axes.plot([piece.line for piece in pieces], _drawn(over_time.so_far(pieces)), color=GOLD, linestyle="--", label="of all so far")
    room = 0.05 * (max([value for value in parts if value is not None], default=2) - 1) or 0.05
    axes.set_ylim(bottom=1 - min(room, 0.1))
    whole(axes, "x")
    legend_above(axes)
    save(figure, path, title)


def collections_over_time(pieces, path, title="", size=SIZE):
    """How often a line of each part of the run had to collect."""
    figure, axes = new_axes(LINE, "collections per 1,000 lines", title, size)
    _steps(axes, pieces, [1000 * piece.collections / (piece.line - piece.first + 1) for piece in pieces], "")
    axes.set_ylim(bottom=0)
    whole(axes, "x")
    save(figure, path, title)


def _steps(axes, pieces, values, name):
    edges = [pieces[0].first - 1 if pieces else 0, *(piece.line for piece in pieces)]
    axes.stairs(_drawn(values), edges, color=BLUE, baseline=None, linewidth=1.5, label=name)
    axes.set_xlim(edges[0], max(edges[0] + 1, edges[-1]))


def _drawn(values):
    return [float("nan") if value is None else value for value in values]


def live_pages_of_victims(counts, path, title="", size=SIZE):
    """How many victims had each number of live pages."""
    figure, axes = new_axes("live pages of the victim (all are copied)", "collections", title, size)
    axes.bar(*zip(*counts) if counts else ([], []), width=0.9, color=BLUE)
    axes.set_xlim((counts[0][0] if counts else 0) - 0.6, (counts[-1][0] if counts else 1) + 0.6)
    axes.set_ylim(bottom=0)
    whole(axes, "x", "y")
    save(figure, path, title)


def lines_of_a_sweep(series, across, up, path, curves=(), title="", up_log=False, size=SIZE):
    """A line of dots for each series, a list of name and points; and curves, each with its name, points and style of line."""
    figure, axes = new_axes(across, up, title, size)
    for (name, points), colour in zip(series, cycle_of(COLOURS, len(series))):
        style = {"linestyle": "none"} if curves else {}
        axes.plot(*zip(*points), color=RED if curves else colour, marker="o", markersize=4, label=name, zorder=3, **style)
    for (name, points, style), colour in zip(curves, (BLUE, GOLD)):
        axes.plot(*zip(*points), color=colour, linestyle=style, label=name)
    if all(x == int(x) for _, points in series for x, _ in points):
        whole(axes, "x")
    if up_log:
        axes.set_yscale("log")
        _plain_numbers(axes.yaxis)
    elif all(y == int(y) for _, points in series for _, y in points):
        whole(axes, "y")
    if any(name for name, _ in series):
        legend_above(axes)
    save(figure, path, title)


def cycle_of(colours, count):
    return [colours[place % len(colours)] for place in range(count)]


TAIL = "share that takes longer"
RESPONSE = "latency"
MICROSECONDS_ON_AXIS = ((1e6, "s"), (1e3, "ms"), (1, "µs"))


def time_on_axis(value, _=None) -> str:
    """Microseconds in a unit that fits."""
    for unit, name in MICROSECONDS_ON_AXIS:
        if value >= unit:
            return f"{round(value / unit, 9):,.10g} {name}"
    return f"{round(value, 9):,.10g} µs"


def response_tails(tails, path, title="", size=SIZE):
    """The share of requests whose response is longer than a time, by the time: a step curve for each group with its points."""
    figure, axes = new_axes(RESPONSE, TAIL, title, size)
    for (name, points), colour in zip(tails, cycle_of(COLOURS, len(tails))):
        seen = [(time, share) for time, share in points if share > 0]
        if points:
            # The longest response ends its curve at the smallest share.
            ended = [(points[-1][0], seen[-1][1])] if seen else [(points[-1][0], 1.0)]
            axes.plot(*zip(*[(points[0][0], 1.0), *seen, *ended]), color=colour, drawstyle="steps-post", label=name)
    axes.set_xscale("log")
    axes.set_yscale("log")
    _plain_numbers(axes.xaxis, time_on_axis)
    axes.yaxis.set_major_formatter(lambda value, _: f"{round(100 * value, 9):,.10g} %")
    axes.set_ylim(top=1.5)
    legend_above(axes)
    save(figure, path, title)


def response_over_time(parts, timed, path, title="", size=SIZE):
    """The longest and the mean response of each part of a run; parts with collections are marked at the bottom."""
    figure, axes = new_axes("time (s)" if timed else LINE, RESPONSE, title, size)
    places = [part.place for part in parts]
    for name, colour, values in (("longest", BLUE, [part.longest for part in parts]), ("mean", GOLD, [part.mean for part in parts])):
        axes.plot(places, [value or float("nan") for value in values], color=colour, linewidth=1.2, label=name)
    axes.set_yscale("log")
    _plain_numbers(axes.yaxis, time_on_axis)
    marked = [part.place for part in parts if part.collections]
    if marked:
        style = {"color": RED, "linestyle": "none", "marker": "|", "markersize": 7}
        axes.plot(marked, [0.012] * len(marked), transform=axes.get_xaxis_transform(), label="collections", **style)
    legend_above(axes)
    save(figure, path, title)


def _plain_numbers(axis, form=number_on_axis):
    """A logarithmic axis with its numbers written out; with less than two powers of ten on it, other numbers too."""
    from matplotlib.ticker import LogLocator, NullFormatter

    axis.set_major_formatter(form)
    least, most = axis.get_view_interval()
    axis.set_major_locator(LogLocator(subs=(1, 2, 5) if most < 100 * least else (1,), numticks=6))
    axis.set_minor_formatter(NullFormatter())
