"""The options of a report, and the pictures that it draws."""

import argparse

from . import collected, device, names, over_time, part, pictures, response_shapes
from .faults import ARGUMENTS, Fault
from .latency import overload
from .numbers import CLIENTS, LINE, PAGE_BYTES, PIECES, SPEED
from .run import Run

# Each picture, the file that it needs, and what it shows.
PICTURES = {
    "erases_picture": ("wear", "the erases by block"),
    "amplification_picture": ("collections", "the write amplification over time"),
    "collections_picture": ("collections", "the collections by time"),
    "victims_picture": ("collections", "how many live pages the victims had"),
    "response_picture": ("part", "how the response times of reads and writes are distributed"),
    "response_over_time_picture": ("part", "the response times over time, with the collections"),
}


def new_parser(about: str):
    shape = argparse.RawDescriptionHelpFormatter
    parser = argparse.ArgumentParser(names.own(), "%(prog)s ANSWERS [options]", names.of_tools(about), formatter_class=shape)
    names.add_version(parser)
    parser.add_argument("answers", metavar="ANSWERS", help="the answers of a run, or - for standard input")
    parser.add_argument("--json", action="store_true", help="print one JSON object with flat keys instead of the text")
    parser.add_argument("--wear", metavar="FILE", help="the wear file of the same run")
    before = "the wear before the run, of a device in a file that was used before: the erases are those since then"
    parser.add_argument("--wear-before", metavar="FILE", help=before)
    parser.add_argument("--collections", metavar="FILE", help="the log of collections of the same run")
    size = "the bytes of a page, for bytes written and erases per gigabyte (the size of the pages that reads returned)"
    parser.add_argument("--page-bytes", type=PAGE_BYTES, metavar="N", help=size)
    parser.add_argument("--pieces", type=PIECES, default=40, metavar="N", help="how many parts of a run a picture over time shows (40)")
    add_window(parser)
    timed = parser.add_argument_group("response times")
    part.add_options(timed)
    timed.add_argument("--arrivals", metavar="FILE", help=names.of_tools("the arrival of each line, as tools/trace writes it"))
    timed.add_argument("--requests", metavar="FILE", help=names.of_tools("the request of each line, as tools/trace writes it"))
    timed.add_argument("--clients", type=CLIENTS, metavar="N", help="without arrivals: N clients, each with its next request when its last one is done")
    timed.add_argument("--speed", type=SPEED, default=1.0, metavar="X", help="make the arrivals X times as fast (1)")
    parser.add_argument("--page", metavar="HTML", help="write one HTML page with everything that is known of the run")
    made_by = "a command line for the page, such as the trace's; may be repeated"
    parser.add_argument("--made-by", action="append", default=[], metavar="LINE", help=made_by)
    for name, (wanted, what) in PICTURES.items():
        parser.add_argument(f"--{name.replace('_', '-')}", metavar="PICTURE", help=f"draw {what}; needs --{wanted}")
    titled = parser.add_argument_group("for the titles, the queues of several LUNs, and the life of the device")
    titled.add_argument("--trace", metavar="FILE", help="the trace of the run")
    device.add_options(titled, device.IMAGE_RANGES)
    return parser


def add_window(parser):
    """The lines that everything is reported of."""
    window = parser.add_mutually_exclusive_group()
    window.add_argument("--from-line", type=LINE, default=1, metavar="N", help="report of the lines from this one on, and of nothing before it (1)")
    mark = names.of_tools("report of the lines behind a precondition, by the mark that tools/trace join writes")
    window.add_argument("--from-mark", metavar="FILE", help=mark)


def parse(about: str, words: list):
    parser = new_parser(about)
    options = parser.parse_args(words)
    options.call = words
    for name, (wanted, _) in PICTURES.items():
        if getattr(options, name):
            if name != "erases_picture" and not (part.is_named(options) if wanted == "part" else getattr(options, wanted)):
                parser.error(f"--{name.replace('_', '-')} needs --{wanted}")
            pictures.check_name(getattr(options, name))
    if options.wear_before and (not options.wear or options.from_line > 1 or options.from_mark):
        parser.error("--wear-before needs --wear, and is of a whole run")
    if part.is_named(options) and not options.collections:
        parser.error("response times need --collections")
    for name in ("arrivals", "requests", "clients"):
        if getattr(options, name) and not part.is_named(options):
            parser.error(f"--{name} needs the times of a part")
    if options.clients and (options.arrivals or options.speed != 1):
        parser.error("--clients make their requests without --arrivals and --speed")
    if device.is_named(options):
        # With a log of collections it is a device in memory.
        device.check(device.numbers_of(options), shared=True, ranges=device.RANGES if options.collections else device.IMAGE_RANGES)
    return options


def wants_pictures(options) -> bool:
    return bool(options.page) or any(getattr(options, name) for name in PICTURES)


def check_pictures(options, run: Run):
    """Pictures that the files of this run don't show."""
    if options.erases_picture and run.blocks is None:
        raise Fault("--erases-picture needs --wear", ARGUMENTS)
    drawn = [name for name, (wanted, _) in PICTURES.items() if wanted == "collections" and getattr(options, name)]
    if drawn and not isinstance(run.log, collected.Collections):
        raise Fault("the log is of brooms, and has no single collections: pictures of collections need a run by one thread", ARGUMENTS)


def draw(options, run: Run):
    """Draws the pictures; one of response times that there are none of is refused, behind the others."""
    _draw_run(options, run)
    first = run.answers.before + 1
    if options.response_over_time_picture:
        parts = response_shapes.over_time(run.response, first)
        pictures.response_over_time(parts, run.response.timed, options.response_over_time_picture, run.title)
    if options.response_picture:
        if told := overload(run.responses):
            raise Fault(f"{options.response_picture} isn't drawn: {told}")
        tails = [(group, response_shapes.tail(run.response.response()[run.response.of(group)])) for group in ("reads", "writes")]
        pictures.response_tails(tails, options.response_picture, run.title)


def _draw_run(options, run: Run):
    if options.erases_picture:
        pictures.erases_by_block(run.blocks, options.erases_picture, run.title, endurance=run.life.endurance if run.life else None)
    if options.victims_picture:
        pictures.live_pages_of_victims(collected.live_pages(run.log), options.victims_picture, run.title)
    drawn = {options.amplification_picture: pictures.amplification_over_time, options.collections_picture: pictures.collections_over_time}
    for path, draw_pieces in drawn.items():
        if path:
            draw_pieces(over_time.in_pieces(run.answers, run.log, options.pieces), path, run.title)
