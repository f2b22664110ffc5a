"""The device and the trace of a run, as a report shows them."""

import pathlib

from . import collected, device
from .faults import BROKEN, Fault


def printable(text: str) -> str:
    """A name from the command line as a page shows it: whatever the locale is, its bytes are read as UTF-8."""
    return text.encode("utf-8", "surrogateescape").decode("utf-8", "replace")


def title_of(options, blocks) -> str:
    """The device as far as it is known, and the trace."""
    if device.is_named(options):
        played_on = device.shown(device.numbers_of(options))
    else:
        played_on = f"{len(blocks):,} blocks" if blocks else ""
    trace = printable(pathlib.Path(options.trace).name) if options.trace else ""
    return " · ".join(text for text in (played_on, trace) if text)


def check_device(options, answers, blocks, log):
    """Checks that the device of the options is that of the files, as far as they show it."""
    if not device.is_named(options):
        return
    numbers = device.numbers_of(options)
    if blocks is not None and len(blocks) != numbers["blocks"]:
        raise Fault(f"the wear file has {len(blocks):,} blocks, and the device of the options has {numbers['blocks']:,}", BROKEN)
    if answers.page_bytes not in (None, 8 * numbers["words"]):
        raise Fault(f"the reads show pages of {answers.page_bytes:,} bytes, and the device of the options has {8 * numbers['words']:,}", BROKEN)
    if isinstance(log, collected.Collections) and len(log):
        if max(log.victims) >= numbers["blocks"] or max(log.copied) >= numbers["pages"] or max(log.erases) > numbers["endurance"]:
            raise Fault("the log has a victim that the device of the options can't have", BROKEN)
