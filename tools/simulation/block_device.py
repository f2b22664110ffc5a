"""The counts of a block device, as the nbdkit plugin writes them with stats=FILE."""

from dataclasses import dataclass

from . import life, wear
from .answers import read_answers
from .device import RANGES
from .faults import BROKEN, Fault, LineFault
from .lines import number_in, numbered_lines, shown
from .numbers import COUNT, Number
from .summary import GIGABYTE, SPREAD
from .wear import Block, spread

HEAD, BLOCKS = b"name,number", b"block,erases,retired"
# Without these there is nothing to report.
WANTED = ("blocks", "pages", "page_bytes", "endurance", "programs", "copies", "erases", "free_blocks", "retired_blocks", "waits", "waited_ms", "no_space")
RANGES_OF_COUNTS = {**{name: RANGES[name] for name in ("blocks", "pages", "endurance")}, "page_bytes": Number(1, 8 * RANGES["words"].most)}
FIELDS = {name: wanted for name, wanted in wear.FIELDS.items() if name != "live pages"}


@dataclass
class DeviceCounts:
    """The numbers by their names, and the blocks in their order. How many pages of a block are live isn't known."""

    numbers: dict
    blocks: list

    def __getattr__(self, name):
        return self.numbers[name]

    @property
    def write_amplification(self):
        return (self.programs + self.copies) / self.programs if self.programs else None

    @property
    def erases_per_gigabyte(self):
        written = self.programs * self.page_bytes
        return self.erases * GIGABYTE / written if written else None

    @property
    def share_of_endurance(self):
        """The share of all possible programs that were done."""
        return (self.programs + self.copies) / (self.numbers["blocks"] * self.pages * self.endurance)

    @property
    def life(self):
        written = self.programs * self.page_bytes
        erases = [block.erases for block in self.blocks]
        return life.life_of(erases, self.endurance, self.pages, self.page_bytes, written, self.write_amplification, self.retired_blocks)


def read_counts_or_answers(source):
    """The counts if the text begins like them, and otherwise the answers of a run."""
    return read_counts(source) if source.peek(len(HEAD))[: len(HEAD)] == HEAD else read_answers(source)


def read_counts(source):
    lines = numbered_lines(source)
    next(lines)
    counts = DeviceCounts({}, [])
    for number, line in lines:
        if line == BLOCKS:
            break
        name, _, value = line.partition(b",")
        if not name.decode("ascii", "replace").isidentifier():
            raise LineFault(number, f"{shown(name)} isn't the name of a count")
        counts.numbers[name.decode()] = number_in(value, number, name.decode(), RANGES_OF_COUNTS.get(name.decode(), COUNT))
    counts.blocks.extend(_block(number, line, len(counts.blocks)) for number, line in lines)
    _check(counts)
    return counts


def _block(number, line, wanted):
    fields = line.split(b",")
    if len(fields) != 3:
        raise LineFault(number, f"a block has 3 fields, and this line {len(fields)}")
    block, erases, retired = (number_in(text, number, name, wanted) for text, (name, wanted) in zip(fields, FIELDS.items()))
    if block != wanted:
        raise LineFault(number, f"block {wanted} is expected here")
    return Block(erases, 0, retired == 1)


def _check(counts):
    missing = [name for name in WANTED if name not in counts.numbers]
    if missing:
        raise Fault(f"the counts lack {', '.join(missing)}", BROKEN)
    if len(counts.blocks) != counts.numbers["blocks"]:
        raise Fault(f"the counts are cut short: {len(counts.blocks):,} of {counts.numbers['blocks']:,} blocks", BROKEN)
    if sum(block.erases for block in counts.blocks) != counts.erases:
        raise Fault("the blocks' erases aren't the erases of the device", BROKEN)
    if (counts.copies or counts.erases) and not counts.programs:
        raise Fault(f"{counts.copies:,} copies and {counts.erases:,} erases, where nothing was written", BROKEN)


def as_object(counts):
    """One flat object: the counts by their own names, and what follows from them."""
    erases = spread([block.erases for block in counts.blocks])
    further = {name: getattr(counts, name) for name in ("write_amplification", "erases_per_gigabyte", "share_of_endurance")}
    return {**counts.numbers, **life.as_object(counts.life), **further, **{f"erases_{name}": number for name, number in zip(SPREAD, erases)}}


def as_rows(counts):
    least, *quartiles, most = spread([block.erases for block in counts.blocks])
    amplification = "nothing was written"
    if counts.programs:
        amplification = f"{counts.write_amplification:.3f} ({counts.programs:,} pages written, {counts.copies:,} copied)"
    gigabyte = f", {counts.erases_per_gigabyte:,.1f} per gigabyte written (pages of {counts.page_bytes:,} bytes)" if counts.programs else ""
    refused = f"REFUSED: {counts.no_space:,} writes" if counts.no_space else "no write was refused"
    return [
        ("run", f"since the device was opened; {refused}"),
        ("write amplification", amplification),
        ("erases", f"{counts.erases:,}{gigabyte}"),
        ("erases of a block", f"least {least:,g}, quartiles {' '.join(f'{number:,g}' for number in quartiles)}, most {most:,g}"),
        ("blocks", f"{counts.numbers['blocks']:,}, {counts.free_blocks:,} of them free, {counts.retired_blocks:,} retired"),
        ("of all programs", f"{100 * counts.share_of_endurance:.2f} % are done"),
        *life.as_rows(counts.life, counts.retired_blocks, life.SHARED),
        ("waits for a block", f"{counts.waits:,}, {counts.waited_ms:,} ms in all; {counts.no_space:,} writes refused"),
    ]


def title_of(counts):
    return f"{counts.numbers['blocks']:,} blocks of {counts.pages:,} pages of {counts.page_bytes:,} bytes"
