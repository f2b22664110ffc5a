"""The wear of a device's blocks, as `flashplay --wear` writes it."""

import collections
import statistics
from dataclasses import dataclass

from .device import IMAGE_RANGES, RANGES
from .faults import BROKEN, Fault, LineFault
from .lines import number_in, numbered_lines
from .numbers import Number

HEAD = b"block,erases,live,retired"
FIELDS = {
    "block": Number(0, IMAGE_RANGES["blocks"].most - 1),
    "erases": Number(0, RANGES["endurance"].most),
    "live pages": Number(0, RANGES["pages"].most),
    "mark (1 of a retired block, 0 of another)": Number(0, 1),
}


@dataclass(slots=True)
class Block:
    """The erases are those of the window that is reported, behind those `before` it."""

    erases: int
    live: int
    retired: bool
    before: int = 0


def read_wear(source):
    """The blocks in their order."""
    lines = numbered_lines(source)
    number, head = next(lines, (1, b""))
    if head != HEAD:
        raise LineFault(number, f"a wear file begins with `{HEAD.decode()}`")
    blocks = [_block(number, line, number - 2) for number, line in lines]
    if not blocks:
        raise Fault("the wear file has no blocks", BROKEN)
    return blocks


def _block(number, line, wanted):
    fields = line.split(b",")
    if len(fields) != 4:
        raise LineFault(number, f"a block has 4 fields, and this line {len(fields)}")
    block, erases, live, retired = (number_in(text, number, name, wanted) for text, (name, wanted) in zip(fields, FIELDS.items()))
    if block != wanted:
        raise LineFault(number, f"block {wanted} is expected here")
    return Block(erases, live, retired == 1)


def within(blocks: list, log) -> list:
    """The blocks with the erases of a window: as often as the log has each as a victim."""
    counts = collections.Counter(log.victims)
    if counts and max(counts) >= len(blocks) or any(counts[number] > block.erases for number, block in enumerate(blocks)):
        raise Fault("the log erases blocks more often than the wear file says: they are of two runs", BROKEN)
    return [Block(counts[number], block.live, block.retired, block.erases - counts[number]) for number, block in enumerate(blocks)]


def since(blocks: list, before: list) -> list:
    """The blocks with the erases since another wear of the same device."""
    if len(blocks) != len(before) or any(block.erases < early.erases for block, early in zip(blocks, before)):
        raise Fault("the wear before the run has other blocks, or more erases: it is of another device", BROKEN)
    return [Block(block.erases - early.erases, block.live, block.retired, early.erases) for block, early in zip(blocks, before)]


def spread(numbers):
    """The least, the quartiles and the most of some numbers."""
    if len(numbers) == 1:
        return (numbers[0],) * 5
    return (min(numbers), *statistics.quantiles(numbers, method="inclusive"), max(numbers))
