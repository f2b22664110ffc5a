"""A model of the layer for one thread, written from its description and not from the program: blocks are taken from the lowest,
the last block is the spare, and if no block is left the closed block with the fewest live pages is copied into the spare. By another policy than
that of the layer, `greedy`, another block is the victim."""

import csv
import io
import re
from dataclasses import dataclass, field

from .device import MOST_WORDS, RANGES
from .faults import ARGUMENTS, Fault, LineFault
from .numbers import TRACE_BYTES, Number

# What docs/FORMATS.md says of traces and devices.
WORKERS = 500
POLICIES = ("greedy", "oldest", "cost-benefit")
OPS = ("read", "write", "new", "trim", "meet")
# What the program reads as a number of a device, before it says that no device has it.
ARGUMENT = Number(0, 4_294_967_295)
BYTE_ORDER_MARK = b"\xef\xbb\xbf"


@dataclass
class Block:
    """The sectors for which its pages were programmed, in order, and how many of the pages are live."""

    written: list = field(default_factory=list)
    live: int = 0
    erases: int = 0
    retired: bool = False
    closed: int = 0
    changed: int = 0


@dataclass
class Collection:
    line: int
    victim: int
    copied: int
    copybacks: int
    erases: int
    outcome: str


class Model:
    def __init__(self, luns, blocks, pages, words, sectors, endurance, victims="greedy"):
        self.pages, self.words, self.sectors, self.endurance = pages, words, sectors, endurance
        self.blocks_of_a_lun = blocks // luns
        self.blocks = [Block() for _ in range(blocks)]
        self.unused = list(range(blocks - 1))
        self.spare = blocks - 1
        self.open = None
        self.closed = set()
        self.places = [None] * sectors
        self.data = {}
        self.programs = self.copies = self.clock = 0
        self.worth = {"greedy": self._fewest_live, "oldest": self._oldest, "cost-benefit": self._cost_benefit}[victims]
        self.collections = []

    def answer(self, line, op, sector, data):
        """The answer of a line."""
        if op == "meet":
            return "met"
        was = "empty" if self.places[sector] is None else "written"
        if op == "read":
            return self.data[sector].ljust(16 * self.words, "0").lower() if was == "written" else "empty"
        if op == "trim":
            self._forget(sector)
            return was
        if op == "new" and was == "written":
            return was
        if not self._finds_a_page(line):
            return "worn"
        self._program(self.open, sector)
        self.programs += 1
        self.data[sector] = data
        if len(self.blocks[self.open].written) == self.pages:
            self.blocks[self.open].closed = self.clock
            self.closed.add(self.open)
            self.open = None
        return was

    def _forget(self, sector):
        if self.places[sector] is not None:
            block = self.blocks[self.places[sector][0]]
            block.live -= 1
            block.changed = self.clock
        self.places[sector] = None

    def _program(self, block, sector):
        self._forget(sector)
        self.places[sector] = block, len(self.blocks[block].written)
        self.blocks[block].written.append(sector)
        self.blocks[block].live += 1
        self.clock += 1
        self.blocks[block].changed = self.clock

    def _fewest_live(self, number):
        return self.blocks[number].live, number

    def _oldest(self, number):
        """The block that was filled first, of those with a dead page."""
        return self.blocks[number].live == self.pages, self.blocks[number].closed

    def _cost_benefit(self, number):
        """The greatest gain, times the age since its last change, for what it costs to read and copy (Kawaguchi, Nishioka and Motoda, 1995)."""
        block = self.blocks[number]
        used = block.live / self.pages
        gain = (self.clock - block.changed) * (1 - used) / (2 * used) if used else float("inf")
        return used == 1, -gain, number

    def _finds_a_page(self, line):
        if self.open is None and self.unused:
            self.open = self.unused.pop(0)
        elif self.open is None and self.spare is not None:
            self._collect(line)
        return self.open is not None

    def _collect(self, line):
        victim = min(self.closed, key=self.worth)
        block, into = self.blocks[victim], self.spare
        alive = [sector for page, sector in enumerate(block.written) if self.places[sector] == (victim, page)]
        for sector in alive:
            self._program(into, sector)
        self.copies += len(alive)
        block.erases += 1
        block.written = []
        block.retired = block.erases == self.endurance
        one_lun = victim // self.blocks_of_a_lun == into // self.blocks_of_a_lun
        outcome = "retired" if block.retired else "freed"
        self.collections.append(Collection(line, victim, len(alive), len(alive) if one_lun else 0, block.erases, outcome))
        self.closed.remove(victim)
        self.open = into
        self.spare = None if block.retired else victim

    def play(self, trace):
        """The answers of a trace, line by line, as text. The whole trace is checked first: one with a fault has no answers."""
        for _ in self.commands(trace):
            pass
        for line, (op, sector, data) in enumerate(self.commands(trace), 1):
            yield f"{line},{op},{sector},{self.answer(line, op, sector, data)}\n"
        yield self.end()

    def commands(self, trace):
        """The op, sector and data of each record of a trace."""
        csv.field_size_limit(TRACE_BYTES)
        text = io.TextIOWrapper(io.BytesIO(trace.removeprefix(BYTE_ORDER_MARK)), encoding="latin-1", newline="")
        for line, record in enumerate((record for record in csv.reader(text) if record), 1):
            if kind := self._fault_of(record):
                raise LineFault(line, kind)
            yield record[1], int(record[2]), record[3]

    def _fault_of(self, record):
        """The first rule that a record breaks, or None."""
        if len(record) != 4:
            return "Fields"
        worker, op, sector, data = record
        if not _is_number(worker, WORKERS):
            return "Worker"
        if op not in OPS:
            return "Op"
        if not _is_number(sector, self.sectors):
            return "Sector"
        if op in ("write", "new"):
            if not re.fullmatch("([0-9a-fA-F]{2})*", data):
                return "Hex"
            return "TooLong" if len(data) > 16 * self.words else None
        return "Unused" if data or op == "meet" and (int(worker), int(sector)) != (0, 0) else None

    def end(self):
        return f"end,{self.programs},{self.copies},{sum(block.erases for block in self.blocks)}\n"

    def wear(self):
        rows = (f"{number},{block.erases},{block.live},{int(block.retired)}\n" for number, block in enumerate(self.blocks))
        return "block,erases,live,retired\n" + "".join(rows)

    def log(self):
        rows = (f"{c.line},{c.victim},{c.copied},{c.copybacks},{c.erases},{c.outcome}\n" for c in self.collections)
        return "line,victim,copied,copybacks,erases,outcome\n" + "".join(rows)


def _is_number(text, above):
    return re.fullmatch("[0-9]{1,7}", text) is not None and int(text) < above


def check(device):
    """Refuses numbers that make no device."""
    luns, blocks, pages, words, sectors, _ = (device[name] for name in RANGES)
    for name, wanted in RANGES.items():
        if device[name] not in wanted or name == "blocks" and blocks % luns:
            raise Fault(f"geometry: {name.capitalize()}", ARGUMENTS)
    if sectors + blocks + blocks * pages * (words + 1) > MOST_WORDS:
        raise Fault("geometry: TooManyWords", ARGUMENTS)
    if sectors >= (blocks - 1) * pages:
        raise Fault("geometry: TooFewBlocks", ARGUMENTS)
