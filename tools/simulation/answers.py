"""The answers of a run of `flashplay`: the kind of each line, and the totals."""

import binascii
from array import array
from dataclasses import dataclass, field

from .device import IMAGE_RANGES, RANGES
from .faults import BROKEN, Fault, LineFault
from .lines import number_in, numbered_lines, shown

# What a line did, by its op and its answer: all that its time depends on. A read may also return a page.
PAIRS = (
    "read data", "read empty", "write empty", "write written", "write worn", "write full", "new empty", "new written", "new worn", "new full",
    "trim empty", "trim written", "meet met",
)  # fmt: skip
KINDS = {tuple(pair.encode().split()): kind for kind, pair in enumerate(PAIRS)}
OPS = {op for op, _ in KINDS}
READ_DATA, READ_EMPTY, FIRST_WRITE, LAST_WRITE, MEET = (PAIRS.index(pair) for pair in ("read data", "read empty", "write empty", "new full", "meet met"))
TRIM_WRITTEN = PAIRS.index("trim written")
# A `new` of a written sector changes nothing.
DONE = tuple(PAIRS.index(pair) for pair in ("write empty", "write written", "new empty"))
REFUSED = tuple(PAIRS.index(pair) for pair in ("write worn", "write full", "new worn", "new full"))
# The totals of a run by one thread; a run by workers ends with only the first of these words.
TOTALS = (b"end", b"programs", b"copies", b"erases")
MOST_COPIES_OF_AN_ERASE = RANGES["pages"].most


@dataclass
class Answers:
    """The kind of each line after the first `before` ones; the sector of each line of the run; and the totals of these lines, if they are known."""

    kinds: bytearray = field(default_factory=bytearray)
    sectors: array = field(default_factory=lambda: array("I"))
    before: int = 0
    page_bytes: int | None = None
    quiet: bool = False
    programs: int | None = None
    copies: int | None = None
    erases: int | None = None

    @property
    def lines(self) -> int:
        return len(self.kinds)

    @property
    def last(self) -> int:
        """The number of the last line."""
        return self.before + len(self.kinds)

    def count(self, *pairs: str) -> int:
        return sum(self.kinds.count(PAIRS.index(pair)) for pair in pairs)

    def accepted_writes(self) -> int:
        return sum(map(self.kinds.count, DONE))

    def refused_writes(self) -> int:
        return sum(map(self.kinds.count, REFUSED))

    def first_refused(self) -> int | None:
        """The number of the first line that was refused."""
        found = [place for place in map(self.kinds.find, REFUSED) if place >= 0]
        return self.before + 1 + min(found) if found else None

    def programs_at(self, line: int) -> bool:
        """Whether a line, counted from 1, is a write that was done."""
        return self.before < line <= self.last and self.kinds[line - 1 - self.before] in DONE

    def programs_within(self, before: int, end: int) -> int:
        """The writes that were done after line `before`, up to line `end`."""
        return sum(self.kinds.count(kind, before - self.before, end - self.before) for kind in DONE)

    def write_amplification(self) -> float | None:
        """Pages programmed, for writes and for copies, divided by the pages programmed for writes."""
        return (self.programs + self.copies) / self.programs if self.programs else None


def read_answers(source) -> Answers:
    """Reads the answers of a whole run, and counts them. They may be only the last line."""
    answers = Answers()
    ended = False
    for number, line in numbered_lines(source):
        if ended:
            raise LineFault(number, "the run has ended with the line before")
        if line.startswith(b"end"):
            _end(answers, number, line)
            ended = True
        else:
            answers.kinds.append(_kind(answers, number, line))
    if not ended:
        raise Fault(f"the answers don't end with a line `end`: they are cut short after line {answers.lines}", BROKEN)
    return answers


def _kind(answers: Answers, number: int, line: bytes) -> int:
    fields = line.split(b",")
    if len(fields) != 4:
        raise LineFault(number, f"an answer has 4 fields, and this line {len(fields)}")
    counted, op, sector, answer = fields
    if number_in(counted, number, "line number") != number:
        raise LineFault(number, f"it is counted as line {counted.decode()}")
    if op not in OPS:
        raise LineFault(number, f"{shown(op)} isn't an op")
    # The last sector has a number below that of all sectors.
    answers.sectors.append(number_in(sector, number, "sector"))
    if answers.sectors[-1] >= IMAGE_RANGES["sectors"].most:
        raise LineFault(number, f"the sector {int(sector):,} isn't one of the {IMAGE_RANGES['sectors'].most:,} that a device may have")
    kind = KINDS.get((op, answer))
    return _page(answers, number, op, answer) if kind is None or kind == READ_DATA else kind


def _page(answers: Answers, number: int, op: bytes, digits: bytes) -> int:
    try:
        page = binascii.unhexlify(digits)
    except binascii.Error:
        page = b""
    if op != b"read" or not page or len(page) % 8:
        raise LineFault(number, f"{shown(digits)} isn't an answer of a {op.decode()}")
    if answers.page_bytes is None:
        answers.page_bytes = len(page)
    if len(page) != answers.page_bytes:
        raise LineFault(number, f"a page of {len(page)} bytes, but others have {answers.page_bytes}")
    return READ_DATA


def _end(answers: Answers, number: int, line: bytes):
    fields = line.split(b",")
    if fields[0] != b"end" or len(fields) not in (1, len(TOTALS)):
        raise LineFault(number, f"{shown(line)} isn't a last line")
    if len(fields) == 1:
        return
    names = (name.decode() for name in TOTALS[1:])
    answers.programs, answers.copies, answers.erases = (number_in(text, number, name) for text, name in zip(fields[1:], names))
    answers.quiet = answers.lines == 0 and answers.programs > 0
    # On an image a trim of a written sector programs a page, too.
    writes = answers.accepted_writes()
    if not answers.quiet and answers.programs not in (writes, writes + answers.count("trim written")):
        raise LineFault(number, f"{answers.programs:,} programs, where {writes:,} writes were accepted")
    # A write erases one block at most, and before that copies the pages of that block.
    if answers.erases > answers.programs or answers.copies > answers.erases * MOST_COPIES_OF_AN_ERASE:
        raise LineFault(number, f"no run has {answers.copies:,} copies and {answers.erases:,} erases for {answers.programs:,} programs")
