"""The log of collections of a run by one thread, as `flashplay --collections` writes it; or what each broom of a run by workers did."""

import bisect
from array import array
from dataclasses import dataclass, field, fields, replace

from .device import RANGES
from .faults import BROKEN, Fault, LineFault
from .lines import number_in, numbered_lines, shown
from .numbers import LINE, Number

HEAD = b"line,victim,copied,copybacks,erases,outcome"
BROOMS_HEAD = b"broom,drained,moved,programmed,erased,kept,retired,lost,pinned,stale,idle"
FREED, RETIRED = b"freed", b"retired"
FIELDS = {
    "line": LINE,
    "victim": Number(0, RANGES["blocks"].most - 1),
    "copied": Number(0, RANGES["pages"].most),
    "copybacks": Number(0, RANGES["pages"].most),
    "erases": Number(0, RANGES["endurance"].most),
}


def _column() -> array:
    return array("Q")


@dataclass
class Collections:
    """A run's collections in their order, a column for each field."""

    lines: array = field(default_factory=_column)
    victims: array = field(default_factory=_column)
    copied: array = field(default_factory=_column)
    copybacks: array = field(default_factory=_column)
    erases: array = field(default_factory=_column)
    retired: bool = False

    def __len__(self) -> int:
        return len(self.lines)

    def from_line(self, first: int) -> "Collections":
        """The collections at a line or behind it."""
        place = bisect.bisect_left(self.lines, first)
        return Collections(*(getattr(self, column.name)[place:] for column in fields(self)[:-1]), retired=self.retired)


@dataclass
class Broom:
    """What a broom did; idle are its turns with nothing to gain."""

    drained: int
    moved: int
    programmed: int
    erased: int
    kept: int
    retired: int
    lost: int
    pinned: int
    stale: int
    idle: int


COUNTS = tuple(column.name for column in fields(Broom))


def read_log(source) -> "Collections | list[Broom]":
    """The collections, or the brooms: the head says which."""
    lines = numbered_lines(source)
    number, head = next(lines, (1, b""))
    if head == HEAD:
        return _collections(lines)
    if head == BROOMS_HEAD:
        return [_broom(number, line, number - 2) for number, line in lines]
    raise LineFault(number, f"a log of collections begins with `{HEAD.decode()}`")


def _collections(lines) -> Collections:
    log = Collections()
    for number, line in lines:
        _add(log, number, line)
    return log


def _add(log: Collections, number: int, line: bytes):
    parts = line.split(b",")
    if len(parts) != 6:
        raise LineFault(number, f"a collection has 6 fields, and this line has {len(parts)}")
    *parts, outcome = parts
    cause, victim, copied, copybacks, erases = (number_in(text, number, name, wanted) for text, (name, wanted) in zip(parts, FIELDS.items()))
    if log.retired:
        raise LineFault(number, "a collection after the one that retired its victim, which left no spare")
    if log.lines and cause <= log.lines[-1]:
        raise LineFault(number, f"a collection at line {cause:,} of the trace after one at line {log.lines[-1]:,}")
    if copybacks > copied or not erases:
        raise LineFault(number, "more copybacks than copies" if erases else "a victim that wasn't erased")
    if outcome not in (FREED, RETIRED):
        raise LineFault(number, f"{shown(outcome)} is neither freed nor retired")
    log.lines.append(cause)
    log.victims.append(victim)
    log.copied.append(copied)
    log.copybacks.append(copybacks)
    log.erases.append(erases)
    log.retired = outcome == RETIRED


def _broom(number: int, line: bytes, wanted: int) -> Broom:
    parts = line.split(b",")
    if len(parts) != 1 + len(COUNTS):
        raise LineFault(number, f"a broom's line has {1 + len(COUNTS)} fields, and this one has {len(parts)}")
    broom, *counts = (number_in(text, number, name) for text, name in zip(parts, BROOMS_HEAD.decode().split(",")))
    if broom != wanted:
        raise LineFault(number, f"this line should be that of broom {wanted}")
    found = Broom(*counts)
    if found.moved > found.programmed:
        raise LineFault(number, "more pages moved than programmed")
    return found


def check(log: Collections, answers):
    """Checks that a log belongs to the answers: each collection is at a write that was done, and their sums are the totals."""
    copied, erased = sum(log.copied), len(log)
    if (answers.copies, answers.erases) != (copied, erased):
        totals = f"{_total(answers.erases)} and {_total(answers.copies)}"
        raise Fault(f"the log has {erased:,} erases and {copied:,} copies, and the answers {totals}: they are of two runs", BROKEN)
    for number, line in enumerate(log.lines, 2):
        if not answers.quiet and not answers.programs_at(line):
            raise Fault(f"line {number} of the log: line {line:,} of the answers isn't a write that was done: they are of two runs", BROKEN)


def with_brooms(answers, brooms: list):
    """The answers of a run by workers, with the pages that its writes and its brooms programmed, and the erases of these. A `new` that
    finds its sector written has programmed a page before."""
    programs = answers.accepted_writes() + answers.count("new written")
    copies, erased = sum(broom.programmed for broom in brooms), sum(broom.erased for broom in brooms)
    if answers.erases is not None:
        raise Fault("the log is of brooms, and the answers are of a run by one thread: they are of two runs", BROKEN)
    return replace(answers, programs=programs, copies=copies, erases=erased)


def _total(number) -> str:
    return "no number" if number is None else f"{number:,}"


def as_object(log) -> dict:
    """Flat keys; what isn't known of this kind of run is None."""
    brooms = log if isinstance(log, list) else None
    of_brooms = {f"broom_{name}": None if brooms is None else sum(getattr(broom, name) for broom in brooms) for name in COUNTS}
    if brooms is not None or log is None:
        return {**dict.fromkeys(_OF_ONE_THREAD), "brooms": None if brooms is None else len(brooms), **of_brooms}
    copies, count = sum(log.copied), len(log)
    of_one_thread = (
        count,
        log.lines[0] if count else None,
        copies / count if count else None,
        sum(log.copybacks),
        sum(log.copybacks) / copies if copies else None,
        int(log.retired),
    )
    return {**dict(zip(_OF_ONE_THREAD, of_one_thread)), "brooms": None, **of_brooms}


_OF_ONE_THREAD = ("collections", "first_collection_line", "victim_live_pages_mean", "copybacks", "copyback_share", "collections_retired")


def as_rows(log) -> list:
    """Names and texts for a report."""
    if isinstance(log, list):
        sums = {name: f"{sum(getattr(broom, name) for broom in log):,}" for name in COUNTS}
        return [
            ("brooms", "{count:,}: {drained} blocks drained, {erased} erased, {retired} retired, {kept} kept".format(count=len(log), **sums)),
            ("copies by brooms", "{programmed} pages programmed, {moved} moved, {lost} lost".format(**sums)),
            ("turns of brooms", "{idle} with nothing to gain, {pinned} pinned, {stale} stale".format(**sums)),
        ]
    if not len(log):
        return [("collections", "0")]
    values = as_object(log)
    share = "" if values["copyback_share"] is None else f", {100 * values['copyback_share']:.1f} % of them by copyback"
    ended = ", the last retired its victim" if log.retired else ""
    return [("collections", f"{len(log):,}, the first at line {log.lines[0]:,}; {values['victim_live_pages_mean']:.2f} pages copied each{share}{ended}")]


def live_pages(log: Collections) -> list:
    """How many victims had each number of live pages, from the least to the most."""
    counts = {}
    for copied in log.copied:
        counts[copied] = counts.get(copied, 0) + 1
    return sorted(counts.items())
