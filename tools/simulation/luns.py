"""Several LUNs: on which of them each line of a run works, and a queue for each.

The answers and the log of collections say where the layer has put each page: blocks are filled from the lowest, and when none is left, what is live in
a victim goes to the spare block. Each LUN serves its lines first come, first served, and has a bus of its own. A collection takes the LUNs of its victim
and of the spare block, from its beginning to its end."""

import heapq
import itertools
from dataclasses import dataclass

from . import answers as kinds
from .faults import BROKEN, Fault

NONE = -1
# So many lines at once are numbers of Python, which take more memory than those of arrays.
AT_ONCE = 65_536


class Layer:
    """The block in which each sector is."""

    def __init__(self, numbers):
        self.pages, self.unused, self.spare = numbers["pages"], list(range(numbers["blocks"] - 1))[::-1], numbers["blocks"] - 1
        self.block_of = [NONE] * numbers["sectors"]
        self.sectors_of = [set() for _ in range(numbers["blocks"])]
        self.open, self.programmed = NONE, 0

    def forget(self, sector):
        if self.block_of[sector] != NONE:
            self.sectors_of[self.block_of[sector]].discard(sector)
            self.block_of[sector] = NONE

    def write(self, sector):
        """Returns the block of the new page, or none if no block has a page left."""
        if self.open == NONE and self.unused:
            self.open, self.programmed = self.unused.pop(), 0
        self.forget(sector)
        block, self.programmed = self.open, self.programmed + 1
        if block != NONE:
            self.block_of[sector] = block
            self.sectors_of[block].add(sector)
        if self.programmed == self.pages:
            self.open = NONE
        return block

    def collect(self, victim):
        """Returns the block that receives the live pages of the victim, and how many these are; or none while a page is left elsewhere."""
        if self.open != NONE or self.unused:
            return NONE, NONE
        moved, into = self.sectors_of[victim], self.spare
        for sector in moved:
            self.block_of[sector] = into
        self.sectors_of[victim], self.sectors_of[into] = set(), moved
        self.open, self.programmed, self.spare = into, len(moved), victim
        return into, len(moved)


@dataclass
class Places:
    """Arrays of numpy with the LUN of each line and, of a line that collects, that of its victim; none is -1."""

    count: int
    lun: object
    victim: object

    def from_line(self, first: int) -> "Places":
        return Places(self.count, self.lun[first - 1 :], self.victim[first - 1 :])

    def uses(self, lun: int):
        """The lines that take a LUN."""
        return (self.lun == lun) | (self.victim == lun)


@dataclass
class Shared:
    """Of the lines of a window: for how long they take the busiest LUN, and how long the lines before take all LUNs after the first one's arrival."""

    count: int
    busiest: int
    backlog: int


def places_of(numpy, answers, log, numbers) -> Places:
    """The LUNs of all lines of a run."""
    if max(answers.sectors, default=0) >= numbers["sectors"]:
        raise Fault(f"the answers have sector {max(answers.sectors):,}, and the device of the options has {numbers['sectors']:,}", BROKEN)
    layer, of_a_lun = Layer(numbers), numbers["blocks"] // numbers["luns"]
    luns, victims = (numpy.full(answers.lines, NONE, dtype=numpy.int8) for _ in range(2))
    collections = iter(zip(log.lines, log.victims, log.copied, log.copybacks))
    line, victim, *counts = next(collections, (0, 0))
    for place, (kind, sector) in enumerate(zip(answers.kinds, answers.sectors)):
        if kind == kinds.TRIM_WRITTEN:
            layer.forget(sector)
        if kind == kinds.READ_DATA:
            block = layer.block_of[sector]
        elif kind in kinds.DONE:
            if place + 1 == line:
                into, moved = layer.collect(victim)
                if counts != [moved, moved * (into // of_a_lun == victim // of_a_lun)]:
                    raise _of_another(line)
                victims[place] = victim // of_a_lun
                line, victim, *counts = next(collections, (0, 0))
            block = layer.write(sector)
        else:
            continue
        if block == NONE:
            raise _of_another(place + 1)
        luns[place] = block // of_a_lun
    return Places(numbers["luns"], luns, victims)


def _of_another(line):
    return Fault(f"line {line:,}: on the device of the options it can't have done what the answers and the log say: they are of another device", BROKEN)


class Queues:
    """Until when the lines so far take each LUN."""

    def __init__(self, count, free=0):
        self.free = [free] * count

    def take(self, arrival, service, collection, lun, victim):
        """When a line begins: it has arrived, and those before it at its LUNs are done."""
        if lun == NONE:
            return arrival
        begin = max(arrival, self.free[lun], self.free[victim] if victim != NONE else 0)
        if victim != NONE:
            self.free[victim] = begin + collection
        self.free[lun] = begin + service
        return begin


def queue(numpy, places, arrival, service, collection):
    """When each line is begun and done."""
    queues, columns = Queues(places.count), (arrival, service, collection, places.lun, places.victim)
    pieces = (map(queues.take, *(column[first : first + AT_ONCE].tolist() for column in columns)) for first in range(0, len(arrival), AT_ONCE))
    begin = numpy.fromiter(itertools.chain.from_iterable(pieces), dtype=numpy.int64, count=len(arrival))
    return begin, begin + service


def closed_loop(numpy, places, lines, collection, first, last, clients):
    """When each line arrives and begins, if so many clients make the requests, each its next one when its last one is done."""
    arrival, begin = lines.begin.copy(), lines.begin.copy()
    start = int(begin[first[0]]) if len(first) else 0
    queues, coming = Queues(places.count, start), [start] * min(clients, max(len(first), 1))
    columns = [column.tolist() for column in (lines.service, collection, places.lun, places.victim)]
    for one, end in zip(first.tolist(), last.tolist()):
        came = done = coming[0]
        for line in range(one, end + 1):
            own = [column[line] for column in columns]
            arrival[line], begin[line] = came, queues.take(came, *own)
            done = max(done, int(begin[line]) + own[0])
        heapq.heapreplace(coming, done)
    return arrival, begin


def shared(numpy, places, lines, collection, first_line) -> Shared:
    """How the lines from one on take the LUNs."""
    inside, begins = numpy.arange(len(lines)) >= first_line - 1, int(lines.arrival[first_line - 1]) if first_line <= len(lines) else 0
    taken, backlog = [0], 0
    for lun in range(places.count):
        its = numpy.flatnonzero(places.uses(lun))
        until = lines.begin[its] + numpy.where(places.lun[its] == lun, lines.service[its], collection[its])
        before = numpy.concatenate([[0], until[:-1]]) if len(its) else until
        taken.append(int((until - numpy.maximum(lines.arrival[its], before))[inside[its]].sum()))
        backlog += max(0, int(until[~inside[its]].max(initial=0)) - begins)
    return Shared(places.count, max(taken), backlog)
