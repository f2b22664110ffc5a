"""Response times: what each line of a run takes, and how long it waits.

The layer has no clock. A line's service follows from what it did, which the answers and the log of collections tell, and from the times
of a part. On a device of one LUN all commands go over one channel, one after the other, first come first served: a line begins when it has
arrived and the line in front of it is done. Of several LUNs each has its queue. A request of several lines is done when all of them are. Times are
whole nanoseconds, so that sums are exact."""

from dataclasses import dataclass, replace

from . import answers as kinds
from . import arrivals, luns, part
from .faults import ARGUMENTS, Fault

# The sums of a run's times have to fit into 64 bits.
LONGEST = 2**62


@dataclass
class Lines:
    """Arrays of numpy, with a number for each line: its kind, arrival and service, how long its LUN had collected when it arrived and when it was
    done, whether it collects, and when it is begun and done."""

    kind: object
    arrival: object
    service: object
    collected_before: object
    collected_after: object
    collects: object
    begin: object
    done: object

    def __len__(self) -> int:
        return len(self.kind)

    def from_line(self, first: int) -> "Lines":
        return Lines(*(column[first - 1 :] for column in vars(self).values()))


@dataclass
class Response:
    """The lines of the window, and the requests among them, or each line as a request if none are given."""

    part: part.Part
    timed: bool
    lines: Lines
    first: object
    last: object
    bytes: object
    copied: int
    copybacks: int
    collections: int
    speed: float = 1.0
    clients: int | None = None
    shared: luns.Shared | None = None

    @property
    def by_request(self) -> bool:
        return self.bytes is not None

    def arrival(self):
        return self.lines.arrival[self.first]

    def response(self):
        """Waiting and service of each request; without arrivals the service alone."""
        return self._greatest(self.lines.done) - self.arrival()

    def collected(self):
        """How much of each request's response its LUN was collecting: for its lines, or for lines before it."""
        return self._greatest(self.lines.collected_after) - self.lines.collected_before[self.first]

    def _greatest(self, column):
        """The greatest number among the lines of each request."""
        import numpy

        bounds = numpy.column_stack((self.first, self.last + 1)).ravel()
        return numpy.maximum.reduceat(numpy.append(column, 0), bounds)[::2]

    def of(self, group: str):
        """The requests of a group. A meet isn't a request."""
        kind = self.lines.kind[self.first]
        if group == "reads":
            return kind <= kinds.READ_EMPTY
        if group == "writes":
            return (kind >= kinds.FIRST_WRITE) & (kind <= kinds.LAST_WRITE)
        return kind != kinds.MEET


def respond(answers, log, of_part, times=None, speed=1.0, first_line=1, requests=None, clients=None, numbers=None) -> Response:
    """The response of each request from `first_line` on; the lines before it are played too, but not reported. The answers and the log
    are those of the whole run. Instead of arrivals there may be clients: each makes its next request when its last one is done. The LUNs are
    those of the device's numbers; without them, one."""
    import numpy

    if answers.quiet:
        raise Fault("the answers have only their last line, so it isn't known what the lines did", ARGUMENTS)
    kind = numpy.frombuffer(answers.kinds, dtype=numpy.uint8)
    collection = _collection_times(numpy, len(kind), log, of_part)
    places = luns.places_of(numpy, answers, log, numbers) if numbers and numbers["luns"] > 1 else None
    whole = _lines(numpy, kind, collection, of_part, times, speed, places)
    shared = luns.shared(numpy, places, whole, collection, first_line) if places else None
    lines, later = whole.from_line(first_line), log.from_line(first_line)
    first, last, of_bytes = _units(numpy, len(lines), first_line, requests)
    if clients:
        lines = _closed_loop(numpy, lines, collection[first_line - 1 :], first, last, clients, places and places.from_line(first_line))
    totals = sum(later.copied), sum(later.copybacks), len(later)
    return Response(of_part, times is not None, lines, first, last, of_bytes, *totals, speed, clients, shared)


def _units(numpy, count, first_line, requests):
    """The first and the last line of each request in the window, counted from 0, and its bytes. One that began before it is left out."""
    if requests is None:
        each = numpy.arange(count)
        return each, each, None
    inside = requests.first >= first_line - 1
    return requests.first[inside] - (first_line - 1), requests.last[inside] - (first_line - 1), requests.bytes[inside]


def _lines(numpy, kind, collection, of_part, times, speed, places) -> Lines:
    service = collection + _own_times(numpy, kind, of_part)
    if times is None:
        done = numpy.cumsum(service)
        arrival = begin = done - service
    else:
        arrivals.check_length(times.times, len(kind))

        def queue(arrival):
            """When the first lines, which arrive then, are begun and done."""
            its = service[: len(arrival)], collection[: len(arrival)]
            return luns.queue(numpy, places, arrival, *its) if places else _queue(numpy, arrival, its[0])

        arrival = _as_fast(numpy, times, queue, speed)
        begin, done = queue(arrival)
    before, after = _collected_within(numpy, arrival, begin, collection, places)
    return Lines(kind, arrival, service, before, after, collection > 0, begin, done)


def _closed_loop(numpy, lines, collection, first, last, clients, places) -> Lines:
    """The lines as so many clients make their requests, the first ones at once. A single LUN never rests, so each line begins when the one before it
    is done, and the request after `clients` others arrives when the first of these is done."""
    arrival, begin = lines.begin.copy(), lines.begin
    if places:
        arrival, begin = luns.closed_loop(numpy, places, lines, collection, first, last, clients)
    elif len(first):
        begun = lines.begin[first[0]]
        came = numpy.concatenate([numpy.full(min(clients, len(first)), begun), lines.done[last[: max(len(last) - clients, 0)]]])
        arrival[first[0] : last[-1] + 1] = numpy.repeat(came, last - first + 1)
    before, after = _collected_within(numpy, arrival, begin, collection, places)
    return replace(lines, arrival=arrival, begin=begin, done=begin + lines.service, collected_before=before, collected_after=after)


def _own_times(numpy, kind, of_part):
    """The time of each line without its collection: only a read of data and a write that was done take time."""
    by_kind = numpy.zeros(len(kinds.PAIRS), dtype=numpy.int64)
    by_kind[kinds.READ_DATA] = of_part.of_read()
    by_kind[list(kinds.DONE)] = of_part.of_program()
    return by_kind[kind]


def _collection_times(numpy, lines, log, of_part):
    longest = len(log) * of_part.erase + sum(log.copied) * (of_part.of_copyback() + of_part.of_copy())
    if longest + lines * (of_part.of_read() + of_part.of_program()) > LONGEST:
        raise Fault("the times of the part are too long for this run: its lines take more than a century", ARGUMENTS)
    times = numpy.zeros(lines, dtype=numpy.int64)
    if len(log):
        copied, copybacks = (numpy.frombuffer(column, dtype=numpy.uint64).astype(numpy.int64) for column in (log.copied, log.copybacks))
        places = numpy.frombuffer(log.lines, dtype=numpy.uint64).astype(numpy.int64) - 1
        times[places] = copybacks * of_part.of_copyback() + (copied - copybacks) * of_part.of_copy() + of_part.erase
    return times


def _as_fast(numpy, given, queue, speed):
    """When the lines arrive, since the first: those behind a precondition when it is done, and their own times after that."""
    times, drained = given.times, given.drained
    before = _sooner(numpy, times[:drained] - times[0], speed) if drained else times[:0]
    done = int(queue(before)[1].max()) if drained else 0
    behind = _sooner(numpy, times[drained:], speed) + done
    return numpy.concatenate([before, behind])


def _sooner(numpy, times, speed):
    return times if speed == 1 else numpy.rint(times / speed).astype(numpy.int64)


def _queue(numpy, arrival, service):
    """When each line is begun and done: a line begins at its arrival, or when the one before it is done, whichever is later. If
    `ahead` is the service of all lines before it, it begins at `ahead` and the largest difference of an arrival and its `ahead` so far."""
    ahead = numpy.cumsum(service) - service
    begin = ahead + numpy.maximum.accumulate(arrival - ahead)
    return begin, begin + service


def _collected_within(numpy, arrival, begin, collection, places):
    """How long the device had collected when each line arrived, and when it was done. Of several LUNs, nothing, and how long that of the line
    collected meanwhile."""
    if not places:
        return _collected_in_queue(numpy, arrival, begin, collection)
    within = numpy.zeros(len(arrival), dtype=numpy.int64)
    for lun in range(places.count):
        its = numpy.flatnonzero(places.uses(lun))
        if len(its):
            before, after = _collected_in_queue(numpy, arrival[its], begin[its], collection[its])
            within[its] = numpy.where(places.lun[its] == lun, after - before, within[its])
    return numpy.zeros(len(arrival), dtype=numpy.int64), within


def _collected_in_queue(numpy, arrival, begin, collection):
    """How long one queue had collected. A line's collection comes first, and begins when the line does."""
    before = numpy.cumsum(collection) - collection
    # The last line that had begun when this one arrived.
    last = numpy.searchsorted(begin, arrival, side="right") - 1
    # A line that arrives at a device without work has itself begun at its arrival, if no line is before it.
    last = numpy.maximum(last, 0)
    at_arrival = before[last] + numpy.clip(arrival - begin[last], 0, collection[last])
    return at_arrival, before + collection
