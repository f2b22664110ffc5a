"""The shapes of response times that pictures and tables show: how they are distributed, and how they run over time."""

from dataclasses import dataclass

from .latency import MICROSECOND, SECOND

# The most points of a curve, and the most parts of a run.
POINTS, PARTS = 300, 200


def tail(times) -> list:
    """Points (time, share): the share of lines whose response is longer than the time, in microseconds. Lines that take no time have no
    place on a logarithmic axis, but count in the shares."""
    import numpy

    ordered = numpy.sort(times)
    count = len(ordered)
    if not count or ordered[-1] == 0:
        return []
    # Ranks from the shortest to the longest, close together at the long end.
    longer = numpy.unique(numpy.rint(numpy.geomspace(1, count, POINTS)).astype(numpy.int64))[::-1] - 1
    values = ordered[count - 1 - longer]
    # For equal times the last one gives the number of longer lines.
    shares = (count - numpy.searchsorted(ordered, values, side="right")) / count
    points = {float(value) / MICROSECOND: float(share) for value, share in zip(values, shares) if value > 0}
    return sorted(points.items())


@dataclass
class Part:
    """Some lines of a run: when the first arrived in seconds, or its number without arrivals; their mean and longest response in
    microseconds; and their collections."""

    place: float
    mean: float
    longest: float
    collections: int


def over_time(told, first_line=1) -> list:
    """A run in parts with equally many requests, as far as possible. Meets are left out."""
    import numpy

    requests = numpy.flatnonzero(told.of("all"))
    response, arrival = told.response(), told.arrival()
    collections = numpy.concatenate([[0], numpy.cumsum(told.lines.collects)])
    parts = []
    for some in numpy.array_split(requests, min(PARTS, len(requests))) if len(requests) else ():
        times = response[some]
        first, last = told.first[some[0]], told.last[some[-1]]
        place = float(arrival[some[0]] - told.lines.arrival[0]) / SECOND if told.timed else float(first + first_line)
        mean, longest = float(times.mean()) / MICROSECOND, float(times.max()) / MICROSECOND
        parts.append(Part(place, mean, longest, int(collections[last + 1] - collections[first])))
    return parts
