"""What a report says of response times: one flat object, and lines of text."""

import math

from . import answers as kinds
from .faults import BROKEN, Fault
from .numbers import SPEED
from .response import Response

MICROSECOND, SECOND = 1_000, 1_000_000_000
# Percentiles in hundredths of a percent, by their names, and as a text names them.
PERCENTILES = {"median": 5000, "p95": 9500, "p99": 9900, "p999": 9990, "p9999": 9999}
FIGURES = ("mean", *PERCENTILES, "longest")
SHOWN = {"mean": "mean", "median": "median", "p95": "p95", "p99": "p99", "p999": "p99.9", "p9999": "p99.99", "longest": "longest"}
GROUPS = ("reads", "writes", "all")
SHARES = {"reads": "reads", "programs": "programs", "copies": "copies", "erases": "erases", "rest": "idle"}


def figures(numpy, times) -> dict:
    """Mean, percentiles and the longest in microseconds. A percentile is the least time that this share of the requests doesn't exceed."""
    count = len(times)
    if not count:
        return {"count": 0, **dict.fromkeys(FIGURES)}
    ordered = numpy.sort(times)
    places = {name: -(-count * share // 10_000) - 1 for name, share in PERCENTILES.items()}
    percentiles = {name: int(ordered[place]) / MICROSECOND for name, place in places.items()}
    return {"count": count, "mean": int(ordered.sum()) / count / MICROSECOND, **percentiles, "longest": int(ordered[-1]) / MICROSECOND}


def summarise(responses: Response, page_bytes) -> dict:
    """One flat object; times are in microseconds. If the device can't carry the load, there are no response times."""
    import numpy

    division = _division(responses, page_bytes)
    overloaded = division["load"] is not None and division["load"] >= 1
    response, out = responses.response(), {"response_timed": responses.timed, "response_by": "request" if responses.by_request else "page"}
    out |= {"response_clients": responses.clients, "response_luns": responses.shared.count if responses.shared else 1}
    for group in GROUPS:
        numbers = figures(numpy, response[responses.of(group)])
        if overloaded:
            numbers |= dict.fromkeys(FIGURES)
        out |= {f"response_{group}_{_unit(name)}": number for name, number in numbers.items()}
    fits = _fitting_speed(responses.speed / division["load"]) if overloaded else None
    return {**out, **_waits(responses, overloaded), **division, "overloaded": overloaded, "fitting_speed": fits}


def _fitting_speed(speed: float) -> float:
    """The greatest speed of two digits at which the device has a twentieth of its time left."""
    digits = 1 - math.floor(math.log10(0.95 * speed))
    return math.floor(0.95 * speed * 10**digits) / 10**digits


def _unit(name: str) -> str:
    return name if name == "count" else f"{name}_us"


def _waits(responses: Response, overloaded: bool) -> dict:
    """The requests that waited behind a collection, their own included, and how long."""
    of_all = responses.of("all")
    met = of_all & (responses.collected() > 0)
    count, waited = int(of_all.sum()), int(met.sum())
    names = ("collection_met_share", "collection_met_mean_us", "collection_met_longest_us")
    if overloaded or not count:
        return dict.fromkeys(names)
    collected = responses.collected()[met]
    mean, longest = (int(collected.sum()) / waited / MICROSECOND, int(collected.max()) / MICROSECOND) if waited else (None, None)
    return dict(zip(names, (waited / count, mean, longest)))


def _division(responses: Response, page_bytes) -> dict:
    """How the time of the device's LUNs divides, from the first arrival to the last end, and what it did in a second."""
    lines, of_part, luns = responses.lines, responses.part, responses.shared.count if responses.shared else 1
    reads, programs = int((lines.kind == kinds.READ_DATA).sum()), sum(int((lines.kind == kind).sum()) for kind in kinds.DONE)
    whole = int(lines.done.max() - lines.arrival[0]) if len(lines) else 0
    times = {
        "reads": reads * of_part.of_read(),
        "programs": programs * of_part.of_program(),
        "copies": responses.copybacks * of_part.of_copyback() + (responses.copied - responses.copybacks) * of_part.of_copy(),
        "erases": responses.collections * of_part.erase,
    }
    busy = sum(times.values())
    if busy != int(lines.service.sum()):
        raise Fault("the times of the lines don't add up to those of the totals", BROKEN)
    times |= {"rest": luns * whole - busy - _backlog(responses)}
    out = {f"time_{name}_us": time / MICROSECOND for name, time in times.items()}
    out |= {"time_whole_us": sum(times.values()) / MICROSECOND, "load": _load(responses, busy)}
    requests = int(responses.of("all").sum())
    out["requests_per_second"] = requests * SECOND / whole if whole else None
    moved = _bytes(responses, (reads + programs) * page_bytes if page_bytes is not None else None)
    out["megabytes_per_second"] = moved * SECOND / whole / 1_000_000 if whole and moved is not None else None
    return out


def _bytes(responses: Response, of_pages):
    return int(responses.bytes[responses.of("all")].sum()) if responses.by_request else of_pages


def _load(responses: Response, busy):
    """The work that arrives in a second, in seconds, at the busiest LUN; from 1 on its queue grows as long as the run lasts."""
    arrival, busy = responses.lines.arrival, responses.shared.busiest if responses.shared else busy
    span = int(arrival[-1] - arrival[0]) if responses.timed and len(arrival) else 0
    return busy / span if span else None


def _backlog(responses: Response) -> int:
    """What the device still had to do for the lines before the first reported one, when that one arrived."""
    if responses.shared:
        return responses.shared.backlog
    return int(responses.lines.begin[0] - responses.lines.arrival[0]) if len(responses.lines) else 0


def duration(microseconds: float) -> str:
    """A time in a unit that fits."""
    if microseconds >= 1e6:
        return f"{microseconds / 1e6:,.4g} s" if microseconds < 1e10 else f"{microseconds / 1e6:,.0f} s"
    return f"{microseconds / 1e3:.4g} ms" if microseconds >= 1e3 else f"{microseconds:.4g} µs"


def overload(numbers: dict) -> str | None:
    """What is said of a device that can't carry its load; None if it can."""
    if not numbers["overloaded"]:
        return None
    cure = f"--speed {numbers['fitting_speed']:g} slows the arrivals to what it carries" if numbers["fitting_speed"] in SPEED else "a faster part is needed"
    return f"the device cannot carry this load: {numbers['load']:.3f} of it; the queue grows as long as the run lasts, and no latency can be given; {cure}"


def as_rows(numbers: dict, name: str) -> list:
    """Names and texts for a report."""
    luns = numbers["response_luns"]
    queue = "waiting and service, one queue" if luns == 1 else f"waiting and service, a queue for each of {luns} LUNs"
    timed = f"{queue}, first come first served" if numbers["response_timed"] else "service alone: no arrivals are given"
    if clients := numbers["response_clients"]:
        timed = f"{queue}, {clients:,} client{'s' * (clients > 1)}, each with one request at a time"
    by = "by request" if numbers["response_by"] == "request" else "by page, since no requests are given"
    rows = [("part", name), ("times", f"{timed}; {by}")]
    if told := overload(numbers):
        rows.append(("latency", told))
    else:
        rows += [(f"latency of {group}", _figures(numbers, group)) for group in GROUPS]
        rows.append(("waited behind a collection", _met(numbers)))
    whole = numbers["time_whole_us"]
    shares = (f"{shown} {100 * numbers[f'time_{key}_us'] / whole:.1f} %" for key, shown in SHARES.items()) if whole else ()
    rows.append(("time of the device" if luns == 1 else f"time of {luns} LUNs", duration(whole) + (": " + ", ".join(shares) if whole else "")))
    if numbers["load"] is not None and not numbers["overloaded"]:
        rows.append(("load", f"{numbers['load']:.3f} seconds of work arrive in a second{', at the busiest LUN' * (luns > 1)}"))
    if numbers["requests_per_second"] is not None:
        size = "" if numbers["megabytes_per_second"] is None else f", {numbers['megabytes_per_second']:,.2f} MB a second"
        what = "requests" if numbers["response_by"] == "request" else "pages"
        rows.append(("throughput", f"{numbers['requests_per_second']:,.1f} {what} a second{size}"))
    return rows


def _figures(numbers, group) -> str:
    if not numbers[f"response_{group}_count"]:
        return "none"
    texts = ", ".join(f"{shown} {duration(numbers[f'response_{group}_{key}_us'])}" for key, shown in SHOWN.items())
    return f"{numbers[f'response_{group}_count']:,}: {texts}"


def _met(numbers) -> str:
    if not numbers["collection_met_share"]:
        return "none"
    mean, longest = (duration(numbers[f"collection_met_{name}_us"]) for name in ("mean", "longest"))
    what = "requests" if numbers["response_by"] == "request" else "pages"
    return f"{100 * numbers['collection_met_share']:.2f} % of the {what}, for {mean} on average and {longest} at most"
