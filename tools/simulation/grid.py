"""The points of a sweep: devices whose numbers run over a grid."""

import itertools
import math
from dataclasses import dataclass

from . import device
from .numbers import Number

# What a grid may run over: the numbers of a device, and its sectors in percent of all pages.
# Or the images that devices start from.
IMAGE = "image"
AXES = ("luns", "blocks", "pages", "words", "sectors", "utilisation", "endurance")


@dataclass
class Point:
    """A device, and the numbers by which the grid names it."""

    names: dict
    device: dict

    def utilisation(self):
        """The sectors in percent of all pages, as the grid names it."""
        return self.names.get("utilisation", 100 * self.device["sectors"] / self.pages())

    def pages(self):
        return self.device["blocks"] * self.device["pages"]

    def __str__(self):
        whole = {name: int(number) for name, number in self.names.items() if number == int(number)}
        return ",".join(f"{name}={whole.get(name, number)!r}" for name, number in self.names.items())


# A sweep has at most as many points, so that a mistake in a step doesn't take a day.
MOST_POINTS = 10_000
RANGES = {**device.RANGES, "utilisation": Number(0, 100, whole=False)}


def numbers_in(text: str, name: str) -> list:
    """`50,60,70`, `50:95:5` (from, to, step), or both: `50:90:10,95`. An empty range is refused, since it is a mistake."""
    wanted, numbers = RANGES[name], []
    for part in text.split(","):
        bounds = part.split(":")
        if len(bounds) == 1:
            numbers.append(_axis(name).read(part))
        elif len(bounds) == 3:
            numbers += _steps(part, *(_axis(name).read(bound) for bound in bounds))
        else:
            raise ValueError(f"{part!r} is neither a number nor from:to:step")
        if len(numbers) > MOST_POINTS:
            raise ValueError(f"{part!r} has more than {MOST_POINTS:,} numbers")
    if wanted.whole and any(number != int(number) for number in numbers):
        raise ValueError(f"{text!r} has numbers that aren't whole")
    return numbers


def _axis(name: str) -> Number:
    """Numbers that no device has are told with their point, beside the points that can be played."""
    return Number(0, 4_294_967_295, whole=RANGES[name].whole) if name != "utilisation" else RANGES[name]


def _steps(part: str, first, last, step) -> list:
    if step <= 0 or last < first:
        raise ValueError(f"{part!r} is empty: it is from:to:step, with a step above 0")
    count = (last - first) / step + 1e-9
    if count > MOST_POINTS:
        raise ValueError(f"{part!r} has more than {MOST_POINTS:,} numbers")
    return [first + step * number for number in range(int(count) + 1)]


def points_of(axes) -> list:
    """The points of the grid, the last axis fastest. `axes` has the numbers of each axis that is given."""
    names = [name for name in AXES if name in axes]
    count = math.prod(len(axes[name]) for name in names)
    if count > MOST_POINTS:
        raise ValueError(f"{count:,} points, and a sweep has at most {MOST_POINTS:,}")
    return [point_of(dict(zip(names, numbers))) for numbers in itertools.product(*(axes[name] for name in names))]


def point_of(names) -> Point:
    numbers = {name: int(number) for name, number in names.items() if name != "utilisation"}
    whole = {**device.DEFAULTS, **numbers}
    if "utilisation" in names:
        whole["sectors"] = int(whole["blocks"] * whole["pages"] * names["utilisation"] / 100 + 1e-9)
    return Point(names, whole)


def point_in(text: str) -> Point:
    """The point whose text this is; raises ValueError if it is none."""
    names = {}
    for part in text.split(","):
        name, _, number = part.partition("=")
        if name not in AXES:
            raise ValueError(f"{part!r} isn't the number of an axis")
        names[name] = _axis(name).read(number)
    return point_of(names)
