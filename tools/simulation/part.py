"""The times of a part: what its data sheet says of a page's read, program, copyback and transfer, and of a block's erase."""

import tomllib
from dataclasses import dataclass

from . import inputs
from .faults import ARGUMENTS, BROKEN, Fault
from .numbers import MICROSECONDS

NANOSECONDS = 1_000
LONGEST_FILE = 1 << 20
TIMES = ("read", "program", "copyback", "erase", "transfer")
# A part need not have a copyback, and may have its transfer within its read and its program.
OPTIONAL, MAY_BE_ZERO = {"copyback"}, {"transfer"}
TEXTS = ("name", "source")


@dataclass(frozen=True)
class Part:
    """Times in whole nanoseconds; a part that names no copyback has None there."""

    name: str
    read: int
    program: int
    erase: int
    transfer: int
    copyback: int | None = None

    def of_read(self) -> int:
        return self.read + self.transfer

    def of_program(self) -> int:
        return self.transfer + self.program

    def of_copyback(self) -> int:
        """A copy within a LUN."""
        return self.read + self.program if self.copyback is None else self.copyback

    def of_copy(self) -> int:
        """A copy to another LUN: the page crosses the bus twice."""
        return self.read + 2 * self.transfer + self.program

    def shown(self) -> str:
        times_by_name = {name: getattr(self, name) for name in TIMES}
        times = ", ".join(f"{name} {time / NANOSECONDS:,g}" for name, time in times_by_name.items() if time is not None)
        return f"{self.name} ({times} µs)" if self.name else f"{times} µs"


def add_options(parser):
    parser.add_argument("--part", metavar="FILE", help="a TOML file with the times of a part")
    for name in TIMES:
        what = "of a block" if name == "erase" else "of a page over the bus" if name == "transfer" else "of a page"
        parser.add_argument(f"--{name}-time", type=MICROSECONDS, metavar="US", help=f"the {name} {what}, in microseconds; replaces the one of the file")


def is_named(options) -> bool:
    return options.part is not None or any(_option(options, name) is not None for name in TIMES)


def part_of(options) -> Part:
    """The part that the options name: a file, single times, or a file with some times replaced."""
    from_file = read_part(options.part) if options.part else {}
    given = {name: _option(options, name) for name in TIMES}
    return part_in({**from_file, **{name: time for name, time in given.items() if time is not None}}, options.part or "the part")


def keys_of(part: Part) -> dict:
    """The keys of a file of the same part."""
    times = {name: getattr(part, name) for name in TIMES}
    return {"name": part.name, **{name: time / NANOSECONDS for name, time in times.items() if time is not None}}


def words_of(part: Part) -> list:
    """The options that name the same part."""
    times = {name: getattr(part, name) for name in TIMES}
    return [word for name, time in times.items() if time is not None for word in (f"--{name}-time", f"{time / NANOSECONDS!r}")]


def _option(options, name):
    return getattr(options, f"{name}_time")


def read_part(path) -> dict:
    """The keys of a part's file."""
    with inputs.opened(path) as source:
        try:
            return tomllib.loads(source.read(LONGEST_FILE).decode())
        except (ValueError, RecursionError) as error:
            raise Fault(f"{path} isn't a TOML file: {error}", BROKEN)


def part_in(keys: dict, where) -> Part:
    """The part with these keys; a missing or invalid time is reported by its name."""
    status = ARGUMENTS if where == "the part" else BROKEN
    unknown = sorted(set(keys) - {*TIMES, *TEXTS})
    if unknown:
        raise Fault(f"{where}: {unknown[0]!r} isn't a key of a part; the times are {', '.join(TIMES)}, in microseconds", status)
    missing = [name for name in TIMES if name not in keys and name not in OPTIONAL]
    if missing:
        raise Fault(f"{where}: the time {missing[0]!r} is missing: data sheets have it, and there is no default", status)
    times = {name: _nanoseconds(name, keys[name], where, status) for name in TIMES if name in keys}
    return Part(str(keys.get("name", "")), **times)


def _nanoseconds(name, time, where, status) -> int:
    try:
        MICROSECONDS.check(time, f"the {name}")
    except ValueError as error:
        raise Fault(f"{where}: {error}, in microseconds", status)
    rounded = round(time * NANOSECONDS)
    if rounded == 0 and name not in MAY_BE_ZERO:
        hint = "; leave it out for a part without it" if name in OPTIONAL else ""
        raise Fault(f"{where}: the {name} {time!r} is less than a nanosecond{hint}", status)
    return rounded
