"""What cures a fault of flashplay: what was found, what is allowed, and the nearest options or line that would do."""

import os
import re
import stat
import subprocess

from . import device

# The numbers of a call, beside those of the device.
OTHERS = {"workers": 0, "brooms": 0}
MOST = {"workers": 500, "brooms": 32}
OPS = ("read", "write", "new", "trim", "meet")
LONGEST_SHOWN = 60


def numbers_of(words) -> dict:
    """The numbers that a call gives, or their defaults."""
    numbers = {**device.DEFAULTS, **OTHERS}
    for word, value in zip(words, [*words[1:], ""]):
        name, is_joined, joined = word.removeprefix("--").partition("=")
        value = joined if is_joined else value
        if word.startswith("--") and name in numbers and value.isascii() and value.isdigit():
            numbers[name] = int(value)
    return numbers


def cure_of(told: str, words, program) -> str | None:
    """The cure of a fault that was told, as one line; None if none is known."""
    numbers = numbers_of(words)
    if found := re.fullmatch(r"geometry: (\w+)", told):
        return of_numbers(found[1], numbers)
    if found := re.fullmatch(r"line ([1-9]\d*): (\w+)", told):
        return of_line(int(found[1]), found[2], numbers) or advice(program, f"line N: {found[2]}")
    return advice(program, re.sub(r"\d+", "N", told, count=1)) or advice(program, told)


def advice(program, fault: str) -> str | None:
    """What the program's help says about a fault."""
    text = subprocess.run([program, "--help"], capture_output=True, text=True, errors="replace", stdin=subprocess.DEVNULL).stdout
    rows, row = [], ""
    for line in text.partition("\nFaults,")[2].partition("\n\n")[0].splitlines()[1:]:
        if re.match(r"  \S", line):
            rows.append(row)
            row = line
        else:
            row += "  " + line.strip()
    for row in (*rows, row):
        names, _, does = row.strip().partition("  ")
        if fault in names.split(", "):
            return " ".join(does.split())
    return None


def of_numbers(kind: str, numbers: dict) -> str:
    """What numbers that make no device lack."""
    blocks, pages, sectors = numbers["blocks"], numbers["pages"], numbers["sectors"]
    if kind == "TooFewBlocks":
        most, fewest = most_sectors(numbers), fewest_blocks(numbers)
        return f"{sectors:,} sectors do not fit {blocks:,} blocks of {pages:,} pages: " + either(("sectors", most), ("blocks", fewest))
    if kind == "Passes":
        return of_passes(numbers)
    if kind == "TooManyWords":
        return device.fault_of({name: numbers[name] for name in device.DEFAULTS}, numbers["workers"] > 0)
    name, luns = kind.lower(), numbers["luns"]
    if name == "blocks" and blocks in device.RANGES["blocks"]:
        return f"{blocks:,} blocks aren't a multiple of {luns} LUNs: " + either(("blocks", blocks // luns * luns), ("blocks", -(-blocks // luns) * luns))
    wanted = device.RANGES[name]
    nearest = min(max(numbers[name], wanted.least), wanted.most)
    return f"{numbers[name]:,} {name}, and a device has {wanted.least:,} to {wanted.most:,}: --{name} {nearest}"


def taken(numbers: dict) -> int:
    """The blocks that hold no sector: a spare one, or those of workers and brooms."""
    return numbers["workers"] + 2 * numbers["brooms"] if numbers["workers"] else 1


def most_sectors(numbers: dict) -> int:
    """The sectors that fit these blocks."""
    return (numbers["blocks"] - taken(numbers)) * numbers["pages"] - (not numbers["workers"])


def fewest_blocks(numbers: dict) -> int:
    """The blocks that these sectors need."""
    fewest = -(-(numbers["sectors"] + (not numbers["workers"])) // numbers["pages"]) + taken(numbers)
    return -(-fewest // numbers["luns"]) * numbers["luns"]


def either(*options) -> str:
    """The options that may be given, one of them, as far as a device may have these numbers."""
    fit = dict.fromkeys(f"--{name} {number}" for name, number in options if number in device.RANGES[name])
    return ", or ".join(fit) if fit else "give more blocks and fewer sectors"


def of_passes(numbers: dict) -> str:
    for name, most in MOST.items():
        if numbers[name] > most:
            return f"{numbers[name]:,} {name}, and a run has at most {most}: --{name} {most}"
    return "brooms work beside workers, and there are none: --workers 1, or without --brooms"


def of_line(number: int, kind: str, numbers: dict) -> str | None:
    """What is wrong with a line of the trace, if standard input is a file, which can be read again."""
    line = line_of(number)
    if line is None:
        return None
    if number == 1 and (other := of_other_file(first_line())):
        return other
    shown = line if len(line) <= LONGEST_SHOWN else f"{line[:LONGEST_SHOWN]}.."
    worker, op, sector, data = (line.split(",") + [""] * 4)[:4]
    of_kind = {
        "Fields": lambda: f"{line.count(',') + 1} fields, and a line has four: worker,op,sector,data",
        "Worker": lambda: f"worker {worker!r}: " + of_index(worker, "workers", numbers["workers"] or 500, numbers),
        "Op": lambda: f"{op!r} is none of {', '.join(OPS)}" + (f": write {op.strip().lower()!r}" if op.strip().lower() in OPS else ""),
        "Sector": lambda: f"sector {sector!r}: " + of_index(sector, "sectors", numbers["sectors"], numbers),
        "Hex": lambda: of_digits(data),
        "TooLong": lambda: f"{len(data) // 2:,} bytes, and a page has {8 * numbers['words']:,}: --words {-(-len(data) // 16)}",
        "Unused": lambda: f"a {op} has no data, and a meet worker and sector 0: leave it out",
    }.get(kind)
    return f"`{shown}`: {of_kind()}" if of_kind else None


def first_line() -> str:
    """The first line of standard input, without comments of a job file."""
    number = 1
    while (line := line_of(number) or "")[:1] in ("#", ";"):
        number += 1
    return line


def of_index(text: str, name: str, count: int, numbers: dict) -> str:
    """A number that is none, or isn't below those that there are."""
    if not (text.isascii() and text.isdigit()) or len(text) > 7:
        return f"a number of at most seven digits from 0 to {count - 1:,} is wanted"
    needed = int(text) + 1
    most = device.RANGES["sectors"].most if name == "sectors" else MOST["workers"]
    if needed > most:
        return f"there are 0 to {count - 1:,}: at most {most:,} can be given"
    wanted = {**numbers, name: needed}
    more = f" --blocks {fewest_blocks(wanted)}" if wanted["sectors"] > most_sectors(wanted) else ""
    return f"there are 0 to {count - 1:,}: --{name} {needed}{more}"


def of_digits(data: str) -> str:
    other = re.search(r"[^0-9a-fA-F]", data)
    if other:
        return f"{other[0]!r} is no digit of 0-9, a-f or A-F"
    return f"{len(data):,} digits, and each byte has two" + (f": 0{data} would do" if len(data) <= 8 else "")


def of_other_file(line: str) -> str | None:
    """What plays a file that is no trace."""
    if line.startswith("fio version"):
        return "this is a log of fio: flashplay simulate LOG --page-bytes 4096 --over-provisioning 7,28 --out FOLDER"
    if re.fullmatch(r"\s*\[[^\]]+\]\s*", line):
        return "this is a job file of fio: flashplay simulate JOB --page-bytes 4096 --over-provisioning 7,28 --out FOLDER"
    if line[:1] in ("\x1f", "\x28"):
        return "this is a compressed file: zcat FILE | flashplay"
    return None


def line_of(number: int) -> str | None:
    """The record of this number of standard input, if that is a file. Empty lines don't count; where a quote could hide a line's end, none is given."""
    try:
        if not stat.S_ISREG(os.fstat(0).st_mode):
            return None
        with open("/proc/self/fd/0", "rb") as source:
            for line in source:
                if b'"' in line:
                    return None
                number -= bool(line.strip(b"\r\n"))
                if not number:
                    return line.rstrip(b"\r\n").decode("utf-8", "backslashreplace")
    except OSError:
        pass
    return None
