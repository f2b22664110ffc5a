"""Counts the instructions of both programs under callgrind: the same number in each run, whatever else the machine does."""

import re
import shutil
import subprocess
import sys

from measuring import OUT, table

# The C library's copying and filling, which callgrind counts by the byte where they use `rep movsb`.
MOVING = re.compile(r"mem(cpy|move|set)")
LINE = re.compile(r"\s*([\d,]+) \(\s*[\d.]+%\)\s+(?:\S*?:)?(\S.*?)(?: \[[^\]]*\])?$")


class Count:
    """What a run executed: instructions without copying and filling memory, and those of copying and filling."""

    def __init__(self, functions):
        self.moving = sum(count for name, count in functions.items() if MOVING.search(name))
        self.own = sum(functions.values()) - self.moving


def short(name):
    """A function's name without its hash, its arguments and the generic parts in front."""
    name = re.sub(r"::h[0-9a-f]{16}$|::<#[0-9a-f]+>", "", name)
    name = re.sub(r"\(.*", "", name)
    return name if len(name) <= 60 else "…" + name[-59:]


def functions_of(report):
    """The instructions of each function in a report of callgrind_annotate."""
    found = {}
    for line in report.splitlines():
        match = LINE.match(line)
        if match and match[2] != "PROGRAM TOTALS":
            name = short(match[2])
            found[name] = found.get(name, 0) + int(match[1].replace(",", ""))
    return found


def count(words, stdin):
    """Runs a program under callgrind, its output to /dev/null."""
    profile = OUT / "callgrind.out"
    call = ["valgrind", "--tool=callgrind", f"--callgrind-out-file={profile}", *(str(word) for word in words)]
    with open(stdin, "rb") as source:
        done = subprocess.run(call, stdin=source, stdout=subprocess.DEVNULL, stderr=subprocess.PIPE)
    if done.returncode != 0:
        sys.stderr.buffer.write(done.stderr)
        sys.exit(f"bench: {words[0]} failed under callgrind")
    report = subprocess.run(
        ["callgrind_annotate", "--auto=no", "--threshold=100", "--show=Ir", profile], capture_output=True, text=True, check=True
    ).stdout
    profile.unlink()
    return Count(functions_of(report))


def need_valgrind():
    if not shutil.which("callgrind_annotate"):
        sys.exit("bench: --count needs valgrind")


def millions(number):
    return f"{number / 1e6:.1f}"


def counts_table(rows):
    """A row for each work: its label, both counts, and the least processor times of both programs."""
    head = ["Work", "Ours, million", "Plain Rust", "Ratio", "Copying and filling, ours", "plain", "Processor time, ours", "plain", "Ratio"]
    cells = [head]
    for label, ours, plain, times in rows:
        counts = [millions(ours.own), millions(plain.own), f"{ours.own / plain.own:.2f}", millions(ours.moving), millions(plain.moving)]
        cells.append([label, *counts, *(f"{seconds * 1e3:.1f} ms" for seconds in times), f"{times[0] / times[1]:.2f}"])
    return table(cells)
