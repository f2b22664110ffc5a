"""What the bench's scripts share: the programs that are measured, runs of them, and tables."""

import filecmp
import os
import pathlib
import platform
import shutil
import subprocess
import sys

BENCH = pathlib.Path(__file__).resolve().parent
TOP = BENCH.parent
OUT = BENCH / "out"

DEFAULT = {"blocks": 64, "pages": 64, "words": 64, "sectors": 3072, "endurance": 1000}


class Usage:
    """What a run took: processor seconds, the user's and the system's, peak memory in megabytes, and seconds by the clock."""

    def __init__(self, user, system, megabytes, elapsed):
        self.user, self.system, self.seconds = user, system, user + system
        self.megabytes, self.elapsed = megabytes, elapsed


def measure(words, status=0, stdin=os.devnull, stdout=os.devnull, environment=None):
    """Runs a program, with these variables more in its environment; its exit status has to be the one given."""
    report = OUT / "usage.txt"
    with open(stdin, "rb") as source, open(stdout, "wb") as sink:
        call = [str(word) for word in [OUT / "plain_usage", report, *words]]
        done = subprocess.run(call, stdin=source, stdout=sink, stderr=subprocess.DEVNULL, env={**os.environ, **(environment or {})})
    if done.returncode != status:
        sys.exit(f"bench: {words[0]} ended with status {done.returncode}")
    user, system, kilobytes, elapsed = (int(number) for number in report.read_text().split())
    return Usage(user / 1e6, system / 1e6, kilobytes / 1024, elapsed / 1e6)


def options(device):
    return [word for name, number in device.items() for word in (f"--{name}", str(number))]


def call(words, folder=TOP):
    done = subprocess.run(
        [str(word) for word in words], cwd=folder, stdin=subprocess.DEVNULL, capture_output=True
    )
    if done.returncode != 0:
        sys.stderr.buffer.write(done.stdout + done.stderr)
        sys.exit(f"bench: {words[0]} failed")


def build_plain(names, words=(), suffix=""):
    """Plain Rust's programs, by `rustc` with these words more; a program that is newer than all sources stays."""
    OUT.mkdir(exist_ok=True)
    changed = max(path.stat().st_mtime for path in (BENCH / "plain").iterdir())
    for name in names:
        source, program = BENCH / "plain" / f"{name}.rs", OUT / f"plain_{name}{suffix}"
        if not program.exists() or program.stat().st_mtime < changed:
            call(["rustc", "-O", *words, "--edition", "2024", source, "-o", program])


def build_program():
    """The proved program, by the launcher, which proves and builds it where it is missing or old."""
    call([TOP / "flashplay", "--prove"])
    shutil.copy2(TOP / "crates/flashplay/out/flashplay", OUT / "flashplay")
    return OUT / "flashplay"


def least(usages):
    return min(usage.seconds for usage in usages)


def compare(first, second):
    if not filecmp.cmp(first, second, shallow=False):
        sys.exit(f"bench: the outputs {first} and {second} differ")


def table(rows):
    """A table in Markdown whose first row is its head."""
    widths = [max(len(row[i]) for row in rows) for i in range(len(rows[0]))]
    lines = ["| " + " | ".join(cell.ljust(width) for cell, width in zip(row, widths)) + " |" for row in rows]
    lines.insert(1, "|" + "|".join("-" * (width + 2) for width in widths) + "|")
    return "\n".join(lines)


def machine():
    model = "unknown processor"
    for line in pathlib.Path("/proc/cpuinfo").read_text().splitlines():
        if line.startswith("model name"):
            model = line.split(":", 1)[1].strip()
            break
    compiler = subprocess.run(["rustc", "--version"], capture_output=True, text=True).stdout.split("(")[0].strip()
    memory = os.sysconf("SC_PAGE_SIZE") * os.sysconf("SC_PHYS_PAGES") / 2**30
    return f"{model}, {os.cpu_count()} processors, {memory:.0f} GB, {platform.system()} {platform.release().split('-')[0]}, {compiler}"


def replace_between(path, name, text):
    """Puts the text between the two marks of this name in a file."""
    begin, end = f"<!-- {name}: begin -->\n", f"<!-- {name}: end -->"
    head, rest = path.read_text().split(begin)
    path.write_text(head + begin + "\n" + text + "\n\n" + end + rest.split(end)[1])
