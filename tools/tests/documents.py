"""Runs the command lines of the pages: each block, twice, in a folder like a fresh clone, with what it prints where the page shows it."""

import os
import pathlib
import re
import subprocess
from dataclasses import dataclass

from simulation import device
from tests.tools import TOP

PAGES = ("README.md", "CONTRIBUTING.md", "bench/README.md", *sorted(f"docs/{path.name}" for path in (TOP / "docs").glob("*.md")))
# What a block of command lines begins with, where the page doesn't say that it is one.
PROGRAMS = ("./flashplay", "flashplay --", "tools/", "apt-get", "make", "rt ", "fio", "bench/", "nbdkit", "python3")
LIBRARY = "make -C bindings && make -C bindings/nbdkit\n"
# The blocks that aren't run here, by the page and the beginning of their lines, each with the reason and who runs it, if anybody does.
NOT_RUN = {
    **{("README.md", begin): "it installs packages: packaging/first_lines runs it in a root of Debian" for begin in (
        "apt-get install fio", "apt-get install binutils", "apt-get install libnbd-bin", "apt-get install ./mintlintel")},
    ("README.md", "disk="): "it needs the plugin: packaging/first_lines runs it in a root of Debian",
    ("docs/BLOCK_DEVICE.md", f"{LIBRARY}mkdir /tmp/flash &&"): "bindings/nbdkit/check runs the lines behind make",
    ("docs/BLOCK_DEVICE.md", f"{LIBRARY}mkdir -p /tmp/flash/disk"): "bindings/nbdkit/check runs the lines behind make",
    ("docs/BLOCK_DEVICE.md", "mkdir /tmp/flash\n"): "it needs the plugin: bindings/nbdkit/check runs it",
    ("docs/BLOCK_DEVICE.md", "nbdkit -f"): "it runs until the power is cut: bindings/nbdkit/check tries that",
    ("docs/BLOCK_DEVICE.md", "nbdcopy 'nbd+unix:///stats"): "it needs a server that is running: bindings/nbdkit/check reads the export so",
    ("docs/SIMULATING.md", "apt-get install fio"): "tools/check has installed these packages before the lines are run",
}
# The blocks that are run with fewer lines or a smaller device, since the program may be the one without proof.
SMALLER = {
    ("docs/SIMULATING.md", "rm -rf out/pages"): {"--blocks 256": "--blocks 16", "--utilisation 50:90:5": "--utilisation 50,70"},
    ("docs/RESPONSE.md", "mkdir -p out"): {
        "--blocks 256": "--blocks 16",
        "--utilisation 60:80:2.5,85:95:5": "--utilisation 60,70",
        "--sectors 11468": "--sectors 716",
        "--lines 200000": "--lines 20000",
        "--from-line 77005": "--from-line 4813",
    },
}
FENCE = re.compile(r"^( *)```(\w*)\n(.*?)^\1```$", re.DOTALL | re.MULTILINE)
# What a page shows may follow its lines with at most as much text between them.
BETWEEN = 3
LONGEST = 1800


class Differs(AssertionError):
    """A block doesn't do what its page says."""


@dataclass
class Block:
    """A block of command lines of a page, and the text that the page shows behind it, if it does."""

    page: str
    lines: str
    shown: str | None

    def listed(self, table: dict):
        """What a table of blocks has of this one."""
        return next((value for (page, begin), value in table.items() if page == self.page and self.lines.startswith(begin)), None)

    def __str__(self) -> str:
        return f"{self.page}: {self.lines.splitlines()[0][:60]}"


def blocks_of(page: str, text: str) -> list:
    """The blocks of command lines of a page. Text that is shown is in a block of its own right behind the lines."""
    found = list(FENCE.finditer(text))
    blocks = []
    for fence, behind in zip(found, [*found[1:], None]):
        lines = "".join(line.removeprefix(fence[1]) for line in fence[3].splitlines(keepends=True))
        if fence[2] == "sh" or not fence[2] and lines.startswith(PROGRAMS):
            is_shown = behind and not behind[2] and behind.start() - fence.end() <= BETWEEN and not behind[3].startswith(PROGRAMS)
            blocks.append(Block(page, lines, behind[3] if is_shown else None))
    return blocks


def blocks_of_pages() -> list:
    return [block for page in PAGES for block in blocks_of(page, (TOP / page).read_text(encoding="utf-8"))]


def lines_to_run(block: Block) -> str:
    """The lines as they are run; what makes them smaller has to be in them."""
    lines = block.lines
    for words, fewer in (block.listed(SMALLER) or {}).items():
        if words not in lines:
            raise Differs(f"{block}: {words!r} isn't in its lines")
        lines = lines.replace(words, fewer)
    return lines


def answers_of(shown: str) -> str:
    """What a page shows: where a trace stands beside its answers, these alone."""
    rows = shown.splitlines()
    if rows[0].split() == ["trace", "answers"]:
        rows = [row.split()[-1] for row in rows[1:]]
    return "\n".join(row.rstrip() for row in rows)


def clone_in(folder: pathlib.Path):
    """Makes the folder look like a clone with a built program."""
    (folder / "flashplay").symlink_to(device.LAUNCHER)
    for name in ("tools", "examples"):
        (folder / name).symlink_to(TOP / name)


def run_block(block: Block, folder: pathlib.Path):
    """Runs the lines of a block, and compares what they print with what the page shows."""
    call = ["bash", "-euo", "pipefail", "-c", lines_to_run(block)]
    done = subprocess.run(call, cwd=folder, capture_output=True, text=True, stdin=subprocess.DEVNULL, timeout=LONGEST)
    if done.returncode != 0:
        raise Differs(f"{block}: status {done.returncode}: {done.stderr[-2000:]}")
    printed = "\n".join(line.rstrip() for line in done.stdout.splitlines())
    if block.shown is not None and printed != answers_of(block.shown):
        raise Differs(f"{block} prints\n{printed}\nand the page shows\n{answers_of(block.shown)}")
    return done.stdout


def files_in(folder: pathlib.Path) -> set:
    """The files that the lines have made."""
    found = set()
    for path, folders, files in os.walk(folder):
        folders[:] = [name for name in folders if not (pathlib.Path(path) / name).is_symlink()]
        found |= {os.path.relpath(os.path.join(path, name), folder) for name in files}
    return found


def run_page(blocks: list, folder: pathlib.Path) -> list:
    """Runs the blocks of a page one after the other, and then all of them again, in the same folder. The files are the same then."""
    clone_in(folder)
    made, printed = [], []
    for _ in range(2):
        printed.append([run_block(block, folder) for block in blocks])
        made.append(files_in(folder))
    if made[0] != made[1]:
        raise Differs(f"{blocks[0].page}: a second run makes other files: {sorted(made[0] ^ made[1])}")
    return printed[0]
