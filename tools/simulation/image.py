"""A device in a file, as `flashplay --image` keeps it: its numbers, and plays on a copy of it."""

import os
import pathlib
import struct
import subprocess
import tempfile

from . import device
from .faults import BROKEN, Fault

MAGIC = b"\x89MNTL\r\n\x1a"
HEAD = struct.Struct("<8s6I")
NAMES = ("luns", "blocks", "pages", "page_bytes", "sectors")
FORMATS, WORD_BYTES = (1, 2, 3), 8
# Where it is installed, the player of images is a program of its own; the launcher finds it by itself.
INSTALLED = device.TOP / "flashplay-image"
PROGRAM = str(INSTALLED) if INSTALLED.exists() and "FLASHPLAY" not in os.environ else device.LAUNCHER


def numbers_of(path, endurance: int) -> dict:
    """The numbers of the device, whose blocks are taken to stand so many erases. flashplay checks the rest of the file."""
    with open(path, "rb") as source:
        head = source.read(HEAD.size)
    magic, version, *numbers = HEAD.unpack(head) if len(head) == HEAD.size else (b"", 0)
    if magic != MAGIC or version not in FORMATS:
        raise Fault(f"{path} isn't an image of format 1, 2 or 3", BROKEN)
    named = dict(zip(NAMES, numbers))
    if named["page_bytes"] % WORD_BYTES:
        raise Fault(f"{path} has pages of {named['page_bytes']:,} bytes, and the tools know pages of whole words of {WORD_BYTES} bytes")
    found = {**named, "words": named.pop("page_bytes") // WORD_BYTES, "endurance": endurance}
    device.check(found, ranges=device.IMAGE_RANGES)
    return {name: found[name] for name in device.DEFAULTS}


def copy(path, to):
    """A copy that keeps the holes. The image itself is only read."""
    done = subprocess.run(["cp", "--sparse=always", "--reflink=auto", str(path), str(to)], stderr=subprocess.PIPE, text=True)
    if done.returncode != 0:
        raise Fault(done.stderr.strip())


def play(path, trace, folder: pathlib.Path):
    """Plays the trace on a copy of the image. The folder gets the copy, the wear before and after the run, and the answers."""
    own = folder / "device.img"
    copy(path, own)
    _run(own, "/dev/null", "/dev/null", "--wear", str(folder / "before.csv"))
    _run(own, trace, folder / "answers.csv", "--wear", str(folder / "wear.csv"))


def totals(path, feed) -> device.Totals:
    """The totals of the trace that `feed` writes, played on a copy of the image."""
    with tempfile.TemporaryDirectory() as folder:
        own = pathlib.Path(folder) / "device.img"
        copy(path, own)
        return device.totals_of(device.run({}, feed, device.read_lines, ("--image", str(own), "--sync", "never"), PROGRAM))


def _run(path, trace, answers, *words):
    call = [PROGRAM, "--image", str(path), "--sync", "never", *words]
    with open(trace, "rb") as source, open(answers, "wb") as sink:
        done = subprocess.run(call, stdin=source, stdout=sink, stderr=subprocess.PIPE, text=True)
    if done.returncode != 0:
        raise Fault(f"flashplay {' '.join(call[1:])} ended with status {done.returncode}: {done.stderr.strip()}")
