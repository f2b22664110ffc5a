"""model.py URI SEED REQUESTS [had]: a client that sends requests of odd places and lengths at random, and does them on a model of the disk too.

The disk is a new one, or has had just these requests, which then aren't sent. Each read, and in the end the whole disk and its map of holes, has to be
what the model says. It prints how many flushes it has sent, and how many bytes are in holes.
"""

import random
import sys

import nbd

PAGE = 4096


class Model:
    """The bytes of a disk, and which of its sectors are empty."""

    def __init__(self, count):
        self.data, self.is_empty = bytearray(count), [True] * (count // PAGE)

    def put(self, offset, data, is_whole):
        """Bytes at a place. If they needn't be written, whole sectors become empty, and empty ones stay so."""
        self.data[offset:offset + len(data)] = data
        for sector in range(offset // PAGE, -(-(offset + len(data)) // PAGE)):
            is_inside = offset <= sector * PAGE and (sector + 1) * PAGE <= offset + len(data)
            self.is_empty[sector] = not is_whole and (is_inside or self.is_empty[sector])

    def drop(self, offset, count):
        first, end = -(-offset // PAGE), (offset + count) // PAGE
        if first < end:
            self.put(first * PAGE, bytes((end - first) * PAGE), False)

    def holes(self):
        """The sectors that are empty, as runs of bytes."""
        runs = []
        for sector, is_empty in enumerate(self.is_empty):
            if is_empty and runs and runs[-1][1] == sector * PAGE:
                runs[-1][1] += PAGE
            elif is_empty:
                runs.append([sector * PAGE, (sector + 1) * PAGE])
        return runs


def request(disk, model, draw):
    """A request, on the disk if it is given: 1 for a flush."""
    kind, offset = draw.random(), draw.randrange(len(model.data))
    count = min(draw.choice((1, 700, 5000, 20_000, 150_000, 600_000)) + draw.randrange(4096), len(model.data) - offset)
    if draw.random() < 0.3:
        offset, count = offset // PAGE * PAGE, -(-count // PAGE) * PAGE
    data = random.Random(kind).randbytes(count)
    if kind < 0.45:
        model.put(offset, data, True)
        disk and disk.pwrite(data, offset)
    elif kind < 0.6:
        model.drop(offset, count)
        disk and disk.trim(count, offset)
    elif kind < 0.75:
        is_whole = kind < 0.67
        model.put(offset, bytes(count), is_whole)
        disk and disk.zero(count, offset, nbd.CMD_FLAG_NO_HOLE if is_whole else 0)
    elif kind < 0.97 and disk:
        want(disk.pread(count, offset) == model.data[offset:offset + count], f"a read of {count} bytes at {offset} has other bytes")
    elif kind >= 0.97:
        disk and disk.flush()
        return 1
    return 0


def want(is_so, text):
    if not is_so:
        sys.exit(f"model: {text}")


def holes_of(disk, count):
    """The holes that a disk tells, as runs of bytes; it need not tell all of what it is asked for at once."""
    runs, at = [], 0
    while at < count:
        told = []
        disk.block_status(count - at, at, lambda context, offset, entries, error: told.extend(entries))
        for length, flags in zip(told[::2], told[1::2]):
            if flags and runs and runs[-1][1] == at:
                runs[-1][1] += length
            elif flags:
                runs.append([at, at + length])
            at += length
    return runs


def main(uri, seed, requests, had=""):
    disk, draw = nbd.NBD(), random.Random(int(seed))
    disk.add_meta_context("base:allocation")
    disk.connect_uri(uri)
    model = Model(disk.get_size())
    flushes = sum(request(None if had else disk, model, draw) for _ in range(int(requests)))
    for offset in range(0, len(model.data), 100_000):
        count = min(100_000, len(model.data) - offset)
        want(disk.pread(count, offset) == model.data[offset:offset + count], f"the disk has other bytes from {offset} on")
    want(holes_of(disk, len(model.data)) == model.holes(), f"the holes are {holes_of(disk, len(model.data))} and not {model.holes()}")
    print(flushes, sum(end - begin for begin, end in model.holes()))


try:
    main(*sys.argv[1:])
except nbd.Error as error:
    want(False, f"a request failed: {error}")
