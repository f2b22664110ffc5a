"""history.py URI STATE SEED MOST [SINCE [LAYERS]]: a client that knows what a disk may hold after a power cut, or after the end of its server.

It first compares the disk with STATE, where an earlier run has noted what it did. The disk has to hold the sectors as they were after some
number of its steps, of which there are at least those up to its last flush or write with FUA, or with `answered` as SINCE all those that were
answered. Each of several layers is a disk of its own here, with steps of its own. Then it writes, trims and flushes at random, one request
after the other, until the server is gone or MOST requests were answered, and notes what it did. It prints how many steps were answered since
the last flush, and how many of these the disk has.
"""

import json
import pathlib
import random
import sys

import nbd

PAGE, STRIPE = 4096, 32


def pages_of(disk, sectors):
    """The number in each page; a page that is no copy of one number ends the program."""
    numbers = []
    for first in range(0, sectors, 256):
        many = min(256, sectors - first)
        data = disk.pread(many * PAGE, first * PAGE)
        for at in range(many):
            page = bytes(data[at * PAGE:(at + 1) * PAGE])
            if page != page[:8] * (PAGE // 8):
                sys.exit(f"sector {first + at} is torn")
            numbers.append(int.from_bytes(page[:8], "little"))
    return numbers


def steps_that_fit(found, flushed, steps):
    """The counts of steps after which the sectors are as they were found, as the bits of a number."""
    fit, changes = (1 << len(steps) + 1) - 1, {}
    for count, (sector, number) in enumerate(steps, 1):
        changes.setdefault(sector, []).append((count, number))
    for sector, number in found:
        times, at, value = 0, 0, flushed[sector]
        for count, later in [*changes.get(sector, ()), (len(steps) + 1, None)]:
            if value == number:
                times |= (1 << count) - (1 << at)
            at, value = count, later
        if not times:
            sys.exit(f"sector {sector} has {number}, which it had at no time since the flush")
        fit &= times
    return fit


def compare_layer(found, state, since, is_of_layer):
    """How many of the answered steps of a layer it has, if it may hold what was found."""
    steps = [(is_of_layer(sector), sector, number) for sector, number in state["steps"]]
    answered = sum(its for its, _, _ in steps[:state["answered"]])
    least = answered if since == "answered" else sum(its for its, _, _ in steps[:state["least"]])
    fit = steps_that_fit([it for it in enumerate(found) if is_of_layer(it[0])], state["flushed"], [step[1:] for step in steps if step[0]])
    if not fit >> least:
        sys.exit(f"lost: {least} steps had to be there, and the disk has {fit.bit_length() - 1}" if fit else "no number of steps gives what the disk has")
    return min(answered, fit.bit_length() - 1)


def compare(disk, state, sectors, since, layers):
    """What the disk holds, if it may hold that."""
    found = pages_of(disk, sectors)
    print(state["answered"], sum(compare_layer(found, state, since, lambda sector: sector // STRIPE % layers == layer) for layer in range(layers)))
    return found


def requests(disk, state, sectors, draw):
    """A request, with its steps noted before it is sent, and its answer after it."""
    kind, first = draw.random(), draw.randrange(sectors)
    many = min(draw.choice((1, 1, 1, 2, 4, 8)), sectors - first)
    if kind < 0.02:
        disk.flush()
        for sector, number in state["steps"]:
            state["flushed"][sector] = number
        state["steps"].clear()
        state["least"] = 0
    elif kind < 0.1:
        state["steps"] += [(sector, 0) for sector in range(first, first + many)]
        disk.trim(many * PAGE, first * PAGE)
    else:
        numbers = range(state["number"] + 1, state["number"] + many + 1)
        state["number"] += many
        state["steps"] += zip(range(first, first + many), numbers)
        is_forced = kind < 0.15
        disk.pwrite(b"".join(number.to_bytes(8, "little") * (PAGE // 8) for number in numbers), first * PAGE, nbd.CMD_FLAG_FUA if is_forced else 0)
        if is_forced:
            state["least"] = len(state["steps"])
    state["answered"] = len(state["steps"])


def has_ended(error):
    """An error that is told by the server, and not of its end, ends the program."""
    if error.errno in ("EIO", "ENOSPC", "EINVAL"):
        sys.exit(f"a request failed: {error}")


def main(uri, path, seed, most, since="", layers=1):
    path, draw = pathlib.Path(path), random.Random(int(seed))
    disk = nbd.NBD()
    try:
        disk.connect_uri(uri)
    except nbd.Error:  # the server has ended meanwhile, of which the library may tell an invalid state
        print(0, 0)
        return
    try:
        sectors = disk.get_size() // PAGE
        state = json.loads(path.read_text()) if path.exists() else {"number": 0, "flushed": [0] * sectors, "steps": [], "answered": 0, "least": 0}
        state["flushed"] = compare(disk, state, sectors, since, int(layers))
    except nbd.Error as error:  # the server has ended before that: all stays as it is noted
        has_ended(error)
        print(0, 0)
        return
    state["steps"], state["answered"], state["least"] = [], 0, 0
    try:
        for _ in range(int(most)):
            requests(disk, state, sectors, draw)
    except nbd.Error as error:
        has_ended(error)
    path.write_text(json.dumps(state))


main(*sys.argv[1:])
