"""A record of a block device's run, as the nbdkit plugin writes it with record=: its steps, and the power cuts that leave different disks."""

import os
import struct
from dataclasses import dataclass

from .faults import BROKEN, Fault

HEAD, STEP = struct.Struct("<8sII"), struct.Struct("<HHIQ")
MAGIC, VERSION, MOST_LAYERS = b"\x89MNTR\r\n\x1a", 1, 16
LENGTH, BEFORE, WRITE, SYNC, FLUSH = range(1, 6)
SOME, LOST, KEPT = "some", "lost", "kept"


@dataclass
class Step:
    """A write or a sync, or the end of the record: what a cut at it finds. The writes are those of each layer up to this step, with it."""

    at: int
    kind: str
    writes: tuple
    synced: tuple  # how many of them were synced before
    flushes: int  # of clients that were answered before


@dataclass
class Cut:
    """A cut at a step: what it leaves of the writes that weren't synced, for `some` by a seed."""

    step: Step
    unsynced: str
    seed: int = 1

    def words(self) -> list:
        """The parameters of the plugin."""
        return [f"cut={self.step.at}", f"unsynced={self.unsynced}", *([f"seed={self.seed}"] if self.unsynced == SOME else [])]


def read_head(source, path) -> int:
    """How many layers the disk has."""
    head = source.read(HEAD.size)
    magic, version, layers = HEAD.unpack(head) if len(head) == HEAD.size else (b"", 0, 0)
    if (magic, version) != (MAGIC, VERSION) or not 1 <= layers <= MOST_LAYERS:
        raise Fault(f"{path} isn't a record of a block device", BROKEN)
    return layers


def heads_in(source, path):
    """The kind and the layer of all that stands in a record. A last one that isn't whole doesn't count: the server was killed then."""
    size = os.fstat(source.fileno()).st_size
    while len(head := source.read(STEP.size)) == STEP.size:
        kind, layer, count, _ = STEP.unpack(head)
        if not LENGTH <= kind <= FLUSH:
            raise Fault(f"{path} is damaged before byte {source.tell():,}", BROKEN)
        if source.seek(count, os.SEEK_CUR) <= size:
            yield kind, layer


def steps_of(path) -> list:
    """The steps of a record, and its end as one behind them."""
    with open(path, "rb") as source:
        writes = [0] * read_head(source, path)
        synced, steps, flushes = writes[:], [], 0
        for kind, layer in heads_in(source, path):
            writes[layer] += kind == WRITE
            flushes += kind == FLUSH
            if kind in (WRITE, SYNC):
                steps.append(Step(len(steps) + 1, "a write" if kind == WRITE else "a sync", tuple(writes), tuple(synced), flushes))
            if kind == SYNC:
                synced[layer] = writes[layer]
    return [*steps, Step(len(steps) + 1, "the end", tuple(writes), tuple(synced), flushes)]


def cuts_at(steps, seeds) -> list:
    """The cuts at these steps, each with seeds of its own. What leaves the same disk as another one behind as many flushes is left out."""
    cuts, seen = [], set()
    for step in steps:
        for unsynced, writes in ((LOST, step.synced), (KEPT, step.writes)):
            if (writes, step.flushes) not in seen:
                seen.add((writes, step.flushes))
                cuts.append(Cut(step, unsynced))
        if step.writes != step.synced:
            cuts += [Cut(step, SOME, step.at * seeds - seed) for seed in range(seeds)]
    return cuts
