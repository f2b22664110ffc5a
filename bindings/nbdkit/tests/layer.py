"""The layer of an image, counted again: which commands a write gives to the flash, and when a part's LUNs are done with them.

It is written from docs/ARCHITECTURE.md and the contracts of the crate `durable`, and shares nothing with the plugin."""


class Lun:
    """What one LUN does: each command as early as it can."""

    def __init__(self):
        self.busy = []

    def take(self, begin, length):
        for start, end in self.busy:
            if start >= begin + length:
                break
            begin = max(begin, end)
        self.busy = sorted([*self.busy, (begin, begin + length)])
        return begin + length


class Ranking:
    """The blocks in the order of their live pages: a block that gains or loses one changes places with the last or first of its count."""

    def __init__(self, erases, pages):
        blocks = len(erases)
        self.order, self.live, self.starts = list(range(blocks)), [0] * blocks, [0, *[blocks] * (pages + 1)]
        self.erases = erases

    def _exchange(self, block, place):
        other, mine = self.order[place], self.order.index(block)
        self.order[place], self.order[mine] = block, other

    def gains(self, block):
        self.live[block] += 1
        self.starts[self.live[block]] -= 1
        self._exchange(block, self.starts[self.live[block]])

    def loses(self, block):
        self._exchange(block, self.starts[self.live[block]])
        self.starts[self.live[block]] += 1
        self.live[block] -= 1

    def _least_erased(self, block, beside):
        """Of a block and of the eight behind it, as far as they have as many live pages, the least erased. One whose number is less than a quarter of
        all blocks away from that of the block beside counts an erase more."""

        def worn(block):
            return self.erases[block] + (beside is not None and abs(block - beside) < len(self.order) // 4)

        for other in self.order[self.order.index(block) + 1 :][:8]:
            if self.live[other] != self.live[block]:
                break
            if other != beside and worn(other) < worn(block):
                block = other
        return block

    def fewest(self, beside):
        block = next(block for block in self.order if block != beside)
        return self._least_erased(block, beside) if self.live[block] else block

    def free(self, turn):
        """A block without live pages: of a few, which are others in each turn, the least erased."""
        return self._least_erased(self.order[turn % self.starts[1]], None)


class Layer:
    """Where each sector is, and the page to be programmed next. `pages_of` has the sector of each page of a block, or None; `stamps` has each version's
    number, and the erases of the block that it was first programmed to."""

    def __init__(self, blocks, pages):
        self.pages, self.place, self.number = pages, {}, 0
        self.pages_of, self.stamps = [[None] * pages for _ in range(blocks)], [{} for _ in range(blocks)]
        self.mount()

    def mount(self):
        """A block's erases are those that its newest version tells."""
        erases = [max(stamps.values(), default=(0, 0))[1] for stamps in self.stamps]
        self.next, self.hand, self.turn, self.ranking = None, 0, 0, Ranking(erases, self.pages)
        for sector in sorted(self.place):
            self.ranking.gains(self.place[sector][0])

    def _put(self, sector, stamp):
        block, page = self.next
        self.stamps[block][page] = stamp
        if sector in self.place:
            old, at = self.place[sector]
            self.pages_of[old][at] = None
            self.ranking.loses(old)
        self.place[sector] = self.next
        self.pages_of[block][page] = sector
        self.ranking.gains(block)
        self.next = (block, page + 1) if page + 1 < self.pages else None

    def write(self, sector):
        """The commands of a write, in order: their kind, and the blocks that they are of."""
        while True:
            if self.next is None:
                block = self.ranking.free(self.turn)
                self.next, self.turn, self.pages_of[block], self.stamps[block] = (block, 0), self.turn + 1, [None] * self.pages, {}
                self.ranking.erases[block] += 1
                yield "erase", block, block
                continue
            block = self.next[0]
            victim = self.ranking.fewest(block)
            if self.ranking.live[victim] == 0:
                self.number += 1
                self._put(sector, (self.number, self.ranking.erases[block]))
                yield "program", block, block
                return
            else:
                live = [page for page, its in enumerate(self.pages_of[victim]) if its is not None]
                self.hand = min(live, key=lambda page: (page < self.hand, page))
                self._put(self.pages_of[victim][self.hand], self.stamps[victim][self.hand])
                yield "copy", victim, block


class Timed:
    """The layer over LUNs that take a part's times, in microseconds. `busy` is what all commands so far take together."""

    def __init__(self, layer, luns, times):
        self.layer, self.luns, self.times, self.known, self.busy = layer, [Lun() for _ in range(luns)], times, set(), 0
        self.of_one = len(layer.pages_of) // luns

    def _take(self, block, begin, *names):
        length = sum(self.times[name] for name in names)
        self.busy += length
        return self.luns[block // self.of_one].take(begin, length)

    def read(self, sector, begin):
        return self._take(self.layer.place[sector][0], begin, "read", "transfer") if sector in self.layer.place else begin

    def write(self, sector, begin):
        """Before the first write of a sector the stamp of its page is read."""
        end = begin if sector in self.known else self.read(sector, begin)
        self.known.add(sector)
        for kind, source, block in self.layer.write(sector):
            if kind == "erase":
                end = self._take(block, end, "erase")
            elif kind == "program":
                end = self._take(block, end, "transfer", "program")
            elif source // self.of_one == block // self.of_one:
                end = self._take(block, end, "read", "program")
            else:
                end = self._take(block, self._take(source, end, "read", "transfer"), "transfer", "program")
        return end
