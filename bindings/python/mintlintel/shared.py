"""A device that threads share: a host or a broom for each thread. A lock in each of them lets threads take turns at it."""

from __future__ import annotations

import ctypes
import enum
import time
import weakref
from typing import Callable, List, NamedTuple, Optional, Set, Tuple, Union

from . import _library
from ._library import LIBRARY
from .buffers import Buffer, WritableBuffer, bytes_of, new_bytes
from .codes import Code
from .faults import NoBlock, Released, checked, checked_block, checked_word, refuse_numbers
from .numbers import Numbers, number, taken
from .owning import Owner

# One more than a device may have: with more, its open refuses their number all the same.
_TOO_MANY_HOSTS, _TOO_MANY_BROOMS = 501, 33
# A write that waits comes back to Python this often, so that a signal's handler can run.
_TURN_MS = 50
_NO_BLOCK = 2**32 - 1


class Page(NamedTuple):
    """Where a held page is: its block, in this generation of the block."""

    block: int
    generation: int


class Drained(NamedTuple):
    """A block that has no live page any more, and how many pages moved. It is to be erased."""

    block: int
    moved: int


class Drain(enum.Enum):
    """Why a drain drained nothing."""

    NOTHING_TO_GAIN = 20
    NO_SPARE = 21
    LOST = 22


class Erase(enum.Enum):
    """What an erase did: the block is free, the broom's spare, or retired; or it is being read, or isn't drained."""

    FREE = 0
    KEPT = 26
    RETIRED = 23
    PINNED = 24
    STALE = 25


class Collect(enum.Enum):
    """Why a collection ended: it has reached its goal; or to pause before the next, since there is nothing to gain until hosts write or trim,
    since the broom has no spare, no block is free and each closed one has a live page, or since what is left to erase is being read; or to stop,
    since moreover none can become free unless hosts go on to trim."""

    DONE = 0
    NOTHING_TO_GAIN = 20
    NO_SPARE = 21
    PINNED = 24
    EXHAUSTED = 27


class Phase(enum.Enum):
    """What a block is, from one erase to the next; after its last one it is retired for ever."""

    FREE = 0
    OPEN = 1
    CLOSED = 2
    VICTIM = 3
    DRAINED = 4
    ERASING = 5
    RETIRED = 6


class State(NamedTuple):
    """A block: its phase, the hosts that read it, the pages that are written since its last erase (of a retired block: before it), and its erases."""

    phase: Phase
    readers: int
    written: int
    erases: int


class BlockCounts(NamedTuple):
    """The erases of all blocks, how many blocks are in each phase, and whether the broom that has counted them has a spare. `is_exhausted` says that
    no block is free and none can become free while each closed one has a live page; it is known only of a device with one broom."""

    erases: int
    free: int
    open: int
    closed: int
    victims: int
    drained: int
    erasing: int
    retired: int
    has_spare: bool
    is_exhausted: bool


class Tally(NamedTuple):
    """What a broom has done since its open: pages that it programmed for copies, those of them that became their sectors' pages, and erases."""

    programs: int
    moved: int
    erases: int


class Collected(NamedTuple):
    """What a collection did: blocks that came free, that were erased and are the broom's spare now, that were free and became its spare, and that
    were retired; live pages that were moved; and erases that a reader put off."""

    freed: int
    kept: int
    restocked: int
    retired: int
    moved: int
    pinned: int
    ended: Collect


class _Seat(Owner):
    _close_handle = LIBRARY.mintlintel_seat_close

    def __init__(self, handle: _library.Handle, numbers: Numbers) -> None:
        super().__init__(handle)
        self._numbers = numbers
        self.page_bytes = numbers.page_bytes

    def numbers(self) -> Numbers:
        """The numbers that the device was made with."""
        report = _library.Numbers()
        with self._lock:
            checked(LIBRARY.mintlintel_seat_numbers(self._handle, report))
        return Numbers.of(report)


class Host(_Seat):
    """A host, which reads and writes. No call of it waits for a broom or another host, except a write that is told to."""

    def __init__(self, handle: _library.Handle, numbers: Numbers) -> None:
        super().__init__(handle, numbers)
        # Each `Held` that may hold a page, and what C has returned for it. At most one does hold one.
        self._notes: List[Tuple[weakref.ReferenceType[Held], List[int]]] = []

    def _give_up_what_is_dropped(self) -> None:
        """Gives up the page of a `Held` that is gone."""
        for held, codes in self._notes:
            if held() is None:
                _give_up(self._handle, codes)
        self._notes = [note for note in self._notes if note[0]() is not None]

    def _called(self, call: Callable[..., int], sector: int, *arguments: object, length: Optional[int] = None) -> bool:
        """A call of a host. If it holds a page whose `Held` is gone, the page is given up first."""
        place = number(sector)
        with self._lock:
            if self._notes:
                self._give_up_what_is_dropped()
            code = call(self._handle, place, *arguments)
        return checked(code, self._numbers, sector, length)

    def read(self, sector: int) -> Optional[bytes]:
        """The page of a sector, or None for an empty one."""
        page, start = new_bytes(self.page_bytes)
        return page if self._called(LIBRARY.mintlintel_host_read, sector, start, self.page_bytes) else None

    def read_into(self, sector: int, buffer: WritableBuffer) -> bool:
        """Reads a sector into a writable buffer of one page. An empty sector leaves the buffer unchanged; then it returns False."""
        with bytes_of(buffer, writable=True) as (start, length):
            return self._called(LIBRARY.mintlintel_host_read, sector, start, length, length=length)

    def write(self, sector: int, page: Buffer, *, within: float = 0) -> bool:
        """Writes a page, any buffer of its bytes. Returns whether the sector was written. If no block is free, it pauses and tries again, up to
        `within` seconds, and then raises NoBlock."""
        end = time.monotonic() + within
        with bytes_of(page) as (start, length):
            while True:
                left = max(0, int(1000 * (end - time.monotonic()))) if within else 0
                try:
                    return self._called(LIBRARY.mintlintel_write_within, sector, start, length, min(left, _TURN_MS), length=length)
                except NoBlock:
                    if left == 0:
                        raise

    def write_new(self, sector: int, page: Buffer) -> bool:
        """Writes a page to a sector if it is empty. Returns whether the sector was written before and so is unchanged."""
        with bytes_of(page) as (start, length):
            return self._called(LIBRARY.mintlintel_host_write_new, sector, start, length, length=length)

    def trim(self, sector: int) -> bool:
        """Empties a sector. Returns whether it was written."""
        return self._called(LIBRARY.mintlintel_host_trim, sector)

    def look(self, sector: int) -> bool:
        """Whether a sector is written, by one look at its entry in the map. No page is read."""
        return self._called(LIBRARY.mintlintel_host_look, sector)

    def hold(self, sector: int) -> Optional[Held]:
        """Holds the page that has the sector's value, up to its release, or None for an empty sector. Until then the host makes no other call."""
        place, held = number(sector), Held(self)
        try:
            with self._lock:
                self._give_up_what_is_dropped()
                self._notes.append((weakref.ref(held), held._codes))
                _append_code(held._codes, LIBRARY.mintlintel_host_hold, self._handle, place)
            return held if checked(held._codes[0], self._numbers, sector) else None
        except BaseException:
            held._give_up()
            raise


def _append_code(codes: List[int], call: Callable[..., int], *arguments: object) -> None:
    """Calls C and appends what it returns. Both are steps of one call of `extend`, so no exception of a signal's handler comes in between."""
    codes.extend(map(call, *((argument,) for argument in arguments)))


def _give_up(handle: Optional[ctypes.Structure], codes: List[int]) -> None:
    """Gives up the page whose hold returned this, unless that is done."""
    if codes == [Code.WRITTEN]:
        _append_code(codes, LIBRARY.mintlintel_host_release, handle)


class Held:
    """A page that a host holds. Its block is not erased while it is held. If it isn't released, the host's next call releases it once
    nothing refers to this any more."""

    def __init__(self, host: Host) -> None:
        self._host = host
        self._codes: List[int] = []  # what C has returned of the hold, and then of the release

    def _give_up(self) -> None:
        with self._host._lock:
            _give_up(self._host._handle, self._codes)

    def _called(self, call: Callable[..., int], *arguments: object) -> int:
        """A call on the page, if the host holds this one."""
        with self._host._lock:
            if self._codes != [Code.WRITTEN]:
                raise Released("the page is released")
            return call(self._host._handle, *arguments)

    def read(self) -> bytes:
        """The page, the same each time."""
        page, start = new_bytes(self._host.page_bytes)
        checked(self._called(LIBRARY.mintlintel_host_copy, start, self._host.page_bytes))
        return page

    def read_into(self, buffer: WritableBuffer) -> None:
        """The page, into a writable buffer."""
        with bytes_of(buffer, writable=True) as (start, length):
            code = self._called(LIBRARY.mintlintel_host_copy, start, length)
        checked(code, self._host._numbers, length=length)

    def word(self, i: int) -> int:
        """Word i of the page: its eight bytes as a little-endian number."""
        word = ctypes.c_uint64()
        checked_word(self._called(LIBRARY.mintlintel_host_word, number(i), word), i, self._host._numbers)
        return word.value

    def page(self) -> Page:
        """Where the page is."""
        page = _library.Page()
        checked(self._called(LIBRARY.mintlintel_host_held, page))
        return Page(page.block, page.generation)

    def release(self) -> None:
        """Gives the page up."""
        with self._host._lock:
            if self._codes != [Code.WRITTEN]:
                raise Released("the page is released")
            self._give_up()
        checked(self._codes[1])

    def __enter__(self) -> Held:
        return self

    def __exit__(self, *fault: object) -> None:
        """Gives the page up, if it isn't released yet. A host that is closed has given it up."""
        self._give_up()


class Broom(_Seat):
    """A broom, which drains and erases blocks while hosts read and write."""

    def __init__(self, handle: _library.Handle, numbers: Numbers) -> None:
        super().__init__(handle, numbers)
        self._drained: Set[int] = set()
        # C writes the block that it has drained here. It is noted in the set by the next call, whatever has come in between.
        self._block, self._moved = ctypes.c_uint32(_NO_BLOCK), ctypes.c_uint32()

    def collect(self, goal: int = 1) -> Collected:
        """Collects until `goal` blocks have come free, or there is nothing more to gain now: see `Collect`. It erases what is drained, also by other
        brooms, drains the blocks with the fewest live pages, and takes a free block as its spare if it has lost its own, or else one without live
        pages."""
        report, blocks = _library.Collected(), number(goal)
        with self._lock:
            code = LIBRARY.mintlintel_collect(self._handle, blocks, report)
        if code not in (0, 20, 21, 24, 27):
            checked(code)
        return Collected(report.freed, report.kept, report.restocked, report.retired, report.moved, report.pinned, Collect(code))

    @property
    def drained(self) -> List[int]:
        """The blocks that this broom's drains have drained and `erase` has not erased, also if an exception came before they were returned."""
        with self._lock:
            self._note()
            return sorted(self._drained)

    def _note(self) -> None:
        if self._block.value != _NO_BLOCK:
            self._drained.add(self._block.value)
            self._block.value = _NO_BLOCK

    def drain(self) -> Union[Drained, Drain]:
        """Moves the live pages out of the closed block with the fewest. The block is to be erased."""
        return self._drain(LIBRARY.mintlintel_broom_drain)

    def drain_next(self) -> Union[Drained, Drain]:
        """Drains the next block by the survey of this broom's last `drain`, without a new survey: of the blocks that were closed then, and that
        the broom has neither drained nor found changed nor been asked to erase since, the one with the fewest live pages then."""
        return self._drain(LIBRARY.mintlintel_broom_drain_next)

    def drain_dead(self) -> Union[Drained, Drain]:
        """Drains the closed block with the fewest live pages, by a new survey, if it has none. No page moves, so no spare is needed: after a trim a
        broom without one can go on. `Drain.NO_SPARE` says that the block has a live page, or isn't closed any
        more."""
        return self._drain(LIBRARY.mintlintel_broom_drain_dead)

    def _drain(self, call: Callable[..., int]) -> Union[Drained, Drain]:
        with self._lock:
            self._note()
            code = call(self._handle, self._block, self._moved)
            drained = Drained(self._block.value, self._moved.value)
            self._note()
        if code in (20, 21, 22):
            return Drain(code)
        checked(code)
        return drained

    def restock(self) -> bool:
        """Makes a free block the spare of a broom that has none. Returns whether the broom has a spare now."""
        with self._lock:
            code = LIBRARY.mintlintel_broom_restock(self._handle)
        if code == Code.NO_SPARE:
            return False
        checked(code)
        return True

    def block(self, block: int) -> State:
        """The state of a block, by one load. The broom keeps the survey of its last drain."""
        report, place = _library.State(), number(block)
        with self._lock:
            code = LIBRARY.mintlintel_broom_block(self._handle, place, report)
        checked_block(code, block, self._numbers)
        return State(Phase(report.phase), report.readers, report.written, report.erases)

    def counts(self) -> BlockCounts:
        """How many blocks are in each phase: each block is loaded once, while other threads go on. The broom keeps its survey."""
        report = _library.BlockCounts()
        with self._lock:
            code = LIBRARY.mintlintel_broom_counts(self._handle, report)
        if code != Code.EXHAUSTED:
            checked(code)
        return BlockCounts(
            report.erases, report.free, report.open, report.closed, report.victims, report.drained, report.erasing, report.retired,
            has_spare=bool(report.spares), is_exhausted=code == Code.EXHAUSTED,
        )

    def tally(self) -> Tally:
        """What the broom has done since its open."""
        report = _library.Tally()
        with self._lock:
            checked(LIBRARY.mintlintel_broom_tally(self._handle, report))
        return Tally(report.programs, report.moved, report.erases)

    def erase(self, block: int) -> Erase:
        """Erases a drained block that nobody reads."""
        place = number(block)
        with self._lock:
            self._note()
            code = LIBRARY.mintlintel_broom_erase(self._handle, place)
            if code in (0, 23, 25, 26):
                self._drained.discard(place)
        if code not in (0, 23, 24, 25, 26):
            checked_block(code, block, self._numbers)
        return Erase(code)


class SharedDevice:
    """A device with every sector empty, its hosts and its brooms. The last of them frees it."""

    def __init__(self, *, hosts: int, brooms: int, blocks: int, pages: int, words: int, sectors: int, endurance: int, luns: int = 1) -> None:
        given = {"luns": luns, "blocks": blocks, "pages": pages, "words": words, "sectors": sectors, "endurance": endurance}
        numbers, beyond = taken({**given, "hosts": hosts, "brooms": brooms})
        host_count, broom_count = min(numbers.hosts, _TOO_MANY_HOSTS), min(numbers.brooms, _TOO_MANY_BROOMS)
        host_handles, broom_handles = (_library.Handle * (host_count or 1))(), (_library.Handle * (broom_count or 1))()
        # Each seat owns its handle before C opens it. A handle isn't moved: it stays in the array, which lives as long as any seat of it.
        self.hosts: List[Host] = [Host(host_handles[i], numbers) for i in range(host_count)]
        self.brooms: List[Broom] = [Broom(broom_handles[i], numbers) for i in range(broom_count)]
        code = LIBRARY.mintlintel_shared_open(host_handles, host_count, broom_handles, broom_count, *numbers[:6])
        if code:
            refuse_numbers(code, numbers, beyond)
        self.page_bytes = numbers.page_bytes
        self.sectors = numbers.sectors
        self.blocks = numbers.blocks

    def close(self) -> None:
        """Gives every seat up."""
        for seat in [*self.hosts, *self.brooms]:
            seat.close()

    def __enter__(self) -> SharedDevice:
        return self

    def __exit__(self, *fault: object) -> None:
        self.close()
