"""Devices that survive power cuts: `Image`, in a file, and `ChipDevice`, on flash that the caller brings. A lock lets threads take turns."""

from __future__ import annotations

import ctypes
import operator
import os
import reprlib
import weakref
from contextlib import ExitStack
from typing import Any, Callable, ClassVar, Dict, NamedTuple, NoReturn, Optional, Tuple, Type, Union

from . import _library
from ._library import LIBRARY
from .buffers import Buffer, WritableBuffer, bytes_of, new_bytes
from .codes import Code
from .device import Block, Counts
from .faults import BadNumbers, Busy, FileFailed, MintlintelError, OtherNumbers, OtherVersion, PowerGone, checked, refuse
from .numbers import number
from .owning import Owner

STAMP_BYTES = 24
MODES = {"always": 1, "flush": 2, "never": 3}
_LIMITS = {
    Code.BAD_LUNS: "luns is 1 to 8", Code.BAD_BLOCKS: "blocks is 3 to 1048576, and a multiple of luns", Code.BAD_PAGES: "pages is 1 to 16384",
    Code.BAD_WORDS: "page_bytes is 1 to 65536", Code.BAD_SECTORS: "sectors is 1 to 268435456",
    Code.TOO_FEW_BLOCKS: "sectors is less than (blocks - 1) * pages",
}


class DurableNumbers(NamedTuple):
    """The numbers of a device that survives power cuts."""

    luns: int
    blocks: int
    pages: int
    page_bytes: int
    sectors: int

    @classmethod
    def of(cls, report: _library.DurableNumbers) -> DurableNumbers:
        return cls(*(getattr(report, name) for name in cls._fields))


def _refuse_open(code: int, given: DurableNumbers) -> NoReturn:
    """Raises the fault of an open of these numbers."""
    if code not in _LIMITS:
        refuse(code)
    raised = BadNumbers(f"{_LIMITS[Code(code)]}, and these were given: {', '.join(f'{name}={value}' for name, value in given._asdict().items())}")
    raised.code = code
    raise raised


def _refuse_file(code: int, error: int, path: str) -> None:
    """Raises the fault of a file, if the code is one: Python's own for a file that can't be opened or made."""
    if code == Code.NO_FILE:
        raise OSError(error, os.strerror(error), path)
    if code == Code.FILE_FAILED:
        raised = FileFailed(error, os.strerror(error), path)
        raised.code = code
        raise raised


def _name_of_file(path: Union[str, os.PathLike[str]]) -> bytes:
    """A path for C, which would take only what is before a NUL byte."""
    name = os.fsencode(path)
    if b"\0" in name:
        raise ValueError(f"embedded null byte in the path {os.fspath(path)!r}")
    return name


class DurableDevice(Owner):
    """A device that survives power cuts. After `PowerGone`, `FlashFailed` and `FileFailed` it has to be closed and opened again; the sector of the call
    that raised it then has what it had, or what the call gave it."""

    def __init__(self, handle: ctypes.Structure, device: _library.Durable) -> None:
        self._readers: weakref.WeakSet[Reader] = weakref.WeakSet()
        super().__init__(handle)
        self._device = device

    def _give_up(self) -> None:
        """Closes the device once no reader reads."""
        with ExitStack() as readers:
            for reader in list(self._readers):
                readers.enter_context(reader._lock)
            self._closed(type(self)._close_handle(self._handle))

    def _closed(self, code: object) -> None:
        """Raises the fault of a close, if it has one."""

    def reader(self) -> Reader:
        """A reader, for another thread. The first one of a device takes 8 bytes for each sector, and reads the stamp of each sector's page."""
        return Reader(self)

    def _called(self, call: Callable[..., int], *arguments: object) -> int:
        """Makes a call of C on the device."""
        with self._lock:
            return call(self._device, *arguments)

    def _learn(self) -> None:
        self._numbers = self.numbers()
        self.page_bytes = self._numbers.page_bytes
        self.sectors = self._numbers.sectors
        self.blocks = self._numbers.blocks

    def _checked(self, code: int, sector: int = 0, length: Optional[int] = None) -> bool:
        if code == Code.NO_SECTOR:
            refuse(code, f"{sector} given, and it is 0 to {self.sectors - 1}")
        if code == Code.NOT_A_PAGE:
            refuse(code, f"{length} bytes given, and a page has {self.page_bytes}")
        return checked(code)

    def read(self, sector: int) -> Optional[bytes]:
        """The page of a sector, or None for an empty one. `Unreadable` if its page can't be read: no older one is given for it."""
        page, start = new_bytes(self.page_bytes)
        code = self._called(LIBRARY.mintlintel_durable_read, number(sector), start, self.page_bytes)
        return page if self._checked(code, sector) else None

    def read_into(self, sector: int, buffer: WritableBuffer) -> bool:
        """Reads a sector into a writable buffer of one page. An empty sector leaves the buffer unchanged; then it returns False."""
        with bytes_of(buffer, writable=True) as (start, length):
            code = self._called(LIBRARY.mintlintel_durable_read, number(sector), start, length)
        return self._checked(code, sector, length)

    def write(self, sector: int, page: Buffer) -> bool:
        """Writes a page, any buffer of its bytes. Returns whether the sector was written."""
        with bytes_of(page) as (start, length):
            code = self._called(LIBRARY.mintlintel_durable_write, number(sector), start, length)
        return self._checked(code, sector, length)

    def write_new(self, sector: int, page: Buffer) -> bool:
        """Writes a page to a sector if it is empty. Returns whether the sector was written before and so is unchanged."""
        with bytes_of(page) as (start, length):
            code = self._called(LIBRARY.mintlintel_durable_write_new, number(sector), start, length)
        return self._checked(code, sector, length)

    def trim(self, first: int, count: int = 1) -> bool:
        """Empties sectors. Returns whether any of them was written."""
        place, many = operator.index(first), operator.index(count)
        code = self._called(LIBRARY.mintlintel_durable_trim, number(place), number(many))
        return self._checked(code, place + many - 1)

    def flush(self) -> None:
        """Returns once what was acknowledged is durable."""
        self._checked(self._called(LIBRARY.mintlintel_durable_flush))

    def counts(self) -> Counts:
        """What was programmed, copied and erased since the open."""
        totals = _library.Totals()
        self._checked(self._called(LIBRARY.mintlintel_durable_counts, totals))
        return Counts(totals.programs, totals.copies, totals.erases)

    def losses(self) -> int:
        """How many pages had become unreadable at the last mount, as far as the flash shows it: 0 unless it was opened with `despite_losses`."""
        losses = ctypes.c_uint64()
        self._checked(self._called(LIBRARY.mintlintel_durable_losses, losses))
        return losses.value

    def block(self, block: int) -> Block:
        """A block's erases as far as its stamps told them, its live pages, and whether it is bad."""
        report = _library.Block()
        code = self._called(LIBRARY.mintlintel_durable_block, number(block), report)
        if code == Code.NO_SUCH_BLOCK:
            refuse(code, f"{block} given, and it is 0 to {self.blocks - 1}")
        self._checked(code)
        return Block(report.erases, report.live, bool(report.retired))

    def numbers(self) -> DurableNumbers:
        """The numbers that the device was opened with."""
        report = _library.DurableNumbers()
        checked(self._called(LIBRARY.mintlintel_durable_numbers, report))
        return DurableNumbers.of(report)


class Image(DurableDevice):
    """A device in a sparse file. It is made if there is no such file; the numbers of one that is there can be left out.

    `mode` says what survives a power cut of the machine: with `always` each acknowledged call, with `flush` a beginning of the history that has all
    that was flushed, with `never` nothing is promised. All of them survive the end of the process, kill -9 too.

    An image of which pages have become unreadable raises `PagesLost`, unless `despite_losses`: `losses` tells then how many.

    >>> import tempfile
    >>> folder = tempfile.TemporaryDirectory()
    >>> with Image(f"{folder.name}/disk.img", blocks=8, pages=16, page_bytes=512, sectors=100) as image:
    ...     image.write(7, b"a page".ljust(512))
    False
    >>> with Image(f"{folder.name}/disk.img") as image:
    ...     image.read(7)[:6]
    b'a page'
    >>> folder.cleanup()
    """

    _close_handle: ClassVar[Callable[[Any], int]] = LIBRARY.mintlintel_image_close

    def __init__(self, path: Union[str, os.PathLike[str]], *, blocks: int = 0, pages: int = 0, page_bytes: int = 0, sectors: int = 0,
                 luns: int = 0, mode: str = "flush", despite_losses: bool = False) -> None:
        handle = _library.Image()
        super().__init__(handle, handle.device)
        if mode not in MODES:
            raise ValueError(f"a mode is one of {', '.join(MODES)}, and not {mode}")
        self._path, name = os.fspath(path), _name_of_file(path)
        given = DurableNumbers(luns or int(blocks > 0), blocks, pages, page_bytes, sectors)
        if despite_losses:
            code = LIBRARY.mintlintel_image_open_despite_losses(handle, name, MODES[mode], *map(number, given), ctypes.c_uint64())
        else:
            code = LIBRARY.mintlintel_image_open(handle, name, MODES[mode], *map(number, given))
        if code:
            self._refuse(code, given)
        self._learn()

    _path = ""

    def _refuse(self, code: int, given: DurableNumbers) -> NoReturn:
        error, head = ctypes.get_errno(), _library.ImageHead()
        if code in (Code.OTHER_NUMBERS, Code.OTHER_VERSION) and LIBRARY.mintlintel_image_look(_name_of_file(self._path), head) == 0:
            there, asked = (DurableNumbers.of(head.numbers), given) if code == Code.OTHER_NUMBERS else (f"version {head.version}", "version 1 to 3")
            raised: MintlintelError = (OtherNumbers if code == Code.OTHER_NUMBERS else OtherVersion)(f"{self._path} has {there}, and it was opened for {asked}")
            raised.code = code
            raise raised
        _refuse_file(code, error, self._path)
        _refuse_open(code, given)

    def _called(self, call: Callable[..., int], *arguments: object) -> int:
        with self._lock:
            code = call(self._device, *arguments)
            if code == Code.FILE_FAILED:
                _refuse_file(code, LIBRARY.mintlintel_image_errno(self._handle), self._path)
            return code

    def _closed(self, code: object) -> None:
        """`FileFailed` if its last sync failed; then too it is closed."""
        if isinstance(code, int) and code:
            _refuse_file(code, ctypes.get_errno(), self._path)

    def copy(self, path: Union[str, os.PathLike[str]]) -> None:
        """Copies the image as it stands into a new file, an image of its own: a snapshot."""
        name = _name_of_file(path)
        with self._lock:
            code = LIBRARY.mintlintel_image_copy(self._handle, name)
            error = ctypes.get_errno()
        _refuse_file(code, error, os.fspath(path))
        self._checked(code)


class Reader(Owner):
    """Reads a device beside the thread that writes to it: a read waits for no write, collection, erase or sync, and other threads of Python run meanwhile.
    Of a `Chip` it calls `read` beside the other methods. It answers what its sector had after a beginning of all writes and trims that were done, in their
    order, which has all that this reader has seen.

    >>> import tempfile, threading
    >>> folder = tempfile.TemporaryDirectory()
    >>> image = Image(f"{folder.name}/disk.img", blocks=8, pages=16, page_bytes=512, sectors=100)
    >>> reader = image.reader()
    >>> image.write(7, b"a page".ljust(512))
    False
    >>> thread = threading.Thread(target=lambda: print(reader.read(7)[:6]))
    >>> thread.start(); thread.join()
    b'a page'
    >>> image.close()
    >>> folder.cleanup()
    """

    _close_handle = LIBRARY.mintlintel_reader_close

    def __init__(self, device: DurableDevice) -> None:
        handle = _library.Reader()
        super().__init__(handle)
        self._of = device
        with device._lock:
            code = device._called(lambda at: int(LIBRARY.mintlintel_reader_open(handle, at)))
            device._readers.add(self)
        checked(code)

    def _called(self, call: Callable[..., int], *arguments: object) -> int:
        with self._lock:
            code = call(self._handle, *arguments)
        if code == Code.FILE_FAILED and isinstance(self._of, Image):
            _refuse_file(code, LIBRARY.mintlintel_image_errno(self._of._handle), self._of._path)
        return code

    def _read(self, sector: int, start: int, length: int) -> bool:
        code = self._called(LIBRARY.mintlintel_reader_read, number(sector), start, length)
        return self._of._checked(code, sector, length)

    def read(self, sector: int) -> Optional[bytes]:
        """The page of a sector, or None for an empty one. `Unsettled` if its page was moved at each look: read again."""
        page, start = new_bytes(self._of.page_bytes)
        return page if self._read(sector, start, self._of.page_bytes) else None

    def read_into(self, sector: int, buffer: WritableBuffer) -> bool:
        """Reads a sector into a writable buffer of one page. Of an empty sector the buffer has any bytes; then it returns False."""
        with bytes_of(buffer, writable=True) as (start, length):
            return self._read(sector, start, length)


class PageLost(Exception):
    """Raised by a `Chip` whose page can't be read."""


class PowerLost(Exception):
    """Raised by a `Chip` whose power is gone."""


class CommandFailed(Exception):
    """Raised by a `Chip` whose program or erase has failed."""


class Chip:
    """Flash that the caller brings: a class to be subclassed. A stamp has STAMP_BYTES bytes, and is programmed with its page. The methods raise PageLost,
    CommandFailed or PowerLost; any other exception counts as PowerLost, and is raised by the call. So does an answer that isn't one of the method's, which
    is raised as a TypeError or a ValueError. A method makes no call on its device: that raises `Busy`."""

    def read(self, block: int, page: int, main: bool) -> Optional[Tuple[bytes, bytes]]:
        """The bytes of a page and its stamp; None for an erased one. If not `main`, the stamp alone is asked for, and the bytes may be empty. It may raise
        PageLost."""
        raise NotImplementedError

    def program(self, block: int, page: int, main: bytes, stamp: bytes) -> None:
        """Programs an erased page; the pages of a block come in order. It may raise CommandFailed."""
        raise NotImplementedError

    def erase(self, block: int) -> None:
        """Erases a block. It may raise CommandFailed."""
        raise NotImplementedError

    def is_bad(self, block: int) -> bool:
        return False

    def mark_bad(self, block: int) -> None:
        """The block must not be used any more."""

    def sync(self) -> None:
        """Returns once each command that has succeeded is durable. It may raise CommandFailed."""


def _fill(start: int, length: int, found: object, name: str) -> None:
    """Copies what a chip has read to where C wants it."""
    try:
        view = memoryview(found)  # type: ignore[arg-type]
    except TypeError:
        raise TypeError(f"Chip.read returned {reprlib.repr(found)} for {name}, and {length} bytes are wanted") from None
    if view.nbytes != length:
        raise ValueError(f"Chip.read returned {view.nbytes} bytes for {name}, and {length} are wanted")
    ctypes.memmove(start, view.tobytes(), length)


class _CallsChip(Owner):
    """What calls the methods of a chip by way of C: a device, or a reader in another thread. A call from within a call raises `Busy`."""

    # Whether C runs, and may call the chip's methods; and what one of them has raised in this call.
    _is_calling = False
    _raised: Optional[BaseException] = None

    def _refuse_within(self) -> None:
        if self._is_calling:
            raise Busy("this call came from within another one on the device: from a method of its chip, or from a signal's handler")

    def _guarded(self, call: Callable[..., int], *arguments: object) -> int:
        with self._lock:
            self._refuse_within()
            self._raised = None
            try:
                self._is_calling = True
                code = call(*arguments)
            finally:
                self._is_calling = False
            raised, self._raised = self._raised, None
        if isinstance(raised, (CommandFailed, PageLost, PowerLost)):
            gone = PowerGone("the power is gone")
            gone.code = Code.POWER_GONE
            raise gone from raised
        if raised is not None:
            raise raised
        return code

    def _answered(self, call: Callable[..., int], fault: Union[Type[Exception], Tuple[()]] = (), code: int = 3) -> Callable[..., None]:
        """A function of C that calls a method of the chip. Its answer stays 3, power gone, until the method has ended well or raised its own fault: an
        exception of a signal's handler may leave it at any point, also before its first statement. After a fault the chip gets no other command."""
        def answer(_chip: object, *arguments: Any) -> None:
            try:
                if self._raised is None:
                    arguments[-1][0] = call(*arguments[:-1])
            except fault:
                arguments[-1][0] = code
            except BaseException as raised:  # noqa: BLE001, since it can't pass through C; the call raises it
                self._raised = raised
        return answer

    def _read_function(self, chip: Chip, length: int) -> Any:
        """The function of C that calls the chip's `read`."""
        def read(block: int, page: int, main: Optional[int], stamp: int) -> int:
            found = chip.read(block, page, main is not None)
            if found is None:
                return 1
            if not isinstance(found, (tuple, list)) or len(found) != 2:
                raise TypeError(f"Chip.read returned {reprlib.repr(found)}, and None or the bytes of a page and of its stamp are wanted")
            if main is not None:
                _fill(main, length, found[0], "the page")
            _fill(stamp, STAMP_BYTES, found[1], "the stamp")
            return 0

        return _library.ANSWERING_TYPES["read"](self._answered(read, PageLost, 2))


class ChipDevice(_CallsChip, DurableDevice):
    """A device that survives power cuts, on a `Chip`. It raises `PagesLost` as an `Image` does, unless `despite_losses`. What its chip raises a call raises,
    and then the power counts as gone: close the device, and open it again. A call from within a call raises `Busy`."""

    _close_handle = LIBRARY.mintlintel_durable_close

    def __init__(self, chip: Chip, *, blocks: int, pages: int, page_bytes: int, sectors: int, luns: int = 1,
                 despite_losses: bool = False) -> None:
        handle = _library.Durable()
        super().__init__(handle, handle)
        given = DurableNumbers(luns, blocks, pages, page_bytes, sectors)
        self._chip, self._chip_bytes = chip, number(page_bytes)
        # C calls these functions up to the close.
        self._answering, nand = _library.Answering(None, **self._functions()), _library.Nand()
        LIBRARY.mintlintel_answering_nand(nand, self._answering)
        try:
            if despite_losses:
                code = self._called(LIBRARY.mintlintel_durable_open_despite_losses, nand, *map(number, given), ctypes.c_uint64())
            else:
                code = self._called(LIBRARY.mintlintel_durable_open, nand, *map(number, given))
        except BaseException:
            self.close()
            raise
        if code:
            _refuse_open(code, given)
        self._learn()

    def close(self) -> None:
        """Gives the handle up. A second close does nothing."""
        if self._handle is not None:
            with self._lock:
                self._refuse_within()
                super().close()

    def _called(self, call: Callable[..., int], *arguments: object) -> int:
        return self._guarded(call, self._device, *arguments)

    def reader(self) -> Reader:
        """A reader, for another thread: the chip's `read` is called there too, beside its other methods. The first one takes 8 bytes for each sector, and reads
        the stamp of each sector's page."""
        return _ChipReader(self)

    def _functions(self) -> Dict[str, Any]:
        """The functions of C that call the chip's methods."""
        chip, length = self._chip, self._chip_bytes

        def is_bad(block: int) -> int:
            found = chip.is_bad(block)
            if found not in (False, True):
                raise TypeError(f"Chip.is_bad returned {reprlib.repr(found)}, and True or False is wanted")
            return int(found)

        def done(name: str, *arguments: Any) -> int:
            found = getattr(chip, name)(*arguments)
            if found is not None:
                raise TypeError(f"Chip.{name} returned {reprlib.repr(found)}, and None is wanted: what fails raises CommandFailed")
            return 0

        def program(block: int, page: int, main: int, stamp: int) -> int:
            return done("program", block, page, ctypes.string_at(main, length), ctypes.string_at(stamp, STAMP_BYTES))

        calls = {
            "program": self._answered(program, CommandFailed, 1),
            "erase": self._answered(lambda block: done("erase", block), CommandFailed, 1), "is_bad": self._answered(is_bad),
            "mark_bad": self._answered(lambda block: done("mark_bad", block)), "sync": self._answered(lambda: done("sync"), CommandFailed, 1),
        }
        return {"read": self._read_function(chip, length), **{name: _library.ANSWERING_TYPES[name](call) for name, call in calls.items()}}


class _ChipReader(_CallsChip, Reader):
    """A reader of a chip. It has a function of its own that calls the chip's `read`, so that what that raises is this reader's."""

    def __init__(self, device: ChipDevice) -> None:
        Reader.__init__(self, device)
        self._answering = _library.Answering(None, self._read_function(device._chip, device._chip_bytes))
        assert self._handle is not None
        self._handle.chip = ctypes.addressof(self._answering)

    def close(self) -> None:
        with self._lock:
            self._refuse_within()
            super().close()

    def _called(self, call: Callable[..., int], *arguments: object) -> int:
        return self._guarded(call, self._handle, *arguments)
