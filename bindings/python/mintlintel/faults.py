"""The faults: each code of C that refuses a call, by its meaning."""

from __future__ import annotations

from typing import Dict, NoReturn, Optional, Tuple, Type

from .codes import Code
from .numbers import Numbers, explained, nearest


class MintlintelError(Exception):
    """A call that was refused. It has changed nothing. `code` is what C returned."""

    code: int = 0


class Closed(MintlintelError):
    """The device, or the seat, is closed."""


class NoSuchSector(MintlintelError):
    """The device has no such sector."""


class NotAPage(MintlintelError):
    """The buffer is not as long as a page."""


class WornOut(MintlintelError):
    """One thread: no page is left for a write, and none can be reclaimed."""


class OutOfMemory(MintlintelError, MemoryError):
    """There is no memory for the device."""


class NoBlock(MintlintelError):
    """Shared: no block is free for a write. Let a broom collect, pause, and try again a bounded number of times: `write(.., within=SECONDS)`."""


class WrongKind(MintlintelError):
    """The host holds a page, or holds none."""


class Released(WrongKind):
    """The page of this `Held` is released."""


class NoSuchBlock(MintlintelError):
    """The device has no such block."""


class NoSuchWord(MintlintelError):
    """A page has no such word."""


class NoRoom(MintlintelError):
    """Bad blocks have left too few blocks for the sectors. An open device can be read still; the sector of the call has what it had, or what the call
    gave it."""


class Busy(MintlintelError):
    """A call on a `ChipDevice` from within one: from a method of its chip, or from a signal's handler that runs in one. Make it after that call."""


class PowerGone(MintlintelError):
    """The chip's power is gone. Close the device, and open it again."""


class FlashFailed(MintlintelError):
    """The flash failed a sync. Close the device, and open it again."""


class OtherDevice(MintlintelError):
    """The flash holds another device."""


class OutOfNumbers(MintlintelError):
    """The numbers of versions have run out."""


class Unreadable(MintlintelError):
    """The sector's page can't be read, and no older one is given for it."""


class Unsettled(MintlintelError):
    """A reader's page was moved whenever it looked: read again."""


class PagesLost(MintlintelError):
    """Pages have become unreadable, and older versions may stand for them. `despite_losses=True` opens the device all the same."""


class InUse(MintlintelError):
    """Another handle has the image open."""


class NotAnImage(MintlintelError):
    """The file is no image, or its head is damaged."""


class OtherVersion(MintlintelError):
    """The image has a format of another version."""


class OtherNumbers(MintlintelError, ValueError):
    """The image's device has other numbers."""


class CutShort(MintlintelError):
    """The file is shorter than its device."""


class FileFailed(MintlintelError, OSError):
    """The file failed: `errno` says why. After a call on an open image close it, and open it again; nothing that was acknowledged is lost, unless a
    sync failed."""


class OtherProcess(MintlintelError):
    """Another process has opened the image: this one is its child. A close gives up the child's copy of the handle, and leaves the file as it is."""


class BadBlocksListed(MintlintelError):
    """A block device has listed bad blocks beside the image, and only a block device opens it."""


class BadNumbers(MintlintelError, ValueError):
    """The numbers of a new device are refused: `given`; a device of the numbers `nearest` would open."""

    given: Numbers
    nearest: Numbers


_FAULTS: Dict[int, Tuple[Type[MintlintelError], str]] = {
    Code.CLOSED: (Closed, "it is closed"),
    Code.NO_SECTOR: (NoSuchSector, "no such sector"),
    Code.NOT_A_PAGE: (NotAPage, "not a page"),
    Code.WORN_OUT: (WornOut, "worn out"),
    Code.NO_MEMORY: (OutOfMemory, "out of memory"),
    Code.NO_BLOCK: (NoBlock, "no block is free"),
    Code.WRONG_KIND: (WrongKind, "the host holds a page, or none"),
    Code.NO_SUCH_BLOCK: (NoSuchBlock, "no such block"),
    Code.EXHAUSTED: (NoRoom, "bad blocks have left no room"),
    Code.NO_ROOM: (NoRoom, "bad blocks have left no room"),
    Code.POWER_GONE: (PowerGone, "the power is gone"),
    Code.FAILED: (FlashFailed, "the flash failed"),
    Code.OTHER_DEVICE: (OtherDevice, "the flash holds another device"),
    Code.NO_NUMBER: (OutOfNumbers, "the numbers have run out"),
    Code.UNREADABLE: (Unreadable, "the page can't be read"),
    Code.UNSETTLED: (Unsettled, "the sector's page was moved at each look"),
    Code.PAGES_LOST: (PagesLost, "pages have become unreadable, and older versions may stand for them"),
    Code.IN_USE: (InUse, "the image is in use"),
    Code.NOT_AN_IMAGE: (NotAnImage, "not an image, or its head is damaged"),
    Code.CUT_SHORT: (CutShort, "the image is cut short"),
    Code.OTHER_PROCESS: (OtherProcess, "another process has opened the image"),
    Code.BAD_BLOCKS_LISTED: (BadBlocksListed, "bad blocks are listed beside the image, which only a block device opens"),
}


def refuse(code: int, more: str = "") -> NoReturn:
    """Raises the fault of a code, with more about it: what was given, and the limit."""
    fault, text = _FAULTS.get(code, (MintlintelError, f"code {code}"))
    raised = fault(f"{text}: {more}" if more else text)
    raised.code = code
    raise raised


def refuse_numbers(code: int, numbers: Numbers, beyond: Dict[str, int]) -> NoReturn:
    """Raises the fault of an open of these numbers."""
    if code < Code.BAD_LUNS:
        refuse(code)
    raised = BadNumbers(explained(code, numbers, beyond))
    wanted = numbers._replace(hosts=1) if code == Code.BAD_SEATS and numbers.hosts == 0 else numbers
    raised.code, raised.given, raised.nearest = code, numbers._replace(**beyond), nearest(wanted)
    raise raised


def checked(code: int, numbers: Optional[Numbers] = None, sector: int = 0, length: Optional[int] = None) -> bool:
    """Whether the code is 1, of the codes 0 and 1; any other is raised as its fault."""
    if code > 1:
        if numbers is not None and code == Code.NO_SECTOR:
            refuse(code, f"{sector} given, and it is 0 to {numbers.sectors - 1}")
        if numbers is not None and code == Code.NOT_A_PAGE:
            refuse(code, f"{length} bytes given, and a page has {numbers.page_bytes}")
        refuse(code)
    return code == 1


def checked_block(code: int, block: int, numbers: Numbers) -> None:
    """Raises the fault of a call on a block, if it is one."""
    if code == Code.NO_SUCH_BLOCK:
        refuse(code, f"{block} given, and it is 0 to {numbers.blocks - 1}")
    checked(code)


def checked_word(code: int, i: int, numbers: Numbers) -> None:
    """Raises the fault of a call on a word of a page, if it is one."""
    if code == Code.NO_SUCH_BLOCK:
        raised = NoSuchWord(f"no such word: {i} given, and it is 0 to {numbers.words - 1}")
        raised.code = code
        raise raised
    checked(code)
