"""A flash translation layer with proofs: `Device` for one thread, `SharedDevice` for many, and `Image`, a device in a file that survives power cuts.

>>> import mintlintel
>>> with mintlintel.Device(blocks=24, pages=64, words=64, sectors=1000, endurance=1000) as device:
...     device.write(7, b"a page".ljust(512))
...     device.read(7)[:6]
False
b'a page'
"""

from ._library import VERSION as __version__
from .buffers import Buffer, WritableBuffer
from .codes import Code
from .device import Block, Counts, Device
from .durable import Chip, ChipDevice, CommandFailed, DurableDevice, DurableNumbers, Image, PageLost, PowerLost, Reader
from .faults import (
    BadBlocksListed, BadNumbers, Busy, Closed, CutShort, FileFailed, FlashFailed, InUse, MintlintelError, NoBlock, NoRoom, NoSuchBlock, NoSuchSector,
    NoSuchWord, NotAPage, NotAnImage, OtherDevice, OtherNumbers, OtherProcess, OtherVersion, OutOfMemory, OutOfNumbers, PagesLost, PowerGone, Released,
    Unreadable, Unsettled, WornOut, WrongKind,
)
from .numbers import Numbers, nearest
from .replaying import Request, replay
from .shared import BlockCounts, Broom, Collect, Collected, Drain, Drained, Erase, Held, Host, Page, Phase, SharedDevice, State, Tally

__all__ = [
    "BadBlocksListed", "BadNumbers", "Block", "BlockCounts", "Broom", "Buffer", "Busy", "Chip", "ChipDevice", "Closed", "Code", "Collect", "Collected",
    "CommandFailed", "Counts", "CutShort", "Device", "Drain", "Drained", "DurableDevice", "DurableNumbers", "Erase",
    "FileFailed", "FlashFailed", "Held", "Host", "Image", "InUse", "MintlintelError", "NoBlock", "NoRoom", "NoSuchBlock",
    "NoSuchSector", "NoSuchWord", "NotAPage", "NotAnImage", "Numbers", "OtherDevice", "OtherNumbers", "OtherProcess", "OtherVersion",
    "OutOfMemory", "OutOfNumbers", "Page", "PageLost", "PagesLost", "Phase", "PowerGone", "PowerLost", "Reader", "Released", "Request", "SharedDevice",
    "State", "Tally", "Unreadable", "Unsettled", "WornOut", "WritableBuffer", "WrongKind", "__version__", "nearest", "replay",
]
