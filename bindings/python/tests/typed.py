"""What a type checker accepts, and what it refuses: an ignored line that it would accept is a fault of --strict."""

import array
import mmap

import mintlintel
import numpy


def accepted(device: mintlintel.Device, host: mintlintel.Host, broom: mintlintel.Broom) -> None:
    for page in (bytes(16), bytearray(16), memoryview(bytes(16))):
        device.write(0, page)
        host.write(0, page)
    device.write_new(0, array.array("Q", [1, 2]))
    device.write(0, numpy.zeros(16, dtype=numpy.uint8))
    device.read_into(0, numpy.zeros(16, dtype=numpy.uint8))
    device.read_into(0, mmap.mmap(-1, 16))
    page_or_none = device.read(0)
    if page_or_none is not None:
        page_or_none.hex()
    with mintlintel.Device(blocks=12, pages=8, words=2, sectors=60, endurance=1) as other:
        other.numbers().hosts.bit_length()
    with host as same_host, broom as same_broom:
        held = same_host.hold(0)
        if held is not None:
            with held as page_held:
                page_held.page().generation.bit_length()
        same_host.write(0, bytes(16), within=0.5)
        same_broom.collect(4).ended.name.lower()
        same_broom.tally().programs.bit_length()
        mintlintel.Code.PINNED.bit_length()
        mintlintel.__version__.lower()
        drained = same_broom.drain()
        if isinstance(drained, mintlintel.Drained):
            same_broom.erase(drained.block)


def refused(device: mintlintel.Device, host: mintlintel.Host) -> None:
    device.write(0, "sixteen letters.")  # type: ignore[arg-type]
    device.write(0, 16)  # type: ignore[arg-type]
    device.read_into(0, bytes(16))  # type: ignore[arg-type]
    host.write_new(0, [1, 2])  # type: ignore[arg-type]
    device.read(0).hex()  # type: ignore[union-attr]
    host.hold(0).read()  # type: ignore[union-attr]
