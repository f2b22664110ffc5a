"""Devices that survive power cuts: images against plain arrays, and chips whose power goes."""

import doctest
import errno
import os
import pathlib
import random
import subprocess
import sys
import tempfile
import threading
import types
import unittest

import mintlintel
import mintlintel.durable

NUMBERS = {"blocks": 12, "pages": 8, "page_bytes": 64, "sectors": 60}


def page(number):
    return number.to_bytes(8, "little") * 8


CLOSED_BEYOND_A_LIMIT = """
import resource, sys, mintlintel
path, mode, calls = sys.argv[1:]
def tell(fault):
    print(type(fault).__name__, fault.errno, fault.code, fault.filename)
sys.unraisablehook = lambda told: tell(told.exc_value)
image = mintlintel.Image(path, mode=mode, blocks=12, pages=8, page_bytes=64, sectors=60)
image.write(3, (3).to_bytes(8, "little") * 8)
image.flush()
resource.setrlimit(resource.RLIMIT_FSIZE, (0, resource.RLIM_INFINITY))
try:
    if calls == "with":
        with image:
            pass
    elif calls == "close":
        image.close()
    else:
        del image
except mintlintel.FileFailed as fault:
    tell(fault)
    try:
        image.read(3)
    except mintlintel.Closed:
        image.close()
print("closed")
"""

WRITTEN_BEYOND_A_LIMIT = """
import resource, sys, mintlintel
image = mintlintel.Image(sys.argv[1], mode="always", blocks=12, pages=8, page_bytes=64, sectors=60)
resource.setrlimit(resource.RLIMIT_FSIZE, (0, resource.RLIM_INFINITY))
for call in (lambda: image.write(3, bytes(64)), lambda: image.read(3)):
    try:
        call()
    except mintlintel.FileFailed as fault:
        print(fault.errno, fault.code)
"""


class Images(unittest.TestCase):
    def setUp(self):
        self.folder = tempfile.TemporaryDirectory()
        self.addCleanup(self.folder.cleanup)
        self.path = pathlib.Path(self.folder.name) / "disk.img"

    def check_sectors(self, image, sectors):
        self.assertEqual([image.read(sector) for sector in range(60)], sectors)

    def test_image_agrees_with_array_over_sessions(self):
        drawn, sectors = random.Random(1), [None] * 60
        for mode in ("always", "flush", "never") * 3:
            with mintlintel.Image(self.path, mode=mode, **NUMBERS) as image:
                self.check_sectors(image, sectors)
                for number in range(200):
                    sector, call = drawn.randrange(60), drawn.randrange(4)
                    was = sectors[sector] is not None
                    if call < 2:
                        self.assertEqual(image.write(sector, page(number)), was)
                        sectors[sector] = page(number)
                    elif call == 2:
                        self.assertEqual(image.write_new(sector, page(number)), was)
                        sectors[sector] = sectors[sector] or page(number)
                    else:
                        count = drawn.randrange(1, 61 - sector)
                        self.assertEqual(image.trim(sector, count), any(sectors[sector:sector + count]))
                        sectors[sector:sector + count] = [None] * count
                image.flush()
                self.check_sectors(image, sectors)
                self.assertGreaterEqual(image.counts().erases, 1)
                self.assertLessEqual(sum(image.block(block).live for block in range(12)), 60)

    def test_copy_is_an_image_of_its_own(self):
        copied = self.path.with_name("copy.img")
        with mintlintel.Image(self.path, **NUMBERS) as image:
            image.write(3, page(1))
            image.copy(copied)
            image.write(3, page(2))
            with self.assertRaises(FileExistsError):
                image.copy(copied)
            with mintlintel.Image(copied) as copy:
                self.assertEqual((copy.read(3), image.read(3)), (page(1), page(2)))
                self.assertEqual(copy.numbers(), mintlintel.DurableNumbers(1, 12, 8, 64, 60))

    def test_replay_plays_on_an_image(self):
        log = [types.SimpleNamespace(op="write", offset=offset, length=64) for offset in range(0, 3840, 64)]
        with mintlintel.Image(self.path, **NUMBERS) as image:
            self.assertEqual(len(list(mintlintel.replay(image, log))), 60)
            self.assertEqual(image.counts().programs, 60)

    def test_readers_see_what_is_written_beside_them(self):
        with tempfile.TemporaryDirectory() as folder, mintlintel.Image(f"{folder}/a", **NUMBERS, mode="never") as image:
            faults, done = [], [0]

            def read_on(reader):
                seen = 0
                try:
                    while seen < 300:
                        least, found = max(seen, done[0]), reader.read(3)
                        value = int.from_bytes(found[:8], "little") if found else 0
                        self.assertTrue(least <= value <= done[0] + 1)
                        self.assertEqual(found or page(0), page(value))
                        seen = value
                except BaseException as fault:
                    faults.append(fault)

            threads = [threading.Thread(target=read_on, args=(image.reader(),)) for _ in range(3)]
            for thread in threads:
                thread.start()
            for value in range(1, 301):
                image.write(3, page(value))
                done[0] = value
                image.write(4 + value % 50, page(value))
            for thread in threads:
                thread.join()
            self.assertEqual(faults, [])
            reader = image.reader()
            self.assertRaises(mintlintel.NoSuchSector, reader.read, 60)
            self.assertRaises(mintlintel.NotAPage, reader.read_into, 3, bytearray(63))
            image.close()
            self.assertRaises(mintlintel.Closed, reader.read, 3)

    def test_what_is_refused(self):
        with self.assertRaises(FileNotFoundError):
            mintlintel.Image(self.path)
        with self.assertRaisesRegex(mintlintel.BadNumbers, "sectors is less than"):
            mintlintel.Image(self.path, blocks=3, pages=2, page_bytes=8, sectors=4)
        with mintlintel.Image(self.path, **NUMBERS) as image:
            with self.assertRaises(mintlintel.InUse):
                mintlintel.Image(self.path)
            with self.assertRaisesRegex(mintlintel.NoSuchSector, "60 given"):
                image.read(60)
            with self.assertRaisesRegex(mintlintel.NotAPage, "63 bytes given"):
                image.write(0, bytes(63))
            with self.assertRaisesRegex(mintlintel.NoSuchBlock, "12 given"):
                image.block(12)
            with self.assertRaises(TypeError):
                image.__reduce_ex__(2)
        with self.assertRaises(mintlintel.Closed):
            image.read(0)
        with self.assertRaisesRegex(mintlintel.OtherNumbers, "sectors=60.*sectors=59"):
            mintlintel.Image(self.path, **{**NUMBERS, "sectors": 59})
        data = bytearray(self.path.read_bytes())
        for place, fault in ((0, mintlintel.NotAnImage), (8, mintlintel.OtherVersion), (4095, mintlintel.NotAnImage)):
            data[place] ^= 6
            self.path.write_bytes(data)
            self.assertRaises(fault, mintlintel.Image, self.path)
            data[place] ^= 6
        self.path.write_bytes(data[:-1])
        self.assertRaises(mintlintel.CutShort, mintlintel.Image, self.path)

    def test_a_path_with_a_null_byte_is_refused(self):
        with self.assertRaisesRegex(ValueError, "embedded null byte in the path '.*secret"):
            mintlintel.Image(f"{self.folder.name}/secret\0.img", **NUMBERS)
        with mintlintel.Image(self.path, **NUMBERS) as image:
            for name in (f"{self.folder.name}/copy\0.img", os.fsencode(self.folder.name) + b"/copy\0"):
                with self.assertRaisesRegex(ValueError, "embedded null byte"):
                    image.copy(name)
        self.assertEqual(os.listdir(self.folder.name), [self.path.name])

    def test_a_close_tells_that_its_sync_failed(self):
        """A file may not grow or be written beyond a limit of its process. The last write of a session is then refused."""
        for mode, calls in (("flush", "with"), ("always", "close"), ("flush", "del")):
            told = subprocess.run([sys.executable, "-c", CLOSED_BEYOND_A_LIMIT, self.path, mode, calls], capture_output=True, text=True, check=True)
            self.assertEqual(told.stdout, f"FileFailed {errno.EFBIG} 46 {self.path}\nclosed\n")
            with mintlintel.Image(self.path) as image:
                self.assertEqual(image.read(3), page(3))

    def test_a_failure_of_the_file_has_its_code(self):
        told = subprocess.run([sys.executable, "-c", WRITTEN_BEYOND_A_LIMIT, self.path], capture_output=True, text=True, check=True)
        self.assertEqual(told.stdout, f"{errno.EFBIG} 46\n" * 2)

    def test_a_folder_is_no_image(self):
        with self.assertRaises(OSError) as raised:
            mintlintel.Image(self.folder.name, **NUMBERS)
        self.assertIn(raised.exception.errno, (errno.EISDIR, errno.EPERM))


class CutChip(mintlintel.Chip):
    """A chip in memory whose power goes at a command, which then leaves a torn page, or all of it."""

    def __init__(self):
        self.pages, self.left, self.torn = {}, -1, False

    def cut(self):
        self.left -= 1
        return self.left == 0

    def read(self, block, page, main):
        found = self.pages.get((block, page))
        if found == "torn":
            raise mintlintel.PageLost
        return found

    def program(self, block, page, main, stamp):
        assert (block, page) not in self.pages
        is_cut = self.cut()
        self.pages[block, page] = "torn" if is_cut and self.torn else (main, stamp)
        if is_cut:
            raise mintlintel.PowerLost

    def erase(self, block):
        is_cut = self.cut()
        for page in range(4 if is_cut else 8):
            self.pages.pop((block, page), None)
        if is_cut:
            raise mintlintel.PowerLost


class Chips(unittest.TestCase):
    def test_no_acknowledged_write_is_lost(self):
        drawn, chip, sectors = random.Random(2), CutChip(), [None] * 60
        for session in range(200):
            chip.left, chip.torn = drawn.randrange(1, 60), drawn.random() < 0.5
            with mintlintel.ChipDevice(chip, **NUMBERS) as device:
                self.assertEqual([device.read(sector) for sector in range(60)], sectors)
                try:
                    while True:
                        sector, value = drawn.randrange(60), page(drawn.randrange(1 << 32))
                        device.write(sector, value)
                        sectors[sector] = value
                except mintlintel.PowerGone:
                    self.assertRaises(mintlintel.PowerGone, device.read, 0)
            with mintlintel.ChipDevice(chip, **NUMBERS) as device:
                self.assertIn(device.read(sector), (sectors[sector], value))
                sectors[sector] = device.read(sector)

    def test_a_lost_page_is_told(self):
        chip = CutChip()
        with mintlintel.ChipDevice(chip, **NUMBERS) as device:
            for sector in range(4):
                device.write(sector, page(sector))
            self.assertEqual(device.losses(), 0)
        chip.pages[sorted(chip.pages)[1]] = "torn"
        with self.assertRaises(mintlintel.PagesLost):
            mintlintel.ChipDevice(chip, **NUMBERS)
        with mintlintel.ChipDevice(chip, despite_losses=True, **NUMBERS) as device:
            self.assertEqual(device.losses(), 1)
            self.assertEqual([device.read(sector) for sector in range(4)], [page(0), None, page(2), page(3)])

    def test_an_exception_of_the_chip_is_raised(self):
        chip = CutChip()
        with mintlintel.ChipDevice(chip, **NUMBERS) as device:
            chip.erase = lambda block: 1 / 0
            device_of_other = mintlintel.ChipDevice(chip, **NUMBERS)
            with self.assertRaises(ZeroDivisionError):
                device_of_other.write(0, page(1))
            self.assertEqual(device.read(0), None)


def load_tests(loader, tests, pattern):
    tests.addTests(doctest.DocTestSuite(mintlintel.durable))
    return tests


if __name__ == "__main__":
    unittest.main()
