"""The package as it is installed, against plain arrays; with threads; and with buffers of every kind."""

import array
import doctest
import pathlib
import random
import re
import threading
import time
import types
import unittest

import mintlintel

NUMBERS = {"blocks": 12, "pages": 8, "words": 2, "sectors": 60, "endurance": 100_000}
SHARED = {"blocks": 40, "pages": 8, "words": 2, "sectors": 200, "endurance": 1_000_000}


def page(number):
    return number.to_bytes(16, "little")


def request(op, offset, length):
    return types.SimpleNamespace(op=op, offset=offset, length=length)


class OneThread(unittest.TestCase):
    def test_device_agrees_with_array(self):
        drawn = random.Random(1)
        sectors = [None] * 60
        with mintlintel.Device(**NUMBERS) as device:
            for number in range(20_000):
                sector, call = drawn.randrange(60), drawn.randrange(4)
                was = sectors[sector] is not None
                if call == 0:
                    self.assertEqual(device.write(sector, page(number)), was)
                    sectors[sector] = page(number)
                elif call == 1:
                    self.assertEqual(device.write_new(sector, page(number)), was)
                    sectors[sector] = sectors[sector] or page(number)
                elif call == 2:
                    self.assertEqual(device.trim(sector), was)
                    sectors[sector] = None
                else:
                    self.assertEqual(device.read(sector), sectors[sector])
            counts = device.counts()
            blocks = [device.block(block) for block in range(12)]
        self.assertGreater(counts.copies, 0)
        self.assertEqual(counts.erases, sum(block.erases for block in blocks))
        self.assertEqual(sum(block.live for block in blocks), sum(value is not None for value in sectors))

    def test_refusals_of_device(self):
        device = mintlintel.Device(**NUMBERS)
        for fault, call in [
            (mintlintel.NoSuchSector, lambda: device.read(60)),
            (mintlintel.NoSuchSector, lambda: device.read(-1)),
            (mintlintel.NoSuchSector, lambda: device.trim(2**32)),
            (mintlintel.NotAPage, lambda: device.write(0, b"")),
            (mintlintel.NotAPage, lambda: device.write_new(0, bytes(17))),
            (mintlintel.NotAPage, lambda: device.read_into(0, bytearray(15))),
            (mintlintel.NoSuchBlock, lambda: device.block(12)),
            (BufferError, lambda: device.read_into(0, bytes(16))),
            (TypeError, lambda: device.write(0, "a text of 16 chs")),
            (mintlintel.BadNumbers, lambda: mintlintel.Device(**{**NUMBERS, "pages": 0})),
        ]:
            with self.assertRaises(fault):
                call()
        device.close()
        device.close()
        with self.assertRaisesRegex(mintlintel.Closed, "closed"):
            device.read(0)

    def test_refuses_numbers_beyond_32_bits(self):
        for name, text in [("luns", "luns"), ("blocks", "blocks"), ("pages", "pages"), ("words", "words"), ("sectors", "sectors"), ("endurance", "endurance")]:
            for number in (2**32 + NUMBERS.get(name, 1), 2**64 + 1, -1, -(2**32) + 1):
                for opened in (
                    lambda: mintlintel.Device(**{**NUMBERS, name: number}),
                    lambda: mintlintel.SharedDevice(hosts=1, brooms=1, **{**SHARED, name: number}),
                ):
                    with self.assertRaisesRegex(mintlintel.BadNumbers, f"^{text} out of range: "):
                        opened()
        with self.assertRaises(TypeError):
            mintlintel.Device(**{**NUMBERS, "blocks": 12.0})

    def test_refusals_name_what_was_given_and_the_limit(self):
        with mintlintel.Device(**NUMBERS) as device, mintlintel.SharedDevice(hosts=1, brooms=1, **SHARED) as shared:
            host = shared.hosts[0]
            host.write(5, page(5))
            held = host.hold(5)
            for text, code, call in [
                ("no such sector: 60 given, and it is 0 to 59", "NO_SECTOR", lambda: device.read(60)),
                ("no such sector: -1 given, and it is 0 to 59", "NO_SECTOR", lambda: device.trim(-1)),
                ("not a page: 17 bytes given, and a page has 16", "NOT_A_PAGE", lambda: device.write(0, bytes(17))),
                ("no such block: 12 given, and it is 0 to 11", "NO_SUCH_BLOCK", lambda: device.block(12)),
                ("no such block: 40 given, and it is 0 to 39", "NO_SUCH_BLOCK", lambda: shared.brooms[0].erase(40)),
                ("no such word: 2 given, and it is 0 to 1", "NO_SUCH_BLOCK", lambda: held.word(2)),
                ("not a page: 3 bytes given, and a page has 16", "NOT_A_PAGE", lambda: held.read_into(bytearray(3))),
            ]:
                with self.assertRaisesRegex(mintlintel.MintlintelError, f"^{text}$") as raised:
                    call()
                self.assertEqual(raised.exception.code, mintlintel.Code[code])

    def test_refused_numbers_name_those_that_would_do(self):
        limits = {"luns": (1, 8), "blocks": (3, 4096), "pages": (1, 16_384), "words": (1, 512), "sectors": (1, 1_048_576), "endurance": (1, 1_000_000),
                  "hosts": (1, 500), "brooms": (0, 32)}
        base = {"luns": 1, "hosts": 2, "brooms": 1, **NUMBERS, "sectors": 50}
        for opened in (mintlintel.Device, mintlintel.SharedDevice):
            for name, (least, most) in limits.items():
                if opened is mintlintel.Device and name in ("hosts", "brooms"):
                    continue
                for bad in {least - 1, most + 1, 2**40, -5}:
                    numbers = {**base, name: bad}
                    if opened is mintlintel.Device:
                        del numbers["hosts"], numbers["brooms"]
                    with self.assertRaises(mintlintel.BadNumbers) as raised:
                        opened(**numbers)
                    fault = raised.exception
                    self.assertEqual({name: getattr(fault.given, name) for name in numbers}, numbers)
                    self.assertRegex(str(fault), f"{bad} (hosts|brooms|given).* {most}.*; it would do with [a-z]+=")
                    with opened(**{name: getattr(fault.nearest, name) for name in numbers}):
                        pass
        with self.assertRaisesRegex(mintlintel.BadNumbers, "4 hosts and 1 brooms have room for .* = 48 sectors, and 60 were given; .* blocks=14$"):
            mintlintel.SharedDevice(hosts=4, brooms=1, **NUMBERS)

    def test_names_of_header(self):
        headers = pathlib.Path(__file__).parents[2] / "include"
        header = (headers / "mintlintel.h").read_text() + (headers / "mintlintel_durable.h").read_text()
        found = {}
        for enum, text in re.findall(r"^enum (\w+) \{(.*?)^\};", header, re.M | re.S):
            found[enum] = {name: int(number) for name, number in re.findall(r"MINTLINTEL_(\w+) = (\d+)", text)}
        its = {**found["mintlintel_code"], **found["mintlintel_durable_code"]}
        second_names = ("EMPTY", "NO_SUCH_WORD")
        codes = {name: number for name, number in its.items() if name not in second_names}
        self.assertEqual({f"PHASE_{phase.name}": phase.value for phase in mintlintel.Phase}, found["mintlintel_phase"])
        self.assertEqual({code.name: code.value for code in mintlintel.Code}, codes)
        version = re.search(r'MINTLINTEL_VERSION "(.*)"', header)[1]
        self.assertIn(mintlintel.__version__, (version, f"{version}, not proved"))

    def test_numbers_of_device(self):
        with mintlintel.Device(**NUMBERS) as device:
            self.assertEqual(device.numbers(), mintlintel.Numbers(luns=1, hosts=0, brooms=0, **NUMBERS))
        with self.assertRaises(mintlintel.Closed):
            device.numbers()

    def test_each_read_returns_new_bytes(self):
        with mintlintel.Device(**NUMBERS) as device:
            device.write(0, page(1))
            first = device.read(0)
            device.write(0, page(2))
            self.assertEqual((first, device.read(0), type(first)), (page(1), page(2), bytes))
            self.assertEqual((hash(first), len({first, page(1)})), (hash(page(1)), 1))

    def test_replay(self):
        log = [request("write", 0, 40), "a line without data", request("trim", 8, 32), request("read", 0, 64), request("write", 16 * 60, 16)]
        with mintlintel.Device(**NUMBERS) as device:
            played = mintlintel.replay(device, log)
            self.assertIs(next(played), log[0])
            self.assertEqual(device.counts().programs, 3)
            self.assertIs(next(played), log[2])
            self.assertEqual([device.read(sector) is None for sector in range(4)], [False, True, False, True])
            self.assertIs(next(played), log[3])
            with self.assertRaises(mintlintel.NoSuchSector):
                next(played)
            self.assertEqual([it.op for it in mintlintel.replay(device, log[4:], wrap=True)], ["write"])
            self.assertEqual(device.counts().programs, 4)
            with self.assertRaisesRegex(ValueError, "flush"):
                list(mintlintel.replay(device, [request("flush", 0, 1)]))
            for offset, length in ((-1, 4), (4, -1)):
                with self.assertRaisesRegex(ValueError, "from 0 on"):
                    list(mintlintel.replay(device, [request("write", offset, length)]))
            with self.assertRaisesRegex(ValueError, "at least 1 byte"):
                mintlintel.replay(device, [], page_bytes=0)

    def test_replay_in_pages_of_the_log(self):
        log = [request("write", 0, 4096), request("write", 4096 * 3, 8192), request("read", 0, 4096)]
        with mintlintel.Device(**NUMBERS) as device:
            self.assertEqual([it.op for it in mintlintel.replay(device, log, page_bytes=4096)], ["write", "write", "read"])
            self.assertEqual(device.counts().programs, 3)
            self.assertEqual([device.read(sector) is None for sector in range(5)], [False, True, True, False, False])

    def test_worn_out_device_can_be_read(self):
        with mintlintel.Device(blocks=3, pages=1, words=2, sectors=1, endurance=1) as device:
            last = None
            with self.assertRaises(mintlintel.WornOut):
                for number in range(100):
                    device.write(0, page(number))
                    last = page(number)
            self.assertEqual(device.read(0), last)

    def test_reads_and_writes_buffers_in_place(self):
        with mintlintel.Device(**NUMBERS) as device:
            views = [memoryview(bytes(range(16, 32))), array.array("Q", [5, 6]), memoryview(bytearray(64))[8:24]]
            for sector, written in enumerate([bytes(16), bytearray(range(16)), *views]):
                device.write(sector, written)
                for out in [bytearray(16), array.array("Q", [9, 9]), memoryview(bytearray(16))]:
                    self.assertTrue(device.read_into(sector, out))
                    self.assertEqual(bytes(out), bytes(written))
            untouched = bytearray(b"sixteen bytes...")
            self.assertFalse(device.read_into(30, untouched))
            self.assertEqual(untouched, b"sixteen bytes...")

    def test_reads_and_writes_numpy_array_in_place(self):
        import numpy

        pages = numpy.arange(32, dtype=numpy.uint8).reshape(2, 16)
        with mintlintel.Device(**NUMBERS) as device:
            device.write(0, pages[1])
            self.assertTrue(device.read_into(0, pages[0]))
        self.assertEqual(pages[0].tolist(), list(range(16, 32)))

    def test_threads_share_one_device(self):
        with mintlintel.Device(**NUMBERS) as device:
            def write(first):
                for number in range(2000):
                    device.write(first + number % 20, page(first))
            run(*(lambda first=first: write(first) for first in (0, 20, 40)))
            self.assertEqual(device.counts().programs, 6000)
            self.assertEqual([device.read(sector) for sector in (0, 25, 59)], [page(0), page(20), page(40)])

    def test_examples_in_docstrings(self):
        for module in (mintlintel, mintlintel.replaying):
            failures, tried = doctest.testmod(module, extraglobs={"Device": mintlintel.Device})
            self.assertEqual((failures, tried > 0), (0, True))


class Shared(unittest.TestCase):
    def test_hosts_read_their_writes_while_broom_collects(self):
        done = threading.Event()
        with mintlintel.SharedDevice(hosts=2, brooms=1, **SHARED) as device:
            moved = []

            def sweep():
                broom = device.brooms[0]
                while not done.is_set():
                    drained = broom.drain()
                    if isinstance(drained, mintlintel.Drained):
                        moved.append(drained.moved)
                        while broom.erase(drained.block) is mintlintel.Erase.PINNED:
                            pass

            def play(number):
                host = device.hosts[number]
                for count in range(4000):
                    sector = count * 7 % 99 * 2 + number
                    written = page(count << 8 | number)
                    while True:
                        try:
                            host.write(sector, written)
                            break
                        except mintlintel.NoBlock:
                            pass
                    self.assertEqual(host.read(sector), written)

            sweeper = threading.Thread(target=sweep)
            sweeper.start()
            try:
                run(lambda: play(0), lambda: play(1))
            finally:
                done.set()
                sweeper.join()
            self.assertGreater(sum(moved), 0)

    def test_held_page_does_not_change(self):
        with mintlintel.SharedDevice(hosts=2, brooms=1, **SHARED) as device:
            reader, writer = device.hosts
            self.assertIsNone(reader.hold(5))
            writer.write(5, page(1 << 64 | 7))
            with reader.hold(5) as held:
                writer.write(5, page(2))
                self.assertEqual((held.read(), held.word(0), held.word(1)), (page(1 << 64 | 7), 7, 1))
                self.assertEqual(held.page().generation, 0)
                for fault, call in [
                    (mintlintel.WrongKind, lambda: reader.read(5)),
                    (mintlintel.NoSuchWord, lambda: held.word(2)),
                    (mintlintel.NotAPage, lambda: held.read_into(bytearray(3))),
                ]:
                    with self.assertRaises(fault):
                        call()
            self.assertEqual(reader.read(5), page(2))
            with self.assertRaises(mintlintel.WrongKind):
                held.read()

    def test_refuses_released_page(self):
        with mintlintel.SharedDevice(hosts=1, brooms=0, **SHARED) as device:
            host = device.hosts[0]
            host.write(5, page(5))
            host.write(6, page(6))
            stale = host.hold(5)
            stale.release()
            with host.hold(6) as held:
                for call in (stale.read, stale.page, stale.release, lambda: stale.word(0), lambda: stale.read_into(bytearray(16))):
                    with self.assertRaises(mintlintel.Released):
                        call()
                with stale:
                    pass
                self.assertEqual(held.read(), page(6))
            with host.hold(6) as held:
                held.release()
                with self.assertRaises(mintlintel.Released):
                    held.release()
                self.assertEqual(host.read(6), page(6))
            with host.hold(6) as held:
                host.close()
                with self.assertRaises(mintlintel.Closed):
                    held.read()

    def test_next_call_releases_dropped_page(self):
        with mintlintel.SharedDevice(hosts=1, brooms=0, **SHARED) as device:
            host = device.hosts[0]
            host.write(5, page(5))
            calls = [
                lambda: host.read(5), lambda: host.look(5), lambda: host.read_into(5, bytearray(16)),
                lambda: host.write(5, page(5)), lambda: host.write_new(5, page(5)),
                lambda: host.hold(5) is not None, lambda: host.trim(5),
            ]
            for call in calls:
                host.hold(5)
                self.assertTrue(call())

    def test_drain_next_and_restock(self):
        Drain, Drained = mintlintel.Drain, mintlintel.Drained
        with mintlintel.SharedDevice(hosts=2, brooms=1, **SHARED) as device:
            reader, writer = device.hosts
            broom = device.brooms[0]
            self.assertEqual((broom.drain_next(), broom.restock()), (Drain.NOTHING_TO_GAIN, True))
            # Block 0 gets eight pages of one sector, and each of the next two blocks has live pages of others.
            for sector in [0] * 8 + [1] * 7 + [2] + [3] * 5 + [4, 5, 6]:
                writer.write(sector, page(sector))
            self.assertEqual((reader.look(6), reader.look(7)), (True, False))
            with self.assertRaises(mintlintel.NoSuchSector):
                reader.look(200)
            writer.trim(0)
            self.assertEqual(broom.drain(), Drained(block=0, moved=0))
            self.assertEqual(broom.drain_next(), Drained(block=1, moved=2))
            self.assertIs(broom.drain_next(), Drain.NO_SPARE)
            self.assertTrue(broom.restock())
            with reader.hold(6):
                self.assertIs(broom.drain_next(), Drain.LOST)
                self.assertIs(broom.drain_next(), Drain.NOTHING_TO_GAIN)
            self.assertEqual(broom.drain(), Drained(block=2, moved=4))

    def test_collects_up_to_its_goal(self):
        Collect, Collected = mintlintel.Collect, mintlintel.Collected
        with mintlintel.SharedDevice(hosts=2, brooms=1, blocks=8, pages=2, words=2, sectors=4, endurance=100) as device:
            host, broom = device.hosts[0], device.brooms[0]
            self.assertEqual(broom.collect(), Collected(0, 0, 0, 0, 0, 0, Collect.NOTHING_TO_GAIN))
            with self.assertRaises(mintlintel.NoBlock):
                while True:
                    host.write(0, page(1))
            with device.hosts[1].hold(0):
                self.assertEqual(broom.collect(2), Collected(2, 0, 0, 0, 0, 0, Collect.DONE))
                self.assertEqual(broom.collect(9), Collected(4, 0, 1, 0, 1, 1, Collect.PINNED))
            self.assertEqual(broom.collect(9), Collected(1, 0, 0, 0, 0, 0, Collect.NOTHING_TO_GAIN))
            self.assertTrue(host.write(0, page(2)))
            with self.assertRaises(mintlintel.NoSuchSector):
                host.write(4, page(2), within=5)
            broom.close()
            with self.assertRaises(mintlintel.Closed):
                broom.collect()

    def test_write_waits_for_a_block(self):
        with mintlintel.SharedDevice(hosts=1, brooms=1, **SHARED) as device:
            host, broom = device.hosts[0], device.brooms[0]
            with self.assertRaises(mintlintel.NoBlock):
                while True:
                    host.write(0, page(1))
            began = time.monotonic()
            with self.assertRaises(mintlintel.NoBlock):
                host.write(0, page(1), within=0.2)
            self.assertGreaterEqual(time.monotonic() - began, 0.19)
            sweeper = threading.Timer(0.1, broom.collect)
            sweeper.start()
            self.assertTrue(host.write(0, page(1), within=60))
            sweeper.join()

    def test_blocks_and_counts(self):
        Phase, State = mintlintel.Phase, mintlintel.State
        with mintlintel.SharedDevice(hosts=2, brooms=1, blocks=6, pages=2, words=2, sectors=4, endurance=2) as device:
            host, broom = device.hosts[0], device.brooms[0]
            host.write(3, page(7))
            self.assertEqual(broom.block(0), State(Phase.OPEN, readers=0, written=1, erases=0))
            self.assertEqual(broom.block(1), State(Phase.FREE, 0, 0, 0))
            with device.hosts[1].hold(3):
                self.assertEqual(broom.block(0).readers, 1)
            counts = broom.counts()
            self.assertEqual(counts, mintlintel.BlockCounts(0, 4, 2, 0, 0, 0, 0, 0, has_spare=True, is_exhausted=False))
            with self.assertRaises(mintlintel.NoSuchBlock):
                broom.block(6)
            for turn in range(100):
                with self.assertRaises(mintlintel.NoBlock):
                    while True:
                        host.write(turn % 3, page(turn))
                if broom.collect().ended is mintlintel.Collect.EXHAUSTED:
                    break
            counts = broom.counts()
            self.assertTrue(counts.is_exhausted)
            self.assertEqual((sum(counts[1:8]), counts.has_spare, counts.free + counts.drained), (6, False, 0))
            tally = broom.tally()
            self.assertEqual((tally.erases, tally.moved), (counts.erases, tally.programs))
            self.assertGreater(tally.programs, 0)
            self.assertEqual(host.read(3), page(7))

    def test_restock_on_full_device(self):
        with mintlintel.SharedDevice(hosts=1, brooms=1, **SHARED) as device:
            host, broom = device.hosts[0], device.brooms[0]
            for sector in [0] * 7 + [1]:
                host.write(sector, page(sector))
            self.assertEqual(broom.drain(), mintlintel.Drained(block=0, moved=2))
            with self.assertRaises(mintlintel.NoBlock):
                while True:
                    host.write(9, page(9))
            self.assertIs(broom.drain(), mintlintel.Drain.NO_SPARE)
            self.assertFalse(broom.restock())
            self.assertIs(broom.erase(0), mintlintel.Erase.KEPT)
            self.assertTrue(broom.restock())

    def test_drains_dead_blocks_without_a_spare(self):
        Collect, Drain, Drained = mintlintel.Collect, mintlintel.Drain, mintlintel.Drained
        with mintlintel.SharedDevice(hosts=1, brooms=1, **SHARED) as device:
            host, broom = device.hosts[0], device.brooms[0]
            self.assertIs(broom.drain_dead(), Drain.NOTHING_TO_GAIN)
            for sector in [0] * 7 + [1]:
                host.write(sector, page(sector))
            self.assertIs(broom.drain_dead(), Drain.NO_SPARE)
            self.assertEqual(broom.drain(), Drained(block=0, moved=2))
            with self.assertRaises(mintlintel.NoBlock):
                while True:
                    host.write(9, page(9))
            self.assertIs(broom.drain(), Drain.NO_SPARE)
            host.trim(9)
            self.assertEqual(broom.drain_dead(), Drained(block=1, moved=0))
            self.assertEqual(broom.drained, [0, 1])
            self.assertIs(broom.erase(1), mintlintel.Erase.KEPT)
            self.assertIs(broom.collect().ended, Collect.DONE)

    def test_numbers_of_hosts_and_brooms(self):
        wanted = mintlintel.Numbers(luns=1, hosts=2, brooms=1, **SHARED)
        with mintlintel.SharedDevice(hosts=2, brooms=1, **SHARED) as device:
            self.assertEqual([seat.numbers() for seat in [*device.hosts, *device.brooms]], [wanted] * 3)
            device.hosts[0].write(5, page(5))
            with device.hosts[0].hold(5):
                self.assertEqual(device.hosts[0].numbers(), wanted)
        with self.assertRaises(mintlintel.Closed):
            device.hosts[0].numbers()

    def test_refusals_of_broom(self):
        with mintlintel.SharedDevice(hosts=1, brooms=1, **SHARED) as device:
            broom = device.brooms[0]
            self.assertIs(broom.drain(), mintlintel.Drain.NOTHING_TO_GAIN)
            self.assertIs(broom.erase(0), mintlintel.Erase.STALE)
            with self.assertRaises(mintlintel.NoSuchBlock):
                broom.erase(40)
            broom.close()
            with self.assertRaises(mintlintel.Closed):
                broom.drain()
        for counts in ((0, 0), (501, 0), (1, 33), (-1, 0), (1, -1), (2**32 + 1, 1), (2**64 + 1, 1), (1, 2**32 + 1)):
            with self.assertRaisesRegex(mintlintel.BadNumbers, "hosts or brooms"):
                mintlintel.SharedDevice(hosts=counts[0], brooms=counts[1], **SHARED)
        with self.assertRaisesRegex(mintlintel.BadNumbers, "luns"):
            mintlintel.SharedDevice(hosts=501, brooms=33, **{**SHARED, "luns": 0})


def run(*jobs):
    """Runs these in threads, and raises the first fault of one."""
    faults = []

    def guarded(job):
        try:
            job()
        except BaseException as fault:
            faults.append(fault)

    threads = [threading.Thread(target=guarded, args=(job,)) for job in jobs]
    for thread in threads:
        thread.start()
    for thread in threads:
        thread.join()
    if faults:
        raise faults[0]


if __name__ == "__main__":
    unittest.main()
