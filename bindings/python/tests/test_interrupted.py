"""The package under exceptions that come at any moment, as of a signal's handler; under handlers that call it; and copies of what owns a handle."""

import copy
import gc
import pickle
import random
import signal
import subprocess
import sys
import threading
import unittest

import mintlintel

NUMBERS = {"blocks": 12, "pages": 8, "words": 2, "sectors": 60, "endurance": 1_000_000}
SHARED = {"blocks": 40, "pages": 8, "words": 2, "sectors": 200, "endurance": 1_000_000}
PAGE = bytes(range(16))


class Interrupted(Exception):
    pass


def interrupt(number, frame):
    raise Interrupted


def interruptions(call, wanted, longest=6e-5):
    """Makes the call over and over, until the handler of a timer's signal has raised within it this many times. Yields after each."""
    drawn = random.Random(1)
    before, told = signal.signal(signal.SIGALRM, interrupt), sys.unraisablehook
    sys.unraisablehook = lambda fault: None if fault.exc_type is Interrupted else told(fault)
    try:
        done = 0
        while done < wanted:
            try:
                try:
                    signal.setitimer(signal.ITIMER_REAL, drawn.uniform(1e-6, longest))
                    for _ in range(1000):  # an exception in a finalizer is ignored, and then no other comes
                        call()
                finally:
                    signal.setitimer(signal.ITIMER_REAL, 0)
            except Interrupted:
                done += 1
            yield done
    finally:
        signal.signal(signal.SIGALRM, before)
        sys.unraisablehook = told


def resident():
    """How many bytes of this process are in memory."""
    with open("/proc/self/statm") as file:
        return int(file.read().split()[1]) * 4096


class Raising(unittest.TestCase):
    def test_host_holds_no_page_for_ever(self):
        with mintlintel.SharedDevice(hosts=1, brooms=1, **SHARED) as device:
            host = device.hosts[0]
            host.write(5, PAGE)

            def hold():
                with host.hold(5) as held:
                    held.word(0)

            for _ in interruptions(hold, 2000):
                self.assertEqual(host.read(5), PAGE)

    def test_host_holds_no_page_while_exception_is_kept(self):
        with mintlintel.SharedDevice(hosts=1, brooms=1, **SHARED) as device:
            host = device.hosts[0]
            host.write(5, PAGE)
            kept = []

            def hold():
                try:
                    host.hold(5)
                except Interrupted as fault:
                    kept.append(fault)
                    raise

            for _ in interruptions(hold, 1000):
                self.assertEqual(host.read(5), PAGE)

    def test_release_is_done_or_can_be_done_again(self):
        with mintlintel.SharedDevice(hosts=1, brooms=1, **SHARED) as device:
            host = device.hosts[0]
            host.write(5, PAGE)
            host.write(6, PAGE[::-1])
            held = []

            def release():
                held.append(host.hold(5))
                held[-1].release()

            for _ in interruptions(release, 1000):
                if held[-1:] in ([], [None]):
                    continue
                try:
                    held[-1].release()
                except mintlintel.Released:
                    pass
                with host.hold(6) as other:
                    self.assertEqual(other.read(), PAGE[::-1])
                    with self.assertRaises(mintlintel.Released):
                        held[-1].read()
                del held[:]

    def test_broom_knows_what_it_has_drained(self):
        with mintlintel.SharedDevice(hosts=1, brooms=1, **SHARED) as device:
            host, broom = device.hosts[0], device.brooms[0]

            def drain():
                host.write(0, PAGE, within=0.001)
                broom.drain()

            for _ in interruptions(drain, 500):
                for block in broom.drained:
                    self.assertIn(broom.erase(block), (mintlintel.Erase.FREE, mintlintel.Erase.KEPT))
                self.assertEqual(broom.drained, [])
            # Each block but the open one and the broom's spare is free or can be freed: none is lost.
            for number in range(38 * 8):
                while True:
                    try:
                        host.write(0, PAGE)
                        break
                    except mintlintel.NoBlock:
                        self.assertIsInstance(broom.drain(), mintlintel.Drained)
                        self.assertIs(broom.erase(broom.drained[0]), mintlintel.Erase.FREE)

    def test_interrupted_opens_leave_no_device(self):
        big = {**NUMBERS, "pages": 512, "words": 64}  # 3 MB

        def open_both():
            mintlintel.Device(**big)
            mintlintel.SharedDevice(hosts=2, brooms=1, **{**big, "pages": 300})

        for _ in interruptions(open_both, 50, 5e-3):
            pass
        gc.collect()
        before = resident()
        for _ in interruptions(open_both, 300, 5e-3):
            pass
        gc.collect()
        self.assertLess(resident() - before, 20_000_000)

    def test_interrupted_calls_leave_no_buffer_exported(self):
        page, out = bytearray(PAGE), bytearray(16)
        with mintlintel.Device(**NUMBERS) as device:
            def calls():
                device.write(0, page)
                device.read_into(0, out)

            for _ in interruptions(calls, 2000):
                for buffer in (page, out):
                    buffer.append(0)
                    buffer.pop()

    def test_interrupted_calls_leave_the_lock_free(self):
        with mintlintel.Device(**NUMBERS) as device:
            def calls():
                device.write(0, PAGE)
                device.read(0)

            for done in interruptions(calls, 400):
                if done % 20 == 0:
                    other = threading.Thread(target=device.counts, daemon=True)
                    other.start()
                    other.join(20)
                    self.assertFalse(other.is_alive())


# A handler that calls the device which a call is made on. Where the lock can't be taken twice by one thread, it stands still for good.
CALLED_BACK = """
import signal, mintlintel
device = mintlintel.Device(blocks=12, pages=8, words=2, sectors=60, endurance=1000)
seen = []
signal.signal(signal.SIGALRM, lambda number, frame: seen.append(device.counts().programs))
signal.setitimer(signal.ITIMER_REAL, 1e-4, 1e-4)
device.write(0, bytes(16))
while len(seen) < 500:
    assert device.read(0) == bytes(16)
signal.setitimer(signal.ITIMER_REAL, 0)
"""


class Again(unittest.TestCase):
    def test_handler_of_signal_may_call(self):
        subprocess.run([sys.executable, "-c", CALLED_BACK], check=True, timeout=60)

    def test_index_may_call(self):
        with mintlintel.Device(**NUMBERS) as device, mintlintel.SharedDevice(hosts=1, brooms=0, **SHARED) as shared:
            for disk in (device, shared.hosts[0]):
                class Reads:
                    def __index__(self):
                        disk.read(0)
                        return 5

                def calls():
                    disk.write(Reads(), PAGE)
                    disk.write_new(Reads(), PAGE)
                    disk.read_into(Reads(), bytearray(16))
                    return disk.read(Reads())

                found = []
                thread = threading.Thread(target=lambda: found.append(calls()), daemon=True)
                thread.start()
                thread.join(20)
                self.assertEqual(found, [PAGE])

    def test_handler_may_hold_a_page_of_the_same_host(self):
        with mintlintel.SharedDevice(hosts=1, brooms=0, **SHARED) as device:
            host = device.hosts[0]
            host.write(5, PAGE)
            host.write(6, PAGE[::-1])
            seen = []

            def handler(number, frame):
                try:
                    with host.hold(6) as held:
                        seen.append(held.read() == PAGE[::-1])
                except mintlintel.WrongKind:
                    pass

            before = signal.signal(signal.SIGALRM, handler)
            try:
                signal.setitimer(signal.ITIMER_REAL, 1e-4, 1e-4)
                while len(seen) < 300:
                    with host.hold(5) as held:
                        self.assertEqual(held.read(), PAGE)
            finally:
                signal.setitimer(signal.ITIMER_REAL, 0)
                signal.signal(signal.SIGALRM, before)
            self.assertTrue(all(seen))


class Copies(unittest.TestCase):
    def test_what_owns_a_handle_is_not_copied(self):
        with mintlintel.Device(**NUMBERS) as device, mintlintel.SharedDevice(hosts=1, brooms=1, **SHARED) as shared:
            for owner in (device, shared.hosts[0], shared.brooms[0]):
                for made in (copy.copy, copy.deepcopy, pickle.dumps):
                    with self.assertRaisesRegex(TypeError, f"a {type(owner).__name__} can't be copied or pickled"):
                        made(owner)
            gc.collect()
            device.write(0, PAGE)
            shared.hosts[0].write(0, PAGE)
            self.assertEqual((device.read(0), shared.hosts[0].read(0)), (PAGE, PAGE))

    def test_seats_that_were_not_made_go_quietly(self):
        told = []
        before, sys.unraisablehook = sys.unraisablehook, told.append
        try:
            for owner in (mintlintel.Device, mintlintel.Host, mintlintel.Broom):
                owner.__new__(owner)
                with self.assertRaises(TypeError):
                    owner()
            with self.assertRaises(TypeError):
                mintlintel.Device(**{**NUMBERS, "blocks": "12"})
            gc.collect()
        finally:
            sys.unraisablehook = before
        self.assertEqual(told, [])


if __name__ == "__main__":
    unittest.main()
