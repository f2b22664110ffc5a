"""Devices over a chip in Python: exceptions that leave a method of the chip at any point, calls from within a call, and answers that are none."""

import ctypes
import random
import signal
import sys
import threading
import unittest

import mintlintel

NUMBERS = {"blocks": 8, "pages": 8, "page_bytes": 64, "sectors": 40}


class Interrupted(Exception):
    pass


class OwnFailure(mintlintel.CommandFailed):
    pass


class OwnLoss(mintlintel.PageLost):
    pass


def page(number):
    return number.to_bytes(8, "little") * 8


class Memory(mintlintel.Chip):
    """A chip in memory. `before` is called with the name of each method, and what it returns in place of None is the method's answer."""

    def __init__(self, pages=()):
        self.pages, self.bad, self.before = dict(pages), set(), lambda name: None

    def read(self, block, page, main):
        found = self.before("read")
        return self.pages.get((block, page)) if found is None else found

    def program(self, block, page, main, stamp):
        assert (block, page) not in self.pages
        found = self.before("program")
        self.pages[block, page] = main, stamp
        return found

    def erase(self, block):
        found = self.before("erase")
        self.pages = {at: told for at, told in self.pages.items() if at[0] != block}
        return found

    def is_bad(self, block):
        found = self.before("is_bad")
        return block in self.bad if found is None else found

    def mark_bad(self, block):
        self.bad.add(block)
        return self.before("mark_bad")

    def sync(self):
        return self.before("sync")


def opened(chip, **more):
    return mintlintel.ChipDevice(chip, **NUMBERS, **more)


def filled():
    """A chip whose every sector was written, and then some again, and the numbers in them: the next writes copy and erase."""
    chip, numbers = Memory(), list(range(40))
    with opened(chip) as device:
        for number in range(40):
            device.write(number, page(number))
        for number in range(40, 120):
            device.write(number * 7 % 40, page(number))
            numbers[number * 7 % 40] = number
    return chip, numbers


class Device(unittest.TestCase):
    def check_sectors(self, chip, numbers, written=None, number=None, acknowledged=False):
        """That a new device over the chip has these numbers; the sector `written` may have this one, and has to if that was acknowledged."""
        chip.before = lambda name: None
        with opened(chip) as device:
            for sector in range(40):
                wanted = {page(numbers[sector])}
                if sector == written:
                    wanted = {page(number)} if acknowledged else wanted | {page(number)}
                self.assertIn(device.read(sector), wanted)

    def played(self, pages, numbers, play):
        """Plays a write after an open, and checks what it leaves. Returns what it raised."""
        chip, raised = Memory(pages), None
        device = opened(chip)
        try:
            play(lambda: device.write(5, page(1000)))
        except (Interrupted, RecursionError, ctypes.ArgumentError, mintlintel.PowerGone) as fault:
            raised = fault
        stopped = None
        try:
            device.read(5)
        except mintlintel.PowerGone as fault:
            stopped = fault
        device.close()
        self.check_sectors(chip, numbers, 5, 1000, raised is None)
        return raised, stopped


class Leaving(Device):
    """Exceptions that leave a method of the chip, or the function that calls it, wherever they come."""

    def setUp(self):
        told, sys.unraisablehook = sys.unraisablehook, lambda fault: None
        self.addCleanup(setattr, sys, "unraisablehook", told)
        chip, self.numbers = filled()
        # The next write copies pages and erases a block.
        drawn = random.Random(1)
        while True:
            self.pages = dict(chip.pages)
            seen = []
            chip.before = seen.append
            with opened(chip) as device:
                seen.clear()
                device.write(5, page(1000))
            if "erase" in seen and seen.count("program") > 1:
                break
            self.numbers[5] = 1000
            sector = drawn.randrange(40)
            self.pages, chip.before = None, lambda name: None
            with opened(chip) as device:
                device.write(sector, page(2000 + sector))
            self.numbers[sector] = 2000 + sector

    def test_at_each_entry_and_exit_of_a_function(self):
        """A handler's exception comes where a function begins or ends. A profiler can raise at just these places."""
        at, left, faults = 0, 0, 0
        while left == 0:
            at += 1
            left = at

            def profile(frame, event, argument):
                nonlocal left
                if event in ("call", "return") and frame.f_code.co_filename.endswith(("durable.py", "test_callbacks.py")):
                    left -= 1
                    if left == 0:
                        raise Interrupted

            def play(write):
                sys.setprofile(profile)
                try:
                    write()
                finally:
                    sys.setprofile(None)

            faults += self.played(self.pages, self.numbers, play)[0] is not None
        self.assertGreater(faults, 40)

    def test_without_room_on_the_stack(self):
        """A function whose frame has no room raises before its first statement."""
        def depth():
            frame, found = sys._getframe(), 0
            while frame:
                frame, found = frame.f_back, found + 1
            return found

        before, faults = sys.getrecursionlimit(), 0
        for room in range(3, 60):
            def play(write):
                sys.setrecursionlimit(depth() + room)
                try:
                    write()
                finally:
                    sys.setrecursionlimit(before)

            raised, _ = self.played(self.pages, self.numbers, play)
            faults += raised is not None
        self.assertTrue(0 < faults < 57)

    def test_of_a_timer(self):
        drawn, raised = random.Random(1), 0

        def interrupt(number, frame):
            raise Interrupted

        before = signal.signal(signal.SIGALRM, interrupt)
        self.addCleanup(signal.signal, signal.SIGALRM, before)
        for _ in range(300):
            def play(write):
                try:
                    signal.setitimer(signal.ITIMER_REAL, drawn.uniform(1e-6, 4e-4))
                    write()
                finally:
                    signal.setitimer(signal.ITIMER_REAL, 0)

            raised += self.played(self.pages, self.numbers, play)[0] is not None
        self.assertGreater(raised, 0)

    def test_of_an_open(self):
        """Also where it comes as the chip is asked for its bad blocks, whose answers no command follows."""
        for room in range(1, 2000):
            left = room

            def profile(frame, event, argument):
                nonlocal left
                if event == "call" and frame.f_code.co_filename.endswith(("durable.py", "test_callbacks.py")):
                    left -= 1
                    if left == 0:
                        raise Interrupted

            chip = Memory(self.pages)
            sys.setprofile(profile)
            try:
                device = opened(chip)
            except (Interrupted, mintlintel.PowerGone):
                continue
            finally:
                sys.setprofile(None)
            self.assertEqual([device.read(sector) for sector in range(40)], [page(number) for number in self.numbers])
            device.close()
            if left > 0:
                return
        self.fail("an open runs longer than that")

    def test_interrupt_is_raised_by_the_call(self):
        # Python ignores the signal if what started it does, as a shell does for what runs in the background.
        self.addCleanup(signal.signal, signal.SIGINT, signal.signal(signal.SIGINT, signal.default_int_handler))
        chip, numbers = Memory(self.pages), self.numbers
        with opened(chip) as device:
            chip.before = lambda name: signal.raise_signal(signal.SIGINT)
            with self.assertRaises(KeyboardInterrupt):
                device.write(5, page(1000))
            self.assertRaises(mintlintel.PowerGone, device.read, 5)
        self.check_sectors(chip, numbers, 5, 1000)


class Within(Device):
    """Calls from within a call."""

    def test_each_call_is_refused(self):
        chip, numbers = filled()
        device, tried = opened(chip), set()
        calls = [lambda: device.read(1), lambda: device.read_into(1, bytearray(64)), lambda: device.write(5, page(9)),
                 lambda: device.write_new(5, page(9)), lambda: device.trim(5), device.flush, device.counts, device.losses, lambda: device.block(0),
                 device.numbers, device.close]

        def before(name):
            tried.add(name)
            for call in calls:
                with self.assertRaises(mintlintel.Busy):
                    call()

        chip.before = before
        for number in range(200, 240):
            device.write(number % 40, page(number))
            numbers[number % 40] = number
        device.flush()
        self.assertEqual(tried, {"read", "program", "erase", "sync"})
        self.assertEqual(device.read(1), page(numbers[1]))
        device.close()
        self.check_sectors(chip, numbers)

    def test_one_that_is_not_caught_is_raised(self):
        chip, numbers = filled()
        with opened(chip) as device:
            chip.before = lambda name: device.write(6, page(1))
            with self.assertRaises(mintlintel.Busy):
                device.write(5, page(2))
        self.check_sectors(chip, numbers, 5, 2)

    def test_from_an_open(self):
        class Own(mintlintel.ChipDevice):
            def __init__(self, chip):
                chip.before = lambda name: self.close()
                super().__init__(chip, **NUMBERS)

        chip, numbers = filled()
        with self.assertRaises(mintlintel.Busy):
            Own(chip)
        self.check_sectors(chip, numbers)

    def test_handler_of_a_signal_that_writes(self):
        chip, numbers = filled()
        device, done = opened(chip), {"number": 300, "busy": 0, "written": 0}

        def handler(number, frame):
            number = done["number"] = done["number"] + 1
            try:
                device.write(20 + number % 20, page(number))
                numbers[20 + number % 20] = number
                done["written"] += 1
            except mintlintel.Busy:
                done["busy"] += 1

        before = signal.signal(signal.SIGALRM, handler)
        self.addCleanup(signal.signal, signal.SIGALRM, before)
        signal.setitimer(signal.ITIMER_REAL, 1e-4, 1.3e-4)
        try:
            for number in range(1 << 20, 1 << 21):
                device.write(number % 20, page(number))
                numbers[number % 20] = number
                if min(done["busy"], done["written"]) >= 100:
                    break
        finally:
            signal.setitimer(signal.ITIMER_REAL, 0)
        self.assertEqual([device.read(sector) for sector in range(40)], [page(number) for number in numbers])
        device.close()
        self.check_sectors(chip, numbers)

    def test_another_device_may_be_called(self):
        chip, numbers = filled()
        with opened(Memory()) as other, opened(chip) as device:
            chip.before = lambda name: other.trim(3, 4) or None
            device.write(5, page(5))
            self.assertEqual(other.counts().programs, 0)
        self.check_sectors(chip, numbers, 5, 5, True)

    def test_another_thread_waits(self):
        chip, _ = filled()
        begun, go_on, faults = threading.Event(), threading.Event(), []

        def before(name):
            begun.set()
            go_on.wait(20)
            raise ZeroDivisionError

        def first():
            try:
                device.write(5, page(5))
            except ZeroDivisionError as fault:
                faults.append(fault)

        with opened(chip) as device:
            chip.before = before
            threads = [threading.Thread(target=first), threading.Thread(target=device.close)]
            threads[0].start()
            begun.wait(20)
            threads[1].start()
            threads[1].join(0.1)
            self.assertTrue(threads[1].is_alive())
            go_on.set()
            for thread in threads:
                thread.join(20)
            self.assertEqual(len(faults), 1)
            self.assertRaises(mintlintel.Closed, device.read, 5)


class Answers(Device):
    """What the methods of a chip return or raise in place of an answer."""

    def check_stopped(self, name, answer, fault, text, call=None):
        """That a call whose chip answers so raises this, and that then the power is gone and nothing is lost."""
        chip, numbers = filled()
        device = opened(chip)
        chip.before = lambda told: answer if told == name else None
        with self.assertRaisesRegex(fault, text):
            for number in range(100):
                (call or (lambda: device.write(5, page(numbers[5]))))()
                (device.flush if name == "sync" else lambda: device.read(5))()
        chip.before = lambda told: None
        self.assertRaises(mintlintel.PowerGone, device.read, 5)
        device.close()
        self.check_sectors(chip, numbers)

    def test_what_a_read_may_not_return(self):
        whole, stamp = bytes(64), bytes(24)
        for answer, fault, text in [
            ((whole[:1], stamp), ValueError, "Chip.read returned 1 bytes for the page, and 64 are wanted"),
            ((whole + b"x", stamp), ValueError, "returned 65 bytes for the page, and 64"),
            ((whole, stamp[:23]), ValueError, "returned 23 bytes for the stamp, and 24"),
            ((whole, b""), ValueError, "returned 0 bytes for the stamp, and 24"),
            ((0, stamp), TypeError, "Chip.read returned 0 for the page, and 64 bytes are wanted"),
            ((whole, 0), TypeError, "returned 0 for the stamp, and 24 bytes"),
            (("a" * 64, stamp), TypeError, "returned 'aaa.*' for the page"),
            ((None, stamp), TypeError, "returned None for the page"),
            (whole, TypeError, "Chip.read returned b'.*, and None or the bytes of a page and of its stamp are wanted"),
            ((whole, stamp, 1), TypeError, "and None or the bytes"),
            (False, TypeError, "Chip.read returned False"),
            (7, TypeError, "Chip.read returned 7"),
        ]:
            with self.subTest(answer=answer):
                self.check_stopped("read", answer, fault, text)

    def test_what_a_command_may_not_return(self):
        for name in ("program", "erase", "sync"):
            for answer in (True, False, 0, 1, 3, "done"):
                with self.subTest(name=name, answer=answer):
                    self.check_stopped(name, answer, TypeError, f"Chip.{name} returned {answer!r}, and None is wanted")

    def test_what_is_bad_may_not_return(self):
        chip, numbers = filled()
        for answer in (3, -1, 2, "no", [], ()):
            chip.before = lambda name: answer if name == "is_bad" else None
            with self.assertRaisesRegex(TypeError, "Chip.is_bad returned .*, and True or False is wanted"):
                opened(chip)
        chip.is_bad = lambda block: None
        with self.assertRaisesRegex(TypeError, "Chip.is_bad returned None"):
            opened(chip)
        del chip.is_bad
        for fault in (mintlintel.PowerLost, mintlintel.CommandFailed, mintlintel.PageLost):
            def before(name):
                if name == "is_bad":
                    raise fault
            chip.before = before
            with self.assertRaises(mintlintel.PowerGone) as raised:
                opened(chip)
            self.assertIsInstance(raised.exception.__cause__, fault)
        self.check_sectors(chip, numbers)

    def test_bytes_of_any_kind(self):
        numpy = __import__("numpy")
        for kind in (bytes, bytearray, memoryview, lambda data: numpy.frombuffer(data, dtype=numpy.uint32), lambda data: memoryview(data * 2)[:len(data)]):
            chip, numbers = filled()
            read = chip.read
            chip.read = lambda *at: found if (found := read(*at)) is None else [kind(found[0]), kind(found[1])]
            chip.is_bad = lambda block: numpy.bool_(block == 99)
            with opened(chip) as device:
                self.assertEqual([device.read(sector) for sector in range(40)], [page(number) for number in numbers])

    def test_subclass_of_a_fault(self):
        chip, numbers = filled()

        def before(name):
            if name == "program" and fails:
                fails.pop()
                raise OwnFailure("status 0xE1")

        fails = [1]
        with opened(chip) as device:
            chip.before = before
            self.assertTrue(device.write(5, page(77)))
            self.assertEqual((fails, device.read(5)), ([], page(77)))
            numbers[5] = 77
        self.check_sectors(chip, numbers)
        read = chip.read

        def read_all_but_one(block, page, main):
            if (block, page) in lost:
                raise OwnLoss
            return read(block, page, main)

        with opened(chip) as device:
            lost = {at for at, found in chip.pages.items() if found[0] == device.read(5)}
            chip.read = read_all_but_one
            self.assertRaises(mintlintel.Unreadable, device.read, 5)

    def test_faults_of_another_method(self):
        """A page is not erased since a read fails as a command does, nor is a block bad."""
        for name, fault in [("read", mintlintel.CommandFailed), ("program", mintlintel.PageLost), ("erase", mintlintel.PageLost),
                            ("read", mintlintel.PowerLost), ("sync", mintlintel.PageLost), ("sync", mintlintel.PowerLost)]:
            chip, numbers = filled()

            def before(told):
                if told == name:
                    raise fault(name)

            with opened(chip) as device:
                chip.before = before
                with self.assertRaises(mintlintel.PowerGone) as raised:
                    for number in range(100):
                        device.write(5, page(numbers[5]))
                        device.read(5)
                        device.flush()
                self.assertEqual((raised.exception.code, type(raised.exception.__cause__)), (mintlintel.Code.POWER_GONE, fault))
            self.check_sectors(chip, numbers)

    def test_sync_that_fails(self):
        def before(name):
            if name == "sync":
                raise OwnFailure

        chip, numbers = filled()
        with opened(chip) as device:
            chip.before = before
            self.assertRaises(mintlintel.FlashFailed, device.flush)
        self.check_sectors(chip, numbers)


class Readers(unittest.TestCase):
    def test_see_what_is_written_beside_them(self):
        with mintlintel.ChipDevice(Memory(), **NUMBERS) as device:
            done, is_over, failed = [0] * 40, threading.Event(), []

            def read_on(reader):
                state, seen = random.Random(id(reader)), [0] * 40
                try:
                    while not is_over.is_set():
                        sector = state.randrange(40)
                        least = max(seen[sector], done[sector])
                        try:
                            found = reader.read(sector)
                        except mintlintel.Unsettled:
                            continue
                        seen[sector] = int.from_bytes(found[:8], "little") if found else 0
                        assert seen[sector] >= least and (found is None or found == page(seen[sector]))
                except BaseException as fault:
                    failed.append(fault)

            threads = [threading.Thread(target=read_on, args=(device.reader(),)) for _ in range(3)]
            for thread in threads:
                thread.start()
            draw = random.Random(1)
            for value in range(1, 1500):
                sector = draw.randrange(40)
                device.write(sector, page(value))
                done[sector] = value
            is_over.set()
            for thread in threads:
                thread.join()
            self.assertEqual(failed, [])
            reader = device.reader()
            self.assertEqual([reader.read(sector) for sector in range(40)], [device.read(sector) for sector in range(40)])
            self.assertRaises(mintlintel.NoSuchSector, reader.read, 40)
        self.assertRaises(mintlintel.Closed, reader.read, 3)

    def test_raise_what_their_chip_raises(self):
        chip = Memory()
        with mintlintel.ChipDevice(chip, **NUMBERS) as device:
            device.write(3, page(1))
            reader, other = device.reader(), device.reader()

            def before(name):
                if threading.current_thread() is not threading.main_thread():
                    raise Interrupted(name)

            chip.before = before
            raised = []

            def read():
                for _ in range(2):
                    try:
                        reader.read(3)
                    except Interrupted as fault:
                        raised.append(str(fault))

            thread = threading.Thread(target=read)
            thread.start()
            thread.join()
            self.assertEqual(raised, ["read", "read"])
            self.assertEqual((device.read(3), other.read(3), reader.read(3)), (page(1),) * 3)
            chip.before = lambda name: reader.read(3)
            self.assertRaises(mintlintel.Busy, reader.read, 3)
            chip.before = lambda name: None
            self.assertEqual(reader.read(3), page(1))


if __name__ == "__main__":
    unittest.main()
