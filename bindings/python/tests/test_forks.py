"""A process that forks with devices open: what its child does, or how it ends, changes nothing for it."""

import os
import subprocess
import sys
import tempfile
import threading
import time
import unittest

import mintlintel

SMALL = {"blocks": 12, "pages": 8, "words": 2, "sectors": 60, "endurance": 1_000_000}


# What a child does with its copy of an image's handle, while the parent goes on; and the number of calls that were refused to it.
FORKED = """
import gc, multiprocessing, os, sys, mintlintel
path, mode, ends = sys.argv[1:]

def page(number):
    return number.to_bytes(8, "little") * 64

def calls():
    refused = 0
    for call in (lambda: image.read(3), lambda: image.write(3, page(9)), lambda: image.trim(0, 300), image.flush, lambda: image.copy(path + ".copy")):
        try:
            call()
        except mintlintel.OtherProcess as fault:
            refused += fault.code == 47
    image.close()
    return refused

def child():
    global image
    os.read(written, 1)
    if ends == "exit":
        sys.exit(0)
    elif ends == "with":
        with image:
            sys.exit(0)
    elif ends == "collected":
        image = None
        gc.collect()
        os._exit(0)
    else:
        os._exit(calls())

image = mintlintel.Image(path, blocks=24, pages=16, page_bytes=512, sectors=300, mode=mode)
for sector in range(300):
    image.write(sector, page(sector))
image.flush()
written, wrote = os.pipe()
if ends == "multiprocessing":
    process = multiprocessing.get_context("fork").Process(target=child)
    process.start()
else:
    process = os.fork()
    if process == 0:
        child()
for number in range(1, 5):
    for sector in range(300):
        image.write(sector, page(1000 * number + sector))
    image.flush()
os.write(wrote, b"x")
if ends == "multiprocessing":
    process.join()
    status = process.exitcode
else:
    status = os.waitstatus_to_exitcode(os.waitpid(process, 0)[1])
wrong = sum(image.read(sector) != page(4000 + sector) for sector in range(300))
image.write(7, page(7))
image.close()
with mintlintel.Image(path) as image:
    wrong += sum(image.read(sector) != page(7 if sector == 7 else 4000 + sector) for sector in range(300))
print(status, wrong, os.path.exists(path + ".copy"))
"""


class Forks(unittest.TestCase):
    def test_image_that_a_child_has_too(self):
        for mode in ("always", "flush", "never"):
            for ends, status in (("exit", 0), ("with", 0), ("collected", 0), ("calls", 5), ("multiprocessing", 5)):
                with self.subTest(mode=mode, ends=ends), tempfile.TemporaryDirectory() as folder:
                    given = [sys.executable, "-c", FORKED, f"{folder}/disk.img", mode, ends]
                    told = subprocess.run(given, capture_output=True, text=True, timeout=120, check=False)
                    self.assertEqual((told.stdout, told.stderr, told.returncode), (f"{status} 0 False\n", "", 0))

    def check_ended(self, child, seconds=20):
        """That a child has ended well in this time."""
        end = time.monotonic() + seconds
        while time.monotonic() < end:
            ended, status = os.waitpid(child, os.WNOHANG)
            if ended:
                self.assertEqual(os.waitstatus_to_exitcode(status), 0)
                return
            time.sleep(0.01)
        os.kill(child, 9)
        os.waitpid(child, 0)
        self.fail("the child hasn't ended")

    def test_child_waits_for_no_thread(self):
        """A thread of the parent is always in a call, and isn't there in a child."""
        device, done = mintlintel.Device(**SMALL), threading.Event()

        def write():
            while not done.is_set():
                with device._lock:
                    time.sleep(0.01)

        writer = threading.Thread(target=write)
        writer.start()
        try:
            for _ in range(20):
                child = os.fork()
                if child == 0:
                    try:
                        device.close()
                        os._exit(0)
                    finally:
                        os._exit(1)
                self.check_ended(child)
            device.write(3, bytes(16))
        finally:
            done.set()
            writer.join()


if __name__ == "__main__":
    unittest.main()
