"""nbdkit's own filters beside the plugin: they let requests fail, slow them down, or take away what the plugin offers."""

import time

from images import new_image
from running import Server, want

WRITE, READ = "write -P 7 64k 128k", "read -P 7 64k 128k"
DELAY_S = 0.3
# Filters under which requests are done as without them, with their parameters.
OTHERS = {"rate": ["rate=100M"], "log": ["logfile=/dev/null"], "nozero": [], "noextents": [], "fua": ["fuamode=emulate"], "cow": [],
          "blocksize-policy": ["blocksize-minimum=4096", "blocksize-error-policy=error"]}


def requests(shop, server, *lines, status=0):
    return shop.run(["qemu-io", "-f", "raw", *(word for line in lines for word in ("-c", line)), server.uri], status=status)


def served(shop, is_image, name, *words):
    return Server(shop, "size=4M", *words, filters=[name], image=new_image(shop) if is_image else None)


def beside_filters(shop):
    """Requests fail while a file is there, and nothing is lost; they take a filter's time; and other filters change nothing."""
    for is_image in (False, True):
        mark = shop.folder / "writes fail"
        server = served(shop, is_image, "error", "error-pwrite=EIO", "error-pwrite-rate=100%", f"error-pwrite-file={mark}")
        requests(shop, server, WRITE)
        mark.touch()
        told = requests(shop, server, "write -P 8 64k 4k", status=1)
        want("Input/output error" in told, told)
        mark.unlink()
        requests(shop, server, READ, "write -P 9 0 4k", "read -P 9 0 4k")
        server.stop()
        server = served(shop, is_image, "delay", f"delay-read={round(1000 * DELAY_S)}ms")
        began = time.monotonic()
        requests(shop, server, WRITE, READ)
        took = time.monotonic() - began
        want(took >= DELAY_S, f"a read that is delayed by {DELAY_S} s took {took:.2f} s")
        server.stop()
        for name, words in OTHERS.items():
            server = served(shop, is_image, name, *words)
            requests(shop, server, WRITE, "write -z 0 4k", "discard 8k 8k", "flush", READ)
            server.stop()
    return f"error, delay, {', '.join(OTHERS)}"
