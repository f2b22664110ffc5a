"""Records of runs, and what tools/crash finds in them: every disk that a power cut leaves, checked by a command."""

import re
import sys
import tempfile

import faults
from files import has_fuse
from images import SMALL, STATUS_OF_A_CUT, gone, new_image, refused, requested
from running import HERE, Server, fio, kill, want

TOOLS = HERE.parents[1] / "tools"
sys.path.append(str(TOOLS))
from simulation import record

FOUND = 4
# A client that numbers its writes: the page of write n has n, over and over, and eight of them are flushed together. The check finds the disk after some
# number of the writes, and with all that were flushed. The wrong client flushes before the last of the eight.
COUNTER = """
import sys, nbd
disk, flush_at = nbd.NBD(), int(sys.argv[2])
disk.connect_uri(sys.argv[1])
for number in range(1, 41):
    disk.pwrite(number.to_bytes(8, "little") * 512, 4096 * (7 * number % 16))
    if number % 8 == flush_at:
        disk.flush()
"""
COUNTED = """
import sys, nbd
disk, flushed = nbd.NBD(), 8 * int(sys.argv[2])
disk.connect_uri(sys.argv[1])
pages = [bytes(disk.pread(4096, 4096 * sector)) for sector in range(16)]
found = [int.from_bytes(page[:8], "little") for page in pages]
if any(page != page[:8] * 512 for page in pages):
    sys.exit("a page is torn")
for done in range(41):
    if found == [max((it for it in range(1, done + 1) if 7 * it % 16 == sector), default=0) for sector in range(16)]:
        sys.exit(f"{done} writes are there, and {flushed} were flushed" if done < flushed else 0)
sys.exit(f"after no number of writes the sectors have {found}")
"""


def new_record(shop):
    (shop.folder / "record").unlink(missing_ok=True)
    return shop.folder / "record"


def scripts(shop):
    for name, text in (("counter", COUNTER), ("counted", COUNTED)):
        (shop.folder / name).write_text(text)


def recorded(shop, words, call, image=None):
    """A record of a run: its server is killed behind it, as a machine would be."""
    path = new_record(shop)
    server = Server(shop, *words, f"record={path}", image=image or new_image(shop))
    call(server)
    kill(server.process)
    shop.started.remove(server.process)
    return path


def crash(shop, path, check, *words, status=0):
    """What the tool tells of a record."""
    printed = shop.run([TOOLS / "crash", path, "--plugin", shop.plugin(), "--check", check, *words], 120, status=status)
    want(re.search(r"^kept +\d+ +\d+ +\d+$", printed, re.M), f"tools/crash tells no table:\n{printed}")
    return printed


def disks(printed):
    """How many disks were tried, not opened, and failed, of all kinds."""
    rows = re.findall(r"^(?:lost|kept|some) +([\d,]+) +([\d,]+) +([\d,]+)$", printed, re.M)
    return [sum(int(field.replace(",", "")) for field in column) for column in zip(*rows)]


def counted(shop, *words):
    """A client that flushes, and one that flushes too early: it is found, and the line that is told finds it again."""
    scripts(shop)
    check = f"/usr/bin/python3 {shop.folder}/counted \"$uri\" $flushes"
    path = recorded(shop, SMALL, lambda server: shop.run(["/usr/bin/python3", shop.folder / "counter", server.uri, 0]))
    printed = crash(shop, path, check, *words)
    steps = record.steps_of(path)
    want(steps[-1].flushes == 5 and "; 5 flushes of clients were answered;" in printed, printed)
    tried, *others = disks(printed)
    want(others == [0, 0] and tried > 20, printed)
    path = recorded(shop, SMALL, lambda server: shop.run(["/usr/bin/python3", shop.folder / "counter", server.uri, 7]))
    end = record.steps_of(path)[-1].at
    printed = crash(shop, path, check, "--steps", f"{end}-{end}", "--seeds", 0, status=FOUND)
    want(disks(printed) == [2, 0, 1], f"at the end the last write alone is in doubt:\n{printed}")
    printed = crash(shop, path, check, "--every", 8, status=FOUND)
    want("writes are there, and" in printed and disks(printed)[2] > 0, f"a client that flushes too early isn't found:\n{printed}")
    line = re.search(r"^  (flushes=.*)$", printed, re.M)[1].replace("mktemp -u", f"mktemp -u {shop.folder}/XXXXXX")
    again = shop.run(["sh", "-c", line], status=1)
    want("writes are there, and" in again, f"the line that was told finds nothing: {again}")
    return tried


def as_live(shop):
    """A cut of a replay leaves the bytes that a cut of the server itself leaves, at the same write and by the same seed."""
    image, kept = new_image(shop), shop.folder / "kept"
    requests = "for i in range(300):\n    h.pwrite(bytes([i % 251]) * 8192, 4096 * (389 * i % 1023))\n    i % 40 or h.flush()"
    Server(shop, *SMALL, image=image).stop()
    kept.write_bytes(image.read_bytes())
    path = recorded(shop, [], lambda server: requested(shop, server, requests), image)
    steps = record.steps_of(path)
    for unsynced, seed, write in (("some", 3, 40), ("some", 4, 700), ("lost", 1, 500), ("kept", 1, 900)):
        step = next(step.at for step in steps if sum(step.writes) == write)
        image.write_bytes(kept.read_bytes())
        live = Server(shop, f"cut={writes_of_start(shop, kept) + write}", f"unsynced={unsynced}", f"seed={seed}", image=image)
        client = ["/usr/bin/python3", "-c", f"import nbd\nh = nbd.NBD()\nh.connect_uri({live.uri!r})\n{requests}"]
        shop.run(client, status=1)
        gone(shop, live, STATUS_OF_A_CUT)
        replayed = shop.folder / f"replayed-{write}"
        refused(shop, [f"image={replayed}", f"replay={path}", f"cut={step}", f"unsynced={unsynced}", f"seed={seed}", "size=8M"], "and not 2048")
        want(replayed.read_bytes() == image.read_bytes(), f"a replay leaves another image than a cut at write {write}, unsynced={unsynced}")
    return "4 replays as cuts"


def writes_of_start(shop, kept):
    """How many writes a server's start makes to this image."""
    for at in range(1, 100):
        image = shop.folder / "started"
        image.write_bytes(kept.read_bytes())
        if faults.start(shop, [f"image={image}", f"cut={at}"])[0] is None:
            return at - 1
    return want(False, "a start writes without an end")


def refused_records(shop):
    path = recorded(shop, SMALL, lambda server: requested(shop, server, "h.pwrite(page, 0)"))
    image, new = shop.folder / "image", shop.folder / "new"
    refused(shop, [f"image={image}", f"record={path}"], f"record={path}: File exists")
    refused(shop, [f"image={image}", f"record={new}", "fail-erases=1%"], "without bad blocks, whose commands don't fail")
    refused(shop, [f"image={image}", f"replay={path}"], "a replay makes a new one: File exists")
    refused(shop, [f"image={new}", f"replay={image}"], "not a record of this version")
    refused(shop, [f"image={new}", f"replay={path}", "layers=2"], "is of 1 layers, and not 2")
    refused(shop, [f"image={new}", f"replay={path}", "unsynced=gone"], "unsynced=gone: it is some, lost or kept")
    data = bytearray(path.read_bytes())
    data[16] = 9
    path.write_bytes(data)
    refused(shop, [f"image={new}", f"replay={path}"], "the record is damaged")
    want(not new.exists(), "a replay of a damaged record leaves an image")
    shop.run([TOOLS / "crash", path, "--check", "true"], status=3)
    shop.run([TOOLS / "crash", image, "--check", "true"], status=3)


def sanitized(shop, kind):
    """Four connections are recorded, and replayed, by a plugin under a sanitizer."""
    path, replayed = new_record(shop), shop.folder / f"replayed-{kind}"
    server = Server(shop, "size=8M", "spare=20", f"record={path}", image=new_image(shop), kind=kind)
    fio(shop, server, "load", rw="randwrite", bs="4k", size="2m", offset_increment="2m", numjobs=4, iodepth=4, io_size="1m", fsync=64, norandommap=1)
    server.stop()
    want(record.steps_of(path)[-1].flushes >= 16, "the record lacks flushes")
    Server(shop, f"replay={path}", "cut=1000", image=replayed, kind=kind).stop()


def in_a_database(shop):
    """sqlite3 with its journal on the disk, by nbdfuse, over layers, so that a cut may keep what was written later and lose what was earlier. With
    synchronous=full each transaction is whole and all that were committed are there; with synchronous=off the database is found broken."""
    told = []
    for synchronous, status, words in (("full", 0, shop.scaled(("--every", 25), ())), ("off", FOUND, ("--steps", "120-240", "--every", 6))):
        path, client = new_record(shop), HERE / "tests/database.py"
        image = shop.folder / synchronous
        server = Server(shop, "size=512k", "layers=4", "pages=512", image=image)
        shop.run(["/usr/bin/python3", client, "make", server.uri])
        server.stop()
        server = Server(shop, f"record={path}", image=image)
        shop.run(["/usr/bin/python3", client, "use", server.uri, f"nbd+unix:///stats?socket={server.socket}", shop.folder, synchronous])
        server.stop()
        printed = crash(shop, path, f"/usr/bin/python3 {client} check \"$uri\" $flushes {shop.folder}", *words, status=status)
        tried, not_opened, failed = disks(printed)
        want(not_opened == 0 and (failed > 0) == (status > 0), printed)
        told.append(f"sqlite3 with synchronous={synchronous} fails on {failed} of {tried} disks")
    return "; ".join(told)


def the_page(shop):
    """The lines of docs/BLOCK_DEVICE.md, in another folder and over the plugin that is tested."""
    page = (HERE.parents[1] / "docs/BLOCK_DEVICE.md").read_text()
    lines = page.split("```sh\nmkdir /tmp/flash\n")[1].split("```")[0]
    with tempfile.TemporaryDirectory(dir=shop.folder) as folder:  # nbdsh calls the first Python, and Debian's has its module
        lines = f"set -e\nPATH=/usr/bin:$PATH\ncd {HERE.parents[1]}\nmkdir /tmp/flash\n{lines}".replace("/tmp/flash", f"{folder}/flash")
        printed = shop.run(["bash", "-c", lines.replace("bindings/nbdkit/out/nbdkit-mintlintel-plugin.so", str(shop.plugin()))])
    want(disks(printed)[0] > 10 and disks(printed)[1:] == [0, 0], printed)


def crash_points(shop):
    """Each cut of a run, by the tool."""
    the_page(shop)
    refused_records(shop)
    told = [f"{counted(shop, *shop.scaled(('--every', 5), ('--seeds', 3)))} disks of a client that flushes", as_live(shop)]
    for kind in ("address", "thread"):
        sanitized(shop, kind)
    if has_fuse(shop):
        told.append(in_a_database(shop))
    return "; ".join(told)
