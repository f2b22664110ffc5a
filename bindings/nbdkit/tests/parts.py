"""The parts of the check, in their order. Each gives a text on what it did, or raises Failure."""

import functools
import os
import random
import re
import time

import crashes
import failures
import faults
import files
import filters
import guests
import images
import layers
import reports
import times
from running import HERE, Failure, Server, copying, failing, fio, kibibytes, loaded, sanitized_by, side_by_side, slowness, want

ZIPF = {"norandommap": 1, "random_distribution": "zipf:0.9"}
UNALIGNED = {"bsrange": "512-20k", "bs_unaligned": 1, "blockalign": 512, "serialize_overlap": 1}


def build(shop):
    """The plugin, also under the sanitizers, its page, and the clients. An edit of a wrong plugin that can't be made ends the check here."""
    faults.whole_edits()
    shop.run(["make", "-s", "-C", HERE], 120)
    for kind in ("address", "thread"):
        shop.run(["make", "-s", "-C", HERE, f"OUT=out/{kind}", f"CFLAGS={sanitized_by(kind)}", f"out/{kind}/nbdkit-mintlintel-plugin.so"], 120)
    clients = HERE / "out/clients"
    clients.mkdir(parents=True, exist_ok=True)
    strict = ["gcc", "-std=gnu11", "-O2", "-Wall", "-Wextra", "-Werror"]
    for name in ("overlap", "wear_out", "breaks_off", "times"):
        shop.run([*strict, HERE / f"tests/{name}.c", "-o", clients / name, "-lnbd", "-pthread", "-lm"], 60)
    shop.run([*strict, "-fPIC", "-shared", HERE / "tests/refuse.c", "-o", clients / "refuse.so", "-ldl"], 60)
    return "plain and under two sanitizers"


# ---- One device whose pages are 88 % in use, and which collects in every part.

AGED = ["size=48M", "spare=9", "hosts=4"]


def aged(shop, brooms=1):
    """The device for most parts: every sector is written, and then overwritten at random until brooms copy."""
    if shop.aged and shop.aged.brooms == brooms:
        return shop.aged
    shop.end_kept()
    server = Server(shop, *AGED, f"brooms={brooms}")
    server.brooms = brooms
    age(shop, server)
    shop.keep(server)
    shop.aged = server
    return server


def age(shop, server):
    fio(shop, server, "fill", rw="write", bs="64k", size="48m", iodepth=4)
    fio(shop, server, "age", rw="randwrite", bs="4k", size="48m", iodepth=16, io_size="80m", randrepeat=0, **ZIPF)
    want(server.counts().copies > 0, "an aged device has copied nothing")


def on_aged(part):
    """A part on the aged device, under which pages have to be copied."""

    @functools.wraps(part)
    def of_shop(shop, brooms=1):
        server = aged(shop, brooms)
        fio(shop, server, "mix", rw="randwrite", bs="4k", size="48m", iodepth=16, io_size="12m", randrepeat=0, norandommap=1)
        shop.copies = 0
        before = server.counts()
        told = part(shop, server) or ""
        after = server.counts()
        want(after.copies > before.copies, "nothing was copied under it")
        want(after.no_space == before.no_space, "a write found no space")
        return told

    return of_shop


@on_aged
def checksums(shop, server):
    part = kibibytes(shop, server) // 4
    fio(shop, server, "crc", rw="randwrite", bs="4k", size=f"{part}k", offset_increment=f"{part}k", numjobs=4, iodepth=16,
        io_size=f"{shop.scaled(20, 300)}m", verify="crc32c", serialize_overlap=1, **ZIPF)


@on_aged
def mixed_sizes(shop, server):
    fio(shop, server, "mixed", rw="randwrite", size="48m", iodepth=16, io_size="48m", verify="md5", randseed=4242, **UNALIGNED)


@on_aged
def mixed_sizes_by_four(shop, server):
    part = kibibytes(shop, server) // 4
    fio(shop, server, "mixed", rw="randwrite", size=f"{part}k", offset_increment=f"{part}k", numjobs=4, iodepth=16,
        io_size=f"{shop.scaled(12, 200)}m", verify="crc32c", **UNALIGNED, **ZIPF)


@on_aged
def trims_and_writes(shop, server):
    fio(shop, server, "trimwrite", rw="trimwrite", bs="4k", size="48m", iodepth=16, io_size=f"{shop.scaled(96, 192)}m", verify="crc32c", do_verify=0,
        serialize_overlap=1)
    fio(shop, server, "read", rw="read", bs="4k", size="48m", iodepth=16, verify="crc32c")
    fio(shop, server, "again", rw="randwrite", bs="4k", size="48m", iodepth=16, io_size="40m", verify="crc32c")


@on_aged
def sixteen_connections(shop, server):
    part = kibibytes(shop, server) // 64 * 4
    fio(shop, server, "sixteen", rw="randwrite", bs="4k", size=f"{part}k", offset_increment=f"{part}k", numjobs=16, iodepth=4,
        io_size=f"{shop.scaled(4, 40)}m", verify="crc32c", serialize_overlap=1, **ZIPF)


@on_aged
def there_and_back(shop, server):
    image, back = shop.folder / "image", shop.folder / "back"
    image.write_bytes(random.Random(1).randbytes(kibibytes(shop, server) * 1024))
    shop.run(["nbdcopy", image, server.uri])
    shop.run(["nbdcopy", server.uri, back])
    shop.run(["cmp", image, back])


@on_aged
def by_qemu_img(shop, server):
    image = shop.folder / "image"
    with open(image, "wb") as file:
        file.write(random.Random(2).randbytes(30_000_000))
        file.truncate(kibibytes(shop, server) * 1024)
    shop.run(["qemu-img", "convert", "-n", "-f", "raw", "-O", "raw", image, server.uri])
    shop.run(["qemu-img", "compare", "-f", "raw", "-F", "raw", image, server.uri])


@on_aged
def by_qemu_io(shop, server):
    """Unaligned writes, discards and zeros; a discard leaves parts of pages, and zeros are exact."""
    commands = ["write -P 0x11 0 40M", "write -P 0x5a 4097 12345", "read -P 0x5a 4097 12345", "read -P 0x11 0 4097", "read -P 0x11 16442 100000",
                "discard 1M 8M", "read -P 0 1M 8M", "discard 9437184 5120", "read -P 0 9437184 4096", "read -P 0x11 9441280 4096",
                "write -z 20000 30000", "read -P 0 20000 30000", "read -P 0x11 50000 1000", "write -z -u 100000 900000", "read -P 0 100000 900000",
                "write -P 0x77 20M 10M", "read -P 0x77 20M 10M", "write -z -u -n 12M 4M", "read -P 0 12M 4M", "flush"]
    # Each thread of the server reads data into its buffer, and then zeros.
    commands += 32 * ["read -P 0x77 24M 4M"] + ["discard 24M 4M"] + 32 * ["read -P 0 24M 4M"]
    with loaded(shop, server):
        printed = shop.run(["qemu-io", "-f", "raw", *(word for command in commands for word in ("-c", command)), server.uri])
    want(not re.search("fail|mismatch|error", printed, re.I), printed)


@on_aged
def a_map_of_holes(shop, server):
    """The holes are the sectors that were trimmed, and no others."""
    commands = ("write -P 1 0 48M", "discard 4M 1M", "discard 6M 4k", "write 4200k 4k", "discard 4400500 5000", "write -z -u 4500100 50")
    shop.run(["qemu-io", "-f", "raw", *(word for it in commands for word in ("-c", it)), server.uri])
    holes, others = [], []
    with loaded(shop, server):
        printed = shop.run(["nbdinfo", "--map", server.uri])
    for line in printed.splitlines():
        offset, length, kind = map(int, line.split()[:3])
        (holes if kind == 3 else others).append((offset, length))
    wanted = [(4 << 20, 104 << 10), (4204 << 10, (1 << 20) - (108 << 10)), (6 << 20, 4096)]
    want(holes == wanted, f"the holes are {holes} and not {wanted}")
    want(sum(length for _, length in holes + others) == 48 << 20, "the map isn't as long as the device")


# ---- Devices of their own.


def overlaps(shop):
    server = Server(shop, "size=8M", "spare=4", "hosts=4")
    fio(shop, server, "age", rw="randwrite", bs="4k", size="8m", iodepth=16, io_size="32m", randrepeat=0, **ZIPF)
    with loaded(shop, server, "2m", "6m"), copying(server, "overlap"):
        printed = shop.run([shop.client("overlap"), server.uri, shop.scaled(10_000, 100_000)], shop.scaled(60, 300))
    server.stop()
    return printed.strip()


def stock_by_itself(shop):
    """The counts of free blocks, and which thread waits for which, without a library. In the second program no write looks again by itself, and another
    thread comes between any two steps, so each lost wake-up is seen."""
    for kind in ("address", "thread"):
        by_itself(shop, "stock", kind, [built(shop, kind, "stock")])
        by_itself(shop, "waits", kind, [shop.source() / "stock.c"], "-DLOOK_AGAIN_MS=3600000", "-include", HERE / "tests/steps.h")
    return "under both sanitizers"


def built(shop, kind, name):
    """What was built of a source under a sanitizer. Of a wrong plugin it is the source where that, or a header, was changed."""
    is_changed = shop.changed == f"{name}.c" or shop.changed.endswith(".h")
    return shop.source() / f"{name}.c" if is_changed else HERE / f"out/{kind}/{name}.o"


def by_itself(shop, name, kind, parts, *more):
    """Runs a test that is linked to these parts of the plugin, under a sanitizer."""
    program, include = shop.folder / f"{name}_{kind}", os.environ.get("INCLUDE", HERE.parent / "include")
    paths = [HERE / f"tests/{name}.c", *parts]
    strict = ["-std=gnu11", "-D_FILE_OFFSET_BITS=64", "-O2", "-g", "-Wall", "-Wextra", "-Werror", f"-fsanitize={kind}", f"-I{include}",
              f"-I{shop.source()}"]
    shop.run(["gcc", *strict, *paths, *more, "-o", program, "-pthread"])
    return shop.run([*(("setarch", "-R") if kind == "thread" else ()), program], 80).strip()


def over_device(shop, name, kind, within=()):
    """What a test over a device without a server says, under a sanitizer. It may have sources of the plugin within it."""
    library = os.environ.get("LIBRARY", HERE.parent / "out/libmintlintel.a")
    names = ("device", "requests", "age", "stock", "brooms", "cold", "budget", "sector_locks", "counts", "luns", "faults")
    return by_itself(shop, name, kind, [built(shop, kind, it) for it in names if it not in within], library, "-lm")


def over_device_twice(shop, name):
    """The same under both sanitizers."""
    told = [over_device(shop, name, kind) for kind in ("address", "thread")]
    return f"{told[0]} under AddressSanitizer, {told[1]} under ThreadSanitizer" if told[0] else "under both sanitizers"


def requests_by_themselves(shop):
    """Whether a request has a handle while it waits for a sector."""
    return over_device(shop, "requests", "address", ("requests",))


def refusals_at_the_end(shop):
    """Small devices of random numbers: no write is refused early, and after each trim in a block that can be erased one is done."""
    return over_device_twice(shop, "to_the_end")


def trims_at_the_end(shop):
    """Worn devices, whose rounds the test deals out: no write is refused early, and after each trim in a block that can be erased one is done."""
    return over_device(shop, "trims", "address", ("stock", "brooms"))


def cold_data(shop):
    """Which block is loosened, and that no sector changes by it."""
    return over_device_twice(shop, "cold")


def lives(shop):
    """How much of a device's life its clients have, in order at different rates and by zipf."""
    return over_device_twice(shop, "lives")


def handles(shop):
    """Few handles for many requests, and many, with hardly a spare block: four connections of 16 requests each."""
    told = []
    for hosts in (1, 4, 16, 64):
        server = Server(shop, "size=16M", "spare=3", f"hosts={hosts}", "brooms=1")
        fio(shop, server, "overlapping", rw="randwrite", bs="64k", size="256k", numjobs=4, iodepth=16, io_size="16m", norandommap=1)
        with copying(server, f"{hosts} handles"):
            fio(shop, server, f"hosts{hosts}", rw="randwrite", size="4m", offset_increment="4m", numjobs=4, iodepth=16, io_size=f"{shop.scaled(8, 100)}m",
                verify="crc32c", **(UNALIGNED | {"bsrange": "512-8k"}), **ZIPF)
        counts = server.stop()
        want(100 * counts.miscounts <= counts.erases, f"with {hosts} handles the free blocks were miscounted: {counts.numbers}")
        want(100 * counts.lost_wake_ups <= counts.waits, f"with {hosts} handles wake-ups were lost: {counts.numbers}")
        told.append(f"{hosts} handles: {counts.handles_that_wrote} wrote, {counts.waits} waits for a block, {counts.lost_wake_ups} wake-ups lost")
    return "; ".join(told)


# nbdkit 1.32 may end so if a connection breaks while two of its answers wait, whatever the plugin is.
NBDKIT_ENDED = "raw_send_socket: Assertion `sock >= 0' failed"


def broken_clients(shop, brooms=1):
    """Connections are shut down in mid-write, over and over, while a client checks a half of its own. What they wrote to the other
    half is old or new, page by page. If nbdkit ends by an assertion of its own, the same is done again on another server."""
    told, ended = [], 0
    while len(told) < shop.scaled(1, 3):
        server = Server(shop, *AGED, f"brooms={brooms}")
        try:
            told.append(broken_off(shop, server, 100 * (len(told) + ended)))
        except Failure:
            ended += 1
            if NBDKIT_ENDED not in server.log.read_text() or ended > 20:
                raise
            shop.end_all()
    return "; ".join([*told, *([f"nbdkit ended by its own assertion on {ended} other servers"] if ended else [])])


def broken_off(shop, server, seed):
    age(shop, server)
    half = kibibytes(shop, server) // 2
    rounds = beside = 0
    with copying(server, "broken clients"):
        # On a busy machine the client beside may be done before the first program is: then it has four times as much to write.
        for mebibytes in (60, 240, 960):
            own = shop.start(["fio", "--name=own", "--thread", "--ioengine=nbd", f"--uri={server.uri}", "--rw=randwrite", "--bs=4k",
                              "--numjobs=4", f"--size={half // 4}k", f"--offset_increment={half // 4}k", "--iodepth=16",
                              f"--io_size={mebibytes}m", "--norandommap", "--random_distribution=zipf:0.9", "--serialize_overlap=1",
                              "--verify=crc32c", "--verify_fatal=1"], shop.folder / "own")
            while rounds < 2 or own.poll() is None:
                told = shop.run([shop.client("breaks_off"), server.uri, half * 1024, half * 1024, seed + rounds], 120)
                rounds += 1
                beside += own.poll() is None
            want(own.wait(60) == 0, (shop.folder / "own").read_text()[-2000:])
            if beside > 0:
                break
        want(beside > 0, "the client beside was done before any was broken off")
        server.settle()
    fio(shop, server, "whole", rw="randwrite", bs="4k", size="48m", io_size="10m", iodepth=16, verify="crc32c")
    server.stop()
    return f"{rounds} programs, {beside} of them beside a client that checks; the last: {told.strip()}"


def other_pages(shop):
    """Pages of 8, 1000 and 512 bytes; only the last is a size that NBD can prefer."""
    for page, size, pages, preferred in ((8, 131_072, 64, False), (1000, 6_400_000, 16, False), (512, 4_194_304, 64, True)):
        server = Server(shop, f"page={page}", f"size={size}", f"pages={pages}", "spare=8", "hosts=3")
        info = shop.run(["nbdinfo", server.uri])
        want((f"block_size_preferred: {page}" in info) == preferred, info)
        with copying(server, f"pages of {page} bytes"):
            fio(shop, server, "odd", rw="randwrite", size=size, bsrange="512-6k", bs_unaligned=1, blockalign=512, iodepth=16,
                serialize_overlap=1, io_size="12m",
                verify="crc32c", **ZIPF)
        server.stop()
    return "8, 1000 and 512 bytes"


def by_library(shop, server, lines):
    """What these lines print, which make requests of `h` by Debian's libnbd."""
    return shop.run(["/usr/bin/python3", "-c", f"import nbd\nh = nbd.NBD()\nh.connect_uri({server.uri!r})\n{lines}"])


def trims_inwards(shop):
    """A trim drops the pages that it covers as a whole, and leaves the others. It programs no page; zeros are exact."""
    server = Server(shop, "size=8M", "hosts=2")
    by_library(shop, server, "h.pwrite(b'\\x11' * 65536, 0)")
    before = server.counts()
    # One byte more or less than whole pages at each end, parts of a page, and a whole one.
    ranges = [(4095, 4098), (12287, 4098), (20481, 8191), (32769, 1000), (40960, 4096), (49153, 4095)]
    by_library(shop, server, "\n".join(f"h.trim({count}, {offset})" for offset, count in ranges))
    dropped = {page for offset, count in ranges for page in range(-(-offset // 4096), (offset + count) // 4096)}
    found = by_library(shop, server, "print([sorted({h.pread(1, i)[0] for i in (4096 * page, 4096 * page + 4095)}) for page in range(16)])")
    wanted = [[0] if page in dropped else [0x11] for page in range(16)]
    want(found.strip() == str(wanted), f"after trims: {found} and not {wanted}")
    after = server.counts()
    want(after.programs == before.programs, f"trims have programmed {after.programs - before.programs} pages")
    want(after.trims - before.trims == len(dropped), f"{after.trims - before.trims} pages were trimmed, and not {len(dropped)}")
    by_library(shop, server, "h.zero(9000, 50000); assert h.pread(9002, 49999) == b'\\x11' + bytes(9000) + b'\\x11'")
    server.stop()
    return f"{len(dropped)} pages dropped"


def told_by_the_protocol(shop):
    """The sizes of requests; and to cache, which is offered: pages in memory are there already, and those of an image are read."""
    for image, wanted in ((None, 0), (images.new_image(shop), 14)):
        server = Server(shop, "size=8M", image=image)
        info = shop.run(["nbdinfo", server.uri])
        for line in ("block_size_minimum: 1", "block_size_preferred: 4096", "block_size_maximum: 67108864"):
            want(f"{line}\n" in info, f"{line} is wanted: {info}")
        want("can_cache: true" in info, f"the plugin doesn't offer to cache: {info}")
        by_library(shop, server, "h.pwrite(b'\\x11' * 65536, 0)")
        before = server.report()["host_reads"]
        by_library(shop, server, "h.cache(14 * 4096, 4096)")
        reads = server.report()["host_reads"] - before
        want(reads == wanted, f"to cache 14 pages {'of an image' if image else 'in memory'} {reads} are read")
        by_library(shop, server, "assert h.pread(65536, 0) == b'\\x11' * 65536")
        server.stop()
    return ""


def worn_choices(shop):
    """What a write gets that finds no block, by worn=; a trim of parts of pages still works; and the warning before."""
    for word, error in (("enospc", "No space left on device"), ("eio", "Input/output error"), ("readonly", "Operation not permitted")):
        server = Server(shop, "sectors=200", "blocks=10", "hosts=2", "brooms=0", f"worn={word}")
        fill = ["qemu-io", "-f", "raw", *(6 * ["-c", "write -P 1 0 800k"]), server.uri]
        want(error in shop.run(fill, status=1), f"worn={word}: another error")
        trimmed = shop.run(["qemu-io", "-f", "raw", "-c", "discard 5000 9000", server.uri], status=int(word == "readonly"))
        want((error in trimmed) == (word == "readonly"), f"worn={word}: {trimmed}")
        shop.run(["qemu-io", "-f", "raw", "-c", "read -P 1 16k 700k", server.uri])
        told = server.log.read_text().count("no block is free, and the brooms can reclaim none")
        want(told == 1, f"a full device is told {told} times, and not 1")
        server.stop()
    warned(shop)
    return told_again(shop)


def warned(shop):
    """A worn device warns once, at a share of all erases, or never."""
    for words, wanted in ((["warn=50"], ["270"]), ([], ["486"]), (["warn=0"], [])):
        server = Server(shop, "sectors=2400", "blocks=60", "hosts=4", "endurance=10", *words)
        shop.run([shop.client("wear_out"), server.uri, "uniform"])
        told = re.findall(r"warning: (\d+) erases are done, and all 60 blocks together have 540", server.log.read_text())
        want(told == wanted, f"{words}: warnings at {told} erases, and not at {wanted}")
        server.stop()


def told_again(shop):
    """A device that is full, usable for a while, and full again: both are told. Its writes don't wait for the broom."""
    server = Server(shop, "size=16M", "spare=0", "hosts=4", "wait=0")
    for turn in (1, 2):
        shop.run(["fio", "--name=full", "--thread", "--ioengine=nbd", f"--uri={server.uri}", "--rw=randwrite", "--bs=4k", "--size=16m", "--iodepth=64",
                  "--io_size=10g", "--norandommap"], status=1)
        time.sleep(1.2)
        shop.run(["qemu-io", "-f", "raw", "-c", "discard 0 4M", "-c", "write -P 1 0 64k", server.uri])
        told = server.log.read_text().count("no block is free, and the brooms can reclaim none")
        want(told == turn, f"a full device is told {told} times, and not {turn}")
        time.sleep(1.2)
    server.stop()
    return "told twice"


def resting_brooms(shop):
    """Brooms that rest leave pages time to die: 100,000 random writes at 70 % of the pages in use."""
    server = Server(shop, "sectors=22400", "blocks=500", "hosts=16")
    fio(shop, server, "over", rw="randwrite", bs="4k", size="89600k", numjobs=1, iodepth=16, io_size="400m", norandommap=1, randrepeat=1)
    amplification = server.stop().amplification
    want(1 < amplification < 1.7, f"{amplification:.2f} programs a write")
    return f"{amplification:.2f} programs a write"


def marks_out_of_reach(shop):
    """Brooms don't compact a device to the last page for marks that can't be reached: few pages are copied ahead of 300 writes."""
    told = []
    for brooms in (1, 2):
        server = Server(shop, "sectors=2400", "blocks=60", "hosts=4", f"brooms={brooms}", "low=20", "high=22")
        fio(shop, server, "fill", rw="write", bs="64k", size="9600k")
        fio(shop, server, "few", rw="randwrite", bs="4k", size="9600k", iodepth=4, io_size="1200k", norandommap=1)
        server.settle()
        copies = server.stop().copies
        want(0 < copies < 2000, f"{copies} pages were copied ahead of 300 writes")
        told.append(f"{copies} pages copied ahead by {brooms} broom{'s' * (brooms > 1)}")
    return ", ".join(told)


# Devices that are 62 or 89 % full: sectors of each block, blocks, endurance, brooms, how they are written, and the least share of all programs. The last
# two have this by cold data in the blocks that are filled for the last time.
WORN_OUT = [(40, 60, 20, 1, "uniform", 93), (40, 60, 20, 2, "uniform", 93), (40, 60, 20, 2, "zipf", 93), (57, 288, 10, 2, "sequential", 88),
            (57, 288, 10, 1, "zipf", 97.5), (57, 288, 10, 2, "zipf", 97.5)]


def worn_out(shop):
    """Until the device is worn out: refusals are ENOSPC and come at once, and each page whose write was answered is there."""
    told = []
    for used, blocks, endurance, brooms, pattern, least in WORN_OUT:
        server = Server(shop, f"sectors={used * blocks}", f"blocks={blocks}", "hosts=4", f"brooms={brooms}", f"endurance={endurance}")
        printed = shop.run([shop.client("wear_out"), server.uri, pattern])
        most, longest = map(float, re.search(r"nine in ten refused within ([\d.]+) ms, all within ([\d.]+) ms", printed).groups())
        want(most < 100 * slowness() and longest < 1000 * slowness(), f"a refusal isn't at once: {printed}")
        told.append(f"{pattern}, {brooms} broom{'s' * (brooms > 1)}: {share(server.stop(), least)}, nine in ten refused within {most} ms")
    for brooms in shop.scaled((1,), (1, 2)):
        for pattern, least in (("random", 90), ("zipf:1.2", 93)):
            told.append(f"fio's {pattern}, {brooms} broom{'s' * (brooms > 1)}: {share(worn_out_by_fio(shop, brooms, pattern), least)}")
    return "; ".join(told)


def worn_out_by_fio(shop, brooms, pattern):
    """fio is refused, and then finds in each page what it wrote there."""
    server = Server(shop, "sectors=2400", "blocks=60", "hosts=4", f"brooms={brooms}", "endurance=10")
    fio(shop, server, "fill", rw="write", bs="4k", size="9600k", iodepth=4, verify="crc32c", do_verify=0)
    printed = shop.run(["fio", "--name=wear", "--thread", "--ioengine=nbd", f"--uri={server.uri}", "--rw=randwrite", "--bs=4k", "--size=9600k", "--iodepth=4",
                        "--io_size=2g", "--norandommap", f"--random_distribution={pattern}",
                         "--verify=crc32c", "--do_verify=0", "--serialize_overlap=1"], status=1)
    want("No space left on device" in printed, printed[-2000:])
    fio(shop, server, "read", rw="read", bs="4k", size="9600k", iodepth=4, verify="crc32c")
    counts = server.stop()
    want(counts.no_space > 0, f"it isn't worn out: {counts.numbers}")
    return counts


def share(counts, least):
    """The share of all programs that a device has done at its end: at least so many percent."""
    share = 100 * (counts.programs + counts.copies) / (counts.blocks * counts.pages * counts.endurance)
    want(counts.copies > 0 and share > least, f"{share:.1f} % of all programs were done: {counts.numbers}, {counts.erases_of}")
    return f"{share:.1f} % of all programs"


def sanitized(shop, kind):
    """All kinds of requests on a plugin under a sanitizer, while counts are written."""
    server = Server(shop, "size=8M", "spare=4", "hosts=3", "brooms=2", f"part={images.fast_part(shop)}", kind=kind)
    with copying(server, "fio"):
        load = shop.start(["fio", "--name=load", "--thread", "--ioengine=nbd", f"--uri={server.uri}", "--rw=randwrite",
                           "--bsrange=512-16k", "--bs_unaligned=1", "--blockalign=512",
                           "--size=2m", "--offset_increment=2m", "--numjobs=4", "--iodepth=16", f"--io_size={shop.scaled(12, 100)}m", "--norandommap",
                           "--random_distribution=zipf:0.9", "--serialize_overlap=1", "--verify=crc32c", "--verify_fatal=1"], shop.folder / "load")
        while load.poll() is None:
            server.counts()
            time.sleep(0.1)
        printed = (shop.folder / "load").read_text()
        want(load.returncode == 0, failing(printed[:-2000]) + printed[-2000:])
    with loaded(shop, server, "6m", "2m"), copying(server, "the others"):
        shop.run([shop.client("overlap"), server.uri, shop.scaled(1000, 20_000)])
        shop.run(["qemu-io", "-f", "raw", "-c", "discard 10000 3M", "-c", "write -z 100 9999", "-c", "write -z -u 5000 1M", "-c", "map", server.uri])
        shop.run(["nbdinfo", "--map", server.uri])
    server.stop()
    server = Server(shop, "sectors=2400", "blocks=60", "hosts=4", "brooms=2", "endurance=6", kind=kind)
    shop.run([shop.client("wear_out"), server.uri, "uniform"])
    want(server.stop().copies > 0, "nothing was copied under it")
    return ""


# The parts that have to refuse wrong plugins.
REFUSING = {part.__name__: part for part in (
    overlaps, handles, resting_brooms, worn_out, by_qemu_io, a_map_of_holes, mixed_sizes, there_and_back, stock_by_itself, requests_by_themselves,
    refusals_at_the_end, trims_at_the_end, cold_data, lives, trims_inwards, told_by_the_protocol, worn_choices, marks_out_of_reach,
    faults.refused_resources, reports.statistics, reports.aged_at_start, images.image_file, images.killed, images.reads_beside_writes,
    images.reads_beside_flushes, images.power_cuts, crashes.crash_points, layers.in_layers, guests.files_and_a_database, failures.failing_image,
    times.of_commands, times.under_collection)}
REFUSING |= {f"{kind}_sanitizer": functools.partial(sanitized, kind=kind) for kind in ("address", "thread")}
REFUSING["image_thread_sanitizer"] = functools.partial(images.image_sanitized, kind="thread")


# The parts that look at times, or at what brooms do in a time, so that nothing else of the check runs beside them; and the wrong plugins do so themselves.
TIMED = (resting_brooms, marks_out_of_reach, worn_out, times.of_commands, times.under_collection)
ALONE = {"brooms that rest", "marks out of reach", "a device that wears out", "a part's times", "a part's times under a collection", "wrong plugins"}


# Those that take longest, so that they begin first.
LONG = ("a guest's files and database", "an image, and power cuts", "an image, and kill -9", "an image, and each cut", "an image in layers")


def failed(shop, named):
    """Runs parts by their names: the names of those that fail. The parts with one aged device come one after the other, and others beside them."""
    rows = {}
    for name, part in named:
        row = name.rpartition(", ")[2] if name.endswith(("broom", "brooms")) else name
        rows.setdefault(row, []).append((name, part))
    beside = sorted((row for row in rows.values() if row[0][0] not in ALONE), key=lambda row: (not row[0][0].startswith(LONG), -len(row)))
    alone = [pair for pair in named if pair[0] in ALONE]
    found = side_by_side(shop, beside, lambda one, row: [name for name, part in row if not one.passes(name, part)])
    return sum(found, []) + [name for name, part in alone if not shop.passes(name, part)]


def chosen(options):
    """The parts that were asked for, by their names."""
    brooms = (1, 2) if options.long else (1,)
    on_device = {
        "fio's crc32c of four jobs": checksums,
        "fio's md5 of mixed sizes": mixed_sizes,
        "fio's mixed sizes of four jobs": mixed_sizes_by_four,
        "fio's trims and writes": trims_and_writes,
        "16 connections": sixteen_connections,
        "nbdcopy there and back": there_and_back,
        "qemu-img's convert and compare": by_qemu_img,
        "qemu-io unaligned": by_qemu_io,
        "a map of holes": a_map_of_holes,
        "clients that break off": broken_clients,
        "files in a file system": on_aged(files.a_file_system),
        "a database in a file system": on_aged(files.a_database),
    }
    parts = {
        "what is refused": faults.refused_words,
        "no memory, no thread, no file": faults.refused_resources,
        "help and page": faults.help_and_page,
        "the page's lines": files.the_page,
        "stock by itself": stock_by_itself,
        "requests by themselves": requests_by_themselves,
        "refusals at the end": refusals_at_the_end,
        "trims at the end": trims_at_the_end,
        "cold data by itself": cold_data,
        "lives of devices": lives,
        "parts and whole pages at once": overlaps,
        "1, 4, 16 and 64 handles": handles,
        "pages of other sizes": other_pages,
        "trims round inwards": trims_inwards,
        "what the protocol tells": told_by_the_protocol,
        "brooms that rest": resting_brooms,
        "marks out of reach": marks_out_of_reach,
        "what a worn device says": worn_choices,
        "statistics": reports.statistics,
        "use before the first client": reports.aged_at_start,
        "an image": images.image_file,
        "an image, and reads beside writes": images.reads_beside_writes,
        "an image, and reads beside flushes": images.reads_beside_flushes,
        "an image, and kill -9": images.killed,
        "an image, and power cuts": images.power_cuts,
        "an image, and each cut of a run": crashes.crash_points,
        "an image in layers": layers.in_layers,
        "an image whose commands fail": failures.failing_image,
        "nbdkit's filters": filters.beside_filters,
        "files of a part's times": times.part_files,
        "a part's times": times.of_commands,
        "a part's times under a collection": times.under_collection,
        "a device that wears out": worn_out,
    }
    parts |= {f"a guest's files and database, guest {guest}": functools.partial(guests.files_and_a_database, seed=guest)
              for guest in range(1, 4 if options.long else 2)}
    parts |= {f"{name}, {count} broom{'s' * (count > 1)}": functools.partial(part, brooms=count) for count in brooms for name, part in on_device.items()}
    parts |= {f"{sanitizer}Sanitizer": functools.partial(sanitized, kind=sanitizer.lower()) for sanitizer in ("Address", "Thread")}
    parts |= {f"an image, {sanitizer}Sanitizer": functools.partial(images.image_sanitized, kind=sanitizer.lower()) for sanitizer in ("Address", "Thread")}
    parts |= {f"an image in layers, {sanitizer}Sanitizer": functools.partial(layers.layers_sanitized, kind=sanitizer.lower())
              for sanitizer in ("Address", "Thread")}
    if options.long:
        parts["wrong plugins"] = functools.partial(faults.wrong_plugins, parts=REFUSING, alone=[part.__name__ for part in TIMED])
    return [(name, part) for name, part in parts.items() if not options.only or any(word in name for word in options.only)]
