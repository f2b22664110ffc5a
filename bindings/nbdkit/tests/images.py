"""The disk in an image: what is there after the end of its server, and after power cuts."""

import json
import os
import random
import re
import signal
import time

import faults
from running import HERE, Failure, Server, fio, kill, want

SMALL = ["size=4M", "spare=10", "pages=16"]  # it collects all the time
ROOMY = ["size=4M", "spare=100", "pages=512"]  # few blocks move between two flushes
STATUS_OF_A_CUT = 3
MODES = ("always", "flush", "never")


def history(shop, server, seed, most, since="", layers=1):
    """A run of the client that knows what the disk may hold: what it found, or None if it still runs."""
    call = ["/usr/bin/python3", HERE / "tests/history.py", server.uri, shop.folder / "state", seed, most, since, layers]
    return shop.start(call, shop.folder / "history")


def has_ended(shop, process):
    """The steps that were answered since the flush before, and how many of them the disk had."""
    told = (shop.folder / "history").read_text
    try:
        status = process.wait(shop.patience(60))
    except Exception:
        raise Failure(f"the client didn't end: {told()}") from None
    shop.started.remove(process)
    want(status == 0, f"the disk isn't as it may be: {told()[-1000:]}")
    return map(int, told().split())


def gone(shop, server, status):
    """Waits for the end of a server."""
    try:
        found = server.process.wait(shop.patience(30))
    except Exception:
        raise Failure(f"the server didn't end: {server.log.read_text()[-1000:]}") from None
    shop.started.remove(server.process)
    want(found == status, f"the server ended with status {found}: {server.log.read_text()[-1000:]}")


def new_image(shop):
    for name in ("image", "state"):
        (shop.folder / name).unlink(missing_ok=True)
    return shop.folder / "image"


def killed(shop):
    """kill -9 of the server, over and over: each answered request is there after it, whatever was flushed."""
    lost = rounds = 0
    for sync in MODES:
        image, draw = new_image(shop), random.Random(sync)
        for _ in range(shop.scaled(2, 34)):
            server = Server(shop, *SMALL, f"sync={sync}", image=image)
            client = history(shop, server, rounds, 1_000_000, "answered")
            time.sleep(draw.uniform(0.2, 1))
            kill(server.process)
            shop.started.remove(server.process)
            answered, found = has_ended(shop, client)
            lost += answered - found
            rounds += 1
        server = Server(shop, image=image)
        has_ended(shop, history(shop, server, rounds, 300, "answered"))
        server.stop()
    want(lost == 0, f"{lost} answered steps are lost")
    return f"{rounds} kills; {by_fio(shop)}"


def by_fio(shop):
    """fio writes in order, with a pattern of each round, until the server is killed; after its start fio finds all that was answered."""
    image, found = new_image(shop), []
    for turn in range(shop.scaled(3, 100)):
        server = Server(shop, "size=32M", f"sync={MODES[turn % 3]}", image=image)
        log, pattern = shop.folder / "fio.json", f"0x{0x11111111 * (turn % 15 + 1):08x}"
        job = ["--thread", "--ioengine=nbd", "--bs=4k", "--size=32m", "--verify=pattern", f"--verify_pattern={pattern}"]
        writer = shop.start(["fio", "--name=write", *job, f"--uri={server.uri}", "--rw=write", "--do_verify=0", "--time_based", "--runtime=100",
                             "--output-format=json", f"--output={log}"], shop.folder / "fio.log")
        server.wait_until(lambda: server.report()["host_programs"] > 300, 60, "take 300 writes")
        kill(server.process)
        shop.started.remove(server.process)
        writer.wait(shop.patience(60))
        shop.started.remove(writer)
        text = log.read_text()
        pages = min(8192, json.loads(text[text.index("{"):])["jobs"][0]["write"]["io_bytes"] // 4096 - 1)
        want(pages > 200, f"only {pages} writes were answered")
        server = Server(shop, image=image)
        shop.run(["fio", "--name=read", *job, f"--uri={server.uri}", "--rw=read", f"--io_size={4 * pages}k", "--verify_fatal=1"])
        server.stop()
        found.append(pages)
    return f"fio found {sum(found)} pages of {len(found)} kills"


def power_cuts(shop):
    """Cuts at a write, and by SIGUSR2. What was flushed is there, with a beginning of what came after it; by sync=always all that was answered."""
    told = []
    beside = f"{cut_in_a_mount(shop)}, {cut_into_sectors(shop)}"
    cut_by_seed(shop)
    cut_behind(shop, "h.pwrite(page * 1024, 0, nbd.CMD_FLAG_FUA)")
    cut_behind(shop, "h.pwrite(page * 1024, 0)\nh.flush()\nfor i in range(400): h.pwrite(page, 4096 * (389 * i % 1024))")
    for sync in ("flush", "always"):
        for numbers in (SMALL, ROOMY):
            told.append(cut_over_and_over(shop, sync, numbers, new_image(shop)))
    lost = sum(lost for _, lost in told)
    want(lost > 0, "no cut has lost what wasn't flushed, so a missing flush isn't seen")
    return f"{sum(rounds for rounds, _ in told)} cuts, by which {lost} steps were lost that weren't flushed; {beside}"


def cut_by_seed(shop):
    """The same requests, number and seed leave the same image, and another seed another one."""
    left = []
    for seed in (5, 5, 6):
        image = new_image(shop)
        server = Server(shop, *SMALL, "cut=400", f"seed={seed}", image=image)
        shop.run(["qemu-io", "-f", "raw", "-c", "write -P 1 0 400k", "-c", "flush", "-c", "write -P 2 200k 2M", server.uri], status=1)
        gone(shop, server, STATUS_OF_A_CUT)
        left.append(image.read_bytes())
    want(left[0] == left[1] and left[0] != left[2], f"by seeds 5, 5 and 6 the images are {'equal' if left[0] == left[2] else 'all different'}")


def cut_behind(shop, requests, *words, make=new_image):
    """Behind these requests of `h`, which write the same to each page, and write all of them with FUA or flush them, each page has that."""
    for seed in (1, 2):
        image = make(shop)
        server = Server(shop, *(words or SMALL), "cut=0", f"seed={seed}", image=image)
        requested(shop, server, requests)
        server.process.send_signal(signal.SIGUSR2)
        gone(shop, server, STATUS_OF_A_CUT)
        server = Server(shop, image=image)
        shop.run(["qemu-io", "-f", "raw", "-r", "-c", "read -P 0x11 0 4M", server.uri])
        server.stop()


def cut_in_a_mount(shop):
    """The writes of a start count: each of them can be cut, while an image is made and while one is mounted that has lost its power before. What was
    flushed is there behind it."""
    told, image = {}, new_image(shop)
    for kind in (None, 4, 5):  # a new image, and seeds of those that have lost their power
        kept, cuts, at = kind and cut_with_doubts(shop, new_image(shop), kind), 0, 1
        while at < 10_000:
            image = new_image(shop)
            if kept:
                image.write_bytes(kept)
            status, text = faults.start(shop, [f"image={image}", *SMALL, f"cut={at}", f"seed={at}"])
            if status is None:
                break
            want(status == STATUS_OF_A_CUT and f"the power is cut at write {at} to the image" in text, f"cut={at}: status {status}: {text}")
            server = Server(shop, *SMALL, image=image)
            shop.run(["qemu-io", "-f", "raw", "-r", "-c", f"read -P {0x11 if kept else 0} 0 2M", server.uri])
            server.stop()
            cuts, at = cuts + 1, at + 1 + at // 2
        want(cuts > 2, f"{cuts} writes of a start were cut")
        told[kind] = cuts
    return f"{told[None]} writes of a new image and {told[4] + told[5]} of mounts cut"


def cut_with_doubts(shop, image, seed):
    """The bytes of an image that has lost its power: 2 MiB of it were flushed, and others weren't."""
    server = Server(shop, *SMALL, "cut=0", f"seed={seed}", image=image)
    requested(shop, server, "h.pwrite(page * 1024, 0)\nh.flush()\nh.pwrite(b'\\x12' * 2097152, 2097152)")
    server.process.send_signal(signal.SIGUSR2)
    gone(shop, server, STATUS_OF_A_CUT)
    return image.read_bytes()


def requested(shop, server, requests):
    """Makes these requests of `h`, with a page of bytes 0x11. QEMU's clients would flush at their end."""
    shop.run(["/usr/bin/python3", "-c", f"import nbd\nh = nbd.NBD()\nh.connect_uri({server.uri!r})\npage = b'\\x11' * 4096\n{requests}"])


def cut_into_sectors(shop):
    """A write that wasn't synced is also torn: of its sectors of 512 bytes any are there, not only first ones."""
    torn = 0
    for seed in range(1, 5):
        image = new_image(shop)
        server = Server(shop, *SMALL, "cut=0", f"seed={seed}", image=image)
        requested(shop, server, "h.pwrite(page * 1024, 0)")
        server.process.send_signal(signal.SIGUSR2)
        gone(shop, server, STATUS_OF_A_CUT)
        data = image.read_bytes()
        for at in range(8192, len(data) - 4095, 4096):
            sectors = [data[begin:begin + 512] for begin in range(at, at + 4096, 512)]
            has = [sector == b"\x11" * 512 for sector in sectors]
            torn += any(has) and not any(any(sector) for sector, its in zip(sectors, has) if not its) and has != sorted(has, reverse=True)
    want(torn > 0, "no write that wasn't synced is torn sector by sector")
    return f"{torn} pages torn"


def started(shop, *words, **more):
    """A server, or None if its power was cut before it was up."""
    try:
        return Server(shop, *words, **more)
    except Failure as failure:
        if "the power is cut at write" not in str(failure) or f"ended with status {STATUS_OF_A_CUT}" not in str(failure):
            raise
        return None


def cut_over_and_over(shop, sync, numbers, image, layers=1):
    """How many cuts, and how many answered steps were lost by them."""
    draw, since, lost = random.Random(sync), "answered" if sync == "always" else "", 0
    rounds = shop.scaled(6, 50)
    for turn in range(rounds):
        by_signal = turn % 5 == 4
        at = 0 if by_signal else draw.randrange(1, 20 if turn % 5 == 3 else 2500)
        server = started(shop, *numbers, f"sync={sync}", f"cut={at}", f"seed={turn}", image=image)
        if not server:
            continue
        client = history(shop, server, turn, 1_000_000, since, layers)
        if by_signal:
            time.sleep(draw.uniform(0.1, 0.6))
            server.process.send_signal(signal.SIGUSR2)
        answered, found = has_ended(shop, client)
        gone(shop, server, STATUS_OF_A_CUT)
        want("the power is cut at write" in server.log.read_text(), f"a server that doesn't tell of its cut: {server.log.read_text()}")
        lost += answered - found
    server = Server(shop, image=image)
    answered, found = has_ended(shop, history(shop, server, rounds, 300, since, layers))
    server.stop()
    return rounds, lost + answered - found


def refused(shop, words, *texts):
    status, told = faults.start(shop, words)
    want(status == 1 and all(text in told for text in texts), f"{' '.join(words)}: status {status}: {told}")


def image_file(shop):
    """An image is opened by one server, with its own numbers; it is sparse, and its trims and zeros are those of a disk."""
    image = new_image(shop)
    server = Server(shop, *SMALL, image=image)
    refused(shop, [f"image={image}"], "the image is in use")
    lines = ["write -P 1 0 4M", "write -P 2 4097 12345", "read -P 2 4097 12345", "read -P 1 16442 100000", "discard 1000001 99999",
             "read -P 1 999424 577", "read -P 0 1003520 94208", "write -z 20000 30000", "read -P 0 20000 30000", "write -z -u 2000001 300000",
             "read -P 0 2000001 300000", "read -P 1 2300001 9999", "write -z -u -n 3M 1M", "read -P 0 3M 1M", "flush"]
    printed = shop.run(["qemu-io", "-f", "raw", *(word for line in lines for word in ("-c", line)), server.uri])
    want(not re.search("fail|mismatch|error", printed, re.I), printed)
    before = shop.run(["nbdinfo", "--map", server.uri])
    want("hole,zero" in before.splitlines()[-1], before)
    server.stop()
    server = Server(shop, image=image)
    want(shop.run(["nbdinfo", "--map", server.uri]) == before, "the map is another after the server's end")
    report = server.report()
    want(report["sync"] == "flush" and report["bytes"] == 4 << 20, str(report))
    server.stop()
    refused(shop, [f"image={image}", "size=8M"], "has 1024 sectors and 75 blocks of 16 pages of 4096 bytes on 1 LUNs, and not 2048 and")
    refused(shop, [f"image={image}", "hosts=2"], "hosts= is of a device in memory")
    refused(shop, ["sync=never"], "give image= too")
    refused(shop, ["image=/dev/null/image"], "image=/dev/null/image: Not a directory")
    refused(shop, [f"image={image}", "sync=often"], "sync=often: it is always, flush or never")
    refused(shop, [f"image={HERE}/check"], "not an image, or its head is damaged")
    pipes(shop, image)
    default_blocks(shop)
    return large(shop)


def pipes(shop, image):
    """A pipe of which nobody has the other end is refused at once, in place of an image, of its list of bad blocks and of a part's times."""
    pipe, bad = shop.folder / "pipe", shop.folder / f"{image.name}.bad"
    os.mkfifo(pipe)
    os.mkfifo(bad)
    refused(shop, [f"image={pipe}"], "not an image, or its head is damaged")
    refused(shop, [f"image={image}"], f"{bad}: it can't be read, or it isn't a list of blocks")
    for name in (pipe, "/dev/zero", shop.folder):
        refused(shop, ["size=4M", f"part={name}"], f"part={name}: not a regular file")
    pipe.unlink()
    bad.unlink()


def default_blocks(shop):
    """A large image has large blocks, and one that is there keeps its own, also if it is opened by its size."""
    for words, pages in (([f"size={255 << 20}"], 64), (["size=256M"], 128), (["size=256M", "pages=64"], 64)):
        image = new_image(shop)
        for again in (words, words[:1]):
            server = Server(shop, *again, image=image)
            found = server.report()["pages_of_a_block"]
            want(found == pages, f"{' '.join(words)}: a disk has blocks of {found} pages, and not of {pages}")
            server.stop()


# Each sector always holds its own number, over and over: URI, and how many runs of sectors it writes, or reads without the first and the last bytes.
WRITER, READER = (f"""
import random, sys, nbd
disk, draw = nbd.NBD(), random.Random(1)
disk.connect_uri(sys.argv[1])
pages = [sector.to_bytes(8, "little") * 512 for sector in range(2048)]
for turn in range(int(sys.argv[2])):
    first, many = draw.randrange(2016), draw.randint(1, 32)
    whole = b"".join(pages[first:first + many])
    {line}
""" for line in ("disk.pwrite(whole, 4096 * first)", "assert disk.pread(4096 * many - 100, 4096 * first + 50) == whole[50:-50], 'it has read another page'"))


def reads_beside_writes(shop):
    """Reads find the pages of their sectors, while writes give the sectors other pages, and blocks are erased."""
    image = new_image(shop)
    server = Server(shop, "size=8M", "spare=12", "pages=16", "sync=never", image=image)
    shop.run(["/usr/bin/python3", "-c", WRITER.replace("draw.randrange(2016), draw.randint(1, 32)", "32 * turn, 32"), server.uri, 64])
    load = shop.start(["/usr/bin/python3", "-c", WRITER, server.uri, 1_000_000_000], shop.folder / "load")
    server.wait_until(lambda: server.report()["erases"] > 100, 60, "erase 100 blocks")
    before = server.report()
    shop.run(["/usr/bin/python3", "-c", READER, server.uri, shop.scaled(2000, 20_000)])
    after = server.report()
    kill(load)
    shop.started.remove(load)
    server.stop()
    reads, erases = (after[name] - before[name] for name in ("host_reads", "erases"))
    want(reads > 10_000 and erases > 100, f"{reads} pages were read beside {erases} erases")
    return f"{reads:,} pages read beside {erases:,} erases"


def reads_beside_flushes(shop):
    """A read, a map of holes and a report don't wait for a sync of the file, which is held here until all of them are answered."""
    hold, held, image = shop.folder / "hold", shop.folder / "hold.held", new_image(shop)
    server = Server(shop, "size=8M", image=image, before=("env", f"LD_PRELOAD={shop.client('refuse.so')}", f"HOLD_SYNC={hold}"))
    shop.run(["qemu-io", "-f", "raw", "-c", "write -P 1 0 4M", "-c", "flush", server.uri])
    hold.touch()
    flush = shop.start(["qemu-io", "-f", "raw", "-c", "write -P 2 2M 64k", "-c", "flush", server.uri], shop.folder / "flush")
    server.wait_until(held.exists, 30, "begin to sync")
    reads = "".join(f"assert h.pread(65536, {at}) == b'\\x01' * 65536\n" for at in range(0, 2 << 20, 65536)) + "h.pread(100, 4097)\n"
    code = f"import nbd\nh = nbd.NBD()\nh.connect_uri({server.uri!r})\n{reads}"
    beside = [shop.start(words, shop.folder / f"beside-{number}") for number, words in enumerate(
        (["/usr/bin/python3", "-c", code], ["nbdinfo", "--map", server.uri], ["nbdcopy", f"nbd+unix:///stats?socket={server.socket}", "-"]))]
    began = time.monotonic()
    while any(process.poll() is None for process in beside) and time.monotonic() < began + shop.patience(10):
        time.sleep(0.02)
    waits, is_flushing = [process.args[0] for process in beside if process.poll() is None], flush.poll() is None
    hold.unlink()
    want(not waits, f"these wait for another client's sync: {waits}")
    want(is_flushing and all(process.returncode == 0 for process in beside), f"a request beside a flush has failed: {beside}")
    want(flush.wait(shop.patience(30)) == 0, (shop.folder / "flush").read_text())
    for process in (*beside, flush):
        shop.started.remove(process)
    shop.run(["qemu-io", "-f", "raw", "-r", "-c", "read -P 2 2M 64k", server.uri])
    server.stop()
    return "32 reads, a map and a report beside a sync"


def large(shop):
    """64 GiB, of which little is written."""
    image = shop.folder / "large"
    server = Server(shop, "size=64G", image=image)
    shop.run(["qemu-io", "-f", "raw", "-c", "write -P 7 63G 1M", "-c", "discard 0 2000M", "-c", "read -P 7 63G 1M", "-c", "read -P 0 30G 1M", "-c", "flush",
              server.uri])
    server.stop()
    server = Server(shop, image=image)
    shop.run(["qemu-io", "-f", "raw", "-r", "-c", "read -P 7 63G 1M", server.uri])
    want(server.report()["pages_of_a_block"] == 1024, "64 GiB have smaller blocks than of 1024 pages")
    server.stop()
    used = 512 * image.stat().st_blocks
    want(used < 8 << 20, f"an image with 1 MiB in it takes {used} bytes of its file system")
    image.unlink()
    return f"64 GiB in {used // 1024} KiB"


def fast_part(shop):
    path = shop.folder / "fast.toml"
    path.write_text("read = 2\nprogram = 5\ncopyback = 6\nerase = 20\ntransfer = 0.5\n")
    return path


def image_sanitized(shop, kind):
    """Requests of four connections at once on an image, under a sanitizer."""
    image = new_image(shop)
    faults_of_it = ["bad=5", "fail-programs=0.01%", "fail-erases=1%", "worn=eio", f"part={fast_part(shop)}"]
    server = Server(shop, "size=8M", f"spare={shop.scaled(60, 300)}", "luns=2", "sync=never", "cut=0", *faults_of_it, image=image, kind=kind)
    fio(shop, server, "load", rw="randwrite", bsrange="512-16k", bs_unaligned=1, blockalign=512, size="2m", offset_increment="2m", numjobs=4, iodepth=16,
        io_size=f"{shop.scaled(4, 40)}m", norandommap=1, serialize_overlap=1, verify="crc32c")
    shop.run(["qemu-io", "-f", "raw", "-c", "discard 10000 3M", "-c", "write -z 100 9999", "-c", "write -z -u 5000 1M", "-c", "map", "-c", "flush", server.uri])
    report = server.report()
    want(report["failed_erases"] > 0 and not report["is_readonly"], f"no erase has failed, or the disk is worn out: {report}")
    server.stop()
    server = Server(shop, "size=8M", "spare=20", "sync=never", image=new_image(shop), kind=kind)  # whose reads don't wait for each other
    fio(shop, server, "beside", rw="randwrite", bsrange="4k-64k", size="2m", offset_increment="2m", numjobs=4, iodepth=16, io_size=f"{shop.scaled(8, 80)}m",
        norandommap=1, serialize_overlap=1, verify="crc32c", verify_backlog=64)
    server.stop()
    return f"{report['failed_programs']} programs and {report['failed_erases']} erases failed"
