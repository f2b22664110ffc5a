"""An image whose programs and erases fail, and pages that can't be read: a client sees nothing of it, up to the end of the good blocks."""

import re

import faults
from images import cut_behind, has_ended, history, new_image
from running import HERE, Server, kill, want

HEAD, SPARE, ENTRY, BLOCKS = 8192, 32, 16, 100
# 1024 sectors on 100 blocks of 16 pages, 4 of which are bad: the sectors need 66.
SMALL = ["sectors=1024", "blocks=100", "pages=16", "bad=0,17-18,99"]
FAULTS = ["fail-programs=0.05%", "fail-erases=0.01", "seed=5"]
BAD = [0, 17, 18, 99]


def bad_file(shop):
    return shop.folder / "image.bad"


def new_failing(shop):
    bad_file(shop).unlink(missing_ok=True)
    return new_image(shop)


def stamps(image, blocks, pages=16, page_bytes=4096):
    """The spare bytes of these blocks, by docs/FORMATS.md."""
    size = -(-pages * SPARE // 4096) * 4096 + pages * page_bytes
    with open(image, "rb") as file:
        def read(count, at):
            file.seek(at)
            return file.read(count)

        sides = {block: read(1, HEAD + 2 * BLOCKS * size + block * ENTRY)[0] % 2 for block in blocks}
        return {block: read(pages * SPARE, HEAD + (side * BLOCKS + block) * size) for block, side in sides.items()}


def grown(shop):
    return [int(line) for line in bad_file(shop).read_text().split()] if bad_file(shop).exists() else []


def goes_on(shop):
    """Requests at random while commands fail, on servers that are stopped or killed: nothing fails, and all is there that was answered."""
    image, failed = None, {"failed_programs": 0, "failed_erases": 0}
    rounds = shop.scaled(3, 12)
    for turn in range(rounds):
        is_new = turn % 3 == 0  # after some servers more too few blocks would be good
        image = new_failing(shop) if is_new else image
        before, old = grown(shop), {} if is_new else stamps(image, grown(shop))
        server = Server(shop, *(SMALL if is_new else ["bad=0,17-18,99"]), *FAULTS[:2], f"seed={turn}", image=image)
        client = history(shop, server, turn, 700, "answered")
        answered, found = has_ended(shop, client)
        want(answered == found, f"{answered - found} answered steps are lost")
        report = server.report()
        for name in failed:
            failed[name] += report[name]
        want(report["bad_blocks"] == 4 + len(grown(shop)), f"{report['bad_blocks']} blocks are bad, and the file has {grown(shop)}")
        want(not any(map(any, stamps(image, BAD).values())), "a block that was bad from the first start on was used")
        want(stamps(image, before) == old, "a block that became bad was programmed or erased again")
        if turn % 2:
            kill(server.process)
            shop.started.remove(server.process)
        else:
            server.stop()
    want(failed["failed_programs"] > 0 and failed["failed_erases"] > 0, f"nothing has failed: {failed}")
    want(len(set(grown(shop))) == len(grown(shop)) and not {*BAD} & {*grown(shop)}, f"the bad blocks are {grown(shop)}")
    return f"{failed['failed_programs']} programs and {failed['failed_erases']} erases failed in {rounds} servers"


def worn(shop, word, error):
    """Until too few blocks are good: writes, zeros and trims get the error then, and all pages can be read, also after another start."""
    image = new_failing(shop)
    words = [f"worn={word}", "fail-erases=10%", "fail-programs=0.2%", "seed=11"]
    server = Server(shop, *SMALL, *words, image=image)
    printed = shop.run([shop.client("wear_out"), server.uri, "uniform", error])
    report = server.report()
    server.stop()
    left = 100 - report["bad_blocks"] - report["reserve_blocks"]
    want(report["is_readonly"] and report["reserve_blocks"] == 0 and left <= 70, f"worn={word}: blocks are left: {report}")
    old = image.read_bytes()
    server = Server(shop, "bad=0,17-18,99", *words, image=image)
    told = shop.run(["qemu-io", "-f", "raw", "-c", "read 0 4M", "-c", "write 0 4k", "-c", "discard 0 4k", "-c", "write -z 0 4k", server.uri], status=1)
    want(told.count({"ENOSPC": "No space left on device", "EIO": "Input/output error", "EPERM": "Operation not permitted"}[error]) == 3, f"worn={word}: {told}")
    server.stop()
    want(image.read_bytes()[HEAD:] == old[HEAD:], "a disk that can only be read has changed")
    writes = re.search(r"answered (\d+)", printed)[1]
    return f"worn={word}: {writes} writes, {left} blocks good"


def brought_back(shop, *stops):
    """A worn disk has after a start what it had before: no page of a block that was marked bad comes back behind a trim."""
    for seed, stop in enumerate(stops, 1):
        image, words = new_failing(shop), ["fail-programs=0.2%", "fail-erases=1%", f"seed={seed}"]
        for numbers in (["size=1M", "spare=100%", "pages=8"], []):
            server = Server(shop, *numbers, *words, image=image)
            shop.run(["/usr/bin/python3", HERE / "tests/worn.py", server.uri, shop.folder / "state", seed])
            want(server.report()["is_readonly"], "the disk isn't worn out")
            if numbers and stop == "kill":
                kill(server.process)
                shop.started.remove(server.process)
            else:
                server.stop()
    return f"{len(stops)} worn disks are after a start as before it"


def by_seed(shop):
    """The same requests and seed make the same blocks bad, and another seed others."""
    found = []
    for seed in (3, 3, 4):
        image = new_failing(shop)
        server = Server(shop, *SMALL, "fail-erases=2%", f"seed={seed}", image=image)
        shop.run(["qemu-io", "-f", "raw", *(word for _ in range(3) for word in ("-c", "write -P 1 0 4M")), server.uri])
        server.stop()
        found.append(grown(shop))
    want(found[0] == found[1] != found[2], f"by seeds 3, 3 and 4 these blocks became bad: {found}")


def unreadable(shop, image):
    """Pages that can't be read, until they are written as a whole, zeroed or trimmed."""
    words = ["size=8M", "unreadable=2,5-8"]
    server = Server(shop, *words, image=image) if image else Server(shop, *words, "hosts=2")
    rows = [("read 0 8k", 0), ("read 8k 1", 1), ("read 4k 4097", 1), ("read 12k 8k", 0), ("write 8k 512", 1), ("write -P 3 8k 4k", 0), ("read -P 3 8k 4k", 0),
            ("read 32k 4k", 1), ("discard 32k 4k", 0), ("read -P 0 32k 4k", 0), ("write -z 20k 4k", 0), ("read -P 0 20k 4k", 0), ("read 24k 8k", 1)]
    for line, status in rows:
        printed = shop.run(["qemu-io", "-f", "raw", "-c", line, server.uri], status=status)
        want(("Input/output error" in printed) == bool(status), f"{line}: {printed}")
    server.stop()


def failing_image(shop):
    # What was flushed is there after a power cut, though blocks that have failed since aren't read.
    cut_behind(shop, "h.pwrite(page * 1024, 0)\nh.flush()\nfor i in range(3000): h.pwrite(page, 4096 * (389 * i % 1024))",
               "size=4M", "spare=100", "pages=16", "fail-erases=5%", make=new_failing)
    told = [goes_on(shop), *(worn(shop, word, error) for word, error in (("enospc", "ENOSPC"), ("eio", "EIO"), ("readonly", "EPERM")))]
    told.append(brought_back(shop, "stop", "kill"))
    by_seed(shop)
    unreadable(shop, None)
    unreadable(shop, new_failing(shop))
    image = new_failing(shop)
    for words, text in (
        (["fail-programs=1%"], "fail-programs= is of a device in an image: give image= too"),
        (["bad=3"], "bad= is of a device in an image"),
        ([f"image={image}", "fail-erases=101%"], "fail-erases=101%: it is a rate from 0 to 1"),
        ([f"image={image}", "fail-programs="], "fail-programs=: it is a rate from 0 to 1"),
        ([f"image={image}", "fail-programs=1"], "fail-programs=1: is it one of a hundred, or each one? Give fail-programs=1%, or fail-programs=100%"),
        ([f"image={image}", "fail-erases=1.0"], "Give fail-erases=1%, or fail-erases=100%"),
        ([f"image={image}", "bad=3,"], "bad=3,: it is numbers"),
        ([f"image={image}", "bad=9-3"], "bad=9-3: it is numbers"),
        ([f"image={image}", "size=4M", "bad=400"], "bad=400: the chip has the blocks 0 to"),
        (["size=4M", "unreadable=1024"], "unreadable=1024: the disk has the pages 0 to 1023"),
    ):
        status, printed = faults.start(shop, words)
        want(status == 1 and text in printed, f"{' '.join(words)}: status {status}: {printed}")
    return "; ".join(told)
