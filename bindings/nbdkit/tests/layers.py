"""A disk in several layers: its requests beside a model, what its layers have, and which directories are refused."""

import shutil
import time

from images import SMALL, cut_over_and_over, has_ended, history, new_image, refused
from running import HERE, Server, fio, kill, want

PAGE, STRIPE = 4096, 32
# The layers have 11 stripes, 10 and a part, and 10.
LAYERS, SECTORS = 3, 1003
NUMBERS = [f"sectors={SECTORS}", "spare=30", "pages=16"]
NAMES = [f"layer-{layer}-of-{LAYERS}" for layer in range(LAYERS)]
FLAWS = ["bad=1", "unreadable=1"]


def new_directory(shop):
    shutil.rmtree(shop.folder / "layers", ignore_errors=True)
    (shop.folder / "state").unlink(missing_ok=True)
    return shop.folder / "layers"


def modelled(shop, server, seed, *had):
    """Requests at random of a client that compares the disk with a model: its flushes, and the bytes of the holes."""
    printed = shop.run(["/usr/bin/python3", HERE / "tests/model.py", server.uri, seed, shop.scaled(400, 4000), *had])
    return map(int, printed.split())


def whole(shop, uri):
    copy = shop.folder / "copy"
    shop.run(["nbdcopy", uri, copy])
    return copy.read_bytes()


def share(data, layer):
    """The stripes of a disk that are a layer's."""
    return b"".join(data[at:at + STRIPE * PAGE] for at in range(layer * STRIPE * PAGE, len(data), LAYERS * STRIPE * PAGE))


def in_layers(shop):
    """Requests of all kinds, then a kill and a start without numbers. Each layer then is a device of its own, with its stripes."""
    directory = new_directory(shop)
    server = Server(shop, *NUMBERS, f"layers={LAYERS}", image=directory)
    flushes, holes = modelled(shop, server, 1)
    report = server.report()
    want(report["layers"] == LAYERS and report["bytes"] == SECTORS * PAGE, f"{LAYERS} layers of {SECTORS} sectors: {report}")
    want(flushes > 0 and report["flushes"] == LAYERS * flushes, f"{report['flushes']} flushes of layers, of {flushes} flushes")
    want(report["host_programs"] > 1000 and report["programs"] >= report["host_programs"] and report["erases"] > 100, f"nothing was done: {report}")
    kill(server.process)
    shop.started.remove(server.process)
    server = Server(shop, image=directory)
    modelled(shop, server, 1, "had")
    data = whole(shop, server.uri)
    server.stop()
    for layer, name in enumerate(NAMES):
        server = Server(shop, image=directory / name)
        found, report = whole(shop, server.uri), server.report()
        want("layers" not in report, f"an image by itself tells of layers: {report}")
        want(len(found) == len(share(data, layer)), f"{name} has {len(found)} bytes, and not {len(share(data, layer))}")
        want(found == share(data, layer), f"{name} has other bytes than its stripes")
        server.stop()
    return f"{flushes} flushes, {holes} bytes in holes; {killed(shop)}; {cuts(shop)}; {refusals(shop)}"


def killed(shop):
    """kill -9 of the server while a client writes: each answered request is there after it."""
    directory, rounds = new_directory(shop), shop.scaled(3, 20)
    for turn in range(rounds):
        server = Server(shop, *SMALL, f"layers={LAYERS}", f"sync={'flush' if turn % 2 else 'never'}", image=directory)
        client = history(shop, server, turn, 1_000_000, "answered")
        time.sleep(0.3)
        kill(server.process)
        shop.started.remove(server.process)
        answered, found = has_ended(shop, client)
        want(answered == found, f"{answered - found} answered steps are lost")
    server = Server(shop, image=directory)
    answered, found = has_ended(shop, history(shop, server, rounds, 300, "answered"))
    want(answered == found, f"{answered - found} answered steps are lost")
    server.stop()
    return f"{rounds} kills"


def cuts(shop):
    """Power cuts, after which each layer has a beginning of its requests with all that were flushed, or by sync=always answered."""
    told = [cut_over_and_over(shop, sync, [*SMALL, f"layers={LAYERS}"], new_directory(shop), LAYERS) for sync in ("flush", "always")]
    lost = sum(lost for _, lost in told)
    want(lost > 0, "no cut has lost what wasn't flushed, so a missing flush isn't seen")
    return f"{sum(rounds for rounds, _ in told)} cuts, by which {lost} steps were lost that weren't flushed"


def made(shop, *words):
    """A new directory with a disk of these words, whose server has ended."""
    directory = new_directory(shop)
    Server(shop, *words, image=directory).stop()
    return directory


def refusals(shop):
    directory, words = made(shop, *NUMBERS, f"layers={LAYERS}"), NUMBERS + [f"layers={LAYERS}"]
    flaws = FLAWS + [f"part={HERE.parents[1] / 'examples/parts/dftl_large_block.toml'}"]
    for flaw in flaws:
        refused(shop, [f"image={directory}", flaw], f"{flaw.split('=')[0]}= needs a disk of one layer, and this one has 3")
    refused(shop, [f"image={directory}-new", "layers=2", flaws[0]], "bad= needs a disk of one layer, and this one has 2")
    refused(shop, [f"image={directory}", "layers=2"], "has 3 layers, and not 2: give layers=3, or none")
    refused(shop, [f"image={directory}", "layers=1"], "has 3 layers, and not 1")
    refused(shop, [f"image={directory}", "size=8M"], "give the disk's numbers, or none of them")
    refused(shop, ["layers=2"], "layers= is of a device in an image")
    refused(shop, [f"image={directory}", "layers=17"], "layers=17: it is 1 to 16")
    refused(shop, [f"image={directory}-new", "sectors=32", "layers=2"], "layers=2: the disk has at least 33 sectors then, which are 135168 bytes")
    refused(shop, [f"image={directory / NAMES[0]}", "layers=2"], "with layers=2 it names a directory: Not a directory")
    refused(shop, [f"image={shop.folder}", "layers=2"], "has files, and no layer is among them")
    want(not (shop.folder / "layers-new").exists(), "a directory was made for a disk that was refused")
    server = Server(shop, image=directory)
    refused(shop, [f"image={directory}"], "the image is in use")
    server.stop()
    (directory / NAMES[1]).rename(shop.folder / "other")
    refused(shop, [f"image={directory}", *words], "layer-1-of-3 is missing")
    refused(shop, [f"image={directory}"], "layer-1-of-3 is missing")
    want(not (directory / NAMES[1]).exists(), "a missing layer was made anew")
    shutil.copy(shop.folder / "other", directory / NAMES[0])
    (shop.folder / "other").rename(directory / NAMES[1])
    refused(shop, [f"image={directory}"], "layer-0-of-3 has 331 sectors of 4096 bytes, and not 342 of 4096 as in a disk of 982")
    unfinished(shop, words)
    numbers_of_layers(shop)
    return f"{len(flaws)} parameters refused"


def unfinished(shop, words):
    """A disk whose first layer isn't there was never finished. The layers are made in the order of their numbers downwards."""
    for first in range(1, LAYERS + 1):
        directory = made(shop, *words)
        for name in NAMES[:first]:
            (directory / name).unlink()
        (directory / f"{NAMES[first - 1]}.new-1-2").write_bytes(b"")
        (directory / f"{NAMES[first - 1]}.bad").write_bytes(b"")
        server = Server(shop, *words, image=directory)
        modelled(shop, server, first)
        server.stop()
        want({*NAMES} <= {path.name for path in directory.iterdir()}, f"a disk without its first {first} layers wasn't finished")
    (directory / NAMES[0]).unlink()
    refused(shop, [f"image={directory}", *words], "layer-0-of-3 is missing, and layer-")
    want(not (directory / NAMES[0]).exists(), "the first layer of a disk with data was made anew")
    directory = new_directory(shop)
    directory.mkdir()
    Server(shop, *words[1:], "sectors=200", image=directory).stop()
    for name in (NAMES[0], NAMES[2]):
        (directory / name).unlink()
    refused(shop, [f"image={directory}", *words], "layer-1-of-3 has 64 sectors and", "the disk was never finished")
    want((directory / NAMES[2]).exists() and not (directory / NAMES[0]).exists(), "the first layer is made before another one is there")


def numbers_of_layers(shop):
    """The blocks are divided among the layers, or follow from the sectors of each; without numbers the disk has what it had."""
    for words, blocks in ((["size=8M", "blocks=100", "pages=64", "luns=2"], 100), (["size=8M", "blocks=97"], 98),
                          (["size=8M", "blocks=98", "luns=2"], 100), (["size=8M", "spare=12"], 44)):
        directory = made(shop, *words, "layers=2")
        for again in ([], words):
            server = Server(shop, *again, image=directory)
            found = server.report()
            want(found["blocks"] == blocks and found["bytes"] == 8 << 20, f"{' '.join(words)}: {found['blocks']} blocks, and not {blocks}: {found}")
            server.stop()
    directory = made(shop, "size=256M", "layers=2")
    server = Server(shop, "size=256M", image=directory)
    want(server.report()["pages_of_a_block"] == 128, f"256 MiB have blocks of other pages: {server.report()}")
    server.stop()


def layers_sanitized(shop, kind):
    """Requests of four connections at once, under a sanitizer."""
    server = Server(shop, *NUMBERS, f"layers={LAYERS}", "fail-programs=0.01%", "sync=never", image=new_directory(shop), kind=kind)
    modelled(shop, server, 2)
    server.stop()
    server = Server(shop, "size=8M", "spare=30", "layers=4", image=new_directory(shop), kind=kind)
    fio(shop, server, "load", rw="randwrite", bsrange="512-200k", bs_unaligned=1, blockalign=512, size="2m", offset_increment="2m", numjobs=4, iodepth=16,
        io_size=f"{shop.scaled(8, 80)}m", norandommap=1, serialize_overlap=1, verify="crc32c", verify_backlog=64)
    want(server.report()["layers"] == 4, "it has other layers")
    server.stop()
    return ""
