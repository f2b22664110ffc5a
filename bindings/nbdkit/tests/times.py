"""A part's times: what requests take agrees with queues that are computed here, one for each LUN.

No client can be answered before the time of the model, whatever the machine does: that is demanded of each request. A LUN that has much to do can't
keep requests to another LUN waiting: that is demanded by the order of the answers. Since other programs may take the processors, some are answered
later: in the best of some tries the median request may be off by 15 % of a read's time, and by as many times more as threads are ready for each
processor."""

import random
import statistics
import sys
import time

import faults
from images import new_image
from layer import Layer, Lun, Timed
from running import HERE, Server, slowness, want

BLOCKS, PAGES, SECTORS = 64, 16, 960
TRIES, NEAR = 8, 0.15
HURRY = ("nice", "-n", "-15")  # if the rights allow it, other programs don't come before the server and its client
SLACK = 500  # clocks are read before a request is sent, and after its answer
# In microseconds. They are so long that the machine's own delays are a small part of them.
TIMES = {"read": 10_000, "program": 20_000, "erase": 60_000, "transfer": 2_000}
READ, PROGRAM, ERASE = TIMES["read"] + TIMES["transfer"], TIMES["transfer"] + TIMES["program"], TIMES["erase"]
STAMP = READ  # an image reads the stamp of a sector's page before the first change of the sector, and behind a trim
COPYBACK, COPY = TIMES["read"] + TIMES["program"], READ + PROGRAM  # within a LUN, and to another one


def part_file(shop, times=1):
    path = shop.folder / f"part{times}.toml"
    path.write_text('name = "of a test"  # made up\n' + "".join(f"{name} = {times * time:_}.0\n" for name, time in TIMES.items()))
    return path


# Files of parts. The tools of this repository have to find the same of each, but for those that are TOML and don't have a key on each line.
NEEDED = "read = 1\nprogram = 2\nerase = 3\ntransfer = 0\n"
GOOD = (
    NEEDED, "# a part\r\n" + NEEDED.replace("\n", " # us\r\n"), "name = 'a \"b' # c\nsource = \"x \\\" y\"\n" + NEEDED,
    NEEDED + "\tcopyback=1_0.5e+2", NEEDED.replace("= 1\n", "= 0.001\n"),
)
BAD = (
    ("", "the time read is missing"),
    (NEEDED.replace("erase", "#erase"), "the time erase is missing"),
    (NEEDED + "read = 1", "line 5: the key is there twice"),
    (NEEDED + "speed = 1", "line 5: not a key of a part"),
    (NEEDED + "reads = 1", "line 5: not a key of a part"),
    (NEEDED + "copyback = 0", "less than a nanosecond"),
    (NEEDED + "copyback = -1", "0 to 1000000000"),
    (NEEDED + "copyback = 1000000000.1", "0 to 1000000000"),
    (NEEDED + "copyback = nan", "a decimal number"),
    (NEEDED + "copyback = 01", "a decimal number"),
    (NEEDED + "copyback = 1.", "a decimal number"),
    (NEEDED + "copyback = 1__0", "a decimal number"),
    (NEEDED + "copyback = 1_", "a decimal number"),
    (NEEDED + "copyback = .5", "a decimal number"),
    (NEEDED + "copyback = '1'", "a decimal number"),
    (NEEDED + "copyback = 1 2", "a decimal number"),
    (NEEDED + "copyback", "a key without ="),
    (NEEDED + "name = x", "a text in quotes"),
    (NEEDED + "name = 'x", "the text doesn't end"),
    (NEEDED + "name = 'x' y", "something is behind it"),
    (NEEDED + "# \x01", "a control character"),
)
STRICTER = (("\"read\" = 1\n" + NEEDED[9:], "line 1: not a key of a part"), (NEEDED + "copyback = 0x10", "a decimal number"))


BY_THE_TOOLS = """
import sys
sys.path.insert(0, sys.argv[1])
from simulation import faults, part
for path in sys.argv[2:]:
    try:
        print(part.part_in(part.read_part(path), path) is not None)
    except faults.Fault:
        print(False)
"""


def part_files(shop):
    """Which files of parts are refused, and why."""
    rows = [*((text, "") for text in GOOD), *BAD, *STRICTER]
    paths = [shop.folder / f"part-{number}.toml" for number in range(len(rows))]
    for path, (text, message) in zip(paths, rows):
        path.write_bytes(text.encode())
        status, told = faults.start(shop, ["size=4M", "hosts=2", f"part={path}"])
        want(status == (1 if message else None) and message in told, f"part={text!r}: status {status}: {told}")
    found = shop.run([sys.executable, "-c", BY_THE_TOOLS, HERE.parents[1] / "tools", *paths]).split()
    for row, is_taken in zip(rows, found, strict=True):
        want((is_taken == "True") == (not row[1] or row in STRICTER), f"part={row[0]!r}: taken by the tools: {is_taken}")
    status, told = faults.start(shop, ["size=4M", "part=/nowhere/part.toml"])
    want(status == 1 and "part=/nowhere/part.toml: No such file" in told, told)
    return f"{len(GOOD)} taken, {len(BAD) + len(STRICTER)} refused"


class Answer:
    """What the client says of a request, in microseconds since its start."""

    def __init__(self, line):
        words = line.split()
        self.lane, self.sent, self.answered, self.op, self.sector = int(words[0]), int(words[1]), int(words[2]), words[3], int(words[4])

    @property
    def took(self):
        return self.answered - self.sent


def played(shop, server, lines):
    """The answers to requests: lane, time, operation, sector and pages."""
    given = "".join(f"{lane} {at:.0f} {op} {sector} {pages}\n" for lane, at, op, sector, pages in lines)
    return [Answer(line) for line in shop.run([*HURRY, shop.client("times"), server.uri], 120, given=given).splitlines()]


def best_of(attempt, what):
    """Each attempt gives how far it was off, and what is to be told; one of them has to be near."""
    found = []
    for _ in range(TRIES):
        off, told = attempt()
        if off <= NEAR * slowness():
            return f"{what}: {told}, {100 * off:.1f} % off"
        found.append(f"{100 * off:.0f} %")
    want(False, f"{what}: requests are off the model by {', '.join(found)}, and at most {100 * NEAR * slowness():.0f} % are wanted")


# ---- A device whose pages were written in order.


def in_order(shop, kind, luns, times=1):
    words = [f"sectors={SECTORS}", f"blocks={BLOCKS}", f"pages={PAGES}", f"luns={luns}"]
    if kind == "memory":
        return Server(shop, *words, "hosts=1", "age=1", f"part={part_file(shop, times)}", before=HURRY)
    image = new_image(shop)
    server = Server(shop, *words, image=image)
    shop.run(["qemu-io", "-f", "raw", "-c", f"write -P 1 0 {4 * SECTORS}k", server.uri])
    server.stop()
    return Server(shop, "sync=never", f"part={part_file(shop, times)}", image=image, before=HURRY)


def luns_in_order(kind, luns):
    """The LUN of each sector. In memory the free block with the lowest number is taken, and in an image the layer chooses."""
    if kind == "memory":
        return [sector // PAGES // (BLOCKS // luns) for sector in range(SECTORS)]
    layer = Layer(BLOCKS, PAGES)
    for sector in range(SECTORS):
        list(layer.write(sector))
    return [layer.place[sector][0] // (BLOCKS // luns) for sector in range(SECTORS)]


def single_requests(shop, server, kind, lun_of, least):
    """Requests one after the other take the time of their commands; `least` has how far each was off in the best try so far."""
    stamp, luns = (STAMP if kind == "image" else 0), len(set(lun_of))
    # Half of these eight pages are on another LUN, if there is one.
    far = next((sector - 4 for sector in range(128, SECTORS // 2, PAGES) if lun_of[sector - 1] != lun_of[sector]), 252)
    rows = [("read", 100, 1, READ), ("read", far, 8, 4 * READ if luns > 1 else 8 * READ), ("write", 100, 1, PROGRAM), ("read", 100, 1, READ),
            ("part", 100, 1, READ + PROGRAM), ("trim", 100, 1, PROGRAM if stamp else 0), ("read", 100, 1, READ if stamp else 0),
            ("write", 100, 1, stamp + PROGRAM)]
    played(shop, server, [(0, 0, "write", 100, 1)])  # an image erases a block before it writes to it
    answers = played(shop, server, [(0, 0, op, sector, pages) for op, sector, pages, _ in rows])
    for answer, (op, sector, pages, wanted) in zip(answers, rows):
        want(answer.took >= wanted - SLACK, f"{luns} LUNs: a {op} of {pages} pages took {answer.took} µs, and its commands take {wanted}")
    least[:] = [min(pair) for pair in zip([answer.took - row[3] for answer, row in zip(answers, rows)], least or [ERASE] * len(rows))]
    return max(least) / READ, f"{len(rows)} requests alone"


def reads_at_once(shop, server, lun_of, draw):
    """Reads at random times, which wait for those before them on their LUN: the kth answer of a LUN isn't before the kth of the model."""
    lines = [(lane, 180_000 * turn + draw.randrange(60_000), "read", draw.randrange(SECTORS // 2, SECTORS), 1) for turn in range(4) for lane in range(10)]
    answers, off = played(shop, server, lines), []
    for lun in set(lun_of):
        own = sorted((answer for answer in answers if lun_of[answer.sector] == lun), key=lambda answer: answer.sent)
        model = Lun()
        for wanted, found in zip([model.take(answer.sent, READ) for answer in own], sorted(answer.answered for answer in own)):
            want(found >= wanted - SLACK, f"{len(set(lun_of))} LUNs: a read is answered {wanted - found} µs before its LUN can have done it")
            off.append(found - wanted)
    return statistics.median(off) / READ, f"{len(off)} reads at random times"


SLOWER = 20  # so many times slower is the part on which one read comes before another one


def other_luns_go_on(shop, kind):
    """A read of a whole block keeps its LUN busy for seconds. Reads of another LUN, sent long after it, are answered before it can be done."""
    server, lun_of = in_order(shop, kind, 4, SLOWER), luns_in_order(kind, 4)
    long = 6 * PAGES
    own = [sector for sector in range(0, SECTORS, PAGES) if lun_of[sector] != lun_of[long]][:4]
    want(len(set(lun_of[long:long + PAGES])) == 1 and len(own) == 4, f"the sectors aren't on the LUNs that the test needs: {lun_of}")
    for _ in range(3):
        answers = played(shop, server, [(0, 0, "read", long, PAGES), *((lane, 1_500_000, "read", sector, 1) for lane, sector in enumerate(own, 1))])
        first, *others = sorted(answers, key=lambda answer: answer.lane)
        done = first.sent + SLOWER * PAGES * READ - SLACK
        want(first.answered >= done, f"{PAGES} reads of one LUN took {first.took} µs, and their commands take {SLOWER * PAGES * READ}")
        if all(answer.answered < done for answer in others):
            return f"{kind}, reads of two LUNs in turn"
    want(False, f"{kind}: a LUN is busy, and reads of another one, which were sent later, wait until it is done")


def of_commands(shop):
    """What single requests take, and many at once, on devices of one LUN and of four."""
    told = [other_luns_go_on(shop, kind) for kind in ("memory", "image")]
    for kind in ("memory", "image"):
        for luns in (1, 4):
            server, lun_of, draw, least = in_order(shop, kind, luns), luns_in_order(kind, luns), random.Random(luns), []
            name = f"{kind}, {luns} LUN{'s' * (luns > 1)}"
            told.append(best_of(lambda: reads_at_once(shop, server, lun_of, draw), name))
            told.append(best_of(lambda: single_requests(shop, server, kind, lun_of, least), name))
            server.stop()
    return "; ".join(told)


# ---- Reads while the device collects.


def collecting_image(shop, luns, draw):
    """An image that collects, and the layer that does the same: 69 % of its pages are in use."""
    image, layer, sectors = new_image(shop), Layer(BLOCKS, PAGES), 704
    server = Server(shop, f"sectors={sectors}", f"blocks={BLOCKS}", f"pages={PAGES}", f"luns={luns}", "sync=never", image=image)
    written = [*range(sectors), *(draw.randrange(sectors) for _ in range(2 * sectors))]
    played(shop, server, [(0, 0, "write", sector, 1) for sector in written])
    server.stop()
    commands = [command for sector in written for command in layer.write(sector)]
    want(any(kind == "copy" for kind, _, _ in commands), "the model of the layer copies nothing")
    layer.mount()
    return Server(shop, "sync=never", f"part={part_file(shop)}", image=image, before=HURRY), Timed(layer, luns, TIMES), sectors


def reads_under_collection(shop, luns):
    """A client writes without a pause, and reads come at random times: their median and the longest are those of the model."""
    server, model, sectors = collecting_image(shop, luns, random.Random(luns))
    draw = random.Random(luns + 8)

    def attempt():
        lines = [(0, 0, "write", draw.randrange(sectors), 1) for _ in range(32)]
        lines += [(lane, at, "read", draw.randrange(sectors), 1) for lane in range(1, 5) for at in sorted(draw.randrange(1_800_000) for _ in range(25))]
        reads, wanted = [], []
        for answer in sorted(played(shop, server, lines), key=lambda answer: answer.sent):
            before = model.busy
            end = getattr(model, answer.op)(answer.sector, answer.sent)
            least = model.busy - before
            want(answer.took >= least - SLACK, f"{luns} LUNs that collect: a {answer.op} took {answer.took} µs, and its commands take {least}")
            if answer.op == "read":
                reads.append(answer.took)
                wanted.append(end - answer.sent)
        model.luns = [Lun() for _ in range(luns)]
        pairs = [(part(reads), part(wanted)) for part in (statistics.median, max)]
        told = [f"{name} {took / 1000:.1f} ms ({least / 1000:.1f} in the model)" for name, (took, least) in zip(("median", "longest"), pairs)]
        return max(abs(took / least - 1) for took, least in pairs), ", ".join(told)

    told = best_of(attempt, f"an image of {luns} LUN{'s' * (luns > 1)} that collects")
    server.stop()
    return told


def busy_in_memory(shop):
    """One LUN that always has something to do does as much as its time allows: reads, programs, and the brooms' copies and erases."""
    server = Server(shop, "sectors=704", f"blocks={BLOCKS}", f"pages={PAGES}", "hosts=4", "age=3", "wait=60000", f"part={part_file(shop)}", before=HURRY)
    draw = random.Random(3)

    def attempt():
        before = server.counts()
        answers = played(shop, server, [(lane, 0, "write" if lane == 0 else "read", draw.randrange(704), 1) for lane in range(3) for _ in range(50)])
        after = server.counts()
        did = {name: getattr(after, name) - getattr(before, name) for name in ("reads", "programs", "copies", "erases")}
        took = max(answer.answered for answer in answers) - min(answer.sent for answer in answers)
        busy = did["reads"] * READ + did["programs"] * PROGRAM + did["copies"] * COPYBACK + did["erases"] * ERASE
        late = PAGES * COPYBACK + ERASE  # the last drain is counted as it begins
        want(did["copies"] > 0 and did["erases"] > 0, f"nothing is collected: {did}")
        want(busy <= took + late, f"one LUN was busy for {busy} µs within {took}: {did}")
        return took / busy - 1, f"{did['reads']} reads, {did['programs']} programs, {did['copies']} copies and {did['erases']} erases in {took / 1e6:.1f} s"

    told = best_of(attempt, "memory, 1 LUN that collects")
    server.stop()
    return told


def erases_take_time(shop):
    """In memory, where nothing but an erase takes long, one LUN does no two erases at once; of the last one the count comes before its time."""
    path, erase, draw = shop.folder / "erases.toml", 300_000, random.Random(4)
    path.write_text(f"read = 1\nprogram = 1\nerase = {erase}\ntransfer = 0\n")
    server = Server(shop, "sectors=704", f"blocks={BLOCKS}", f"pages={PAGES}", "hosts=4", "age=3", "wait=60000", f"part={path}")
    began, before = time.monotonic(), server.counts().erases
    played(shop, server, [(0, 0, "write", draw.randrange(704), 1) for _ in range(150)])
    erases = server.counts().erases - before
    took = round(1e6 * (time.monotonic() - began))
    want(erases > 5, f"only {erases} erases")
    want(took >= (erases - 1) * erase, f"{erases} erases of one LUN were done within {took} µs, and each takes {erase}")
    server.stop()
    return f"{erases} erases in {took / 1e6:.1f} s"


def under_collection(shop):
    return "; ".join([erases_take_time(shop), busy_in_memory(shop), *(reads_under_collection(shop, luns) for luns in (1, 4))])
