"""What the disk tells of itself by its second export, and use before the first client: by clients from other projects, and jq."""

import json
import time

from failures import new_failing
from running import Server, fio, want

# What holds of each report, in jq's words, and what of one of a device in memory.
LAWS = """(.waits.by_time | map(.writes) | add) == .waits.writes
and ([.waits.by_time[] | .writes * (.up_to_microseconds // 1e12)] | add) >= .waits.microseconds
and ([.waits.by_time[] | .writes * ((.up_to_microseconds // 33554432) / 2 - 8)] | add) <= .waits.microseconds"""
LAWS_OF_MEMORY = """(.erases_by_block | length) == .blocks and (.erases_by_block | add) == .erases
and (.percentage_used * 1000 | round) == (100000 * .erases / (.blocks * (.endurance - 1)) | floor)
and (.host_programs == 0 or (.write_amplification * 1000 | round) == (1000 * (.host_programs + .copies) / .host_programs | floor))"""


def uri_of(server, export):
    return f"nbd+unix:///{export}?socket={server.socket}"


def report(shop, server):
    """The report of now, of which the laws hold."""
    path = shop.folder / "report.json"
    shop.run(["nbdcopy", uri_of(server, "stats"), path])
    laws = LAWS if server.image else f"{LAWS} and {LAWS_OF_MEMORY}"
    held = shop.run(["jq", laws, path]).strip()
    want(held == "true", f"a law fails of the report {path.read_text().rstrip()}")
    return json.loads(path.read_text())


def by_library(shop, server, lines):
    """What these lines print, which use the disk `h` and two connections to its statistics, `s` and `t`, by Debian's libnbd."""
    begin = "".join(f"{name} = nbd.NBD()\n{name}.connect_uri({uri_of(server, export)!r})\n" for name, export in (("h", ""), ("s", "stats")))
    return shop.run(["/usr/bin/python3", "-c", f"import nbd\n{begin}{lines}"])


def the_exports(shop, server):
    """The disk and the statistics, which can only be read, and not by several connections as if they were one."""
    listed = json.loads(shop.run(["nbdinfo", "--list", "--json", server.uri]))["exports"]
    want([each["export-name"] for each in listed] == ["", "stats"], f"the exports: {listed}")
    disk, stats = listed
    want(not disk["is_read_only"] and disk["can_multi_conn"], f"the disk: {disk}")
    want(stats["is_read_only"] and not stats["can_multi_conn"], f"the statistics, of which each connection has its own: {stats}")
    told = shop.run(["nbdinfo", uri_of(server, "stat")], status=1)
    want("No such file or directory" in told and "there is no export 'stat'" in server.log.read_text(), f"an unknown export: {told}")


def the_same_by_all(shop, server):
    """Who reads blocks of 512 bytes gets the whole report too."""
    one, other = shop.folder / "one", shop.folder / "other"
    shop.run(["nbdcopy", uri_of(server, "stats"), one])
    shop.run(["qemu-img", "convert", "-f", "raw", "-O", "raw", uri_of(server, "stats"), other])
    shop.run(["cmp", one, other])
    shop.run(["jq", "-e", ".blocks", other])


def of_one_moment(shop, server):
    """A connection has the report of its beginning; and it can't be written to."""
    told = by_library(shop, server, """
before = s.pread(s.get_size(), 0)
h.pwrite(bytes(4096), 0)
t = nbd.NBD()
t.connect_uri(s.get_uri())
print(before == s.pread(s.get_size(), 0), before == t.pread(t.get_size(), 0))
s.set_strict_mode(0)
try:
    s.pwrite(bytes(16), 0)
    print("written")
except nbd.Error as error:
    print(error.errno)
""").split()
    want(told[:2] == ["True", "False"], f"the report of a connection isn't that of its beginning: {told}")
    want(told[2] == "EPERM", f"a write to the statistics: {told}")


def counted(shop, server):
    """Against the file of counts, and the map of holes by nbdinfo."""
    fio(shop, server, "some", rw="randwrite", size="16m", bsrange="512-20k", bs_unaligned=1, blockalign=512, iodepth=16, io_size="40m", randrepeat=0)
    before = report(shop, server)
    by_library(shop, server, "h.trim(1 << 20, 1 << 20); h.trim(1 << 20, 1 << 20)")
    after, counts = report(shop, server), server.counts()
    trimmed, freed = (after[name] - before[name] for name in ("host_trims", "trims_that_freed"))
    want(trimmed == 512 and freed == (before["used_bytes"] - after["used_bytes"]) // 4096 and freed <= 256, f"of {trimmed} trims {freed} freed a page")
    named_otherwise = {"host_programs": "programs", "host_reads": "reads", "host_trims": "trims", "refused_writes": "no_space"}
    for name in ("host_programs", "copies", "erases", "host_reads", "host_trims", "refused_writes"):
        of_file = named_otherwise.get(name, name)
        want(after[name] == counts.numbers[of_file], f"{name} is {after[name]}, and the file has {counts.numbers[of_file]}")
    data = sum(int(line.split()[1]) for line in shop.run(["nbdinfo", "--map", server.uri]).splitlines() if line.split()[2] == "0")
    want(after["used_bytes"] == data, f"{after['used_bytes']} bytes are used, and {data} by the map")
    return after


def statistics(shop):
    server = Server(shop, "size=16M", "spare=5", "hosts=4", "endurance=1000")
    new = report(shop, server)
    want(new["write_amplification"] is None and new["available_spare"] == 100 and new["used_bytes"] == 0, f"a new disk: {new}")
    the_exports(shop, server)
    the_same_by_all(shop, server)
    of_one_moment(shop, server)
    fio(shop, server, "fill", rw="write", bs="64k", size="16m", iodepth=4)
    used = counted(shop, server)
    want(used["waits"]["writes"] > 0 and used["percentage_used"] > 0, f"no write has waited: {used}")
    server.stop()
    worn = worn_disk(shop)
    of_image(shop)
    return (f"{used['waits']['writes']} waits told; worn: {worn['percentage_used']} % used, {worn['available_spare']} % of the spare left, "
            f"{worn['refused_writes']} writes refused")


def worn_disk(shop):
    server = Server(shop, "sectors=2400", "blocks=60", "hosts=4", "endurance=10", "worn=readonly")
    shop.run(["fio", "--name=wear", "--thread", "--ioengine=nbd", f"--uri={server.uri}", "--rw=randwrite", "--bs=4k", "--size=9600k", "--iodepth=4",
              "--io_size=2g", "--norandommap"], status=1)
    worn, counts = report(shop, server), server.counts()
    want(worn["is_readonly"] and worn["retired_blocks"] == counts.retired_blocks > 0, f"a worn disk: {worn}")
    want(worn["refused_writes"] == counts.no_space > 0 and worn["available_spare"] < 100, f"a worn disk: {worn}")
    server.stop()
    return worn


ERASE = 20_000  # microseconds of an erase, on a part that does nothing else slowly
OF_IMAGE = ["sectors=1024", "blocks=100", "pages=16", "endurance=50", "bad=0,17", "sync=never"]  # the sectors need 66


def write_image(shop, server, count):
    """One client writes all sectors, and then so many at random."""
    by_library(shop, server, f"""
import random
draw = random.Random(1)
for i in range(1024 + {count}):
    h.pwrite(bytes(4096), 4096 * (i if i < 1024 else draw.randrange(1024)))
""")


def of_image(shop):
    """An image's share of its life is kept over a start; its spare goes with its bad blocks, beside those of the
    factory; and each erase is a part of what the one client has waited."""
    part, image = shop.folder / "erases.toml", new_failing(shop)
    part.write_text(f"read = 1\nprogram = 1\nerase = {ERASE}\ntransfer = 0\n")
    server = Server(shop, *OF_IMAGE, f"part={part}", image=image)
    new, began = report(shop, server), time.monotonic()
    want(new["percentage_used"] == 0 and new["available_spare"] == 100 and new["waits"]["writes"] == 0,
         f"a new image: {new}")
    write_image(shop, server, 500)
    took, used = time.monotonic() - began, report(shop, server)
    erases, waits = used["erases"], used["waits"]
    wanted = 100_000 * erases // (100 * 49) / 1000
    want(erases > 50 and used["percentage_used"] == wanted, f"{wanted} % are used: {used}")
    want(0 < waits["writes"] <= erases and erases * ERASE <= waits["microseconds"] <= 1e6 * took,
         f"waits for {erases} erases of {ERASE} µs within {took} s: {used}")
    server.stop()
    server = Server(shop, *OF_IMAGE, "fail-erases=0.02", image=image)
    again = report(shop, server)
    want(again["erases"] == 0 and again["percentage_used"] > 0.8 * wanted, f"{wanted} % were used, and then: {again}")
    write_image(shop, server, 3000)
    worn = report(shop, server)
    want(worn["bad_blocks"] > 4, f"too few bad blocks: {worn}")
    left = 100_000 * (100 - 66 - worn["bad_blocks"]) // (100 - 66 - 2) / 1000
    want(worn["available_spare"] == left, f"{left} % of the spare are left: {worn}")
    server.stop()


def aged_at_start(shop):
    """The same seed gives the same disk, and another seed another one. Each sector is written, and reads as zeros."""
    reports = []
    for seed in (7, 7, 8):
        server = Server(shop, "size=16M", "spare=12", "hosts=4", "age=3", f"seed={seed}", "endurance=1000")
        reports.append(report(shop, server))
        shop.run(["qemu-io", "-f", "raw", "-r", "-c", "read -P 0 0 16M", server.uri])
        server.stop()
    aged = reports[0]
    want(aged["host_programs"] == 3 * 4096 and aged["used_bytes"] == 16 << 20 and aged["copies"] > 0, f"an aged disk: {aged}")
    is_same = all(aged[name] == reports[1][name] for name in ("erases_by_block", "copies"))
    want(is_same, f"the same seed, and other disks: {reports}")
    want(reports[2]["copies"] != aged["copies"], f"another seed, and the same disk: {reports}")
    worn = Server(shop, "sectors=2400", "blocks=60", "hosts=4", "endurance=3", "age=1000")
    want("and worn out" in worn.log.read_text(), worn.log.read_text())
    want(report(shop, worn)["refused_writes"] == 1, "a disk that is worn out before its first client")
    worn.stop()
    return f"{aged['write_amplification']} programs a write"
