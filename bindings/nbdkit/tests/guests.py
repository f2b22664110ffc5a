"""A guest of Debian's kernel under QEMU, with ext4 and a database of sqlite3 on a disk whose server is killed or loses power, over and over."""

import os
import pathlib
import random
import re
import signal
import sys
import time

from images import MODES, STATUS_OF_A_CUT, gone, new_image
from running import HERE, Server, kill, want

sys.path.append(str(HERE.parents[1] / "examples/mtd"))
import guest  # noqa: E402

MODULES = "virtio_pci virtio_blk crc32c_generic ext4".split()
PROGRAMS = ("/usr/bin/sqlite3", "/sbin/e2fsck")
BYTES = 24 << 20
NUMBERS = [f"size={BYTES}", "spare=50", "pages=64"]
# What row k of the table has. Each transaction adds one, and changes others.
VALUE = "substr(replace(hex(zeroblob(1000)), '00', k || '.'), 1, 100 + 37 * k % 1000)"
TRANSACTION = f"""begin; insert into t select total + 1, '' from s; update t set v = {VALUE} where k = (select total + 1 from s);
update t set v = v where k = 1 + abs(random()) % (select total from s); update s set total = total + 1; commit; select 'committed ' || total from s;
"""
CHECK = f"""pragma integrity_check; select 'has ' || total || ' of ' || (select count(*) || ' ' || sum(v = {VALUE}) from t) from s;
"""
# A turn ends with the server. All that the guest knows of the disk goes with the file system, and the next turn finds what the next server has.
JOB = f"""modprobe -a {' '.join(MODULES)}; mkdir /disk
turn=0
while true; do
  until head -c 4096 /dev/vda > /dev/null 2>&1; do usleep 20000; done
  mount -t ext4 /dev/vda /disk && /sqlite3 /disk/t.db < /check; umount /disk
  /e2fsck -fn /dev/vda > /checked 2>&1; echo "e2fsck $?"; grep -v '^Pass' /checked
  mount -t ext4 /dev/vda /disk; echo "plays $turn"
  (i=0; while echo $i > /disk/new && mv /disk/new /disk/f$((i % 7)) && sync -f /disk; do i=$((i + 1)); done 2> /dev/null) &
  mode=delete; [ $((turn / 2 % 2)) = 0 ] || mode=wal
  (echo "pragma journal_mode=$mode; pragma synchronous=extra;"; cat /transactions) | /sqlite3 -bail /disk/t.db > /dev/console 2>&1
  wait; umount /disk; echo "ended $turn"
  turn=$((turn + 1))
done
"""


class Machine:
    """A guest whose disk is behind a door: a name of the socket of the server that is there."""

    def __init__(self, shop, door):
        self.shop, self.console, self.at = shop, shop.folder / "console", 0
        self.console.unlink(missing_ok=True)
        texts = [shop.folder / name for name in ("transactions", "check")]
        texts[0].write_text(3000 * TRANSACTION)
        texts[1].write_text(CHECK)
        image = guest.pack(shop.folder, MODULES, [*map(pathlib.Path, PROGRAMS), *texts], JOB)
        drive = f"format=raw,if=virtio,cache=writeback,werror=report,rerror=report,file=nbd+unix:///?socket={door}"
        self.process = shop.start(guest.command(image, self.console, words=("-drive", drive)), shop.folder / "qemu.log")

    def wait_for(self, line, seconds=100):
        """What the guest says from now on up to such a line."""
        began, pattern = time.monotonic(), re.compile(f"^{line}\n", re.M)
        while True:
            told = self.console.read_text(errors="replace").replace("\r", "") if self.console.exists() else ""
            found = pattern.search(told, self.at)
            if found:
                text, self.at = told[self.at:found.end()], found.end()
                return text
            is_due = time.monotonic() < began + self.shop.patience(seconds)
            want(self.process.poll() is None and is_due,
                 f"the guest ended, or didn't say {line!r} within {seconds} s: {told[-3000:]}")
            time.sleep(0.005)


def new_disk(shop, image):
    """An image with a file system in which a database is."""
    disk, database = shop.folder / "disk", shop.folder / "t.db"
    for path in (disk, database):
        path.unlink(missing_ok=True)
    disk.touch()
    os.truncate(disk, BYTES)
    shop.run(["sqlite3", database, "create table t(k integer primary key, v text); create table s(total integer); insert into s values(0);", CHECK])
    shop.run(["mke2fs", "-q", "-t", "ext4", "-F", "-b", "4096", "-J", "size=4", "-E", "lazy_itable_init=0,lazy_journal_init=0", disk])
    shop.run(["debugfs", "-w", "-R", f"write {database} t.db", disk])
    server = Server(shop, *NUMBERS, image=image)
    shop.run(["nbdcopy", "--flush", disk, server.uri])
    server.stop()


def served(shop, turn, image, door):
    """The server of a turn: one that is killed, in each mode, or in each second turn one whose power is cut."""
    is_cut = turn % 2 == 1
    words = ["sync=flush", "cut=0", f"seed={turn}"] if is_cut else [f"sync={MODES[turn // 2 % 3]}"]
    server = Server(shop, *words, image=image)
    server.is_cut = is_cut
    new = shop.folder / "new-door"
    new.unlink(missing_ok=True)
    new.symlink_to(server.socket)
    new.rename(door)
    return server


def look(told, committed):
    """How many transactions the disk has: all that were committed, and perhaps one more. The file system is whole."""
    found = re.search(r"^ok\n(?:has (\d+) of (\d+) (\d+)\n)?(?:.*\n)*?e2fsck 0$", told, re.M)
    want(found, f"the file system or the database isn't whole: {told[-3000:]}")
    total, rows, right = (int(word or 0) for word in found.groups())
    want(total == rows == right, f"{total} transactions gave {rows} rows, of which {right} are right")
    want(committed <= total <= committed + 1, f"{committed} transactions were committed, and {total} are there")
    return total


def end_server(shop, server):
    if server.is_cut:
        server.process.send_signal(signal.SIGUSR2)
        gone(shop, server, STATUS_OF_A_CUT)
    else:
        kill(server.process)
        shop.started.remove(server.process)


def files_and_a_database(shop, seed=1):
    """In each turn the guest commits transactions until its server is gone. Behind the next one all of them are there."""
    image, door, turns, draw, total = new_image(shop), shop.folder / "door", shop.scaled(6, 34), random.Random(seed), 0
    new_disk(shop, image)
    server = served(shop, 0, image, door)
    machine = Machine(shop, door)
    for turn in range(turns):
        total = look(machine.wait_for(f"plays {turn}"), total)
        told = machine.wait_for("committed .*")
        time.sleep(draw.uniform(0, 1))
        end_server(shop, server)
        told += machine.wait_for(f"ended {turn}")
        total = max(map(int, re.findall(r"^committed (\d+)$", told, re.M)))
        server = served(shop, turn + 1, image, door)
    total = look(machine.wait_for(f"plays {turns}"), total)
    kill(machine.process)
    shop.started.remove(machine.process)
    server.stop()
    return f"{turns} ends of its server, of which {turns // 2} were power cuts, and {total} transactions"
