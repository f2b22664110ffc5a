"""A file system and a database on the device: by FUSE or, if the kernel has none, by copies of an image."""

import contextlib
import os
import pathlib
import random
import signal
import tempfile
import time

from running import HERE, fio, want


def has_fuse(shop):
    """Whether the kernel has FUSE. Where CI=true it has to, and a run without it tests less and says so."""
    if shop.options.without_fuse:
        return False
    has_it = os.access("/dev/fuse", os.R_OK | os.W_OK)
    want(has_it or os.environ.get("CI") != "true", "/dev/fuse isn't there, or isn't ours, and CI=true")
    return has_it


def wait_for(is_so, what):
    for _ in range(1000):
        if is_so():
            return
        time.sleep(0.01)
    want(False, f"{what} didn't come")


class Mount:
    """What a program of FUSE shows below a folder, until its end."""

    def __init__(self, shop, words, shown):
        self.shop, self.folder = shop, shop.folder / f"mount-{len(shop.mounted)}"
        self.folder.mkdir(exist_ok=True)
        self.process = shop.start([word if word != "FOLDER" else self.folder for word in words], shop.folder / "fuse.log")
        shop.mounted.append(self.folder)
        wait_for(lambda: (self.folder / shown).exists() or self.process.poll() is not None, f"{words[0]}'s {shown}")
        want(self.process.poll() is None, f"{words[0]}: {(shop.folder / 'fuse.log').read_text()}")

    def end(self):
        """Unmounts it, and waits until all is written."""
        self.shop.run(["fusermount3", "-u", self.folder])
        self.process.wait(60)
        self.shop.mounted.remove(self.folder)
        self.shop.started.remove(self.process)


def mounted_device(shop, server):
    return Mount(shop, ["nbdfuse", "FOLDER", server.uri], "nbd")


def a_file_system(shop, server):
    """mke2fs, a file by debugfs, and e2fsck, on the device itself."""
    given, found = shop.folder / "given", shop.folder / "found"
    given.write_bytes(random.Random(3).randbytes(24_000_000))
    device = mounted_device(shop, server) if has_fuse(shop) else None
    disk = device.folder / "nbd" if device else shop.folder / "disk"
    if not device:
        shop.run(["nbdcopy", server.uri, disk])
    shop.run(["mke2fs", "-q", "-t", "ext4", "-F", disk])
    shop.run(["debugfs", "-w", "-R", f"write {given} file", disk])
    if not device:
        carry(shop, server, disk)
    shop.run(["e2fsck", "-fn", disk])
    shop.run(["debugfs", "-R", f"dump file {found}", disk])
    shop.run(["cmp", given, found])
    if device:
        device.end()
        return "by FUSE"
    return "this kernel has no FUSE, so by copies of an image"


def transactions(count):
    """As many transactions as asked, an insert or an update each, and what the table has to hold after them."""
    draw = random.Random(4)
    lines, rows = ["pragma journal_mode=delete;", "create table t(k integer primary key, v text);"], {}
    for number in range(count - 1):
        value = f"{number} " + "x" * draw.randrange(400)
        if rows and number % 3 == 0:
            key = draw.randrange(len(rows))
            lines.append(f"update t set v='{value}' where k={key};")
        else:
            key = len(rows)
            lines.append(f"insert into t values({key}, '{value}');")
        rows[key] = value
    return "\n".join(lines), rows


def a_database(shop, server):
    """sqlite3 on ext4, by fuse2fs over nbdfuse; without FUSE its file is carried in an image."""
    count = shop.scaled(1500, 10_000)
    text, rows = transactions(count)
    wanted = "\n".join(f"{key}|{value}" for key, value in sorted(rows.items()))
    if not has_fuse(shop):
        return carried(shop, server, text, wanted)
    device = mounted_device(shop, server)
    disk = device.folder / "nbd"
    shop.run(["mke2fs", "-q", "-t", "ext4", "-E", "nodiscard", "-F", disk])
    files = Mount(shop, ["fuse2fs", "-f", "-o", "rw,fakeroot", disk, "FOLDER"], "lost+found")
    database = files.folder / "t.db"
    shop.run(["sqlite3", database], 400, given=text)
    checked = shop.run(["sqlite3", database, "pragma integrity_check;", "select k, v from t order by k;"], 60)
    want(checked.strip() == f"ok\n{wanted}", checked[:1000])
    files.end()
    shop.run(["e2fsck", "-fn", disk])
    device.end()
    return f"{count:,} transactions by FUSE"


def carry(shop, server, disk):
    """An image to the device, which is overwritten at random before, and back again."""
    fio(shop, server, "mix", rw="randwrite", bs="4k", size="48m", iodepth=16, io_size="24m", randrepeat=0, norandommap=1)
    shop.run(["nbdcopy", disk, server.uri])
    disk.unlink()
    shop.run(["nbdcopy", server.uri, disk])


def carried(shop, server, text, wanted):
    disk, database, found = (shop.folder / name for name in ("disk", "t.db", "found.db"))
    shop.run(["sqlite3", database], 400, given=f"pragma synchronous=off;\n{text}")
    shop.run(["nbdcopy", server.uri, disk])
    shop.run(["mke2fs", "-q", "-t", "ext4", "-E", "nodiscard", "-F", disk])
    shop.run(["debugfs", "-w", "-R", f"write {database} t.db", disk])
    carry(shop, server, disk)
    shop.run(["e2fsck", "-fn", disk])
    shop.run(["debugfs", "-R", f"dump t.db {found}", disk])
    checked = shop.run(["sqlite3", found, "pragma integrity_check;", "select k, v from t order by k;"], 60)
    want(checked.strip() == f"ok\n{wanted}", checked[:1000])
    return "this kernel has no FUSE, so the database was made elsewhere and carried in an image"


def the_page(shop):
    """The lines of docs/BLOCK_DEVICE.md unchanged, except for make and the folder: a disk that survives a kill, and a file system by FUSE."""
    page = (HERE.parents[1] / "docs/BLOCK_DEVICE.md").read_text()
    blocks = [block.split("```")[0].splitlines() for block in page.split("```sh\n")[1:] if block.startswith("make ")]
    want([len(lines) <= 10 for lines in blocks] == [True, True], f"the page has {len(blocks)} blocks of lines from make on, or long ones")
    run_lines(shop, blocks[0], "all is there")
    if not has_fuse(shop):
        return "this kernel has no FUSE, so only the page's first lines were run"
    return run_lines(shop, blocks[1], "programs,")


def run_lines(shop, lines, wanted):
    user = as_nobody()
    with tempfile.TemporaryDirectory(prefix="nbdkit-") as folder:
        os.chmod(folder, 0o777 if user else 0o700)
        flash = pathlib.Path(folder) / "flash"
        script = "\n".join(["set -e", f"cd '{HERE.parents[1]}'", *lines[1:]]).replace("/tmp/flash", str(flash))
        shop.mounted += [flash / "disk", flash / "files"]
        try:
            printed = shop.run([*user, "bash", "-c", script], 60)
        finally:
            end_by_pid(flash / "pid")
            shop.end_all()
        want(wanted in printed, printed)
        want(not flash.exists(), "the page's lines leave something behind")
    other = "as the user of the check, since not everybody may use /dev/fuse" if os.geteuid() == 0 else "without root"
    return f"{len(lines)} lines, {'as a user without rights' if user else other}"


def as_nobody():
    """Words that run a program as the user nobody, if root runs the check and everybody may use FUSE."""
    may_all = os.path.exists("/dev/fuse") and os.stat("/dev/fuse").st_mode & 0o006 == 0o006
    return ["setpriv", "--reuid=65534", "--regid=65534", "--clear-groups"] if os.geteuid() == 0 and may_all else []


def end_by_pid(file):
    """Ends a server that went into the background, if it is there."""
    with contextlib.suppress(FileNotFoundError, ProcessLookupError, ValueError):
        os.kill(int(file.read_text()), signal.SIGKILL)
