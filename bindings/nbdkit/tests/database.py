"""database.py make URI | use URI STATS FOLDER SYNCHRONOUS | check URI FLUSHES FOLDER: sqlite3 on a disk without a file system.

The first half of the disk is the database, and the second its journal, as files that nbdfuse shows. `use` makes transactions, and notes in FOLDER how many
flushes the disk had answered behind each; `check` copies both files from the disk and opens them: each transaction is whole, and there are at
least those that were committed behind so many flushes.
"""

import contextlib
import json
import os
import pathlib
import sqlite3
import subprocess
import sys
import tempfile
import time

import nbd

HALF, TRANSACTIONS, ROWS = 256 << 10, 4, 2


def connected(uri):
    disk = nbd.NBD()
    disk.connect_uri(uri)
    return disk


def flushes_of(stats):
    """How many flushes of clients the disk has answered; the report counts those of its layers."""
    disk = connected(stats)
    report = json.loads(bytes(disk.pread(disk.get_size(), 0)))
    return report["flushes"] // report["layers"]


def make(uri):
    """An empty table, and no journal."""
    with tempfile.TemporaryDirectory() as folder:
        path = pathlib.Path(folder) / "t.db"
        table = sqlite3.connect(path)
        table.executescript("pragma page_size=4096; create table t(k integer primary key, turn integer, v blob);")
        table.close()
        disk = connected(uri)
        disk.pwrite(path.read_bytes(), 0)
        disk.flush()


@contextlib.contextmanager
def shown(uri, name, at):
    """A half of the disk as a file."""
    open(name, "wb").close()
    call = ["nbdfuse", name, "[", "nbdkit", "--exit-with-parent", "--filter=offset", "nbd", f"uri={uri}", f"offset={at}", f"range={HALF}", "]"]
    process = subprocess.Popen(call)
    while os.path.getsize(name) != HALF and process.poll() is None:
        time.sleep(0.01)
    try:
        yield
    finally:
        subprocess.run(["fusermount3", "-u", name], check=process.returncode is None)
        process.wait()


def use(uri, stats, folder, synchronous):
    """Each transaction adds rows, and changes all that are there. Another client flushes behind the first; only `full` flushes more, and promises anything."""
    committed = []
    with tempfile.TemporaryDirectory() as own, shown(uri, f"{own}/t.db", 0), shown(uri, f"{own}/t.db-journal", HALF):
        table = sqlite3.connect(f"{own}/t.db", isolation_level=None)
        table.executescript(f"pragma journal_mode=persist; pragma synchronous={synchronous};")
        for turn in range(1, TRANSACTIONS + 1):
            if turn == 2:
                connected(uri).flush()
            rows = "insert into t(turn, v) values(0, randomblob(3000));" * ROWS
            table.executescript(f"begin; {rows} update t set turn={turn}, v=randomblob(2500); commit;")
            committed += [flushes_of(stats)] * (synchronous == "full")
        table.close()
    pathlib.Path(folder, "committed").write_text(json.dumps(committed))


def check(uri, flushes, folder):
    least = sum(it <= int(flushes) for it in json.loads(pathlib.Path(folder, "committed").read_text())) if int(flushes) else 0
    disk = connected(uri)
    with tempfile.TemporaryDirectory() as own:
        for name, at in (("t.db", 0), ("t.db-journal", HALF)):
            pathlib.Path(own, name).write_bytes(disk.pread(HALF, at))
        table = sqlite3.connect(f"{own}/t.db")
        found = table.execute("pragma integrity_check").fetchall()
        count, first, last = table.execute("select count(*), min(turn), max(turn) from t").fetchone()
    if found != [("ok",)] or first != last or count != ROWS * (last or 0):
        sys.exit(f"{count} rows of transactions {first} to {last}: {found}")
    if (last or 0) < least:
        sys.exit(f"{last or 0} transactions are there, and {least} were committed")


{"make": make, "use": use, "check": check}[sys.argv[1]](*sys.argv[2:])
