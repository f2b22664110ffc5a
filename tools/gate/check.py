"""check: proves, tests and tries everything that has to hold before a merge: the sources and pages (BEFORE), all proofs and tests, the wrong bodies of
each crate without an entry in .ci/refused or that the commit draws, its twins and wrong definitions, the program and the library (AFTER), and what is
built from them (ROWS). If CI=true it installs what the checks need, and ends with the package on a system without the toolchain. Otherwise root installs
what is missing, after it was named; for other users nothing is begun then. The last line is `rt ci`'s count of what passed and failed."""

import os
import re
import shutil
import signal
import subprocess
import sys
from concurrent.futures import ThreadPoolExecutor

from gate import tree, wrong_bodies
from tests import packages as of_tools

# What comes before the proofs, and what comes after them.
BEFORE = (
    ".ci/waits-nowhere", ".ci/definitions", ".ci/promises", ".ci/layout", ".ci/gallery", ".ci/headers", ".ci/twins --check", ".ci/wrong-definitions --check",
    ".ci/needless --check", f"{sys.executable} -B -m unittest discover -q -s tools/gate/tests -t tools",
)  # fmt: skip
AFTER = (".ci/twins --due", ".ci/wrong-definitions --due", "./flashplay --prove", "make --no-print-directory --silent -C bindings")
# Two rows of commands that run beside each other.
ROWS = (
    (".ci/uncompiled", "bench/run --try", "bench/power_cuts/check", "tools/check", "examples/launcher --quick"),
    ("examples/check", "examples/sessions", "examples/hostile", "examples/short_of_memory", "examples/launcher", "bindings/check",
     "bench/designs/measure --try", "bench/readers --try", "examples/firmware/check --quick", "bindings/nbdkit/check", "examples/mtd/check",
     "bindings/tests/machines"),
)  # fmt: skip
# How a script lists the packages of Debian that it needs.
PACKAGES = re.compile(r"^ *(?:\.\./)?\.ci/needs (.*)|^PACKAGES = \(([^)]*)", re.M)


def packages(is_ci):
    """The packages that the checks need. Each script lists its own; cargo may also come from elsewhere."""
    files = ["bindings/check", "bindings/nbdkit/check", "examples/mtd/check", "examples/firmware/check", "bindings/tests/machines",
             *["packaging/installed", "packaging/package"] * is_ci]
    lists = ["".join(its) for file in files for its in PACKAGES.findall((tree.TOP / file).read_text())]
    words = {*" ".join(lists).replace('"', " ").split(), *of_tools.ALL}
    return sorted(words - ({"cargo", "rustc"} if shutil.which("cargo") and not is_ci else set()))


def run(commands):
    """Runs commands in turn, and ends the gate if one fails."""
    for command in commands:
        if subprocess.run(command.split(), cwd=tree.TOP, stdin=subprocess.DEVNULL, check=False).returncode:
            raise SystemExit(f"failed: {command}")


def prove():
    """Proves everything, and tries the wrong bodies that have to be tried. Returns what `rt ci` counts in its last line."""
    wrong_bodies.write(tried := wrong_bodies.untried())
    try:
        status, said = tree.said_by(tree.TOP, "rt", "ci", shown=True)
        if status or wrong_bodies.note(tried, said, again=False):
            raise SystemExit(1)
        return said.splitlines()[-1]
    finally:
        wrong_bodies.write(())


def main(words):
    if words:
        print(__doc__)
        return 2
    signal.signal(signal.SIGTERM, lambda *_: sys.exit(143))
    is_ci = os.environ.get("CI") == "true"
    needs = " ".join([".ci/needs", *packages(is_ci)])
    if is_ci:
        # They are installed while the proofs run. A check that needs one waits for this.
        subprocess.Popen(needs.split(), cwd=tree.TOP, stdin=subprocess.DEVNULL, stdout=subprocess.DEVNULL, stderr=subprocess.DEVNULL)
    else:
        run([needs])
    run(BEFORE)
    last = prove()
    run(AFTER)
    with ThreadPoolExecutor(len(ROWS)) as pool:
        list(pool.map(run, ROWS))
    if is_ci:
        run(["packaging/installed"])
    else:
        print("installed: not run: the package is installed in a root of Debian only if CI=true")
    print(last)
    return 0
