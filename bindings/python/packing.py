"""Packs the package with the shared object as a wheel: PEP 517, without any other package. The shared object is that of the
folder that MINTLINTEL_LIB names, or it is made by make, which needs the toolchain. One that is not proved is packed only where
MINTLINTEL_UNPROVED is 1, and the wheel's version says so."""

import base64
import hashlib
import os
import re
import shutil
import subprocess
import sys
import sysconfig
import tarfile
import time
import zipfile
from pathlib import Path

HERE = Path(__file__).resolve().parent
NAME, VERSION = "mintlintel", "0.1.0"
TAG = "py3-none-" + sysconfig.get_platform().replace("-", "_").replace(".", "_")
METADATA = f"Metadata-Version: 2.1\nName: {NAME}\nVersion: %s\nSummary: A flash translation layer with proofs\nRequires-Python: >=3.9\n"
NOT_PROVED = b", not proved"
# How far a check of the toolchain is.
CHECKED = re.compile(r"checked (\S+), (\d+ of \d+)$")
TOLD_EACH = 10
TAKES = "the library without proof is taken by MINTLINTEL_UNPROVED=1"


def tell(text):
    """Tells who waits at the terminal, since pip keeps what a build prints."""
    try:
        with open("/dev/tty", "w") as terminal:
            terminal.write(f"\r{NAME}: {text}\n")
    except OSError:
        print(f"{NAME}: {text}", file=sys.stderr, flush=True)


def make(goal, minutes):
    """Makes the library, tells what comes and how far it is, and prints all that make prints."""
    bindings = HERE.parent
    if not (bindings / "Makefile").exists():
        sys.exit(f"{NAME}: this folder has no library's sources: MINTLINTEL_LIB names a folder with libmintlintel.so")
    if shutil.which("rt") is None:
        sys.exit(f"{NAME}: the library has to be built, and its toolchain, rt, isn't on the path: MINTLINTEL_LIB names a folder with libmintlintel.so, "
                 "and make dist makes packages where the toolchain is")
    tell(f"make -C {bindings} {goal}: {minutes}")
    begun, told = time.monotonic(), 0
    with subprocess.Popen(["make", "-C", bindings, goal], stdout=subprocess.PIPE, stderr=subprocess.STDOUT, text=True, errors="replace") as run:
        for line in run.stdout:
            print(line, end="", flush=True)
            checked, after = CHECKED.match(line.strip()), time.monotonic() - begun
            if checked and after - told >= TOLD_EACH:
                tell(f"{checked[1].partition('::')[0]}: {checked[2]} functions are proved, after {after // 60:.0f} min {after % 60:.0f} s")
                told = after
    if run.returncode != 0:
        sys.exit(f"{NAME}: make -C {bindings} {goal} failed, with what stands above; {TAKES}")


def shared_object(takes_unproved):
    """The bytes of the shared object, and the version of the wheel: a library that isn't proved says so in its own version."""
    folder = os.environ.get("MINTLINTEL_LIB")
    if folder is None and takes_unproved:
        make("quick", "the library without proof, in two to four minutes")
    elif folder is None:
        make("all", f"a whole proof takes half an hour or more where nothing was proved yet; {TAKES}, in two to four minutes")
    path = Path(folder or HERE.parent / ("out/quick" if takes_unproved else "out")) / "libmintlintel.so"
    if not path.is_file():
        sys.exit(f"{NAME}: {path} isn't there: make -C bindings makes it in bindings/out")
    data = path.read_bytes()
    if NOT_PROVED in data and not takes_unproved:
        sys.exit(f"{NAME}: {path} is not proved, and is not packed; {TAKES}")
    return data, VERSION + "+unproved" * (NOT_PROVED in data)


def build_wheel(wheel_directory, config_settings=None, metadata_directory=None):
    library, version = shared_object(os.environ.get("MINTLINTEL_UNPROVED") == "1")
    name = f"{NAME}-{version}-{TAG}.whl"
    described = f"{NAME}-{version}.dist-info"
    files = {f"{NAME}/{path.name}": path.read_bytes() for path in sorted((HERE / NAME).iterdir()) if path.suffix in (".py", ".typed")}
    files[f"{NAME}/libmintlintel.so"] = library
    files[f"{described}/METADATA"] = (METADATA % version).encode()
    files[f"{described}/WHEEL"] = f"Wheel-Version: 1.0\nGenerator: packing\nRoot-Is-Purelib: false\nTag: {TAG}\n".encode()
    if (HERE.parents[1] / "LICENSE").is_file():
        files[f"{described}/LICENSE"] = (HERE.parents[1] / "LICENSE").read_bytes()
    record = "".join(f"{path},sha256={digest(data)},{len(data)}\n" for path, data in files.items())
    files[f"{described}/RECORD"] = (record + f"{described}/RECORD,,\n").encode()
    # The same files make the same wheel: their time is SOURCE_DATE_EPOCH or, if it isn't set, the first that a zip file can have.
    made = time.gmtime(max(int(os.environ.get("SOURCE_DATE_EPOCH", "0")), 315_532_800))[:6]
    with zipfile.ZipFile(Path(wheel_directory) / name, "w") as wheel:
        for path, data in files.items():
            entry = zipfile.ZipInfo(path, made)
            entry.external_attr = 0o644 << 16
            wheel.writestr(entry, data, zipfile.ZIP_DEFLATED)
    return name


def digest(data):
    return base64.urlsafe_b64encode(hashlib.sha256(data).digest()).rstrip(b"=").decode()


def build_sdist(sdist_directory, config_settings=None):
    name = f"{NAME}-{VERSION}.tar.gz"
    with tarfile.open(Path(sdist_directory) / name, "w:gz") as packed:
        for path in ("pyproject.toml", "packing.py", NAME):
            packed.add(HERE / path, f"{NAME}-{VERSION}/{path}", filter=lambda member: None if "__pycache__" in member.name else member)
    return name
