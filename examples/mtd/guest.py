"""A guest of Debian's kernel under QEMU, which is up in some seconds without support of the processor. It has busybox, some modules and some programs."""

import os
import pathlib
import re
import shutil
import subprocess

INIT = """#!/bin/busybox sh
/bin/busybox mkdir -p /proc /sys /dev /sbin /usr/bin /usr/sbin
/bin/busybox --install -s
mount -t proc proc /proc
mount -t sysfs sys /sys
mount -t devtmpfs dev /dev
mkdir -p /dev/shm
mount -t tmpfs shm /dev/shm
mount -t configfs config /sys/kernel/config 2>/dev/null
cd /
echo "guest: up after $(cut -d' ' -f1 /proc/uptime) s: $(uname -sr)"
sh /job 2>&1
echo "guest: end"
poweroff -f
"""


def kernel():
    """The newest installed kernel with the simulator of NAND: its version."""
    versions = [image.name.removeprefix("vmlinuz-") for image in sorted(pathlib.Path("/boot").glob("vmlinuz-*"), key=os.path.getmtime)]
    found = [version for version in versions if list(pathlib.Path("/lib/modules", version).rglob("nandsim.ko*"))]
    if not found:
        raise SystemExit("mtd: there is no kernel with the module nandsim in /boot and /lib/modules: Debian's package linux-image-amd64 has it")
    return found[-1]


def libraries(programs):
    """The shared objects that the programs need."""
    told = [subprocess.run(["ldd", program], capture_output=True, text=True, check=False).stdout for program in programs]
    return {pathlib.Path(path) for path in re.findall(r"(/\S+) \(0x", "".join(told))}


def pack(folder, modules, programs, job):
    """Makes an initial file system with modules, programs and a job, a shell script that the guest runs. Returns its file."""
    root, version = folder / "root", kernel()
    shutil.rmtree(root, ignore_errors=True)
    (root / "bin").mkdir(parents=True)
    shutil.copy("/bin/busybox", root / "bin/busybox")
    told = subprocess.run(["/sbin/modprobe", "-S", version, "--all", "--show-depends", *modules], check=True, capture_output=True, text=True).stdout
    for line in told.splitlines():
        verb, *words = line.split()
        if verb == "insmod":
            place = root / words[0].lstrip("/").replace("usr/", "", 1)
            place.parent.mkdir(parents=True, exist_ok=True)
            shutil.copy(words[0], place)
    for name in ("modules.order", "modules.builtin", "modules.builtin.modinfo"):
        shutil.copy(pathlib.Path("/lib/modules", version, name), root / "lib/modules" / version)
    subprocess.run(["/sbin/depmod", "-b", root, version], check=True)
    for program in programs:
        shutil.copy(program, root / program.name)
    for library in libraries(programs):
        place = root / library.relative_to("/")
        place.parent.mkdir(parents=True, exist_ok=True)
        shutil.copy(library, place)
    (root / "job").write_text(job)
    (root / "init").write_text(INIT)
    (root / "init").chmod(0o755)
    names = "\n".join(str(path.relative_to(root)) for path in sorted(root.rglob("*")))
    image = folder / "initial"
    with open(image, "wb") as sink:
        subprocess.run(["cpio", "-o", "-H", "newc", "--quiet"], cwd=root, input=names.encode(), stdout=sink, check=True)
    return image


# A processor that takes eight nanoseconds for each instruction, so that times are the same on each machine.
COUNTED = ("-accel", "tcg,thread=single", "-smp", "1", "-icount", "shift=3,sleep=off")
FAST = ("-accel", os.environ.get("ACCEL", "tcg,thread=multi"), "-smp", "2")


def command(image, console, processor=FAST, memory=("-m", "768"), words=(), more=""):
    """The command that boots a guest with its console in a file."""
    return ["qemu-system-x86_64", *processor, "-cpu", "max", *memory, "-nodefaults", "-no-user-config", "-display", "none", "-no-reboot", "-serial",
            f"file:{console}", "-kernel", f"/boot/vmlinuz-{kernel()}", "-initrd", str(image),
            "-append", f"console=ttyS0 panic=-1 quiet loglevel=1 no_timer_check nowatchdog mitigations=off random.trust_cpu=on rdinit=/init {more}", *words]
