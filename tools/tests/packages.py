"""Packages of Debian that the tests need. tools/check installs them, or leaves out the tests that need a missing one."""

import os
import shutil
import unittest

PROGRAMS = {
    "fio": "fio",
    "blkparse": "blktrace",
    "parallel": "parallel",
    "ssh": "openssh-client",
    "sshd": "openssh-server",
    "rsync": "rsync",
    "zstd": "zstd",
    "chromium": "chromium",
    "pdftotext": "poppler-utils",
}
MODULES = {"numpy": "python3-numpy", "matplotlib": "python3-matplotlib"}
ALL = (*PROGRAMS.values(), *MODULES.values())
# The packages that tools/check --without-packages found missing; it says so before the tests are read.
LEFT_OUT = set()


def needs(*names):
    """Of a test: what is left out with the packages of these programs and modules."""
    packages = [PROGRAMS.get(name) or MODULES[name] for name in names]
    missing = [package for package in packages if package in LEFT_OUT]
    return unittest.skipIf(missing, f"not installed: apt-get install {' '.join(missing)}")


def sshd():
    """sshd asks to be called by its whole path."""
    return shutil.which("sshd", path=os.environ["PATH"] + ":/usr/sbin:/sbin")
