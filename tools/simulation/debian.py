"""The packages of Python that some tools need: numpy and matplotlib. Debian's packages are for Debian's Python, which runs the
tool instead if another Python doesn't have them."""

import importlib.util
import os
import sys

from .faults import Fault

PYTHON = "/usr/bin/python3"
PACKAGES = {"numpy": "python3-numpy", "matplotlib": "python3-matplotlib"}


def want(module: str, what: str):
    """Ends the tool, naming the package, if a module is missing; `what` is what needs it. Called before any input is read."""
    if importlib.util.find_spec(module):
        return
    if os.path.exists(PYTHON) and os.path.realpath(sys.executable) != os.path.realpath(PYTHON):
        sys.stdout.flush()
        os.execv(PYTHON, [PYTHON, *sys.argv])
    raise Fault(f"{what} need {module}, which isn't installed: apt-get install {PACKAGES[module]}")
