"""What a tool is called: `tools/trace` in a clone, and `flashplay-trace` where it is installed."""

import pathlib
import re
import sys

VERSION = "0.1.0"
INSTALLED = "flashplay-"
TOOLS = ("trace", "simulate", "report", "sweep", "model", "crash")


def own():
    """The name that the tool was called by."""
    return pathlib.Path(sys.argv[0]).name


def of_tools(text):
    """The text with the tools' names as they are called here."""
    return re.sub(rf"\btools/({'|'.join(TOOLS)})\b", rf"{INSTALLED}\1", text) if own().startswith(INSTALLED) else text


def add_version(parser):
    parser.add_argument("--version", action="version", version=f"{own()} {VERSION}")
