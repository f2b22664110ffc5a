#!/usr/bin/env python3
"""declared_core.py ROOT: the same as declared.py, for the proved calls of the device that survives power cuts and of its readers."""

import re
import sys
from pathlib import Path

import declared


def check(root, header, crate, handle):
    """Compares the proved calls of a header with those of their crate."""
    proved = re.split(r"/\* ---- [^\n]*, proved", (root / "bindings/include" / header).read_text(), maxsplit=1)[1]
    sources = root / "crates" / crate / "src"
    text = "\n".join(source.read_text() for source in sorted(sources.glob("*.rt")))
    exported = dict(declared.prototypes(text))
    calls = set(re.findall(r"^(?:uint32_t|void) (mintlintel_\w+)\(", proved, re.M))
    if calls != set(exported):
        sys.exit(f"calls of the header or of the crate alone: {' '.join(sorted(calls ^ set(exported)))}")
    declared.print_checks(header, text, declared.constants(sources / "codes.rt"), (handle,), exported)


def main(root):
    check(Path(root), "mintlintel_durable.h", "durable_exports", "mintlintel_core")
    check(Path(root), "mintlintel_reader.h", "reader_exports", "mintlintel_map")


main(*sys.argv[1:])
