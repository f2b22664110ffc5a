#!/usr/bin/env python3
"""table_of_rust.py ROOT: fails if LINKING's table of Rust's calls is not that of the crate: of each type the calls that return a `Result`, and what
that has."""

import re
import sys
from pathlib import Path

CALL = re.compile(r"^    pub fn (\w+)\([^{]*\) -> Result<(.*), (?:Fault|OpenError)> \{$", re.M)


def of_crate(folder):
    """Each call of a type, and what its result has."""
    for path in folder.glob("*.rs"):
        for name, body in re.findall(r"^impl(?:<[^>]*>)? (\w+)(?:<[^>]*>)? \{\n(.*?)^\}", path.read_text(), re.M | re.S):
            yield from ((name, call, result.replace("<'_>", "")) for call, result in CALL.findall(body))


def of_page(text):
    for name, cell in re.findall(r"^\| `(\w+)` \| (.*) \|$", text, re.M):
        for part in cell.split("; "):
            calls, _, result = part.partition(": ")
            yield from ((name, call, result.strip("`")) for call in re.findall(r"`(\w+)`", calls))


def main(root):
    section = re.search(r"^## Rust$.*?(?=^## )", (root / "docs/LINKING.md").read_text(), re.M | re.S)[0]
    page, crate = set(of_page(section)), set(of_crate(root / "bindings/rust/src"))
    for name, call, result in sorted(page ^ crate):
        print(f"docs/LINKING.md: {name}::{call} -> {result} is {'not of the crate' if (name, call, result) in page else 'not in the table'}")
    print(f"table_of_rust: {len(crate)} calls")
    return bool(page ^ crate)


if __name__ == "__main__":
    sys.exit(main(Path(sys.argv[1])))
