#!/usr/bin/env python3
"""declared.py ROOT: prints a program in C that compiles only if the header agrees with the crates: each code and each limit has the crate's
number, none is missing, each struct has the crate's fields at their places, and each call takes and returns what the export does. It fails
if the codes of Rust or of Python are not those of the crate."""

import re
import sys
from pathlib import Path

STRUCTS = {"Totals": "mintlintel_totals", "BlockReport": "mintlintel_block", "NumbersReport": "mintlintel_numbers", "PageReport": "mintlintel_page",
           "StateReport": "mintlintel_state", "CountsReport": "mintlintel_counts", "TallyReport": "mintlintel_tally", "PlaceReport": "mintlintel_place",
           "CommandReport": "mintlintel_command", "StepReport": "mintlintel_step"}
TYPES = {"u32": ("uint32_t", 4), "u64": ("uint64_t", 8)}
# The handle of a call by the beginning of its name; of others it is a seat.
HANDLES = {"mintlintel_one_": "mintlintel_one", "mintlintel_core_": "mintlintel_core", "mintlintel_driver_": "mintlintel_core",
           "mintlintel_map_": "mintlintel_map"}
# Other names of codes 0 and 10.
ALSO = {"EMPTY", "NO_SUCH_WORD"}
# A limit that no call of C has.
NOT_OF_C = {"LONE_WORKERS"}


def constants(path):
    """The numbers that a file of Rust names, one of them perhaps by its name in `handles`."""
    named = re.findall(r"pub const (\w+): u(?:32|64) = ([\d_]+|handles::\w+);", path.read_text())
    return {name: constants(path.parents[2] / "handles/src/handle.rt")[number[9:]] if "::" in number else int(number) for name, number in named}


def others(root, codes):
    """What the codes of Python and of Rust have that those of the crate don't, and what those of Python lack."""
    python = dict(re.findall(r"^    (\w+) = (\d+)$", (root / "bindings/python/mintlintel/codes.py").read_text(), re.M))
    rust = constants(root / "bindings/rust/src/raw.rs")
    yield from {(name, int(number)) for name, number in python.items()} ^ set(codes.items())
    yield from set(rust.items()) - set(codes.items())


def fields(text, name):
    """The fields of a struct of C, with their places, by the rule of C: each is at a multiple of its size."""
    body = re.search(rf"#\[repr\(C\)\][^{{}}]*pub struct {name} \{{(.*?)\}}", text, re.S)
    offset = 0
    for field, kind in re.findall(r"pub (\w+): (\w+),", body[1]):
        size = TYPES[kind][1]
        offset = -(-offset // size) * size
        yield field, TYPES[kind][0], offset
        offset += size


def passed(kind, handle):
    """What C passes for an argument of an export."""
    plain = {"u32": "uint32_t", "u64": "uint64_t", "&mut [u8]": "uint8_t *, size_t", "&[u8]": "const uint8_t *, size_t",
             "&[u32]": "const uint32_t *, size_t", "&mut u32": "uint32_t *", "&mut u64": "uint64_t *"}
    named = {f"&mut {rust}": f"struct {c} *" for rust, c in STRUCTS.items()}
    return {**plain, **named, "&mut Handle": f"struct {handle} *", "&mut [Handle]": f"struct {handle} *, size_t"}[kind]


def prototypes(text):
    for name, arguments, result in re.findall(r'pub extern "C" fn (\w+)\((.*?)\)\s*(-> u32)?\s*\n', text, re.S):
        kinds = [part.split(":", 1)[1].strip() for part in arguments.split(",") if ":" in part]
        handle = next((handle for begins, handle in HANDLES.items() if name.startswith(begins)), "mintlintel_seat")
        yield name, f"{'uint32_t' if result else 'void'} {name}({', '.join(passed(kind, handle) for kind in kinds if kind != 'Global')});"


def print_checks(header, text, own, handles, exported):
    """Prints what has to hold of the header, for a compiler."""
    print(f'#include "{header}"\n')
    for name, number in own.items():
        print(f'_Static_assert(MINTLINTEL_{name} == {number}, "{name}");')
    for rust, name in STRUCTS.items():
        if f"pub struct {rust} {{" not in text:
            continue
        for field, kind, offset in fields(text, rust):
            print(f'_Static_assert(offsetof(struct {name}, {field}) == {offset}, "{name}.{field}");')
            print(f'_Static_assert(_Generic(((struct {name} *)0)->{field}, {kind}: 1, default: 0), "{name}.{field}");')
            end = offset + (8 if kind == "uint64_t" else 4)
        print(f'_Static_assert(sizeof(struct {name}) == {end}, "{name}");')
    for handle in handles:
        print(f'_Static_assert(offsetof(struct {handle}, at) == 0 && sizeof(((struct {handle} *)0)->at) == 8, "{handle}.at");')
        print(f'_Static_assert(offsetof(struct {handle}, is_open) == 8 && sizeof(struct {handle}) == 16, "{handle}.is_open");')
    print("\n".join(exported.values()))


def main(root):
    root = Path(root)
    declared = (root / "bindings/include/mintlintel.h").read_text()
    text = "\n".join(source.read_text() for source in sorted((root / "crates/exports/src").glob("**/*.rt")))
    codes = constants(root / "crates/exports/src/codes.rt")
    limits = constants(root / "crates/geometry/src/limits.rt")
    phases = constants(root / "crates/exports/src/shared/phases.rt")
    own = {**codes, **phases, **{name: number for name, number in limits.items() if name not in NOT_OF_C}}
    header = (root / "bindings/include/mintlintel_durable.h").read_text()
    durable = re.findall(r"MINTLINTEL_(\w+) = (\d+)", re.search(r"^enum mintlintel_durable_code \{.*?^\};", header, re.M | re.S)[0])
    if found := sorted(others(root, {**codes, **{name: int(number) for name, number in durable}})):
        sys.exit(f"codes of Rust or of Python that differ: {found}")
    named = set(re.findall(r"MINTLINTEL_(\w+) = \d+", declared))
    if named != set(own) | ALSO:
        sys.exit(f"codes or limits of the header or of the crates alone: {' '.join(sorted(named ^ (set(own) | ALSO)))}")
    exported = dict(prototypes(text))
    # What follows this line is plain C over the crate's calls.
    proved = declared.split("/* ---- Plain C", 1)[0]
    calls = set(re.findall(r"^(?:uint32_t|void) (mintlintel_\w+)\(", proved, re.M))
    if calls != set(exported):
        sys.exit(f"calls of the header or of the crate alone: {' '.join(sorted(calls ^ set(exported)))}")
    print_checks("mintlintel.h", text, own, ("mintlintel_one", "mintlintel_seat"), exported)


if __name__ == "__main__":
    main(*sys.argv[1:])
