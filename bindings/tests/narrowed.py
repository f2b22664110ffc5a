#!/usr/bin/env python3
"""narrowed [MODULE.ll]: tests of bindings/cross/narrow, on a small module with each form, and then on a real one: if any single pointer or pair in memory
is left as it was, the module is refused."""

import importlib.machinery
import importlib.util
import sys
import unittest
from pathlib import Path

sys.dont_write_bytecode = True
HERE = Path(__file__).resolve().parent
LOADER = importlib.machinery.SourceFileLoader("narrow", str(HERE.parent / "cross/narrow"))
narrow = importlib.util.module_from_spec(importlib.util.spec_from_loader("narrow", LOADER))
LOADER.exec_module(narrow)
HEADER = "uint32_t mintlintel_one(struct mintlintel_core *core, uint64_t number);\nuint32_t mintlintel_two(uint32_t crc, const uint8_t *bytes, size_t count);\n"
MODULE = """; ModuleID = 'm'
source_filename = "rattle"
target datalayout = "e-m:e-p270:32:32-p271:32:32-p272:64:64-i64:64-i128:128-f80:128-n8:16:32:64-S128"
target triple = "x86_64-unknown-linux-gnu"

@static.0 = private unnamed_addr constant [4 x i8] c"\\00\\01\\02\\03", align 4

declare { i64, i64 } @rattle_alloc(i64 noundef, i64 noundef) #0

define noundef i32 @mintlintel_two(i32 noundef %a0, ptr noundef %a1, i64 noundef %a2) #0 {
start:
  ret i32 0
}

define noundef i32 @mintlintel_one(ptr noundef %a0, i64 noundef %a1) #0 {
start:
  %v = alloca ptr, align 8
  %w = alloca [24 x i8], align 8
  store ptr %a0, ptr %v, align 8
  store ptr @static.0, ptr %w, align 8
  %x = ptrtoaddr ptr %a0 to i64
  %p = load { i8, ptr }, ptr %w, align 8
  %y = load ptr, ptr %v, align 8, !noundef !1
  store { i64, ptr } %q, ptr %w, align 8
  %m = call { i64, i64 } @rattle_alloc(i64 8, i64 8)
  %c = call i32 @mintlintel_two(i32 0, ptr %a0, i64 %x)
  ret i32 %c
}

attributes #0 = { nounwind "target-cpu"="x86-64" }
!1 = !{}
"""
# Lines that must not be in a module: a pointer or a pair in memory in a form that isn't met, and what may depend on an address's size.
LEFT = (
    "  store ptr %a0, ptr addrspace(1) %v, align 8", "  store volatile ptr %a0, ptr %v, align 8", "  store atomic ptr %a0, ptr %v release, align 8",
    "  %z = alloca ptr, i32 2, align 8", "  %z = alloca { i8, ptr }, align 8", "  %z = alloca [2 x ptr], align 8", "  %z = alloca ptr, align 4",
    "  %z = load { i8, { i8, ptr } }, ptr %w, align 8", "  %z = load volatile { i8, ptr }, ptr %w, align 8", "  %z = load [2 x ptr], ptr %w, align 8",
    "  store [2 x i64] %q, ptr %w, align 8", "  store { i8, [2 x i8] } %q, ptr %w, align 8", "  %z = load <2 x ptr>, ptr %w, align 8",
    "  %z = getelementptr ptr, ptr %w, i64 1", "  %z = getelementptr { i8, ptr }, ptr %w, i64 0, i32 1", "  %z = getelementptr i64, ptr %w, i64 1",
    "  %z = ptrtoaddr ptr %a0 to i32", "  %z = ptrtoint ptr %a0 to i32", "  %z = inttoptr i32 %c to ptr", "  %z = addrspacecast ptr %a0 to ptr addrspace(1)",
    "  %z = cmpxchg ptr %v, ptr %a0, ptr %y acq_rel monotonic, align 8", "  %z = atomicrmw xchg ptr %v, ptr %a0 acq_rel, align 8",
    "  %z = load atomic i64, ptr %v acquire, align 8",
    "  %z = call i32 %a0(i32 1)", "  %z = va_arg ptr %v, i64", "  fence seq_cst", "  %z = bitcast i64 %x to ptr",
    "@g = internal global ptr @static.0, align 8", "@g = internal constant { i8, ptr } { i8 1, ptr @static.0 }", "declare i64 @strlen(ptr)",
    "%t = type { i8, ptr }",
)  # fmt: skip


def narrowed(text, header=HEADER):
    return narrow.narrowed(text, "thumbv7em-none-unknown-eabi", header)


class Narrowed(unittest.TestCase):
    def test_each_form_is_met(self):
        text, count = narrowed(MODULE)
        self.assertEqual(count, {"variables of pointers": 1, "pointers stored": 2, "addresses": 1, "pairs loaded": 1, "pairs stored": 1})
        for wanted in ("%v = alloca i64, align 8", "%x = ptrtoint ptr %a0 to i64", "%narrow.p.1.at = getelementptr i8, ptr %w, i64 8",
                       "%narrow.p.1 = load ptr, ptr %narrow.p.1.at, align 8", "%narrow.word1.1 = ptrtoint ptr %narrow.pair1.1 to i64",
                       "define i32 @mintlintel_two(i32 %a0, ptr %a1, i32 %a2) {", "call i32 @wide.mintlintel_two(i32 0, ptr %a0, i64 %x)"):
            self.assertIn(wanted, text)
        for line in text.split("\n"):
            self.assertNotRegex(line, r"store ptr|alloca ptr|load \{|store \{|ptrtoaddr|x86")

    def test_what_is_left_is_refused(self):
        for line in LEFT:
            place = "  ret i32 %c\n" if line.startswith("  ") else "@static.0 ="
            with self.subTest(line), self.assertRaises(narrow.Refused):
                narrowed(MODULE.replace(place, f"{line}\n{place}"))

    def test_a_module_for_another_processor_is_refused(self):
        with self.assertRaises(narrow.Refused):
            narrowed(MODULE.replace("p270:32:32", "p270:64:64"))
        with self.assertRaises(narrow.Refused):
            narrow.narrowed(MODULE, "i686-unknown-linux-gnu", HEADER)

    def test_a_call_that_the_header_has_otherwise_is_refused(self):
        for old, new in (("uint64_t number", "uint32_t number"), ("size_t count", "struct mintlintel_core count"), (", uint64_t number", "")):
            with self.subTest(new), self.assertRaises(narrow.Refused):
                narrowed(MODULE, HEADER.replace(old, new))

    def test_a_call_that_the_header_lacks_is_kept_from_c(self):
        text, _ = narrowed(MODULE, HEADER.replace("mintlintel_one", "mintlintel_other"))
        self.assertIn("define internal noundef i32 @mintlintel_one(", text)

    def test_a_pair_keeps_its_offsets(self):
        self.assertEqual(narrow.offsets(["i8", "ptr"]), [0, 8])
        self.assertEqual(narrow.offsets(["i8", "i16", "i8", "i32", "ptr", "i8"]), [0, 2, 4, 8, 16, 24])

    def test_a_real_module_with_one_left_is_refused(self):
        if not REAL:
            return
        text, header = REAL.read_text(), narrow.HEADER.read_text()
        whole, count = narrowed(text, header)
        self.assertGreater(min(count[it] for it in ("variables of pointers", "pointers stored", "pairs loaded")), 10)
        lines = text.split("\n")
        # Each line that is changed, left as it was: the same check refuses it.
        changed = [line for line in lines if narrow.narrowed_line(line, {}) != [line]]
        self.assertEqual(len(changed), sum(count.values()))
        for line in changed:
            with self.assertRaises(narrow.Refused, msg=line):
                narrow.check(line)
        # And of a whole module with one of them.
        with self.assertRaises(narrow.Refused):
            narrow.check(whole + "\n" + changed[len(changed) // 2])


REAL = Path(sys.argv.pop(1)) if len(sys.argv) > 1 else None
if __name__ == "__main__":
    unittest.main()
