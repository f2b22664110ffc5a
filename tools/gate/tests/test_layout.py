"""What `layout` refuses: lines, terms, functions and files at the most that is allowed pass, and one more of each is refused."""

import subprocess
import unittest

from gate import layout
from gate.tests import Small


def term(lines):
    return "long : N\nlong =\n" + "    f\n" * (lines - 1)


def function(lines):
    return "pub fn long(x: u32) -> u32\n    ensures { result ≡ x }\n{\n" + "    x;\n" * lines + "}\n"


class Layout(Small):
    def setUp(self):
        super().setUp()
        subprocess.run(["git", "init", "-q", self.top], check=True)

    def passes(self, path, text):
        self.write(path, text)
        self.run_main(layout)

    def refuses(self, path, text, *said):
        file = self.write(path, text)
        self.assertEqual(self.run_main(layout, status=1).splitlines(), [*said])
        file.unlink()

    def test_a_line_is_counted_in_characters(self):
        self.passes("crates/low/specs/Low.antt", "-- " + "≡" * 157 + "\n")
        self.refuses("crates/low/src/lib.rt", "//" + "≡" * 159 + "\n", "crates/low/src/lib.rt:1: a line of 161 columns, and at most 160 are wanted")
        self.refuses("new", "#!/bin/sh\n\n" + "#" * 161 + "\n", "new:3: a line of 161 columns, and at most 160 are wanted")

    def test_a_page_and_an_edit_may_have_long_lines(self):
        self.passes("docs/PAGE.md", "word " * 100 + "\n")
        self.passes("crates/low/wrong-bodies.edits", "old: " + "x" * 200 + "\n")

    def test_a_term_ends_where_the_next_one_begins(self):
        self.passes("crates/low/proofs/Low.antt", term(60) + "\n" + term(60))
        self.passes("crates/low/proofs/Low.antt", term(60) + "  where\n    inner : N\n    inner = x\n")
        self.passes("crates/low/specs/Low.antt", term(61))
        place = "crates/low/proofs/high/Answers.antt"
        self.refuses(place, "module _ where\n  " + term(61).replace("\n", "\n  "), f"{place}:3: long: a term of 61 lines, and at most 60 are wanted")

    def test_a_function_is_counted_without_its_clauses(self):
        self.passes("crates/low/src/lib.rt", function(40) + "fn short() {}\n" + "// x\n" * 100)
        self.passes("crates/low/src/lib.rt", function(1).replace("result", "record {\n        y\n    }" + "\n    z" * 50))
        self.refuses("crates/low/src/lib.rt", function(41), "crates/low/src/lib.rt:1: long: a function of 41 lines, and at most 40 are wanted")

    def test_a_file_has_an_end(self):
        self.passes("crates/low/src/lib.rt", "// x\n" * 800)
        self.refuses("crates/low/src/lib.rt", "// x\n" * 801, "crates/low/src/lib.rt: a file of 801 lines, and at most 800 are wanted")


if __name__ == "__main__":
    unittest.main()
