"""What `definitions` writes and refuses: that a definition has a sentence, and a law or callers."""

from unittest import mock

from gate import definitions, laws, tried
from gate.tests import Small

HAS_ROOM = "-- a room has a place\nabbrev pub HasRoom : ℕ → Type 0\nHasRoom n = 0 < n\n"
FILL = "{}fn fill(n: u32)\n    requires {{ HasRoom n }}\n{{\n}}\n"
USES = "ghost use Rattle.low.specs.Rooms.{HasRoom};\n\n"


class Definitions(Small):
    def setUp(self):
        super().setUp()
        for listed in (mock.patch.object(laws, "WITHOUT", {}), mock.patch.object(tried, "MOST", 0)):
            listed.start()
            self.addCleanup(listed.stop)
        (self.top / "docs").mkdir()
        self.write("crates.txt", "low:\nother:\nhigh: low\n")
        self.write("crates/low/specs/Lib.antt", "pub mod Rooms\n")
        self.write("crates/low/specs/Rooms.antt", "-- Rooms.\n" + HAS_ROOM)
        self.write("crates/low/src/lib.rt", "mod filling;\nmod using;\npub use filling::fill;\n")
        self.write("crates/low/src/filling.rt", USES + FILL.format("pub(crate) "))
        self.write("crates/low/src/using.rt", "use crate::filling::{empty, fill};\n\nfn uses() {\n    fill(1);\n}\n")
        # These call other functions of the same name.
        self.write("crates/other/src/lib.rt", "fn fill(n: u32) {\n}\n\nfn uses() {\n    fill(1);\n    counts.fill(0);\n}\n")
        self.write("crates/high/src/lib.rt", "")

    def test_a_function_that_nobody_calls_is_named(self):
        self.run_main(definitions, "--write")
        self.write("crates/low/src/using.rt", "fn uses() {\n    // fill(1);\n}\n")
        said = "only premises name HasRoom of low, and no function that needs it is called"
        self.assertIn(said, self.run_main(definitions, status=1))
        self.write("crates/high/src/lib.rt", "fn uses() {\n    low::fill(1);\n}\n")
        self.run_main(definitions)

    def test_a_definition_has_a_sentence_and_the_page_is_of_the_sources(self):
        self.run_main(definitions, "--write")
        self.run_main(definitions)
        self.write("crates/low/specs/Rooms.antt", "-- Rooms.\n" + HAS_ROOM.replace("a room", "each room"))
        self.run_main(definitions, "--write")
        self.assertIn("each room has a place. |", (self.top / "docs/DEFINITIONS.md").read_text())
        self.write("crates/low/specs/Rooms.antt", "-- Rooms.\n\n" + HAS_ROOM.partition("\n")[2])
        self.assertIn("Rooms.antt: HasRoom has no sentence above it", self.run_main(definitions, status=1))

    def test_a_definition_of_a_public_clause_has_a_law(self):
        self.write("crates/low/src/filling.rt", USES + "/// Fills.\n" + FILL.format("pub ").replace("requires", "ensures"))
        self.assertIn("HasRoom of low is named in a public clause, and has neither a law", self.run_main(definitions, status=1))
        laws.WITHOUT["HasRoom of low"] = "a name"
        self.run_main(definitions, "--write")
        self.assertIn("`HasRoom` of `low` (a name)", (self.top / "docs/DEFINITIONS.md").read_text())
        self.write("crates.txt", "low:\nother:\nhigh: low\nlaws: low\n")
        self.write("crates/laws/src/lib.rt", USES + "pub fn law()\n    ensures { HasRoom 1 }\n{\n}\n")
        self.assertIn("lists HasRoom of low in vain", self.run_main(definitions, status=1))
        laws.WITHOUT.clear()
        self.says_less("0 ≡ 0")
        self.run_main(definitions, "--write")

    def says_less(self, new):
        edit = f"edit: room_is_any\nlaw: laws::law unnamed\ndefinition: HasRoom\nold: 0 < n\nnew: {new}\ntwin: 0 + 0 < n\n"
        self.write("crates/low/wrong-definitions.edits", edit)

    def has_law(self):
        self.write("crates/low/src/filling.rt", USES + "/// Fills.\n" + FILL.format("pub ").replace("requires", "ensures"))
        self.write("crates.txt", "low:\nother:\nhigh: low\nlaws: low\n")
        self.write("crates/laws/src/lib.rt", USES + "/// It has room.\npub fn law()\n    ensures { HasRoom 1 }\n{\n}\n")

    def test_a_definition_has_a_wrong_one_that_says_less(self):
        self.has_law()
        lacks = "low: HasRoom has no wrong definition that says less and that a law refuses"
        self.assertIn(lacks, self.run_main(definitions, status=1))
        self.says_less("1 < n")
        self.assertIn(lacks, self.run_main(definitions, status=1))
        self.says_less("n ≡ n")
        self.run_main(definitions, "--write")
        self.run_main(definitions)
        self.write(tried.FILE, "low HasRoom\n")
        said = self.run_main(definitions, status=1)
        self.assertIn(".ci/untried-definitions lists low HasRoom in vain", said)
        self.assertIn("has 1 lines, and 0 are expected: it may only become shorter", said)

    def test_a_definition_that_is_listed_needs_none(self):
        self.has_law()
        self.write(tried.FILE, "low HasRoom\n")
        with mock.patch.object(tried, "MOST", 1):
            self.run_main(definitions, "--write")

    def test_a_definition_that_says_nothing_is_refused(self):
        for body, status in (("n ≡ n", 1), ("(n ≡ n) × (0 ≡ 0)", 1), ("n ≡ n + 0", 0), ("(n ≡ n) × (0 < n)", 0)):
            self.write("crates/low/specs/Rooms.antt", "-- Rooms.\n" + HAS_ROOM.replace("0 < n", body))
            said = self.run_main(definitions, "--write", status=status)
            self.assertEqual("HasRoom of low says nothing: each of its equations is of a text with itself" in said, bool(status), body)
