"""What docs/CALLS.md has of a public call: its sentence, and each clause with what it says."""

from gate import calls, tree
from gate.tests import Small

SPECS = """-- Rooms.

-- a room has a place
abbrev pub HasRoom : N → Type 0
HasRoom n = Fits n

-- It fits.
abbrev pub Fits : N → Type 0
Fits n = 0 < n
"""
SOURCE = """ghost use Rattle.low.specs.Rooms.{HasRoom};

pub use filling::Room;

/// Fills a room.
///
/// | a | table |
#[inline]
pub fn fill(n: u32) -> u32
    requires room { HasRoom n }
    // As it was: x < n.
    ensures same { result ≡
        n }
    ensures { HasRoom result }
    ensures long { LONG }
{
    n
}

/// Nobody outside can call it.
fn hidden(n: u32) {
}
"""


class Calls(Small):
    def setUp(self):
        super().setUp()
        self.write("crates.txt", "low:\nlaws: low\n")
        self.write("crates/low/specs/Lib.antt", "pub mod Rooms\n")
        self.write("crates/low/specs/Rooms.antt", SPECS)
        self.write("crates/low/src/lib.rt", SOURCE.replace("LONG", "x " * 200))
        self.write("crates/laws/src/lib.rt", "ghost use Rattle.low.specs.Rooms.{Fits};\n\n/// What fits.\npub fn law()\n    ensures { Fits 1 }\n{\n}\n")

    def page(self):
        return calls.page({it: its for crate in ("low", "laws") for it, its in tree.definitions(crate).items()})

    def rows(self):
        return [line for line in self.page()[0].splitlines() if line.startswith("| ")]

    def test_a_call_has_a_sentence(self):
        self.assertEqual(self.page()[1], [])
        self.write("crates/low/src/lib.rt", "pub fn fill(n: u32)\n{\n}\n")
        self.assertEqual(self.page()[1], ["fill has no sentence above it"])

    def test_a_call_has_its_sentence_and_its_clauses(self):
        rows = self.rows()
        self.assertEqual(rows[0], "| Call | Clause | What it says |")
        self.assertEqual(rows[1], "| [`fill`](../crates/low/src/lib.rt) |  | Fills a room. |")
        self.assertEqual(rows[2], "|  | requires `room` | `HasRoom`: A room has a place. (`Fits`: It fits.) |")
        self.assertEqual(rows[3], "|  | `same` | As it was: x &lt; n. |")
        self.assertEqual(rows[4], "|  | unnamed | `HasRoom` |")
        self.assertEqual(rows[5], "|  | `long` | In the source. |")
        self.assertFalse(any("hidden" in row for row in rows))

    def test_a_law_has_the_definitions_that_it_names(self):
        self.assertEqual(self.rows()[-1], "| [`law`](../crates/laws/src/lib.rt) | What fits. | `Fits` |")
