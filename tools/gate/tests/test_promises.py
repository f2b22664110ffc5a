"""What `promises` refuses on a page: calls, clauses and items that aren't there, a first line without its reader, too many words."""

from gate import promises
from gate.tests import Small

CALL = "    pub fn {}(&self)\n        ensures {} {{ done }}\n        ensures {{ true }}\n    {{\n    }}\n"
SOURCE = "pub use room::Room;\n\nimpl Room {\n" + CALL.format("open", "told") + CALL.format("close", "told") + CALL.format("look", "seen") + "}\n"
TABLE = "| Call | Clause | What it promises |", "|---|---|---|"


class Promises(Small):
    def setUp(self):
        super().setUp()
        promises.words_in.cache_clear()
        self.write("crates.txt", "low:\n")
        self.write("crates/low/src/lib.rt", SOURCE)
        self.write("crates/low/src/room.rt", "pub struct Room {}\n")

    def wrong(self, *lines):
        return list(promises.wrong_rows("PAGE", lines, promises.public_calls()))

    def test_a_row_names_a_call_and_its_clauses(self):
        self.assertEqual(self.wrong(*TABLE, "| `Room::open` | `told`, `unnamed` | It opens. |"), [])
        self.assertEqual(self.wrong(*TABLE, "| `Room::open` | `opened` | It opens. |"), ["PAGE:3: no clause opened at Room::open"])
        said = ["PAGE:3: no public call Room::shut", "PAGE:3: no clause told at Room::shut"]
        self.assertEqual(self.wrong(*TABLE, "| `Room::shut` | `told` | It shuts. |"), said)

    def test_a_row_of_a_clause_has_each_call_that_keeps_it(self):
        head = "| Call | Clause | Definition |", "|---|---|---|"
        self.assertEqual(self.wrong(*head, "| `Room::open`, `close` | `told` | `Told` |"), [])
        self.assertEqual(self.wrong(*head, "| `Room::close` | `told` | `Told` |"), ["PAGE:3: Room::open has the clause too"])
        self.assertEqual(self.wrong(*head, "| `Room::look` | `seen` | `Seen` |"), [])

    def test_a_table_of_calls_has_each_public_one(self):
        head = "| Call | Cost |", "|---|---|"
        self.assertEqual(self.wrong(*head, "| `Room::open`, `close(x)` | 1 |", "| `Room::look` | 2 |"), [])
        said = ["PAGE:3: no public call Room::shut", "PAGE: no row for Room::close"]
        self.assertEqual(self.wrong(*head, "| `Room::open`, `shut` | 1 |", "| `Room::look` | 2 |"), said)
        self.write("bindings/include/low.h", "void room_end(void);")
        self.assertEqual(self.wrong("| Call | Codes |", "|---|---|", "| `room_end(h)` | 0 |", "| `room_out(h)` | 0 |"), ["PAGE:4: no public call room_out"])

    def test_a_path_leads_to_an_item_of_its_crate_or_module(self):
        for path, wrong in (("low::Room", ""), ("room::Room", ""), ("std::Hall", ""), ("room::Hall", "room has no Hall"), ("low::Hall", "low has no Hall")):
            self.assertEqual(list(promises.wrong_code("PAGE", path, set())), [wrong] if wrong else [], path)

    def test_the_page_of_a_crate_names_its_files_from_there(self):
        self.assertEqual(list(promises.wrong_code("crates/low/README.md", "src/room.rt", set())), [])
        self.assertEqual(list(promises.wrong_code("crates/low/README.md", "src/hall.rt", set())), ["no file src/hall.rt"])
        self.assertEqual(list(promises.without_glossary("PAGE", ["# `broom`", "", "A [broom](GLOSSARY.md) sweeps."])), [])
        self.assertEqual(len(list(promises.without_glossary("PAGE", ["# `broom`", "", "A broom sweeps."]))), 1)

    def test_a_page_names_its_reader_first_and_is_no_longer_than_it_may_be(self):
        def wrong(page, text):
            return list(promises.wrong_shape(page, text, text.splitlines()))

        self.assertEqual(wrong("docs/PAGE.md", "# Page\n\nFor contributors.\n\nMore.\n"), [])
        self.assertEqual(wrong("docs/PAGE.md", "# Page\n\nMore.\n"), ["docs/PAGE.md: the first line doesn't name its reader"])
        self.assertEqual(wrong("README.md", "# Page\n\nFor readers." + " word" * 697), ["README.md: 701 words, and at most 700 are wanted"])
