"""What counts of a crate's text: its items, and not the files that they are in; but a change of what an item means counts, and so do its settings."""

from gate import record, tree
from gate.tests import Small

LOW = "use Rattle.std.specs.Prelude.{ℕ}\n\n-- Lowest.\nabbrev pub low : ℕ\nlow = 1\n"
MORE = "use Rattle.std.specs.Prelude.{ℕ}\nuse Rattle.a.specs.Low.{low}\n\n-- More.\nabbrev pub more : ℕ → ℕ\nmore zero = low\nmore (suc n) = n\n"
BOTH = "use Rattle.std.specs.Prelude.{ℕ}\n\n-- Both.\nabbrev pub low : ℕ\nlow = 1\n\nabbrev pub more : ℕ → ℕ\nmore zero = low\nmore (suc n) = n\n"
CODE = """ghost use Rattle.a.specs.More.{more};

use crate::other::Thing;

impl Thing {
    pub fn first(&self) -> u8
        ensures { more result }
    {
        1
    }

    pub fn second(&self) -> u8 {
        2
    }
}
"""
OTHER = "/// A thing.\npub struct Thing;\n"


class Said(Small):
    def setUp(self):
        super().setUp()
        self.write("crates.txt", "a:\nb: a\n")
        self.files = {
            "a/specs/Lib.antt": "pub mod Low\npub mod More\n",
            "a/specs/Low.antt": LOW,
            "a/specs/More.antt": MORE,
            "a/src/lib.rt": "mod code;\nmod other;\n\npub use other::Thing;\n",
            "a/src/code.rt": CODE,
            "a/src/other.rt": OTHER,
            "a/proofs/code/Thing/first/Answers.antt": "use Rattle.a.proofs.code.Thing.first.Goals as goal\n\npub returns : goal.returns\nreturns c = c\n",
            "b/specs/High.antt": "use Rattle.a.specs.{Low.low, More.more}\n\nabbrev pub high : ℕ\nhigh = more low\n",
        }
        self.before = self.sums()

    def sums(self, **others):
        """The sums of both crates, with these files in place of theirs: a file without a text is gone."""
        for path in sorted((self.top / "crates").rglob("*.*"), reverse=True) if (self.top / "crates").exists() else ():
            path.unlink()
        for path, text in (self.files | others).items():
            if text:
                self.write(f"crates/{path}", text)
        return [record.sum_of(record.files_of(name, "src", "specs", "proofs")) for name in ("a", "b")]

    def assert_same(self, others):
        self.assertEqual(self.sums(**others), self.before)

    def assert_other(self, others):
        self.assertNotEqual(self.sums(**others), self.before)

    def test_definitions_may_share_a_file(self):
        high = self.files["b/specs/High.antt"].replace("{Low.low, More.more}", "Both.{more, low}")
        joined = {"a/specs/Low.antt": "", "a/specs/More.antt": "", "a/specs/Both.antt": BOTH, "a/specs/Lib.antt": "pub mod Both\n", "b/specs/High.antt": high}
        joined["a/src/code.rt"] = CODE.replace("specs.More", "specs.Both")
        self.assert_same(joined)
        for old, new in (("low = 1", "low = 2"), ("specs.Prelude", "specs.Other"), ("more zero = low\nmore (suc n) = n", "more (suc n) = n\nmore zero = low")):
            self.assert_other(joined | {"a/specs/Both.antt": BOTH.replace(old, new)})

    def test_an_import_of_another_crate_counts(self):
        self.assert_other({"b/specs/High.antt": self.files["b/specs/High.antt"].replace("a.specs.{Low.low, More.more}", "b.specs.{Low.low, More.more}")})

    def test_a_name_that_two_files_define_counts_with_its_file(self):
        twice = {"a/specs/More.antt": MORE.replace("use Rattle.a.specs.Low.{low}\n", "") + "\nabbrev pub low : ℕ\nlow = 3\n"}
        here, high = self.sums(**twice), self.files["b/specs/High.antt"]
        self.assertNotEqual(self.sums(**twice, **{"b/specs/High.antt": high.replace("Low.low", "More.low")})[1], here[1])
        moved = {"a/specs/Low.antt": LOW.replace("low = 1", "low = 3"), "a/specs/More.antt": twice["a/specs/More.antt"].replace("low = 3", "low = 1")}
        self.assertNotEqual(self.sums(**moved)[0], here[0])

    def test_an_item_counts_with_the_one_of_two_meanings_that_its_file_has(self):
        first = {"a/proofs/One.antt": "use Rattle.std.proofs.X.{same}\n\none = same\n", "a/proofs/Two.antt": "use Rattle.std.proofs.Y.{same}\n\ntwo = same\n"}
        other = {"a/proofs/One.antt": first["a/proofs/One.antt"].replace(".X.", ".Y."), "a/proofs/Two.antt": first["a/proofs/Two.antt"].replace(".Y.", ".X.")}
        self.assertNotEqual(self.sums(**first), self.sums(**other))

    def test_a_method_may_be_in_another_block_and_a_function_in_another_module(self):
        second = "    pub fn second(&self) -> u8 {\n        2\n    }\n"
        moved = {"a/src/code.rt": CODE.replace("\n" + second, ""), "a/src/other.rt": f"{OTHER}\nimpl Thing {{\n{second}}}\n"}
        self.assert_same(moved)
        self.assert_other(moved | {"a/src/other.rt": moved["a/src/other.rt"].replace("impl Thing", "impl Other")})
        answers = self.files["a/proofs/code/Thing/first/Answers.antt"]
        renamed = {"a/src/code.rt": "", "a/src/new.rt": CODE, "a/src/lib.rt": self.files["a/src/lib.rt"].replace("code", "new")}
        renamed |= {"a/proofs/code/Thing/first/Answers.antt": "", "a/proofs/new/Thing/first/Answers.antt": answers.replace("code.", "new.")}
        self.assert_same(renamed)
        self.assert_other(renamed | {"a/proofs/new/Thing/first/Answers.antt": "", "a/proofs/new/Thing/second/Answers.antt": answers.replace("code.", "new.")})

    def test_exports_and_settings_count(self):
        self.assert_other({"a/src/lib.rt": "mod code;\nmod other;\n"})
        self.assert_other({"a/src/lib.rt": "#![tactic(auto)]\n\n" + self.files["a/src/lib.rt"]})
        set_here = {"a/src/code.rt": f"#![tactic(auto)]\n\n{CODE}"}
        self.assertNotEqual(self.sums(**set_here), self.sums(**{"a/src/other.rt": f"#![tactic(auto)]\n\n{OTHER}"}))

    def test_an_edit_counts_without_the_file_that_it_changes(self):
        edits = [tree.Edit("a", "must-fail", "errs", text) for text in ("file: src/code.rt\nold: 1\nnew: 2\n", "file: src/new.rt\nold: 1\nnew: 2\n")]
        self.assertEqual(*(record.sum_of([it]) for it in edits))
        self.assertNotEqual(record.sum_of(edits[:1]), record.sum_of([edits[0]._replace(text=edits[0].text.replace("2", "3"))]))
