"""What `wrong-definitions` tries and records, on a crate of laws and two below it with a stand-in for the toolchain: a wrong definition
counts only if its clause is the one that stays open and its twin is proved, and a crate has an entry only for the text whose wrong
definitions were all refused."""

from gate import wrong_definitions
from gate.tests import Small

# Reads each copied law through the copies that it names, by the word that the copy of the definition has.
STAND_IN = """#!/usr/bin/env python3
import re, sys
from pathlib import Path

def definition(text, tag):
    found = re.search(rf"{tag}_\\w+", text)
    return definition(Path(f"specs/{found[0]}.antt").read_text(), tag) if found else text

if sys.argv[1:2] == ["version"]:
    print("rattle-kit-1a logic 01")
if sys.argv[1:2] == ["check"]:
    for law in sorted(Path("src/wrong").glob("*.rt")):
        tag, text = law.stem, definition(law.read_text(), law.stem)
        if "OPEN" in text:
            print(f"note: src/wrong/{tag}.rt:3:1: it is not proved that what the function ensures holds when it returns (`returns-clause-held`)")
        if "BAD" in text:
            print(f"./specs/{tag}_low_Low.antt:1:1: error: not in scope")
        if "WRONG" in text or "OTHER" in text:
            print(f"./proofs/wrong/{tag}/small/Answers.antt:1:1: error: `returns-clause-{'held' if 'WRONG' in text else 'other'}`")
        else:
            print(f"fn laws::wrong::{tag}::small: proved")
    print("only=2 proved=1")
"""
LIBRARY = """
from types import SimpleNamespace

RATTLE = __file__.replace("rtlib.py", "rt")

def words(flags, keeps, as_source):
    return []

def crates_below(top):
    return [SimpleNamespace(name="laws", folder=f"{top}/crates/laws", words=words)]
"""
LAW = "ghost use Rattle.mid.specs.Mid.{Holds};\n\n/// A law.\npub fn small()\n    ensures held { Holds 1 }\n    ensures other { Holds 2 }\n{}\n"
LOW = "-- A number.\nabbrev pub number : N\nnumber = right\n"
MID = "use Rattle.low.specs.Low.{number}\n\n-- It holds.\nabbrev pub Holds : N → Type 0\nHolds n = n ≡ number\n"


class WrongDefinitions(Small):
    def setUp(self):
        super().setUp()
        self.write("bin/rt", STAND_IN).chmod(0o755)
        self.write("bin/rtlib.py", LIBRARY)
        self.write("crates.txt", "low:\nmid: low\nlaws: mid low\n")
        self.write("crates/low/specs/Low.antt", LOW)
        self.write("crates/mid/specs/Mid.antt", MID)
        self.write("crates/laws/src/lib.rt", "mod numbers;\n")
        self.write("crates/laws/src/numbers.rt", LAW)
        self.write("crates/laws/specs/Lib.antt", "")
        self.write("crates/laws/proofs/numbers/small/Answers.antt", "use Rattle.laws.proofs.numbers.small.Goals as goal\n")
        self.wrong("WRONG")

    def wrong(self, new, twin="also_right", law="laws::numbers::small held", old="right"):
        text = f"edit: number_is_any\nlaw: {law}\ndefinition: number\nold: {old}\nnew: {new}\ntwin: {twin}\n"
        self.write("crates/low/wrong-definitions.edits", text)

    def run_here(self, *words, status=0):
        return self.run_main(wrong_definitions, *words, status=status)

    def test_what_was_refused_is_recorded_for_its_text(self):
        self.assertIn("still to try: those of low", self.run_here("--check"))
        self.assertIn("refused, and its twin is proved", self.run_here("--missing"))
        self.assertNotIn("still to try", self.run_here("--check"))
        self.assertEqual(self.run_here("--missing"), "")
        for path, text in (("low/specs/Low.antt", f"{LOW}other = 1\n"), ("laws/src/numbers.rt", f"{LAW}\npub fn more()\n{{}}\n")):
            self.write(f"crates/{path}", text)
            self.assertIn("still to try: those of low", self.run_here("--check"))
            self.run_here("--missing")

    def test_a_comment_is_no_changed_text(self):
        self.run_here("low")
        self.write("crates/low/specs/Low.antt", f"-- Other words.\n{LOW}")
        self.assertNotIn("still to try", self.run_here("--check"))

    def test_an_item_may_name_its_module_in_an_import(self):
        self.write("crates/mid/specs/Mid.antt", MID.replace("specs.Low.{number}", "specs.{Low.number}"))
        self.write("crates/laws/src/numbers.rt", LAW.replace("specs.Mid.{Holds}", "specs.{Mid.Holds}"))
        self.assertIn("refused, and its twin is proved", self.run_here("--missing"))

    def assert_fault(self, said):
        self.assertIn(said, self.run_here("--all", status=1))
        self.assertIn("still to try: those of low", self.run_here("--check"))

    def test_a_wrong_definition_that_the_law_allows_is_not_recorded(self):
        self.wrong("left")
        self.assert_fault("NOT REFUSED by laws::numbers::small")

    def test_another_clause_is_not_the_one_that_refuses(self):
        self.wrong("OTHER")
        self.assert_fault("is refused, but not by the clause held")

    def test_a_clause_that_is_open_beside_an_answer_that_does_not_fit_refuses(self):
        self.wrong("OTHER OPEN")
        self.assertIn("refused, and its twin is proved", self.run_here("low"))

    def test_an_edit_may_change_several_texts(self):
        self.write("crates/low/specs/Low.antt", LOW.replace("right", "right left"))
        self.wrong("right", twin="also_right\nold: left\nnew: WRONG\ntwin: also_left")
        self.assertIn("refused, and its twin is proved", self.run_here("low"))
        self.wrong("right", twin="also_right\nold: absent\nnew: WRONG\ntwin: also_left")
        self.assertIn("changes a text that isn't in number of low exactly once", self.run_here("--check", status=1))

    def test_the_twin_has_to_be_proved(self):
        self.wrong("WRONG", twin="WRONG")
        self.assert_fault("has a twin that is not proved")

    def test_a_definition_that_cannot_be_read_is_no_refusal(self):
        self.wrong("WRONG BAD")
        self.assert_fault("can't be read")

    def test_an_edit_has_to_fit(self):
        self.wrong("WRONG", old="absent")
        self.assertIn("changes a text that isn't in number of low exactly once", self.run_here("--check", status=1))
        self.wrong("WRONG", law="laws::numbers::small absent")
        self.assertIn("which is no clause of a law", self.run_here("--missing", status=1))

    def test_an_edit_and_its_twin_change_something(self):
        for new, twin in (("right", "also_right"), ("WRONG", "right")):
            self.wrong(new, twin)
            self.assertIn("number_is_any changes nothing", self.run_here("--check", status=1))

    def test_a_crate_without_wrong_definitions_is_named(self):
        self.run_here("mid", status=2)

    def test_the_toolchain_is_named_if_it_is_not_there(self):
        self.write("bin/rtlib.py", "")
        with self.assertRaisesRegex(SystemExit, "needs the toolchain's rt"):
            self.run_here("low")
