"""What `twins` tries and records: twins of different places are tried together, those of one place apart, and a crate has an entry
only for the text whose twins were all proved."""

from gate import twins
from gate.tests import Small

STAND_IN = """# Proves each crate whose sources don't contain the word WRONG, and keeps the sources that it saw.
if [ "$1" = version ]; then echo 'rattle-kit-1a logic 01'; exit; fi
cat src/lib.rt >>"$top/seen"
! grep -q WRONG src/lib.rt
"""


FIRST, SECOND = ("one", ("first", "WRONG", "FIRST")), ("two", ("second", "WRONG", "SECOND"))


class Twins(Small):
    def setUp(self):
        super().setUp()
        self.stand_in(STAND_IN)
        self.write("crates.txt", "low:\nhigh: low\n")
        for name in ("low", "high"):
            self.write(f"crates/{name}/src/lib.rt", "first\nsecond\n")
            self.edits(name, FIRST)

    def test_what_was_proved_is_recorded_for_its_text(self):
        self.assertIn("still to prove: the twins of low, high", self.run_main(twins, "--check"))
        self.run_main(twins, "--all")
        self.assertNotIn("still to prove", self.run_main(twins, "--check"))
        self.write("crates/low/specs/Low.antt", "changed : ℕ\nchanged = 1\n")
        self.assertIn("still to prove: the twins of low, high", self.run_main(twins, "--check"))

    def test_only_what_is_missing_is_proved(self):
        self.run_main(twins, "low")
        (self.top / "seen").unlink()
        self.assertIn("twins high: proved", self.run_main(twins, "--missing"))
        self.assertEqual((self.top / "seen").read_text(), "FIRST\nsecond\n")
        self.assertEqual(self.run_main(twins, "--missing"), "")

    def test_twins_of_other_places_are_tried_together_and_of_one_place_apart(self):
        self.edits("low", SECOND, FIRST, ("three", ("first", "WRONG", "1st")))
        self.run_main(twins, "low")
        self.assertEqual((self.top / "seen").read_text(), "FIRST\nSECOND\n1st\nsecond\n")

    def test_a_twin_that_is_refused_is_not_recorded(self):
        self.edits("high", ("one", ("first", "FIRST", "WRONG")))
        self.assertIn("twins of high were not proved", self.run_main(twins, "--all", status=1))
        self.assertIn("still to prove: the twins of high", self.run_main(twins, "--check"))

    def test_an_edit_and_its_twin_have_to_fit_their_file(self):
        self.edits("low", SECOND, ("three", ("first", "1st", "FIRST"), ("1st", "WRONG", "FIRST")))
        said = self.run_main(twins, "--check", status=1)
        self.assertEqual(said, "crates/low/wrong-bodies.edits: the twin of three changes a text that isn't there exactly once\n")
        self.edits("low", ("two", ("third", "WRONG", "THIRD")))
        self.assertIn("crates/low/wrong-bodies.edits: two changes a text that", self.run_main(twins, "--check", status=1))

    def test_an_edit_and_its_twin_change_something(self):
        for texts, said in ((("first", "first", "FIRST"), "two"), (("first", "WRONG", "fi rst // first"), "the twin of two")):
            self.edits("low", ("two", texts))
            self.assertEqual(self.run_main(twins, "--check", status=1), f"crates/low/wrong-bodies.edits: {said} changes nothing\n")
        self.edits("low", ("two", ("first", "WRONG", "first"), ("second", "SECOND", "2nd")))
        self.run_main(twins, "--check")

    def test_an_edit_counts_for_itself_wherever_it_stands(self):
        self.edits("low", FIRST, SECOND)
        self.run_main(twins, "--all")
        self.edits("low", SECOND, FIRST)
        self.assertNotIn("still to prove", self.run_main(twins, "--check"))
        # The wrong body isn't what was proved.
        self.edits("low", SECOND, ("one", ("first", "WORSE", "FIRST")))
        self.assertNotIn("still to prove", self.run_main(twins, "--check"))
        for name, twin in (("two", "2nd"), ("three", "SECOND")):
            self.edits("low", FIRST, (name, ("second", "WRONG", twin)))
            self.assertIn("still to prove: the twins of low", self.run_main(twins, "--check"))

    def test_a_file_of_edits_has_nothing_else(self):
        text = self.an_edit(*FIRST)
        without_twin = text.replace("one", "two").replace("twin: FIRST\n", "")
        for more, line in (("\nedit: two\n", 7), ("\n# two\n", 7), ("news: it\n", 6), ("\n" + text, 7), ("\n" + without_twin, 7), ("old: second\n", 6)):
            self.write("crates/low/wrong-bodies.edits", text + more)
            with self.assertRaisesRegex(SystemExit, f"crates/low/wrong-bodies.edits:{line}: not an edit with its twin"):
                twins.main(["--check"])
