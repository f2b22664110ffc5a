"""What `needless` removes, keeps and records: an answer goes if its goal is not open without it, and so do the lemmas that only it used."""

from gate import needless, tree
from gate.tests import Small

VERSION = "if [ \"$1\" = version ]; then echo 'rattle-kit-1a logic 01'; exit; fi\n"
STAND_IN = VERSION + """# Leaves open the goal of `first` that has an answer to keep.
echo 'help: write ./proofs/lib/first/Answers.antt with these lines, and check again'
echo '    pub returns-clause-hard : goal.returns-clause-hard'
echo
echo 'holes=1'
"""
HEAD = "use Rattle.std.proofs.Common.{refl}\nuse Rattle.low.proofs.lib.first.Goals as goal\n\n"
LEMMA = "-- A lemma.\nhelps : (n : ℕ) → n ≡ n\nhelps n = refl\n\n"
EASY = "pub returns-clause-easy : goal.returns-clause-easy\nreturns-clause-easy c = helps 1\n\n"
HARD = "pub returns-clause-hard : goal.returns-clause-hard\nreturns-clause-hard c = refl\n"


class Needless(Small):
    def setUp(self):
        super().setUp()
        self.stand_in(STAND_IN)
        self.write("crates.txt", "low:\n")
        self.write("crates/low/src/lib.rt", "")
        self.write("crates/low/proofs/lib/first/Answers.antt", HEAD + LEMMA + EASY + HARD)
        self.write("crates/low/proofs/lib/second/Answers.antt", HEAD + EASY.replace("helps 1", "refl"))

    def test_what_the_check_finds_alone_goes_with_its_lemmas(self):
        self.assertIn("needless low: 2 answers go", self.run_main(needless, "low"))
        self.assertEqual((self.top / "crates/low/proofs/lib/first/Answers.antt").read_text(), HEAD + HARD)
        self.assertFalse((self.top / "crates/low/proofs/lib/second").exists())

    def test_the_type_of_a_long_goal_stands_on_the_next_line(self):
        self.stand_in(STAND_IN.replace(" : goal.", " :'\necho '        goal."))
        self.assertIn("needless low: 2 answers go", self.run_main(needless, "low"))

    def test_an_invariant_that_is_named_alone_keeps_the_answers_to_its_clauses(self):
        self.stand_in(STAND_IN.replace("returns-clause-hard", "invariant_of-self"))
        clause = HEAD + HARD.replace("returns-clause-hard", "invariant_of-self-clause-hard")
        self.write("crates/low/proofs/lib/first/Answers.antt", clause)
        self.assertIn("needless low: 1 answers go", self.run_main(needless, "low"))
        self.assertEqual((self.top / "crates/low/proofs/lib/first/Answers.antt").read_text(), clause)

    def test_answers_of_a_function_that_was_not_tried_stay(self):
        self.stand_in(STAND_IN.replace("echo\n", 'echo "note: \\`search\\` has not tried the goals of \\`low::lib::second\\`, which wait"\n', 1))
        self.assertIn("needless low: 1 answers go", self.run_main(needless, "low"))
        self.assertTrue((self.top / "crates/low/proofs/lib/second").exists())

    def test_an_answer_to_all_clauses_stays_if_one_is_open(self):
        whole = HEAD + HARD.replace("returns-clause-hard", "returns")
        self.write("crates/low/proofs/lib/first/Answers.antt", whole)
        self.assertIn("needless low: 1 answers go", self.run_main(needless, "low"))
        self.assertEqual((self.top / "crates/low/proofs/lib/first/Answers.antt").read_text(), whole)

    def test_an_answer_stays_at_the_goal_that_refuses_a_wrong_body(self):
        self.write("crates/low/src/lib.rt", "pub fn first() -> u8 {\n    1\n}\n")
        self.edits("low", ("is_two", ("    1", "    2", "    1 + 0")))
        self.write("docs/GALLERY.md", "## `low`\n\n| Is two | `first` | `1` becomes `2` | **`returns-clause-easy`** | none |\n")
        self.assertIn("needless low: 1 answers go", self.run_main(needless, "low"))
        self.assertEqual((self.top / "crates/low/proofs/lib/first/Answers.antt").read_text(), HEAD + LEMMA + EASY + HARD)

    def test_answers_are_recorded_and_others_are_named(self):
        self.assertIn("never tried: low", self.run_main(needless, "--check"))
        self.run_main(needless, "--missing")
        self.assertIn("never tried: none", self.run_main(needless, "--check"))
        self.write("crates/low/proofs/lib/third/Answers.antt", HEAD + HARD)
        self.assertIn("answers of low were not tried", self.run_main(needless, "--check", status=1))

    def test_answers_of_tests_are_left_out(self):
        self.write("crates/low/src/lib.rt", "#[test]\nfn first() {\n}\n")
        self.assertIn("never tried: none", self.run_main(needless, "--check"))

    def test_a_crate_above_finds_the_answers_again(self):
        with tree.copied(["low"]) as room:
            needless.tried(room, "low")
            self.assertEqual((room / "crates/low/proofs/lib/first/Answers.antt").read_text(), HEAD + LEMMA + EASY + HARD)

    def test_a_check_that_ends_early_changes_nothing(self):
        self.stand_in(VERSION + "echo 'error: cannot read'; exit 1\n")
        self.assertIn("the check can't read low", self.run_main(needless, "low", status=1))
        self.assertTrue((self.top / "crates/low/proofs/lib/second/Answers.antt").exists())
