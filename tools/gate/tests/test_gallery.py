"""That docs/GALLERY.md has each wrong body with its twin, and the goal that the last run of `wrong-bodies` named for it."""

from gate import gallery, wrong_bodies
from gate.tests import Small

# Refuses each edit by the goal of the function that it changes: at an answer, or at code without one.
STAND_IN = """if [ "$1" = version ]; then echo 'rattle-kit-1a logic 01'; exit; fi
grep -q LOW "$top/crates/one/src/lib.rt" && low=low || low=changed
echo "rt: must-fail one/low_errs.edit: refused, as it must be: ./proofs/low/Answers.antt:1:1: error: \\`returns-clause-$low\\`: no proof of \\`x\\`"
echo 'rt: must-fail one/high_errs.edit: refused, as it must be: note: src/lib.rt:9:5: it is not proved that it holds (`returns`); `search` gave up'
"""
HIGH = "high_errs", ("    2;", "    0;", "    2 + 0;")
SOURCE = "const LOW: u32 = 1;\n\nfn low() {\n    1;\n}\n\n#[inline]\nfn high() {\n    2;\n}\n"


class Gallery(Small):
    def setUp(self):
        super().setUp()
        self.stand_in(STAND_IN)
        self.write("docs/GALLERY.md", "# Wrong bodies\n")
        self.write("crates.txt", "one:\n")
        self.write("crates/one/src/lib.rt", SOURCE)
        self.edits("one", HIGH, ("low_errs", ("    1;", "    0;", "    1 + 0;")))
        self.run_main(gallery, "--write")

    def rows(self):
        page = (self.top / "docs/GALLERY.md").read_text().splitlines()
        cells = [line.split(" | ") for line in page if line.startswith("| ") and not line.startswith("| Misdeed")]
        return {row[0][2:]: (row[1], row[3], row[4]) for row in cells}

    def test_an_edit_has_the_goal_by_which_it_was_refused(self):
        self.assertEqual(self.rows(), {"Low errs": ("`low`", "", "`1 + 0;` |"), "High errs": ("`high`", "", "`2 + 0;` |")})
        self.run_main(wrong_bodies, "one")
        self.assertEqual([row[1] for row in self.rows().values()], ["**`returns`**", "**`returns-clause-low`**"])
        self.run_main(gallery)

    def test_a_goal_stays_until_the_edit_is_tried_again(self):
        self.run_main(wrong_bodies, "one")
        self.write("crates/one/src/lib.rt", SOURCE.replace("LOW", "OTHER"))
        self.run_main(gallery, "--write")
        self.assertEqual(self.rows()["Low errs"][1], "**`returns-clause-low`**")
        self.run_main(wrong_bodies, "one")
        self.assertEqual(self.rows()["Low errs"][1], "**`returns-clause-changed`**")

    def test_an_edit_outside_of_all_functions_is_in_its_file(self):
        self.edits("one", HIGH, ("low_errs", ("LOW: u32 = 1;", "LOW: u32 = 0;", "LOW: u32 = 1 + 0;")))
        self.run_main(gallery, "--write")
        self.assertEqual(self.rows()["Low errs"][0], "`lib`")

    def test_the_page_is_of_the_edits_and_their_twins(self):
        self.edits("one", HIGH, ("low_errs", ("    1;", "    0;", "    0 + 1;")))
        self.assertIn("docs/GALLERY.md differs", self.run_main(gallery, status=1))
        self.run_main(gallery, "--write")
        self.assertEqual(self.rows()["Low errs"][2], "`0 + 1;` |")
