"""What `wrong-bodies` records, tried on three small crates: a clean checkout passes with any version of the toolchain, and no entry of
another version is lost."""

import contextlib
import io
import subprocess
from unittest import mock

from gate import record, twins, wrong_bodies
from gate.tests import Small

STAND_IN = """# Refuses each edit except those named in the file `taken`, and prints the line in the file `version` as its version.
if [ "$1" = version ]; then cat "$top/version"; exit; fi
for edit in crates/*/must-fail/*.edit; do
  [ -e "$edit" ] || continue
  name=${edit#crates/}
  said='refused, as it must be'
  grep -qx "$(basename "$edit")" "$top/taken" && said='NOT REFUSED'
  echo "rt: must-fail ${name%%/*}/$(basename "$edit"): $said"
done
"""
OLD, NEW = "rattle-kit-1a logic 01", "rattle-kit-1b logic 01"


class Refused(Small):
    def setUp(self):
        super().setUp()
        self.stand_in(STAND_IN)
        self.proved = mock.patch.object(twins, "main", return_value=0).start()
        # No commit draws a crate.
        mock.patch.object(record, "TENTH", 2**300).start()
        self.addCleanup(mock.patch.stopall)
        self.write("crates.txt", "uses:\nlow:\nhigh: low\n")
        self.write("taken", "")
        (self.top / ".git").mkdir()
        for name in ("uses", "low", "high"):
            self.write(f"crates/{name}/src/lib.rt", f"// {name}\n")
            self.edits(name, (f"{name}_errs", (name, "WRONG", "RIGHT")))
        self.version(OLD)
        self.run_main(wrong_bodies, "--all")

    def version(self, line):
        self.write("version", line + "\n")

    def gate(self, status=0):
        """A run of the gate: what it prints about the edits that it leaves out, and the crates whose edits it tries."""
        printed = io.StringIO()
        with contextlib.redirect_stdout(printed), contextlib.redirect_stderr(printed):
            names = wrong_bodies.untried()
            wrong_bodies.write(names)
            tried = [path.split("/")[1] for path in self.written()]
            log = subprocess.run([self.top / "bin/rt", "ci"], cwd=self.top, capture_output=True, text=True, check=True).stdout
            self.assertEqual(wrong_bodies.note(names, log, again=False), status)
        return printed.getvalue(), tried

    def written(self):
        """The edits that are in the folders that `rt` reads."""
        return sorted(path.relative_to(self.top).as_posix() for path in self.top.glob("crates/*/must-fail/*"))

    def entries(self):
        return sorted((it.crate, it.version) for it in wrong_bodies.refused().entries())

    def record(self):
        return (self.top / ".ci/refused").read_text()

    def test_all_proves_the_twins_too_and_a_single_crate_does_not(self):
        self.run_main(wrong_bodies, "low")
        self.proved.assert_called_once_with(["--all"])

    def test_an_unchanged_text_is_not_tried_again_by_another_version(self):
        before = self.record()
        self.version(NEW)
        said, tried = self.gate()
        self.assertEqual(tried, ["uses"])
        self.assertIn(f"with {OLD}; this machine has {NEW}", said)
        self.assertEqual(self.record(), before)

    def test_a_changed_text_is_tried_with_the_version_at_hand(self):
        self.version(NEW)
        self.write("crates/high/src/lib.rt", "const CHANGED: u8 = 1;\n")
        self.assertEqual(self.gate()[1], ["high", "uses"])
        self.assertEqual(self.entries(), [("high", NEW), ("low", OLD), ("uses", OLD)])
        self.assertEqual(wrong_bodies.refused().versions(), {"uses": [OLD], "low": [OLD], "high": [NEW]})

    def test_definitions_below_count_as_text(self):
        self.write("crates/low/specs/Low.antt", "word = 1\n")
        self.assertEqual(self.gate()[1], ["high", "low", "uses"])

    def test_a_changed_comment_is_no_changed_text(self):
        before = self.record()
        self.write("crates/low/src/lib.rt", "/// Other words,\n  // on more lines.\n")
        self.assertEqual(self.gate()[1], ["uses"])
        self.assertEqual(self.record(), before)
        self.write("crates/low/src/lib.rt", "const CHANGED: u8 = 1; // low\n")
        self.assertEqual(self.gate()[1], ["low", "uses"])

    def test_all_adds_its_entries_and_takes_none_of_another_version_away(self):
        self.version(NEW)
        self.run_main(wrong_bodies, "--all")
        self.assertEqual(self.entries(), [(name, its) for name in ("high", "low", "uses") for its in (OLD, NEW)])

    def test_a_line_ends_no_trying(self):
        own, mine = self.record(), f"low {wrong_bodies.refused().sum_of('low')} "
        self.write("taken", "low_errs.edit\n")
        self.assertEqual(self.gate()[1], ["uses"])
        with mock.patch.object(record, "TENTH", 1):
            self.assertEqual(self.gate(status=1)[1], ["high", "low", "uses"])
            self.assertEqual(self.entries(), [("high", OLD), ("uses", OLD)])
            self.write("taken", "")
            # A line of another trial is none of this text; one of the earlier form gets the sum of what was printed; one of another version stays.
            text = "".join(f"{mine}{'0' * 16} {OLD}\n" if it.startswith("low ") else f"{it}\n" for it in own.splitlines())
            self.write(".ci/refused", text)
            self.assertIn(".ci/refused has an entry of low that this trial doesn't print", self.gate(status=1)[0])
            self.assertEqual(self.entries(), [("high", OLD), ("uses", OLD)])
            self.write(".ci/refused", text.replace("0" * 16 + " ", ""))
            self.gate()
            self.assertEqual(self.record(), own)
            self.version(NEW)
            self.assertEqual(self.gate()[1], ["high", "low", "uses"])
            self.assertEqual(self.record(), own)

    def test_the_commit_draws_a_tenth(self):
        book, names, drawn = wrong_bodies.refused(), [*record.SLOW, *map(str, range(18))], []
        with mock.patch.object(record, "TENTH", 10):
            for its in map(str, range(200)):
                with mock.patch.object(record, "commit", lambda its=its: its):
                    drawn += book.due(dict.fromkeys(names, [OLD]))
        self.assertTrue(300 < len(drawn) < 420, len(drawn))
        self.assertTrue(all(4 < drawn.count(name) < 36 for name in names if name not in record.SLOW))
        self.assertTrue(all(drawn.count(name) < 8 for name in record.SLOW))

    def test_an_edit_that_is_proved_is_not_recorded(self):
        self.write("taken", "low_errs.edit\n")
        self.run_main(wrong_bodies, "low", status=1)
        self.assertEqual(self.entries(), [("high", OLD), ("uses", OLD)])

    def test_the_edit_of_each_run_has_to_be_refused(self):
        self.write("taken", "uses_errs.edit\n")
        self.gate(status=1)

    def test_the_files_for_rt_have_the_wrong_bodies_alone(self):
        self.edits("low", ("low_errs", ("low", "WRONG", "RIGHT"), ("other", "", "twin: it")), ("another", ("low", "it", "RIGHT")))
        self.assertEqual(self.written(), [])
        self.run_main(wrong_bodies, "--write", "low", "high")
        self.assertEqual(self.written(), ["crates/high/must-fail/high_errs.edit", *(f"crates/low/must-fail/{it}.edit" for it in ("another", "low_errs"))])
        text = (self.top / "crates/low/must-fail/low_errs.edit").read_text()
        self.assertEqual(text, "file: src/lib.rt\nold: low\nnew: WRONG\nold: other\nnew: \n")
        self.run_main(wrong_bodies, "--write", "high")
        self.assertEqual(self.written(), ["crates/high/must-fail/high_errs.edit"])

    def test_a_file_for_rt_that_no_crate_has_is_not_removed(self):
        self.write("crates/low/must-fail/mine.edit", "file: src/lib.rt\n")
        with self.assertRaisesRegex(SystemExit, "not in crates/low/wrong-bodies.edits: crates/low/must-fail/mine.edit"):
            wrong_bodies.write(["high"])
        self.assertEqual(self.written(), ["crates/low/must-fail/mine.edit"])

    def test_a_run_that_tries_all_edits_is_recorded(self):
        self.write(".ci/refused", "")
        self.assertEqual(self.gate()[1], ["high", "low", "uses"])
        self.assertEqual(self.entries(), [(name, OLD) for name in ("high", "low", "uses")])

    def test_a_crate_without_wrong_bodies_is_named(self):
        self.run_main(wrong_bodies, "nothing", status=2)
