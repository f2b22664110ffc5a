"""In which order `check` runs what it runs, what it does with a failure, and what its last line is."""

import contextlib
import io
import os
import subprocess
from pathlib import Path
from unittest import mock

from gate import check, tree, wrong_bodies
from gate.tests import Small

HERE = Path(__file__).parents[3]


class Check(Small):
    def setUp(self):
        super().setUp()
        self.ran, self.fails, self.last = [], "", "12 passed, 0 failed"
        self.patch(wrong_bodies, "untried", lambda: ["low"])
        self.patch(wrong_bodies, "write", lambda names: self.ran.append(" ".join(["write", *names])))
        self.patch(wrong_bodies, "note", lambda names, said, again: self.runs(f"note of {names[0]}: {said}"))
        self.patch(tree, "said_by", lambda _, *command, shown: (self.runs(" ".join(command)), self.last))
        self.patch(check, "packages", lambda is_ci: ["fio"])
        self.patch(subprocess, "run", lambda command, **_: subprocess.CompletedProcess(command, self.runs(" ".join(command))))
        self.patch(subprocess, "Popen", lambda command, **_: self.ran.append("beside: " + " ".join(command)))

    def patch(self, owner, name, value):
        patch = mock.patch.object(owner, name, value)
        patch.start()
        self.addCleanup(patch.stop)

    def runs(self, name):
        self.ran.append(name)
        return int(bool(self.fails) and name.startswith(self.fails))

    def said(self, is_ci=False):
        """The lines that a run prints, and its status."""
        printed, status = io.StringIO(), 0
        with contextlib.redirect_stdout(printed), mock.patch.dict(os.environ, CI=str(is_ci).lower()):
            try:
                status = check.main([])
            except SystemExit as ended:
                status = ended.code
        return printed.getvalue().splitlines(), status

    def test_the_cheap_checks_come_before_the_proofs_and_these_before_the_rest(self):
        lines, status = self.said()
        self.assertEqual((lines[-1], status), ("12 passed, 0 failed", 0))
        self.assertEqual(self.ran[:11], [".ci/needs fio", *check.BEFORE])
        self.assertEqual(self.ran[11:19], ["write low", "rt ci", "note of low: 12 passed, 0 failed", "write", *check.AFTER])
        rest = [command for row in check.ROWS for command in row]
        self.assertEqual(sorted(self.ran[19:]), sorted(rest))
        for row in check.ROWS:
            self.assertEqual([it for it in self.ran if it in row], [*row])

    def test_only_ci_installs(self):
        self.said(is_ci=True)
        self.assertEqual((self.ran[0], self.ran[-1]), ("beside: .ci/needs fio", "packaging/installed"))

    def test_packages_that_are_missing_end_it_before_all_else(self):
        self.fails = ".ci/needs"
        self.assertEqual(self.said()[1], "failed: .ci/needs fio")
        self.assertEqual(self.ran, [".ci/needs fio"])

    def test_a_proof_that_fails_ends_it(self):
        self.fails, self.last = "rt ci", "11 passed, 1 failed"
        self.assertEqual((self.said()[1], self.ran[-1]), (1, "write"))
        self.ran, self.fails = [], "note"
        self.assertEqual((self.said()[1], self.ran[-1]), (1, "write"))

    def test_a_later_failure_is_not_followed_by_the_counts(self):
        for step in (".ci/promises", ".ci/twins --due", "bench/run", "bindings/nbdkit/check"):
            self.ran, self.fails = [], step
            lines, status = self.said()
            self.assertNotIn("12 passed, 0 failed", lines[-1:])
            self.assertRegex(status, f"failed: .*{step}")

    def test_each_script_is_there(self):
        for command in (*check.BEFORE, *check.AFTER[:-1], *(command for row in check.ROWS for command in row)):
            self.assertTrue(os.access(HERE / command.split()[0], os.X_OK), command)


class Packages(Small):
    def test_the_packages_are_those_that_the_scripts_list(self):
        with mock.patch.object(tree, "TOP", HERE):
            self.assertLessEqual({"fio", "clang", "nbdkit", "chromium", "python3-numpy", "cargo", "debootstrap"}, set(check.packages(True)))
            self.assertNotIn("numpy", check.packages(True))


class Said(Small):
    def test_what_a_command_prints_is_returned_and_may_be_shown(self):
        for shown in (False, True):
            printed = io.StringIO()
            with contextlib.redirect_stdout(printed):
                self.assertEqual(tree.said_by(self.top, "sh", "-c", "echo first; echo last; exit 3", shown=shown), (3, "first\nlast\n"))
            self.assertEqual(printed.getvalue(), "first\nlast\n" if shown else "")
