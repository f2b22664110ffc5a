"""What `.ci/needs` installs, and what it says of packages that are missing, with stand-ins for Debian's commands."""

import os
import subprocess
import sys
from pathlib import Path

from gate.tests import Small

NEEDS = Path(__file__).parents[3] / ".ci/needs"
QUERY = '#!/bin/sh\nfor it; do :; done\ngrep -qx "$it" "{0}/installed" && printf installed\n'
APT = '#!/bin/sh\nshift 2\necho "$DEBIAN_FRONTEND: $*" >>"{0}/ran"\necho "told of $1"\n[ ! -e "{0}/broken" ]\n'


class Needs(Small):
    def setUp(self):
        super().setUp()
        self.write("installed", "fio\ngcc\n")
        for name, text in (("dpkg-query", QUERY), ("apt-get", APT), ("sudo", '#!/bin/sh\nshift\nexec "$@"\n')):
            self.write(f"bin/{name}", text.format(self.top)).chmod(0o755)

    def needs(self, *packages, ci="true", path=None, user=1000):
        """The status, what it prints, and what apt-get was asked for."""
        env = {"CI": ci, "TMPDIR": str(self.top), "PATH": path or os.environ["PATH"]}
        call = [sys.executable, "-c", f"import os, runpy, sys; os.getuid = lambda: {user}; runpy.run_path(sys.argv.pop(0) and sys.argv[0])", NEEDS, *packages]
        ran = subprocess.run(call, env=env, capture_output=True, text=True, check=False)
        file = self.top / "ran"
        return ran.returncode, ran.stdout + ran.stderr, file.read_text().splitlines() if file.exists() else []

    def test_what_is_there_is_not_installed_again(self):
        for ci in ("true", ""):
            self.assertEqual(self.needs("fio", "gcc", ci=ci), (0, "", []))

    def test_ci_and_root_install(self):
        said = "needs: not installed: jq nbdkit; this installs them: apt-get install --no-install-recommends jq nbdkit\n"
        self.assertEqual(self.needs("jq", "fio", "nbdkit", ci=""), (1, said, []))
        asked = ["noninteractive: update", "noninteractive: install -y --no-install-recommends jq nbdkit"]
        self.assertEqual(self.needs("jq", "fio", "nbdkit"), (0, "", asked))
        self.assertEqual(self.needs("jq", "fio", "nbdkit", ci="", user=0), (0, said, asked * 2))

    def test_on_another_system_all_are_missing(self):
        for user in (0, 1000):
            self.assertRegex(self.needs("gcc", ci="", path="/none", user=user)[1], "^needs: not installed: gcc;")

    def test_a_failure_is_told_with_what_apt_said(self):
        self.write("broken", "")
        self.assertEqual(self.needs("jq"), (1, "told of update\nneeds: not installed: jq\n", ["noninteractive: update"]))
