"""The launcher in a repository of two crates, beside a stand-in for the toolchain."""

import os
import pathlib
import shutil
import signal
import subprocess
import tempfile
import time
import unittest

from tests.tools import TOP

# Each check tells how far it is, and starts a process of its own, whose number it leaves in a file. The check of `low` waits for a file.
TOOLCHAIN = """#!/bin/sh
[ "$1" != version ] || { echo "kit 1"; exit 0; }
name=$(basename "$PWD")
case $1 in
check)
  echo "so far: 0 of 3 functions checked; the verdict comes last"
  echo "checked $name::first, 1 of 3"
  sleep 600 & echo $! >"$STATE/$name.pid"
  echo $$ >"$STATE/$name.check"
  while [ ! -e "$STATE/go" ]; do sleep 0.05; done
  kill $!
  [ ! -e "$STATE/$name.fails" ] || { echo "fn $name::first: not proved"; exit 1; } ;;
run)
  mkdir -p out
  [ "$name" = cuts ] && first=first_cuts || first=first
  printf '#!/bin/sh\\n[ "$*" = --version ] && echo flashplay 1.2.3 || cat "%s/examples/%s.out"\\n' "$TOP" $first >out/$name
  chmod +x out/$name ;;
esac
"""


# What stands for the library's Makefile: it counts its calls.
MAKEFILE = """quick:
\t@echo made >>"$(STATE)/made"; [ ! -e "$(STATE)/fails" ] || { echo no library; exit 1; }
\t@mkdir -p out/quick && printf '#!/bin/sh\\necho quick "$$*"; exit 4\\n' >out/quick/flashplay-image && chmod +x out/quick/flashplay-image
"""


def is_there(process):
    try:
        return pathlib.Path(f"/proc/{process}/stat").read_text().rpartition(")")[2].split()[0] != "Z"
    except OSError:
        return False


class Launcher(unittest.TestCase):
    def setUp(self):
        folder = tempfile.TemporaryDirectory()
        self.addCleanup(folder.cleanup)
        self.state = pathlib.Path(folder.name)
        self.top = self.state / "top"
        for crate in ("low", "flashplay", "cuts"):
            (self.top / "crates" / crate / "src").mkdir(parents=True)
            (self.top / "crates" / crate / "src/lib.rt").write_text(f"// {crate}\n")
        (self.top / "crates.txt").write_text("low:\nflashplay: low io\ncuts: low\n")
        shutil.copytree(TOP / "examples", self.top / "examples")
        shutil.copy(TOP / "flashplay", self.top / "flashplay")
        path = self.state / "bin"
        path.mkdir()
        (path / "rt").write_text(TOOLCHAIN)
        (path / "rt").chmod(0o755)
        self.environment = {**os.environ, "PATH": f"{path}:{os.environ['PATH']}", "STATE": str(self.state), "TOP": str(self.top)}

    def prove(self, *words):
        launcher = subprocess.Popen(
            [self.top / "flashplay", *words, "--prove"],
            stdin=subprocess.DEVNULL,
            stderr=subprocess.PIPE,
            text=True,
            env=self.environment,
            preexec_fn=lambda: signal.signal(signal.SIGINT, signal.SIG_DFL),  # whoever started this test may ignore it
        )
        self.addCleanup(launcher.stderr.close)
        self.addCleanup(launcher.kill)
        return launcher

    def wait_for(self, test, seconds=30):
        end = time.monotonic() + seconds
        while not test():
            self.assertLess(time.monotonic(), end, test)
            time.sleep(0.05)

    def processes(self, crate):
        files = [self.state / f"{crate}.pid", self.state / f"{crate}.check"]
        self.wait_for(lambda: all(file.exists() and file.read_text().strip() for file in files))
        return [int(file.read_text()) for file in files]

    def test_tells_functions_and_crates(self):
        launcher = self.prove()
        self.processes("low")
        self.assertIn("proving 2 crates", launcher.stderr.readline())
        self.assertEqual(launcher.stderr.readline(), "flashplay: functions checked: low 1 of 3\n")
        self.assertFalse((self.state / "flashplay.check").exists())
        (self.state / "go").touch()
        told = launcher.communicate(timeout=30)[1]
        self.assertEqual(launcher.returncode, 0, told)
        order = [told.index(text) for text in ("1 of 2 crates are proved, low", "2 of 2 crates are proved, flashplay", "the program is proved")]
        self.assertEqual(order, sorted(order))

    def test_proves_the_program_of_cuts_beside_the_other(self):
        (self.state / "go").touch()
        for words in ((), ("cuts",)):
            self.assertEqual(self.prove(*words).wait(timeout=30), 0)
        for words, last in (((), "end,1,0,0"), (("cuts", "--seed=1"), "end,1,0,1,0,0")):
            done = subprocess.run([self.top / "flashplay", *words], capture_output=True, text=True, env=self.environment, timeout=30)
            self.assertEqual((done.stdout.splitlines()[-1], done.stderr), (last, ""))

    def test_fails_with_what_the_check_said(self):
        (self.state / "low.fails").touch()
        (self.state / "go").touch()
        launcher = self.prove()
        told = launcher.communicate(timeout=30)[1]
        self.assertEqual(launcher.returncode, 70)
        self.assertIn("fn low::first: not proved", told)
        self.assertIn("the program was not built: low is not proved", told)
        self.assertFalse((self.state / "flashplay.check").exists())

    def ends_all(self, by, to_reader=()):
        """Sends the launcher a signal, after these to what a check has beside it to end it."""
        launcher = self.prove()
        processes = self.processes("low")
        self.assertTrue(all(map(is_there, processes)))
        for signal_before in to_reader:
            for reader in self.children(processes[1]):
                os.kill(reader, signal_before)
        launcher.send_signal(by)
        launcher.wait(timeout=30)
        self.wait_for(lambda: not any(map(is_there, processes)))
        return launcher.returncode

    def children(self, parent):
        """The processes of the launcher's name whose parent is this one."""
        name = bytes(self.top / "flashplay")
        for folder in pathlib.Path("/proc").glob("[0-9]*"):
            try:
                if name in (folder / "cmdline").read_bytes() and int((folder / "stat").read_text().rpartition(")")[2].split()[1]) == parent:
                    yield int(folder.name)
            except OSError:
                continue  # it has ended meanwhile

    def test_ends_its_processes_when_their_readers_are_terminated_and_it_is_killed(self):
        self.assertEqual(self.ends_all(signal.SIGKILL, to_reader=(signal.SIGINT, signal.SIGTERM)), -signal.SIGKILL)

    def test_ends_its_processes_when_it_is_terminated(self):
        self.assertEqual(self.ends_all(signal.SIGTERM), 143)
        self.assertEqual([path.name for path in (self.top / "out/launcher").iterdir()], ["lock"])

    def test_ends_its_processes_when_it_is_interrupted(self):
        self.assertEqual(self.ends_all(signal.SIGINT), 130)

    def test_ends_its_processes_when_it_is_killed(self):
        self.assertEqual(self.ends_all(signal.SIGKILL), -signal.SIGKILL)
        # The next launcher takes over, and removes what was left.
        (self.state / "go").touch()
        self.assertEqual(self.prove().wait(timeout=30), 0)

    def play(self, *words):
        done = subprocess.run([self.top / "flashplay", *words], stdin=subprocess.DEVNULL, capture_output=True, text=True, env=self.environment)
        made = self.state / "made"
        return done.returncode, done.stdout, done.stderr.splitlines(), made.read_text().count("made") if made.exists() else 0

    def test_the_tools_are_words_of_it(self):
        (self.top / "tools").mkdir()
        for name in ("simulate", "trace", "report", "sweep", "model"):
            tool = self.top / "tools" / name
            tool.write_text('#!/bin/sh\necho "${0##*/} $# $*"; exit 7\n')
            tool.chmod(0o755)
            self.assertEqual(self.play(name, "a file", "--out", ""), (7, f"{name} 3 a file --out \n", [], 0))

    def test_builds_the_program_of_images_without_proof_if_it_is_older_than_a_source(self):
        sources = self.top / "bindings/src"
        for folder in (sources, self.top / "bindings/player", self.top / "bindings/include"):
            folder.mkdir(parents=True)
        (sources / "image.c").write_text("// a source\n")
        (self.top / "bindings/Makefile").write_text(MAKEFILE)
        building = "flashplay: building the library without proof, in a minute or two"
        not_proved = "flashplay: the library below images is not proved yet: make -C bindings proves it"
        self.assertEqual(self.play("image", "disk.img"), (4, "quick image disk.img\n", [building, not_proved], 1))
        self.assertEqual(self.play("--quiet", "--image=disk.img"), (4, "quick --quiet --image=disk.img\n", [not_proved], 1))
        later = time.time() + 5
        os.utime(sources / "image.c", (later, later))
        self.assertEqual(self.play("--image", "disk.img")[2:], ([building, not_proved], 2))
        (self.state / "fails").touch()
        status, _, told, _ = self.play("--image", "disk.img")
        self.assertEqual((status, told[0], told[1], told[-1]), (70, building, "no library", "flashplay: the program was not built"))
        proved = self.top / "bindings/out/flashplay-image"
        proved.write_text("#!/bin/sh\necho proved\n")
        proved.chmod(0o755)
        os.utime(proved, (later + 5, later + 5))
        self.assertEqual(self.play("image", "disk.img"), (0, "proved\n", [], 3))
