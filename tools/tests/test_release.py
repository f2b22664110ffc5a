"""What `make release` puts together, in a repository whose `make dist` is a stand-in."""

import os
import pathlib
import shutil
import subprocess
import sys
import tarfile
import tempfile
import unittest

from tests.tools import TOP

# The packages of a commit; with `names` in the tree they name the folder of their build.
MAKEFILE = """.PHONY: docs dist
docs:
\t@for page in CALLS DEFINITIONS; do echo "# $$page.md" >docs/$$page.md; done
dist:
\t@rm -rf out && mkdir -p out/dist out/tree/mintlintel-1.2.3/lib
\t@echo wheel >out/tree/mintlintel-1.2.3/lib/mintlintel-1.2.3-py3-none-linux_x86_64.whl
\t@tar -C out/tree --mtime=@0 --owner=0 --group=0 --numeric-owner -cf - mintlintel-1.2.3 | gzip -9n >out/dist/mintlintel-1.2.3-amd64.tar.gz
\t@(git rev-parse HEAD; [ ! -e names ] || pwd) >out/dist/mintlintel_1.2.3_amd64.deb
"""
CHANGES = "# Changes\n\nFor users.\n\n## 1.2.3\n\n- New.\n\n## 1.2.2\n\n- Old.\n"


class Release(unittest.TestCase):
    def setUp(self):
        folder = tempfile.TemporaryDirectory()
        self.addCleanup(folder.cleanup)
        self.top = pathlib.Path(folder.name) / "top"
        for name, text in {"Makefile": MAKEFILE, "CHANGELOG.md": CHANGES, ".gitignore": "out/\ndocs/CALLS.md\ndocs/DEFINITIONS.md\n"}.items():
            self.write(name, text)
        self.write("docs/GALLERY.md", "# GALLERY.md\n")
        (self.top / "packaging").mkdir()
        shutil.copy(TOP / "packaging/make_release", self.top / "packaging")
        self.git("init", "-q")
        self.commit()

    def write(self, name, text):
        path = self.top / name
        path.parent.mkdir(parents=True, exist_ok=True)
        path.write_text(text)

    def git(self, *words):
        subprocess.run(["git", "-c", "user.name=n", "-c", "user.email=e", *words], cwd=self.top, check=True, capture_output=True)

    def commit(self):
        self.git("add", "-A")
        self.git("commit", "-qm", "a commit")

    def release(self, rt="rt", **environment):
        """Runs it with a folder on the path in which a program of this name stands for the toolchain."""
        toolchain = self.top.parent / "toolchain"
        toolchain.mkdir(exist_ok=True)
        if not (toolchain / rt).is_symlink():
            (toolchain / rt).symlink_to("/bin/true")
        environment = {**os.environ, "PATH": f"{toolchain}:/usr/bin:/bin", **environment}
        call = [sys.executable, self.top / "packaging/make_release"]
        done = subprocess.run(call, env=environment, capture_output=True, text=True, stdin=subprocess.DEVNULL)
        return done.returncode, done.stdout, done.stderr

    def test_puts_together_what_goes_with_a_tag(self):
        other = self.top.parent / "arm64"
        other.mkdir()
        (other / "mintlintel_1.2.3_arm64.deb").write_text("of another machine\n")
        status, told, errors = self.release(OTHER_DIST=str(other))
        self.assertEqual((status, "each built twice with the same bytes" in told), (0, True), errors)
        out = self.top / "out/release"
        wanted = {"mintlintel-1.2.3-amd64.tar.gz", "mintlintel-1.2.3-pages.tar.gz", "mintlintel-1.2.3-py3-none-linux_x86_64.whl", "SHA256SUMS",
                  "mintlintel_1.2.3_amd64.deb", "mintlintel_1.2.3_arm64.deb", "notes.md"}  # fmt: skip
        self.assertEqual({path.name for path in out.iterdir()}, wanted)
        checked = subprocess.run(["sha256sum", "-c", "SHA256SUMS"], cwd=out, capture_output=True, text=True, check=True).stdout
        self.assertEqual({line.partition(":")[0] for line in checked.splitlines()}, wanted - {"SHA256SUMS"})
        self.assertEqual((out / "notes.md").read_text(), "# Mintlintel 1.2.3\n\n- New.\n\n")
        with tarfile.open(out / "mintlintel-1.2.3-pages.tar.gz") as tar:
            self.assertEqual(tar.extractfile("mintlintel-1.2.3/docs/CALLS.md").read(), b"# CALLS.md\n")
        before = (out / "SHA256SUMS").read_text()
        self.assertEqual(self.release(OTHER_DIST=str(other))[0], 0)
        self.assertEqual((out / "SHA256SUMS").read_text(), before)

    def test_refuses_packages_that_name_the_folder_of_their_build(self):
        self.write("names", "")
        self.commit()
        status, _, errors = self.release()
        self.assertEqual((status, errors.splitlines()[-1]), (1, "release: a second build gives other bytes: mintlintel_1.2.3_amd64.deb"))

    def test_refuses_without_the_toolchain(self):
        status, _, errors = self.release(rt="other")
        self.assertEqual((status, "rt isn't on the path, and nothing is released that isn't proved" in errors), (1, True), errors)

    def test_refuses_what_is_no_commit(self):
        self.write("other", "")
        self.assertEqual(self.release()[::2], (1, "release: files are not committed, so this is no commit's release\n"))

    def test_refuses_pages_that_are_older_than_the_sources(self):
        self.write("Makefile", MAKEFILE.replace("docs:\n", "docs:\n\t@echo new >docs/GALLERY.md\n"))
        self.commit()
        self.assertIn("the generated pages are older than the sources: commit what make docs writes\n M docs/GALLERY.md\n", self.release()[2])

    def test_refuses_packages_of_another_version(self):
        other = self.top.parent / "arm64"
        other.mkdir()
        (other / "mintlintel_1.2.2_arm64.deb").write_text("older\n")
        self.assertIn("mintlintel_1.2.2_arm64.deb isn't of version 1.2.3", self.release(OTHER_DIST=str(other))[2])
