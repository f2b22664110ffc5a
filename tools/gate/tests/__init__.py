"""The tests of the gate's checks: python3 -m unittest discover -s tools/gate/tests -t tools."""

import contextlib
import io
import os
import shutil
import tempfile
import unittest
from pathlib import Path
from unittest import mock

from gate import tree


class Small(unittest.TestCase):
    """A test on a small repository, which has the folder bin/ before all others on the path."""

    def setUp(self):
        self.top = Path(tempfile.mkdtemp(prefix="gate-test-"))
        self.addCleanup(shutil.rmtree, self.top)
        for patch in (mock.patch.object(tree, "TOP", self.top), mock.patch.dict(os.environ, PATH=f"{self.top}/bin:{os.environ['PATH']}")):
            patch.start()
            self.addCleanup(patch.stop)
        self.write("HANDLES", "Handles allowed: none.\n")
        (self.top / ".ci").mkdir()

    def write(self, path, text):
        file = self.top / path
        file.parent.mkdir(parents=True, exist_ok=True)
        file.write_text(text)
        return file

    def stand_in(self, text):
        """A stand-in for `rt`, which knows the top of the repository as $top."""
        self.write("bin/rt", f"#!/usr/bin/env bash\ntop={self.top}\n{text}").chmod(0o755)

    def edits(self, crate, *named):
        """The wrong bodies of a crate with their twins, each as its name and its texts: the old one, the wrong one and the twin's."""
        self.write(f"crates/{crate}/wrong-bodies.edits", "\n".join(self.an_edit(*it) for it in named))

    def an_edit(self, name, *texts):
        lines = (f"old: {old}\nnew: {new}\ntwin: {twin}\n" for old, new, twin in texts)
        return f"edit: {name}\nfile: src/lib.rt\n{''.join(lines)}"

    def run_main(self, module, *words, status=0):
        """What a command prints."""
        printed = io.StringIO()
        with contextlib.redirect_stdout(printed), contextlib.redirect_stderr(printed):
            try:
                found = module.main(list(words))
            except SystemExit as ended:
                if not isinstance(ended.code, int):
                    raise
                found = ended.code
        self.assertEqual(found or 0, status, printed.getvalue())
        return printed.getvalue()
