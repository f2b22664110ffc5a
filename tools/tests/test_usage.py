import unittest

from tests.tools import Run

CALLS = (("trace", "make"), ("trace", "convert"), ("trace",), ("report",), ("model",), ("simulate",), ("sweep",), ("pictures",), ("crash",))


class Usage(unittest.TestCase):
    def test_unknown_option_prints_usage_and_fault(self):
        for name, *words in CALLS:
            with self.subTest(name, words=words):
                done = Run(name, *words, "--no-such-option")
                usage, fault = done.errors.splitlines()
                self.assertEqual((done.status, done.text, usage[: 8 + len(name)]), (2, "", f"usage: {name} "))
                self.assertIn("error: ", fault)
