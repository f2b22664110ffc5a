"""The command lines of the pages run as they stand, twice."""

import concurrent.futures
import html
import pathlib
import re
import shlex
import tempfile
import unittest

from tests import documents
from tests.documents import Block, Differs, blocks_of
from tests.packages import needs


def page_of(lines, shown=None):
    return f"# Page\n\n```sh\n{lines}```\n\n" + (f"```\n{shown}```\n" if shown else "")


class Runner(unittest.TestCase):
    """The check itself: what it finds in a page, and what it refuses."""

    def run_text(self, text):
        with tempfile.TemporaryDirectory() as folder:
            return documents.run_page(blocks_of("page.md", text), pathlib.Path(folder))

    def test_runs_blocks_in_order_and_compares_what_is_shown(self):
        text = page_of("mkdir -p out; echo one > out/a\n") + page_of("cat out/a; ls out/a\n", "one\nout/a\n")
        self.assertEqual(self.run_text(text), [["", "one\nout/a\n"][0], "one\nout/a\n"])

    def test_refuses_what_a_page_may_not_have(self):
        for text, message in (
            (page_of("false\n"), "status 1"),
            (page_of("echo x | false | cat\n"), "status 1"),
            (page_of("mkdir out\n"), "File exists"),
            (page_of("echo two\n", "one\n"), "prints\ntwo\nand the page shows\none"),
            (page_of("ls no_such_file\n"), "No such file"),
            (page_of("mktemp -p . XXXXXX >&2\n"), "a second run makes other files"),
            (page_of("no_such_tool\n"), "status 127"),
        ):
            with self.subTest(text), self.assertRaises(Differs) as refused:
                self.run_text(text)
            self.assertIn(message, str(refused.exception))

    def test_finds_blocks_of_command_lines(self):
        text = "```sh\necho a\n```\n```c\nint a;\n```\n- x\n\n  ```\n  tools/report x\n  ```\n\n```\n1,read,0,empty\n```\n```\n./flashplay < a\n```\n"
        blocks = blocks_of("page.md", text)
        self.assertEqual([block.lines for block in blocks], ["echo a\n", "tools/report x\n", "./flashplay < a\n"])
        self.assertEqual([block.shown for block in blocks], [None, "1,read,0,empty\n", None])

    def test_answers_beside_a_trace(self):
        self.assertEqual(documents.answers_of("trace    answers\n0,read,0,  1,read,0,empty\n           end,0,0,0\n"), "1,read,0,empty\nend,0,0,0")

    def test_smaller_words_have_to_be_in_the_lines(self):
        block = Block("docs/RESPONSE.md", "mkdir -p out\ntools/sweep --blocks 128\n", None)
        with self.assertRaisesRegex(Differs, "'--blocks 256' isn't in its lines"):
            documents.lines_to_run(block)


class Pages(unittest.TestCase):
    def test_each_listed_block_is_in_its_page(self):
        blocks = documents.blocks_of_pages()
        for table in (documents.NOT_RUN, documents.SMALLER):
            for page, begin in table:
                with self.subTest(page, begin=begin):
                    self.assertEqual(sum(block.page == page and block.lines.startswith(begin) for block in blocks), 1)

    @needs("fio", "parallel", "matplotlib", "numpy")
    def test_each_block_runs_twice(self):
        pages = {}
        for block in documents.blocks_of_pages():
            if block.listed(documents.NOT_RUN) is None:
                pages.setdefault(block.page, []).append(block)
        self.assertLessEqual({"docs/RESPONSE.md", "docs/SIMULATING.md"}, set(pages))
        with concurrent.futures.ThreadPoolExecutor() as pool, tempfile.TemporaryDirectory() as folder:
            folders = {page: pathlib.Path(folder) / page.replace("/", "_") for page in pages}
            for path in folders.values():
                path.mkdir()
            runs = {page: pool.submit(documents.run_page, blocks, folders[page]) for page, blocks in pages.items()}
            for page, run in runs.items():
                with self.subTest(page):
                    run.result()
            self.check_response_page(pages["docs/RESPONSE.md"][0], folders["docs/RESPONSE.md"])

    def check_response_page(self, block, folder):
        """The page of the run names the lines that made it."""
        text = (folder / "out/response.html").read_text(encoding="utf-8")
        shown = html.unescape(re.search(r"<pre><code>(.*?)</code>", text, re.DOTALL)[1]).splitlines()
        self.assertEqual([line.split()[0] for line in shown], ["tools/trace", "./flashplay", "tools/report"])
        lines = documents.lines_to_run(block).splitlines()
        self.assertIn(shown[0], lines)
        self.assertIn(shown[2], [shlex.join(shlex.split(line)) for line in lines if line.startswith("tools/report")])
