"""The page of a run, as headless Chromium shows it at three widths, in light and dark, and prints it: each picture is drawn, nothing
overlaps, nothing is cut off, nothing is fetched, and nothing logs an error."""

import html
import re
import subprocess
import unittest

from simulation import model
from tests.browser import COLOURS, DARK, LIGHT, Browser
from tests.packages import needs
from tests.tools import TOOLS, TOP, Run, make

DEVICE = {"luns": 2, "blocks": 16, "pages": 16, "words": 1, "sectors": 180, "endurance": 1000}
SECTIONS = ("amplification", "response", "over-time", "victims", "wear")


def schemes():
    """The colours of the page by light, by dark and on paper, by their names."""
    style = (TOOLS / "simulation/page.css").read_text()
    return [dict(re.findall(r"--(\w+): (#\w{6})", block)) for block in re.findall(r":root \{(.*?)\}", style, re.DOTALL)]


def in_digits(colour):
    """A colour as a style sheet writes it; `none` for no colour."""
    parts = re.fullmatch(r"rgb\((\d+), (\d+), (\d+)\)", colour)
    return "#" + "".join(f"{int(part):02x}" for part in parts.groups()) if parts else colour


def luminance(colour):
    """The relative luminance of WCAG 2."""
    parts = [int(colour[place : place + 2], 16) / 255 for place in (1, 3, 5)]
    return sum(weight * (part / 12.92 if part <= 0.03928 else ((part + 0.055) / 1.055) ** 2.4) for weight, part in zip((0.2126, 0.7152, 0.0722), parts))


def contrast(one, other):
    lighter, darker = sorted((luminance(one), luminance(other)), reverse=True)
    return (lighter + 0.05) / (darker + 0.05)


class Colours(unittest.TestCase):
    def test_contrast_in_light_dark_and_print(self):
        """WCAG 2 asks for a contrast of 4.5 for texts and of 3 for graphics."""
        self.assertEqual(len(schemes()), 3)
        for scheme in schemes():
            for name, least in (("ink", 4.5), ("link", 4.5), ("blue", 3), ("gold", 3), ("red", 3)):
                with self.subTest(name, scheme=scheme):
                    self.assertGreater(contrast(scheme[name], scheme["paper"]), least)
            self.assertGreater(contrast(scheme["ink"], scheme["soft"]), 4.5)


@needs("matplotlib", "numpy", "chromium")
class PageInBrowser(Browser):
    def page_of_a_run(self):
        arrivals, trace = self.folder / "arrivals", self.folder / "zipf.csv"
        words = ("zipf", "--sectors", "180", "--lines", "6000", "--reads", "30", "--trims", "2", "--fill", "--seed", "3")
        made = make(*words, "--rate", "500", "--arrivals", arrivals)
        played = model.Model(**DEVICE)
        answers = self.file("answers", "".join(played.play(made.bytes)).encode())
        wear, log = self.file("wear", played.wear().encode()), self.file("log", played.log().encode())
        files = ("--wear", wear, "--collections", log, "--arrivals", arrivals, "--trace", trace)
        device = [word for name, number in DEVICE.items() for word in (f"--{name}", number)]
        page = self.folder / "page.html"
        part = TOP / "examples/parts/dftl_large_block.toml"
        line = "tools/trace make zipf <fast> & \"quoted\""
        done = Run("report", answers, *files, *device, "--part", part, "--page", page, "--made-by", line)
        self.assertEqual((done.status, done.errors), (0, ""))
        return page.read_text(), line

    def check_colours(self, page, is_dark):
        """The page and its pictures have the colours of the scheme, and no others; each text stands out."""
        seen = self.found_in(page.replace("</body>", COLOURS), DARK if is_dark else LIGHT)
        scheme = schemes()[is_dark]
        self.assertEqual((seen["dark"], in_digits(seen["paper"]), in_digits(seen["ink"])), (is_dark, scheme["paper"], scheme["ink"]))
        self.assertEqual(len(seen["pictures"]), len(SECTIONS))
        for picture in seen["pictures"]:
            self.assertEqual([in_digits(colour) for colour in picture["texts"]], [scheme["ink"]])
            shapes = {in_digits(colour) for colour in picture["shapes"]} - {"none"}
            self.assertEqual(shapes - set(scheme.values()), set())
            self.assertTrue(shapes & {scheme["blue"], scheme["gold"], scheme["red"]})

    def check_paper(self, page):
        """The page as it is printed where dark is preferred: dark on white, with nothing beyond the margins, and each picture beside its head."""
        from matplotlib import pyplot

        printed = self.folder / "printed.pdf"
        self.browse(page, DARK, "--no-pdf-header-footer", f"--print-to-pdf={printed}")
        text = subprocess.run(["pdftotext", "-layout", printed, "-"], capture_output=True, text=True, check=True).stdout
        sheets = [" ".join(sheet.split()) for sheet in text.split("\f")[:-1]]
        whole = " ".join(sheets)
        for cell in re.findall(r"<t[hd][^>]*>([^<]+)</t[hd]>", page):
            self.assertIn(" ".join(html.unescape(cell).split()), whole)
        subprocess.run(["pdftoppm", "-r", "50", "-png", printed, self.folder / "sheet"], check=True)
        pixels = [pyplot.imread(path)[..., :3] for path in sorted(self.folder.glob("sheet-*.png"))]
        self.assertEqual(len(pixels), len(sheets))
        blue = [int(schemes()[2]["blue"][place : place + 2], 16) / 255 for place in (1, 3, 5)]
        for head, caption in re.findall(r"<h2>([^<]+)</h2>\n?<figure>.*?<figcaption>(\S+ \S+ \S+)", page, re.DOTALL):
            beside = [sheet for sheet, text in enumerate(sheets) if head in text and caption in text]
            self.assertTrue(beside, head)
            self.assertTrue(any((abs(pixels[sheet] - blue).max(axis=2) < 0.1).sum() > 20 for sheet in beside), head)
        for sheet in pixels:
            edges = (sheet[:10], sheet[-10:], sheet[:, :10], sheet[:, -10:])
            self.assertTrue(all((edge == 1).all() for edge in edges))
            self.assertGreater((sheet.min(axis=2) > 0.9).mean(), 0.5)

    def test_three_widths_without_overlaps(self):
        page, _ = self.page_of_a_run()
        for scheme in (LIGHT, DARK):
            self.check_widths(page, len(SECTIONS), scheme)

    def test_light_and_dark_colours(self):
        page, _ = self.page_of_a_run()
        for is_dark in (False, True):
            with self.subTest(is_dark=is_dark):
                self.check_colours(page, is_dark)
        for wrong in (page.replace("var(--gold)", "#966f00"), page.replace("(prefers-color-scheme: dark)", "(prefers-color-scheme: no)")):
            with self.assertRaises(AssertionError):
                self.check_colours(wrong, True)

    @needs("pdftotext")
    def test_print_is_complete_and_dark_on_white(self):
        page, _ = self.page_of_a_run()
        self.check_paper(page)
        wrong = ("main { width: 90rem !important; max-width: none !important }", "section { background: #16181b }", "figcaption { break-before: page }")
        for style in (*wrong, "table { display: none }", "details::details-content { display: none }"):
            with self.subTest(style), self.assertRaises(AssertionError):
                self.check_paper(page.replace("</style>", f"@media print {{ {style} }}</style>"))

    def test_check_finds_errors_and_overlaps(self):
        """The look itself: an error, a picture that isn't drawn, texts over each other and a name that occurs twice."""
        broken = '<svg viewBox="0 0 300 300" width="300"><text x="9" y="30">one</text><text x="12" y="32">two</text></svg>'
        body = f'<h1 id="a">A</h1><p id="a" style="width:2000px;margin-top:-2em">B</p><figure>{broken}</figure><script>throw new Error("x")</script>'
        page = f"<!DOCTYPE html><html><body>{body}</body></html>"
        with self.assertRaises(AssertionError):
            self.look_at(page)
        for seen in self.look_at(page.replace('throw new Error("x")', "")):
            self.assertEqual((seen["twice"], seen["pictures"][0]["drawn"], seen["wide"]), (["a"], 0, True))
            self.assertEqual(sorted(seen["overlaps"]), ["A / B", "H1 / P", "one / two"])

    def test_page_is_self_contained_and_names_its_run(self):
        page, line = self.page_of_a_run()
        self.assertEqual(re.findall(r'(?:src|href)="(?!#|data:,)[^"]*"|url\((?!#)[^)]*\)|@import|<script', page), [])
        self.assertIn(html.escape(line), page)
        device = "--luns 2 --blocks 16 --pages 16 --words 1 --sectors 180 --endurance 1000"
        self.assertIn(f"./flashplay {device} --wear {self.folder}/wear --collections {self.folder}/log &lt; ", page)
        self.assertIn("2 LUNs, 16 blocks of 16 pages, 180 sectors (70.3 %) · zipf.csv", page)
        for section in SECTIONS:
            names = f'<title id="{section}-title">[^<]+</title><desc id="{section}-text">[^<]+</desc>'
            self.assertRegex(page, f'<svg[^>]* role="img" aria-labelledby="{section}-title {section}-text">{names}')
            self.assertIn(f'<details><summary>The numbers</summary><div class="scrolled"><table id="{section}-table">', page)
        figures = re.findall(r"<strong>([^<]+)</strong><span>([^<]+)</span>", page)
        names = ["write amplification", "p99.9 latency of writes", "of the endurance used by the worst block", "refused writes"]
        self.assertEqual([name for _, name in figures], names)

    def test_pictures_of_docs_are_dark_in_the_dark(self):
        """Each picture that a page of docs shows has both schemes, and is drawn with them."""
        for path in sorted((TOP / "docs").glob("*.svg")):
            picture = path.read_text(encoding="utf-8")
            with self.subTest(path.name):
                self.assertEqual(picture.count("prefers-color-scheme: dark"), 1)
                for scheme, paper in ((LIGHT, "#ffffff"), (DARK, "#16181b")):
                    drawn = picture[picture.index("<svg") :]
                    seen = self.found_in(f"<!DOCTYPE html><html><body><figure>{drawn}</figure>{COLOURS}</html>", scheme)
                    self.assertIn(paper, [in_digits(colour) for colour in seen["pictures"][0]["shapes"]])

    def test_page_without_log_has_only_totals(self):
        page = self.folder / "page.html"
        self.assertEqual(Run("report", TOP / "examples/collection.out", "--page", page).status, 0)
        self.assertNotIn("<svg", page.read_text())
        self.assertIn("1.200 (5 pages written, 1 copied)", page.read_text())
