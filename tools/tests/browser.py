"""Pages in headless Chromium: what a script finds in a page at several widths, and that nothing is an error."""

import html
import json
import re
import subprocess

from tests.test_report import InFolder

WIDTHS = (400, 800, 1400)
# Loads the page in frames of several widths, looks at each, and writes what is found into the document.
LOOK = """
<!DOCTYPE html><html><body><pre id="found"></pre><script>
const page = PAGE;
const found = [];
const inside = (a, b) => a.left < b.right - 1 && b.left < a.right - 1 && a.top < b.bottom - 1 && b.top < a.bottom - 1;
function look(width, frame, open) {
  const doc = frame.contentDocument, view = frame.contentWindow;
  doc.querySelectorAll("details").forEach(e => e.open = open);
  const seen = {width, open, errors: frame.errors, pictures: [], overlaps: [], cut: []};
  seen.fetched = view.performance.getEntriesByType("resource").map(e => e.name);
  seen.wide = doc.documentElement.scrollWidth > width;
  seen.links = [...doc.querySelectorAll('a[href^="#"]')].filter(a => !doc.getElementById(a.getAttribute("href").slice(1))).length;
  const ids = [...doc.querySelectorAll("[id]")].map(e => e.id);
  seen.twice = ids.filter((id, i) => ids.indexOf(id) != i);
  for (const svg of doc.querySelectorAll("figure svg")) {
    const box = svg.getBoundingClientRect();
    const drawn = [...svg.querySelectorAll("path")].filter(p => { const b = p.getBoundingClientRect(); return b.width + b.height > 5; }).length;
    const texts = [...svg.querySelectorAll("text")].filter(t => t.textContent.trim());
    const smallest = Math.min(...texts.map(t => t.getBoundingClientRect().height));
    seen.pictures.push({width: box.width, height: box.height, drawn, texts: texts.length, smallest});
    const boxes = texts.map(t => [t.textContent, t.getBoundingClientRect()]);
    boxes.forEach(([name, a], i) => {
      if (a.left < box.left - 1 || a.right > box.right + 1 || a.top < box.top - 1 || a.bottom > box.bottom + 1) seen.cut.push(name);
      boxes.slice(i + 1).forEach(([other, b]) => { if (inside(a, b)) seen.overlaps.push(name + " / " + other); });
    });
  }
  const blocks = [...doc.querySelectorAll("h1, h2, p, pre, figure, .scrolled, summary, li")].filter(e =>
    e.checkVisibility() && !e.parentElement.closest("figure, .scrolled"));
  const texts = [...doc.querySelectorAll("h1, h2, p, pre, summary, strong, span, figcaption, caption, th, td")].filter(e => e.checkVisibility());
  for (const [list, name] of [[blocks, e => e.tagName], [texts, e => e.textContent.slice(0, 20)]]) {
    const all = list.map(e => [e, e.getBoundingClientRect()]);
    all.forEach(([a, box], i) => all.slice(i + 1).forEach(([b, other]) => {
      if (inside(box, other) && !a.contains(b)) seen.overlaps.push(name(a) + " / " + name(b));
    }));
  }
  const cells = texts.filter(e => !e.closest(".scrolled"));
  for (const e of cells) if (e.scrollWidth > e.clientWidth + 1 && e.clientWidth) seen.cut.push(e.textContent.slice(0, 20));
  for (const e of blocks) if (e.getBoundingClientRect().right > width + 1) seen.cut.push(e.tagName);
  found.push(seen);
}
async function all() {
  for (const width of WIDTHS) {
    const frame = document.createElement("iframe");
    frame.errors = [];
    frame.style = `width:${width}px;height:900px;border:0`;
    const loaded = new Promise(done => frame.onload = done);
    frame.srcdoc = page;
    document.body.append(frame);
    frame.contentWindow.onerror = text => frame.errors.push(String(text));
    await loaded;
    look(width, frame, false);
    look(width, frame, true);
  }
  document.getElementById("found").textContent = JSON.stringify(found);
}
all();
</script></body></html>
"""


# Writes into the document which scheme the browser prefers, and the colours that the page and its pictures have then.
COLOURS = """
<pre id="found"></pre><script>
const style = e => getComputedStyle(e), of = (list, name) => [...new Set([...list].map(e => style(e)[name]))];
const pictures = [...document.querySelectorAll("figure svg")].map(svg => {
  const shapes = [...svg.querySelectorAll("path, use")].filter(e => !e.closest("defs"));
  const filled = shapes.filter(e => e.tagName == "path" || e.style.fill);
  return {texts: of(svg.querySelectorAll("text"), "fill"), shapes: [...of(filled, "fill"), ...of(shapes, "stroke")]};
});
const dark = matchMedia("(prefers-color-scheme: dark)").matches;
const seen = {dark, paper: style(document.body).backgroundColor, ink: style(document.body).color, pictures};
document.getElementById("found").textContent = JSON.stringify(seen);
</script></body>
"""
LIGHT, DARK = "--blink-settings=preferredColorScheme=1", "--blink-settings=preferredColorScheme=0"


class Browser(InFolder):
    def browse(self, page, *words):
        """What Chromium writes of a page, which may log nothing."""
        file = self.file("look.html", page.encode())
        words = ["--headless", "--no-sandbox", "--disable-gpu", "--disable-dev-shm-usage", "--no-first-run", f"--user-data-dir={self.folder}/chromium", *words]
        words += ["--enable-logging=stderr", "--virtual-time-budget=20000", "--host-resolver-rules=MAP * ~NOTFOUND", f"file://{file}"]
        done = subprocess.run(["chromium", *words], capture_output=True, text=True, timeout=300)
        logged = [line for line in done.stderr.splitlines() if "CONSOLE" in line]
        self.assertEqual(logged, [])
        return done

    def found_in(self, page, *words):
        """What a script of the page has found."""
        done = self.browse(page, "--dump-dom", *words)
        found = re.search(r'<pre id="found">(.*?)</pre>', done.stdout, re.DOTALL)
        self.assertTrue(found and found[1], done.stderr)
        return json.loads(html.unescape(found[1]))

    def look_at(self, page, *words):
        return self.found_in(LOOK.replace("PAGE", json.dumps(page).replace("</", "<\\/")).replace("WIDTHS", json.dumps(WIDTHS)), *words)

    def check_widths(self, page, pictures, *words):
        """The page with its tables folded and open, at each width: nothing overlaps or is cut off, and nothing is an error."""
        found = self.look_at(page, *words)
        self.assertEqual([(seen["width"], seen["open"]) for seen in found], [(width, is_open) for width in WIDTHS for is_open in (False, True)])
        for seen in found:
            with self.subTest(width=seen["width"], open=seen["open"], words=words):
                self.assertEqual((seen["errors"], seen["fetched"], seen["overlaps"], seen["cut"], seen["twice"]), ([], [], [], [], []))
                self.assertEqual((seen["wide"], seen["links"], len(seen["pictures"])), (False, 0, pictures))
                for picture in seen["pictures"]:
                    self.assertGreater(min(picture["width"], picture["height"]), 250)
                    self.assertGreater(picture["drawn"], 3)
                    self.assertGreater(picture["texts"], 5)
                    self.assertGreater(picture["smallest"], 8)
