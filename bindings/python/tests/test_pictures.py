"""Pictures and pages: README's picture is made again, labels keep clear of each other and of the edges, and a page does what it says in a browser."""
import pathlib
import re
import tempfile
import unittest
import xml.etree.ElementTree as ElementTree

import numpy as np

from morelturret import Lines, build, crossings
from morelturret.page import MOST_CROSSINGS, page
from morelturret.picture import HEIGHT, SHADES, TIMES, WIDTH, picture

from .browser import PATH, Browser
from .shared import EXAMPLES, TOP, loops
from .test_command import run

SVG = "{http://www.w3.org/2000/svg}"


def boxes(svg):
    """About where each text of a picture stands: left, top, right, bottom, and the text."""
    for text in ElementTree.fromstring(str(svg)).iter(f"{SVG}text"):
        size = float(text.get("font-size", 12))
        long = 0.62 * size * len(text.text or "")
        if turned := re.match(r"translate\((\S+) (\S+)\) rotate\(-90\)", text.get("transform", "")):
            x, y = map(float, turned.groups())
            yield x - size * 0.8, y - long / 2, x + size * 0.25, y + long / 2, text.text
        elif text.text:
            x, y = float(text.get("x")), float(text.get("y"))
            x -= {"start": 0, "middle": long / 2, "end": long}[text.get("text-anchor", "start")]
            yield x, y - size * 0.8, x + long, y + size * 0.25, text.text


def examples():
    yield "ten", Lines.chain([281, 290, 295, 283, 282, 294, 297, 281, 284, 290, 281], [36, 39, 36.5, 38, 36.2, 36.1, 39.9, 39.5, 37, 36, 39])
    yield "orbits", Lines.from_wkb((EXAMPLES / "orbits.wkb").read_bytes())
    yield "one point's worth", Lines.chain([281.5, 281.5], [36.25, 36.25])
    yield "none", Lines.chain([], [])
    yield "large numbers", Lines.chain([-1e9, 1e9, 1e9], [-999999999, 999999998, 0])
    yield "small numbers", Lines.chain([1e-8, 2e-8, 1.5e-8], [1e-7, 3e-7, 1e-7])
    yield "swings", Lines.from_wkb((EXAMPLES / "hold_and_swing.wkb").read_bytes())
    yield "many", loops(120, 60)


class Pictures(unittest.TestCase):
    def test_the_picture_of_the_documents_is_made_again(self):
        with tempfile.TemporaryDirectory() as folder:
            out = pathlib.Path(folder) / "orbits.svg"
            _, wrong, status = run("--sizing", "axes", "--walk", "rust", "--svg", out, EXAMPLES / "orbits.wkb")
            self.assertEqual((wrong, status), ("", 0))
            self.assertEqual(out.read_text(), (TOP / "docs" / "orbits.svg").read_text())

    def test_labels_keep_clear(self):
        for name, lines in examples():
            with self.subTest(name=name):
                tables, found = build(lines, "axes"), crossings(lines, "axes")
                stand = list(boxes(tables.picture(found, title=name, labels=("kelvin", "parts per billion"))))
                self.assertGreater(len(stand), 3)
                for left, top, right, bottom, text in stand:
                    self.assertTrue(0 <= left and right <= WIDTH and 0 <= top and bottom <= HEIGHT, text)
                for k, one in enumerate(stand):
                    for other in stand[:k]:
                        apart = one[0] >= other[2] or other[0] >= one[2] or one[1] >= other[3] or other[1] >= one[3]
                        self.assertTrue(apart, (one, other))

    def test_lightness_alone_tells_times_and_lists_apart(self):
        def light(colour):
            """The relative luminance of a colour: what is left of it for whoever sees no hue."""
            red, green, blue = ((int(colour[k : k + 2], 16) / 255) ** 2.2 for k in (1, 3, 5))
            return 0.2126 * red + 0.7152 * green + 0.0722 * blue

        times, shades = [light(colour) for colour in TIMES], [light(colour) for colour in SHADES]
        self.assertEqual((times, shades), (sorted(times), sorted(shades, reverse=True)))
        self.assertTrue(all(b > 1.1 * a for a, b in zip(times, times[1:])))
        self.assertTrue(all(a > 1.1 * b for a, b in zip(shades, shades[1:])))

    def test_large_pictures_stay_small(self):
        lines = loops(400, 160)
        svg = str(build(lines, "axes").picture(crossings(lines, "axes")))
        self.assertGreater(len(lines), 60_000)
        self.assertLess(len(svg), 400_000)
        self.assertLess(svg.count("<circle"), 1300)

    def test_without_tables(self):
        self.assertNotIn("cells", str(picture(Lines.chain([0, 1], [0, 1]))))
        self.assertIn("a &lt;b&gt; &amp; c", str(picture(Lines.chain([0, 1], [0, 1]), title="a <b> & c")))


class Pages(unittest.TestCase):
    def test_text(self):
        text = str(page(Lines.chain([0, 1], [0, 1]), title="</script><b>"))
        self.assertNotIn("</script><b>", text)
        self.assertNotRegex(text, r"https?://")
        self.assertNotIn("{{", re.sub(r"<script>.*", "", text, flags=re.S))

    def test_crossings_of_a_page_are_bounded(self):
        lines = Lines(np.zeros(1500), np.zeros(1500), np.ones(1500), np.ones(1500))
        found = crossings(lines)
        self.assertGreater(len(found), MOST_CROSSINGS)
        self.assertIn(f'"found": {len(found)}', str(page(lines, None, found)))

    @unittest.skipUnless(PATH, "there is no Chromium")
    def test_in_a_browser(self):
        lines = Lines.from_wkb((EXAMPLES / "orbits.wkb").read_bytes())
        tables, found = build(lines, "axes", "rust"), crossings(lines, "axes", "rust")
        x, y = found.points()
        with tempfile.TemporaryDirectory() as folder:
            path = pathlib.Path(folder) / "orbits.html"
            page(lines, tables, found, title="orbits").save(path)
            browser = Browser()
            try:
                browser.open(path)
                self.assertEqual(browser.value("element('said').textContent"), "223 lines; 15 by 15 cells; 40 crossings")
                self.at(browser, browser.click, x[5], y[5])
                said = browser.value("element('chosen').innerText")
                first, second = int(found.first[5]), int(found.second[5])
                self.assertRegex(said, rf"(?s)crossing at .*: cross.*line {first}: .*line {second}: .*the loop between them: {second - first + 1} legs")
                # the cell under the pointer, with its list
                row, column = divmod(int(tables.owner([x[5]], [y[5]])[0]), tables.grid.cols)
                listed = tables.cells[row, column]
                under = f"row {row}, column {column}: {len(listed)} lines\n\n{' '.join(map(str, listed))}"
                self.assertIn(under, browser.value("element('under').innerText"))
                # a line, with its cells
                middle = (lines.start_x[100] + lines.end_x[100]) / 2, (lines.start_y[100] + lines.end_y[100]) / 2
                self.at(browser, browser.click, *middle)
                cells = [f"({r}, {c})" for r, c, listed in tables.cells if 100 in listed]
                said = browser.value("element('chosen').innerText")
                self.assertTrue(said.startswith("line 100: ") and said.endswith(" ".join(cells)), said)
                # the wheel zooms about the pointer, the button goes back, and the slider leaves lines out
                self.at(browser, lambda a, b: browser.mouse("mouseWheel", a, b, deltaX=0, deltaY=-800), *middle)
                browser.drawn()
                self.assertLess(browser.value("(view.high_x - view.low_x) / (whole.high_x - whole.low_x)"), 0.4)
                browser.value("element('whole').click()")
                browser.value("element('to').value = 50; element('to').oninput()")
                browser.value("new Promise((done) => setTimeout(done, 60))")
                browser.drawn()
                self.assertEqual(browser.value("[element('to-said').textContent, lineAt(toX(data.end_x[100]), toY(data.end_y[100])) <= 50]"), ["50", True])
                self.assertGreater(browser.value("new Set(base.getContext('2d').getImageData(0, 0, base.width, base.height).data).size"), 50)
                self.assertEqual((browser.wrong, browser.value("element('trouble').textContent")), ([], ""))
                # several builds have no grid to show
                page(lines, None, found).save(path)
                browser.open(path)
                self.assertIn("no cells are shown", browser.value("element('said').textContent"))
                self.assertEqual((browser.wrong, browser.value("element('trouble').textContent")), ([], ""))
            finally:
                browser.close()

    def at(self, browser, act, x, y):
        """Does something at a place of the picture."""
        act(*browser.value(f"(() => {{ const box = over.getBoundingClientRect(); return [box.left + toX({x!r}), box.top + toY({y!r})]; }})()"))
