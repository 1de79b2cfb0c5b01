"""A page for looking at a year: one file of HTML with everything in it, the lines, the lists of the cells and the crossings, and no network.

`page.html` has its frame, `page.js` what it does. The arrays go in as bytes, compressed, in base64."""
import base64
import html
import json
import pathlib
import re
import zlib

import numpy as np

from .picture import LABELS, SHADES, TIMES

FOLDER = pathlib.Path(__file__).resolve().parent
MOST_CROSSINGS = 1_000_000  # of more, so many go into the page, evenly drawn; the page says so


class Page:
    """A page: `str` has its text, `save` writes it."""

    def __init__(self, text):
        self.text = text

    def __str__(self):
        return self.text

    def save(self, path):
        pathlib.Path(path).write_text(self.text)


def page(lines, tables=None, found=None, labels=LABELS, title=""):
    """The page of lines; with the cells of their tables, and the crossings that were found, where these are given."""
    arrays = {"start_x": lines.start_x, "start_y": lines.start_y, "end_x": lines.end_x, "end_y": lines.end_y, "follows": lines.follows.astype(np.uint8)}
    about = {"title": title, "labels": list(labels), "lines": len(lines), "times": TIMES, "shades": SHADES, "found": 0 if found is None else len(found)}
    if tables:
        grid = tables.grid
        about["grid"] = {"min_x": grid.min_x, "min_y": grid.min_y, "width": grid.cell_width, "height": grid.cell_height, "cols": grid.cols, "rows": grid.rows}
        arrays |= {"offsets": tables.offsets, "items": tables.items, "globals": tables.globals}
    if found is not None:
        taken = np.linspace(0, len(found) - 1, MOST_CROSSINGS).astype(int) if len(found) > MOST_CROSSINGS else np.arange(len(found))
        x, y = found.points(taken)
        arrays |= {"first": found.first[taken].astype(np.uint32), "second": found.second[taken].astype(np.uint32)}
        arrays |= {"cross_x": x, "cross_y": y, "kind": found.kind[taken].astype(np.uint8)}
    about["arrays"] = [[name, str(values.dtype)] for name, values in arrays.items()]
    data = "\n".join(f'<script type="text/plain" id="array-{name}">{packed(values)}</script>' for name, values in arrays.items())
    # what the page is told goes in as JSON; no "<" of it may end its element
    parts = {"title": html.escape(title or "Morelturret"), "about": json.dumps(about).replace("<", "\\u003c"), "data": data}
    parts["script"] = (FOLDER / "page.js").read_text()
    return Page(re.sub(r"\{\{(\w+)\}\}", lambda mark: parts[mark[1]], (FOLDER / "page.html").read_text()))


def packed(values):
    """An array's bytes, little-endian, compressed, in base64."""
    values = np.ascontiguousarray(values)
    return base64.b64encode(zlib.compress(values.astype(values.dtype.newbyteorder("<")).tobytes(), 6)).decode()
