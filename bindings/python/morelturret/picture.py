"""Pictures as SVG: the grid with its cells shaded by the lengths of their lists, the chain coloured by time, global lines, and crossings.

Up to 2,400 lines each is drawn; of more, a dozen stretches, and what is dense shows by the cells. Up to 1,200 crossings each is a dot; of more, dots grow
with how many are near. Times go from dark blue to orange and lists from white to grey, so that the lightness of a colour tells as much as the colour.
Blocks of 16 by 16 cells that list nothing are greyed out by strokes."""
import html
import pathlib

import numpy as np

from .scale import Scale

WIDTH, HEIGHT = 960, 600
TOP, BOTTOM, RIGHT = 46, 66, 190  # room for the title, for the axis below, for the key
TIMES = ("#0d0887", "#41049d", "#6a00a8", "#8f0da4", "#b12a90", "#cc4778", "#e16462", "#f2844b", "#fca636")
SHADES = ("#f0f0f0", "#e0e0e0", "#cfcfcf", "#bdbdbd", "#a9a9a9", "#949494")
EMPTY = "#d4d4d4"
MOST_LINES, STRETCHES = 2400, 12
MOST_DOTS, LARGEST_DOT = 1200, 9.0
LEAST_BLOCK, NEAR = 3.0, 26  # pixels: cells that are smaller are shaded together; crossings that are nearer make one dot
LABELS = ("kelvin", "parts per billion")


class Picture:
    """An SVG picture: `str` has its text, `save` writes it, and a notebook shows it."""

    def __init__(self, svg):
        self.svg = svg

    def __str__(self):
        return self.svg

    def __repr__(self):
        return f"Picture({WIDTH} by {HEIGHT})"

    def _repr_svg_(self):
        return self.svg

    def save(self, path):
        pathlib.Path(path).write_text(self.svg)


def picture(lines, tables=None, found=None, labels=LABELS, title=""):
    """The picture of lines; with the cells and global lines of their tables, and the crossings that were found, where these are given.

    >>> from morelturret import Lines, build
    >>> str(build(Lines.chain([0, 2, 2, 0, 0], [0, 0, 2, 2, 0])).picture())[:4]
    '<svg'
    """
    return Picture(Drawing(lines, tables, found).svg(labels, title))


class Drawing:
    """What one picture is made of; each method makes the elements of one layer."""

    def __init__(self, lines, tables, found):
        self.lines, self.tables, self.found = lines, tables, found
        # the grid reaches beyond the lines by a part of a cell
        edges = tables.grid.edges() if tables and len(lines) else ([], [])
        across, up = (np.concatenate(some) for some in ((lines.start_x, lines.end_x, edges[0]), (lines.start_y, lines.end_y, edges[1])))
        low_x, high_x, low_y, high_y = (across.min(), across.max(), up.min(), up.max()) if len(lines) else (0.0, 1.0, 0.0, 1.0)
        self.y = Scale(low_y, high_y, HEIGHT - BOTTOM, TOP)
        left = 40 + 7 * max([len(text) for _, text in self.y.ticks(8)] or [1])
        self.x = Scale(low_x, high_x, left, WIDTH - RIGHT)
        self.longest = int(tables.cells.lengths.max()) if tables and len(tables.items) else 0
        self.hollow = tables.blocks == 0 if self.longest else np.zeros((0, 0), bool)
        # the mean list of shade k is above reach[k - 1] and at most reach[k]: by a factor from one to the next, since few lists are long
        self.shades = SHADES[: self.longest]
        self.reach = [round(self.longest ** (k / len(self.shades))) for k in range(1, len(self.shades) + 1)]

    def svg(self, labels, title):
        layers = self.empty(), self.cells(), self.chain(), self.globals(), self.crossings(), self.axes(labels), self.key(), self.words(title)
        size = f'width="{WIDTH}" height="{HEIGHT}" viewBox="0 0 {WIDTH} {HEIGHT}"'
        style = 'font-family="sans-serif" font-size="12" fill="#222"'
        body = "\n".join(element for layer in layers for element in layer)
        return f'<svg xmlns="http://www.w3.org/2000/svg" {size} {style}>\n<rect width="{WIDTH}" height="{HEIGHT}" fill="#fff"/>\n{body}\n</svg>\n'

    def empty(self):
        """What is empty, greyed out: the blocks that no list has an entry in, where there is more than one block."""
        if not self.hollow.any():
            return
        grid = self.tables.grid
        x_edges, y_edges = (scale(edges) for scale, edges in zip((self.x, self.y), grid.edges()))
        x_edges, y_edges = x_edges[np.append(np.arange(0, grid.cols, 16), grid.cols)], y_edges[np.append(np.arange(0, grid.rows, 16), grid.rows)]
        path = [f"M{x_edges[column]:.1f} {y_edges[row]:.1f}H{x_edges[end]:.1f}V{y_edges[row + 1]:.1f}H{x_edges[column]:.1f}z" for row, column, end in runs(self.hollow)]
        yield f'<pattern id="empty" width="6" height="6" patternUnits="userSpaceOnUse" patternTransform="rotate(45)"><path stroke="{EMPTY}" d="M3 0V6"/></pattern>'
        yield f'<path fill="url(#empty)" d="{"".join(path)}"/>'

    def cells(self):
        """The cells that list some line, shaded by how many; where cells are small, blocks of them, shaded by their mean."""
        if not self.longest:
            return
        grid, lengths = self.tables.grid, self.tables.cells.lengths
        x_edges, y_edges = (scale(edges) for scale, edges in zip((self.x, self.y), grid.edges()))
        across, up = (max(1, int(np.ceil(LEAST_BLOCK / abs(edges[1] - edges[0])))) for edges in (x_edges, y_edges))
        columns, rows = np.arange(0, grid.cols, across), np.arange(0, grid.rows, up)
        mean = np.add.reduceat(np.add.reduceat(lengths, rows, axis=0), columns, axis=1) / (across * up)
        level = np.where(mean > 0, 1 + np.searchsorted(self.reach[:-1], mean), 0)
        x_edges, y_edges = x_edges[np.append(columns, grid.cols)], y_edges[np.append(rows, grid.rows)]
        for shade, colour in enumerate(self.shades, 1):
            path = []
            for row, column, end in runs(level == shade):
                path.append(f"M{x_edges[column]:.1f} {y_edges[row]:.1f}H{x_edges[end]:.1f}V{y_edges[row + 1]:.1f}H{x_edges[column]:.1f}z")
            if path:
                yield f'<path fill="{colour}" d="{"".join(path)}"/>'
        if across == up == 1 and min(abs(x_edges[1] - x_edges[0]), abs(y_edges[1] - y_edges[0])) >= 7:
            upright = "".join(f"M{x:.1f} {y_edges[0]:.1f}V{y_edges[-1]:.1f}" for x in x_edges)
            flat = "".join(f"M{x_edges[0]:.1f} {y:.1f}H{x_edges[-1]:.1f}" for y in y_edges)
            yield f'<path fill="none" stroke="#fff" stroke-width="0.8" d="{upright}{flat}"/>'

    def chain(self):
        """The lines, coloured by their number; of many, a dozen stretches."""
        lines, many = self.lines, len(self.lines)
        self.stretch = many if many <= MOST_LINES else MOST_LINES // (2 * STRETCHES)
        starts = [0] if many <= MOST_LINES else [(many - self.stretch) * k // (STRETCHES - 1) for k in range(STRETCHES)]
        drawn = np.concatenate([np.arange(start, start + self.stretch) for start in starts])
        colours = drawn * len(TIMES) // max(many, 1)
        x0, y0, x1, y1 = self.x(lines.start_x), self.y(lines.start_y), self.x(lines.end_x), self.y(lines.end_y)
        for colour in np.unique(colours):
            path, last = [], None
            for i in drawn[colours == colour].tolist():
                begin = "" if last == i - 1 and lines.follows[i] else f"M{x0[i]:.1f} {y0[i]:.1f}"
                path.append(f"{begin}L{x1[i]:.1f} {y1[i]:.1f}")
                last = i
            yield f'<path fill="none" stroke="{TIMES[colour]}" stroke-width="1.3" stroke-linejoin="round" stroke-linecap="round" d="{"".join(path)}"/>'

    def globals(self):
        """The global lines, dashed, a hundred at most."""
        for i in self.tables.globals[:100].tolist() if self.tables else ():
            x0, y0, x1, y1 = self.x(self.lines.start_x[i]), self.y(self.lines.start_y[i]), self.x(self.lines.end_x[i]), self.y(self.lines.end_y[i])
            yield f'<path fill="none" stroke="#000" stroke-width="1.6" stroke-dasharray="7 4" d="M{x0:.1f} {y0:.1f}L{x1:.1f} {y1:.1f}"/>'

    def crossings(self):
        """The crossings as dots; of many, a dot for each group that is near, its area by their number."""
        self.most = 0
        if self.found is None or not len(self.found):
            return
        x, y = self.found.points()
        x, y = self.x(x), self.y(y)
        radius = np.full(len(x), 2.6)
        if len(x) > MOST_DOTS:
            group = (x // NEAR).astype(np.int64) * 1000 + (y // NEAR).astype(np.int64)
            _, of, count = np.unique(group, return_inverse=True, return_counts=True)
            x, y = np.bincount(of, x) / count, np.bincount(of, y) / count
            self.most = int(count.max())
            radius = np.maximum(LARGEST_DOT * np.sqrt(count / self.most), 0.8)
        yield '<g fill="#fff" fill-opacity="0.85" stroke="#000" stroke-width="0.9">'
        yield "".join(f'<circle cx="{a:.1f}" cy="{b:.1f}" r="{r:.1f}"/>' for a, b, r in zip(x, y, radius))
        yield "</g>"

    def axes(self, labels):
        left, right, bottom, top = self.x.start, self.x.stop, self.y.start, self.y.stop
        yield f'<path fill="none" stroke="#222" d="M{left} {top}V{bottom}H{right}"/>'
        for value, text in self.x.ticks(8):
            yield f'<path stroke="#222" d="M{self.x(value):.1f} {bottom}v5"/><text x="{self.x(value):.1f}" y="{bottom + 19}" text-anchor="middle">{text}</text>'
        for value, text in self.y.ticks(8):
            yield f'<path stroke="#222" d="M{left} {self.y(value):.1f}h-5"/><text x="{left - 8}" y="{self.y(value) + 4:.1f}" text-anchor="end">{text}</text>'
        across, up = (html.escape(label) for label in labels)
        yield f'<text x="{(left + right) / 2:.1f}" y="{bottom + 39}" text-anchor="middle">{across}</text>'
        yield f'<text transform="translate(16 {(top + bottom) / 2:.1f}) rotate(-90)" text-anchor="middle">{up}</text>'

    def key(self):
        """What colours, shades, dots and dashes stand for."""
        x, y, bar = WIDTH - RIGHT + 24, TOP + 12, 132

        def scale(colours, low, middle, high):
            width = bar / len(colours)
            for k, colour in enumerate(colours):
                yield f'<rect x="{x + k * width:.1f}" y="{y + 8}" width="{width + 0.3:.1f}" height="10" fill="{colour}"/>'
            yield f'<text x="{x}" y="{y + 33}">{low}</text><text x="{x + bar}" y="{y + 33}" text-anchor="end">{high}</text>'
            if middle:
                yield f'<text x="{x + bar / 2:.1f}" y="{y + 33}" text-anchor="middle">{middle}</text>'

        if len(self.lines):
            yield f'<text x="{x}" y="{y}">time, by line</text>'
            yield from scale(TIMES, "0", "", f"{len(self.lines) - 1:,}")
            if self.stretch < len(self.lines):
                yield f'<text x="{x}" y="{y + 50}">{STRETCHES} stretches of {self.stretch}</text>'
                y += 18
            y += 66
        if self.longest:
            yield f'<text x="{x}" y="{y}">lines in a cell</text>'
            middle = f"{self.reach[2]:,}" if len(self.shades) == len(SHADES) else ""
            yield from scale(self.shades, "1", middle, f"{self.longest:,}")
            y += 66
        if self.hollow.any():
            yield f'<rect x="{x}" y="{y - 10}" width="20" height="12" fill="url(#empty)"/><text x="{x + 26}" y="{y}">nothing listed</text>'
            y += 30
        if self.found is not None and len(self.found):
            yield f'<circle cx="{x + 9}" cy="{y - 4}" r="{LARGEST_DOT if self.most else 2.6}" fill="#fff" stroke="#000" stroke-width="0.9"/>'
            yield f'<text x="{x + 26}" y="{y}">{f"{self.most:,} crossings" if self.most else "crossing"}</text>'
            y += 30
        if self.tables and len(self.tables.globals):
            yield f'<path stroke="#000" stroke-width="1.6" stroke-dasharray="7 4" d="M{x} {y - 4}h20"/><text x="{x + 26}" y="{y}">global line</text>'

    def words(self, title):
        many = lambda number, what: f"{number:,} {what}{'' if number == 1 else 's'}"
        said = [many(len(self.lines), "line")]
        if self.tables:
            grid = self.tables.grid
            said += [f"{grid.cols:,} by {grid.rows:,} cells of {grid.cell_width:.4g} by {grid.cell_height:.4g}", many(len(self.tables.items), "item")]
        if self.found is not None:
            said += [many(len(self.found), "crossing")]
        yield f'<text x="{self.x.start:.1f}" y="26" font-size="15">{html.escape(title)}</text>'
        yield f'<text x="{self.x.start:.1f}" y="{HEIGHT - 8}" fill="#555">{"; ".join(said)}</text>'


def runs(marked):
    """The runs of marked entries in each row, as (row, first column, column after the last)."""
    edge = np.diff(np.pad(marked.astype(np.int8), ((0, 0), (1, 1))), axis=1)
    rows, starts = np.nonzero(edge == 1)
    return zip(rows.tolist(), starts.tolist(), np.nonzero(edge == -1)[1].tolist())
