"""The grid record, whose a point is, the walk of one segment, and snapping."""
from typing import NamedTuple

import numpy as np

from ._declared import CONSTANTS
from ._library import answer, floats, from_bits, whole

SIZINGS = {"square": CONSTANTS["MT_SQUARE"], "axes": CONSTANTS["MT_AXES"]}
WALKS = {"rust": CONSTANTS["MT_RUST"], "sided": CONSTANTS["MT_SIDED"], "covering": CONSTANTS["MT_COVERING"]}
# In this package nobody compares with the Rust: the walk by which no two lines that share a point are lost.
DEFAULT_WALK = "covering"

# Among the answers of `owner`: a point in a seam between cells, which nobody owns, and one outside the grid.
SEAM, OUTSIDE = CONSTANTS["MT_SEAM_NUMBER"], CONSTANTS["MT_OUTSIDE_NUMBER"]

SCRATCH = 16_384  # entries that a walk needs
GRID_WORDS = 6  # words that a grid is passed by


def chosen(kind, name, among):
    """The number of a sizing or of a walk."""
    if name not in among:
        raise ValueError(f"{kind} is one of {', '.join(among)}: {name!r}")
    return among[name]


class Grid(NamedTuple):
    """A uniform grid: its lower corner, the size of its cells, its columns and rows. A cell's number is row * cols + column."""

    min_x: float
    min_y: float
    cell_width: float
    cell_height: float
    cols: int
    rows: int

    @classmethod
    def from_words(cls, words):
        """The grid of the words that a build answers."""
        return cls(*(from_bits(word) for word in words[:4]), *words[4:GRID_WORDS])

    @classmethod
    def agreed(cls, start, end, lines, sizing="square"):
        """The grid that benches agree on: the first that a build of so many lines, any number, within these two corners would try."""
        return cls.from_words(answer("mt_agreed_grid", *start, *end, lines, chosen("sizing", sizing, SIZINGS)))

    @property
    def words(self):
        """The words that a grid is passed by."""
        return np.concatenate([np.array(self[:4], np.float64).view(np.uint64), np.array(self[4:], np.uint64)])

    def owner(self, x, y):
        """Whose each point is: the number of its cell, SEAM or OUTSIDE.

        >>> from morelturret import Grid
        >>> Grid(0, 0, 1, 1, 4, 4).owner([1, 4, 5], [0.5, 4, 5])
        array([         1,         15, 4294967295], dtype=uint32)
        """
        x, y = floats(x), floats(y)
        answers = np.empty(len(x), np.uint32)
        answer("mt_owners", self.words, x, y, answers)
        return answers

    def cells_of(self, start, end, walk=DEFAULT_WALK):
        """The numbers of the cells that the segment from start to end visits, increasing. The covering walk refuses by 16 an end that is off the grid.

        >>> Grid(0, 0, 1, 1, 4, 4).cells_of((0.5, 0.5), (2.5, 0.5), walk="rust")
        array([0, 1, 2], dtype=uint32)
        """
        scratch = np.empty(SCRATCH, np.uint32)
        count, *_ = answer("mt_segment_cells", self.words, *start, *end, chosen("walk", walk, WALKS), scratch)
        return scratch[:count].copy()

    def edges(self):
        """The low edges of the columns and rows, and the high edge of the last."""
        return self.min_x + np.arange(self.cols + 1) * self.cell_width, self.min_y + np.arange(self.rows + 1) * self.cell_height


def snap(x, y, size):
    """A point snapped to multiples of `size`, halves away from zero.

    >>> from morelturret import snap
    >>> snap(-2.5, 0.4, 1)
    (-3.0, 0.0)
    """
    x, y, *_ = answer("mt_snap", x, y, size, CONSTANTS["MT_GRID"])
    return from_bits(x), from_bits(y)


def strategies_agree(v, size):
    """Whether GeosCompat, a strategy of snapping that is gone, gave the coordinate v the same bits at this size.

    >>> from morelturret import strategies_agree
    >>> strategies_agree(0.49999999999999994, 1), strategies_agree(-2.5, 1)
    (False, True)
    """
    return bool(answer("mt_strategies_agree", v, size)[0])
