"""Counting on several benches: each counts its own lines on one agreed grid and in one walk, then the count tables are added."""
import numpy as np

from ._library import answer
from .grid import DEFAULT_WALK, SCRATCH, WALKS, chosen


def count(lines, grid, walk=DEFAULT_WALK):
    """How many of the lines visit each cell of a grid, by the number of the cell; and how many lines are global, which are counted in no cell.

    >>> from morelturret import Grid, Lines, add, count
    >>> grid = Grid.agreed((0, 0), (4, 4), lines=4)
    >>> counts, globals_ = count(Lines.chain([0.5, 3.5], [0.5, 0.5]), grid, walk="rust")
    >>> counts, globals_
    (array([1, 1, 0, 0, 0, 0, 0, 0, 0], dtype=uint32), 0)
    >>> other, _ = count(Lines.chain([0.5, 0.5], [0.5, 3.5]), grid, walk="rust")
    >>> add(counts, other)
    >>> counts
    array([2, 1, 0, 1, 0, 0, 0, 0, 0], dtype=uint32)
    """
    counts, scratch = np.empty(grid.cols * grid.rows + 1, np.uint32), np.empty(SCRATCH, np.uint32)
    _, globals_, *_ = answer("mt_count", *lines.slices, grid.words, chosen("walk", walk, WALKS), counts, scratch)
    return counts[:-1].copy(), globals_


def add(into, counts):
    """Adds a count table into another of the same length. An entry's sum above 65,536 is refused by 13, and then nothing is added."""
    answer("mt_add", into, counts)
