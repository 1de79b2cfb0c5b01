"""Every two lines that share a point, by a sweep in x and not by a grid: what a grid's pairs are held to.

Lines are taken in the order of their lower x. A line meets only lines of lower x up to its own higher x, and of these only where the extents in y overlap;
whether the two share a point is decided by `meeting`, exactly. For n lines of which each overlaps a share s in x that is s n^2 / 2 comparisons of floats."""
import numpy as np

from .meeting import APART, kinds_of
from .progress import silent

CHUNK = 1 << 20  # pairs that are decided together


def meeting_pairs(lines, progress=silent):
    """The pairs of lines that share a point, lower line first, in increasing order: two arrays.

    >>> from morelturret.sweep import meeting_pairs
    >>> meeting_pairs(Lines.chain([0, 2, 2, 0], [0, 2, 0, 2]))
    (array([0, 0, 1]), array([1, 2, 2]))
    """
    low_x, high_x = np.minimum(lines.start_x, lines.end_x), np.maximum(lines.start_x, lines.end_x)
    low_y, high_y = np.minimum(lines.start_y, lines.end_y), np.maximum(lines.start_y, lines.end_y)
    order = np.argsort(low_x, kind="stable")
    low_y, high_y = low_y[order], high_y[order]
    ends = np.searchsorted(low_x[order], high_x[order], side="right")
    found, waiting, many = [], [], 0
    for k, end in enumerate(ends.tolist()):
        near = np.flatnonzero((low_y[k + 1 : end] <= high_y[k]) & (high_y[k + 1 : end] >= low_y[k]))
        if len(near):
            waiting.append((np.full(len(near), order[k]), order[k + 1 + near]))
            many += len(near)
        if many >= CHUNK or (waiting and k + 1 == len(ends)):
            found.append(decided(lines, *(np.concatenate(some) for some in zip(*waiting))))
            waiting, many = [], 0
        if k % 64 == 0:
            progress(k / len(ends), "sweep")
    first, second = (np.concatenate(some) for some in zip(*found)) if found else (np.empty(0, np.int64),) * 2
    at = np.lexsort((second, first))
    return first[at], second[at]


def decided(lines, first, second):
    """Those of some pairs that share a point, lower line first."""
    first, second = np.minimum(first, second), np.maximum(first, second)
    meet = kinds_of(lines, first, second) != APART
    return first[meet], second[meet]
