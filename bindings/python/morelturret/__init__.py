"""A uniform grid over line segments: the cells that each line visits, the pairs of lines that may cross, the owner of a point, and snap rounding.

The work is done by a library whose every function is proved to meet its contract, on every input. This package hands NumPy arrays to it, without a copy
where they are float64 in one piece. What the library refuses is raised as `Refusal`, with its number and its value.

>>> import numpy as np
>>> from morelturret import Lines, build, crossings
>>> angle = np.linspace(0, 25, 200)
>>> lines = Lines.chain(290 + 12 * np.cos(angle), 36 + 0.2 * angle + 3 * np.sin(angle + 0.4))
>>> tables = build(lines, sizing="axes")
>>> tables.cells.lengths.shape == (tables.grid.rows, tables.grid.cols)
True
>>> pairs = sum(len(first) for first, second in tables.pairs())
>>> len(crossings(lines, sizing="axes")) <= pairs
True
"""
from . import _library  # first of all: it says what is missing
from ._declared import VERSION as __version__
from .cleaning import REASONS, clean
from .counts import add, count
from .crossings import Crossings, crossings
from .grid import DEFAULT_WALK, OUTSIDE, SEAM, SIZINGS, WALKS, Grid, snap, strategies_agree
from .lines import Lines
from .page import page
from .parts import Parts
from .picture import picture
from .refusal import Refusal
from .tables import Cells, Tables, build
from .wkb import read_wkb, write_wkb

__all__ = [
    "DEFAULT_WALK", "OUTSIDE", "REASONS", "SEAM", "SIZINGS", "WALKS", "Cells", "Crossings", "Grid", "Lines", "Parts", "Refusal", "Tables", "add", "build",
    "clean", "count", "crossings", "page", "picture", "read_wkb", "snap", "strategies_agree", "write_wkb",
]  # fmt: skip
