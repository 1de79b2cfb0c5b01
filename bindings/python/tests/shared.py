"""What several tests use: the examples of the repository, and shares of points by fractions over all pairs."""
import itertools
import pathlib
import random
from fractions import Fraction

import numpy as np

from morelturret import Lines

TOP = pathlib.Path(__file__).resolve().parents[3]
EXAMPLES = TOP / "examples"


def share_a_point(p, q):
    """Whether two closed segments (start x, start y, end x, end y) share a point, by fractions: all turns are taken, nothing is rounded."""
    p, q = [Fraction(v) for v in p], [Fraction(v) for v in q]
    for k in (0, 1):
        if max(p[k], p[k + 2]) < min(q[k], q[k + 2]) or max(q[k], q[k + 2]) < min(p[k], p[k + 2]):
            return False

    def turn(a, c):
        return (a[2] - a[0]) * (c[1] - a[1]) - (a[3] - a[1]) * (c[0] - a[0])

    return turn(p, q[:2]) * turn(p, q[2:]) <= 0 and turn(q, p[:2]) * turn(q, p[2:]) <= 0


def meeting(lines):
    """All pairs of lines that share a point."""
    rows = list(zip(*(values.tolist() for values in lines.slices)))
    return {(i, j) for i, j in itertools.combinations(range(len(rows)), 2) if share_a_point(rows[i], rows[j])}


def lattice(seed, lines, side, chain=False):
    """Lines on a small lattice: many touch, overlap, repeat, or are single points."""
    draw = random.Random(seed)
    x, y = ([draw.randint(0, side) * 0.1 for _ in range(2 * lines)] for _ in range(2))
    return Lines.chain(x[: lines + 1], y[: lines + 1]) if chain else Lines(x[::2], y[::2], x[1::2], y[1::2])


def loops(legs, orbits, seed=1):
    """A chain of loops that drift."""
    draw = np.random.default_rng(seed)
    at = np.arange(legs * orbits + 1) / legs
    x = 290 + 12 * np.cos(at * 2 * np.pi) + draw.normal(0, 0.01, len(at))
    return Lines.chain(np.round(x, 3), np.round(36 + 3 * np.sin(at * 2 * np.pi + 0.4) + 0.05 * at, 4))


def pair_set(pairs):
    """Pairs that come as arrays, as a set, and how many there were."""
    listed = [(int(a), int(b)) for first, second in pairs for a, b in zip(first, second)]
    return set(listed), len(listed)
