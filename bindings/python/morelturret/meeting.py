"""Whether two lines share a point, exactly, and how.

The sign of a turn is taken from floats where their error bound shows that it is right, and from fractions where it does not. So every answer is exact.
This module is plain Python, and nothing of it is proved."""
import numpy as np

APART, CROSS, TOUCH, OVERLAP = range(4)
KINDS = ("apart", "cross", "touch", "overlap")

UNIT = 2.0**-53
# The turn is a difference of two products of differences. With u the unit of rounding each product is within 3u + 3u^2 of it and their difference within
# u of itself, so the whole is within (3 + 16u)u times the sum of their magnitudes (Shewchuk 1997). Below the smallest normal number a product can lose
# more: by 1e-300 that is covered.
RELATIVE, ABSOLUTE = (3 + 16 * UNIT) * UNIT, 1e-300


def kinds_of(lines, first, second):
    """How the lines first[k] and second[k] meet, for each k: APART, CROSS (each strictly crosses the other), TOUCH (one point, an end of one of them), or
    OVERLAP (more than a point).

    >>> from morelturret import Lines
    >>> from morelturret.meeting import KINDS, kinds_of
    >>> lines = Lines([0, 0, 1, 0], [0, 2, 1, 0], [2, 2, 9, 1], [2, 0, 1, 1])
    >>> [KINDS[kind] for kind in kinds_of(lines, [0, 0, 0, 1], [1, 2, 3, 3])]
    ['cross', 'touch', 'overlap', 'touch']
    """
    a, b, c, d = ends_of(lines, first, second)
    kinds = np.zeros(len(first), np.uint8)
    # most pairs are apart, and most of these because one line lies on one side of the other: ask the rest alone
    at = np.flatnonzero(boxes_overlap(a, b, c, d))
    a, b, c, d = taken(at, a, b, c, d)
    c_side, d_side = turns(a, b, c), turns(a, b, d)
    near = np.flatnonzero(c_side * d_side <= 0)
    at, c_side, d_side = at[near], c_side[near], d_side[near]
    a, b, c, d = taken(near, a, b, c, d)
    a_side, b_side = turns(c, d, a), turns(c, d, b)
    meet = a_side * b_side <= 0
    crossing = (c_side * d_side < 0) & (a_side * b_side < 0)
    along = meet & (c_side == 0) & (d_side == 0) & (a_side == 0) & (b_side == 0)
    kinds[at[meet]] = TOUCH
    kinds[at[meet & crossing]] = CROSS
    # on one straight line: more than a point, if the boxes share more than a point
    shared = [np.minimum(np.maximum(a[k], b[k]), np.maximum(c[k], d[k])) > np.maximum(np.minimum(a[k], b[k]), np.minimum(c[k], d[k])) for k in (0, 1)]
    kinds[at[along & (shared[0] | shared[1])]] = OVERLAP
    return kinds


def points_of(lines, first, second, kind):
    """A point that lines which meet share, rounded: the crossing, or the end of one that lies on the other.

    >>> from morelturret import Lines
    >>> from morelturret.meeting import CROSS, points_of
    >>> points_of(Lines([0, 0], [0, 2], [2, 2], [2, 0]), [0], [1], np.array([CROSS]))
    (array([1.]), array([1.]))
    """
    a, b, c, d = ends_of(lines, first, second)
    from_c, from_d = cross(a, b, c), cross(a, b, d)
    with np.errstate(invalid="ignore", divide="ignore"):
        share = np.clip(np.nan_to_num(from_c / (from_c - from_d)), 0, 1)
    x, y = c[0] + share * (d[0] - c[0]), c[1] + share * (d[1] - c[1])
    ends = np.flatnonzero(kind != CROSS)
    a, b, c, d = taken(ends, a, b, c, d)
    for end, start, stop in ((b, c, d), (a, c, d), (d, a, b), (c, a, b)):
        at = np.flatnonzero(boxes_overlap(end, end, start, stop))
        at = at[turns(*taken(at, start, stop, end)) == 0]
        x[ends[at]], y[ends[at]] = end[0][at], end[1][at]
    return x, y


def ends_of(lines, first, second):
    """The start and the end of the first lines, then of the second, each as x and y."""
    return [(xs[which], ys[which]) for which in (np.asarray(first), np.asarray(second)) for xs, ys in ((lines.start_x, lines.start_y), (lines.end_x, lines.end_y))]


def taken(at, *points):
    return [(x[at], y[at]) for x, y in points]


def boxes_overlap(a, b, c, d):
    overlap = True
    for k in (0, 1):
        overlap &= (np.minimum(a[k], b[k]) <= np.maximum(c[k], d[k])) & (np.minimum(c[k], d[k]) <= np.maximum(a[k], b[k]))
    return overlap


def cross(a, b, c):
    """Twice the area of the triangle a, b, c, in floats."""
    return (b[0] - a[0]) * (c[1] - a[1]) - (b[1] - a[1]) * (c[0] - a[0])


def turns(a, b, c):
    """The sign of the turn from a to b to c, exactly: 1 to the left, -1 to the right, 0 on one straight line."""
    left, right = (b[0] - a[0]) * (c[1] - a[1]), (b[1] - a[1]) * (c[0] - a[0])
    turn = left - right
    sign = np.sign(turn).astype(np.int8)
    unsure = np.flatnonzero(np.abs(turn) <= RELATIVE * (np.abs(left) + np.abs(right)) + ABSOLUTE)
    if len(unsure):
        a, b, c = taken(unsure, a, b, c)
        same = np.zeros(len(unsure), bool)
        for p, q in ((a, b), (b, c), (a, c)):
            same |= (p[0] == q[0]) & (p[1] == q[1])
        sign[unsure[same]] = 0
        rest = np.flatnonzero(~same)
        ends = (values.tolist() for p in taken(rest, a, b, c) for values in p)
        sign[unsure[rest]] = [exact_turn(*six) for six in zip(*ends)]
    return sign


def exact_turn(ax, ay, bx, by, cx, cy):
    """The sign of one turn. A float is a whole number over a power of two, so the six over the greatest of these powers are whole numbers."""
    ratios = [v.as_integer_ratio() for v in (ax, ay, bx, by, cx, cy)]
    power = max(denominator for _, denominator in ratios)
    ax, ay, bx, by, cx, cy = (numerator * (power // denominator) for numerator, denominator in ratios)
    turn = (bx - ax) * (cy - ay) - (by - ay) * (cx - ax)
    return (turn > 0) - (turn < 0)
