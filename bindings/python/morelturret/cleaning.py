"""Cleaning of chains: points outside the coordinate rule, repeats and pieces of one point dropped."""
import numpy as np

from ._library import answer, floats, whole

# by their numbers: MT_KEPT, MT_RANGE, MT_REPEAT, MT_SHORT_PIECE
REASONS = ("kept", "range", "repeat", "short")


def clean(x, y, lengths=None):
    """What is kept of chains, and the reason of each of their points: x, y, lengths, reasons. The chains stand one after the other, each of 1 to 1,024
    points; without lengths they are one.

    A point that is not finite, or above 1e9 in magnitude, is dropped, and splits its chain there. Then a point is dropped that equals the one kept
    just before it in the same piece, zeros of either sign being equal; then a piece of which fewer than two points are left. `reasons` has for each
    point the place in `REASONS` of the first rule that drops it, or 0 where it is kept. Cleaning what is kept changes nothing.

    >>> from morelturret import REASONS, clean
    >>> x, y, lengths, reasons = clean([5, float("nan"), 0, 0, 1], [5, 0, 2, 2, 2])
    >>> x, lengths, [REASONS[r] for r in reasons]
    (array([0., 1.]), array([2], dtype=uint32), ['short', 'range', 'kept', 'repeat', 'kept'])
    """
    x, y = floats(x), floats(y)
    lengths = whole(([len(x)] if len(x) else []) if lengths is None else lengths)
    kept_x, kept_y, reasons = np.empty(len(x), np.uint64), np.empty(len(x), np.uint64), np.empty(len(x), np.uint32)
    kept_lengths = np.empty(len(x) // 2, np.uint32)
    points, pieces, *_ = answer("mt_clean", x.view(np.uint64), y.view(np.uint64), lengths, kept_x, kept_y, kept_lengths, reasons)
    return kept_x[:points].view(np.float64), kept_y[:points].view(np.float64), kept_lengths[:pieces].copy(), reasons
