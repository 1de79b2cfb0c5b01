"""Lines: what a grid is built over."""
import numpy as np

from . import wkb
from ._library import floats


class Lines:
    """Line segments, numbered from 0: line i goes from (start_x[i], start_y[i]) to (end_x[i], end_y[i]).

    Arrays of float64 in one piece are taken as they are, without a copy; so are the parts of a chain. `follows[i]` tells that line i is the next leg of
    line i - 1 in one chain, and begins where that ends.

    >>> from morelturret import Lines
    >>> len(Lines([0, 0], [0, 2], [2, 2], [2, 0]))
    2
    """

    __slots__ = ("start_x", "start_y", "end_x", "end_y", "follows")

    def __init__(self, start_x, start_y, end_x, end_y, follows=None):
        self.start_x, self.start_y, self.end_x, self.end_y = (floats(values) for values in (start_x, start_y, end_x, end_y))
        self.follows = np.zeros(len(self.start_x), bool) if follows is None else np.asarray(follows, bool)

    @classmethod
    def chain(cls, x, y):
        """The legs of a chain: consecutive points make lines. One point makes none.

        >>> Lines.chain([0, 2, 2], [0, 0, 2]).end_y
        array([0., 2.])
        """
        x, y = floats(x), floats(y)
        follows = np.ones(max(len(x) - 1, 0), bool)
        follows[:1] = False
        return cls(x[:-1], y[:-1], x[1:], y[1:], follows)

    @classmethod
    def chains(cls, x, y, lengths):
        """The legs of several chains, whose points stand one chain after the other. `lengths` has the number of points of each. No line joins two.

        >>> len(Lines.chains([0, 1, 2, 5, 6], [0, 0, 0, 5, 5], [3, 2]))
        3
        """
        x, y, lengths = floats(x), floats(y), np.asarray(lengths, np.int64)
        if lengths.sum() != len(x) or len(x) != len(y) or (lengths < 1).any():
            raise ValueError(f"lengths of chains are above 0 and add up to the points: {len(x)} of x, {len(y)} of y, {lengths.sum()} by lengths")
        if len(lengths) <= 1:
            return cls.chain(x, y)
        last = np.cumsum(lengths) - 1  # the last point of each chain begins no line
        begins, follows = np.ones(len(x), bool), np.ones(len(x), bool)
        begins[last] = False
        follows[last - lengths + 1] = False
        at = np.flatnonzero(begins)
        return cls(x[at], y[at], x[at + 1], y[at + 1], follows[at])

    @classmethod
    def from_wkb(cls, data):
        """The legs of a LineString or MultiLineString: its bytes in well-known binary, or a Shapely geometry, or several of either.

        >>> Lines.from_wkb(bytes.fromhex("010200000002000000" + 32 * "00")).start_x
        array([0.])
        """
        if isinstance(data, (list, tuple)):
            return cls.together([cls.from_wkb(one) for one in data])
        return cls.chains(*wkb.read_wkb(data))

    @classmethod
    def together(cls, several):
        """All lines of several, one after the other."""
        return cls(*(np.concatenate([getattr(lines, name) for lines in several] or [[]]) for name in cls.__slots__))

    def __len__(self):
        return len(self.start_x)

    def __getitem__(self, which):
        """The lines of a slice, in the same arrays, or of an array of numbers, copied."""
        return Lines(*(getattr(self, name)[which] for name in self.__slots__))

    def __repr__(self):
        return f"Lines({len(self)})"

    @property
    def slices(self):
        """The four arrays, in the library's order."""
        return self.start_x, self.start_y, self.end_x, self.end_y
