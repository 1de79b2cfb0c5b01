"""Any number of lines: in parts, every two of them together."""
import numpy as np

from .grid import DEFAULT_WALK
from .lines import Lines
from .refusal import Refusal
from .tables import MOST_LINES, build

BAD_COORDINATE, WALK_TOO_LONG = 1, 7


class Parts:
    """Lines of any number, cut in parts of at most 32,768, with a build for every two parts. Two lines of different parts stand together in one build
    alone. Two lines of one part stand together in several: their pairs are kept from the first. So each pair that `pairs` hands out comes once.

    Up to 65,536 lines there is one build, of all.

    >>> from morelturret import Lines, Parts
    >>> parts = Parts(Lines.chain(range(7), [0] * 7), most=2)
    >>> len(parts), len(list(parts))
    (3, 3)
    """

    def __init__(self, lines, sizing="square", walk=DEFAULT_WALK, most=MOST_LINES // 2):
        self.lines, self.sizing, self.walk = lines, sizing, walk
        self.count = 1 if len(lines) <= 2 * most else -(-len(lines) // most)
        self.edges = [len(lines) * k // self.count for k in range(self.count + 1)]

    def __len__(self):
        """How many builds there are."""
        return max(self.count * (self.count - 1) // 2, 1)

    def __iter__(self):
        """Each build: a `Part`. A refusal's value, where it is a line, is the number that the line has among all."""
        if self.count == 1:
            yield self.part(0, len(self.lines), 0, 0, True, True)
        for b in range(1, self.count):
            for a in range(b):
                yield self.part(*self.edges[a : a + 2], *self.edges[b : b + 2], b == 1, a == 0)

    def part(self, start, stop, upper_start, upper_stop, keeps_lower, keeps_upper):
        """The build of two parts."""
        lower, upper = self.lines[start:stop], self.lines[upper_start:upper_stop]
        part = Part(start, len(lower), upper_start, keeps_lower, keeps_upper)
        try:
            part.tables = build(Lines.together([lower, upper]) if len(upper) else lower, self.sizing, self.walk)
        except Refusal as refusal:
            if refusal.number not in (BAD_COORDINATE, WALK_TOO_LONG):
                raise
            raise Refusal(refusal.number, int(part.number(np.array(refusal.value)))) from refusal
        return part

    def pairs(self, once=True):
        """The pairs of all builds, by their numbers among all lines, as two arrays at a time. Without `once` a pair comes as often as its build hands it
        out.

        >>> lines = Lines.chain(range(7), [0] * 7)
        >>> sorted((int(a), int(b)) for pairs in Parts(lines, most=2).pairs() for a, b in zip(*pairs))
        [(0, 1), (1, 2), (2, 3), (3, 4), (4, 5)]
        """
        for part in self:
            for first, second in part.tables.pairs(once):
                yield part.numbers(first, second)


class Part:
    """One build of `Parts`: its `tables`, and the numbers that its lines have among all."""

    def __init__(self, start, lower, upper_start, keeps_lower, keeps_upper):
        self.start, self.lower, self.upper_start = start, lower, upper_start
        self.keeps_lower, self.keeps_upper = keeps_lower, keeps_upper

    def kept(self, first, second):
        """Which pairs are kept from this build."""
        one, other = first < self.lower, second < self.lower
        return (one != other) | (one & other & self.keeps_lower) | ~(one | other) & self.keeps_upper

    def numbers(self, first, second):
        """The pairs that are kept from this build, by the numbers of their lines among all."""
        kept = self.kept(first, second)
        return self.number(first[kept]), self.number(second[kept])

    def local(self, number):
        """The number in this build of a line by its number among all; -1 where it is none of this build's."""
        lower, upper = number - self.start, number - self.upper_start + self.lower
        inside = (upper >= self.lower) & (upper < len(self.tables.lines))
        return np.where((lower >= 0) & (lower < self.lower), lower, np.where(inside, upper, -1))

    def number(self, line):
        """The number among all of a line of this build."""
        return np.where(line < self.lower, line + self.start, line.astype(np.int64) - self.lower + self.upper_start).astype(np.uint32)
