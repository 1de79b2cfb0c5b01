"""The lines that share a point, of any number of lines.

The pairs come from the library's visit. Whether two lines share a point is decided by `meeting`, exactly; that is plain Python, and not proved. In the
covering walk every two lines that share a point are handed out by the visit, which is proved; in the other walks some may not be, as README tells."""
import numpy as np

from .grid import DEFAULT_WALK
from .meeting import APART, KINDS, TOUCH, kinds_of, points_of
from .once import Once
from .parts import Parts
from .progress import silent

CHUNK = 1 << 16  # pairs that are decided at a time: so much stays in the processor's caches


class Crossings:
    """Pairs of lines that share a point, by the lower line and then the higher: `first`, `second`, and how they meet (`kind`, an index of `KINDS`).
    `joints` is how many pairs were left out since they are a leg and the next that share just their joint."""

    def __init__(self, lines, first, second, kind, joints):
        self.lines, self.first, self.second, self.kind, self.joints = lines, first, second, kind, joints

    def __len__(self):
        return len(self.first)

    def points(self, which=slice(None)):
        """A point that each two share, rounded: two arrays, x and y."""
        return points_of(self.lines, self.first[which], self.second[which], self.kind[which])

    def rows(self):
        """The header of a table, and its rows, as text."""
        yield "first,second,kind,x,y\n"
        for start in range(0, len(self), CHUNK):
            some = slice(start, start + CHUNK)
            columns = self.first[some], self.second[some], self.kind[some], *self.points(some)
            for first, second, kind, x, y in zip(*(column.tolist() for column in columns)):
                yield f"{first},{second},{KINDS[kind]},{x!r},{y!r}\n"


def crossings(lines, sizing="square", walk=DEFAULT_WALK, joints=False, progress=silent, told=None):
    """The pairs of lines that share a point, of any number of lines: `Crossings`. A leg and the next, which share their joint and no other point, are
    left out, unless `joints` is set. `told` is called with each build's `Tables` and its pairs, which are `Once`.

    >>> from morelturret import Lines, crossings
    >>> found = crossings(Lines.chain([0, 2, 2, 0], [0, 2, 0, 2]))
    >>> list(found.rows())
    ['first,second,kind,x,y\\n', '0,2,cross,1.0,1.0\\n']
    >>> found.joints
    2
    """
    parts, kept, left = Parts(lines, sizing, walk), [], 0
    for number, part in enumerate(parts):
        pairs = Once(part.tables, lambda share, what: progress((number + share / 2) / len(parts), what))
        different = max(len(pairs), 1)
        if told:
            told(part.tables, pairs)
        decided = 0
        for first, second in pairs:
            for start in range(0, len(first), CHUNK):
                some = slice(start, start + CHUNK)
                found, joined = meeting_pairs(lines, *part.numbers(first[some], second[some]), joints)
                kept.append(found)
                left += joined
                progress((number + (1 + (decided + start) / different) / 2) / len(parts), "crossings")
            decided += len(first)
    first, second, kind = (np.concatenate([one[k] for one in kept] or [np.empty(0, np.uint32)]) for k in range(3))
    order = np.lexsort((second, first)) if len(parts) > 1 else slice(None)
    return Crossings(lines, first[order], second[order], kind[order], left)


def meeting_pairs(lines, first, second, joints):
    """Of these pairs those that meet, with how, and how many joints were left out. The lower line of each comes first."""
    kind = kinds_of(lines, first, second)
    keep = kind != APART
    joint = (kind == TOUCH) & (second == first + 1) & lines.follows[second]
    if joints:
        joint[:] = False
    keep &= ~joint
    return (first[keep], second[keep], kind[keep]), int(joint.sum())
