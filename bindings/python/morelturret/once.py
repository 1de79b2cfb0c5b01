"""The pairs of a full visit, each once, in increasing order."""
import numpy as np

from .progress import silent

STRETCH = 1 << 22  # pairs that are handed on together


class Once:
    """The pairs that a full visit of tables hands out, each once; iterated, two arrays at a time, the lower line first, in increasing order.

    That each comes once is the library's, and proved: `Tables.pairs_once`. Here they are only put in order. `handed` is how often a plain visit hands
    out a pair; it makes that visit."""

    def __init__(self, tables, progress=silent):
        self.tables, self.count = tables, np.uint64(max(len(tables.lines), 1))
        progress(0, "pairs")
        first, second = (side.astype(np.uint64) for side in tables.pairs_once())
        self.numbers = np.minimum(first, second) * self.count + np.maximum(first, second)
        self.numbers.sort()
        progress(1, "pairs")

    @property
    def handed(self):
        return sum(len(first) for first, _, _ in self.tables.batches())

    def has(self, first, second):
        """Which of these pairs, lower line first, the visit hands out."""
        asked = np.asarray(first, np.uint64) * self.count + np.asarray(second, np.uint64)
        at = np.searchsorted(self.numbers, asked)
        return np.append(self.numbers, ~np.uint64(0))[at] == asked

    def __len__(self):
        return len(self.numbers)

    def __iter__(self):
        for low in range(0, len(self.numbers), STRETCH):
            first, second = np.divmod(self.numbers[low : low + STRETCH], self.count)
            yield first.astype(np.uint32), second.astype(np.uint32)
