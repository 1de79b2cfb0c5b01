"""Cleaning: document 02's own cases, and random chains against the rule written apart, in plain Python."""
import math
import random
import unittest

import numpy as np

from morelturret import REASONS, Refusal, clean, read_wkb, write_wkb
from morelturret._declared import CONSTANTS

NAN, INF = math.nan, math.inf
ABOVE = math.nextafter(1e9, INF)


def by_rule(chain):
    """The pieces that are kept of one chain, and the reasons of its points, in the words of document 02."""
    reasons, pieces, piece = ["range"] * len(chain), [], []

    def close():
        if len(piece) < 2:
            for i in piece:
                reasons[i] = "short"
        else:
            pieces.append([chain[i] for i in piece])
        piece.clear()

    for i, (x, y) in enumerate(chain):
        if not (abs(x) <= 1e9 and abs(y) <= 1e9):
            close()
        elif piece and chain[piece[-1]] == (x, y):
            reasons[i] = "repeat"
        else:
            reasons[i] = "kept"
            piece.append(i)
    close()
    return pieces, reasons


def cleaned(chains):
    points = [point for chain in chains for point in chain]
    x, y, lengths, reasons = clean([x for x, _ in points], [y for _, y in points], [len(chain) for chain in chains])
    return list(zip(x.tolist(), y.tolist())), lengths.tolist(), [REASONS[reason] for reason in reasons]


class Cleaning(unittest.TestCase):
    def test_reasons_are_the_headers(self):
        self.assertEqual([CONSTANTS[name] for name in ("MT_KEPT", "MT_RANGE", "MT_REPEAT", "MT_SHORT_PIECE")], [0, 1, 2, 3])

    def test_by_name(self):
        a, b, gap = (1.0, 1.0), (2.0, 2.0), (NAN, 0.0)
        for chain, reasons in (
            ([a, a], "short repeat"),
            ([a, a, gap, a], "short repeat range short"),
            ([a, gap, a, b], "short range kept kept"),
            ([a, b, a], "kept kept kept"),
            ([(0.0, -0.0), (-0.0, 0.0), a], "kept repeat kept"),
            ([(1e9, -1e9), a, (ABOVE, 0.0), a, (0.0, -INF)], "kept kept range short range"),
        ):
            self.assertEqual(cleaned([chain])[2], reasons.split())

    def test_random_chains(self):
        random.seed(10)
        values = [0.0, -0.0, 1.0, 1e9, -1e9, ABOVE, NAN, INF, -INF]
        for _ in range(400):
            chains = [[(random.choice(values), random.choice(values[:4])) for _ in range(random.randint(1, 12))] for _ in range(random.randint(0, 4))]
            points, lengths, reasons = cleaned(chains)
            kept = [piece for chain in chains for piece in by_rule(chain)[0]]
            self.assertEqual((points, lengths, reasons), (sum(kept, []), [len(piece) for piece in kept], sum((by_rule(chain)[1] for chain in chains), [])))
            # what is kept is written and read, and cleaned once more as it is
            data = write_wkb([x for x, _ in points], [y for _, y in points], lengths)
            x, y, again, why = clean(*read_wkb(data))
            self.assertEqual((write_wkb(x, y, again), why.any()), (data, False))

    def test_bits_stay(self):
        x = np.array([1 << 63, 0, 1], np.uint64).view(np.float64)
        self.assertEqual(clean(x, x)[0].tobytes(), x[[0, 2]].tobytes())

    def test_refused(self):
        for lengths in ([3], [0, 2], [1025]):
            with self.assertRaises(Refusal) as refusal:
                clean([1, 2], [1, 2], lengths)
            self.assertEqual(refusal.exception.number, 3)
        self.assertEqual([values.tolist() for values in clean([], [])], [[], [], [], []])
