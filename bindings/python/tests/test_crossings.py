"""Crossings: how two lines meet, held to fractions over all pairs; and lines in parts, held to one build."""
import itertools
import random
import unittest

import numpy as np

from morelturret import SIZINGS, Lines, Parts, Refusal, build, crossings
from morelturret.meeting import APART, CROSS, KINDS, OVERLAP, TOUCH, kinds_of, points_of

from .shared import EXAMPLES, lattice, loops, meeting, pair_set, share_a_point


def all_pairs(lines):
    return np.array(list(itertools.combinations(range(len(lines)), 2))).reshape(-1, 2).T


class Meeting(unittest.TestCase):
    def test_named_cases(self):
        for kind, one, other in (
            (CROSS, (0, 0, 2, 2), (0, 2, 2, 0)),
            (TOUCH, (0, 0, 2, 2), (2, 2, 5, 0)),
            (TOUCH, (0, 0, 2, 2), (1, 1, 5, 0)),
            (TOUCH, (0, 0, 2, 2), (2, 2, 3, 3)),
            (TOUCH, (0, 0, 2, 2), (1, 1, 1, 1)),
            (TOUCH, (1, 1, 1, 1), (1, 1, 1, 1)),
            (OVERLAP, (0, 0, 2, 2), (1, 1, 3, 3)),
            (OVERLAP, (0, 0, 2, 2), (0, 0, 2, 2)),
            (OVERLAP, (0, 0, 0, 2), (0, 1, 0, 3)),
            (APART, (0, 0, 1, 1), (2, 2, 3, 3)),
            (APART, (0, 0, 2, 2), (1, 1.0000000000000002, 0, 2)),
            (APART, (0, 0, 2, 2), (1, 0, 1, 0)),
            (CROSS, (0, 0, 1e-200, 1e-200), (0, 1e-200, 1e-200, 0)),
            (TOUCH, (0, 0, 3e-200, 1e-200), (0, 0, 1e-200, 3e-200)),
        ):
            with self.subTest(one=one, other=other):
                for p, q in ((one, other), (other, one)):
                    lines = Lines(*zip(p, q))
                    self.assertEqual(KINDS[kinds_of(lines, [0], [1])[0]], KINDS[kind])
                    if kind != APART:
                        x, y = points_of(lines, [0], [1], np.array([kind]))
                        self.assertTrue(min(p[0], p[2]) <= x[0] <= max(p[0], p[2]) and min(q[1], q[3]) <= y[0] <= max(q[1], q[3]))

    def test_lattices(self):
        for seed in range(40):
            lines = lattice(seed, 30, 4 + seed % 9)
            first, second = all_pairs(lines)
            kinds = kinds_of(lines, first, second)
            self.assertEqual({(a, b) for a, b, kind in zip(first, second, kinds) if kind != APART}, meeting(lines))

    def test_a_hair_beside(self):
        """Points a few units in the last place beside a line, where floats alone are wrong."""
        draw, met, floats_wrong = random.Random(5), 0, 0
        for _ in range(2000):
            a, b = (draw.uniform(280, 300), draw.uniform(30, 40)), (draw.uniform(280, 300), draw.uniform(30, 40))
            t = draw.random()
            c = [a[k] + t * (b[k] - a[k]) for k in (0, 1)]
            c[1] = np.nextafter(c[1], draw.choice([-np.inf, np.inf])) if draw.random() < 0.5 else c[1]
            line, point = (*a, *b), (*c, c[0] + draw.choice([-1, 1]), c[1] + draw.choice([-5, 5]))
            kind = kinds_of(Lines(*zip(line, point)), [0], [1])[0]
            self.assertEqual(kind != APART, share_a_point(line, point))
            met += kind != APART
        self.assertTrue(500 < met < 1500)


class InParts(unittest.TestCase):
    def test_every_crossing_is_found(self):
        for chain in (loops(30, 11), lattice(3, 200, 40, chain=True)):
            expected = meeting(chain)
            for sizing in SIZINGS:
                found = crossings(chain, sizing, joints=True)
                self.assertEqual(set(zip(found.first.tolist(), found.second.tolist())), expected)
                self.assertEqual(len(found), len(expected))

    def test_parts_lose_no_pair_and_hand_out_none_twice(self):
        lines = loops(30, 20)
        expected = meeting(lines)
        for most in (300, 299, 150, 77, 41):
            parts = Parts(lines, "axes", most=most)
            self.assertEqual(len(list(parts)), len(parts))
            self.assertTrue(all(len(part.tables.lines) <= 2 * most for part in parts))
            pairs, listed = pair_set(parts.pairs())
            self.assertEqual(listed, len(pairs))
            self.assertLessEqual(expected, pairs)

    def test_a_refusal_names_the_line_among_all(self):
        for at in (7, 150, 299):
            lines = loops(30, 10)
            lines.start_x = lines.start_x.copy()
            lines.start_x[at] = np.nan
            with self.assertRaises(Refusal) as raised:
                list(Parts(lines, most=60))
            self.assertEqual((raised.exception.number, raised.exception.value), (1, at))

    def test_parts_of_a_year(self):
        """More lines than one build takes: short legs, so that it is quick."""
        lines = loops(2000, 34)
        self.assertGreater(len(lines), 65_536)
        found = crossings(lines, "axes")
        turning_back = int(((found.second == found.first + 1) & (found.kind == OVERLAP)).sum())
        self.assertEqual(found.joints + turning_back, len(lines) - 1)
        halves = [lines[: len(lines) // 2], lines[len(lines) // 2 :]]
        inside = [crossings(half, "axes") for half in halves]
        self.assertGreater(len(found), sum(map(len, inside)))
        at = set(zip(found.first.tolist(), found.second.tolist()))
        self.assertEqual(len(at), len(found))
        for start, one in zip((0, len(lines) // 2), inside):
            self.assertLessEqual({(a + start, b + start) for a, b in zip(one.first.tolist(), one.second.tolist())}, at)


class Listed(unittest.TestCase):
    def test_rows(self):
        found = crossings(Lines.chains([0, 2, 2, 0, 1, 1], [0, 2, 0, 2, 0, 2], [4, 2]))
        self.assertEqual("".join(found.rows()), "first,second,kind,x,y\n0,2,cross,1.0,1.0\n0,3,cross,1.0,1.0\n2,3,cross,1.0,1.0\n")
        self.assertEqual(found.joints, 2)

    def test_a_leg_that_turns_back_is_no_joint(self):
        found = crossings(Lines.chain([0, 2, 1], [0, 0, 0]))
        self.assertEqual([KINDS[kind] for kind in found.kind], ["overlap"])
        self.assertEqual(found.joints, 0)

    def test_dropped_touch(self):
        """Pairs that the Rust's walk never tests, and of which the sided walk tests two: the covering walk tests all."""
        for name, sided in (("dropped_touch", 1), ("dropped_touch_near_281_K", 1), ("dropped_crossing", 0)):
            lines = Lines.from_wkb((EXAMPLES / f"{name}.wkb").read_bytes())
            self.assertEqual([len(crossings(lines, walk=walk)) for walk in ("rust", "sided", "covering")], [0, sided, 1])
            self.assertEqual(len(crossings(lines)), 1)

    def test_no_lines(self):
        self.assertEqual(list(crossings(Lines.chain([], [])).rows()), ["first,second,kind,x,y\n"])
        self.assertEqual(build(Lines.chain([], [])).tests, 0)
