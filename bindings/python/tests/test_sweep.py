"""The sweep, held to fractions over all pairs; and tools/exact_check.py, on the examples whose crossings are dropped."""
import subprocess
import sys
import unittest

import numpy as np

from morelturret import Lines
from morelturret.sweep import meeting_pairs

from .shared import TOP, lattice, loops, meeting


def exact_check(*words):
    done = subprocess.run([sys.executable, TOP / "tools" / "exact_check.py", *words], capture_output=True, text=True, cwd=TOP)
    return done.stdout.splitlines(), done.stderr, done.returncode


class Sweep(unittest.TestCase):
    def test_all_pairs(self):
        for lines in (loops(20, 9), *(lattice(seed, 60, 3 + seed) for seed in range(12)), Lines.chain([], []), Lines.chain([1, 1], [2, 2])):
            first, second = meeting_pairs(lines)
            self.assertEqual(set(zip(first.tolist(), second.tolist())), meeting(lines))
            self.assertEqual(len(first), len(meeting(lines)))
            self.assertTrue((np.diff(first * len(lines) + second) > 0).all())


class ExactCheck(unittest.TestCase):
    def test_a_chain_with_none_missing(self):
        said, wrong, status = exact_check("examples/orbits.wkb")
        self.assertEqual((wrong, status), ("", 0))
        self.assertEqual(said, ["examples/orbits.wkb: 223 legs; 262 pairs share a point, 222 of them consecutive; 0 of these pairs are never tested"])

    def test_a_chain_with_one_missing(self):
        said, _, status = exact_check("--walk", "rust", "examples/dropped_touch.wkb")
        self.assertEqual((len(said), status), (2, 1))
        self.assertIn("never tested: leg 0 (1024.64, 1024.04)-(1024.18, 1024.27) and leg 2 ", said[1])

    def test_every_plan(self):
        said, _, status = exact_check("--sizing", "all", "--walk", "all", "examples/dropped_touch.wkb")
        self.assertEqual(status, 1)
        for plan in ("square, sided", "square, covering", "axes, covering"):
            self.assertIn(f"examples/dropped_touch.wkb ({plan}): 3 legs; 3 pairs share a point, 2 of them consecutive; 0 of these pairs are never tested", said)

    def test_by_the_covering_walk_none_is_missing(self):
        for path in sorted((TOP / "examples").glob("dropped_*.wkb")):
            self.assertEqual(exact_check("--walk", "covering", "--sizing", "all", path)[1:], ("", 0))

    def test_refusals(self):
        for name, word in (("refused_11_cut", "cut: 5 points were announced"), ("refused_1_not_a_number", "refused 1, value"), ("refused_7_endless_walk", "refused 7, value 1")):
            said, wrong, status = exact_check(f"examples/{name}.wkb")
            self.assertEqual((said, status), ([], 2), name)
            self.assertIn(word, wrong)
