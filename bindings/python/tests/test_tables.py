"""Builds and visits: the examples' expected output, and document 01's values."""
import itertools
import unittest

import numpy as np

from morelturret import OUTSIDE, SEAM, WALKS, Grid, Lines, Refusal, add, build, count, snap, strategies_agree
from morelturret.once import Once
from morelturret.tables import MOST_SAMPLE
from morelturret.wkb import read_wkb

from .shared import EXAMPLES, loops, meeting, pair_set

FOUR = Grid(0, 0, 1, 1, 4, 4)
THE_PROGRAMS = {"refused 4", "refused 5", "refused 6", "refused 11"}  # its room and its reader, which are not the package's


def printed(tables):
    """Tables in the program's words, but for the count of overlaps."""
    bits = [f"{int(word):016x}" for word in tables.grid.words[2:4]]
    yield f"grid {tables.grid.cols} {tables.grid.rows} {' '.join(bits)} {len(tables.items)} {len(tables.globals)}"
    for row, column, lines in tables.cells:
        yield " ".join(map(str, ["cell", row, column, *lines]))
    if len(tables.globals):
        yield " ".join(map(str, ["global", *tables.globals]))
    yield f"visit {tables.tests} {sum(len(first) for first, _, _ in tables.batches())}"


class Examples(unittest.TestCase):
    def test_every_example_in_every_plan(self):
        held = refused = 0
        for path, sizing, walk in itertools.product(sorted(EXAMPLES.glob("*.wkb")), ("square", "axes"), WALKS):
            words = [path.stem, *(["axes"] if sizing == "axes" else []), *([walk] if walk != "rust" else []), "out"]
            out = EXAMPLES / ".".join(words)
            if not out.exists():
                continue
            expected = out.read_text().splitlines()
            if expected[0] in THE_PROGRAMS:
                continue
            with self.subTest(path=path.name, sizing=sizing, walk=walk):
                try:
                    tables = build(Lines.from_wkb(path.read_bytes()), sizing, walk)
                except Refusal as refusal:
                    self.assertEqual(expected, [f"refused {refusal.number}"])
                    refused += 1
                else:
                    self.assertEqual(expected, list(printed(tables)))
                    tables.check()
                    held += 1
        self.assertGreater(held, 20)
        self.assertGreater(refused, 5)


class Documented(unittest.TestCase):
    def test_walks(self):
        cells = lambda *line, walk="rust": list(FOUR.cells_of(line[:2], line[2:], walk))
        self.assertEqual(cells(0.5, 0.5, 2.5, 0.5), [0, 1, 2])
        self.assertEqual(cells(1, 0.5, 1, 2.5), [0, 1, 4, 5, 8, 9])
        self.assertEqual(cells(1, 1, 1, 1), [0, 1, 4, 5])
        hair = 1 - 2**-41
        self.assertEqual(cells(hair, 0.5, hair, 0.5), [0])
        self.assertEqual(cells(hair, 0.5, hair, 0.5, walk="sided"), [0, 1])

    def test_owners(self):
        self.assertEqual(FOUR.owner([1, 4, 4.5], [0.5, 4, 1]).tolist(), [1, 15, OUTSIDE])
        self.assertEqual(Grid(281, 36, 0.4, 0.05, 5, 5).owner([281.79999999999995], [36.02]).tolist(), [SEAM])
        self.assertEqual(Grid(0, 0, 1, 1, 0, 0).owner([], []).tolist(), [])

    def test_snapping(self):
        self.assertEqual(snap(0.49999999999999994, -2.5, 1), (0.0, -3.0))
        self.assertFalse(strategies_agree(0.49999999999999994, 1))

    def test_refusals(self):
        for number, value, call in (
            (1, 1, lambda: build(Lines.chain([0, 1, np.nan], [0, 0, 0]))),
            (2, 65_537, lambda: build(Lines.chain(np.zeros(65_538), np.zeros(65_538)))),
            (3, 0, lambda: build(Lines([0, 1], [0], [1], [1]))),
            (8, 0, lambda: Grid(0, 0, 1, 1, 5000, 1).owner([0], [0])),
            (9, 9, lambda: build(Lines.chain([0, 2, 2, 0, 0], [0, 0, 2, 2, 0]), walk="rust").test(10)),
            (12, 0, lambda: snap(0, 0, 1e7)),
        ):
            with self.subTest(number=number), self.assertRaises(Refusal) as raised:
                call()
            self.assertEqual(raised.exception.number, number)
            if number != 9:
                self.assertEqual(raised.exception.value, value)
            self.assertTrue(raised.exception.sentence)
            self.assertTrue(raised.exception.advice)

    def test_each_refusal_has_its_words(self):
        for number in range(1, 17):
            with self.subTest(number=number):
                refusal = Refusal(number, 0)
                self.assertNotEqual(refusal.sentence, Refusal(99, 0).sentence)
                self.assertTrue(refusal.sentence and refusal.value_is and refusal.advice)

    def test_names_that_there_are_not(self):
        for words in ({"sizing": "round"}, {"walk": "long"}):
            with self.assertRaises(ValueError):
                build(Lines.chain([0, 1], [0, 1]), **words)


class Visits(unittest.TestCase):
    def setUp(self):
        self.tables = build(loops(40, 12), "axes")

    def test_no_copy(self):
        x, y = np.arange(5.0), np.zeros(5)
        lines = Lines.chain(x, y)
        self.assertTrue(np.shares_memory(lines.start_x, x) and np.shares_memory(lines.end_x, x))
        self.assertIs(build(lines).lines, lines)

    def test_room_is_found(self):
        # legs over the whole width are in far more cells than there is room for at first; two swings in a stuck chain are global
        tables = build(Lines.chain([280 + 20 * (k % 2) for k in range(400)], [30 + k * 0.05 for k in range(400)]))
        self.assertGreater(len(tables.items), 8 * 400 + 64)
        many = build(Lines.chain([1000 * (k % 2) for k in range(503)], [0] * 503), walk="rust")
        self.assertGreater(len(many.globals), 64)

    def test_batches_are_the_tests_in_order(self):
        tables, lines = self.tables, self.tables.lines
        low_x, high_x = np.minimum(lines.start_x, lines.end_x), np.maximum(lines.start_x, lines.end_x)
        low_y, high_y = np.minimum(lines.start_y, lines.end_y), np.maximum(lines.start_y, lines.end_y)
        expected, tests = [], 0
        for _, _, listed in tables.cells:
            for i, j in itertools.combinations(listed.tolist(), 2):
                tests += 1
                if low_x[i] <= high_x[j] and low_x[j] <= high_x[i] and low_y[i] <= high_y[j] and low_y[j] <= high_y[i]:
                    expected.append((i, j))
        self.assertEqual((tables.tests, len(tables.globals)), (tests, 0))
        for size in (1, 97, 1 << 20):
            handed = [pair for first, second, _ in tables.batches(size) for pair in zip(first.tolist(), second.tolist())]
            self.assertEqual(handed, expected)
            placed = [entry for first, second, places, _ in tables.batches_with_places(size) for entry in zip(first.tolist(), second.tolist(), places.tolist())]
            self.assertEqual([entry[:2] for entry in placed], expected)
            for i, j, number in placed:
                self.assertLessEqual({i, j}, set(tables.cells[tables.place(number)[1:]].tolist()))
        place, first, second, overlap = tables.test(0)
        self.assertEqual(list(tables.cells[place[1:]][:2]), [first, second])
        self.assertIsInstance(overlap, bool)
        self.assertIsNone(tables.test(tables.tests))

    def test_windows(self):
        lines = self.tables.lines
        low_x, high_x = np.minimum(lines.start_x, lines.end_x), np.maximum(lines.start_x, lines.end_x)
        low_y, high_y = np.minimum(lines.start_y, lines.end_y), np.maximum(lines.start_y, lines.end_y)
        for x, y, wide, high in ((280, 34, 3, 2), (289, 36, 0, 0), (270, 30, 50, 50), (295, 35, 1, 0.5), (0, 0, 1, 1), (290, 36, -1, 1)):
            found = self.tables.window(x, y, x + wide, y + high)
            overlap = (low_x <= x + wide) & (high_x >= x) & (low_y <= y + high) & (high_y >= y) & (wide >= 0) & (high >= 0)
            self.assertLessEqual(set(found.tolist()), set(np.flatnonzero(overlap).tolist()))
            # whatever begins inside the window enters it
            inside = (lines.start_x >= x) & (lines.start_x <= x + wide) & (lines.start_y >= y) & (lines.start_y <= y + high)
            self.assertLessEqual(set(np.flatnonzero(inside).tolist()), set(found.tolist()))

    def test_blocks(self):
        swings = build(Lines.chain([1000 * (k % 2) for k in range(503)], [0] * 503), walk="rust")
        for tables in (self.tables, swings, build(Lines.chain([], []))):
            lengths, blocks = tables.cells.lengths, tables.blocks
            rows, cols = blocks.shape
            expected = [[lengths[16 * r : 16 * r + 16, 16 * c : 16 * c + 16].sum() for c in range(cols)] for r in range(rows)]
            self.assertEqual(blocks.tolist(), [list(map(int, row)) for row in expected])
            self.assertEqual(blocks.sum(), len(tables.items))
            for low, high in itertools.product(itertools.product(range(min(rows, 3)), range(min(cols, 3))), repeat=2):
                part = blocks[low[0] : high[0] + 1, low[1] : high[1] + 1] if low[0] <= high[0] and low[1] <= high[1] else blocks[:0]
                self.assertEqual(tables.items_in_blocks(low, high, blocks), part.sum())
            with self.assertRaises(Refusal) as caught:
                tables.items_in_blocks((rows + 4, 0), (rows, 0))
            self.assertEqual((caught.exception.number, caught.exception.value), (9, rows + 4))

    def test_cost_and_lists_by_line(self):
        swings = build(Lines.chain([1000 * (k % 2) for k in range(503)], [0] * 503), walk="rust")
        for tables in (self.tables, swings, build(Lines.chain([], []))):
            k, globals_, lines = tables.cells.lengths, len(tables.globals), len(tables.lines)
            self.assertEqual(tables.tests, (k * (k - 1) // 2).sum() + globals_ * (lines - 1) - globals_ * (globals_ - 1) // 2)
            self.assertEqual(tables.longest, k.max(initial=0))
            starts, listing = tables.by_line()
            cells = [[] for _ in range(lines)]
            for row, column, listed in tables.cells:
                for line in listed:
                    cells[line].append(row * tables.grid.cols + column)
            self.assertEqual([listing[a:b].tolist() for a, b in zip(starts, starts[1:])], cells)

    def test_several_benches(self):
        """Counts of shares of the lines add up to the lengths of the lists of all, and tables on the grid of a build are the build's."""
        tables, lines = self.tables, self.tables.lines
        counts, _ = count(lines[:200], tables.grid)
        add(counts, count(lines[200:], tables.grid)[0])
        self.assertTrue((counts == tables.cells.lengths.reshape(-1)).all())
        again = build(lines, walk=tables.walk, grid=tables.grid)
        self.assertEqual((again.items.tobytes(), again.offsets.tobytes()), (tables.items.tobytes(), tables.offsets.tobytes()))
        full = np.full(3, 65_536, np.uint32)
        with self.assertRaises(Refusal) as raised:
            add(full, np.array([0, 0, 1], np.uint32))
        self.assertEqual((raised.exception.number, raised.exception.value, full.tolist()), (13, 2, [65_536] * 3))

    def test_lines_added_one_by_one(self):
        """Tables grown line by line are those of all lines on their grid; an end outside is refused by 14, and changes nothing."""
        lines = self.tables.lines
        for walk in WALKS:
            grown = build(lines[:200], walk=walk, grid=self.tables.grid)
            for i in range(200, len(lines)):
                ends = (float(slice_[i]) for slice_ in lines.slices)
                self.assertEqual(grown.push(*ends, follows=bool(lines.follows[i])), i)
            whole = build(lines, walk=walk, grid=self.tables.grid)
            for name in ("offsets", "items", "globals"):
                self.assertEqual(getattr(grown, name).tobytes(), getattr(whole, name).tobytes(), name)
            self.assertTrue((grown.lines.follows == lines.follows).all())
            self.assertEqual(grown.tests, whole.tests)
            with self.assertRaises(Refusal) as raised:
                grown.push(1e9, 1e9, 0, 0)
            self.assertEqual((raised.exception.number, raised.exception.value, len(grown.lines)), (14, 0, len(lines)))

    def test_each_pair_once(self):
        plain, handed = pair_set(self.tables.pairs(once=False))
        once, listed = pair_set(self.tables.pairs())
        self.assertEqual(once, plain)
        self.assertEqual(listed, len(once))
        self.assertLess(listed, handed)

    def test_first_tests(self):
        """The pairs once are the plain visit's, each where it comes first."""
        swings = build(Lines.chain([1000 * (k % 2) for k in range(503)], [0] * 503), walk="rust")
        for tables in (self.tables, swings, build(Lines.chain([], []))):
            met, firsts = set(), []
            for pairs in tables.pairs(once=False):
                for pair in zip(*(side.tolist() for side in pairs)):
                    if frozenset(pair) not in met:
                        met.add(frozenset(pair))
                        firsts.append(pair)
            self.assertEqual(list(zip(*(side.tolist() for side in tables.pairs_once()))), firsts)

    def test_crossings_of_samples(self):
        """On a small lattice, where legs touch, overlap and repeat: all pairs, by fractions; and what is no sample."""
        rng = np.random.default_rng(7)
        for walk in WALKS:
            for low in (0, MOST_SAMPLE - 5, -MOST_SAMPLE):
                x, y = rng.integers(low, low + 6, (2, 40))
                tables = build(Lines.chain(x, y), walk=walk)
                listed = [tuple(sorted(pair)) for pair in zip(*(side.tolist() for side in tables.crossings_of_samples()))]
                sharing = meeting(tables.lines)
                self.assertEqual(len(listed), len(set(listed)))
                self.assertLessEqual(set(listed), sharing)
                if walk == "covering":
                    self.assertEqual(set(listed), sharing)
        for bad in (0.5, MOST_SAMPLE + 1, -1e9):
            with self.assertRaises(Refusal) as refused:
                build(Lines.chain([0, 1, 2, bad], [0, 0, 0, 0])).crossings_of_samples()
            self.assertEqual((refused.exception.number, refused.exception.value), (15, 2))

    def test_once_has(self):
        once = Once(self.tables)
        first, second = np.triu_indices(len(self.tables.lines), 1)
        pairs, _ = pair_set(self.tables.pairs(once=False))
        self.assertEqual(set(zip(first[once.has(first, second)].tolist(), second[once.has(first, second)].tolist())), pairs)
        self.assertEqual((len(once), once.handed), (len(pairs), pair_set(self.tables.pairs(once=False))[1]))

    def test_global_lines_once(self):
        swings = build(Lines.chain([1000 * (k % 2) for k in range(503)], [0] * 503), walk="rust")
        once, listed = pair_set(swings.pairs())
        self.assertEqual((len(once), listed), (502 * 501 // 2, 502 * 501 // 2))

    def test_cells_beyond_the_end(self):
        with self.assertRaises(IndexError):
            self.tables.cells[self.tables.grid.rows, 0]
        none = build(Lines.chain([1], [1]))
        self.assertEqual((list(none.cells), none.tests, list(none.pairs())), ([], 0, []))

    def test_lines_from_geometries(self):
        class Geometry:
            wkb = (EXAMPLES / "square.wkb").read_bytes()

        self.assertEqual(len(Lines.from_wkb([Geometry(), Geometry()])), 8)
        self.assertEqual(list(read_wkb(Geometry())[2]), [5])
        with self.assertRaises(ValueError):
            Lines.chains([0, 1], [0, 1], [3])
