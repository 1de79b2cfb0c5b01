"""The build, its tables, and the visit of their tests."""
import numpy as np

from ._library import answer
from .grid import DEFAULT_WALK, GRID_WORDS, SCRATCH, SIZINGS, WALKS, Grid, chosen
from .once import Once
from .picture import picture
from .refusal import Refusal

MOST_LINES = 65_536  # above it refusal 2: see `parts`
MOST_SAMPLE = 1 << 29  # above it refusal 15
OFFSETS = 1_002_002  # enough for every build
MOST_CELLS = 2_048  # the most that list a line; a line of more is global
SHORT_ITEMS, SHORT_GLOBALS = 5, 6
BATCH = 1 << 20  # pairs at a time


def build(lines, sizing="square", walk=DEFAULT_WALK, grid=None):
    """Picks a grid for the lines, or takes the one that is named, and lists, for each cell, the lines that visit it: `Tables`. The room that it takes is
    what refusals 5 and 6 ask for.

    `sizing` is "square" or "axes"; `walk` is "rust", "sided" or "covering", by which a full visit hands out every two lines that share a point. README
    says which to choose.

    >>> from morelturret import Lines, build
    >>> tables = build(Lines.chain([0, 2, 2, 0, 0], [0, 0, 2, 2, 0]), walk="rust")
    >>> tables.grid.cols, tables.grid.rows, tables.tests
    (3, 3, 9)
    >>> tables.cells[0, 0]
    array([0, 3], dtype=uint32)
    """
    walk_number = chosen("walk", walk, WALKS)
    name, plan = ("mt_tables_on", (grid.words, walk_number)) if grid else ("mt_build", (chosen("sizing", sizing, SIZINGS), walk_number))
    offsets, scratch = np.empty(OFFSETS, np.uint32), np.empty(SCRATCH, np.uint32)
    room = {SHORT_ITEMS: 8 * len(lines) + 64, SHORT_GLOBALS: 64}
    while True:
        items, globals_ = (np.empty(entries, np.uint32) for entries in room.values())
        try:
            words = answer(name, *lines.slices, *plan, offsets, items, globals_, scratch)
        except Refusal as refusal:
            if refusal.number not in room:
                raise
            room[refusal.number] = refusal.value
            continue
        if not grid:
            grid, words = Grid.from_words(words), words[GRID_WORDS:]
        item_count, global_count = words[:2]
        return Tables(lines, grid, offsets[: grid.cols * grid.rows + 1].copy(), items[:item_count], globals_[:global_count], sizing, walk)


class Tables:
    """The tables of a build: `lines`, `grid`, `offsets`, `items`, `globals`, with the `sizing` and the `walk` that they were built by.

    The list of cell c is items[offsets[c]:offsets[c + 1]]: the lines, increasing, that visit it. A line that visits more than 2,048 cells is in no list
    but in `globals`.
    """

    def __init__(self, lines, grid, offsets, items, globals_, sizing, walk):
        self.lines, self.grid, self.sizing, self.walk = lines, grid, sizing, walk
        self.offsets, self.items, self.globals = offsets, items, globals_
        self.cells = Cells(self)

    def __repr__(self):
        return f"Tables({len(self.lines)} lines, {self.grid.cols} by {self.grid.rows} cells, {len(self.items)} items, {len(self.globals)} globals)"

    @property
    def standing(self):
        """The tables as calls take them that are not lent the lines."""
        return self.grid.words, len(self.lines), self.offsets, self.items, self.globals, len(self.globals)

    @property
    def beside_lines(self):
        """The tables as calls take them that are lent the lines, with those."""
        return self.grid.words, *self.lines.slices, self.offsets, self.items, self.globals, len(self.globals)

    @property
    def tests(self):
        """How many tests a full visit makes."""
        return answer("mt_visit_cost", *self.standing)[0]

    @property
    def longest(self):
        """How many lines the longest list has. Where it is far above the others, the grid does not suit the lines, as after a stray sample far away."""
        return answer("mt_visit_cost", *self.standing)[1]

    def by_line(self):
        """For each line the cells that list it: (starts, listing), where listing[starts[i]:starts[i + 1]] has the numbers of line i's cells, increasing.

        >>> starts, listing = build(Lines.chain([0, 2, 2], [0, 0, 2]), walk="rust").by_line()
        >>> listing[starts[0] : starts[1]]
        array([0, 1], dtype=uint32)
        """
        starts, listing = np.empty(len(self.lines) + 1, np.uint32), np.empty(len(self.items), np.uint32)
        count, *_ = answer("mt_lists_by_line", *self.standing, starts, listing)
        return starts, listing[:count]

    def batches(self, size=BATCH):
        """A full visit: pairs of lines whose boxes overlap, as two arrays of at most `size` entries at a time, with the tests made up to there. A pair
        comes once for each cell that lists both, or, where one is global, once. Lines and tables are checked once, at its start.

        >>> tables = build(Lines.chain([0, 2, 2, 0, 0], [0, 0, 2, 2, 0]), walk="rust")
        >>> [(len(first), tests) for first, second, tests in tables.batches(size=5)]
        [(5, 5), (4, 9)]
        """
        lent, bookmark, pairs = self.beside_lines, 0, size
        place, i, j, *_ = answer("mt_start", *lent, bookmark)
        while pairs == size:  # a batch that leaves room came to the end
            first, second = np.empty(size, np.uint32), np.empty(size, np.uint32)
            tests, pairs, place, i, j, *_ = answer("mt_next_unchecked", *lent, place, i, j, first, second)
            if not tests:
                return
            bookmark += tests
            yield first[:pairs], second[:pairs], bookmark

    def batches_with_places(self, size=BATCH):
        """`batches`, and in a third array, before the tests, the number of the place where each pair was tested: a cell's number, as `owner` answers it,
        or the number of cells and the position of a global. `place` has it in words.

        >>> tables = build(Lines.chain([0, 2, 2, 0, 0], [0, 0, 2, 2, 0]), walk="rust")
        >>> [[int(number) for number in places] for first, second, places, tests in tables.batches_with_places(size=5)]
        [[0, 1, 2, 3, 4], [5, 6, 7, 8]]
        """
        bookmark, total = 0, self.tests
        while bookmark < total:
            first, second, places = (np.empty(size, np.uint32) for _ in range(3))
            _, pairs, bookmark, *_ = answer("mt_batch_places", *self.beside_lines, bookmark, first, second, places)
            yield first[:pairs], second[:pairs], places[:pairs], bookmark

    def place(self, number):
        """What a number among the places of `batches_with_places` stands for: ("cell", row, column), or ("global", position).

        >>> build(Lines.chain([0, 2, 2, 0, 0], [0, 0, 2, 2, 0]), walk="rust").place(1)
        ('cell', 0, 1)
        """
        number, cells = int(number), self.grid.cols * self.grid.rows
        return ("cell", *divmod(number, self.grid.cols)) if number < cells else ("global", number - cells)

    def pairs_once(self):
        """The pairs of lines whose boxes overlap, each once: at its first test, in the order of the visit. Two arrays.

        >>> tables = build(Lines.chain([0, 2, 2, 0, 0], [0, 0, 2, 2, 0]), walk="rust")
        >>> [(int(a), int(b)) for a, b in zip(*tables.pairs_once())]
        [(0, 3), (0, 1), (2, 3), (1, 2)]
        """
        return self._each_once("mt_pairs_once", self.beside_lines)

    def crossings_of_samples(self):
        """The pairs of lines that share a point, each once: at its first test, in the order of the visit. Two arrays. Every coordinate has to be a sample,
        which is a whole number of magnitude at most 2^29; else refusal 15, with the first line that has another. There crossings are decided exactly, by
        the library. By the covering walk every crossing is listed; by the others those that are tested.

        >>> tables = build(Lines.chain([0, 4, 4, 0, 0, 2, 2], [0, 0, 4, 4, 0, 2, 6]))
        >>> sorted((int(min(a, b)), int(max(a, b))) for a, b in zip(*tables.crossings_of_samples()))
        [(0, 1), (0, 3), (0, 4), (1, 2), (2, 3), (2, 5), (3, 4), (4, 5)]
        """
        columns = [np.where((abs(v) <= MOST_SAMPLE) & (v == np.rint(v)), v, MOST_SAMPLE + 1).astype(np.int32) for v in self.lines.slices]
        return self._each_once("mt_crossings", (self.grid.words, *columns, self.offsets, self.items, self.globals, len(self.globals)))

    def _each_once(self, name, lent):
        """The pairs of a call that hands out each once, with the room that it asks for."""
        scratch = [np.empty(size, np.uint32) for size in (len(self.lines) + 1, len(self.items), len(self.lines))]
        room = len(self.items)  # most visits hand out fewer pairs; else the refusal says how many
        while True:
            first, second = np.empty(room, np.uint32), np.empty(room, np.uint32)
            try:
                count, *_ = answer(name, *lent, first, second, *scratch)
                return first[:count].copy(), second[:count].copy()
            except Refusal as refusal:
                if refusal.number != SHORT_ITEMS:
                    raise
                room = refusal.value

    def pairs(self, once=True):
        """The pairs of lines whose boxes overlap, as two arrays at a time. With `once` each pair comes once, the lower line first, in increasing order;
        without, as `batches` has them. That a pair comes once is the library's `pairs_once`; the order is made here.

        >>> tables = build(Lines.chain([0, 2, 2, 0, 0], [0, 0, 2, 2, 0]), walk="rust")
        >>> [list(zip(*pairs)) for pairs in tables.pairs()]
        [[(0, 1), (0, 3), (1, 2), (2, 3)]]
        """
        if once:
            yield from Once(self)
        else:
            for first, second, _ in self.batches():
                yield first, second

    def window(self, low_x, low_y, high_x, high_y):
        """The lines that may enter a window, increasing: those whose boxes overlap it, and which are global or listed in a cell of its block.

        >>> build(Lines.chain([0, 2, 2, 0, 0], [0, 0, 2, 2, 0])).window(1.5, -1, 3, 0.5)
        array([0, 1], dtype=uint32)
        """
        found = np.empty(len(self.lines), np.uint32)
        count, *_ = answer("mt_window", *self.beside_lines, low_x, low_y, high_x, high_y, found)
        return found[:count].copy()

    def push(self, start_x, start_y, end_x, end_y, follows=False):
        """Adds a line to the tables at their grid, by the walk that they were built by, and answers its number: the tables are then those of all lines on
        that grid, without a rebuild. `follows` tells that the line is the next leg of the last one. An end outside the grid is refused by 14, and
        the tables stay.

        >>> tables = build(Lines.chain([0, 2, 2, 0], [0, 0, 2, 2]), walk="rust")
        >>> tables.push(0, 2, 0, 0, follows=True), tables.cells[0, 0].tolist(), tables.tests
        (3, [0, 3], 4)
        """
        number, walk = len(self.lines), chosen("walk", self.walk, WALKS)
        # room for what one line may need, so that neither 5 nor 6 comes; a refusal leaves the arrays of before
        items, globals_ = (np.append(table, np.zeros(more, np.uint32)) for table, more in ((self.items, MOST_CELLS), (self.globals, 1)))
        offsets, scratch = self.offsets.copy(), np.empty(SCRATCH, np.uint32)
        line = start_x, start_y, end_x, end_y
        item_count, global_count, *_ = answer("mt_add_line", self.grid.words, walk, *line, number, offsets, items, globals_, len(self.globals), scratch)
        self.lines = type(self.lines).together([self.lines, type(self.lines)(*([value] for value in line), [follows])])
        self.offsets, self.items, self.globals = offsets, items[:item_count], globals_[:global_count]
        return number

    @property
    def blocks(self):
        """How many items each block of 16 by 16 cells has, by row and column of blocks; those at the far edges may be smaller. Global lines are in none.

        >>> build(Lines.chain([0, 2, 2, 0, 0], [0, 0, 2, 2, 0]), walk="rust").blocks
        array([[18]], dtype=uint32)
        """
        rows, cols = -(-self.grid.rows // 16), -(-self.grid.cols // 16)
        counts = np.empty(rows * cols, np.uint32)
        answer("mt_block_counts", *self.standing, counts)
        return counts.reshape(rows, cols)

    def items_in_blocks(self, low, high, blocks=None):
        """How many items the blocks from a lower corner to an upper have, both (row, column) of blocks and both included. Corners out of order give 0.
        Where `blocks` are at hand, no table is read.

        >>> tables = build(Lines.chain([0, 2, 2, 0, 0], [0, 0, 2, 2, 0]), walk="rust")
        >>> tables.items_in_blocks((0, 0), (0, 0))
        18
        """
        blocks = np.ascontiguousarray(self.blocks if blocks is None else blocks, np.uint32).reshape(-1)
        return answer("mt_items_in_blocks", self.grid.words, blocks, *low, *high)[0]

    def owner(self, x, y):
        """Whose each point is: see `Grid.owner`."""
        return self.grid.owner(x, y)

    def test(self, bookmark):
        """One test by its bookmark: ("cell", row, column) or ("global", position), the first line, the second, and whether their boxes overlap. At the
        end, none.

        >>> build(Lines.chain([0, 2, 2, 0, 0], [0, 0, 2, 2, 0]), walk="rust").test(0)
        (('cell', 0, 0), 0, 3, True)
        """
        kind, row, column, first, second, overlap, *_ = answer("mt_test_at", *self.beside_lines, bookmark)
        place = [("cell", row, column), ("global", row), None][kind]
        return place and (place, first, second, bool(overlap))

    def picture(self, found=None, **words):
        """The picture of the tables and their lines, with the crossings that were found: see `picture`."""
        return picture(self.lines, self, found, **words)

    def check(self):
        """Refuses by 2, 8 or 10 where the tables are not such as a build leaves."""
        answer("mt_check_tables", *self.standing)


class Cells:
    """The cells of tables: `cells[row, column]` is the list of one, `lengths` how many lines each lists, by row and column; iterated, the cells that
    list some line, in row order, as (row, column, list)."""

    def __init__(self, tables):
        self.tables = tables

    @property
    def lengths(self):
        grid = self.tables.grid
        return np.diff(self.tables.offsets.astype(np.int64)).reshape(grid.rows, grid.cols)

    def __getitem__(self, place):
        row, column = place
        grid = self.tables.grid
        if not (0 <= row < grid.rows and 0 <= column < grid.cols):
            raise IndexError(f"there are {grid.rows} rows and {grid.cols} columns")
        cell = row * grid.cols + column
        return self.tables.items[self.tables.offsets[cell] : self.tables.offsets[cell + 1]]

    def __iter__(self):
        for cell in np.flatnonzero(self.lengths):
            row, column = divmod(int(cell), self.tables.grid.cols)
            yield row, column, self[row, column]
