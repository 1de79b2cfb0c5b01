#!/usr/bin/env python3
"""hurting_chains.py [--seed S] [CHAINS]: chains whose legs meet at or just beside the corner of a cell, far from the origin, where rounding hurts most:
which pairs of legs share a point, by exact arithmetic, and how many of these no visit tests, by the Rust's walk and by the covering one. 20,000
chains where no number is named. The library is built where needed, and asked for the lists (`tools/print_lists.c`).

Shapes, each in units of the coordinate's last place or in hundredths, near 2^10, 2^20, 2^29, (281, 36), 1,000 and 4,096:
  cross    three legs as in docs/FINDINGS.md: the first falls past a corner by less than a unit, the third comes up to it from the lower left
  touch    three legs as there: the first falls exactly through a corner, where the third ends
  beside   four legs: the third ends exactly on the first, within a unit of a corner
  endless  legs that differ by next to nothing in x, on whose walk the Rust makes no end
Prints a line for each shape and place: the chains, the pairs that share a point, how many of these the Rust's walk and the covering walk miss, and how
many chains each refuses. Status 0 where the covering walk misses and refuses none."""
import collections
import math
import pathlib
import random
import struct
import subprocess
import sys
import tempfile
from fractions import Fraction

TOP = pathlib.Path(__file__).resolve().parent.parent
RUST, COVERING = 0, 2
PLACES = {"2^10": (2.0**10, 2.0**10), "2^20": (2.0**20, 2.0**20), "2^29": (2.0**29, 2.0**29), "281, 36": (281.0, 36.0)}
DECIMAL_PLACES = {"1,000": (1000, 1000), "4,096": (4096, 4096), "281, 36": (281, 36)}


def whole(points):
    """The points times one power of two, as whole numbers."""
    ratios = [(x.as_integer_ratio(), y.as_integer_ratio()) for x, y in points]
    scale = max(d for p in ratios for _, d in p)
    return [(x[0] * (scale // x[1]), y[0] * (scale // y[1])) for x, y in ratios]


def side(a, b, c):
    """The sign of the turn from a to b to c."""
    v = (b[0] - a[0]) * (c[1] - a[1]) - (b[1] - a[1]) * (c[0] - a[0])
    return (v > 0) - (v < 0)


def share_a_point(a, b, c, d):
    """Whether the closed segments ab and cd share a point: touching ends, overlaps and single points included."""
    for k in (0, 1):
        if max(a[k], b[k]) < min(c[k], d[k]) or max(c[k], d[k]) < min(a[k], b[k]):
            return False
    return side(a, b, c) * side(a, b, d) <= 0 and side(c, d, a) * side(c, d, b) <= 0


def tested_of(printed, legs):
    """For each leg, the set of the legs that it is tested with."""
    tested = [set() for _ in range(legs)]
    for line in printed.splitlines():
        word, *numbers = line.split()
        numbers = [int(n) for n in numbers]
        if word == "cell":
            for i in numbers[2:]:
                tested[i].update(numbers[2:])
        elif word == "global":
            for g in numbers:
                tested[g].update(range(legs))
                for i in range(legs):
                    tested[i].add(g)
    return tested


def cross(r, least, most):
    """In whole units from (0, 0): a leg that falls past a corner of the grid by less than a unit, and one that comes up to it."""
    while True:
        width, height = (round(math.exp(r.uniform(math.log(least), math.log(most)))) for _ in range(2))
        size = math.sqrt(width * height / 3)
        i, j = r.choice([1, 1, 1, 2, 3]), r.choice([1, 1, 1, 2, 3])
        x, y = i * size, j * size
        if not (2 <= x <= width - 2 and 2 <= y <= height - 2):
            continue
        left = r.randrange(0, int(x) - 1)
        low = math.floor(height - (height - y) * (width - left) / (x - left)) - r.choice([0, 0, 0, 1])
        if 0 <= low < height:
            end = (math.floor(x) + r.choice([0, 0, 0, 1, -1]), math.floor(y) + r.choice([0, 0, 0, 1, -1]))
            first = [(left, height), (width, low)]
            return (first if r.random() < 0.5 else first[::-1]) + [(0, 0), end]


def touch(r, least, most):
    """A leg that falls exactly through a corner of the grid, from its right side to its top, and one that ends there."""
    while True:
        wide = Fraction(r.randrange(2, 25), r.randrange(1, 9))
        high = 3 / wide
        i, j = r.choice([1, 1, 1, 2, 3]), r.choice([1, 1, 1, 2])
        slope = Fraction(r.randrange(1, 9), r.randrange(1, 9))
        low, left = j - (wide - i) * slope, i - (high - j) / slope
        if not (i < wide and j < high and low >= 0 and left >= 0):
            continue
        # the size is a whole number of units, and so is every coordinate
        size = math.lcm(*(v.denominator for v in (wide, high, low, left)))
        size *= max(1, round(math.exp(r.uniform(math.log(least), math.log(most))) / size))
        if size <= 4 * most:
            first = [(int(wide * size), int(low * size)), (int(left * size), int(high * size))]
            return (first if r.random() < 0.7 else first[::-1]) + [(0, 0), (i * size, j * size)]


def beside(r, least, most):
    """A leg through a whole point beside a corner, and one that ends there. The last point gives the grid its extent."""
    while True:
        width, height = (round(math.exp(r.uniform(math.log(least), math.log(most)))) for _ in range(2))
        size = math.sqrt(width * height / 4)
        x, y = (round(r.choice([1, 1, 2, 3]) * size) + r.choice([0, 0, 0, 1, -1]) for _ in range(2))
        dx, dy = r.choice([(1, 1), (1, 2), (2, 1), (1, 3), (3, 1), (2, 3), (r.randrange(1, 50), r.randrange(1, 50))])
        down, up = min((width - x) // dx, y // dy), min(x // dx, (height - y) // dy)
        if 1 <= x < width and 1 <= y < height and down >= 1 and up >= 1:
            first = [(x + down * dx, y - down * dy), (x - up * dx, y + up * dy)]
            return (first if r.random() < 0.5 else first[::-1]) + [(0, 0), (x, y), (width, height)]


def endless(r):
    """docs/FINDINGS.md, section 4: the grid begins a whole number of its cells before 0, but for rounding."""
    size = r.randrange(1, 1000) / r.choice([10, 100])
    before, legs = r.randrange(1, 40), r.randrange(3, 40)
    high = legs * size / (before + 0.5)
    return [(-round(before * size, 3), 0.0), (0.0, 0.0), (r.choice([1e-300, 5e-324, 1e-200]), high)] + [(round(size / 2, 3), 0.0)] * (legs - 2)


def drawn(r):
    shape = r.choice(["cross", "touch", "beside", "beside", "beside", "endless"])
    if shape == "endless":
        return shape, "0", endless(r)
    draw = {"cross": cross, "touch": touch, "beside": beside}[shape]
    if r.random() < 0.3:
        name = r.choice(list(DECIMAL_PLACES))
        place = DECIMAL_PLACES[name]
        return shape, name + ", two decimals", [tuple((100 * b + k) / 100 for b, k in zip(place, p)) for p in draw(r, 8, 600)]
    name = r.choice(list(PLACES))
    place = PLACES[name]
    # the last place of the larger coordinate, or a few times that
    unit = math.ulp(max(place)) * 2 ** r.randrange(0, 8)
    least = max(20, 4e-6 / unit)
    return shape, name, [tuple(b + k * unit for b, k in zip(place, p)) for p in draw(r, least, least * 10 ** r.uniform(0.5, 5))]


def main():
    words, seed, count = sys.argv[1:], 1, 20000
    if "-h" in words or "--help" in words:
        print(__doc__)
        return
    while words:
        word = words.pop(0)
        if word == "--seed" and words and words[0].isdigit():
            seed = int(words.pop(0))
        elif word.isdigit():
            count = int(word)
        else:
            print(f"hurting_chains: {word} is not known, or needs a number; --help tells what there is", file=sys.stderr)
            sys.exit(2)
    subprocess.run([TOP / "tools/build_library"], check=True, stdout=subprocess.DEVNULL)
    r = random.Random(seed)
    tallies = collections.defaultdict(collections.Counter)
    with tempfile.TemporaryDirectory() as work:
        program = pathlib.Path(work, "print_lists")
        library = TOP / "target/library"
        subprocess.run(["cc", "-O2", f"-I{library}", TOP / "tools/print_lists.c", library / "libmorelturret.a", "-o", program], check=True)
        asked = subprocess.Popen([program], stdin=subprocess.PIPE, stdout=subprocess.PIPE)

        def lists(points, mode):
            asked.stdin.write(struct.pack("=III", 0, mode, len(points)) + b"".join(struct.pack("=dd", *p) for p in points))
            asked.stdin.flush()
            lines = []
            while (line := asked.stdout.readline().decode()) != "end\n":
                if not line:
                    sys.exit("hurting_chains: print_lists ended")
                lines.append(line)
            return "".join(lines)

        for _ in range(count):
            shape, place, points = drawn(r)
            at, legs = whole(points), len(points) - 1
            meeting = [(i, j) for i in range(legs) for j in range(i + 1, legs) if share_a_point(at[i], at[i + 1], at[j], at[j + 1])]
            tally = tallies[f"{shape}, near {place}"]
            tally["chains"] += 1
            tally["pairs"] += len(meeting)
            tally["beyond the joints"] += any(j > i + 1 for i, j in meeting)
            for mode, name in ((RUST, "rust"), (COVERING, "covering")):
                printed = lists(points, mode)
                if printed.startswith("refused"):
                    tally[name + " refuses"] += 1
                    continue
                tested = tested_of(printed, legs)
                missing = [pair for pair in meeting if pair[1] not in tested[pair[0]]]
                tally[name + " misses"] += len(missing)
                if missing and mode == COVERING:
                    print("never tested by the covering walk:", missing, [tuple(v.hex() for v in p) for p in points])
        asked.stdin.close()
    total = collections.Counter()
    for name, tally in sorted(tallies.items()) + [("all", total)]:
        if tally is not total:
            total.update(tally)
        print(
            f"{name}: {tally['chains']} chains, {tally['beyond the joints']} with more than joints; {tally['pairs']} pairs share a point; missed by the Rust's"
            f" walk {tally['rust misses']}, by the covering one {tally['covering misses']}; refused {tally['rust refuses']} and {tally['covering refuses']}"
        )
    sys.exit(1 if total["covering misses"] + total["covering refuses"] else 0)


if __name__ == "__main__":
    main()
