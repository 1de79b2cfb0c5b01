#!/usr/bin/env python3
"""time_year.py [--lines N] [--legs L] [--sizing S] [--walk W]: a year from a table in text to its crossings, by one command, beside Shapely's STRtree
doing the same, one after the other in one run: wall clock, processor time, memory, and whether both list the same pairs. The year is that of
tools/make_year.py: 70,080 legs, 12 an orbit, where nothing else is said.

Needs NumPy, the shared library (tools/build_library) and Debian's python3-shapely; --with-shapely FILE is what it runs for the other side."""
import argparse
import os
import pathlib
import subprocess
import sys
import tempfile
import time

TOP = pathlib.Path(__file__).resolve().parent.parent
DEBIAN = "/usr/bin/python3"


def by_shapely(path):
    """Prints the pairs of legs that share a point: a tree of all legs is asked for those whose boxes meet a leg's, and each is tested."""
    import shapely
    from shapely.geometry import LineString
    from shapely.strtree import STRtree

    with open(path) as rows:
        next(rows)
        points = [tuple(map(float, row.split(","))) for row in rows]
    legs = [LineString(two) for two in zip(points, points[1:])]
    tree = STRtree(legs)
    if int(shapely.__version__.split(".")[0]) >= 2:
        pairs = ((i, j) for i, j in zip(*tree.query(legs, predicate="intersects").tolist()) if i < j)
    else:
        from shapely.prepared import prep

        number = {id(leg): i for i, leg in enumerate(legs)}
        asked = ((i, prep(leg), tree.query(leg)) for i, leg in enumerate(legs))
        pairs = ((i, number[id(other)]) for i, leg, near in asked for other in near if number[id(other)] > i and leg.intersects(other))
    sys.stdout.writelines(f"{i},{j}\n" for i, j in pairs)


def timed(words, out):
    """Seconds by the wall and of the processor, and the most memory, of a command that prints into a file."""
    before = time.monotonic()
    with open(out, "w") as printed:
        process = subprocess.Popen(words, stdout=printed, stderr=subprocess.DEVNULL, env={**os.environ, "PYTHONPATH": str(TOP / "bindings" / "python")})
        _, status, used = os.wait4(process.pid, 0)
    if status:
        sys.exit(f"time_year: {' '.join(map(str, words))} failed")
    return time.monotonic() - before, used.ru_utime + used.ru_stime, used.ru_maxrss / 1024


def main():
    parser = argparse.ArgumentParser(description=__doc__, formatter_class=argparse.RawDescriptionHelpFormatter)
    for word, kind, usual in (("lines", int, 70_080), ("legs", float, 12), ("sizing", str, "square"), ("walk", str, None)):
        parser.add_argument(f"--{word}", type=kind, default=usual)
    parser.add_argument("--with-shapely", metavar="FILE")
    asked = parser.parse_args()
    if asked.with_shapely:
        return by_shapely(asked.with_shapely)
    with tempfile.TemporaryDirectory() as folder:
        year, ours, theirs, kept = (os.path.join(folder, name) for name in ("year.csv", "ours.csv", "theirs.csv", "kept.csv"))
        subprocess.run([sys.executable, TOP / "tools" / "make_year.py", "--lines", str(asked.lines), "--legs", str(asked.legs), year], check=True)
        print(f"a year of {asked.lines:,} legs, {asked.legs:g} an orbit, from a table in text to its crossings")
        walk = ["--walk", asked.walk] if asked.walk else []
        one = timed([DEBIAN, "-m", "morelturret", "--crossings", "--joints", "--sizing", asked.sizing, *walk, year], ours)
        other = timed([DEBIAN, __file__, "--with-shapely", year], theirs)
        for name, (wall, processor, memory) in (("python3 -m morelturret", one), ("Shapely's STRtree", other)):
            print(f"{name:24} {wall:8.1f} s by the wall, {processor:8.1f} s of the processor, {memory:7.0f} MB")
        print(f"{'the first / the second':24} {one[0] / other[0]:8.2f} {one[1] / other[1]:31.2f} {one[2] / other[2]:26.2f}")
        # the same pairs, in the same order: by the first leg and then by the second
        subprocess.run(f"tail -n +2 {ours} | cut -d, -f1,2 >{kept} && sort -t, -k1,1n -k2,2n -o {theirs} {theirs}", shell=True, check=True)
        same = subprocess.run(["cmp", "-s", kept, theirs]).returncode == 0
        print(f"{sum(1 for _ in open(kept)):,} pairs share a point, joints included: {'the same by both' if same else 'NOT the same by both'}")
        return 0 if same else 1


if __name__ == "__main__":
    sys.exit(main())
