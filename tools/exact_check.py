#!/usr/bin/env python3
"""exact_check.py [--sizing square|axes|all] [--walk rust|sided|covering|all] FILE..: which legs of a chain share a point, by exact arithmetic, and which of those
pairs a visit never tests. On square cells and by the Rust's walk, where nothing else is said.

FILE is what `python3 -m morelturret` takes: a table of two columns, or a LineString or MultiLineString in well-known binary, of any number of legs; above
65,536 they are built in parts, every two together. The pairs that share a point are found by a sweep in x, without a grid, and each decided exactly; then
the library builds and visits, by each sizing and walk that is named. Consecutive legs share their joint, so they count too.
Prints a line for each FILE, sizing and walk, and one for each pair that is missing. Status 0: none is missing; 1: some are; 2: a FILE was refused or not
read. Needs NumPy and the shared library (tools/build_library)."""
import argparse
import os
import pathlib
import sys

# The words come first: help needs neither NumPy nor the library.
parser = argparse.ArgumentParser(description=__doc__, formatter_class=argparse.RawDescriptionHelpFormatter)
parser.add_argument("--sizing", default="square")
parser.add_argument("--walk", default="rust")
parser.add_argument("files", nargs="+", metavar="FILE")
asked = parser.parse_args() if __name__ == "__main__" else None

TOP = pathlib.Path(__file__).resolve().parent.parent
sys.path.insert(0, str(TOP / "bindings" / "python"))
try:
    import numpy as np
except ImportError:
    if sys.executable == "/usr/bin/python3" or not os.path.exists("/usr/bin/python3"):
        sys.exit("exact_check: NumPy is needed: apt install python3-numpy")
    os.execv("/usr/bin/python3", ["/usr/bin/python3", *sys.argv])  # Debian's, which has Debian's NumPy

from morelturret import SIZINGS, WALKS, Parts, Refusal
from morelturret.files import BadFile, read
from morelturret.once import Once
from morelturret.progress import Bar
from morelturret.sweep import meeting_pairs


def never_tested(lines, first, second, sizing, walk, bar):
    """Of pairs that share a point, those that no visit hands out. Their boxes overlap, so whatever is tested is handed out."""
    parts, missing = Parts(lines, sizing, walk), np.ones(len(first), bool)
    for number, part in enumerate(parts):
        visit = Once(part.tables, lambda share, what: bar((number + share) / len(parts), what))
        one, other = part.local(first), part.local(second)
        at = np.flatnonzero((one >= 0) & (other >= 0))
        at = at[part.kept(one[at], other[at])]
        missing[at] = ~visit.has(one[at], other[at])
    return np.flatnonzero(missing)


def check(path, sizings, walks, bar):
    """The worst status of a file's plans."""
    try:
        lines = read(path).lines
    except BadFile as problem:
        print(f"exact_check: {problem}", file=sys.stderr)
        return 2
    # what the library refuses by 1 is not swept
    taken = all((np.abs(values) <= 1e9).all() for values in lines.slices)
    first, second = meeting_pairs(lines if taken else lines[:0], bar)
    joints = int(((second == first + 1) & lines.follows[second]).sum())
    status = 0
    for sizing, walk in ((sizing, walk) for sizing in sizings for walk in walks):
        plan = "" if len(sizings) == len(walks) == 1 else f" ({sizing}, {walk})"
        try:
            missing = never_tested(lines, first, second, sizing, walk, bar)
        except Refusal as refusal:
            bar.clear()
            print(f"exact_check: {path}{plan}: {refusal}: there is nothing to check", file=sys.stderr)
            status = 2
            continue
        bar.clear()
        print(f"{path}{plan}: {len(lines)} legs; {len(first)} pairs share a point, {joints} of them consecutive; {len(missing)} of these pairs are never tested")
        for k in missing.tolist():
            leg = lambda i: f"leg {i} {(lines.start_x[i], lines.start_y[i])}-{(lines.end_x[i], lines.end_y[i])}"
            print(f"  never tested: {leg(first[k])} and {leg(second[k])}")
        status = max(status, 1 if len(missing) else 0)
    return status


def main():
    def named(option, word, among):
        if word not in (*among, "all"):
            parser.error(f"--{option} takes {', '.join(among)} or all")
        return list(among) if word == "all" else [word]

    sizings, walks, bar = named("sizing", asked.sizing, SIZINGS), named("walk", asked.walk, WALKS), Bar()
    sys.exit(max(check(path, sizings, walks, bar) for path in asked.files))


if __name__ == "__main__":
    main()
