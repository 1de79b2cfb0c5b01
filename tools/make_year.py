#!/usr/bin/env python3
"""make_year.py [--lines N] [--legs L] [--seed S] OUT: writes a year on a bench as a table of two columns, kelvin and ppb: N + 1 samples (70,080 legs
where nothing else is said, one every 7.5 minutes) of orbits of L legs (12), which loop through temperature and frequency, and drift. `tools/bench` draws
years of this shape. Each run with one seed writes the same bytes."""
import argparse
import math
import pathlib
import random


def year(lines=70_080, legs=12, seed=1):
    """The samples of a year, to three and four decimals."""
    draw, noise = random.Random(seed), 4 / max(math.sqrt(lines), 8)
    for i in range(lines + 1):
        phase, season = i / legs * math.tau, i / lines * math.tau
        kelvin = 281 + (8 + 2 * math.cos(season)) * math.cos(phase) + 3 * math.sin(season) + draw.uniform(-noise, noise)
        lag = 0.35 + 0.1 * math.sin(season)
        yield round(kelvin, 3), round(36 + 6 * math.cos(phase - lag) + 14 * i / lines + draw.uniform(-noise, noise), 4)


def main():
    parser = argparse.ArgumentParser(description=__doc__, formatter_class=argparse.RawDescriptionHelpFormatter)
    parser.add_argument("--lines", type=int, default=70_080)
    parser.add_argument("--legs", type=float, default=12)
    parser.add_argument("--seed", type=int, default=1)
    parser.add_argument("out", metavar="OUT", type=pathlib.Path)
    asked = parser.parse_args()
    rows = (f"{kelvin},{ppb}\n" for kelvin, ppb in year(asked.lines, asked.legs, asked.seed))
    asked.out.write_text("kelvin,ppb\n" + "".join(rows))


if __name__ == "__main__":
    main()
