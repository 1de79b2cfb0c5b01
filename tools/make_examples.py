#!/usr/bin/env python3
"""make_examples.py [FOLDER]: writes the files of examples/ (well-known binary) to FOLDER, or to examples/ beside this script's folder: LineStrings, and
the MultiLineString `year`, which the program refuses and the examples named visit_year read; what they print stands in year.txt.
What the program prints for NAME.wkb stands in NAME.out, by `--sizing axes` in NAME.axes.out, by `--walk sided` in NAME.sided.out and
NAME.axes.sided.out, by `--walk covering` in NAME.covering.out and NAME.axes.covering.out. What the program of crossings prints stands,
for some, in NAME.crossings, NAME.axes.crossings and so on. Nothing here is random: each run writes the
same bytes.

With points of your own, `write(path, points)` makes a file that the program reads: little-endian, type 2, 1 to 1,024 points (x, y)."""
import argparse
import math
import pathlib
import struct


def line_string(points, big=False):
    """The bytes of a LineString: the byte order, the type 2, the number of points, the points."""
    order = ">" if big else "<"
    return struct.pack(order + "BII", 0 if big else 1, 2, len(points)) + b"".join(struct.pack(order + "dd", x, y) for x, y in points)


def multi_line_string(members):
    """The bytes of a MultiLineString, little-endian, whose members are LineStrings already: the byte order, the type 5, their number, the members."""
    return struct.pack("<BII", 1, 5, len(members)) + b"".join(members)


def write(path, points):
    pathlib.Path(path).write_bytes(line_string(points))


def bits(text):
    """A float from its bit pattern in hex."""
    return struct.unpack(">d", bytes.fromhex(text))[0]


def chain(*legs):
    """The points of legs that are given by their bit patterns: start x, start y, end x, end y."""
    legs = [[bits(word) for word in leg.split()] for leg in legs]
    return [tuple(legs[0][:2])] + [tuple(leg[2:]) for leg in legs]


def orbits(count=7, samples=32):
    """Frequency in parts per billion (y) against temperature in kelvin (x), orbit after orbit. For 20 of 32 samples the clock is lit and
    warms towards 308 K, for 12 it is dark and cools towards 279 K. The oscillator follows the temperature of its crystal, which lags behind
    that of the sensor: so the dark leg runs beside the lit one, and the two close a loop. The frequency drifts by 0.21 parts per billion an
    orbit, so that the loops of later orbits cross those of earlier ones. Temperatures have two decimals, frequencies three."""
    sensor, crystal, points = 286.4, 287.9, []
    for k in range(count * samples):
        lit = k % samples < samples * 5 // 8
        towards, share = (308.0, 0.105) if lit else (279.0, 0.165)
        sensor += (towards - sensor) * share
        crystal += (sensor - crystal) * 0.31
        d = crystal - 294.0
        frequency = 36.2 + 0.37 * d - 0.0085 * d * d + 0.21 * k / samples + 0.045 * math.sin(1.7 * k)
        points.append((round(sensor, 2), round(frequency, 3)))
    return points


def examples():
    square = [(0, 0), (2, 0), (2, 2), (0, 2), (0, 0)]
    yield "square", line_string(square)  # document 01's sample
    yield "square_big_endian", line_string(square, big=True)
    yield "one_point", line_string([(281.5, 36.25)])  # no lines: a grid of 0 by 0
    yield "orbits", line_string(orbits())
    # each orbit a member of its own, so that no line joins two; the third is big-endian
    members = [orbits()[k : k + 32] for k in range(0, 7 * 32, 32)]
    yield "year", multi_line_string([line_string(points, big=k == 2) for k, points in enumerate(members)])
    # the same with temperatures in thousandths of a kelvin: by axis the lists are those of `orbits`, on square cells they are not
    yield "orbits_millikelvin", line_string([(round(1000 * kelvin), ppb) for kelvin, ppb in orbits()])
    # 510 samples at one temperature, then two swings over 1,000: on the grid that 510 lines in one cell lead to, a swing visits 4,001 cells
    yield "hold_and_swing", line_string([(100.1, 0)] * 511 + [(0, 0), (1000, 0), (0, 0)])

    # cells of 1 by 1; leg 2 ends 2^-41 under the edge between the columns 0 and 1, and leg 3 begins there: `--walk sided` lists both in column 1 too
    yield "hair_under_an_edge", line_string([(0, 0), (2, 0), (2, 2), (1 - 2.0**-41, 0.5), (0, 2)])

    # Legs that meet and are never tested (docs/FINDINGS.md): 0 and 2 of each chain.
    yield "dropped_touch", line_string([(1024.64, 1024.04), (1024.18, 1024.27), (1024, 1024), (1024.24, 1024.24)])
    yield "dropped_touch_near_281_K", line_string(chain(
        "4071e2f844108dde 40425a0001321cba 4071a16ba0110cea 40434a9db5a3d80e",
        "4071a16ba0110cea 40434a9db5a3d80e 4071900000000000 4042000000000000",
        "4071900000000000 4042000000000000 4071b1cec910ed27 40430e7648876939",
    ))
    yield "dropped_crossing", line_string(chain(
        "41c000000000000b 41c0000000000140 41c00000000000dc 41c000000000004a",
        "41c00000000000dc 41c000000000004a 41c0000000000000 41c0000000000000",
        "41c0000000000000 41c0000000000000 41c0000000000099 41c0000000000099",
    ))

    # the same of whole numbers, which are samples: the legs 0 and 2 share the first point
    yield "dropped_samples", line_string(
        [(536870733, 536870733), (536870708, 536870678), (536870658, 536870818), (536870763, 536870699), (536870554, 536870554)] + [(536870912, 536870912)] * 32
    )

    # One for each refusal that a chain can meet.
    yield "refused_1_not_a_number", line_string([(281.5, 36.25), (281.75, 36.5), (float("nan"), 36.5), (282, 36.75)])
    yield "refused_1_too_large", line_string([(281.5, 36.25), (281.75, 1000000001)])
    # 600 samples at one place among others: more than 500 lines in its cell, and the halved cells are more than the offsets hold
    yield "refused_4_stuck_sensor", line_string([(280 + k % 32, 30 + k // 32) for k in range(424)] + [(285, 31)] * 600)
    yield "refused_5_long_legs", line_string([(280 + 20 * (k % 2), 30 + k * 0.05) for k in range(400)])
    yield "refused_6_full_swings", line_string([(1000 * (k % 2), 0) for k in range(503)])
    # min + 7 x cell_size is rounded to 0, where the leg from (0, 0) begins, and (0 - min) / cell_size to a value below 7: the walk leaves the
    # column of its end at once, and never comes back
    yield "refused_7_endless_walk", line_string([(-18.2, 0), (0, 0), (1e-300, 4.16)] + [(1.3, 0)] * 10)
    yield "refused_11_empty", b""
    yield "refused_11_cut", line_string(square)[:50]
    yield "refused_11_byte_after", line_string(square) + b"\n"
    yield "refused_11_too_many_points", line_string([(k, 0) for k in range(1025)])
    yield "refused_11_a_point", struct.pack("<BIdd", 1, 1, 281.5, 36.25)


def main():
    parser = argparse.ArgumentParser(description=__doc__, formatter_class=argparse.RawDescriptionHelpFormatter)
    parser.add_argument("folder", metavar="FOLDER", nargs="?", type=pathlib.Path, default=pathlib.Path(__file__).resolve().parent.parent / "examples")
    folder = parser.parse_args().folder
    folder.mkdir(parents=True, exist_ok=True)
    for name, data in examples():
        (folder / f"{name}.wkb").write_bytes(data)


if __name__ == "__main__":
    main()
