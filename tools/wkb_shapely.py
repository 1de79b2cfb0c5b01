#!/usr/bin/env python3
"""wkb_shapely.py OUT: LineStrings and MultiLineStrings written by Shapely, in both byte orders, for the readers of `crates/wkb` to be tried on.
wkb_shapely.py --read OUT: reads what the library wrote of the MultiLineStrings, OUT/multi/NAME.written, and what the cleaning program wrote, OUT/clean/NAME.cleaned,
by Shapely, and compares.

For each LineString the first writes OUT/NAME.wkb and OUT/NAME.points: a line for each point, the bit patterns of x and y in 16 hex digits. For each
MultiLineString it writes OUT/multi/NAME.wkb and OUT/multi/NAME.members: for each member a line with its number of points, then its points alike. For
chains with gaps and repeats, of either type, it writes OUT/clean/NAME.wkb, OUT/clean/NAME.members, what cleaning keeps of them by the rules as they are
written here, and OUT/clean/NAME.said, the lines of the dropped points. The
patterns come from the numbers themselves and not from the file. Where Shapely is not installed (Debian: python3-shapely, for /usr/bin/python3) it writes
nothing and says so. Shapely makes no LineString of one point."""
import argparse
import math
import pathlib
import random
import struct
import sys

parser = argparse.ArgumentParser(description=__doc__, formatter_class=argparse.RawDescriptionHelpFormatter)
parser.add_argument("--read", action="store_true")
parser.add_argument("out", metavar="OUT", type=pathlib.Path)
asked = parser.parse_args()
out = asked.out
try:
    import shapely
    from shapely import wkb, wkt
    from shapely.geometry import LineString, MultiLineString
except ImportError:
    print(f"Shapely is not installed for {sys.executable}: nothing written")
    sys.exit(0)

chance = random.Random(1)
most = [(chance.uniform(-1e9, 1e9), chance.uniform(-1e9, 1e9)) for _ in range(1024)]
lines = {
    "square": [(0.0, 0.0), (2.0, 0.0), (2.0, 2.0), (0.0, 2.0), (0.0, 0.0)],
    "edges": [(-0.0, 5e-324), (sys.float_info.max, -sys.float_info.min), (0.1, -1e9), (math.pi, 1e-6)],
    "orbit": [(250.0 + 60.0 * math.sin(i / 7.0), chance.uniform(-40.0, 40.0)) for i in range(300)],
    "most": most,
}
multis = {
    "none": [],
    "one": [lines["square"]],
    "all": list(lines.values()),
    "orbits": [[(250.0 + 60.0 * math.sin(i / 7.0), 0.2 * k + chance.uniform(-40.0, 40.0)) for i in range(2 + 7 * k)] for k in range(40)],
    "year": [[(chance.uniform(-1e9, 1e9), chance.uniform(-1e9, 1e9)) for _ in range(13)] for _ in range(5461)] + [most[:5]],
}
# of chains with gaps: whether the first alone is meant, as a LineString, and the chains
above = struct.unpack("<d", struct.pack("<Q", struct.unpack("<Q", struct.pack("<d", 1e9))[0] + 1))[0]
values = [0.0, -0.0, 1.0, 2.0, 0.1, 1e9, -1e9, above, -above, math.nan, math.inf, -math.inf]
a, b, gap = (1.0, 1.0), (2.0, 2.0), (math.nan, 0.0)


def telemetry(most):
    return [(chance.choice(values[: chance.choice((4, 7, 12))]), chance.choice(values[:7])) for _ in range(chance.randint(2, most))]


dirty = {
    "named": (False, [[a, a], [a, a, gap, a], [a, gap, a, b], [a, b, a], [(0.0, -0.0), (-0.0, 0.0), a], [(1e9, -1e9), a, (above, 0.0), a, (0.0, -math.inf)]]),
    "gaps": (True, [[a, gap, a, b, gap, b, a, a, gap]]),
    "stuck": (True, [[a] * 9 + [b] * 9]),
    "all_dropped": (True, [[a, gap, b, b, gap]]),
    "most": (True, [[point if k % 50 else gap for k, point in enumerate(most)]]),
    "no_members": (False, []),
    **{f"telemetry_{k}": (k % 4 == 0, [telemetry(40) for _ in range(1 if k % 4 == 0 else k)]) for k in range(24)},
}


def cleaned(chain):
    """The pieces that are kept of a chain, and why each point is dropped: `kept` where it is not."""
    pieces, reasons, piece = [], [], []
    for i, (x, y) in enumerate([*chain, gap]):
        if abs(x) <= 1e9 and abs(y) <= 1e9:
            repeat = piece and chain[piece[-1]] == (x, y)
            reasons.append("repeat" if repeat else "kept")
            piece += [] if repeat else [i]
            continue
        if len(piece) > 1:
            pieces.append([chain[k] for k in piece])
        else:
            reasons = ["short" if k in piece else reason for k, reason in enumerate(reasons)]
        reasons.append("range")
        piece = []
    return pieces, reasons[:-1]


def patterns(points):
    hexed = [struct.pack(">dd", x, y).hex() for x, y in points]
    return "".join(f"{p[:16]} {p[16:]}\n" for p in hexed)


def multi_line_string(chains):
    # of no members by its text: Shapely 1.8 makes a GeometryCollection of an empty list
    return MultiLineString(chains) if chains else wkt.loads("MULTILINESTRING EMPTY")


def members(chains):
    return "".join(f"{len(points)}\n" + patterns(points) for points in chains)


if asked.read:
    read = {}
    for path in sorted([*(out / "multi").glob("*.written"), *(out / "clean").glob("*.cleaned")]):
        shape = wkb.loads(path.read_bytes())
        chains = [list(line.coords) for line in shape.geoms]
        if shape.geom_type != "MultiLineString" or members(chains) != path.with_suffix(".members").read_text():
            sys.exit(f"Shapely reads {path.name} otherwise than it was written")
        read[path.suffix] = read.get(path.suffix, 0) + 1
    library, program = read.get(".written", 0), read.get(".cleaned", 0)
    print(f"Shapely {shapely.__version__} reads {library} MultiLineStrings that the library wrote, and {program} that the cleaning program did")
    sys.exit(0 if library and program else 1)

for folder in ("multi", "clean"):
    (out / folder).mkdir(parents=True, exist_ok=True)
for order in ("little", "big"):
    for name, points in lines.items():
        (out / f"{name}_{order}.wkb").write_bytes(wkb.dumps(LineString(points), big_endian=order == "big"))
        (out / f"{name}_{order}.points").write_text(patterns(points))
    for name, chains in multis.items():
        (out / "multi" / f"{name}_{order}.wkb").write_bytes(wkb.dumps(multi_line_string(chains), big_endian=order == "big"))
        (out / "multi" / f"{name}_{order}.members").write_text(members(chains))
    for name, (line, chains) in dirty.items():
        shape = LineString(chains[0]) if line else multi_line_string(chains)
        kept = [cleaned(chain) for chain in chains]
        (out / "clean" / f"{name}_{order}.wkb").write_bytes(wkb.dumps(shape, big_endian=order == "big"))
        (out / "clean" / f"{name}_{order}.members").write_text(members([piece for pieces, _ in kept for piece in pieces]))
        said = [f"{k} {i} {reason}\n" for k, (_, reasons) in enumerate(kept) for i, reason in enumerate(reasons) if reason != "kept"]
        (out / "clean" / f"{name}_{order}.said").write_text("".join(said))
print(f"Shapely {shapely.__version__}: {2 * len(lines)} LineStrings, {2 * len(multis)} MultiLineStrings and {2 * len(dirty)} chains with gaps in {out}")
