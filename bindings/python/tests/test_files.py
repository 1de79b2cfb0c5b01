"""Files: well-known binary, held to the library's reader and to what was written; tables; and what is said of wrong ones."""
import struct
import unittest

import numpy as np

from morelturret import Refusal, read_wkb, write_wkb
from morelturret._library import answer
from morelturret.files import BadFile, of_bytes

from .shared import EXAMPLES


def line_string(count, order="<", kind=2):
    return struct.pack(order + "BII", order == "<", kind, count) + struct.pack(f"{order}{2 * count}d", *range(2 * count))


def found(data):
    """What is said of bytes that hold no chain."""
    try:
        of_bytes(data)
    except Refusal as refusal:
        return refusal.value, refusal.found
    except BadFile as problem:
        return str(problem)
    raise AssertionError("the bytes were taken")


class WellKnownBinary(unittest.TestCase):
    def test_the_library_reads_the_same(self):
        taken = refused = 0
        for path in sorted(EXAMPLES.glob("*.wkb")):
            data = path.read_bytes()
            x, y = np.empty(1024), np.empty(1024)
            try:
                count, *_ = answer("mt_read_line_string", np.frombuffer(data, np.uint8), x, y)
            except Refusal as refusal:
                if path.stem == "refused_11_too_many_points" or data[1:5] == b"\5\0\0\0":
                    self.assertEqual(sum(read_wkb(data)[2]), len(read_wkb(data)[0]))
                    continue
                with self.assertRaises(Refusal) as here:
                    read_wkb(data)
                self.assertEqual((here.exception.number, here.exception.value), (refusal.number, refusal.value), path)
                refused += 1
            else:
                one, other, lengths = read_wkb(data)
                self.assertEqual((one.tobytes(), other.tobytes(), list(lengths)), (x[:count].tobytes(), y[:count].tobytes(), [count]))
                taken += 1
        self.assertTrue(taken > 5 and refused > 3)

    def test_any_number_of_points(self):
        for order in "<>":
            for count in (1, 1024, 1025, 70_000):
                x, y, lengths = read_wkb(line_string(count, order))
                self.assertEqual((x.tolist(), y[-1], list(lengths)), (list(range(0, 2 * count, 2)), 2 * count - 1, [count]))

    def test_what_was_written_is_read(self):
        for lengths in ([], [1], [3, 1, 2], [1025, 2]):
            x = np.arange(sum(lengths)) + 0.5
            again = read_wkb(write_wkb(x, -x, lengths))
            self.assertEqual([values.tolist() for values in again], [x.tolist(), (-x).tolist(), lengths])
        with self.assertRaises(Refusal):
            write_wkb([1, 2], [1, 2], [3])

    def test_nans_keep_their_bits(self):
        x = np.array([0x7FF0000000000001, 0xFFF8000000000123], np.uint64).view(np.float64)
        data = write_wkb(x, x)
        self.assertEqual(data[18:], np.stack([x, x], axis=1).tobytes())
        self.assertEqual(read_wkb(data)[0].tobytes(), x.tobytes())

    def test_members_of_either_order(self):
        data = struct.pack(">BII", 0, 5, 2) + line_string(2, "<") + line_string(3, ">")
        self.assertEqual(list(read_wkb(data)[2]), [2, 3])

    def test_told_apart(self):
        whole = line_string(3)
        multi = struct.pack("<BII", 1, 5, 2) + line_string(2)
        for data, said in (
            (whole[:-1], (56, "cut: 3 points were announced, and 2 are there")),
            (whole[:3], (3, "cut within its first bytes")),
            (whole + b"\n", (57, "1 bytes follow the last point")),
            (line_string(0), (5, "a LineString without points")),
            (struct.pack("<BI2d", 1, 1, 281.5, 36.25), (1, "this is a Point, no LineString and no MultiLineString")),
            (line_string(2, kind=3), (1, "this is a Polygon, no LineString and no MultiLineString")),
            (line_string(2, kind=77), (1, "this is of the type 77, no LineString and no MultiLineString")),
            (struct.pack("<BIII", 1, 0x20000002, 4326, 2), (1, "this is EWKB with a SRID (4326): write it without one")),
            (line_string(2, kind=0x80000002), (1, "its points have Z beside x and y: write them with two coordinates")),
            (line_string(2, kind=1002), (1, "its points have Z beside x and y: write them with two coordinates")),
            (line_string(2, kind=2002), (1, "its points have M beside x and y: write them with two coordinates")),
            (line_string(2, ">", 3002), (1, "its points have Z and M beside x and y: write them with two coordinates")),
            (multi, (50, "cut: 2 members were announced, and 1 are there")),
            (multi + line_string(2, kind=5), (51, "member 1 is no LineString")),
            (multi + b"\7", (50, "a member's byte order is neither 0 nor 1")),
            (whole[:30].hex().encode(), (30, "cut: 3 points were announced, and 1 are there")),
            (whole.hex().encode()[:-1], "well-known binary in hex, cut: the number of digits is odd"),
            (b"LINESTRING (0 0, 1 1)", "this is well-known text (LINESTRING), not well-known binary: write it with Shapely's wkb.dumps"),
            (b"SRID=4326;MULTILINESTRING EMPTY", "this is well-known text (MULTILINESTRING), not well-known binary: write it with Shapely's wkb.dumps"),
            (b'{"type": "LineString"}', "this is JSON or XML, and no table of columns"),
            (b"\x89PNG\r\n\x1a\n", "this is neither text nor well-known binary, which begins with a byte 0 or 1"),
            (b"", "the input is empty"),
        ):
            with self.subTest(said=said):
                self.assertEqual(found(data), said)


class Tables(unittest.TestCase):
    def test_forms(self):
        for text in ("0,1\n2,3\n4,5\n", "x,y\n0,1\n2,3\n4,5", "0;1\r\n2;3\r\n4;5\r\n", "0 1\n\n# a remark\n2   3\n4 5\n", "\ufeffkelvin\tppb\n0\t1\n2\t3\n4\t5\n", '"x","y"\n0,1\n2,3\n4,5\n'):
            chains = of_bytes(text.encode())
            self.assertEqual((chains.x.tolist(), chains.y.tolist(), list(chains.lengths)), ([0, 2, 4], [1, 3, 5], [3]), text)
        self.assertEqual(of_bytes(b"kelvin,ppb\n1,2\n").names, ["kelvin", "ppb"])
        self.assertIsNone(of_bytes(b"1,2\n").names)
        self.assertEqual(len(of_bytes(b"kelvin,ppb\n").lines), 0)

    def test_orbits_split_chains(self):
        for text in ("0,1,a\n2,3,a\n4,5,b\n6,7,b\n8,9,b\n", "x,y,orbit\n0,1,1\n2,3,1\n4,5,2\n6,7,2\n8,9,2\n", "Orbit;K;ppb\n1;0;1\n1;2;3\n2;4;5\n2;6;7\n2;8;9\n"):
            chains = of_bytes(text.encode())
            self.assertEqual((chains.x.tolist(), chains.y.tolist(), list(chains.lengths)), ([0, 2, 4, 6, 8], [1, 3, 5, 7, 9], [2, 3]))
            self.assertEqual(chains.lines.follows.tolist(), [False, False, True])

    def test_hex(self):
        data = (EXAMPLES / "square.wkb").read_bytes()
        for text in (data.hex(), data.hex().upper() + "\n", data.hex()[:60] + "\n" + data.hex()[60:]):
            self.assertEqual(of_bytes(text.encode()).x.tolist(), [0, 2, 2, 0, 0])

    def test_told_apart(self):
        for data, said in (
            (b"1\n2\n", "row 1 has 1 columns: two are needed, x and y, and perhaps a third, the orbit"),
            (b"1,2,3,4\n", "row 1 has 4 columns: two are needed, x and y, and perhaps a third, the orbit"),
            (b"x,y\n1,2\n3\n", "row 3 has 1 columns, and the first has 2: '3'"),
            (b"x,y\n1,2\n3,\n", "row 3: y is no number: ''"),
            (b"1;2\n1,5;2\n", "row 2: x is no number: '1,5' (a decimal comma?)"),
            (b"orbit,x\n1,2\n", "of two columns one is orbit: x and y are needed"),
            (b"time,kelvin,ppb\n1,2,3\n", "of three columns none is called orbit, chain or pass: time, kelvin, ppb"),
            (b"1,281,36\n2,282,37\n", "the column of the orbit changes from every row to the next, so there is no leg"),
            (b"# nothing\n", "there is no row"),
        ):
            with self.subTest(said=said):
                self.assertEqual(found(data), said)
