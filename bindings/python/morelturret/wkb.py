"""Well-known binary: LineStrings and MultiLineStrings, read and written.

What the library's readers take they read: LineStrings of at most 1,024 points, and MultiLineStrings of such, of at most 65,536 lines; and so for its
writer. Longer ones are read and written here, by the same rules but for these limits; that part is plain Python. What neither takes is refused by 11, and
`found` says what it is."""
import struct

import numpy as np

from ._library import answer, floats, whole
from .refusal import Refusal

LINE_STRING, MULTI_LINE_STRING = 2, 5
MOST_POINTS = 1024
TOO_MANY_LINES, BAD_LENGTHS, BAD_WKB = 2, 3, 11
TYPES = {1: "a Point", 3: "a Polygon", 4: "a MultiPoint", 6: "a MultiPolygon", 7: "a GeometryCollection"}


def read_wkb(data):
    """The points of a LineString or MultiLineString, and how many of them each member has: x, y, lengths. `data` is bytes, or a Shapely geometry.

    >>> from morelturret import read_wkb, write_wkb
    >>> x, y, lengths = read_wkb(write_wkb([0, 1, 5, 6], [0, 1, 5, 5], [2, 2]))
    >>> x, lengths
    (array([0., 1., 5., 6.]), array([2, 2], dtype=uint32))
    >>> read_wkb(b"LINESTRING (0 0, 1 1)")  # doctest: +ELLIPSIS
    Traceback (most recent call last):
    morelturret.refusal.Refusal: refused 11, value 0: the bytes are no LineString ... (this is text, not well-known binary)
    """
    data = bytes(getattr(data, "wkb", data))
    order, kind = head(data, 0)
    try:
        return by_library(np.frombuffer(data, np.uint8), kind)
    except Refusal as refusal:
        if refusal.number not in (TOO_MANY_LINES, BAD_WKB):
            raise
    if kind == LINE_STRING:
        members = [line_string(data, 0)]
        at = 9 + 16 * len(members[0])
    else:
        count = number(data, 5, order)
        members, at = [], 9
        for k in range(count):
            if at == len(data):
                raise bad(at, f"cut: {count} members were announced, and {k} are there")
            if head(data, at)[1] != LINE_STRING:
                raise bad(at + 1, f"member {k} is no LineString")
            members.append(line_string(data, at))
            at += 9 + 16 * len(members[-1])
    if at != len(data):
        raise bad(at, f"{len(data) - at} bytes follow the last point")
    points = np.concatenate(members) if members else np.empty((0, 2))
    return points[:, 0].copy(), points[:, 1].copy(), whole([len(member) for member in members])


def by_library(data, kind):
    """What the library's reader of this type reads; coordinates of a MultiLineString are bit patterns, so that a NaN keeps its bits."""
    if kind == LINE_STRING:
        x, y = np.empty(MOST_POINTS), np.empty(MOST_POINTS)
        points, *_ = answer("mt_read_line_string", data, x, y)
        return x[:points].copy(), y[:points].copy(), whole([points])
    x, y, lengths = np.empty(len(data) // 16, np.uint64), np.empty(len(data) // 16, np.uint64), np.empty(len(data) // 25, np.uint32)
    points, members, *_ = answer("mt_read_multi_line_string", data, x, y, lengths)
    return x[:points].view(np.float64), y[:points].view(np.float64), lengths[:members]


def write_wkb(x, y, lengths=None):
    """A little-endian MultiLineString of chains, whose points stand one chain after the other; of one chain where there are no lengths."""
    x, y = floats(x), floats(y)
    lengths = whole([len(x)] if lengths is None else lengths)
    written = np.empty(9 + 9 * len(lengths) + 16 * len(x), np.uint8)
    try:
        answer("mt_write_multi_line_string", x.view(np.uint64), y.view(np.uint64), lengths, written)
        return written.tobytes()
    except Refusal as refusal:
        long = refusal.number == TOO_MANY_LINES or (refusal.number == BAD_LENGTHS and (lengths > MOST_POINTS).any())
        if not long or len(x) != len(y) or lengths.sum() != len(x) or (lengths == 0).any():
            raise
    points, ends = np.stack([x, y], axis=1).astype("<f8"), np.cumsum(lengths, dtype=np.int64)
    members = (struct.pack("<BII", 1, LINE_STRING, length) + points[end - length : end].tobytes() for length, end in zip(lengths.tolist(), ends.tolist()))
    return struct.pack("<BII", 1, MULTI_LINE_STRING, len(lengths)) + b"".join(members)


def head(data, at):
    """The byte order and the type of what begins there: a LineString or, at 0, a MultiLineString."""
    if at == len(data):
        raise bad(at, "the input is empty" if at == 0 else "cut")
    if data[at] > 1:
        raise bad(at, text(data) if at == 0 else "a member's byte order is neither 0 nor 1")
    order = "<" if data[at] else ">"
    kind = number(data, at + 1, order)
    if kind not in (LINE_STRING, MULTI_LINE_STRING):
        raise bad(at + 1, other_type(kind, data, at, order))
    return order, kind


def line_string(data, at):
    """The points of the LineString that begins there, as rows."""
    order = "<" if data[at] else ">"
    count = number(data, at + 5, order)
    if count == 0:
        raise bad(at + 5, "a LineString without points")
    there = (len(data) - at - 9) // 16
    if count > there:
        raise bad(len(data), f"cut: {count} points were announced, and {there} are there")
    return np.frombuffer(data, order + "f8", 2 * count, at + 9).reshape(count, 2).astype(float)


def number(data, at, order):
    """The whole number of four bytes that begins there."""
    if at + 4 > len(data):
        raise bad(len(data), "cut within its first bytes")
    return struct.unpack_from(order + "I", data, at)[0]


def bad(at, found):
    return Refusal(BAD_WKB, at, found)


def text(data):
    """What bytes are that begin with no byte order."""
    try:
        line = data.decode("ascii").strip()
    except UnicodeDecodeError:
        return "this is no well-known binary: it begins with neither 0 nor 1"
    if len(line) > 9 and set(line) <= set("0123456789abcdefABCDEF"):
        return "this is well-known binary in hex: take the bytes by bytes.fromhex"
    return "this is text, not well-known binary"


def other_type(kind, data, at, order):
    """What a type that is none of the two stands for: EWKB's flags are 2^31 for Z, 2^30 for M, 2^29 for a SRID; ISO adds 1000 for Z, 2000 for M."""
    if kind & 0x20000000:
        return f"this is EWKB with a SRID ({number(data, at + 5, order)}): write it without one"
    if kind & 0xC0000000 or (kind < 4000 and kind >= 1000):
        has = ("Z" if kind & 0x80000000 or kind // 1000 in (1, 3) else "") + ("M" if kind & 0x40000000 or kind // 1000 in (2, 3) else "")
        return f"its points have {' and '.join(has)} beside x and y: write them with two coordinates"
    return f"this is {TYPES.get(kind, f'of the type {kind}')}, no LineString and no MultiLineString"
