"""Files of chains: text with columns, and well-known binary, as bytes or in hex."""
import pathlib
import re
import sys

import numpy as np

from . import wkb
from .lines import Lines
from .refusal import Refusal

ORBIT = re.compile(r"(orbit|chain|pass)(?![a-z])", re.I)  # a column of this name splits the chains


class BadFile(Exception):
    """A file that holds no chain; the message says what it is."""


class Chains:
    """What a file holds: its points x and y, how many each chain has (`lengths`), and the names of the two columns, where it has some."""

    def __init__(self, x, y, lengths, names=None):
        self.x, self.y, self.lengths, self.names = x, y, lengths, names

    @property
    def lines(self):
        return Lines.chains(self.x, self.y, self.lengths)


def read(path):
    """The chains of a file: a table of two columns, with a header or without, and perhaps a third that splits the chains; or well-known binary, as bytes
    or in hex. `-` is standard input."""
    try:
        data = sys.stdin.buffer.read() if path == "-" else pathlib.Path(path).read_bytes()
    except OSError as problem:
        raise BadFile(f"{path} can't be read: {problem.strerror}") from problem
    name = "standard input" if path == "-" else path
    try:
        return of_bytes(data)
    except Refusal as refusal:
        raise BadFile(f"{name}: {refusal.found}; at byte {refusal.value}") from refusal
    except BadFile as problem:
        raise BadFile(f"{name}: {problem}") from problem


def of_bytes(data):
    """The chains of a file's bytes."""
    if not data.strip():
        raise BadFile("the input is empty")
    if data[0] <= 1:
        return Chains(*wkb.read_wkb(data))
    try:
        text = data.decode("utf-8-sig")
    except UnicodeDecodeError as problem:
        raise BadFile("this is neither text nor well-known binary, which begins with a byte 0 or 1") from problem
    if "\0" in text:
        raise BadFile("this is neither text nor well-known binary, which begins with a byte 0 or 1")
    if re.fullmatch(r"\s*0[01][0-9a-fA-F\s]*", text) and len(text.split()[0]) >= 10:
        digits = "".join(text.split())
        if len(digits) % 2:
            raise BadFile("well-known binary in hex, cut: the number of digits is odd")
        return Chains(*wkb.read_wkb(bytes.fromhex(digits)))
    if m := re.match(r"\s*(SRID=\d+;)?\s*((?:MULTI)?(?:LINESTRING|POINT|POLYGON)|GEOMETRYCOLLECTION)\b", text, re.I):
        raise BadFile(f"this is well-known text ({m[2].upper()}), not well-known binary: write it with Shapely's wkb.dumps")
    if text.lstrip()[:1] in "{[<":
        raise BadFile("this is JSON or XML, and no table of columns")
    return table(text)


def table(text):
    """The chains of a table. Columns are parted by commas, semicolons, tabs or blanks; lines that are empty or begin with # are passed over."""
    rows = [(number, row) for number, row in enumerate(text.splitlines(), 1) if row.strip() and not row.lstrip().startswith("#")]
    if not rows:
        raise BadFile("there is no row")
    sign = next((sign for sign in ";\t," if sign in rows[0][1]), None)
    cut = lambda row: [field.strip().strip('"') for field in row.split(sign)]
    head = cut(rows[0][1])
    names = None if any(is_number(field) for field in head[:2]) else head
    if names:
        rows = rows[1:]
    if len(head) not in (2, 3):
        raise BadFile(f"row {rows[0][0] if rows else 1} has {len(head)} columns: two are needed, x and y, and perhaps a third, the orbit")
    orbit = next((k for k, name in enumerate(names or []) if ORBIT.match(name)), 2)
    if len(head) == 2 and orbit < 2:
        raise BadFile(f"of two columns one is {head[orbit]}: x and y are needed")
    if names and len(head) == 3 and not ORBIT.match(head[orbit]):
        raise BadFile(f"of three columns none is called orbit, chain or pass: {', '.join(head)}")
    columns = [k for k in range(len(head)) if k != orbit]
    fields = [cut(row) for _, row in rows]
    for (number, row), some in zip(rows, fields):
        if len(some) != len(head):
            raise BadFile(f"row {number} has {len(some)} columns, and the first has {len(head)}: {row.strip()[:60]!r}")
    x, y = (numbers(rows, [some[k] for some in fields], name) for k, name in zip(columns, "xy"))
    named = [names[k] for k in columns] if names else None
    if len(head) == 2:
        return Chains(x, y, [len(x)] if len(x) else [], named)
    of = np.array([some[orbit] for some in fields])
    first = np.flatnonzero(np.concatenate([[True], of[1:] != of[:-1]])) if len(of) else np.empty(0, int)
    if len(of) > 1 and len(first) == len(of):
        raise BadFile("the column of the orbit changes from every row to the next, so there is no leg")
    return Chains(x, y, np.diff(np.append(first, len(of))), named)


def numbers(rows, fields, name):
    """A column as floats."""
    try:
        return np.array(fields, dtype=np.float64)
    except ValueError:
        number, field = next((number, field) for (number, _), field in zip(rows, fields) if not is_number(field))
        more = " (a decimal comma?)" if re.fullmatch(r"-?\d+,\d+", field) else ""
        raise BadFile(f"row {number}: {name} is no number: {field[:40]!r}{more}") from None


def is_number(field):
    try:
        float(field)
        return True
    except ValueError:
        return False
