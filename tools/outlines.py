"""Outlines: their points as text, the file of 512-byte blocks that the program reads, and what the program will refuse.

An outline is a list of loops, the outer one first; a loop is a list of points.
"""

import bisect
import collections
import math
import re
import struct
from typing import NamedTuple

from refusals import Refused

# ---- SCOPE's limits, and what the program lends

MOST_LOOPS = 8
MOST_POINTS = 248
POINTS_A_BLOCK = 31
BLOCK = 512
CHECKED = 510
TWO_BYTES = 65_536

FURTHEST = 1_000
LEAST_SIZE, MOST_SIZE = 0.01, 100
MOST_SWEEPS = 1_000
MOST_FIELD_NODES = 250_000
FIELD_NODES_LENT = 1_600
NODES_LENT = 800


class Unusable(Exception):
    """What can't be read or written, in words."""


class Point(NamedTuple):
    x: float
    y: float
    line: int = 0  # of the text that it was read from

    def __str__(self):
        return (f"line {self.line}: " if self.line else "") + f"{self.x!r},{self.y!r}"


class Settings(NamedTuple):
    size: float
    sweeps: int = 400
    passes: int = 600


# ---- points as text
#
# The command reads the same format by the library's proved entry, sitjorbe_read_points.

NUMBER = re.compile(r"[-+]?(\d+\.?\d*|\.\d+)(e[-+]?\d+)?|[-+]?(inf|infinity|nan)", re.ASCII | re.IGNORECASE)
CONTROL = re.compile("[\x00-\x1f\x7f-\x9f]")
LONGEST_NAME = 40  # longer ones aren't taken from comments
LONGEST_SHOWN = 60  # of a line that can't be read
IN_A_LOOP = "put a blank line before it if a new loop begins there, or take the comment out if the loop goes on"
BESIDE = ' \t"'  # what may stand beside a word
CLOSES = "so it is left out: a loop closes by itself"


class Field(NamedTuple):
    """A field as it was read: the loops, the outer one first, a name for each, and what the operator should know of how it was read."""
    loops: list
    names: list
    notes: list


def number(word, separator=","):
    """The float that a word says, or None; with semicolons or tabs between x and y it may have a decimal comma."""
    word = word.replace("\u2212", "-")
    if separator != "," and word.count(",") == 1 and "." not in word:
        word = word.replace(",", ".")
    return float(word) if NUMBER.fullmatch(word) else None


def shown(row, separator):
    """A row as it is shown on a terminal: no more than fits, and nothing that a terminal would obey."""
    whole = separator.replace("\t", " ").join(row)
    return CONTROL.sub("?", whole[:LONGEST_SHOWN]) + (".." if len(whole) > LONGEST_SHOWN else "")


def is_tabbed(told):
    """Whether a line has words with a tab between, and no comma beside it."""
    words = [word.strip(BESIDE) for word in told.strip(BESIDE).split("\t")]
    return len(words) > 1 and not any(word.startswith(",") or word.endswith(",") for word in words)


def is_heading(row, separator):
    """Whether a first row is a heading: two words that begin with a letter and aren't numbers."""
    def letter(word):
        return word[:1].isalpha() if word[:1].isascii() else word != ""

    return len(row) == 2 and all(letter(word) and number(word, separator) is None for word in row)


def read_point(row, line, separator):
    """The point of a row, or Unusable with what is wrong."""
    if len(row) != 2:
        values = "one value" if len(row) == 1 else f"{len(row)} values"
        between = {";": "semicolon", "\t": "tab", ",": "comma"}[separator]
        hint = "; if the decimals have commas, put ; between x and y" if len(row) == 4 and separator == "," else ""
        raise Unusable(f"{values}, where x and y are wanted with a {between} between: {shown(row, separator)}{hint}")
    for name, word in zip("xy", row):
        if not word:
            raise Unusable(f"{name} is missing")
        if number(word, separator) is None:
            raise Unusable(f"{name} isn't a number: {shown([word], separator)}")
    return Point(number(row[0], separator), number(row[1], separator), line)


def name_in(comment):
    """The name in a comment: its first clause without an article, where that is short; else None."""
    clause = re.split("[,:;(]", comment.lstrip("#"))[0].split(". ")[0]
    words = [word for word in re.split('[ "]', CONTROL.sub(" ", clause)) if word]
    if len(words) > 1 and words[0].lower() in ("the", "a", "an", "its"):
        del words[0]
    name = " ".join(words).rstrip(".")
    return name if name and len(name) <= LONGEST_NAME else None


def names_of(named):
    """A name for each loop; those that would be alike are numbered."""
    names = [name or ("blind spot" if place else "outline") for place, name in enumerate(named)]
    counts, places = collections.Counter(names), collections.Counter()
    for k, name in enumerate(names):
        places[name] += 1
        if counts[name] > 1:
            names[k] = f"{name} {places[name]}"
    return names


class Reader:
    """Reads a text line by line."""

    def __init__(self, separator):
        self.separator = separator
        self.loops, self.named, self.notes, self.wrong = [], [], [], []
        self.between = True  # whether the next point begins a loop
        self.pending = None  # the first of the comments right before this line: its line, and the name in it
        self.heading = False

    def read(self, line, whole):
        told, mark, comment = whole.partition("#")
        row = [word.strip(BESIDE) for word in told.split(self.separator)]
        while len(row) > 2 and not row[-1]:  # columns that a table has and a point hasn't
            row.pop()
        if any(row):
            self.row(line, row)
        elif mark:
            self.pending = self.pending or (line, name_in(comment))
        else:
            self.between, self.pending = True, None

    def row(self, line, row):
        first = not (self.loops or self.wrong or self.heading)
        if first and is_heading(row, self.separator):
            self.heading = True
            self.notes.append(f"line {line}: taken for a heading: {shown(row, self.separator)}")
            return
        try:
            point = read_point(row, line, self.separator)
        except Unusable as error:
            self.wrong.append(f"line {line}: {error}" + ("; if it is a heading, put # before it" if first else ""))
            return
        if self.between:
            self.loops.append([])
            self.named.append(self.pending and self.pending[1])
            self.between = False
        elif self.pending:
            self.wrong.append(f"line {self.pending[0]}: a comment between two points: {IN_A_LOOP}")
        self.pending = None
        self.loops[-1].append(point)

    def close(self):
        """The field; Unusable names every line that can't be read."""
        if self.wrong:
            raise Unusable("\n".join(self.wrong))
        for points in self.loops:
            first, last = points[0], points[-1]
            if len(points) > 1 and (first.x, first.y) == (last.x, last.y):
                points.pop()
                self.notes.append(f"line {last.line}: it repeats the point of line {first.line}, {CLOSES}")
        return Field(self.loops, names_of(self.named), self.notes)


def read_field(text):
    """The field that a text says."""
    lines = text.split("\n")
    told = [line.partition("#")[0] for line in lines]
    separator = ";" if any(";" in line for line in told) else "\t" if any(map(is_tabbed, told)) else ","
    reader = Reader(separator)
    for line, whole in enumerate(lines, start=1):
        reader.read(line, whole)
    return reader.close()


def read_points(text):
    """The outline that a text says."""
    return read_field(text).loops


# ---- the file


def check_of(block):
    """SCOPE's check over bytes 0 to 509."""
    return sum((place + 1) * byte for place, byte in enumerate(block[:CHECKED])) % 65_521


def sealed(contents):
    """A block: its contents, zeros, and the check."""
    block = contents.ljust(CHECKED, b"\0")
    return block + struct.pack("<H", check_of(block))


def check_room(loops, settings):
    """Unusable where the file has no room for what is asked."""
    points = sum(map(len, loops))
    if not loops:
        raise Unusable("there are no points: draw an outline of at least three")
    if len(loops) > MOST_LOOPS:
        raise Unusable(f"{len(loops)} loops, and the file has room for {MOST_LOOPS}: the outer outline and seven blind spots")
    if points > MOST_POINTS:
        raise Unusable(f"{points:,} points, and the file has room for {MOST_POINTS}: leave some out")
    for name in ("sweeps", "passes"):
        if not 0 <= getattr(settings, name) < TWO_BYTES:
            raise Unusable(f"{getattr(settings, name):,} {name}, and the file has room for 0 to 65,535")


def to_blocks(loops, settings):
    """The file of an outline and settings; Unusable where it has no room for them."""
    check_room(loops, settings)
    counts = [settings.sweeps, settings.passes, len(loops), *map(len, loops)]
    blocks = [struct.pack(f"<d{len(counts)}H", settings.size, *counts)]
    points = [point for points in loops for point in points]
    for start in range(0, len(points), POINTS_A_BLOCK):
        blocks.append(b"".join(struct.pack("<2d", p.x, p.y) for p in points[start:start + POINTS_A_BLOCK]))
    return b"".join(map(sealed, blocks))


def block_at(data, place):
    """The contents of a block that is there in full (13) and whose check is right (12)."""
    block = data[BLOCK * place:BLOCK * (place + 1)]
    if len(block) < BLOCK:
        raise Refused(13, f"block {place + 1} is absent or shorter than {BLOCK} bytes")
    if struct.unpack("<H", block[CHECKED:])[0] != check_of(block):
        raise Refused(12, f"block {place + 1}")
    return block[:CHECKED]


def read_head(block):
    """Settings and the loops' lengths."""
    size, sweeps, passes, count = struct.unpack_from("<d3H", block)
    if not 1 <= count <= MOST_LOOPS:
        raise Refused(13, f"{count} loops")
    lengths = struct.unpack_from(f"<{count}H", block, 14)
    if sum(lengths) > MOST_POINTS:
        raise Refused(13, f"{sum(lengths):,} points")
    if any(block[14 + 2 * count:]):
        raise Refused(13, "block 1 has more than zeros after the loops' lengths")
    return Settings(size, sweeps, passes), lengths


def from_blocks(data):
    """Outline and settings of a file, or Refused with 12 or 13."""
    settings, lengths = read_head(block_at(data, 0))
    points, place = [], 1
    while len(points) < sum(lengths):
        block, here = block_at(data, place), min(POINTS_A_BLOCK, sum(lengths) - len(points))
        if any(block[16 * here:]):
            raise Refused(13, f"block {place + 1} has more than zeros after its last point")
        points += [Point(x, y) for x, y in struct.iter_unpack("<2d", block[:16 * here])]
        place += 1
    if len(data) > BLOCK * place:
        raise Refused(13, "something follows the last block")
    rest = iter(points)
    return [[next(rest) for _ in range(length)] for length in lengths], settings


# ---- what the program will refuse


def check_loops(loops):
    """2 and 3 loop by loop, then 4 over all loops."""
    for place, points in enumerate(loops):
        if len(points) < 3:
            lines = [p.line for p in points if p.line]
            raise Refused(2, f"loop {place + 1}, of {len(points)}" + (f", at line {lines[0]}" if lines else ""))
        for point in points:
            if not (math.isfinite(point.x) and math.isfinite(point.y)):
                raise Refused(3, str(point))
    for points in loops:
        for point in points:
            if max(abs(point.x), abs(point.y)) > FURTHEST:
                raise Refused(4, str(point))


def extents(loops):
    """Width and height of the bounding box over all loops."""
    points = [point for points in loops for point in points]
    xs, ys = [p.x for p in points], [p.y for p in points]
    return max(xs) - min(xs), max(ys) - min(ys)


def field_nodes(loops, size):
    """The nodes of the field's grid."""
    width, height = extents(loops)
    h = 0.5 * size
    while True:
        nodes = (max(math.ceil(width / h), 2) + 3) * (max(math.ceil(height / h), 2) + 3)
        if nodes <= MOST_FIELD_NODES:
            return nodes
        h *= 1.25


def distance(a, b):
    """The reference's: each operation rounded once, where math.dist rounds less."""
    dx, dy = a.x - b.x, a.y - b.y
    return math.sqrt(dx * dx + dy * dy)


def sampled_nodes(loops, size):
    """The nodes of the sampled outline: an odd loop gets one more."""
    def parts(points):
        return sum(max(math.ceil(distance(a, b) / (1.05 * size)), 1) for a, b in zip(points, points[1:] + points[:1]))

    return sum(parts(points) + parts(points) % 2 for points in loops)


def fits(loops, size):
    return field_nodes(loops, size) <= FIELD_NODES_LENT and sampled_nodes(loops, size) <= NODES_LENT


def advice(loops, size):
    """The least size, in hundredths, at which the outline fits what the program lends."""
    sizes = range(math.ceil(100 * size), 100 * MOST_SIZE + 1)
    place = bisect.bisect_left(sizes, True, key=lambda hundredths: fits(loops, hundredths / 100))
    return f"; size {sizes[place] / 100:g} fits" if place < len(sizes) else "; no size fits, so draw it smaller"


def check(loops, settings):
    """Refused with the number that the program will answer for this outline and these settings, if it will refuse them."""
    check_loops(loops)
    size = settings.size
    if not (math.isfinite(size) and size > 0):
        raise Refused(5)
    if not LEAST_SIZE <= size <= MOST_SIZE:
        raise Refused(6)
    if 0 in extents(loops):
        raise Refused(7)
    if settings.sweeps > MOST_SWEEPS:
        raise Refused(8)
    if field_nodes(loops, size) > FIELD_NODES_LENT:
        counts = f"{field_nodes(loops, size):,} field nodes; the program lends {FIELD_NODES_LENT:,}"
        raise Refused(9, counts + advice(loops, size))
    if sampled_nodes(loops, size) > NODES_LENT:
        counts = f"{sampled_nodes(loops, size):,} nodes; the program lends {NODES_LENT}"
        raise Refused(10, counts + advice(loops, size))
