"""The listing that the program prints, read and checked line by line."""

import re
import struct
from typing import NamedTuple

from outlines import Point, Unusable
from refusals import Refused

FURTHEST = 1_001  # proved of every run

# What the program refuses by: the refusal's numbers of a file and of a run.
PRINTED = (*range(1, 11), 12, 13)

ENDS = {
    "still": "the last pass placed nothing",
    "passes": "every pass allowed was used",
    "cap": "250,000 quads are the most",
    "full": "no space was lent for another quad",
}


class Listing(NamedTuple):
    nodes: list  # points
    quads: list  # of four node numbers each, in the order of the listing
    front: int  # edges of the front left
    end: str
    whole: bool
    loops: list  # of node numbers: the front left, without its loops of two


def coordinate(bits):
    """The float of 16 lower-case hexadecimal digits."""
    if not re.fullmatch("[0-9a-f]{16}", bits):
        raise Unusable(f"16 hexadecimal digits are wanted: {bits}")
    x = struct.unpack(">d", bytes.fromhex(bits))[0]
    if not abs(x) <= FURTHEST:
        raise Unusable(f"no node of a run is beyond {FURTHEST:,} either way: {bits} is {x!r}")
    return x


def whole_number(word, below=None):
    """The number that a word says; below a bound, if there is one."""
    if not re.fullmatch("0|[1-9][0-9]{0,8}", word):
        raise Unusable(f"a whole number is wanted: {word}")
    if below is not None and int(word) >= below:
        raise Unusable(f"there is no node {word}")
    return int(word)


def read_first(words):
    """Counts of nodes, quads and front edges, the end, and whether it is whole."""
    if words[:1] == ["refused"] and len(words) == 2 and words[1].isdecimal() and int(words[1]) in PRINTED:
        raise Refused(int(words[1]))
    if words[:1] != ["mesh"] or len(words) != 6 or words[4] not in ENDS or words[5] not in ("whole", "open"):
        raise Unusable("a listing begins with 'mesh', three counts, the end, and 'whole' or 'open'; or with 'refused' and a number")
    return *map(whole_number, words[1:4]), words[4], words[5] == "whole"


def read_row(words, kind, places):
    """What stands after the letter: a node's point, or node numbers."""
    if words[:1] != [kind]:
        raise Unusable(f"a line with '{kind}' is wanted here")
    if kind == "n":
        if len(words) != 3:
            raise Unusable("a node has two coordinates")
        return Point(*map(coordinate, words[1:]))
    if kind == "q" and len(words) != 5:
        raise Unusable("a quad has four nodes")
    if kind == "l" and len(words) < 4:
        raise Unusable("a loop that is listed has three nodes or more")
    return [whole_number(word, below=places) for word in words[1:]]


def read(text):
    """The listing that a text is. Refused if it is a refusal; Unusable, with the line, if it is no listing."""
    rows = [line.split(" ") for line in text.split("\n")]
    if rows[-1] == [""]:
        rows.pop()
    line = 1
    try:
        nodes, quads, front, end, whole = read_first(rows[0] if rows else [])
        loops = len(rows) - 1 - nodes - quads
        if loops < 0 or nodes == 0:
            raise Unusable(f"{nodes:,} nodes and {quads:,} quads are promised, and {len(rows) - 1:,} lines follow")
        if whole and loops:  # where there is none, 'open' says that the outline is unsound
            raise Unusable(f"'whole' is for no loops; lines after the quads: {loops:,}")
        read_rows = {"n": [], "q": [], "l": []}
        for line, kind in enumerate("n" * nodes + "q" * quads + "l" * loops, start=2):
            read_rows[kind].append(read_row(rows[line - 1], kind, nodes))
    except Unusable as error:
        raise Unusable(f"line {line}: {error}") from None
    return Listing(read_rows["n"], read_rows["q"], front, end, whole, read_rows["l"])


def origins(listing):
    """The number of the outline's loop that each node came from, 0 for the outer loop and k + 1 for blind spot k.

    A listing doesn't have the numbers, and they follow from it. The nodes of a quad have one number, and so have those of a loop of the front: that is
    proved of every run. And all nodes of a number hang together so, since an edge of a sampled loop is on the front left, or a quad used it up.
    The samples come loop after loop: numbers rise with the least node of each.
    """
    least = list(range(len(listing.nodes)))

    def find(node):
        while least[node] != node:
            least[node] = least[least[node]]
            node = least[node]
        return node

    for first, *rest in listing.quads + listing.loops:
        for node in rest:
            low, high = sorted((find(first), find(node)))
            least[high] = low
    found = [find(node) for node in range(len(listing.nodes))]
    number = {node: k for k, node in enumerate(sorted(set(found)))}
    return [number[node] for node in found]
