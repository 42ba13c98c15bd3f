"""Whether a drawn outline is sound (SCOPE, sound outlines), judged exactly, and in words what isn't.

Coordinates are taken as whole numbers of the smallest float above 0, so nothing is rounded. The loops must have passed refusals 2 to 4.
"""

from fractions import Fraction

UNIT = Fraction(1, 2**1074)


def units(point):
    return tuple(int(Fraction(x) / UNIT) for x in (point.x, point.y))


def turn(a, b, c):
    """Above 0 where c is left of the way from a to b, below 0 where it is right, 0 where it is on the line."""
    return (b[0] - a[0]) * (c[1] - a[1]) - (b[1] - a[1]) * (c[0] - a[0])


def parted(a, b, c, d):
    """Whether c and d are on one side of the line through a and b, neither of them on it."""
    first, second = turn(a, b, c), turn(a, b, d)
    return min(first, second) > 0 or max(first, second) < 0


def meet(a, b, c, d):
    """Whether the segments a to b and c to d have a point in common, ends included."""
    for axis in (0, 1):
        if max(a[axis], b[axis]) < min(c[axis], d[axis]) or max(c[axis], d[axis]) < min(a[axis], b[axis]):
            return False
    return not parted(a, b, c, d) and not parted(c, d, a, b)


def folds_back(a, b, c):
    """Whether the way from a to b and on to c goes back on itself at b."""
    return turn(a, b, c) == 0 and (b[0] - a[0]) * (c[0] - b[0]) + (b[1] - a[1]) * (c[1] - b[1]) < 0


def is_inside(p, ring):
    """Whether the ray from p to the right meets an odd number of the loop's segments."""
    inside = False
    for _, (a, b) in ring.segments:
        if (a[1] > p[1]) != (b[1] > p[1]):
            inside ^= (turn(a, b, p) > 0) == (b[1] > a[1])
    return inside


class Ring:
    """A loop: its places, its segments but those of no length, each with its number, and the lines of its points."""

    def __init__(self, points):
        self.lines = [point.line for point in points]
        self.places = [units(point) for point in points]
        ends = list(enumerate(zip(self.places, self.places[1:] + self.places[:1])))
        self.doubled = [k for k, (a, b) in ends if a == b]
        self.segments = [segment for segment in ends if segment[0] not in self.doubled]
        if not self.segments:
            # Three times one point is sound: each of its segments is the others' neighbour.
            self.segments, self.doubled = ends[:1], self.doubled if len(points) > 3 else []

    def segment(self, k):
        """Segment k in words, by the lines of its ends."""
        return f"from line {self.lines[k]} to line {self.after(k)}"

    def after(self, k):
        """The line of the point after point k."""
        return self.lines[(k + 1) % len(self.lines)]


def touched(one, other):
    """The ends of two segments at which they meet: none where they cross between their ends."""
    return {end for end in one if meet(end, end, *other)} | {end for end in other if meet(end, end, *one)}


def faults_within(ring):
    """A place at which segments meet is said once, however many of them end there."""
    for k in ring.doubled:
        yield f"line {ring.after(k)} repeats the point of line {ring.lines[k]}"
    n, seen = len(ring.segments), set()
    for j in range(n):
        for i in range(j):
            (first, (a, b)), (second, (c, d)) = ring.segments[i], ring.segments[j]
            which = f"the segments {ring.segment(first)} and {ring.segment(second)}"
            if (j == i + 1 and folds_back(a, b, d)) or ((j + 1) % n == i and folds_back(c, d, b)):
                yield f"{which} lie on each other"
            elif j != i + 1 and (j + 1) % n != i and meet(a, b, c, d):
                places = touched((a, b), (c, d))
                if not places & seen:
                    yield f"{which} meet"
                seen |= places


def touching(ring, other):
    """Segments of the two loops that meet, in words, or None."""
    for i, (a, b) in ring.segments:
        for j, (c, d) in other.segments:
            if meet(a, b, c, d):
                return f"the segments {ring.segment(i)} and {other.segment(j)}, of two loops, meet"
    return None


def misplaced(hole, other, is_outer):
    """Of a hole and another loop that touch nothing of each other, so that any one point decides: what is wrong, in words, or None."""
    name = f"the blind spot at line {hole.lines[0]}"
    if is_outer:
        return None if is_inside(hole.places[0], other) else f"{name} isn't inside the outer outline"
    if is_inside(hole.places[0], other):
        return f"{name} lies in that at line {other.lines[0]}"
    return f"the blind spot at line {other.lines[0]} lies in that at line {hole.lines[0]}" if is_inside(other.places[0], hole) else None


def faults(loops):
    """In words, by line, what makes the outline unsound: nothing where it is sound."""
    rings = list(map(Ring, loops))
    for k, ring in enumerate(rings):
        yield from faults_within(ring)
        for place, other in enumerate(rings[:k]):
            fault = touching(other, ring) or misplaced(ring, other, is_outer=place == 0)
            if fault:
                yield fault
