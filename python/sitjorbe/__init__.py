"""Sitjorbe for Python: visual fields paved with quads by the proved library, with ctypes and nothing else.

    >>> import sitjorbe
    >>> mesh = sitjorbe.pave([(0, 0), (2, 0), (2, 2), (0, 2)], size=1)
    >>> len(mesh.nodes), len(mesh.quads), mesh.whole, mesh.end
    (9, 4, True, 'still')
    >>> [int(node) for node in mesh.quads[0]]
    [0, 1, 8, 7]
    >>> exam = mesh.exam()
    >>> for node in range(9):
    ...     exam.enter(node, 300 + node)
    >>> exam.figures
    (4, 4876)
    >>> exam.estimate(0, 128, 128)
    304
    >>> mesh.order([3])  # it uses up front edges that the others laid
    [0, 1, 2, 3]
    >>> mesh.check_cover()  # each point of the outline is in just one quad
    True

Points are x and y in degrees, x to the right and y up from fixation, as pairs or as an array of shape (n, 2). Where numpy is there lists come back as arrays of the
shapes that are named; otherwise as lists of tuples and of numbers. Nodes, quads and loops count from 0. What is refused raises Refused, with the refusal's number and
words. The library is libsitjorbe.so beside this file, or the file that SITJORBE_LIBRARY names.
"""

from __future__ import annotations

import ctypes
import heapq
import os
import pathlib

from . import _entries
from ._entries import MOST_POINTS, MOST_THRESHOLD, MOST_WEIGHT, NO_THRESHOLD, OFF, REFUSALS, STEPS_PER_DEGREE

try:
    import numpy
except ImportError:
    numpy = None

__version__ = _entries.VERSION
__all__ = ["Exam", "Mesh", "Outline", "Refused", "check_cover", "pave", "MOST_POINTS", "MOST_THRESHOLD", "MOST_WEIGHT", "STEPS_PER_DEGREE"]

_PLACE = os.environ.get("SITJORBE_LIBRARY") or pathlib.Path(__file__).with_name("libsitjorbe.so")
_library = _entries.declare(ctypes.CDLL(str(_PLACE)))


class Refused(ValueError):
    """A refusal: `number` is the library's, and the words say what is wrong and what to do."""

    def __init__(self, number, more=""):
        super().__init__(REFUSALS.get(number, f"refused ({number})") + more)
        self.number = number


# ---- lists and calls


def _floats(points):
    """The coordinates of points, x then y, as the library takes them."""
    if numpy is not None:
        flat = numpy.ascontiguousarray(points, dtype=numpy.float64)
        if flat.size and (flat.ndim != 2 or flat.shape[1] != 2):
            raise ValueError(f"points have the shape (n, 2), not {flat.shape}")
        made = (ctypes.c_double * flat.size)()
        ctypes.memmove(made, flat.ctypes.data, flat.nbytes)
        return made
    pairs = [(float(x), float(y)) for x, y in points]
    return (ctypes.c_double * (2 * len(pairs)))(*(number for pair in pairs for number in pair))


def _numbers(kind, numbers):
    numbers = [int(number) for number in numbers]
    return (kind * len(numbers))(*numbers)


def _given(made, count, width=1):
    """The first places of a list, width of them to an item: an array, or a list."""
    if numpy is not None:
        flat = numpy.ctypeslib.as_array(made)[:count * width].copy() if count else numpy.zeros(0, dtype=made._type_)
        return flat.reshape(count, width) if width > 1 else flat
    flat = made[:count * width]
    return [tuple(flat[k:k + width]) for k in range(0, len(flat), width)] if width > 1 else flat


def _call(name, **given):
    """Calls an entry with its parameters by name: a list is one, and a number that is written is of a ctypes type."""
    arguments = []
    for parameter, kind in _entries.ENTRIES[name][1]:
        if parameter.endswith("_len"):
            arguments.append(len(given[parameter.removesuffix("_len")]))
        else:
            value = given[parameter]
            arguments.append(ctypes.cast(ctypes.byref(value), kind) if isinstance(value, (ctypes.Array, ctypes._SimpleCData)) else value)
    return getattr(_library, name)(*arguments)


def _asked(name, **given):
    """The same, with a refusal raised."""
    answer = _call(name, **given)
    if answer.refusal:
        raise Refused(answer.refusal)
    return answer


# ---- outlines


class Outline:
    """The outline of a visual field: an outer loop, and any number of holes in it, as blind spots are.

    `points` and each of `holes` are pairs, or an array of shape (n, 2), in degrees. A loop closes by itself, and may run either way round. Any points make an
    outline: what can't be used is refused when something is asked of it.
    """

    def __init__(self, points, holes=()):
        loops = [_floats(loop) for loop in holes]
        self._lists = {"outer": _floats(points), "holes": (ctypes.c_double * sum(map(len, loops)))(*(number for loop in loops for number in loop)),
                       "hole_lengths": _numbers(ctypes.c_size_t, [len(loop) // 2 for loop in loops])}

    @property
    def is_sound(self):
        """Whether no two segments meet but neighbours at their common end, and every hole lies inside the outer loop and apart from others; judged exactly."""
        return _asked("sitjorbe_sound", **self._lists).sound

    def contains(self, x, y):
        """Whether a point is inside the outer loop and outside every hole."""
        return _asked("sitjorbe_contains", **self._lists, x=x, y=y).inside

    def distance(self, x, y):
        """The distance in degrees from a point to the nearest segment."""
        return _asked("sitjorbe_distance_to_boundary", **self._lists, x=x, y=y).distance

    def nearest_segment(self, x, y):
        """The nearest segment: its loop (0 is the outer one, k + 1 hole k), its place in the loop, its ends, and its distance in degrees."""
        found = _asked("sitjorbe_nearest_segment", **self._lists, x=x, y=y)
        return found.loop_index, found.segment_index, (found.ax, found.ay), (found.bx, found.by), found.distance

    def pave(self, size, sweeps=400, passes=600):
        """Paves the outline: see `pave`."""
        return Mesh(self, size, sweeps, passes)


def pave(outline, size, sweeps=400, passes=600):
    """Paves an outline with quads whose sides are about `size` degrees, 0.01 to 100, and answers a Mesh.

    `outline` is an Outline, or the points of one without holes. The field is made with at most `sweeps` sweeps, up to 1,000; the paving goes round the front at most
    `passes` times, up to 600. Memory is made as it is wanted. Raises Refused with the numbers 1 to 8.
    """
    return (outline if isinstance(outline, Outline) else Outline(outline)).pave(size, sweeps, passes)


# ---- meshes


class Mesh:
    """A mesh that a run made.

    nodes    each node's x and y in degrees, shape (n, 2)
    quads    each quad's nodes a, b, d, c, in the order round it, shape (q, 4), as they were placed
    edges    each distinct edge's nodes, the smaller first, shape (e, 2)
    origins  the outline's loop that each node came from, shape (n,): 0 for the outer one, k + 1 for hole k
    loops    the rings of three nodes or more round what is left open: a list of lists of nodes
    whole    whether nothing is left open and the outline is sound
    end      how the run ended: "still", "passes" or "cap"
    front    how many edges the front has
    outline  and size: what it was made of
    """

    def __init__(self, outline, size, sweeps=400, passes=600):
        self.outline, self.size = outline, size
        answer, growth = None, 1
        while answer is None or _entries.ENDS[answer.end] == "full":
            lists = _lists_for(outline, size, growth)
            answer = _asked("sitjorbe_pave", **outline._lists, size=size, sweeps=sweeps, passes=passes, **lists)
            growth *= 2
        self._lists, self._answer = lists, answer
        self.nodes = _paired(lists["xs"], lists["ys"], answer.nodes)
        self.quads, self.edges = _given(lists["quads"], answer.quads, 4), _given(lists["edges"], answer.edges, 2)
        self.origins = _given(lists["origins"], answer.nodes)
        self.loops, start = [], 0
        for length in lists["loop_lengths"][:answer.loops]:
            self.loops.append(lists["loops"][start:start + length])
            start += length
        self.whole, self.end, self.front = answer.whole, _entries.ENDS[answer.end], answer.front

    def exam(self):
        """Begins an Exam on the mesh."""
        return Exam(self)

    def check_order(self, order):
        """Raises Refused where the quads may not be tested in this order: with 21 where some quad is absent, repeated or unknown, and with 22 where one stands before a
        quad that laid a front edge which it used up."""
        count, order = self._answer.quads, _numbers(ctypes.c_uint32, order)
        answer = _call("sitjorbe_order", quad_count=count, quads=self._lists["quads"], order=order, places=(ctypes.c_size_t * count)(),
                       pool=(ctypes.c_uint32 * (8 * count + 2))())
        if answer.refusal:
            raise Refused(answer.refusal, f" (place {answer.place})" if answer.refusal == 22 else "")

    def order(self, wish=()):
        """An order in which the quads may be tested, as near as may be to a wish: a list of quads. Those that it doesn't name come last; what isn't a quad is passed
        over. A wish that may be tested comes back as it is."""
        quads = [tuple(int(node) for node in quad) for quad in self.quads]
        rank = {quad: place for place, quad in reversed(list(enumerate(map(int, wish))))}
        users = {}
        for number, (a, b, d, c) in enumerate(quads):
            for edge in ((a, b), (b, d), (c, a)):
                users.setdefault(edge, []).append(number)
        after = [[later for edge in ((d, b), (c, d), (a, c)) for later in users.get(edge, ()) if later > number] for number, (a, b, d, c) in enumerate(quads)]
        waits = [0] * len(quads)
        for later in (later for those in after for later in those):
            waits[later] += 1
        free = [(rank.get(quad, len(rank) + len(wish)), quad) for quad in range(len(quads)) if waits[quad] == 0]
        heapq.heapify(free)
        order = []
        while free:
            _, quad = heapq.heappop(free)
            order.append(quad)
            for later in after[quad]:
                waits[later] -= 1
                if waits[later] == 0:
                    heapq.heappush(free, (rank.get(later, len(rank) + len(wish)), later))
        self.check_order(order)
        return order

    def check_cover(self):
        """See `check_cover`: of an open mesh the lowest quad or edge that is wrong is refused."""
        return check_cover(self.outline, self.size, self.nodes, self.quads)

    def bowl_steps(self):
        """The nodes in whole steps of the motor bowl, 1/64 degree each, shape (n, 2). Raises Refused with 25 where a quad can't be shown."""
        answer, lists = self._answer, self._lists
        steps = (ctypes.c_int32 * (2 * answer.nodes))()
        _asked("sitjorbe_bowl_steps", node_count=answer.nodes, quad_count=answer.quads, edge_count=answer.edges, front_count=answer.front, steps=steps, **lists)
        return _given(steps, answer.nodes, 2)


def check_cover(outline, size, nodes, quads):
    """Whether the quads of a mesh, whatever made it, cover each point of an outline, as a run of this size samples it, once; answers whether the outline is sound.

    `nodes` begin with the sampled outline's, in their order; a quad's nodes run round it to the left. Raises Refused with 1 to 7, with 10 where the mesh has fewer
    nodes than the sampled outline, with 23 where it isn't sound, and with 27 to 30 for the lowest quad, edge or node that is wrong.
    """
    outline, flat = outline if isinstance(outline, Outline) else Outline(outline), _floats(nodes)
    ids, count = _numbers(ctypes.c_uint32, (node for quad in quads for node in quad)), len(flat) // 2
    places = min(_asked("sitjorbe_places", **outline._lists, size=size).sampled_nodes, count)
    answer = _call("sitjorbe_covers", **outline._lists, size=size, xs=(ctypes.c_double * count)(*flat[0::2]), ys=(ctypes.c_double * count)(*flat[1::2]), quads=ids,
                   node_count=count, quad_count=len(ids) // 4, sampled_xs=(ctypes.c_double * places)(), sampled_ys=(ctypes.c_double * places)(),
                   sampled_next=(ctypes.c_uint32 * places)(), sampled_prev=(ctypes.c_uint32 * places)(), sampled_edges=(ctypes.c_uint32 * (2 * places))(),
                   keys=(ctypes.c_uint64 * len(ids))())
    if answer.refusal:
        raise Refused(answer.refusal, f" ({answer.place})" if answer.refusal in (27, 28, 29, 30) else "")
    return answer.sound


def _lists_for(outline, size, growth):
    """The lists of a run: those that it can't do without, and places for so many times a guess of its quads."""
    given, least = outline._lists, _asked("sitjorbe_places", **outline._lists, size=size)
    quads = min(growth * (least.sampled_nodes + least.field_nodes // 4), _entries.MOST_QUADS)
    nodes, edges = least.sampled_nodes + 2 * quads, least.sampled_nodes + 3 * quads
    return {
        "values": (ctypes.c_double * (2 * least.field_nodes))(), "marks": (ctypes.c_uint8 * least.field_nodes)(),
        "xs": (ctypes.c_double * nodes)(), "ys": (ctypes.c_double * nodes)(), "origins": (ctypes.c_uint16 * nodes)(),
        "quads": (ctypes.c_uint32 * (4 * quads))(), "edges": (ctypes.c_uint32 * (2 * edges))(),
        "loop_lengths": (ctypes.c_uint32 * (len(given["hole_lengths"]) + 1))(), "node_pool": (ctypes.c_uint32 * (4 * nodes))(),
        "edge_pool": (ctypes.c_uint32 * (16 * edges))(), "blocks": (ctypes.c_uint32 * (len(given["outer"]) + len(given["holes"])))(),
        "tried": (ctypes.c_uint32 * (3 * nodes))(), **{name: (ctypes.c_uint32 * nodes)() for name in ("next", "prev", "snapshot", "loops")},
    }


def _paired(xs, ys, count):
    """Coordinates from two lists, shape (count, 2)."""
    if numpy is not None:
        return numpy.column_stack([_given(xs, count), _given(ys, count)])
    return list(zip(xs[:count], ys[:count]))


# ---- exams


class Exam:
    """An exam on a mesh: thresholds in tenths of a decibel come and go, a node each, and both figures are kept.

    The mesh isn't changed. `role` may be "desk", "reader" or "masked reader"; what a role lacks is refused with 20.
    """

    _ROLES = {"desk": _entries.DESK, "reader": _entries.READER, "masked reader": _entries.MASKED_READER}

    def __init__(self, mesh):
        self.mesh = mesh
        self._results = {"thresholds": (ctypes.c_uint16 * mesh._answer.nodes)(), "count": ctypes.c_uint32(), "sum": ctypes.c_uint32()}
        self._ask("desk", _entries.BEGIN)

    def _ask(self, role, operation, item=0, value=0, u=0, v=0):
        lists, answer = self.mesh._lists, self.mesh._answer
        mesh = {name: lists[name] for name in ("xs", "ys", "quads", "next", "prev", "origins")}
        return _asked("sitjorbe_exam", role=self._ROLES[role], operation=operation, item=item, value=value, u=u, v=v, nodes=answer.nodes, quad_count=answer.quads,
                      reply=(ctypes.c_uint32 * 0)(), **mesh, **self._results)

    def enter(self, node, threshold):
        """Enters a node's threshold, 0 to 500 tenths of a decibel, or replaces it. Refused with 15 or 16."""
        self._ask("desk", _entries.ENTER, node, threshold)

    def withdraw(self, node):
        """Withdraws a node's threshold. Refused with 15 or 17."""
        self._ask("desk", _entries.WITHDRAW, node)

    def threshold(self, node, role="desk"):
        """The threshold at a node. Refused with 15, or 17 where none stands."""
        return self._ask(role, _entries.READ_THRESHOLD, node).threshold

    @property
    def figures(self):
        """How many quads have all four thresholds, and the sum of those quads' thresholds, a node counted once for each such quad."""
        return self._results["count"].value, self._results["sum"].value

    @property
    def thresholds(self):
        """The thresholds by node, shape (n,); above 500 where none stands."""
        return _given(self._results["thresholds"], self.mesh._answer.nodes)

    def estimate(self, quad, u, v, role="desk"):
        """The estimate in a quad a, b, d, c in tenths of a decibel, at the weights u, from a towards b, and v, from a towards c, each 0 to 256. Refused with 18 or 19."""
        return self._ask(role, _entries.READ_ESTIMATE, quad, u=u, v=v).estimate
