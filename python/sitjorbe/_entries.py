"""The entries of the library as ctypes calls them. Written by tools/bindings from the Rattle source; the package calls them, and gives lists and words."""

from ctypes import POINTER, Structure, c_bool, c_double, c_int32, c_size_t, c_uint8, c_uint16, c_uint32, c_uint64  # noqa: F401

VERSION = "0.3.0"
ABI = 5

# ---- numbers

MOST_THRESHOLD = 500  # The greatest threshold, in tenths of a decibel.
NO_THRESHOLD = 65535  # What the list holds where no threshold stands; anything above SITJORBE_MOST_THRESHOLD means the same.
MOST_WEIGHT = 256  # The greatest weight of an estimate: all the way across a quad.
DESK = 1  # Role: the desk, which begins an exam, enters and withdraws, and reads everything.
READER = 2  # Role: a reader, who reads everything.
MASKED_READER = 3  # Role: a masked reader, who reads nodes, quads and loops.
BEGIN = 1  # Operation: begin the exam.
ENTER = 2  # Operation: enter a node's threshold, or replace it.
WITHDRAW = 3  # Operation: withdraw a node's threshold.
READ_NODE = 4  # Operation: read a node.
READ_QUAD = 5  # Operation: read a quad.
READ_LOOP = 6  # Operation: read a loop of the front.
READ_THRESHOLD = 7  # Operation: read a node's threshold.
READ_FIGURES = 8  # Operation: read both figures.
READ_ESTIMATE = 9  # Operation: read an estimate.
OFF = 4294967295  # What `next` and `prev` hold for a node off the front.
MOST_QUADS = 250000  # The most quads of a run.
MOST_POINTS = 4096  # The most points that an outline may have, in all its loops together; one with more is refused.
STEPS_PER_DEGREE = 64  # How many steps make a degree.

ENDS = {
    0: "still",
    1: "passes",
    2: "cap",
    3: "full",
}
OUTCOMES = {
    0: "placed",
    1: "none",
    2: "full",
    3: "cap",
}

REFUSALS = {
    1: "refused (1): the outline's lists don't fit together: lend x and y for every point, hole lengths that add up to the hole points, and at most 4,096 points in all",
    2: "refused (2): a loop has fewer than three points: draw at least three, or leave the loop out",
    3: "refused (3): a coordinate is infinite or not a number: look for a division by zero or a missing reading where the outline and the point come from",
    4: "refused (4): a coordinate is beyond 1,000 either way: move the drawing nearer to the origin or use a larger unit",
    5: "refused (5): the element size isn't a number above 0: set one from 0.01 to 100",
    6: "refused (6): the element size is below 0.01 or above 100: set one between them, or change the unit",
    7: "refused (7): the outline has no width or no height: draw points that aren't all in one row or column",
    8: "refused (8): more than 1,000 sweeps are asked for: ask for 1,000 or fewer",
    9: "refused (9): the field has more nodes than were lent: set a larger size, or lend longer lists",
    10: "refused (10): the sampled outline has more nodes or loops than the lent lists have places: set a larger size, or lend longer lists",
    11: "refused (11): the field record isn't one: hand over the record, values and marks as the field entry answered them",
    12: "refused (12): a block of the file has a wrong check: the file is damaged, so fetch it again, or write it anew from the outline",
    13: "refused (13): the file has a wrong length, a wrong count, or something where zeros belong: write it anew from the outline, with 1 to 8 loops, at most 248 points in all, and nothing after the last block",
    14: "refused (14): the list for the answers is too short, or those of points and targets don't fit together: lend three floats for each point, x and y for every point and as many targets, and a place for each node of a loop that is read",
    15: "refused (15): the node isn't in the mesh, or is past the lent list of thresholds: count nodes from 0, and lend a place for each",
    16: "refused (16): the threshold is above 500: give it in tenths of a decibel, 0 to 500; to take one back, withdraw it",
    17: "refused (17): no threshold stands at the node: enter one first, or look whether it was withdrawn already",
    18: "refused (18): the quad isn't in the mesh, or lacks a threshold: count quads from 0, and enter the thresholds of all its nodes",
    19: "refused (19): a weight is above 256: give weights from 0 to 256, which is all the way across the quad",
    20: "refused (20): the role is unknown or lacks the operation: ask as the desk (1), a reader (2) or a masked reader (3), and as a role that may ask this",
    21: "refused (21): the order leaves a quad out, names one twice or names one that isn't there: name every quad of the mesh exactly once, counted from 0",
    22: "refused (22): a quad stands before one that laid a front edge which it used up: move it after every such quad, or keep the order in which the quads were placed",
    23: "refused (23): the lent mesh isn't sound, or the list lent beside it is too short: hand over lists and counts as a run or the last step left them, with every coordinate within 1,001 either way; lend two numbers for each front edge and four more for a preview, and two places a node for steps",
    24: "refused (24): the edge isn't on the front: name a node of the front and the node after it, in that order",
    25: "refused (25): a quad doesn't turn left at all four corners in steps of 1/64 degree, so the bowl can't show it: set a larger size, or draw the outline so that no part of it is narrower than a step",
    26: "refused (26): the list is too short for every small quad: lend four places for each, 14,944 in all",
    27: "refused (27): a quad doesn't turn left by more than 20 degrees at all four corners: give its nodes in the order that runs round it to the left, and no corner that is flat or folded in",
    28: "refused (28): a side of a quad stands twice, or isn't just one of these, the sampled outline's or another quad's run back: look for a quad left out, given twice, or laid over others",
    29: "refused (29): an edge of the sampled outline is no quad's side: look for quads left out along the outline",
    30: "refused (30): a node isn't the sampled outline's, bit for bit: begin the mesh with the sampled outline's nodes, in their order and unmoved",
    31: "refused (31): a line of the points file can't be read: write x and y there with a comma or a semicolon between, or put # before it",
}


# ---- answers


class ContainsAnswer(Structure):
    """The answer of `sitjorbe_contains`. `refusal` is the refusal's number, 0 where nothing is refused. The values of a refused query are false, 0.0 or 0."""

    _fields_ = [
        ("refusal", c_uint32),  # the refusal's number, 0 where nothing is refused
        ("inside", c_bool),  # whether the point is inside the outer loop and outside every hole
    ]


class NearestAnswer(Structure):
    """The answer of `sitjorbe_nearest_segment`."""

    _fields_ = [
        ("refusal", c_uint32),  # the refusal's number, 0 where nothing is refused
        ("ax", c_double),  # x of the segment's first end
        ("ay", c_double),  # y of the segment's first end
        ("bx", c_double),  # x of its other end
        ("by", c_double),  # y of its other end
        ("distance", c_double),  # from the point to the nearest segment of the outline
        ("loop_index", c_size_t),  # the segment's loop: 0 for the outer one, k + 1 for hole k
        ("segment_index", c_size_t),  # the segment's place in its loop: 0 from the loop's first point to its second, in the order lent
    ]


class DistanceAnswer(Structure):
    """The answer of `sitjorbe_distance_to_boundary`."""

    _fields_ = [
        ("refusal", c_uint32),  # the refusal's number, 0 where nothing is refused
        ("distance", c_double),  # from the point to the nearest segment of the outline
    ]


class SoundAnswer(Structure):
    """The answer of `sitjorbe_sound`."""

    _fields_ = [
        ("refusal", c_uint32),  # the refusal's number, 0 where nothing is refused
        ("sound", c_bool),  # whether the outline is sound
    ]


class FieldRecordAnswer(Structure):
    """The answer of `sitjorbe_field`. A field record's floats and counts; its values and marks are in the lists lent. `refusal` is the refusal's number, 0 where nothing is refused; on a refusal all else is 0."""

    _fields_ = [
        ("refusal", c_uint32),  # the refusal's number, 0 where nothing is refused
        ("xmin", c_double),  # the grid's left column
        ("ymin", c_double),  # the grid's lowest row
        ("h", c_double),  # the distance of two neighbours of the grid
        ("nx", c_size_t),  # nodes in a row of the grid
        ("ny", c_size_t),  # nodes in a column of the grid
    ]


class DirectionAnswer(Structure):
    """The answer of `sitjorbe_direction`."""

    _fields_ = [
        ("refusal", c_uint32),  # the refusal's number, 0 where nothing is refused
        ("x", c_double),  # the direction's first coordinate
        ("y", c_double),  # the direction's second coordinate
    ]


class PlacesAnswer(Structure):
    """The answer of `sitjorbe_places`. `refusal` is the refusal's number, 0 where nothing is refused; on a refusal both counts are 0."""

    _fields_ = [
        ("refusal", c_uint32),  # the refusal's number, 0 where nothing is refused
        ("field_nodes", c_size_t),  # how many nodes the field has; with fewer places refusal 9
        ("sampled_nodes", c_size_t),  # how many nodes the sampled outline has, and as many edges; with fewer places for either refusal 10
    ]


class PaveAnswer(Structure):
    """The answer of `sitjorbe_pave`. A run's end (0 still, 1 passes, 2 cap, 3 full) and whether it is whole, its field record's floats and counts, how many nodes, quads, distinct edges and front edges it has, how many loops of the front are listed, and the ids in all of them. All else is in the lists lent. All is 0 on a refusal."""

    _fields_ = [
        ("refusal", c_uint32),  # the refusal's number, 0 where nothing is refused
        ("end", c_uint32),  # how the paving ended
        ("whole", c_bool),  # whether the mesh is whole; otherwise it is open
        ("xmin", c_double),  # the grid's left column
        ("ymin", c_double),  # the grid's lowest row
        ("h", c_double),  # the distance of two neighbours of the grid
        ("nx", c_size_t),  # nodes in a row of the grid
        ("ny", c_size_t),  # nodes in a column of the grid
        ("nodes", c_uint32),  # how many nodes there are
        ("quads", c_size_t),  # how many quads there are
        ("edges", c_size_t),  # how many distinct edges there are
        ("front", c_size_t),  # how many edges the front has
        ("loops", c_size_t),  # how many loops of the front are listed
        ("ids", c_size_t),  # how many node numbers the listed loops have in all
    ]


class CoversAnswer(Structure):
    """The answer of `sitjorbe_covers`. `refusal` is 0 where nothing is refused; `place` is the quad, edge or node that 27 to 30 name. Stays a number beside a place: the C interface answers this struct."""

    _fields_ = [
        ("refusal", c_uint32),  # the refusal's number, 0 where nothing is refused
        ("place", c_size_t),  # the lowest quad on refusals 27 and 28, the first node of the lowest edge on 29, the first node on 30
        ("sound", c_bool),  # whether the outline as drawn is sound, where nothing is refused
    ]


class StepAnswer(Structure):
    """The answer of `sitjorbe_step`. What became of the edge (0 placed, 1 none, 2 full, 3 cap), and how many nodes, quads, distinct edges and front edges there are after it. All is 0 on a refusal."""

    _fields_ = [
        ("refusal", c_uint32),  # the refusal's number, 0 where nothing is refused
        ("outcome", c_uint32),  # what became of the edge, or would: 0 placed, 1 none, 2 full, 3 cap
        ("nodes", c_uint32),  # how many nodes there are
        ("quads", c_size_t),  # how many quads there are
        ("edges", c_size_t),  # how many distinct edges there are
        ("front", c_size_t),  # how many edges the front has
    ]


class PreviewAnswer(Structure):
    """The answer of `sitjorbe_preview`. What would become of the edge; the quad that would be placed, how many of its nodes would be new, and where: corners c and d have 0 for coordinates where they aren't new, and all of the quad is 0 where none would be placed; and how many front edges there would be. All is 0 on a refusal."""

    _fields_ = [
        ("refusal", c_uint32),  # the refusal's number, 0 where nothing is refused
        ("outcome", c_uint32),  # what became of the edge, or would: 0 placed, 1 none, 2 full, 3 cap
        ("a", c_uint32),  # the quad's first node
        ("b", c_uint32),  # its second node
        ("d", c_uint32),  # its third node
        ("c", c_uint32),  # its fourth node
        ("new_nodes", c_uint32),  # how many of the quad's nodes would be new
        ("cx", c_double),  # x of c where it would be new
        ("cy", c_double),  # y of c where it would be new
        ("dx", c_double),  # x of d where it would be new
        ("dy", c_double),  # y of d where it would be new
        ("front", c_size_t),  # how many edges the front has
    ]


class ExamAnswer(Structure):
    """The answer of `sitjorbe_exam` and `sitjorbe_exam_read`. The reply as it crosses: `refusal` is 0 where nothing is refused; what isn't asked for is 0."""

    _fields_ = [
        ("refusal", c_uint32),  # the refusal's number, 0 where nothing is refused
        ("x", c_double),  # the node's first coordinate
        ("y", c_double),  # the node's second coordinate
        ("a", c_uint32),  # the quad's first node
        ("b", c_uint32),  # its second node
        ("d", c_uint32),  # its third node
        ("c", c_uint32),  # its fourth node
        ("length", c_size_t),  # how many nodes the loop has
        ("threshold", c_uint32),  # in tenths of a decibel
        ("count", c_uint32),  # how many quads have all four thresholds
        ("sum", c_uint32),  # the sum of those quads' thresholds
        ("estimate", c_uint32),  # in tenths of a decibel
        ("origin", c_uint32),  # the number of the outline's loop that the node came from
    ]


class OrderAnswer(Structure):
    """The answer of `sitjorbe_order`. `refusal` is 0 where the list is accepted; 21 where some quad is absent, repeated or unknown; 22 where the quad at `place` stands too early."""

    _fields_ = [
        ("refusal", c_uint32),  # the refusal's number, 0 where nothing is refused
        ("place", c_size_t),  # where in the order a quad stands too early, on refusal 22
    ]


class BowlStepsAnswer(Structure):
    """The answer of `sitjorbe_bowl_steps`. `refusal` is 23 or 25, 0 where nothing is refused; `quad` is the lowest quad that the bowl can't show, where 25 says so."""

    _fields_ = [
        ("refusal", c_uint32),  # the refusal's number, 0 where nothing is refused
        ("quad", c_size_t),  # the lowest quad that the bowl can't show, on refusal 25
    ]


class SmallQuadsAnswer(Structure):
    """The answer of `sitjorbe_small_quads`. `refusal` is 26 where the lent list is too short, 0 otherwise; `count` is how many fours are listed."""

    _fields_ = [
        ("refusal", c_uint32),  # the refusal's number, 0 where nothing is refused
        ("count", c_size_t),  # how many small quads are listed
    ]


class PointsAnswer(Structure):
    """The answer of `sitjorbe_read_points`. What is answered of a text. `refusal` is 31 for a fault of the text, 14 where a list is too short, or 0. Of the faults, of which there are `faults`, the one asked for has its kind, line and column, and `leads` says that no row stands before it. `separator` is the byte between x and y, and `heading` the line of the heading, or 0. `points` and `loops` say how many there are, where nothing is wrong with the text."""

    _fields_ = [
        ("refusal", c_uint32),  # the refusal's number, 0 where nothing is refused
        ("fault", c_uint32),  # on refusal 31 what is wrong: 1 not two values, 2 x is missing, 3 y is missing, 4 x isn't a number, 5 y isn't a number, 6 a comment between two points of a loop, 7 more than 268,435,456 bytes
        ("line", c_size_t),  # the fault's line, from 1
        ("column", c_size_t),  # the fault's column in bytes, from 1
        ("leads", c_bool),  # whether no row stands before the fault's
        ("faults", c_size_t),  # how many faults the text has
        ("separator", c_uint32),  # the byte between x and y: 44 for a comma, 59 for a semicolon, 9 for a tab
        ("heading", c_size_t),  # the line of the heading, 0 where there is none
        ("points", c_size_t),  # how many points there are
        ("loops", c_size_t),  # how many loops there are
    ]


# ---- entries

ENTRIES = {
    "sitjorbe_abi_5": (c_uint32, [
    ]),
    "sitjorbe_contains": (ContainsAnswer, [
        ("outer", POINTER(c_double)),
        ("outer_len", c_size_t),
        ("holes", POINTER(c_double)),
        ("holes_len", c_size_t),
        ("hole_lengths", POINTER(c_size_t)),
        ("hole_lengths_len", c_size_t),
        ("x", c_double),
        ("y", c_double),
    ]),
    "sitjorbe_nearest_segment": (NearestAnswer, [
        ("outer", POINTER(c_double)),
        ("outer_len", c_size_t),
        ("holes", POINTER(c_double)),
        ("holes_len", c_size_t),
        ("hole_lengths", POINTER(c_size_t)),
        ("hole_lengths_len", c_size_t),
        ("x", c_double),
        ("y", c_double),
    ]),
    "sitjorbe_distance_to_boundary": (DistanceAnswer, [
        ("outer", POINTER(c_double)),
        ("outer_len", c_size_t),
        ("holes", POINTER(c_double)),
        ("holes_len", c_size_t),
        ("hole_lengths", POINTER(c_size_t)),
        ("hole_lengths_len", c_size_t),
        ("x", c_double),
        ("y", c_double),
    ]),
    "sitjorbe_sound": (SoundAnswer, [
        ("outer", POINTER(c_double)),
        ("outer_len", c_size_t),
        ("holes", POINTER(c_double)),
        ("holes_len", c_size_t),
        ("hole_lengths", POINTER(c_size_t)),
        ("hole_lengths_len", c_size_t),
    ]),
    "sitjorbe_directions": (c_uint32, [
        ("xmin", c_double),
        ("ymin", c_double),
        ("h", c_double),
        ("nx", c_size_t),
        ("ny", c_size_t),
        ("values", POINTER(c_double)),
        ("values_len", c_size_t),
        ("marks", POINTER(c_uint8)),
        ("marks_len", c_size_t),
        ("points", POINTER(c_double)),
        ("points_len", c_size_t),
        ("targets", POINTER(c_double)),
        ("targets_len", c_size_t),
        ("answers", POINTER(c_double)),
        ("answers_len", c_size_t),
    ]),
    "sitjorbe_field": (FieldRecordAnswer, [
        ("outer", POINTER(c_double)),
        ("outer_len", c_size_t),
        ("holes", POINTER(c_double)),
        ("holes_len", c_size_t),
        ("hole_lengths", POINTER(c_size_t)),
        ("hole_lengths_len", c_size_t),
        ("size", c_double),
        ("sweeps", c_size_t),
        ("values", POINTER(c_double)),
        ("values_len", c_size_t),
        ("marks", POINTER(c_uint8)),
        ("marks_len", c_size_t),
        ("blocks", POINTER(c_uint32)),
        ("blocks_len", c_size_t),
    ]),
    "sitjorbe_direction": (DirectionAnswer, [
        ("xmin", c_double),
        ("ymin", c_double),
        ("h", c_double),
        ("nx", c_size_t),
        ("ny", c_size_t),
        ("values", POINTER(c_double)),
        ("values_len", c_size_t),
        ("marks", POINTER(c_uint8)),
        ("marks_len", c_size_t),
        ("x", c_double),
        ("y", c_double),
        ("tx", c_double),
        ("ty", c_double),
    ]),
    "sitjorbe_places": (PlacesAnswer, [
        ("outer", POINTER(c_double)),
        ("outer_len", c_size_t),
        ("holes", POINTER(c_double)),
        ("holes_len", c_size_t),
        ("hole_lengths", POINTER(c_size_t)),
        ("hole_lengths_len", c_size_t),
        ("size", c_double),
    ]),
    "sitjorbe_pave": (PaveAnswer, [
        ("outer", POINTER(c_double)),
        ("outer_len", c_size_t),
        ("holes", POINTER(c_double)),
        ("holes_len", c_size_t),
        ("hole_lengths", POINTER(c_size_t)),
        ("hole_lengths_len", c_size_t),
        ("size", c_double),
        ("sweeps", c_size_t),
        ("passes", c_size_t),
        ("values", POINTER(c_double)),
        ("values_len", c_size_t),
        ("marks", POINTER(c_uint8)),
        ("marks_len", c_size_t),
        ("xs", POINTER(c_double)),
        ("xs_len", c_size_t),
        ("ys", POINTER(c_double)),
        ("ys_len", c_size_t),
        ("next", POINTER(c_uint32)),
        ("next_len", c_size_t),
        ("prev", POINTER(c_uint32)),
        ("prev_len", c_size_t),
        ("snapshot", POINTER(c_uint32)),
        ("snapshot_len", c_size_t),
        ("origins", POINTER(c_uint16)),
        ("origins_len", c_size_t),
        ("quads", POINTER(c_uint32)),
        ("quads_len", c_size_t),
        ("edges", POINTER(c_uint32)),
        ("edges_len", c_size_t),
        ("loops", POINTER(c_uint32)),
        ("loops_len", c_size_t),
        ("loop_lengths", POINTER(c_uint32)),
        ("loop_lengths_len", c_size_t),
        ("node_pool", POINTER(c_uint32)),
        ("node_pool_len", c_size_t),
        ("edge_pool", POINTER(c_uint32)),
        ("edge_pool_len", c_size_t),
        ("blocks", POINTER(c_uint32)),
        ("blocks_len", c_size_t),
        ("tried", POINTER(c_uint32)),
        ("tried_len", c_size_t),
    ]),
    "sitjorbe_covers": (CoversAnswer, [
        ("outer", POINTER(c_double)),
        ("outer_len", c_size_t),
        ("holes", POINTER(c_double)),
        ("holes_len", c_size_t),
        ("hole_lengths", POINTER(c_size_t)),
        ("hole_lengths_len", c_size_t),
        ("size", c_double),
        ("xs", POINTER(c_double)),
        ("xs_len", c_size_t),
        ("ys", POINTER(c_double)),
        ("ys_len", c_size_t),
        ("quads", POINTER(c_uint32)),
        ("quads_len", c_size_t),
        ("node_count", c_uint32),
        ("quad_count", c_size_t),
        ("sampled_xs", POINTER(c_double)),
        ("sampled_xs_len", c_size_t),
        ("sampled_ys", POINTER(c_double)),
        ("sampled_ys_len", c_size_t),
        ("sampled_next", POINTER(c_uint32)),
        ("sampled_next_len", c_size_t),
        ("sampled_prev", POINTER(c_uint32)),
        ("sampled_prev_len", c_size_t),
        ("sampled_edges", POINTER(c_uint32)),
        ("sampled_edges_len", c_size_t),
        ("keys", POINTER(c_uint64)),
        ("keys_len", c_size_t),
    ]),
    "sitjorbe_step": (StepAnswer, [
        ("outer", POINTER(c_double)),
        ("outer_len", c_size_t),
        ("holes", POINTER(c_double)),
        ("holes_len", c_size_t),
        ("hole_lengths", POINTER(c_size_t)),
        ("hole_lengths_len", c_size_t),
        ("size", c_double),
        ("xmin", c_double),
        ("ymin", c_double),
        ("h", c_double),
        ("nx", c_size_t),
        ("ny", c_size_t),
        ("values", POINTER(c_double)),
        ("values_len", c_size_t),
        ("marks", POINTER(c_uint8)),
        ("marks_len", c_size_t),
        ("xs", POINTER(c_double)),
        ("xs_len", c_size_t),
        ("ys", POINTER(c_double)),
        ("ys_len", c_size_t),
        ("next", POINTER(c_uint32)),
        ("next_len", c_size_t),
        ("prev", POINTER(c_uint32)),
        ("prev_len", c_size_t),
        ("origins", POINTER(c_uint16)),
        ("origins_len", c_size_t),
        ("quads", POINTER(c_uint32)),
        ("quads_len", c_size_t),
        ("edges", POINTER(c_uint32)),
        ("edges_len", c_size_t),
        ("node_count", c_uint32),
        ("quad_count", c_size_t),
        ("edge_count", c_size_t),
        ("front_count", c_size_t),
        ("a", c_uint32),
        ("b", c_uint32),
    ]),
    "sitjorbe_preview": (PreviewAnswer, [
        ("outer", POINTER(c_double)),
        ("outer_len", c_size_t),
        ("holes", POINTER(c_double)),
        ("holes_len", c_size_t),
        ("hole_lengths", POINTER(c_size_t)),
        ("hole_lengths_len", c_size_t),
        ("size", c_double),
        ("xmin", c_double),
        ("ymin", c_double),
        ("h", c_double),
        ("nx", c_size_t),
        ("ny", c_size_t),
        ("values", POINTER(c_double)),
        ("values_len", c_size_t),
        ("marks", POINTER(c_uint8)),
        ("marks_len", c_size_t),
        ("xs", POINTER(c_double)),
        ("xs_len", c_size_t),
        ("ys", POINTER(c_double)),
        ("ys_len", c_size_t),
        ("next", POINTER(c_uint32)),
        ("next_len", c_size_t),
        ("prev", POINTER(c_uint32)),
        ("prev_len", c_size_t),
        ("origins", POINTER(c_uint16)),
        ("origins_len", c_size_t),
        ("quads", POINTER(c_uint32)),
        ("quads_len", c_size_t),
        ("edges", POINTER(c_uint32)),
        ("edges_len", c_size_t),
        ("node_count", c_uint32),
        ("quad_count", c_size_t),
        ("edge_count", c_size_t),
        ("front_count", c_size_t),
        ("a", c_uint32),
        ("b", c_uint32),
        ("list", POINTER(c_uint32)),
        ("list_len", c_size_t),
    ]),
    "sitjorbe_exam": (ExamAnswer, [
        ("role", c_uint32),
        ("operation", c_uint32),
        ("item", c_uint32),
        ("value", c_uint32),
        ("u", c_uint32),
        ("v", c_uint32),
        ("nodes", c_uint32),
        ("xs", POINTER(c_double)),
        ("xs_len", c_size_t),
        ("ys", POINTER(c_double)),
        ("ys_len", c_size_t),
        ("quad_count", c_size_t),
        ("quads", POINTER(c_uint32)),
        ("quads_len", c_size_t),
        ("next", POINTER(c_uint32)),
        ("next_len", c_size_t),
        ("prev", POINTER(c_uint32)),
        ("prev_len", c_size_t),
        ("origins", POINTER(c_uint16)),
        ("origins_len", c_size_t),
        ("thresholds", POINTER(c_uint16)),
        ("thresholds_len", c_size_t),
        ("count", POINTER(c_uint32)),
        ("sum", POINTER(c_uint32)),
        ("reply", POINTER(c_uint32)),
        ("reply_len", c_size_t),
    ]),
    "sitjorbe_exam_read": (ExamAnswer, [
        ("role", c_uint32),
        ("operation", c_uint32),
        ("item", c_uint32),
        ("u", c_uint32),
        ("v", c_uint32),
        ("nodes", c_uint32),
        ("xs", POINTER(c_double)),
        ("xs_len", c_size_t),
        ("ys", POINTER(c_double)),
        ("ys_len", c_size_t),
        ("quad_count", c_size_t),
        ("quads", POINTER(c_uint32)),
        ("quads_len", c_size_t),
        ("next", POINTER(c_uint32)),
        ("next_len", c_size_t),
        ("prev", POINTER(c_uint32)),
        ("prev_len", c_size_t),
        ("origins", POINTER(c_uint16)),
        ("origins_len", c_size_t),
        ("thresholds", POINTER(c_uint16)),
        ("thresholds_len", c_size_t),
        ("count", POINTER(c_uint32)),
        ("sum", POINTER(c_uint32)),
        ("reply", POINTER(c_uint32)),
        ("reply_len", c_size_t),
    ]),
    "sitjorbe_order": (OrderAnswer, [
        ("quad_count", c_size_t),
        ("quads", POINTER(c_uint32)),
        ("quads_len", c_size_t),
        ("order", POINTER(c_uint32)),
        ("order_len", c_size_t),
        ("places", POINTER(c_size_t)),
        ("places_len", c_size_t),
        ("pool", POINTER(c_uint32)),
        ("pool_len", c_size_t),
    ]),
    "sitjorbe_bowl_steps": (BowlStepsAnswer, [
        ("xs", POINTER(c_double)),
        ("xs_len", c_size_t),
        ("ys", POINTER(c_double)),
        ("ys_len", c_size_t),
        ("next", POINTER(c_uint32)),
        ("next_len", c_size_t),
        ("prev", POINTER(c_uint32)),
        ("prev_len", c_size_t),
        ("origins", POINTER(c_uint16)),
        ("origins_len", c_size_t),
        ("quads", POINTER(c_uint32)),
        ("quads_len", c_size_t),
        ("edges", POINTER(c_uint32)),
        ("edges_len", c_size_t),
        ("node_count", c_uint32),
        ("quad_count", c_size_t),
        ("edge_count", c_size_t),
        ("front_count", c_size_t),
        ("steps", POINTER(c_int32)),
        ("steps_len", c_size_t),
    ]),
    "sitjorbe_small_quads": (SmallQuadsAnswer, [
        ("fours", POINTER(c_uint32)),
        ("fours_len", c_size_t),
    ]),
    "sitjorbe_read_points": (PointsAnswer, [
        ("text", POINTER(c_uint8)),
        ("text_len", c_size_t),
        ("which", c_size_t),
        ("coordinates", POINTER(c_double)),
        ("coordinates_len", c_size_t),
        ("lines", POINTER(c_size_t)),
        ("lines_len", c_size_t),
        ("point_counts", POINTER(c_size_t)),
        ("point_counts_len", c_size_t),
        ("loop_marks", POINTER(c_size_t)),
        ("loop_marks_len", c_size_t),
    ]),
}


def declare(library):
    """Tells ctypes what each entry takes and answers; a parameter NAME_len is the length of the list NAME."""
    for name, (answer, takes) in ENTRIES.items():
        entry = getattr(library, name)
        entry.restype, entry.argtypes = answer, [kind for _, kind in takes]
    return library
