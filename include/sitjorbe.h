/*
 * Sitjorbe: verified geometry for a paved visual field, from outline to quads. Version 0.3.0, shape 5.
 *
 * Written by tools/bindings from the Rattle source. docs/INTEGRATION.md says how to call; "SCOPE" in a comment is what
 * docs/SCOPE.md and docs/FORMATS.md set out. For x86-64 Linux, C11 or C++17, and later.
 *
 * A list is lent as a pointer and a length, which counts elements; with a length of 0 the pointer may be NULL. A pointer without a
 * length is that of one number. Pointers are aligned as their types ask. What is lent for writing (no const) overlaps nothing else
 * that is lent to the same call.
 *
 * That is all an entry asks: whatever the lists hold and the numbers are, it is proved to end and to read and write nothing but
 * what was lent. What can't be used is refused: the answer's first field is the refusal's number, the others are 0 or say where,
 * and nothing lent is changed but scratch. Nothing is allocated and nothing is kept between calls, so calls that share no list that
 * is written may run at once. Floats are rounded to nearest, with no flush to zero, as they are unless a program asks otherwise.
 */
#ifndef SITJORBE_H
#define SITJORBE_H

#include <stddef.h>
#include <stdint.h>
#ifndef __cplusplus
#include <stdbool.h>
#endif

#define SITJORBE_VERSION "0.3.0"
#define SITJORBE_ABI 5

#ifdef __cplusplus
#define SITJORBE_ASSERT(fact) static_assert(fact, "another layout than the library's: " #fact)
#else
#define SITJORBE_ASSERT(fact) _Static_assert(fact, "another layout than the library's: " #fact)
#endif

#if defined(__GNUC__)
#define SITJORBE_MUST_USE __attribute__((warn_unused_result))
#else
#define SITJORBE_MUST_USE
#endif

#ifdef __cplusplus
extern "C" {
#endif

SITJORBE_ASSERT(sizeof(size_t) == 8);
SITJORBE_ASSERT(sizeof(bool) == 1);
SITJORBE_ASSERT(sizeof(double) == 8);

/* ---- numbers */

/** The greatest threshold, in tenths of a decibel. */
#define SITJORBE_MOST_THRESHOLD 500

/** What the list holds where no threshold stands; anything above SITJORBE_MOST_THRESHOLD means the same. */
#define SITJORBE_NO_THRESHOLD 65535

/** The greatest weight of an estimate: all the way across a quad. */
#define SITJORBE_MOST_WEIGHT 256

/** Role: the desk, which begins an exam, enters and withdraws, and reads everything. */
#define SITJORBE_DESK 1

/** Role: a reader, who reads everything. */
#define SITJORBE_READER 2

/** Role: a masked reader, who reads nodes, quads and loops. */
#define SITJORBE_MASKED_READER 3

/** Operation: begin the exam. */
#define SITJORBE_BEGIN 1

/** Operation: enter a node's threshold, or replace it. */
#define SITJORBE_ENTER 2

/** Operation: withdraw a node's threshold. */
#define SITJORBE_WITHDRAW 3

/** Operation: read a node. */
#define SITJORBE_READ_NODE 4

/** Operation: read a quad. */
#define SITJORBE_READ_QUAD 5

/** Operation: read a loop of the front. */
#define SITJORBE_READ_LOOP 6

/** Operation: read a node's threshold. */
#define SITJORBE_READ_THRESHOLD 7

/** Operation: read both figures. */
#define SITJORBE_READ_FIGURES 8

/** Operation: read an estimate. */
#define SITJORBE_READ_ESTIMATE 9

/** What `next` and `prev` hold for a node off the front. */
#define SITJORBE_OFF 4294967295u

/** The most quads of a run. */
#define SITJORBE_MOST_QUADS 250000u

/** The most points that an outline may have, in all its loops together; one with more is refused. */
#define SITJORBE_MOST_POINTS 4096

/** How many steps make a degree. */
#define SITJORBE_STEPS_PER_DEGREE 64

enum sitjorbe_refusal {
    /**
     * A coordinate list of odd length, hole lengths that don't add up to the hole points, or more than 4,096 points.
     */
    SITJORBE_REFUSED_LISTS = 1,
    /** A loop of fewer than three points. */
    SITJORBE_REFUSED_SHORT_LOOP = 2,
    /** A coordinate not finite, in the outline or in a query's point. */
    SITJORBE_REFUSED_NOT_FINITE = 3,
    /** A coordinate beyond 1,000 either way, in the outline or in a query's point. */
    SITJORBE_REFUSED_TOO_FAR = 4,
    /** A size not finite, or not above 0. */
    SITJORBE_REFUSED_NO_SIZE = 5,
    /** A size below 0.01 or above 100. */
    SITJORBE_REFUSED_SIZE_OUT_OF_RANGE = 6,
    /** An outline whose bounding box has no width or no height. */
    SITJORBE_REFUSED_FLAT = 7,
    /** More than 1,000 sweeps. */
    SITJORBE_REFUSED_TOO_MANY_SWEEPS = 8,
    /** The field has more nodes than were lent. */
    SITJORBE_REFUSED_FIELD_NEEDS_SPACE = 9,
    /**
     * The sampled outline has more nodes than the lent node places or edge places, or more loops than there are places
     * for their lengths.
     */
    SITJORBE_REFUSED_FRONT_NEEDS_SPACE = 10,
    /** A field record that isn't one. */
    SITJORBE_REFUSED_NO_FIELD_RECORD = 11,
    /** A file's block has a wrong check. */
    SITJORBE_REFUSED_WRONG_CHECK = 12,
    /** A file with a wrong length, count or fill. */
    SITJORBE_REFUSED_WRONG_FILE = 13,
    /**
     * A list for answers that is too short, or lists of points and targets that differ in length or end in half a
     * point.
     */
    SITJORBE_REFUSED_ANSWER_LISTS = 14,
    /** A node id that isn't in the mesh, or is past the lent list of thresholds. */
    SITJORBE_REFUSED_NO_NODE = 15,
    /** A threshold above 500. */
    SITJORBE_REFUSED_THRESHOLD_TOO_HIGH = 16,
    /** A withdrawal where no threshold stands. */
    SITJORBE_REFUSED_NO_THRESHOLD = 17,
    /** A quad that isn't in the mesh, or lacks a threshold where its estimate is asked for. */
    SITJORBE_REFUSED_NO_QUAD = 18,
    /** A weight above 256. */
    SITJORBE_REFUSED_WEIGHT_TOO_HIGH = 19,
    /** An unknown role, or an operation that its role lacks. */
    SITJORBE_REFUSED_NOT_ALLOWED = 20,
    /** A presentation order in which some quad is absent, repeated or unknown. */
    SITJORBE_REFUSED_NOT_EACH_ONCE = 21,
    /** A presentation order in which a quad stands before one that laid a front edge which it used up. */
    SITJORBE_REFUSED_TOO_EARLY = 22,
    /** A lent mesh that isn't sound, or a list lent beside it that is too short. */
    SITJORBE_REFUSED_UNSOUND_MESH = 23,
    /** An edge that isn't on the front. */
    SITJORBE_REFUSED_NOT_ON_FRONT = 24,
    /** A quad that doesn't turn left at all four corners in steps of the bowl. */
    SITJORBE_REFUSED_NOT_SHOWN = 25,
    /** The lent list is too short for every small quad. */
    SITJORBE_REFUSED_FOURS_NEED_SPACE = 26,
    /** A quad that doesn't turn left by more than 20 degrees at all four corners. */
    SITJORBE_REFUSED_FOLDED_QUAD = 27,
    /**
     * A quad with a side that another has in the same direction, or that is neither the sampled outline's nor another's
     * run back, or both.
     */
    SITJORBE_REFUSED_WRONG_SIDE = 28,
    /** An edge of the sampled outline that is no quad's side. */
    SITJORBE_REFUSED_UNLAID_EDGE = 29,
    /** A node that isn't the sampled outline's. */
    SITJORBE_REFUSED_MOVED_NODE = 30,
    /** A points file that says something else than points, at a line and a column. */
    SITJORBE_REFUSED_FAULTY_TEXT = 31
};

enum sitjorbe_end {
    /** A pass placed nothing. */
    SITJORBE_END_STILL = 0,
    /** The passes allowed are used, and the last placed something; or none are allowed. */
    SITJORBE_END_PASSES = 1,
    /** Quad 250,000 was just placed. */
    SITJORBE_END_CAP = 2,
    /** The next quad would need a node, quad or distinct edge beyond those lent. */
    SITJORBE_END_FULL = 3
};

enum sitjorbe_outcome {
    /** A quad was placed. */
    SITJORBE_OUTCOME_PLACED = 0,
    /** Neither attempt answered a quad. */
    SITJORBE_OUTCOME_NONE = 1,
    /** The quad would need a node, quad or distinct edge beyond those lent. */
    SITJORBE_OUTCOME_FULL = 2,
    /** 250,000 quads stand already, and nothing was attempted. */
    SITJORBE_OUTCOME_CAP = 3
};

/** What is wrong and what to do about it, in English; of a number that no refusal has, that it isn't known. */
static inline const char *sitjorbe_refusal_words(uint32_t refusal) {
    switch (refusal) {
    case 0:
        return "not refused";
    case 1:
        return "refused (1): the outline's lists don't fit together: lend x and y for every point, hole lengths that "
               "add up to the hole points, and at most 4,096 points in all";
    case 2:
        return "refused (2): a loop has fewer than three points: draw at least three, or leave the loop out";
    case 3:
        return "refused (3): a coordinate is infinite or not a number: look for a division by zero or a missing "
               "reading where the outline and the point come from";
    case 4:
        return "refused (4): a coordinate is beyond 1,000 either way: move the drawing nearer to the origin or use a "
               "larger unit";
    case 5:
        return "refused (5): the element size isn't a number above 0: set one from 0.01 to 100";
    case 6:
        return "refused (6): the element size is below 0.01 or above 100: set one between them, or change the unit";
    case 7:
        return "refused (7): the outline has no width or no height: draw points that aren't all in one row or column";
    case 8:
        return "refused (8): more than 1,000 sweeps are asked for: ask for 1,000 or fewer";
    case 9:
        return "refused (9): the field has more nodes than were lent: set a larger size, or lend longer lists";
    case 10:
        return "refused (10): the sampled outline has more nodes or loops than the lent lists have places: set a "
               "larger size, or lend longer lists";
    case 11:
        return "refused (11): the field record isn't one: hand over the record, values and marks as the field entry "
               "answered them";
    case 12:
        return "refused (12): a block of the file has a wrong check: the file is damaged, so fetch it again, or write "
               "it anew from the outline";
    case 13:
        return "refused (13): the file has a wrong length, a wrong count, or something where zeros belong: write it "
               "anew from the outline, with 1 to 8 loops, at most 248 points in all, and nothing after the last block";
    case 14:
        return "refused (14): the list for the answers is too short, or those of points and targets don't fit "
               "together: lend three floats for each point, x and y for every point and as many targets, and a place "
               "for each node of a loop that is read";
    case 15:
        return "refused (15): the node isn't in the mesh, or is past the lent list of thresholds: count nodes from 0, "
               "and lend a place for each";
    case 16:
        return "refused (16): the threshold is above 500: give it in tenths of a decibel, 0 to 500; to take one back, "
               "withdraw it";
    case 17:
        return "refused (17): no threshold stands at the node: enter one first, or look whether it was withdrawn "
               "already";
    case 18:
        return "refused (18): the quad isn't in the mesh, or lacks a threshold: count quads from 0, and enter the "
               "thresholds of all its nodes";
    case 19:
        return "refused (19): a weight is above 256: give weights from 0 to 256, which is all the way across the quad";
    case 20:
        return "refused (20): the role is unknown or lacks the operation: ask as the desk (1), a reader (2) or a "
               "masked reader (3), and as a role that may ask this";
    case 21:
        return "refused (21): the order leaves a quad out, names one twice or names one that isn't there: name every "
               "quad of the mesh exactly once, counted from 0";
    case 22:
        return "refused (22): a quad stands before one that laid a front edge which it used up: move it after every "
               "such quad, or keep the order in which the quads were placed";
    case 23:
        return "refused (23): the lent mesh isn't sound, or the list lent beside it is too short: hand over lists and "
               "counts as a run or the last step left them, with every coordinate within 1,001 either way; lend two "
               "numbers for each front edge and four more for a preview, and two places a node for steps";
    case 24:
        return "refused (24): the edge isn't on the front: name a node of the front and the node after it, in that "
               "order";
    case 25:
        return "refused (25): a quad doesn't turn left at all four corners in steps of 1/64 degree, so the bowl can't "
               "show it: set a larger size, or draw the outline so that no part of it is narrower than a step";
    case 26:
        return "refused (26): the list is too short for every small quad: lend four places for each, 14,944 in all";
    case 27:
        return "refused (27): a quad doesn't turn left by more than 20 degrees at all four corners: give its nodes in "
               "the order that runs round it to the left, and no corner that is flat or folded in";
    case 28:
        return "refused (28): a side of a quad stands twice, or isn't just one of these, the sampled outline's or "
               "another quad's run back: look for a quad left out, given twice, or laid over others";
    case 29:
        return "refused (29): an edge of the sampled outline is no quad's side: look for quads left out along the "
               "outline";
    case 30:
        return "refused (30): a node isn't the sampled outline's, bit for bit: begin the mesh with the sampled "
               "outline's nodes, in their order and unmoved";
    case 31:
        return "refused (31): a line of the points file can't be read: write x and y there with a comma or a semicolon"
               " between, or put # before it";
    default:
        return "this refusal isn't known";
    }
}

/* ---- answers */

/**
 * The answer of `sitjorbe_contains`. `refusal` is the refusal's number, 0 where nothing is refused. The values of a
 * refused query are false, 0.0 or 0.
 */
typedef struct sitjorbe_contains_answer {
    uint32_t refusal; /**< the refusal's number, 0 where nothing is refused */
    bool inside; /**< whether the point is inside the outer loop and outside every hole */
} sitjorbe_contains_answer;
SITJORBE_ASSERT(offsetof(sitjorbe_contains_answer, refusal) == 0);
SITJORBE_ASSERT(offsetof(sitjorbe_contains_answer, inside) == 4);
SITJORBE_ASSERT(sizeof(sitjorbe_contains_answer) == 8);

/** The answer of `sitjorbe_nearest_segment`. */
typedef struct sitjorbe_nearest_answer {
    uint32_t refusal; /**< the refusal's number, 0 where nothing is refused */
    double ax; /**< x of the segment's first end */
    double ay; /**< y of the segment's first end */
    double bx; /**< x of its other end */
    double by; /**< y of its other end */
    double distance; /**< from the point to the nearest segment of the outline */
    size_t loop_index; /**< the segment's loop: 0 for the outer one, k + 1 for hole k */
    size_t segment_index; /**< the segment's place in its loop: 0 from the loop's first point to its second, in the order lent */
} sitjorbe_nearest_answer;
SITJORBE_ASSERT(offsetof(sitjorbe_nearest_answer, refusal) == 0);
SITJORBE_ASSERT(offsetof(sitjorbe_nearest_answer, ax) == 8);
SITJORBE_ASSERT(offsetof(sitjorbe_nearest_answer, ay) == 16);
SITJORBE_ASSERT(offsetof(sitjorbe_nearest_answer, bx) == 24);
SITJORBE_ASSERT(offsetof(sitjorbe_nearest_answer, by) == 32);
SITJORBE_ASSERT(offsetof(sitjorbe_nearest_answer, distance) == 40);
SITJORBE_ASSERT(offsetof(sitjorbe_nearest_answer, loop_index) == 48);
SITJORBE_ASSERT(offsetof(sitjorbe_nearest_answer, segment_index) == 56);
SITJORBE_ASSERT(sizeof(sitjorbe_nearest_answer) == 64);

/** The answer of `sitjorbe_distance_to_boundary`. */
typedef struct sitjorbe_distance_answer {
    uint32_t refusal; /**< the refusal's number, 0 where nothing is refused */
    double distance; /**< from the point to the nearest segment of the outline */
} sitjorbe_distance_answer;
SITJORBE_ASSERT(offsetof(sitjorbe_distance_answer, refusal) == 0);
SITJORBE_ASSERT(offsetof(sitjorbe_distance_answer, distance) == 8);
SITJORBE_ASSERT(sizeof(sitjorbe_distance_answer) == 16);

/** The answer of `sitjorbe_sound`. */
typedef struct sitjorbe_sound_answer {
    uint32_t refusal; /**< the refusal's number, 0 where nothing is refused */
    bool sound; /**< whether the outline is sound */
} sitjorbe_sound_answer;
SITJORBE_ASSERT(offsetof(sitjorbe_sound_answer, refusal) == 0);
SITJORBE_ASSERT(offsetof(sitjorbe_sound_answer, sound) == 4);
SITJORBE_ASSERT(sizeof(sitjorbe_sound_answer) == 8);

/**
 * The answer of `sitjorbe_field`. A field record's floats and counts; its values and marks are in the lists lent.
 * `refusal` is the refusal's number, 0 where nothing is refused; on a refusal all else is 0.
 */
typedef struct sitjorbe_field_record_answer {
    uint32_t refusal; /**< the refusal's number, 0 where nothing is refused */
    double xmin; /**< the grid's left column */
    double ymin; /**< the grid's lowest row */
    double h; /**< the distance of two neighbours of the grid */
    size_t nx; /**< nodes in a row of the grid */
    size_t ny; /**< nodes in a column of the grid */
} sitjorbe_field_record_answer;
SITJORBE_ASSERT(offsetof(sitjorbe_field_record_answer, refusal) == 0);
SITJORBE_ASSERT(offsetof(sitjorbe_field_record_answer, xmin) == 8);
SITJORBE_ASSERT(offsetof(sitjorbe_field_record_answer, ymin) == 16);
SITJORBE_ASSERT(offsetof(sitjorbe_field_record_answer, h) == 24);
SITJORBE_ASSERT(offsetof(sitjorbe_field_record_answer, nx) == 32);
SITJORBE_ASSERT(offsetof(sitjorbe_field_record_answer, ny) == 40);
SITJORBE_ASSERT(sizeof(sitjorbe_field_record_answer) == 48);

/** The answer of `sitjorbe_direction`. */
typedef struct sitjorbe_direction_answer {
    uint32_t refusal; /**< the refusal's number, 0 where nothing is refused */
    double x; /**< the direction's first coordinate */
    double y; /**< the direction's second coordinate */
} sitjorbe_direction_answer;
SITJORBE_ASSERT(offsetof(sitjorbe_direction_answer, refusal) == 0);
SITJORBE_ASSERT(offsetof(sitjorbe_direction_answer, x) == 8);
SITJORBE_ASSERT(offsetof(sitjorbe_direction_answer, y) == 16);
SITJORBE_ASSERT(sizeof(sitjorbe_direction_answer) == 24);

/**
 * The answer of `sitjorbe_places`. `refusal` is the refusal's number, 0 where nothing is refused; on a refusal both
 * counts are 0.
 */
typedef struct sitjorbe_places_answer {
    uint32_t refusal; /**< the refusal's number, 0 where nothing is refused */
    size_t field_nodes; /**< how many nodes the field has; with fewer places refusal 9 */
    size_t sampled_nodes; /**< how many nodes the sampled outline has, and as many edges; with fewer places for either refusal 10 */
} sitjorbe_places_answer;
SITJORBE_ASSERT(offsetof(sitjorbe_places_answer, refusal) == 0);
SITJORBE_ASSERT(offsetof(sitjorbe_places_answer, field_nodes) == 8);
SITJORBE_ASSERT(offsetof(sitjorbe_places_answer, sampled_nodes) == 16);
SITJORBE_ASSERT(sizeof(sitjorbe_places_answer) == 24);

/**
 * The answer of `sitjorbe_pave`. A run's end (0 still, 1 passes, 2 cap, 3 full) and whether it is whole, its field
 * record's floats and counts, how many nodes, quads, distinct edges and front edges it has, how many loops of the front
 * are listed, and the ids in all of them. All else is in the lists lent. All is 0 on a refusal.
 */
typedef struct sitjorbe_pave_answer {
    uint32_t refusal; /**< the refusal's number, 0 where nothing is refused */
    uint32_t end; /**< how the paving ended */
    bool whole; /**< whether the mesh is whole; otherwise it is open */
    double xmin; /**< the grid's left column */
    double ymin; /**< the grid's lowest row */
    double h; /**< the distance of two neighbours of the grid */
    size_t nx; /**< nodes in a row of the grid */
    size_t ny; /**< nodes in a column of the grid */
    uint32_t nodes; /**< how many nodes there are */
    size_t quads; /**< how many quads there are */
    size_t edges; /**< how many distinct edges there are */
    size_t front; /**< how many edges the front has */
    size_t loops; /**< how many loops of the front are listed */
    size_t ids; /**< how many node numbers the listed loops have in all */
} sitjorbe_pave_answer;
SITJORBE_ASSERT(offsetof(sitjorbe_pave_answer, refusal) == 0);
SITJORBE_ASSERT(offsetof(sitjorbe_pave_answer, end) == 4);
SITJORBE_ASSERT(offsetof(sitjorbe_pave_answer, whole) == 8);
SITJORBE_ASSERT(offsetof(sitjorbe_pave_answer, xmin) == 16);
SITJORBE_ASSERT(offsetof(sitjorbe_pave_answer, ymin) == 24);
SITJORBE_ASSERT(offsetof(sitjorbe_pave_answer, h) == 32);
SITJORBE_ASSERT(offsetof(sitjorbe_pave_answer, nx) == 40);
SITJORBE_ASSERT(offsetof(sitjorbe_pave_answer, ny) == 48);
SITJORBE_ASSERT(offsetof(sitjorbe_pave_answer, nodes) == 56);
SITJORBE_ASSERT(offsetof(sitjorbe_pave_answer, quads) == 64);
SITJORBE_ASSERT(offsetof(sitjorbe_pave_answer, edges) == 72);
SITJORBE_ASSERT(offsetof(sitjorbe_pave_answer, front) == 80);
SITJORBE_ASSERT(offsetof(sitjorbe_pave_answer, loops) == 88);
SITJORBE_ASSERT(offsetof(sitjorbe_pave_answer, ids) == 96);
SITJORBE_ASSERT(sizeof(sitjorbe_pave_answer) == 104);

/**
 * The answer of `sitjorbe_covers`. `refusal` is 0 where nothing is refused; `place` is the quad, edge or node that 27
 * to 30 name. Stays a number beside a place: the C interface answers this struct.
 */
typedef struct sitjorbe_covers_answer {
    uint32_t refusal; /**< the refusal's number, 0 where nothing is refused */
    size_t place; /**< the lowest quad on refusals 27 and 28, the first node of the lowest edge on 29, the first node on 30 */
    bool sound; /**< whether the outline as drawn is sound, where nothing is refused */
} sitjorbe_covers_answer;
SITJORBE_ASSERT(offsetof(sitjorbe_covers_answer, refusal) == 0);
SITJORBE_ASSERT(offsetof(sitjorbe_covers_answer, place) == 8);
SITJORBE_ASSERT(offsetof(sitjorbe_covers_answer, sound) == 16);
SITJORBE_ASSERT(sizeof(sitjorbe_covers_answer) == 24);

/**
 * The answer of `sitjorbe_step`. What became of the edge (0 placed, 1 none, 2 full, 3 cap), and how many nodes, quads,
 * distinct edges and front edges there are after it. All is 0 on a refusal.
 */
typedef struct sitjorbe_step_answer {
    uint32_t refusal; /**< the refusal's number, 0 where nothing is refused */
    uint32_t outcome; /**< what became of the edge, or would: 0 placed, 1 none, 2 full, 3 cap */
    uint32_t nodes; /**< how many nodes there are */
    size_t quads; /**< how many quads there are */
    size_t edges; /**< how many distinct edges there are */
    size_t front; /**< how many edges the front has */
} sitjorbe_step_answer;
SITJORBE_ASSERT(offsetof(sitjorbe_step_answer, refusal) == 0);
SITJORBE_ASSERT(offsetof(sitjorbe_step_answer, outcome) == 4);
SITJORBE_ASSERT(offsetof(sitjorbe_step_answer, nodes) == 8);
SITJORBE_ASSERT(offsetof(sitjorbe_step_answer, quads) == 16);
SITJORBE_ASSERT(offsetof(sitjorbe_step_answer, edges) == 24);
SITJORBE_ASSERT(offsetof(sitjorbe_step_answer, front) == 32);
SITJORBE_ASSERT(sizeof(sitjorbe_step_answer) == 40);

/**
 * The answer of `sitjorbe_preview`. What would become of the edge; the quad that would be placed, how many of its nodes
 * would be new, and where: corners c and d have 0 for coordinates where they aren't new, and all of the quad is 0 where
 * none would be placed; and how many front edges there would be. All is 0 on a refusal.
 */
typedef struct sitjorbe_preview_answer {
    uint32_t refusal; /**< the refusal's number, 0 where nothing is refused */
    uint32_t outcome; /**< what became of the edge, or would: 0 placed, 1 none, 2 full, 3 cap */
    uint32_t a; /**< the quad's first node */
    uint32_t b; /**< its second node */
    uint32_t d; /**< its third node */
    uint32_t c; /**< its fourth node */
    uint32_t new_nodes; /**< how many of the quad's nodes would be new */
    double cx; /**< x of c where it would be new */
    double cy; /**< y of c where it would be new */
    double dx; /**< x of d where it would be new */
    double dy; /**< y of d where it would be new */
    size_t front; /**< how many edges the front has */
} sitjorbe_preview_answer;
SITJORBE_ASSERT(offsetof(sitjorbe_preview_answer, refusal) == 0);
SITJORBE_ASSERT(offsetof(sitjorbe_preview_answer, outcome) == 4);
SITJORBE_ASSERT(offsetof(sitjorbe_preview_answer, a) == 8);
SITJORBE_ASSERT(offsetof(sitjorbe_preview_answer, b) == 12);
SITJORBE_ASSERT(offsetof(sitjorbe_preview_answer, d) == 16);
SITJORBE_ASSERT(offsetof(sitjorbe_preview_answer, c) == 20);
SITJORBE_ASSERT(offsetof(sitjorbe_preview_answer, new_nodes) == 24);
SITJORBE_ASSERT(offsetof(sitjorbe_preview_answer, cx) == 32);
SITJORBE_ASSERT(offsetof(sitjorbe_preview_answer, cy) == 40);
SITJORBE_ASSERT(offsetof(sitjorbe_preview_answer, dx) == 48);
SITJORBE_ASSERT(offsetof(sitjorbe_preview_answer, dy) == 56);
SITJORBE_ASSERT(offsetof(sitjorbe_preview_answer, front) == 64);
SITJORBE_ASSERT(sizeof(sitjorbe_preview_answer) == 72);

/**
 * The answer of `sitjorbe_exam` and `sitjorbe_exam_read`. The reply as it crosses: `refusal` is 0 where nothing is
 * refused; what isn't asked for is 0.
 */
typedef struct sitjorbe_exam_answer {
    uint32_t refusal; /**< the refusal's number, 0 where nothing is refused */
    double x; /**< the node's first coordinate */
    double y; /**< the node's second coordinate */
    uint32_t a; /**< the quad's first node */
    uint32_t b; /**< its second node */
    uint32_t d; /**< its third node */
    uint32_t c; /**< its fourth node */
    size_t length; /**< how many nodes the loop has */
    uint32_t threshold; /**< in tenths of a decibel */
    uint32_t count; /**< how many quads have all four thresholds */
    uint32_t sum; /**< the sum of those quads' thresholds */
    uint32_t estimate; /**< in tenths of a decibel */
    uint32_t origin; /**< the number of the outline's loop that the node came from */
} sitjorbe_exam_answer;
SITJORBE_ASSERT(offsetof(sitjorbe_exam_answer, refusal) == 0);
SITJORBE_ASSERT(offsetof(sitjorbe_exam_answer, x) == 8);
SITJORBE_ASSERT(offsetof(sitjorbe_exam_answer, y) == 16);
SITJORBE_ASSERT(offsetof(sitjorbe_exam_answer, a) == 24);
SITJORBE_ASSERT(offsetof(sitjorbe_exam_answer, b) == 28);
SITJORBE_ASSERT(offsetof(sitjorbe_exam_answer, d) == 32);
SITJORBE_ASSERT(offsetof(sitjorbe_exam_answer, c) == 36);
SITJORBE_ASSERT(offsetof(sitjorbe_exam_answer, length) == 40);
SITJORBE_ASSERT(offsetof(sitjorbe_exam_answer, threshold) == 48);
SITJORBE_ASSERT(offsetof(sitjorbe_exam_answer, count) == 52);
SITJORBE_ASSERT(offsetof(sitjorbe_exam_answer, sum) == 56);
SITJORBE_ASSERT(offsetof(sitjorbe_exam_answer, estimate) == 60);
SITJORBE_ASSERT(offsetof(sitjorbe_exam_answer, origin) == 64);
SITJORBE_ASSERT(sizeof(sitjorbe_exam_answer) == 72);

/**
 * The answer of `sitjorbe_order`. `refusal` is 0 where the list is accepted; 21 where some quad is absent, repeated or
 * unknown; 22 where the quad at `place` stands too early.
 */
typedef struct sitjorbe_order_answer {
    uint32_t refusal; /**< the refusal's number, 0 where nothing is refused */
    size_t place; /**< where in the order a quad stands too early, on refusal 22 */
} sitjorbe_order_answer;
SITJORBE_ASSERT(offsetof(sitjorbe_order_answer, refusal) == 0);
SITJORBE_ASSERT(offsetof(sitjorbe_order_answer, place) == 8);
SITJORBE_ASSERT(sizeof(sitjorbe_order_answer) == 16);

/**
 * The answer of `sitjorbe_bowl_steps`. `refusal` is 23 or 25, 0 where nothing is refused; `quad` is the lowest quad
 * that the bowl can't show, where 25 says so.
 */
typedef struct sitjorbe_bowl_steps_answer {
    uint32_t refusal; /**< the refusal's number, 0 where nothing is refused */
    size_t quad; /**< the lowest quad that the bowl can't show, on refusal 25 */
} sitjorbe_bowl_steps_answer;
SITJORBE_ASSERT(offsetof(sitjorbe_bowl_steps_answer, refusal) == 0);
SITJORBE_ASSERT(offsetof(sitjorbe_bowl_steps_answer, quad) == 8);
SITJORBE_ASSERT(sizeof(sitjorbe_bowl_steps_answer) == 16);

/**
 * The answer of `sitjorbe_small_quads`. `refusal` is 26 where the lent list is too short, 0 otherwise; `count` is how
 * many fours are listed.
 */
typedef struct sitjorbe_small_quads_answer {
    uint32_t refusal; /**< the refusal's number, 0 where nothing is refused */
    size_t count; /**< how many small quads are listed */
} sitjorbe_small_quads_answer;
SITJORBE_ASSERT(offsetof(sitjorbe_small_quads_answer, refusal) == 0);
SITJORBE_ASSERT(offsetof(sitjorbe_small_quads_answer, count) == 8);
SITJORBE_ASSERT(sizeof(sitjorbe_small_quads_answer) == 16);

/**
 * The answer of `sitjorbe_read_points`. What is answered of a text. `refusal` is 31 for a fault of the text, 14 where a
 * list is too short, or 0. Of the faults, of which there are `faults`, the one asked for has its kind, line and column,
 * and `leads` says that no row stands before it. `separator` is the byte between x and y, and `heading` the line of the
 * heading, or 0. `points` and `loops` say how many there are, where nothing is wrong with the text.
 */
typedef struct sitjorbe_points_answer {
    uint32_t refusal; /**< the refusal's number, 0 where nothing is refused */
    uint32_t fault; /**< on refusal 31 what is wrong: 1 not two values, 2 x is missing, 3 y is missing, 4 x isn't a number, 5 y isn't a number, 6 a comment between two points of a loop, 7 more than 268,435,456 bytes */
    size_t line; /**< the fault's line, from 1 */
    size_t column; /**< the fault's column in bytes, from 1 */
    bool leads; /**< whether no row stands before the fault's */
    size_t faults; /**< how many faults the text has */
    uint32_t separator; /**< the byte between x and y: 44 for a comma, 59 for a semicolon, 9 for a tab */
    size_t heading; /**< the line of the heading, 0 where there is none */
    size_t points; /**< how many points there are */
    size_t loops; /**< how many loops there are */
} sitjorbe_points_answer;
SITJORBE_ASSERT(offsetof(sitjorbe_points_answer, refusal) == 0);
SITJORBE_ASSERT(offsetof(sitjorbe_points_answer, fault) == 4);
SITJORBE_ASSERT(offsetof(sitjorbe_points_answer, line) == 8);
SITJORBE_ASSERT(offsetof(sitjorbe_points_answer, column) == 16);
SITJORBE_ASSERT(offsetof(sitjorbe_points_answer, leads) == 24);
SITJORBE_ASSERT(offsetof(sitjorbe_points_answer, faults) == 32);
SITJORBE_ASSERT(offsetof(sitjorbe_points_answer, separator) == 40);
SITJORBE_ASSERT(offsetof(sitjorbe_points_answer, heading) == 48);
SITJORBE_ASSERT(offsetof(sitjorbe_points_answer, points) == 56);
SITJORBE_ASSERT(offsetof(sitjorbe_points_answer, loops) == 64);
SITJORBE_ASSERT(sizeof(sitjorbe_points_answer) == 72);

/* ---- entries
 *
 * The names of their parameters mean the same everywhere; a name's length is the same name with _len.
 *
 * outer          the outer loop's points, x then y
 * holes          the points of all holes, one hole after the other
 * hole_lengths   the number of points of each hole
 * x              the point asked about
 * y              the point asked about
 * xmin           the field record: the grid's left column
 * ymin           the field record: the grid's lowest row
 * h              the field record: the distance of two neighbours of the grid
 * nx             the field record: nodes in a row
 * ny             the field record: nodes in a column
 * values         the field's values, two floats a field node
 * marks          the field's marks, a byte a field node: 1 where the outline fixes its value, else 0
 * points         the points asked about, x then y
 * targets        a target for each point, x then y, any floats
 * answers        three floats a point: 0 and the direction, or the refusal's number and two zeros
 * size           the length wanted of a quad's side, 0.01 to 100
 * sweeps         the most sweeps of the field, at most 1,000
 * blocks         scratch of any length, which saves time: two numbers a point of the outline are enough
 * tx             the target, any two floats
 * ty             the target, any two floats
 * passes         the passes of the paving; more than 600 count as 600
 * xs             the nodes' first coordinates
 * ys             the nodes' second coordinates
 * next           for each node the one that follows it on the front, or SITJORBE_OFF
 * prev           for each node the one before it on the front, or SITJORBE_OFF
 * snapshot       a place a node, for the run's own use
 * origins        for each node the number of the outline's loop that it came from: 0 for the outer one, k + 1 for hole k
 * quads          four node numbers a quad, in the order a, b, d, c, which runs round it
 * edges          two node numbers a distinct edge, the smaller first
 * loops          the node numbers of the listed loops, one loop after the other; a place a node
 * loop_lengths   the lengths of the listed loops; a place a loop of the outline
 * node_pool      scratch of any length, which saves time: four numbers a node place are enough
 * edge_pool      scratch of any length, which saves time: sixteen numbers an edge place are enough
 * tried          scratch of any length, which saves time: three numbers a node place are enough
 * node_count     how many nodes the mesh has
 * quad_count     how many quads the mesh has
 * sampled_xs     scratch for the sampled outline: a place for each of its nodes, which sitjorbe_places counts
 * sampled_ys     scratch, as long
 * sampled_next   scratch, as long
 * sampled_prev   scratch, as long
 * sampled_edges  scratch for its edges: two places for each of its nodes
 * keys           scratch for the sides of the quads: four places a quad
 * edge_count     how many distinct edges the mesh has
 * front_count    how many edges the front has
 * a              the first node of the front edge that is stepped on
 * b              the node after it on the front
 * list           gets the front edges that the step would leave, two node numbers an edge, by their first node; two numbers a front edge are wanted, and four more
 * role           who asks: 1 the desk, 2 a reader, 3 a masked reader
 * operation      what is asked: 1 begin, 2 enter, 3 withdraw; 4 to 6 read a node, a quad, a loop; 7 to 9 read a threshold, the figures, an estimate
 * item           the number of the node, quad or loop, from 0
 * value          the threshold to enter, in tenths of a decibel, 0 to 500
 * u              the weight from a towards b, 0 to 256
 * v              the weight from a towards c, 0 to 256
 * nodes          how many nodes the mesh has
 * thresholds     a threshold a node, in tenths of a decibel; anything above SITJORBE_MOST_THRESHOLD means none
 * count          how many quads have all four thresholds
 * sum            the sum of those quads' thresholds, a node counted once for each such quad
 * reply          gets the node numbers of the loop that is read; a place a node is enough
 * order          quads' numbers in the order in which they are to be tested
 * places         scratch of any length, which saves time: a number a quad is enough
 * pool           scratch of any length, which saves time: eight numbers a quad, and two more, are enough
 * steps          gets two whole numbers a node, x then y, in steps of 1/64
 * fours          four numbers a small quad; 14,944 places are enough
 * text           the bytes of a points file, as they are
 * which          the number of the fault that is told, from 0
 * coordinates    gets x and y of each point
 * lines          gets each point's line, from 1
 * point_counts   gets how many points each loop has, the outline first
 * loop_marks     gets three numbers a loop: where the comment that names it begins and ends, in bytes behind a byte order mark, equal where there is none; and the line of its last point where that repeats the first and is left out, else 0
 */

/** The number of the library's shape, which its name has too. */
SITJORBE_MUST_USE uint32_t sitjorbe_abi_5(void);

/** Whether the point is inside the outer loop and outside every hole. */
SITJORBE_MUST_USE sitjorbe_contains_answer sitjorbe_contains(
    const double *outer, size_t outer_len,
    const double *holes, size_t holes_len,
    const size_t *hole_lengths, size_t hole_lengths_len,
    double x,
    double y);

/**
 * The segment of the outline nearest to the point, from a to b, and its distance; its loop, 0 for the outer one, and
 * its place there.
 */
SITJORBE_MUST_USE sitjorbe_nearest_answer sitjorbe_nearest_segment(
    const double *outer, size_t outer_len,
    const double *holes, size_t holes_len,
    const size_t *hole_lengths, size_t hole_lengths_len,
    double x,
    double y);

/** The distance from the point to the nearest segment of the outline. */
SITJORBE_MUST_USE sitjorbe_distance_answer sitjorbe_distance_to_boundary(
    const double *outer, size_t outer_len,
    const double *holes, size_t holes_len,
    const size_t *hole_lengths, size_t hole_lengths_len,
    double x,
    double y);

/** Whether the outline is sound; refusals 1 to 4 come first, with false. */
SITJORBE_MUST_USE sitjorbe_sound_answer sitjorbe_sound(
    const double *outer, size_t outer_len,
    const double *holes, size_t holes_len,
    const size_t *hole_lengths, size_t hole_lengths_len);

/**
 * Of the field's four directions at each point the one nearest to its target, which may be any two floats: three floats
 * a point, 0 and the direction, or the number of what refuses the point and two zeros. Nothing is written where the
 * whole list is refused.
 */
SITJORBE_MUST_USE uint32_t sitjorbe_directions(
    double xmin,
    double ymin,
    double h,
    size_t nx,
    size_t ny,
    const double *values, size_t values_len,
    const uint8_t *marks, size_t marks_len,
    const double *points, size_t points_len,
    const double *targets, size_t targets_len,
    double *answers, size_t answers_len);

/**
 * The field of the outline, in the lists lent: two floats and a mark a node. Nothing is written on a refusal. The list
 * of blocks is scratch of any length, which searches go by as far as it has room; the answer doesn't depend on it.
 */
SITJORBE_MUST_USE sitjorbe_field_record_answer sitjorbe_field(
    const double *outer, size_t outer_len,
    const double *holes, size_t holes_len,
    const size_t *hole_lengths, size_t hole_lengths_len,
    double size,
    size_t sweeps,
    double *values, size_t values_len,
    uint8_t *marks, size_t marks_len,
    uint32_t *blocks, size_t blocks_len);

/** Of the field's four directions at (x, y) the one nearest to the target (tx, ty), which may be any two floats. */
SITJORBE_MUST_USE sitjorbe_direction_answer sitjorbe_direction(
    double xmin,
    double ymin,
    double h,
    size_t nx,
    size_t ny,
    const double *values, size_t values_len,
    const uint8_t *marks, size_t marks_len,
    double x,
    double y,
    double tx,
    double ty);

/**
 * The places that a run of this outline and size can't do without. Quads, and the nodes and edges that they add, need
 * more.
 */
SITJORBE_MUST_USE sitjorbe_places_answer sitjorbe_places(
    const double *outer, size_t outer_len,
    const double *holes, size_t holes_len,
    const size_t *hole_lengths, size_t hole_lengths_len,
    double size);

/**
 * The run whole, from the field to the loops of the front, in the lists lent. `origins` gets for each node the number
 * of the outline's loop that it came from. Nothing is written on a refusal. The pools, the list of blocks and `tried`
 * are scratch of any length, which searches go by as far as they have room, and which edges tried in vain are noted in,
 * three numbers a node; the answer doesn't depend on them.
 */
SITJORBE_MUST_USE sitjorbe_pave_answer sitjorbe_pave(
    const double *outer, size_t outer_len,
    const double *holes, size_t holes_len,
    const size_t *hole_lengths, size_t hole_lengths_len,
    double size,
    size_t sweeps,
    size_t passes,
    double *values, size_t values_len,
    uint8_t *marks, size_t marks_len,
    double *xs, size_t xs_len,
    double *ys, size_t ys_len,
    uint32_t *next, size_t next_len,
    uint32_t *prev, size_t prev_len,
    uint32_t *snapshot, size_t snapshot_len,
    uint16_t *origins, size_t origins_len,
    uint32_t *quads, size_t quads_len,
    uint32_t *edges, size_t edges_len,
    uint32_t *loops, size_t loops_len,
    uint32_t *loop_lengths, size_t loop_lengths_len,
    uint32_t *node_pool, size_t node_pool_len,
    uint32_t *edge_pool, size_t edge_pool_len,
    uint32_t *blocks, size_t blocks_len,
    uint32_t *tried, size_t tried_len);

/**
 * Whether the quads of a mesh, whatever made it, cover each point of the outline as a run samples it once. Its first
 * nodes have to be the sampled outline's. The lists that begin with `sampled_`, and `keys`, are scratch, which may be
 * written. `sound` says whether the outline as drawn is sound. Stays a row of numbers and slices: C calls it.
 */
SITJORBE_MUST_USE sitjorbe_covers_answer sitjorbe_covers(
    const double *outer, size_t outer_len,
    const double *holes, size_t holes_len,
    const size_t *hole_lengths, size_t hole_lengths_len,
    double size,
    const double *xs, size_t xs_len,
    const double *ys, size_t ys_len,
    const uint32_t *quads, size_t quads_len,
    uint32_t node_count,
    size_t quad_count,
    double *sampled_xs, size_t sampled_xs_len,
    double *sampled_ys, size_t sampled_ys_len,
    uint32_t *sampled_next, size_t sampled_next_len,
    uint32_t *sampled_prev, size_t sampled_prev_len,
    uint32_t *sampled_edges, size_t sampled_edges_len,
    uint64_t *keys, size_t keys_len);

/**
 * A step on the front edge a to b, in the mesh lent: one quad placed or none. Refusals are 1 to 7, 11, 23 and 24, in
 * that order. New nodes take what stands in `origins` at node a.
 */
SITJORBE_MUST_USE sitjorbe_step_answer sitjorbe_step(
    const double *outer, size_t outer_len,
    const double *holes, size_t holes_len,
    const size_t *hole_lengths, size_t hole_lengths_len,
    double size,
    double xmin,
    double ymin,
    double h,
    size_t nx,
    size_t ny,
    const double *values, size_t values_len,
    const uint8_t *marks, size_t marks_len,
    double *xs, size_t xs_len,
    double *ys, size_t ys_len,
    uint32_t *next, size_t next_len,
    uint32_t *prev, size_t prev_len,
    uint16_t *origins, size_t origins_len,
    uint32_t *quads, size_t quads_len,
    uint32_t *edges, size_t edges_len,
    uint32_t node_count,
    size_t quad_count,
    size_t edge_count,
    size_t front_count,
    uint32_t a,
    uint32_t b);

/**
 * What a step on the front edge a to b would do, and in the list the front edges that it would leave, u then v, by
 * their first node: an edge takes two numbers. The mesh is only read.
 */
SITJORBE_MUST_USE sitjorbe_preview_answer sitjorbe_preview(
    const double *outer, size_t outer_len,
    const double *holes, size_t holes_len,
    const size_t *hole_lengths, size_t hole_lengths_len,
    double size,
    double xmin,
    double ymin,
    double h,
    size_t nx,
    size_t ny,
    const double *values, size_t values_len,
    const uint8_t *marks, size_t marks_len,
    const double *xs, size_t xs_len,
    const double *ys, size_t ys_len,
    const uint32_t *next, size_t next_len,
    const uint32_t *prev, size_t prev_len,
    const uint16_t *origins, size_t origins_len,
    const uint32_t *quads, size_t quads_len,
    const uint32_t *edges, size_t edges_len,
    uint32_t node_count,
    size_t quad_count,
    size_t edge_count,
    size_t front_count,
    uint32_t a,
    uint32_t b,
    uint32_t *list, size_t list_len);

/** One request of one role to an exam. 20 comes before all else; where anything is refused, nothing lent is written. */
SITJORBE_MUST_USE sitjorbe_exam_answer sitjorbe_exam(
    uint32_t role,
    uint32_t operation,
    uint32_t item,
    uint32_t value,
    uint32_t u,
    uint32_t v,
    uint32_t nodes,
    const double *xs, size_t xs_len,
    const double *ys, size_t ys_len,
    size_t quad_count,
    const uint32_t *quads, size_t quads_len,
    const uint32_t *next, size_t next_len,
    const uint32_t *prev, size_t prev_len,
    const uint16_t *origins, size_t origins_len,
    uint16_t *thresholds, size_t thresholds_len,
    uint32_t *count,
    uint32_t *sum,
    uint32_t *reply, size_t reply_len);

/**
 * One reading request of a reader or a masked reader, to whom the results are lent for reading alone: what
 * `sitjorbe_exam` answers to the role. The desk's role has no operation here. 20 comes before all else, and where
 * anything is refused the reply list isn't written. A masked reader needs no results: any list and any figures do.
 */
SITJORBE_MUST_USE sitjorbe_exam_answer sitjorbe_exam_read(
    uint32_t role,
    uint32_t operation,
    uint32_t item,
    uint32_t u,
    uint32_t v,
    uint32_t nodes,
    const double *xs, size_t xs_len,
    const double *ys, size_t ys_len,
    size_t quad_count,
    const uint32_t *quads, size_t quads_len,
    const uint32_t *next, size_t next_len,
    const uint32_t *prev, size_t prev_len,
    const uint16_t *origins, size_t origins_len,
    const uint16_t *thresholds, size_t thresholds_len,
    const uint32_t *count,
    const uint32_t *sum,
    uint32_t *reply, size_t reply_len);

/**
 * Whether the quads may be tested in this order: each of them once, and after every quad that laid a front edge which
 * it used up. `places` and `pool` are scratch of any length: what they hold doesn't change the answer. A refusal may
 * write them too: 21 `places` alone, and 22 both.
 */
SITJORBE_MUST_USE sitjorbe_order_answer sitjorbe_order(
    size_t quad_count,
    const uint32_t *quads, size_t quads_len,
    const uint32_t *order, size_t order_len,
    size_t *places, size_t places_len,
    uint32_t *pool, size_t pool_len);

/**
 * The nodes of a lent mesh in whole steps of 1/64 degree, each coordinate at the nearest step, halves at the even one.
 * The mesh is only read, and the buffer is written once nothing is refused.
 */
SITJORBE_MUST_USE sitjorbe_bowl_steps_answer sitjorbe_bowl_steps(
    const double *xs, size_t xs_len,
    const double *ys, size_t ys_len,
    const uint32_t *next, size_t next_len,
    const uint32_t *prev, size_t prev_len,
    const uint16_t *origins, size_t origins_len,
    const uint32_t *quads, size_t quads_len,
    const uint32_t *edges, size_t edges_len,
    uint32_t node_count,
    size_t quad_count,
    size_t edge_count,
    size_t front_count,
    int32_t *steps, size_t steps_len);

/** Every small quad, on the first places of the lent list: four numbers a four, in dictionary order. */
SITJORBE_MUST_USE sitjorbe_small_quads_answer sitjorbe_small_quads(uint32_t *fours, size_t fours_len);

/**
 * Reads an operator's points file, bytes as they are, onto the first places of the lists: `coordinates` has x and y of
 * each point, `lines` its line from 1, `point_counts` how many points each loop has, the outline first, and
 * `loop_marks` three numbers a loop: where the comment that names it begins and ends, counted in bytes behind a byte
 * order mark, and the line of its last point where that repeats the first and is left out, or 0. `which` of the faults
 * is told, from 0. Refused, nothing is written.
 */
SITJORBE_MUST_USE sitjorbe_points_answer sitjorbe_read_points(
    const uint8_t *text, size_t text_len,
    size_t which,
    double *coordinates, size_t coordinates_len,
    size_t *lines, size_t lines_len,
    size_t *point_counts, size_t point_counts_len,
    size_t *loop_marks, size_t loop_marks_len);

/* ---- the same with structs
 *
 * Parameters that belong together as structs, and for each entry that takes some of them a call that takes the structs; what it doesn't write may be const.
 */

/** An outline as it is lent: the outer loop, and any number of holes in it. */
typedef struct sitjorbe_outline {
    const double *outer; /**< the outer loop's points, x then y */
    size_t outer_len; /**< its length */
    const double *holes; /**< the points of all holes, one hole after the other */
    size_t holes_len; /**< its length */
    const size_t *hole_lengths; /**< the number of points of each hole */
    size_t hole_lengths_len; /**< its length */
} sitjorbe_outline;

/** What an exam sets for a run. 400 sweeps and 600 passes are usual. */
typedef struct sitjorbe_settings {
    double size; /**< the length wanted of a quad's side, 0.01 to 100 */
    size_t sweeps; /**< the most sweeps of the field, at most 1,000 */
    size_t passes; /**< the passes of the paving; more than 600 count as 600 */
} sitjorbe_settings;

/** A field record: where the field's grid stands and how many nodes it has. Answers have one. */
typedef struct sitjorbe_record {
    double xmin; /**< the field record: the grid's left column */
    double ymin; /**< the field record: the grid's lowest row */
    double h; /**< the field record: the distance of two neighbours of the grid */
    size_t nx; /**< the field record: nodes in a row */
    size_t ny; /**< the field record: nodes in a column */
} sitjorbe_record;

/**
 * The lists of a field. Directions, steps and previews want just as many places as it has nodes, which is what
 * sitjorbe_list_lengths_for answers.
 */
typedef struct sitjorbe_field_lists {
    double *values; /**< the field's values, two floats a field node */
    size_t values_len; /**< its length */
    uint8_t *marks; /**< the field's marks, a byte a field node: 1 where the outline fixes its value, else 0 */
    size_t marks_len; /**< its length */
} sitjorbe_field_lists;

/** The lists of a mesh. A run writes them all, a step all but the last two. */
typedef struct sitjorbe_mesh_lists {
    double *xs; /**< the nodes' first coordinates */
    size_t xs_len; /**< its length */
    double *ys; /**< the nodes' second coordinates */
    size_t ys_len; /**< its length */
    uint32_t *next; /**< for each node the one that follows it on the front, or SITJORBE_OFF */
    size_t next_len; /**< its length */
    uint32_t *prev; /**< for each node the one before it on the front, or SITJORBE_OFF */
    size_t prev_len; /**< its length */
    uint16_t *origins; /**< for each node the number of the outline's loop that it came from: 0 for the outer one, k + 1 for hole k */
    size_t origins_len; /**< its length */
    uint32_t *quads; /**< four node numbers a quad, in the order a, b, d, c, which runs round it */
    size_t quads_len; /**< its length */
    uint32_t *edges; /**< two node numbers a distinct edge, the smaller first */
    size_t edges_len; /**< its length */
    uint32_t *loops; /**< the node numbers of the listed loops, one loop after the other; a place a node */
    size_t loops_len; /**< its length */
    uint32_t *loop_lengths; /**< the lengths of the listed loops; a place a loop of the outline */
    size_t loop_lengths_len; /**< its length */
} sitjorbe_mesh_lists;

/** How much of a mesh's lists is in use. Answers of runs and steps have them. */
typedef struct sitjorbe_mesh_counts {
    uint32_t nodes; /**< how many nodes the mesh has */
    size_t quads; /**< how many quads the mesh has */
    size_t edges; /**< how many distinct edges the mesh has */
    size_t front; /**< how many edges the front has */
} sitjorbe_mesh_counts;

/** Lists for a run's own use. Of all but the snapshot any length will do. */
typedef struct sitjorbe_scratch {
    uint32_t *snapshot; /**< a place a node, for the run's own use */
    size_t snapshot_len; /**< its length */
    uint32_t *node_pool; /**< scratch of any length, which saves time: four numbers a node place are enough */
    size_t node_pool_len; /**< its length */
    uint32_t *edge_pool; /**< scratch of any length, which saves time: sixteen numbers an edge place are enough */
    size_t edge_pool_len; /**< its length */
    uint32_t *blocks; /**< scratch of any length, which saves time: two numbers a point of the outline are enough */
    size_t blocks_len; /**< its length */
    uint32_t *tried; /**< scratch of any length, which saves time: three numbers a node place are enough */
    size_t tried_len; /**< its length */
} sitjorbe_scratch;

/** What is asked of an exam. */
typedef struct sitjorbe_asked {
    uint32_t role; /**< who asks: 1 the desk, 2 a reader, 3 a masked reader */
    uint32_t operation; /**< what is asked: 1 begin, 2 enter, 3 withdraw; 4 to 6 read a node, a quad, a loop; 7 to 9 read a threshold, the figures, an estimate */
    uint32_t item; /**< the number of the node, quad or loop, from 0 */
    uint32_t value; /**< the threshold to enter, in tenths of a decibel, 0 to 500 */
    uint32_t u; /**< the weight from a towards b, 0 to 256 */
    uint32_t v; /**< the weight from a towards c, 0 to 256 */
} sitjorbe_asked;

/** The results of an exam. A desk's call takes what the last one left, and begins with SITJORBE_BEGIN. */
typedef struct sitjorbe_results {
    uint16_t *thresholds; /**< a threshold a node, in tenths of a decibel; anything above SITJORBE_MOST_THRESHOLD means none */
    size_t thresholds_len; /**< its length */
    uint32_t count; /**< how many quads have all four thresholds */
    uint32_t sum; /**< the sum of those quads' thresholds, a node counted once for each such quad */
} sitjorbe_results;

/** Calls sitjorbe_contains. */
SITJORBE_MUST_USE static inline sitjorbe_contains_answer sitjorbe_contains_with(
    const sitjorbe_outline *outline, double x, double y) {
    return sitjorbe_contains(
        outline->outer, outline->outer_len, outline->holes, outline->holes_len, outline->hole_lengths,
        outline->hole_lengths_len, x, y);
}

/** Calls sitjorbe_nearest_segment. */
SITJORBE_MUST_USE static inline sitjorbe_nearest_answer sitjorbe_nearest_segment_with(
    const sitjorbe_outline *outline, double x, double y) {
    return sitjorbe_nearest_segment(
        outline->outer, outline->outer_len, outline->holes, outline->holes_len, outline->hole_lengths,
        outline->hole_lengths_len, x, y);
}

/** Calls sitjorbe_distance_to_boundary. */
SITJORBE_MUST_USE static inline sitjorbe_distance_answer sitjorbe_distance_to_boundary_with(
    const sitjorbe_outline *outline, double x, double y) {
    return sitjorbe_distance_to_boundary(
        outline->outer, outline->outer_len, outline->holes, outline->holes_len, outline->hole_lengths,
        outline->hole_lengths_len, x, y);
}

/** Calls sitjorbe_sound. */
SITJORBE_MUST_USE static inline sitjorbe_sound_answer sitjorbe_sound_with(const sitjorbe_outline *outline) {
    return sitjorbe_sound(
        outline->outer, outline->outer_len, outline->holes, outline->holes_len, outline->hole_lengths,
        outline->hole_lengths_len);
}

/** Calls sitjorbe_directions. */
SITJORBE_MUST_USE static inline uint32_t sitjorbe_directions_with(
    const sitjorbe_record *record, const sitjorbe_field_lists *field, const double *points, size_t points_len,
    const double *targets, size_t targets_len, double *answers, size_t answers_len) {
    return sitjorbe_directions(
        record->xmin, record->ymin, record->h, record->nx, record->ny, field->values, field->values_len, field->marks,
        field->marks_len, points, points_len, targets, targets_len, answers, answers_len);
}

/** Calls sitjorbe_field. */
SITJORBE_MUST_USE static inline sitjorbe_field_record_answer sitjorbe_field_with(
    const sitjorbe_outline *outline, const sitjorbe_settings *settings, const sitjorbe_field_lists *field,
    const sitjorbe_scratch *scratch) {
    return sitjorbe_field(
        outline->outer, outline->outer_len, outline->holes, outline->holes_len, outline->hole_lengths,
        outline->hole_lengths_len, settings->size, settings->sweeps, field->values, field->values_len, field->marks,
        field->marks_len, scratch->blocks, scratch->blocks_len);
}

/** Calls sitjorbe_direction. */
SITJORBE_MUST_USE static inline sitjorbe_direction_answer sitjorbe_direction_with(
    const sitjorbe_record *record, const sitjorbe_field_lists *field, double x, double y, double tx, double ty) {
    return sitjorbe_direction(
        record->xmin, record->ymin, record->h, record->nx, record->ny, field->values, field->values_len, field->marks,
        field->marks_len, x, y, tx, ty);
}

/** Calls sitjorbe_places. */
SITJORBE_MUST_USE static inline sitjorbe_places_answer sitjorbe_places_with(
    const sitjorbe_outline *outline, const sitjorbe_settings *settings) {
    return sitjorbe_places(
        outline->outer, outline->outer_len, outline->holes, outline->holes_len, outline->hole_lengths,
        outline->hole_lengths_len, settings->size);
}

/** Calls sitjorbe_pave. */
SITJORBE_MUST_USE static inline sitjorbe_pave_answer sitjorbe_pave_with(
    const sitjorbe_outline *outline, const sitjorbe_settings *settings, const sitjorbe_field_lists *field,
    const sitjorbe_mesh_lists *mesh, const sitjorbe_scratch *scratch) {
    return sitjorbe_pave(
        outline->outer, outline->outer_len, outline->holes, outline->holes_len, outline->hole_lengths,
        outline->hole_lengths_len, settings->size, settings->sweeps, settings->passes, field->values, field->values_len,
        field->marks, field->marks_len, mesh->xs, mesh->xs_len, mesh->ys, mesh->ys_len, mesh->next, mesh->next_len,
        mesh->prev, mesh->prev_len, scratch->snapshot, scratch->snapshot_len, mesh->origins, mesh->origins_len,
        mesh->quads, mesh->quads_len, mesh->edges, mesh->edges_len, mesh->loops, mesh->loops_len, mesh->loop_lengths,
        mesh->loop_lengths_len, scratch->node_pool, scratch->node_pool_len, scratch->edge_pool, scratch->edge_pool_len,
        scratch->blocks, scratch->blocks_len, scratch->tried, scratch->tried_len);
}

/** Calls sitjorbe_covers. */
SITJORBE_MUST_USE static inline sitjorbe_covers_answer sitjorbe_covers_with(
    const sitjorbe_outline *outline, const sitjorbe_settings *settings, const sitjorbe_mesh_lists *mesh,
    const sitjorbe_mesh_counts *counts, double *sampled_xs, size_t sampled_xs_len, double *sampled_ys,
    size_t sampled_ys_len, uint32_t *sampled_next, size_t sampled_next_len, uint32_t *sampled_prev,
    size_t sampled_prev_len, uint32_t *sampled_edges, size_t sampled_edges_len, uint64_t *keys, size_t keys_len) {
    return sitjorbe_covers(
        outline->outer, outline->outer_len, outline->holes, outline->holes_len, outline->hole_lengths,
        outline->hole_lengths_len, settings->size, mesh->xs, mesh->xs_len, mesh->ys, mesh->ys_len, mesh->quads,
        mesh->quads_len, counts->nodes, counts->quads, sampled_xs, sampled_xs_len, sampled_ys, sampled_ys_len,
        sampled_next, sampled_next_len, sampled_prev, sampled_prev_len, sampled_edges, sampled_edges_len, keys,
        keys_len);
}

/** Calls sitjorbe_step. */
SITJORBE_MUST_USE static inline sitjorbe_step_answer sitjorbe_step_with(
    const sitjorbe_outline *outline, const sitjorbe_settings *settings, const sitjorbe_record *record,
    const sitjorbe_field_lists *field, const sitjorbe_mesh_lists *mesh, const sitjorbe_mesh_counts *counts, uint32_t a,
    uint32_t b) {
    return sitjorbe_step(
        outline->outer, outline->outer_len, outline->holes, outline->holes_len, outline->hole_lengths,
        outline->hole_lengths_len, settings->size, record->xmin, record->ymin, record->h, record->nx, record->ny,
        field->values, field->values_len, field->marks, field->marks_len, mesh->xs, mesh->xs_len, mesh->ys,
        mesh->ys_len, mesh->next, mesh->next_len, mesh->prev, mesh->prev_len, mesh->origins, mesh->origins_len,
        mesh->quads, mesh->quads_len, mesh->edges, mesh->edges_len, counts->nodes, counts->quads, counts->edges,
        counts->front, a, b);
}

/** Calls sitjorbe_preview. */
SITJORBE_MUST_USE static inline sitjorbe_preview_answer sitjorbe_preview_with(
    const sitjorbe_outline *outline, const sitjorbe_settings *settings, const sitjorbe_record *record,
    const sitjorbe_field_lists *field, const sitjorbe_mesh_lists *mesh, const sitjorbe_mesh_counts *counts, uint32_t a,
    uint32_t b, uint32_t *list, size_t list_len) {
    return sitjorbe_preview(
        outline->outer, outline->outer_len, outline->holes, outline->holes_len, outline->hole_lengths,
        outline->hole_lengths_len, settings->size, record->xmin, record->ymin, record->h, record->nx, record->ny,
        field->values, field->values_len, field->marks, field->marks_len, mesh->xs, mesh->xs_len, mesh->ys,
        mesh->ys_len, mesh->next, mesh->next_len, mesh->prev, mesh->prev_len, mesh->origins, mesh->origins_len,
        mesh->quads, mesh->quads_len, mesh->edges, mesh->edges_len, counts->nodes, counts->quads, counts->edges,
        counts->front, a, b, list, list_len);
}

/** Calls sitjorbe_exam. */
SITJORBE_MUST_USE static inline sitjorbe_exam_answer sitjorbe_exam_with(
    const sitjorbe_mesh_lists *mesh, const sitjorbe_mesh_counts *counts, const sitjorbe_asked *asked,
    sitjorbe_results *results, uint32_t *reply, size_t reply_len) {
    return sitjorbe_exam(
        asked->role, asked->operation, asked->item, asked->value, asked->u, asked->v, counts->nodes, mesh->xs,
        mesh->xs_len, mesh->ys, mesh->ys_len, counts->quads, mesh->quads, mesh->quads_len, mesh->next, mesh->next_len,
        mesh->prev, mesh->prev_len, mesh->origins, mesh->origins_len, results->thresholds, results->thresholds_len,
        &results->count, &results->sum, reply, reply_len);
}

/** Calls sitjorbe_exam_read. */
SITJORBE_MUST_USE static inline sitjorbe_exam_answer sitjorbe_exam_read_with(
    const sitjorbe_mesh_lists *mesh, const sitjorbe_mesh_counts *counts, const sitjorbe_asked *asked,
    const sitjorbe_results *results, uint32_t *reply, size_t reply_len) {
    return sitjorbe_exam_read(
        asked->role, asked->operation, asked->item, asked->u, asked->v, counts->nodes, mesh->xs, mesh->xs_len, mesh->ys,
        mesh->ys_len, counts->quads, mesh->quads, mesh->quads_len, mesh->next, mesh->next_len, mesh->prev,
        mesh->prev_len, mesh->origins, mesh->origins_len, results->thresholds, results->thresholds_len, &results->count,
        &results->sum, reply, reply_len);
}

/** Calls sitjorbe_order. */
SITJORBE_MUST_USE static inline sitjorbe_order_answer sitjorbe_order_with(
    const sitjorbe_mesh_lists *mesh, const sitjorbe_mesh_counts *counts, const uint32_t *order, size_t order_len,
    size_t *places, size_t places_len, uint32_t *pool, size_t pool_len) {
    return sitjorbe_order(
        counts->quads, mesh->quads, mesh->quads_len, order, order_len, places, places_len, pool, pool_len);
}

/** Calls sitjorbe_bowl_steps. */
SITJORBE_MUST_USE static inline sitjorbe_bowl_steps_answer sitjorbe_bowl_steps_with(
    const sitjorbe_mesh_lists *mesh, const sitjorbe_mesh_counts *counts, int32_t *steps, size_t steps_len) {
    return sitjorbe_bowl_steps(
        mesh->xs, mesh->xs_len, mesh->ys, mesh->ys_len, mesh->next, mesh->next_len, mesh->prev, mesh->prev_len,
        mesh->origins, mesh->origins_len, mesh->quads, mesh->quads_len, mesh->edges, mesh->edges_len, counts->nodes,
        counts->quads, counts->edges, counts->front, steps, steps_len);
}

/** The counts in an answer of sitjorbe_pave. */
static inline sitjorbe_mesh_counts sitjorbe_pave_counts(sitjorbe_pave_answer answer) {
    sitjorbe_mesh_counts counts;
    counts.nodes = answer.nodes;
    counts.quads = answer.quads;
    counts.edges = answer.edges;
    counts.front = answer.front;
    return counts;
}

/** The counts in an answer of sitjorbe_step. */
static inline sitjorbe_mesh_counts sitjorbe_step_counts(sitjorbe_step_answer answer) {
    sitjorbe_mesh_counts counts;
    counts.nodes = answer.nodes;
    counts.quads = answer.quads;
    counts.edges = answer.edges;
    counts.front = answer.front;
    return counts;
}

/** The record in an answer of sitjorbe_field. */
static inline sitjorbe_record sitjorbe_field_record(sitjorbe_field_record_answer answer) {
    sitjorbe_record record;
    record.xmin = answer.xmin;
    record.ymin = answer.ymin;
    record.h = answer.h;
    record.nx = answer.nx;
    record.ny = answer.ny;
    return record;
}

/** The record in an answer of sitjorbe_pave. */
static inline sitjorbe_record sitjorbe_pave_record(sitjorbe_pave_answer answer) {
    sitjorbe_record record;
    record.xmin = answer.xmin;
    record.ymin = answer.ymin;
    record.h = answer.h;
    record.nx = answer.nx;
    record.ny = answer.ny;
    return record;
}

/** How long each list of a run wants to be; the members are called as the lists. */
typedef struct sitjorbe_list_lengths {
    uint32_t refusal; /**< what refuses the outline or the size, 0 where nothing is refused; the lengths are 0 otherwise */
    size_t values, marks, xs, ys, next, prev, origins, quads, edges, loops, loop_lengths, snapshot, node_pool, edge_pool, blocks, tried;
} sitjorbe_list_lengths;

/**
 * How long the lists of a run want to be: as long as it can't do without, and with places for `growth` times a guess of how many quads there will be, and for the
 * nodes and edges that they add. With 1 a run seldom ends SITJORBE_END_FULL; where it does, ask for twice as much and call again. A growth of 250,000 or
 * more is always enough.
 */
static inline sitjorbe_list_lengths sitjorbe_list_lengths_for(
    const sitjorbe_outline *outline, const sitjorbe_settings *settings, size_t growth) {
    const sitjorbe_places_answer least = sitjorbe_places_with(outline, settings);
    const size_t guess = least.sampled_nodes + least.field_nodes / 4;
    const size_t times = growth < SITJORBE_MOST_QUADS ? growth : SITJORBE_MOST_QUADS;
    const size_t quads = times * guess < SITJORBE_MOST_QUADS ? times * guess : SITJORBE_MOST_QUADS;
    const size_t field_nodes = least.field_nodes, nodes = least.sampled_nodes + 2 * quads;
    const size_t edges = least.sampled_nodes + 3 * quads;
    const int refused = least.refusal != 0;
    sitjorbe_list_lengths lengths;
    lengths.refusal = least.refusal;
    lengths.values = refused ? 0 : 2 * field_nodes;
    lengths.marks = refused ? 0 : field_nodes;
    lengths.xs = refused ? 0 : nodes;
    lengths.ys = refused ? 0 : nodes;
    lengths.next = refused ? 0 : nodes;
    lengths.prev = refused ? 0 : nodes;
    lengths.origins = refused ? 0 : nodes;
    lengths.quads = refused ? 0 : 4 * quads;
    lengths.edges = refused ? 0 : 2 * edges;
    lengths.loops = refused ? 0 : nodes;
    lengths.loop_lengths = refused ? 0 : outline->hole_lengths_len + 1;
    lengths.snapshot = refused ? 0 : nodes;
    lengths.node_pool = refused ? 0 : 4 * nodes;
    lengths.edge_pool = refused ? 0 : 16 * edges;
    lengths.blocks = refused ? 0 : outline->outer_len + outline->holes_len;
    lengths.tried = refused ? 0 : 3 * nodes;
    return lengths;
}

/** How many bytes all these lists take. */
static inline size_t sitjorbe_list_bytes(const sitjorbe_list_lengths *lengths) {
    return lengths->values * sizeof(double)
        + lengths->xs * sizeof(double)
        + lengths->ys * sizeof(double)
        + lengths->next * sizeof(uint32_t)
        + lengths->prev * sizeof(uint32_t)
        + lengths->quads * sizeof(uint32_t)
        + lengths->edges * sizeof(uint32_t)
        + lengths->loops * sizeof(uint32_t)
        + lengths->loop_lengths * sizeof(uint32_t)
        + lengths->snapshot * sizeof(uint32_t)
        + lengths->node_pool * sizeof(uint32_t)
        + lengths->edge_pool * sizeof(uint32_t)
        + lengths->blocks * sizeof(uint32_t)
        + lengths->tried * sizeof(uint32_t)
        + lengths->origins * sizeof(uint16_t)
        + lengths->marks * sizeof(uint8_t);
}

/**
 * Cuts memory into lists of these lengths: sitjorbe_list_bytes of it, aligned to 8 as malloc's is. What it holds doesn't matter.
 */
static inline void sitjorbe_cut_lists(void *memory, const sitjorbe_list_lengths *lengths,
    sitjorbe_field_lists *field, sitjorbe_mesh_lists *mesh, sitjorbe_scratch *scratch) {
    char *at = (char *)memory;
    field->values = (double *)(void *)at;
    field->values_len = lengths->values;
    at += lengths->values * sizeof(double);
    mesh->xs = (double *)(void *)at;
    mesh->xs_len = lengths->xs;
    at += lengths->xs * sizeof(double);
    mesh->ys = (double *)(void *)at;
    mesh->ys_len = lengths->ys;
    at += lengths->ys * sizeof(double);
    mesh->next = (uint32_t *)(void *)at;
    mesh->next_len = lengths->next;
    at += lengths->next * sizeof(uint32_t);
    mesh->prev = (uint32_t *)(void *)at;
    mesh->prev_len = lengths->prev;
    at += lengths->prev * sizeof(uint32_t);
    mesh->quads = (uint32_t *)(void *)at;
    mesh->quads_len = lengths->quads;
    at += lengths->quads * sizeof(uint32_t);
    mesh->edges = (uint32_t *)(void *)at;
    mesh->edges_len = lengths->edges;
    at += lengths->edges * sizeof(uint32_t);
    mesh->loops = (uint32_t *)(void *)at;
    mesh->loops_len = lengths->loops;
    at += lengths->loops * sizeof(uint32_t);
    mesh->loop_lengths = (uint32_t *)(void *)at;
    mesh->loop_lengths_len = lengths->loop_lengths;
    at += lengths->loop_lengths * sizeof(uint32_t);
    scratch->snapshot = (uint32_t *)(void *)at;
    scratch->snapshot_len = lengths->snapshot;
    at += lengths->snapshot * sizeof(uint32_t);
    scratch->node_pool = (uint32_t *)(void *)at;
    scratch->node_pool_len = lengths->node_pool;
    at += lengths->node_pool * sizeof(uint32_t);
    scratch->edge_pool = (uint32_t *)(void *)at;
    scratch->edge_pool_len = lengths->edge_pool;
    at += lengths->edge_pool * sizeof(uint32_t);
    scratch->blocks = (uint32_t *)(void *)at;
    scratch->blocks_len = lengths->blocks;
    at += lengths->blocks * sizeof(uint32_t);
    scratch->tried = (uint32_t *)(void *)at;
    scratch->tried_len = lengths->tried;
    at += lengths->tried * sizeof(uint32_t);
    mesh->origins = (uint16_t *)(void *)at;
    mesh->origins_len = lengths->origins;
    at += lengths->origins * sizeof(uint16_t);
    field->marks = (uint8_t *)(void *)at;
    field->marks_len = lengths->marks;
    at += lengths->marks * sizeof(uint8_t);
    (void)at;
}

/* Every file that includes this one asks for the entry with the number of its shape, so that it links with no other library. */
#if defined(__GNUC__)
#if defined(__has_attribute)
#if __has_attribute(retain)
__attribute__((retain))
#endif
#endif
__attribute__((used)) static uint32_t (*const sitjorbe_abi)(void) = sitjorbe_abi_5;
#endif

#ifdef __cplusplus
}
#endif

#endif
