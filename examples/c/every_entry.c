/* Calls every entry of the library once, on a square of 2 by 2 degrees paved with quads of 1, and compares each answer. C11 and C++17. */
#include <stdio.h>

#include "sitjorbe.h"

static int wrong = 0;

static void expect(int fact, const char *words) {
    if (!fact) {
        fprintf(stderr, "every_entry: not so: %s\n", words);
        wrong = 1;
    }
}
#define EXPECT(fact) expect(fact, #fact)

enum { FIELD_NODES = 200, NODES = 20, QUADS = 10, EDGES = 40, PLACES = 640, FOURS = 14944 };

static const double outer[] = {0, 0, 2, 0, 2, 2, 0, 2};
static double values[2 * FIELD_NODES], xs[NODES], ys[NODES];
static uint8_t marks[FIELD_NODES];
static uint16_t origins[NODES], thresholds[NODES];
static uint32_t next[NODES], prev[NODES], snapshot[NODES], quads[4 * QUADS], edges[2 * EDGES], loops[NODES], lengths[4];
static uint32_t node_pool[PLACES], edge_pool[PLACES], blocks[PLACES], tried[PLACES], list[PLACES], fours[FOURS];

static void ask_of_the_outline(void) {
    const sitjorbe_sound_answer sound = sitjorbe_sound(outer, 8, NULL, 0, NULL, 0);
    EXPECT(sound.refusal == 0 && sound.sound);
    const sitjorbe_contains_answer contains = sitjorbe_contains(outer, 8, NULL, 0, NULL, 0, 1, 0.5);
    EXPECT(contains.refusal == 0 && contains.inside);
    const sitjorbe_nearest_answer nearest = sitjorbe_nearest_segment(outer, 8, NULL, 0, NULL, 0, 1.75, 1);
    EXPECT(nearest.refusal == 0 && nearest.segment_index == 1 && nearest.ax == 2 && nearest.by == 2);
    const sitjorbe_distance_answer distance = sitjorbe_distance_to_boundary(outer, 8, NULL, 0, NULL, 0, 1.75, 1);
    EXPECT(distance.refusal == 0 && distance.distance == 0.25);
    const sitjorbe_places_answer places = sitjorbe_places(outer, 8, NULL, 0, NULL, 0, 1);
    EXPECT(places.refusal == 0 && places.sampled_nodes == 8 && places.field_nodes <= FIELD_NODES);
}

static void read_a_file(void) {
    static const char text[] = "x,y\n0,0\n2,0\n2,2\n0,2\n";
    double coordinates[8];
    size_t lines[4], counts[1], marks[3];
    const sitjorbe_points_answer read =
        sitjorbe_read_points((const uint8_t *)text, sizeof text - 1, 0, coordinates, 8, lines, 4, counts, 1, marks, 3);
    EXPECT(read.refusal == 0 && read.points == 4 && read.loops == 1 && counts[0] == 4 && lines[0] == 2 && coordinates[2] == 2);
}

static void ask_of_the_field(void) {
    const sitjorbe_field_record_answer f =
        sitjorbe_field(outer, 8, NULL, 0, NULL, 0, 1, 400, values, 2 * FIELD_NODES, marks, FIELD_NODES, blocks, PLACES);
    const size_t nodes = f.nx * f.ny;
    EXPECT(f.refusal == 0 && f.h == 0.5 && nodes <= FIELD_NODES);
    const sitjorbe_direction_answer one =
        sitjorbe_direction(f.xmin, f.ymin, f.h, f.nx, f.ny, values, 2 * nodes, marks, nodes, 1, 0, 0.9, 0.1);
    EXPECT(one.refusal == 0 && one.x == 1 && one.y == 0);
    const double points[] = {1, 0, 2000, 0}, targets[] = {0.9, 0.1, 1, 0};
    double answers[6];
    EXPECT(sitjorbe_directions(f.xmin, f.ymin, f.h, f.nx, f.ny, values, 2 * nodes, marks, nodes, points, 4, targets, 4, answers, 6) == 0);
    EXPECT(answers[0] == 0 && answers[1] == 1 && answers[3] == SITJORBE_REFUSED_TOO_FAR);
}

static sitjorbe_pave_answer pave(size_t passes) {
    return sitjorbe_pave(outer, 8, NULL, 0, NULL, 0, 1, 400, passes, values, 2 * FIELD_NODES, marks, FIELD_NODES, xs, NODES, ys, NODES, next, NODES, prev,
        NODES, snapshot, NODES, origins, NODES, quads, 4 * QUADS, edges, 2 * EDGES, loops, NODES, lengths, 4, node_pool, PLACES, edge_pool, PLACES, blocks,
        PLACES, tried, PLACES);
}

static void step_by_hand(void) {
    const sitjorbe_pave_answer p = pave(0);
    const size_t nodes = p.nx * p.ny;
    EXPECT(p.refusal == 0 && p.end == SITJORBE_END_PASSES && p.nodes == 8 && p.front == 8);
    const sitjorbe_preview_answer look = sitjorbe_preview(outer, 8, NULL, 0, NULL, 0, 1, p.xmin, p.ymin, p.h, p.nx, p.ny, values, 2 * nodes, marks, nodes, xs,
        NODES, ys, NODES, next, NODES, prev, NODES, origins, NODES, quads, 4 * QUADS, edges, 2 * EDGES, p.nodes, p.quads, p.edges, p.front, 0, 1, list, PLACES);
    EXPECT(look.refusal == 0 && look.outcome == SITJORBE_OUTCOME_PLACED && look.d == 8 && look.new_nodes == 1 && look.dx == 1 && look.dy == 1);
    const sitjorbe_step_answer step = sitjorbe_step(outer, 8, NULL, 0, NULL, 0, 1, p.xmin, p.ymin, p.h, p.nx, p.ny, values, 2 * nodes, marks, nodes, xs, NODES,
        ys, NODES, next, NODES, prev, NODES, origins, NODES, quads, 4 * QUADS, edges, 2 * EDGES, p.nodes, p.quads, p.edges, p.front, 0, 1);
    EXPECT(step.refusal == 0 && step.outcome == SITJORBE_OUTCOME_PLACED && step.nodes == 9 && step.quads == 1 && step.front == look.front);
}

static void examine(const sitjorbe_pave_answer *p) {
    uint32_t count = 7, sum = 7;
    const sitjorbe_exam_answer begun = sitjorbe_exam(SITJORBE_DESK, SITJORBE_BEGIN, 0, 0, 0, 0, p->nodes, xs, NODES, ys, NODES, p->quads, quads, 4 * QUADS, next,
        NODES, prev, NODES, origins, NODES, thresholds, NODES, &count, &sum, NULL, 0);
    EXPECT(begun.refusal == 0 && count == 0 && sum == 0 && thresholds[8] == SITJORBE_NO_THRESHOLD);
    const sitjorbe_exam_answer read = sitjorbe_exam_read(SITJORBE_READER, SITJORBE_READ_THRESHOLD, 8, 0, 0, p->nodes, xs, NODES, ys, NODES, p->quads, quads,
        4 * QUADS, next, NODES, prev, NODES, origins, NODES, thresholds, NODES, &count, &sum, NULL, 0);
    EXPECT(read.refusal == 17);
    const uint32_t order[] = {0, 1, 2, 3};
    const sitjorbe_order_answer accepted = sitjorbe_order(p->quads, quads, 4 * QUADS, order, 4, NULL, 0, NULL, 0);
    EXPECT(accepted.refusal == 0);
    int32_t steps[2 * NODES];
    const sitjorbe_bowl_steps_answer shown = sitjorbe_bowl_steps(xs, NODES, ys, NODES, next, NODES, prev, NODES, origins, NODES, quads, 4 * QUADS, edges, 2 * EDGES,
        p->nodes, p->quads, p->edges, p->front, steps, 2 * NODES);
    EXPECT(shown.refusal == 0 && steps[16] == SITJORBE_STEPS_PER_DEGREE && steps[17] == SITJORBE_STEPS_PER_DEGREE);
}

static void look_for_every_point(const sitjorbe_pave_answer *p) {
    double at_x[NODES], at_y[NODES];
    uint32_t after[NODES], before[NODES], sides[2 * NODES];
    uint64_t keys[4 * QUADS];
    const sitjorbe_covers_answer covers = sitjorbe_covers(outer, 8, NULL, 0, NULL, 0, 1, xs, NODES, ys, NODES, quads, 4 * QUADS, p->nodes, p->quads, at_x,
        NODES, at_y, NODES, after, NODES, before, NODES, sides, 2 * NODES, keys, 4 * QUADS);
    EXPECT(covers.refusal == 0 && covers.sound);
}

int main(void) {
    EXPECT(sitjorbe_abi() == SITJORBE_ABI);
    read_a_file();
    ask_of_the_outline();
    ask_of_the_field();
    step_by_hand();
    const sitjorbe_pave_answer paved = pave(600);
    EXPECT(paved.refusal == 0 && paved.end == SITJORBE_END_STILL && paved.whole && paved.nodes == 9 && paved.quads == 4);
    look_for_every_point(&paved);
    examine(&paved);
    const sitjorbe_small_quads_answer small = sitjorbe_small_quads(fours, FOURS);
    EXPECT(small.refusal == 0 && small.count == 3736 && fours[3] == 4);
    puts(wrong ? "some answer is wrong" : "every entry was called");
    return wrong;
}
