/* A front stepped by hand: the sampled outline of a square, a look at each step, the step, and the mesh in steps of the motor bowl. */
#include <stdio.h>
#include <stdlib.h>

#include "sitjorbe.h"

static void check(uint32_t refusal) {
    if (refusal) {
        fprintf(stderr, "step: %s\n", sitjorbe_refusal_words(refusal));
        exit(1);
    }
}

/* The first node of the front, and how many nodes stand off it. */
static uint32_t first_on_front(const sitjorbe_mesh_lists *mesh, sitjorbe_mesh_counts counts) {
    uint32_t node = 0;
    while (node < counts.nodes && mesh->next[node] == SITJORBE_OFF)
        node++;
    return node;
}

int main(void) {
    const double square[] = {0, 0, 2, 0, 2, 2, 0, 2};
    const sitjorbe_outline outline = {square, 8, NULL, 0, NULL, 0};
    const sitjorbe_settings settings = {1, 400, 0}; /* no passes: the sampled outline alone */
    const sitjorbe_list_lengths lengths = sitjorbe_list_lengths_for(&outline, &settings, 1);
    void *memory = malloc(sitjorbe_list_bytes(&lengths) + 1);
    sitjorbe_field_lists field;
    sitjorbe_mesh_lists mesh;
    sitjorbe_scratch scratch;
    check(lengths.refusal);
    if (!memory)
        return 2;
    sitjorbe_cut_lists(memory, &lengths, &field, &mesh, &scratch);
    const sitjorbe_pave_answer sampled = sitjorbe_pave_with(&outline, &settings, &field, &mesh, &scratch);
    check(sampled.refusal);
    const sitjorbe_record record = sitjorbe_pave_record(sampled);
    sitjorbe_mesh_counts counts = sitjorbe_pave_counts(sampled);
    uint32_t front[64];

    for (uint32_t outcome = SITJORBE_OUTCOME_PLACED; outcome == SITJORBE_OUTCOME_PLACED;) {
        const uint32_t a = first_on_front(&mesh, counts), b = a < counts.nodes ? mesh.next[a] : a;
        if (a == counts.nodes)
            break;
        const sitjorbe_preview_answer look =
            sitjorbe_preview_with(&outline, &settings, &record, &field, &mesh, &counts, a, b, front, 64);
        check(look.refusal);
        const sitjorbe_step_answer step = sitjorbe_step_with(&outline, &settings, &record, &field, &mesh, &counts, a, b);
        check(step.refusal);
        outcome = step.outcome;
        if (outcome == SITJORBE_OUTCOME_PLACED)
            printf("edge %u to %u: quad %u %u %u %u with %u new nodes\n", a, b, look.a, look.b, look.d, look.c, look.new_nodes);
        counts = sitjorbe_step_counts(step);
    }
    printf("%u nodes and %zu quads, and a front of %zu edges\n", counts.nodes, counts.quads, counts.front);

    int32_t *steps = calloc(counts.nodes, 2 * sizeof *steps);
    check(sitjorbe_bowl_steps_with(&mesh, &counts, steps, 2 * (size_t)counts.nodes).refusal);
    printf("node %u stands at %d and %d steps\n", counts.nodes - 1, steps[2 * counts.nodes - 2], steps[2 * counts.nodes - 1]);
    free(steps);
    free(memory);
    return 0;
}
