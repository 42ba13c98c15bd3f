/* An exam on a paved square: the desk enters thresholds, reads the figures and an estimate, and checks the order of testing; a masked reader gets the mesh alone. */
#include <stdio.h>
#include <stdlib.h>

#include "sitjorbe.h"

static void check(uint32_t refusal) {
    if (refusal) {
        fprintf(stderr, "exam: %s\n", sitjorbe_refusal_words(refusal));
        exit(1);
    }
}

int main(void) {
    const double square[] = {0, 0, 2, 0, 2, 2, 0, 2};
    const sitjorbe_outline outline = {square, 8, NULL, 0, NULL, 0};
    const sitjorbe_settings settings = {1, 400, 600};
    const sitjorbe_list_lengths lengths = sitjorbe_list_lengths_for(&outline, &settings, 1);
    void *memory = malloc(sitjorbe_list_bytes(&lengths) + 1);
    sitjorbe_field_lists field;
    sitjorbe_mesh_lists mesh;
    sitjorbe_scratch scratch;
    check(lengths.refusal);
    if (!memory)
        return 2;
    sitjorbe_cut_lists(memory, &lengths, &field, &mesh, &scratch);
    const sitjorbe_pave_answer paved = sitjorbe_pave_with(&outline, &settings, &field, &mesh, &scratch);
    check(paved.refusal);

    /* A threshold a node, in tenths of a decibel, and both figures: each call takes what the last one left. */
    const sitjorbe_mesh_counts counts = sitjorbe_pave_counts(paved);
    sitjorbe_results results = {calloc(counts.nodes, sizeof(uint16_t)), counts.nodes, 0, 0};
    sitjorbe_asked asked = {SITJORBE_DESK, SITJORBE_BEGIN, 0, 0, 0, 0};
    check(sitjorbe_exam_with(&mesh, &counts, &asked, &results, NULL, 0).refusal);
    asked.operation = SITJORBE_ENTER;
    for (asked.item = 0; asked.item < counts.nodes; asked.item++) {
        asked.value = 300 + asked.item;
        check(sitjorbe_exam_with(&mesh, &counts, &asked, &results, NULL, 0).refusal);
    }
    printf("%u quads of %zu have all thresholds, with the sum %u\n", results.count, counts.quads, results.sum);

    /* The estimate in the middle of quad 0. */
    const sitjorbe_asked estimate = {SITJORBE_DESK, SITJORBE_READ_ESTIMATE, 0, 0, 128, 128};
    const sitjorbe_exam_answer told = sitjorbe_exam_with(&mesh, &counts, &estimate, &results, NULL, 0);
    check(told.refusal);
    printf("in the middle of quad 0 %u tenths of a decibel\n", told.estimate);

    /* A masked reader asks for a threshold. */
    const sitjorbe_asked masked = {SITJORBE_MASKED_READER, SITJORBE_READ_THRESHOLD, 0, 0, 0, 0};
    puts(sitjorbe_refusal_words(sitjorbe_exam_with(&mesh, &counts, &masked, &results, NULL, 0).refusal));

    /* The order of placing is always one in which the quads may be tested. */
    uint32_t order[] = {0, 1, 2, 3};
    check(sitjorbe_order_with(&mesh, &counts, order, counts.quads, NULL, 0, NULL, 0).refusal);
    free(results.thresholds);
    free(memory);
    return 0;
}
