/* Paves an outline and prints its mesh, as the program `pave` prints it (docs/FORMATS.md): pave SIZE < points.csv
 *
 * A point is a line, x and y in degrees with a comma between. A blank line ends a loop: the first is the outer outline, the others are blind spots. A line
 * that begins with # is passed over. The exit status is 0 for a mesh, 1 for a refusal, 2 where something can't be read or there isn't memory. */
#include <inttypes.h>
#include <stdio.h>
#include <stdlib.h>
#include <xmmintrin.h>

#include "sitjorbe.h"

static void stop(int status, const char *words) {
    fprintf(stderr, "pave: %s\n", words);
    exit(status);
}

/* Reads an outline. What the library refuses is left to it; only what these arrays can't hold is stopped here. */
static sitjorbe_outline read_outline(FILE *file) {
    static double outer[2 * SITJORBE_MOST_POINTS], holes[2 * SITJORBE_MOST_POINTS];
    static size_t lens[SITJORBE_MOST_POINTS];
    sitjorbe_outline o = {outer, 0, holes, 0, lens, 0};
    char line[256];
    for (int loops = 0, between = 1; fgets(line, sizeof line, file);) {
        double x, y;
        const int read = sscanf(line, "%lf ,%lf", &x, &y);
        if (read == EOF)
            between = 1;
        if (read == EOF || line[0] == '#')
            continue;
        if (read != 2 || o.outer_len + o.holes_len == 2 * SITJORBE_MOST_POINTS)
            stop(2, read != 2 ? "a line isn't a point: x and y are wanted with a comma between" : "there are too many points");
        if (between && ++loops > 1)
            lens[o.hole_lengths_len++] = 0;
        if (loops > 1)
            lens[o.hole_lengths_len - 1]++;
        double *at = loops == 1 ? outer + o.outer_len : holes + o.holes_len;
        *(loops == 1 ? &o.outer_len : &o.holes_len) += 2;
        at[0] = x, at[1] = y, between = 0;
    }
    return o;
}

static void print(const sitjorbe_pave_answer *a, const sitjorbe_mesh_lists *mesh) {
    static const char *const ends[] = {"still", "passes", "cap", "full"};
    const uint32_t *id = mesh->loops;
    printf("mesh %" PRIu32 " %zu %zu %s %s\n", a->nodes, a->quads, a->front, ends[a->end], a->whole ? "whole" : "open");
    for (uint32_t k = 0; k < a->nodes; k++) {
        const union { double number; uint64_t bits; } x = {mesh->xs[k]}, y = {mesh->ys[k]};
        printf("n %016" PRIx64 " %016" PRIx64 "\n", x.bits, y.bits);
    }
    for (const uint32_t *q = mesh->quads; q < mesh->quads + 4 * a->quads; q += 4)
        printf("q %" PRIu32 " %" PRIu32 " %" PRIu32 " %" PRIu32 "\n", q[0], q[1], q[2], q[3]);
    for (size_t k = 0; k < a->loops; k++, puts(""))
        for (uint32_t i = (uint32_t)printf("l") - 1; i < mesh->loop_lengths[k]; i++)
            printf(" %" PRIu32, *id++);
}

int main(int count, char **words) {
    sitjorbe_settings settings = {0, 400, 600};
    if (count != 2 || sscanf(words[1], "%lf", &settings.size) != 1 || (_mm_getcsr() & 0xffc0) != 0x1f80)
        stop(2, "the size of a quad's side is wanted, and floats that are rounded to nearest with no flush to zero");
    const sitjorbe_outline outline = read_outline(stdin);
    for (size_t growth = 1;; growth *= 2) {
        sitjorbe_field_lists field;
        sitjorbe_mesh_lists mesh;
        sitjorbe_scratch scratch;
        const sitjorbe_list_lengths lengths = sitjorbe_list_lengths_for(&outline, &settings, growth);
        void *memory = malloc(sitjorbe_list_bytes(&lengths) + 1);
        if (!memory)
            stop(2, "there isn't memory for so many quads");
        sitjorbe_cut_lists(memory, &lengths, &field, &mesh, &scratch);
        const sitjorbe_pave_answer answer = sitjorbe_pave_with(&outline, &settings, &field, &mesh, &scratch);
        if (answer.refusal)
            stop(1, sitjorbe_refusal_words(answer.refusal));
        if (answer.end != SITJORBE_END_FULL)
            return print(&answer, &mesh), free(memory), 0;
        free(memory);
    }
}
