/* A desk in miniature: a 3x4 panel, the two chequer tiles, a piece laid, colours listed, the piece lifted; the same piece laid and what it
 * forces run out; and the same piece laid, the panel widened, the piece lifted. It checks every answer, and compares the planes after each
 * lift with those of a panel on which no piece ever lay. */
#include "desk.h"

#include <inttypes.h>
#include <stdio.h>
#include <stdlib.h>
#include <string.h>

enum { ROOM = 24, COLOURS = 2, TILES = 2 };

/* A panel and its plan: the size and the offset, which a widening changes, and the three planes. */
struct plan {
    size_t rows, cols;
    int32_t down, across;
    uint32_t pieces[ROOM], weights[ROOM], counts[ROOM];
};

static const uint8_t tiles[TILES * 9] = {1, 2, 1, 2, 1, 2, 1, 2, 1, 2, 1, 2, 1, 2, 1, 2, 1, 2};

static void need(const char *what, uint32_t got, uint32_t expected)
{
    if (got != expected) {
        fprintf(stderr, "%s: answered %" PRIu32 ", not %" PRIu32 "\n", what, got, expected);
        exit(1);
    }
}

static size_t cells(const struct plan *plan)
{
    return plan->rows * plan->cols;
}

/* The wall's origin is the cell in row down, column across. */
static struct plan bare(size_t rows, size_t cols, int32_t down, int32_t across)
{
    struct plan plan = {.rows = rows, .cols = cols, .down = down, .across = across};
    for (size_t k = 0; k < rows * cols; k++) {
        plan.pieces[k] = 1;
        plan.weights[k] = 1;
        plan.counts[k] = TILES;
    }
    return plan;
}

static uint32_t lay(struct plan *plan, int32_t row, int32_t col, uint32_t colour)
{
    size_t n = cells(plan);
    return desk_lay(plan->pieces, n, plan->weights, n, plan->counts, n, plan->rows, plan->cols, tiles, sizeof tiles, COLOURS, row, col,
                    plan->down, plan->across, colour);
}

static uint32_t lift(struct plan *plan, int32_t row, int32_t col)
{
    size_t n = cells(plan);
    return desk_lift(plan->pieces, n, plan->weights, n, plan->counts, n, plan->rows, plan->cols, tiles, sizeof tiles, COLOURS, row, col,
                     plan->down, plan->across);
}

/* No box. */
static void run_out(struct plan *plan, int32_t row, int32_t col, size_t budget)
{
    static const char *const ends[] = {[DESK_RUN_DONE] = "done", [DESK_RUN_SPENT] = "spent", [DESK_RUN_FULL] = "full"};
    size_t n = cells(plan);
    uint64_t ran[3];
    need("run out",
         desk_forced_run(plan->pieces, n, plan->weights, n, plan->counts, n, plan->rows, plan->cols, tiles, sizeof tiles, COLOURS, row, col,
                         plan->down, plan->across, false, 0, 0, 0, 0, budget, ran, 3),
         DESK_DONE);
    need("an end that has a name", ran[0] < sizeof ends / sizeof *ends, 1);
    printf("forced from %" PRId32 " %" PRId32 ", budget %zu: %s, %" PRIu64 " taken, %" PRIu64 " laid\n", row, col, budget, ends[ran[0]], ran[1],
           ran[2]);
}

/* left and right are rows, top and bottom columns. The new panel has the new size, and the offset that the call gives. */
static struct plan widen(const struct plan *plan, size_t left, size_t right, size_t top, size_t bottom)
{
    struct plan wide = {.rows = left + plan->rows + right, .cols = top + plan->cols + bottom};
    size_t n = cells(plan), m = cells(&wide);
    int32_t offset[2];
    need("room for the larger planes", m <= ROOM, 1);
    need("widen",
         desk_widen(wide.pieces, m, wide.weights, m, wide.counts, m, plan->pieces, n, plan->weights, n, plan->counts, n, plan->rows, plan->cols,
                    left, right, top, bottom, tiles, sizeof tiles, COLOURS, plan->down, plan->across, offset, 2),
         DESK_DONE);
    wide.down = offset[0];
    wide.across = offset[1];
    return wide;
}

static void list(const struct plan *plan, int32_t row, int32_t col)
{
    uint64_t found = 0;
    need("list",
         desk_fitting_colours(plan->pieces, cells(plan), plan->rows, plan->cols, tiles, sizeof tiles, COLOURS, row, col, plan->down,
                              plan->across, &found, 1),
         DESK_DONE);
    printf("at %" PRId32 " %" PRId32 " fit:", row, col);
    for (unsigned colour = 1; colour <= COLOURS; colour++)
        if (found >> (colour - 1) & 1)
            printf(" %u", colour);
    puts("");
}

static void show(const char *name, const struct plan *plan, const uint32_t *plane)
{
    puts(name);
    for (size_t k = 0; k < cells(plan); k++)
        printf("%" PRIu32 "%c", plane[k], (k + 1) % plan->cols ? ' ' : '\n');
}

int main(void)
{
    struct plan plan = bare(3, 4, 1, 1);
    const struct plan before = plan;

    list(&plan, 0, 1);
    need("lay", lay(&plan, 0, 0, 1), DESK_DONE);
    puts("laid colour 1 at 0 0");
    list(&plan, 0, 1);
    show("weights", &plan, plan.weights);
    show("counts", &plan, plan.counts);

    const struct plan laid = plan;
    uint32_t answer = lay(&plan, 0, 0, 2);
    need("a second lay", answer, DESK_TAKEN);
    need("memory after a refusal", memcmp(&plan, &laid, sizeof plan) != 0, 0);
    printf("a second lay at 0 0: refused %" PRIu32 ", nothing changed\n", answer);

    need("lift", lift(&plan, 0, 0), DESK_DONE);
    need("memory after the lift", memcmp(&plan, &before, sizeof plan) != 0, 0);
    puts("lifted: pieces, weights and counts as before the lay");

    struct plan forced = laid;
    run_out(&forced, 0, 0, 3);
    show("pieces", &forced, forced.pieces);
    /* What waited is forgotten: a larger budget, on the plan as it was. */
    forced = laid;
    run_out(&forced, 0, 0, 4096);
    show("pieces", &forced, forced.pieces);

    struct plan wide = widen(&laid, 1, 0, 0, 2);
    printf("widened with the piece on it: %zu rows, %zu columns, offset %" PRId32 " %" PRId32 "\n", wide.rows, wide.cols, wide.down, wide.across);
    show("weights", &wide, wide.weights);
    need("lift after the widening", lift(&wide, 0, 0), DESK_DONE);
    const struct plan never = bare(4, 6, 2, 1);
    need("memory after that lift", memcmp(&wide, &never, sizeof wide) != 0, 0);
    puts("lifted: a widened panel on which no piece ever lay");

    answer = desk_lift(NULL, 0, NULL, 0, NULL, 0, 3, 4, NULL, 0, COLOURS, 0, 0, 1, 1);
    need("no planes", answer, DESK_LENGTH);
    printf("no planes at all: refused %" PRIu32 "\n", answer);
    return 0;
}
