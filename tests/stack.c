/* How much stack the desk's functions take, as compiled. Each is called on a stack of its own that was painted before, on inputs that lead
 * down its deepest paths; the lowest byte that is changed afterwards tells. The bytes of a function are those from its return address
 * down: arguments that the caller puts on the stack are not among them. Prints a table, and fails where a listing or a forced run
 * takes more than its limit. */
#define _GNU_SOURCE
#include "desk.h"

#include <inttypes.h>
#include <stdio.h>
#include <stdlib.h>
#include <string.h>
#include <ucontext.h>

enum { STACK = 1 << 17, SPARE = 1 << 12, LISTING_LIMIT = 320, RUN_LIMIT = 4096, WORD = 8, MOST_CELLS = 64 * 64, MOST_TILES = 7200, COLOURS = 2 };

/* ---- the painted stack */

static _Alignas(16) unsigned char stack[STACK];
static ucontext_t here, there;

static unsigned char paint(size_t at)
{
    return (unsigned char)(at * 167 + at / 256 + 91);
}

static void paint_all(void)
{
    for (size_t k = 0; k < STACK; k++)
        stack[k] = paint(k);
}

static size_t first_changed(void)
{
    size_t at = 0;
    while (at < STACK && stack[at] == paint(at))
        at++;
    if (at < SPARE) {
        fprintf(stderr, "the painted stack of %d bytes was used up\n", STACK);
        exit(1);
    }
    return at / WORD * WORD;
}

/* The first word of the painted stack that a call changes. */
static size_t lowest(void (*call)(void))
{
    paint_all();
    getcontext(&there);
    there.uc_stack.ss_sp = stack;
    there.uc_stack.ss_size = STACK;
    there.uc_link = &here;
    makecontext(&there, call, 0);
    swapcontext(&here, &there);
    return first_changed();
}

/* Returns 0 at once, whatever its arguments are: it changes its return address and nothing else. */
__asm__(".text\nnothing:\n\txorl %eax, %eax\n\tret\n");
extern __typeof__(desk_fitting_colours) no_listing __asm__("nothing");
extern __typeof__(desk_lay) no_lay __asm__("nothing");
extern __typeof__(desk_lift) no_lift __asm__("nothing");
extern __typeof__(desk_widen) no_widening __asm__("nothing");
extern __typeof__(desk_forced_run) no_run __asm__("nothing");
static bool idle;

/* ---- the calls */

static struct {
    size_t rows, cols, number, budget, pad;
    int32_t row, col, down, across, corner;
    bool within;
    uint32_t pieces[MOST_CELLS], weights[MOST_CELLS], counts[MOST_CELLS];
    uint8_t tiles[9 * MOST_TILES];
} job;
static uint32_t wide[3][MOST_CELLS], answer;
static uint64_t found[1], ran[3];
static int32_t offset[2];

#define BOARD job.pieces, job.rows * job.cols, job.weights, job.rows * job.cols, job.counts, job.rows * job.cols, job.rows, job.cols
#define TILES job.tiles, 9 * job.number, COLOURS
#define PLACE job.row, job.col, job.down, job.across

static void listing(void)
{
    __typeof__(desk_fitting_colours) *call = idle ? no_listing : desk_fitting_colours;
    answer = call(job.pieces, job.rows * job.cols, job.rows, job.cols, TILES, PLACE, found, 1);
}

static void lay(void)
{
    __typeof__(desk_lay) *call = idle ? no_lay : desk_lay;
    answer = call(BOARD, TILES, PLACE, 1);
}

static void lift(void)
{
    __typeof__(desk_lift) *call = idle ? no_lift : desk_lift;
    answer = call(BOARD, TILES, PLACE);
}

static void widening(void)
{
    __typeof__(desk_widen) *call = idle ? no_widening : desk_widen;
    size_t old = job.rows * job.cols, new = (job.rows + 2 * job.pad) * (job.cols + 2 * job.pad);
    answer = call(wide[0], new, wide[1], new, wide[2], new, job.pieces, old, job.weights, old, job.counts, old, job.rows, job.cols, job.pad,
                  job.pad, job.pad, job.pad, TILES, job.down, job.across, offset, 2);
}

static void run(void)
{
    __typeof__(desk_forced_run) *call = idle ? no_run : desk_forced_run;
    answer = call(BOARD, TILES, PLACE, job.within, -job.corner, -job.corner, job.corner, job.corner, job.budget, ran, 3);
}

static struct {
    const char *name;
    void (*call)(void);
    size_t calls, deepest;
} functions[] = {
    {"desk_fitting_colours", listing, 0, 0},
    {"desk_lay", lay, 0, 0},
    {"desk_lift", lift, 0, 0},
    {"desk_widen", widening, 0, 0},
    {"desk_forced_run", run, 0, 0},
};
enum { LISTING, LAY, LIFT, WIDENING, RUN, FUNCTIONS };

/* Once with nothing in the function's place, and once itself; it must answer as it is expected to. */
static void measure(int function, uint32_t expected)
{
    idle = true;
    size_t above = lowest(functions[function].call);
    idle = false;
    size_t bytes = above - lowest(functions[function].call) + WORD;
    if (answer != expected) {
        fprintf(stderr, "%s: answered %" PRIu32 ", not %" PRIu32 "\n", functions[function].name, answer, expected);
        exit(1);
    }
    functions[function].calls++;
    if (bytes > functions[function].deepest)
        functions[function].deepest = bytes;
}

static void measure_run(size_t budget, enum desk_run_end end, bool dropped)
{
    job.budget = budget;
    measure(RUN, DESK_DONE);
    if (ran[0] != end || (ran[1] > ran[2]) != dropped) {
        fprintf(stderr, "desk_forced_run: ended %" PRIu64 " with %" PRIu64 " taken, %" PRIu64 " laid\n", ran[0], ran[1], ran[2]);
        exit(1);
    }
}

/* ---- the inputs */

static const char PLAIN[] = "111111111", CHEQUER[] = "121212121212121212", CLOSING[] = "112121121121211211";

/* A bare board and so many tiles, those of the text over and over; the place is a cell's. */
static void fresh(size_t rows, size_t cols, const char *tiles, size_t number, int32_t row, int32_t col)
{
    size_t bytes = strlen(tiles);
    job.rows = rows, job.cols = cols, job.number = number, job.pad = 0;
    job.row = row, job.col = col, job.down = 0, job.across = 0;
    job.within = false, job.corner = 0;
    for (size_t k = 0; k < rows * cols; k++) {
        job.pieces[k] = job.weights[k] = 1;
        job.counts[k] = (uint32_t)number;
    }
    for (size_t k = 0; k < 9 * number; k++)
        job.tiles[k] = (uint8_t)(tiles[k % bytes] - '0');
}

/* All functions but the run, one after another at one place; and each refused by its last cell and by the offset. */
static void board_calls(size_t rows, size_t cols, const char *tiles, size_t number, int32_t row, int32_t col, size_t pad)
{
    fresh(rows, cols, tiles, number, row, col);
    job.pad = pad;
    measure(LISTING, DESK_DONE);
    measure(LAY, DESK_DONE);
    measure(LISTING, DESK_DONE);
    measure(WIDENING, DESK_DONE);
    measure(LIFT, DESK_DONE);
    job.budget = 4096;
    for (int function = LISTING; function < FUNCTIONS; function++) {
        job.pieces[rows * cols - 1] = 0;
        measure(function, DESK_CELL);
        job.pieces[rows * cols - 1] = 1;
        job.across = INT32_MIN;
        measure(function, DESK_PLACE);
        job.across = 0;
    }
}

/* Runs in which the queue fills, from the middle and from a corner; that are spent, with the queue nearly full; that end done, in a box; in
 * which cells that wait are left with no colour; and with as many tiles as there may be. */
static void runs(void)
{
    fresh(64, 64, PLAIN, 1, 32, 32);
    measure_run(4096, DESK_RUN_FULL, false);
    fresh(64, 64, PLAIN, 1, 0, 0);
    measure_run(4096, DESK_RUN_FULL, false);
    fresh(64, 64, CHEQUER, 2, 32, 32);
    job.pieces[32 * 64 + 32] = 2;
    measure_run(4096, DESK_RUN_FULL, false);
    fresh(64, 64, PLAIN, 1, 32, 32);
    measure_run(225, DESK_RUN_SPENT, false);
    fresh(64, 64, PLAIN, 1, 32, 32);
    job.row = job.col = 0, job.down = job.across = 32;
    job.within = true, job.corner = 7;
    measure_run(4096, DESK_RUN_DONE, false);
    fresh(1, 3, CLOSING, 2, 0, 1);
    measure_run(4096, DESK_RUN_DONE, true);
    fresh(9, 9, CHEQUER, MOST_TILES, 4, 4);
    job.pieces[4 * 9 + 4] = 2;
    measure_run(4, DESK_RUN_SPENT, false);
}

static bool over(int function, size_t limit)
{
    bool more = functions[function].deepest > limit;
    if (more)
        printf("%s takes more than %zu bytes\n", functions[function].name, limit);
    return more;
}

int main(void)
{
    board_calls(64, 64, CHEQUER, 2, 32, 32, 0);
    board_calls(60, 60, CHEQUER, 2, 0, 0, 2);
    board_calls(7, 7, CHEQUER, MOST_TILES, 6, 6, 1);
    runs();
    puts("stack of the deepest path, in bytes, and over how many calls");
    for (int function = 0; function < FUNCTIONS; function++)
        printf("  %-21s %5zu %5zu\n", functions[function].name, functions[function].deepest, functions[function].calls);
    int faults = over(LISTING, LISTING_LIMIT) + over(RUN, RUN_LIMIT);
    return faults > 0;
}
