/* The desk's functions: fitting colours, lay, lift, widening, running out the forced pieces and the plain score, for a C program.
 *
 * Build: `tests/archives desk` proves the functions and writes target/staticlib/libdesk.a; link it, no other library is needed. It is for
 * x86-64 (System V calls, Linux) alone. The functions hold no state, allocate nothing, print nothing, and always return.
 *
 * What a plan is: a board of cells, on which pieces of glass lie, and a list of 3x3 tiles that says which pieces may lie side by side. Three
 * planes of the same size hold it, row by row: cell (r, c) is entry r * cols + c.
 *   pieces        1 where the cell is bare, t + 1 where a piece of colour t lies.
 *   weights       a measure of how many pieces lie near a cell: 1, plus 3 for each piece at most one cell away, the cell's own included, plus
 *                 1 for each exactly two away. Distance is the larger of row and column difference. The planner's scan for dead ends, which
 *                 is not in this library, looks at a bare cell only where its weight is above 1. Start: 1 everywhere.
 *   counts        how many tiles of the list fit the 3x3 region whose top left cell this is; where that region passes the edge, the number
 *                 of all tiles. A tile that stands twice in the list counts twice. Scores are made of it: the plain score, and the
 *                 planner's lay score and lift score, which are not in this library. Start: the number of tiles everywhere (tiles_len / 9).
 * A plan starts with pieces all 1, weights all 1 and counts as said. From then on lay, lift, widening and the forced run keep the three as
 * the pieces say them. A program that changes a plane by hand, or names other tiles or another size from one call to the next, gives that
 * up, and the calls need not notice; with another offset the same place is another cell. Only a widening gives a new size and a new offset,
 * and the calls after it name these.
 * Scores are a plane of their own, of doubles, and no part of the plan. Only desk_plain_score and desk_plain_score_near read or write it, and
 * they write nothing else: after a lay, a lift, a widening or a forced run the scores are old until they are made anew.
 *
 * What the functions take. The two that score take rows and cols of these; what else they take stands with them.
 *   rows, cols    the sides of the board, 1 to 64 each. Each plane has exactly rows * cols entries, and its _len says so.
 *   tiles         nine bytes a tile, row by row: a colour, or 0 for unknown. 1 to 7,200 tiles; tiles_len is in bytes. A 0 equals no piece:
 *                 a tile fits only where its 0 cells are bare, and a 0 lists no colour.
 *   count         the number of colours, 1 to 30. It may differ from call to call, but a count below a colour that stands in pieces or
 *                 tiles is refused with CELL.
 *   row, col      the place, in wall coordinates, counted from the job's origin, -1,000,000 to 1,000,000 each (not desk_widen).
 *   down, across  the offset, -999,937 to 1,000,000 each: the cell is (row + down, col + across). With 0 and 0
 *                 a place names its cell directly.
 * A slice is a pointer and its number of ELEMENTS. Every value of every argument is answered, by 0 or by a refusal's number; NULL with
 * length 0 is allowed and never dereferenced. What cannot be checked from inside: a pointer must point to as many elements as its length
 * says and be aligned as C aligns its type (4 bytes for uint32_t and int32_t, 8 for uint64_t and double, any for uint8_t; nothing beyond
 * that), and a slice that is changed must not overlap another one.
 *
 * What all give back: 0, or the lowest refusal number that holds (10 belongs to functions that are not here). A refused call changes no
 * memory at all.
 */
#ifndef DESK_H
#define DESK_H

#include <stdbool.h>
#include <stddef.h>
#include <stdint.h>

#ifdef __cplusplus
extern "C" {
#endif

enum desk_refusal {
    DESK_DONE = 0,
    DESK_SHAPE = 1,  /* a side of the board, one that the pads make, the budget, or the end of a span is out of bounds */
    DESK_LENGTH = 2, /* a plane does not have as many entries as its board has cells; the tiles are not 1 to 7,200 whole ones, or their number is not */
    DESK_COUNT = 3,  /* count is out of bounds */
    DESK_CELL = 4,   /* a tile cell above count; a piece 0 or above count + 1; a weight above 4,000,000,000; an entry of counts above the number of tiles */
    DESK_NUMBER = 5, /* an entry of scores is a NaN, below zero or infinite, in a call that keeps some of them */
    DESK_PLACE = 6,  /* a coordinate, a corner, the offset or the widened panel's offset is out of bounds, or the cell is off the board */
    DESK_TYPE = 7,   /* the colour to lay is 0 or above count */
    DESK_TAKEN = 8,  /* lay where a piece stands */
    DESK_BARE = 9    /* lift where none stands */
};

/* How a forced run ended. */
enum desk_run_end {
    DESK_RUN_DONE = 0,  /* no entry of this call waits any more; other cells of the board may be forced all the same */
    DESK_RUN_SPENT = 1, /* as many entries were taken as the budget allows, and some still wait */
    DESK_RUN_FULL = 2   /* what the last piece laid forces had no room in the queue; that piece lies, and none of them was queued */
};

/* The colours that fit at a place. The nine 3x3 windows that hold the cell are looked at, except those that would start above or left of
 * the board; windows that reach past the bottom or right edge count too, and past the edge they are bare. A colour fits if each of these
 * windows has a tile that equals the pieces that lie there, the cell's own too, and has that colour at the cell.
 * Reads all of pieces and tiles. found is written: its first entry gets the set, bit t-1 for colour t (found[0] == 0: no colour fits).
 * Lend one entry; further ones are left alone today and are reserved for what a listing may tell later. With found_len 0 nothing is stored.
 * Refusals: SHAPE, LENGTH, COUNT, CELL, PLACE. */
uint32_t desk_fitting_colours(const uint32_t *pieces, size_t pieces_len, size_t rows, size_t cols, const uint8_t *tiles, size_t tiles_len,
                              uint32_t count, int32_t row, int32_t col, int32_t down, int32_t across, uint64_t *found, size_t found_len);

/* Lays a piece of a colour (1 to count) on a bare cell. Whether the colour fits there is NOT asked: desk_fitting_colours tells that, and a
 * colour that it does not list is laid all the same.
 * Reads all planes and tiles. Writes the cell's piece; adds 3 to the weights at distance 0 or 1 of it and 1 at distance 2; and counts anew the
 * regions that start within distance 2 and lie whole on the board.
 * Refusals: SHAPE, LENGTH, COUNT, CELL, PLACE, TYPE, TAKEN. */
uint32_t desk_lay(uint32_t *pieces, size_t pieces_len, uint32_t *weights, size_t weights_len, uint32_t *counts, size_t counts_len,
                  size_t rows, size_t cols, const uint8_t *tiles, size_t tiles_len, uint32_t count, int32_t row, int32_t col, int32_t down,
                  int32_t across, uint32_t colour);

/* Lifts the piece at a place, whatever its colour. If the plan began as above, only these functions changed it, the piece was laid by
 * desk_lay, and no forced run was made since, the planes are then as if it had never lain there (docs/ANSWER.md has the theorem). A forced
 * run between the lay and the lift, or the one that laid the piece, may have laid what the piece forced: these pieces stay, and the planes
 * are what the pieces that stand say.
 * Reads all planes and tiles. Stores 1 in the cell, takes from the weights what lay added, stopping at 0, and counts the same regions anew.
 * Refusals: SHAPE, LENGTH, COUNT, CELL, PLACE, BARE. */
uint32_t desk_lift(uint32_t *pieces, size_t pieces_len, uint32_t *weights, size_t weights_len, uint32_t *counts, size_t counts_len,
                   size_t rows, size_t cols, const uint8_t *tiles, size_t tiles_len, uint32_t count, int32_t row, int32_t col,
                   int32_t down, int32_t across);

/* Widens a panel: its board, rows * cols cells in pieces, weights and counts, goes into three larger planes. left and right are added to
 * the ROWS, before the first and behind the last; top and bottom to the COLUMNS likewise (desk_widen's pads are named as the planner names
 * them). The new board has left + rows + right rows and top + cols + bottom columns, at most 64 each; old cell (r, c) becomes cell
 * (r + left, c + top), and its place on the wall stays what it was. The old planes are only read and must not overlap the larger ones.
 * Fills widepieces, wideweights and widecounts whole, whatever they held; each has exactly as many entries as the new board has cells. Old
 * cells keep their pieces and their weights as they are; new cells are bare, and their weights and all counts are what the pieces say.
 * The new offset, (down + left, across + top), goes into offset: its first entry is that of the rows, the second that of the columns. Lend two
 * entries; what has no entry is not stored, and further ones are left alone. From then on the panel is the larger planes with the new
 * size and the new offset: name all of them in the calls that follow. With four pads of 0 it is a copy, its counts worked out. Every
 * region of the new board is counted, so on a board of 64 by 64 it takes as long as some 150 lays.
 * Refusals: SHAPE, LENGTH, COUNT, CELL (of the old planes and the tiles), PLACE (the offset, or the new one, is out of bounds). */
uint32_t desk_widen(uint32_t *widepieces, size_t widepieces_len, uint32_t *wideweights, size_t wideweights_len, uint32_t *widecounts,
                    size_t widecounts_len, const uint32_t *pieces, size_t pieces_len, const uint32_t *weights, size_t weights_len,
                    const uint32_t *counts, size_t counts_len, size_t rows, size_t cols, size_t left, size_t right, size_t top,
                    size_t bottom, const uint8_t *tiles, size_t tiles_len, uint32_t count, int32_t down, int32_t across, int32_t *offset,
                    size_t offset_len);

/* Runs out the forced pieces: lays what is forced beside a place, and what that forces in turn. A bare cell is forced if exactly one colour
 * fits there (desk_fitting_colours). The run has a queue of 64 entries, a place and a colour each, empty at first:
 *   - the forced ones of the place's eight neighbours are queued, row by row. The place itself is not queued at first, and a piece may lie
 *     there or not; if it is bare and forced, it may be laid later, as a neighbour of its neighbours;
 *   - the first entry is taken. If its cell is still bare and its colour is still the only one that fits, it is laid as desk_lay lays it, and
 *     the forced ones of its own neighbours are queued behind the others; a place that waits already is not queued twice. Otherwise, which
 *     is where no colour fits there any more, it is dropped;
 *   - and so on, until it ends as enum desk_run_end says. With an empty queue it is DONE, also where the budget is 0 or used up; where FULL
 *     and SPENT fall together it is FULL.
 *   within, minrow, mincol, maxrow, maxcol
 *                 with within true only places of the box with these corners, both included, are queued, at first and later; wall
 *                 coordinates, -1,000,000 to 1,000,000 each. The place itself may lie outside; a box whose least row or column is above its
 *                 greatest has no place. With within false the four numbers are not looked at.
 *   budget        how many entries may be taken, 0 to 4,096. With as many as there are bare cells, or with 4,096, it never ends SPENT; it may
 *                 still end FULL.
 *   ran           is written: how it ended, how many entries were taken, how many of them were laid. Lend three entries; what has no entry is
 *                 not stored, and further ones are left alone.
 * What waits when a run ends SPENT or FULL is forgotten, and the same call again does not go on with it: it begins with the neighbours of the
 * place that it names, and where these are laid by then it is DONE at once. To lay more after SPENT, make the call with a larger budget on the
 * planes as they were before it; after FULL, name places beside the last pieces laid.
 * Each entry taken asks which colours fit at its cell, each piece laid asks it of its eight neighbours: the budget is what bounds the time.
 * Reads all planes and tiles. Writes what desk_lay writes, for each piece laid. The checks are made once, before the first: weights that stood
 * near 4,000,000,000 may pass it, and the next call then gets CELL; they do not wrap round.
 * Refusals: SHAPE, LENGTH, COUNT, CELL, PLACE (the place, the offset; with within true also a corner). */
uint32_t desk_forced_run(uint32_t *pieces, size_t pieces_len, uint32_t *weights, size_t weights_len, uint32_t *counts, size_t counts_len,
                         size_t rows, size_t cols, const uint8_t *tiles, size_t tiles_len, uint32_t count, int32_t row, int32_t col,
                         int32_t down, int32_t across, bool within, int32_t minrow, int32_t mincol, int32_t maxrow, int32_t maxcol,
                         size_t budget, uint64_t *ran, size_t ran_len);

/* Scores every cell of a board: the share of all tiles that still fit there, from 0.0 (dark: no tile fits any region that holds the cell) to
 * 1.0. Cell (R, C) lies in up to nine 3x3 regions: those that start in rows R-2 to R and columns C-2 to C, as far as these are on the board.
 * The share of a region is its entry of counts / tiles, which is 1.0 where it passes the bottom or right edge; the score is the mean of the
 * shares, summed row by row from 0.0 and then divided once: the same counts give the same bits.
 * It is on the scale of the planner's lay score, which is a mean of shares too, and not on that of its lift score, which squares them. It
 * serves on either occasion: lay a piece, lift it, score anew, and where the lift leaves the plan as it was before the lay, every score has
 * the bits that it had.
 *   scores        is filled whole, whatever it held, NaNs too: exactly rows * cols entries, cell by cell as in the other planes.
 *   counts        the plan's; only read.
 *   tiles         the NUMBER of tiles, 1 to 7,200, and not their list: tiles_len / 9 of the other functions.
 * There is no place, and so no offset. After a widening name the larger counts and sides, and lend scores of that length.
 * Refusals: SHAPE, LENGTH, CELL (an entry of counts above the number of tiles). */
uint32_t desk_plain_score(double *scores, size_t scores_len, const uint32_t *counts, size_t counts_len, size_t rows, size_t cols,
                          size_t tiles);

/* The same for the cells of two spans alone: rows rowstart up to, not including, rowend, and columns colstart up to colend. Every other score
 * stays as it is. They are rows and columns of the board, not coordinates on the wall. An end past the side of the board is SHAPE. A span
 * whose start is not below its end is empty: the call is accepted and nothing is written.
 * After a lay or a lift only the scores at most two cells from the piece change: with its cell in row r = row + down and column
 * c = col + across, name the rows from r - 2 up to r + 3 and the columns from c - 2 up to c + 3, with 0 for a start below 0 and the side
 * for an end past it. If the plan was kept by these functions alone, and the scores were those of the plan before the call, they are
 * then what desk_plain_score would give, bit for bit. After a widening or a forced run, or where a plane was changed by hand, score
 * the whole board.
 * Refusals: SHAPE, LENGTH, CELL, NUMBER (an entry of scores, in the spans or not, is a NaN, below zero or infinite; -0.0 is not below
 * zero). */
uint32_t desk_plain_score_near(double *scores, size_t scores_len, const uint32_t *counts, size_t counts_len, size_t rows, size_t cols,
                               size_t tiles, size_t rowstart, size_t rowend, size_t colstart, size_t colend);

#ifdef __cplusplus
}
#endif

#endif
