/* Morelturret in structs: what morelturret.h has, in fewer arguments.
 *
 * Every function here is `static inline`, takes six arguments at most, and calls the library once. Nothing is allocated and nothing is kept: a struct
 * points at memory that stays the caller's, and each address in it is aligned for its type and not null, also where the room is 0.
 *
 * A function that can refuse returns an mt_refusal, whose number is MT_OK where nothing was refused. What else it answers is then written where its
 * arguments point; on a refusal nothing of that is written, and the lent slices are left as morelturret.h says. mt_message has a number's sentence.
 *
 * C99 and later, C++11 and later. */
#ifndef MORELTURRET_STRUCTS_H
#define MORELTURRET_STRUCTS_H

#include "morelturret.h"
#include <string.h>

/* Whether the header at hand is of this version or a later one. */
#define MT_VERSION_AT_LEAST(major, minor, patch)                                  \
    (MT_VERSION_MAJOR > (major) ||                                                \
     (MT_VERSION_MAJOR == (major) && (MT_VERSION_MINOR > (minor) ||               \
                                      (MT_VERSION_MINOR == (minor) && MT_VERSION_PATCH >= (patch)))))

/* The most lines of a build or a visit, and the most points that the reader takes; the entries of scratch that a walk and a build need; and what is
 * enough for every build: so many offsets, and so many items for each line, and as many globals as lines. */
#define MT_MAX_LINES 65536
#define MT_MAX_POINTS 1024
#define MT_SCRATCH 16384
#define MT_MAX_OFFSETS 1002002
#define MT_MAX_ITEMS_OF_LINE 2048

/* The most blocks of a fit grid. */
#define MT_MAX_BLOCKS 4148

/* The number of the refusal, or MT_OK; and the refusal's value, or 0. */
typedef struct {
    uint32_t number;
    uint64_t value;
} mt_refusal;

/* A grid. A cell's number is row * cols + column. */
typedef struct {
    double min_x, min_y, cell_width, cell_height;
    uint32_t cols, rows;
} mt_grid;

/* Lines: line i goes from (start_x[i], start_y[i]) to (end_x[i], end_y[i]). */
typedef struct {
    const double *start_x, *start_y, *end_x, *end_y;
    size_t count;
} mt_lines;

/* Lines of samples, which are whole numbers of magnitude at most 2^29: line i goes from (start_x[i], start_y[i]) to (end_x[i], end_y[i]). */
typedef struct {
    const int32_t *start_x, *start_y, *end_x, *end_y;
    size_t count;
} mt_samples;

/* Points, and room for more of them. */
typedef struct {
    double *x, *y;
    size_t room;
    size_t count;
} mt_points;

/* The tables of a build. The caller sets the four addresses and how many entries each has room for; mt_tables_build fills in the rest. The list of
 * cell c is items[offsets[c]] up to items[offsets[c + 1]]. The scratch is needed by the build, and by a line that is added. */
typedef struct {
    uint32_t *offsets, *items, *globals, *scratch;
    size_t offset_room, item_room, global_room, scratch_room;
    mt_grid grid;
    size_t line_count, item_count, global_count;
} mt_tables;

/* A part of a table: the lines of a list, increasing. */
typedef struct {
    const uint32_t *lines;
    size_t count;
} mt_list;

/* Room for pairs, and how many are there: pair k is (first[k], second[k]). */
typedef struct {
    uint32_t *first, *second;
    size_t room;
    size_t count;
} mt_pairs_room;

/* A summary of tables by blocks of 16 by 16 cells: room for the number of items of each block, in row order, and how many there are. */
typedef struct {
    uint32_t *counts;
    size_t room;
    size_t count;
    mt_grid grid;
} mt_blocks;

/* One test of a visit, as mt_test_at tells it. */
typedef struct {
    uint32_t kind; /* 0 in a cell, 1 of a global line, 2 for the end */
    uint64_t row;  /* the cell's row, or the global line's position */
    uint64_t col;
    uint32_t first, second;
    int overlap;
} mt_test;

/* Whose a point is: MT_OUTSIDE, MT_OWNED or MT_SEAM; and, of a cell that owns it, row and column. */
typedef struct {
    uint32_t kind, row, col;
} mt_place;

/* What a full visit will cost: its tests, and the number of lines of the longest list of a cell. */
typedef struct {
    uint64_t tests;
    uint32_t longest;
} mt_cost;

/* Lists by line, with room for lines + 1 starts and for as many cells as the items have room for. The cells that list line i are
 * cells[starts[i]] up to cells[starts[i + 1]]. */
typedef struct {
    uint32_t *starts, *cells;
    size_t start_room, cell_room;
    size_t cell_count;
} mt_lists_room;

/* Chains held as points with member lengths: coordinates as bit patterns, member after member, and the number of points of each member. The caller sets
 * the addresses and the room of each; the counts tell how much of it is used. */
typedef struct {
    uint64_t *x, *y;
    uint32_t *lengths;
    size_t point_room, member_room;
    size_t point_count, member_count;
} mt_members;

/* Room for lines, and how many are there. */
typedef struct {
    double *start_x, *start_y, *end_x, *end_y;
    size_t room;
    size_t count;
} mt_lines_room;

/* A count table of a grid, which has room for one entry more than there are cells: counts[c] is how many lines visit cell c. Beside it the sum of the
 * counts, and how many lines are global. The scratch is needed by mt_counts_take alone. */
typedef struct {
    uint32_t *counts, *scratch;
    size_t count_room, scratch_room;
    uint64_t sum, global_count;
} mt_counts;

/* The sentence of a number that a function returned, without its value. */
/* ---- written by tools/declarations: from here */
static inline const char *mt_message(uint32_t number) {
    switch (number) {
    case MT_OK: return "nothing was refused";
    case MT_BAD_COORDINATE: return "a coordinate is not finite or above 1e9 in magnitude";
    case MT_TOO_MANY_LINES: return "more than 65,536 lines";
    case MT_BAD_LENGTHS: return "slices that belong together differ in length, or one is too short";
    case MT_SHORT_OFFSETS: return "a grid tried has more cells + 1 than the lent offsets";
    case MT_SHORT_ITEMS: return "items, points, members, bytes, lines or pairs lent are fewer than needed";
    case MT_SHORT_GLOBALS: return "globals lent are fewer than found";
    case MT_WALK_TOO_LONG: return "a walk made 5,000 turns and would make another";
    case MT_UNFIT_GRID: return "the grid is not fit";
    case MT_BEYOND_END: return "a cell, global position or bookmark beyond its end";
    case MT_MISFIT_TABLES: return "the tables do not fit";
    case MT_BAD_WKB: return "not a LineString, or not a MultiLineString, that the reader takes";
    case MT_UNFIT_SNAP: return "snap size or strategy unfit";
    case MT_SUM_TOO_LARGE: return "the sum of two counts is above 65,536";
    case MT_OUTSIDE_GRID: return "an end of a line that is to be added is outside the grid";
    case MT_BAD_SAMPLE: return "a number is no sample, its magnitude is above 2^29";
    case MT_OFF_GRID: return "an end of one segment is off the grid of the covering walk";
    case MT_OUT_SHORT: return "out has too few words";
    case MT_FEW_WORDS: return "a grid has too few words";
    case MT_NO_SIZING: return "there is no sizing of this number";
    case MT_NO_MODE: return "there is no mode of walk of this number";
    default: return "no number of Morelturret's";
    }
}
/* ---- written by tools/declarations: to here */

/* ---- words ---- */

/* The double of a bit pattern. */
static inline double mt_of_bits(uint64_t bits) {
    double value;
    memcpy(&value, &bits, sizeof value);
    return value;
}

/* The bit pattern of a double. */
static inline uint64_t mt_bits_of(double value) {
    uint64_t bits;
    memcpy(&bits, &value, sizeof bits);
    return bits;
}

/* The six words by which the flat functions take a grid. */
static inline void mt_grid_words(const mt_grid *grid, uint64_t words[6]) {
    words[0] = mt_bits_of(grid->min_x);
    words[1] = mt_bits_of(grid->min_y);
    words[2] = mt_bits_of(grid->cell_width);
    words[3] = mt_bits_of(grid->cell_height);
    words[4] = grid->cols;
    words[5] = grid->rows;
}

/* The grid of the first six words of an answer. */
static inline mt_grid mt_grid_of(const uint64_t words[6]) {
    mt_grid grid;
    grid.min_x = mt_of_bits(words[0]);
    grid.min_y = mt_of_bits(words[1]);
    grid.cell_width = mt_of_bits(words[2]);
    grid.cell_height = mt_of_bits(words[3]);
    grid.cols = (uint32_t)words[4];
    grid.rows = (uint32_t)words[5];
    return grid;
}

/* What a flat function returned, with the value that it then wrote. */
static inline mt_refusal mt_refused(uint32_t number, uint64_t value) {
    mt_refusal refusal;
    refusal.number = number;
    refusal.value = number != MT_OK && number < MT_OUT_SHORT ? value : 0;
    return refusal;
}

/* ---- points and lines ---- */

/* Reads one LineString in well-known binary. The points have room for at least MT_MAX_POINTS. Refuses by 3, 11. */
static inline mt_refusal mt_points_read(mt_points *points, const uint8_t *bytes, size_t length) {
    uint64_t out[1] = {0};
    uint32_t number = mt_read_line_string(bytes, length, points->x, points->room, points->y, points->room, out, 1);
    if (number == MT_OK) points->count = (size_t)out[0];
    return mt_refused(number, out[0]);
}

/* Consecutive points as lines: of n points n - 1 lines, of one point or none no lines. Nothing is copied. */
static inline mt_lines mt_lines_chain(const double *x, const double *y, size_t points) {
    mt_lines lines;
    size_t next = points > 0;
    lines.start_x = x;
    lines.start_y = y;
    lines.end_x = x + next;
    lines.end_y = y + next;
    lines.count = points - next;
    return lines;
}

/* Reads one MultiLineString in well-known binary. Room for a 16th of the bytes in points, and for a 25th in members, is always enough.
 * Refuses by 11, 2, 5. */
static inline mt_refusal mt_members_read(mt_members *members, const uint8_t *bytes, size_t length) {
    uint64_t out[2] = {0, 0};
    uint32_t number = mt_read_multi_line_string(bytes, length, members->x, members->point_room, members->y, members->point_room, members->lengths,
                                                members->member_room, out, 2);
    if (number == MT_OK) {
        members->point_count = (size_t)out[0];
        members->member_count = (size_t)out[1];
    }
    return mt_refused(number, out[0]);
}

/* Writes the members as one MultiLineString, little-endian throughout; *length is then the number of its bytes. Refuses by 3, 2, 5. */
static inline mt_refusal mt_members_write(const mt_members *members, uint8_t *bytes, size_t room, size_t *length) {
    uint64_t out[1] = {0};
    uint32_t number = mt_write_multi_line_string(members->x, members->point_count, members->y, members->point_count, members->lengths,
                                                 members->member_count, bytes, room, out, 1);
    if (number == MT_OK) *length = (size_t)out[0];
    return mt_refused(number, out[0]);
}

/* Consecutive points of each member as lines; none joins two members. Refuses by 3, 2, 5. */
static inline mt_refusal mt_members_lines(const mt_members *members, mt_lines_room *lines) {
    uint64_t out[1] = {0};
    size_t n = members->point_count, room = lines->room;
    uint32_t number = mt_lines_of_members(members->x, n, members->y, n, members->lengths, members->member_count, lines->start_x, room,
                                          lines->start_y, room, lines->end_x, room, lines->end_y, room, out, 1);
    if (number == MT_OK) lines->count = (size_t)out[0];
    return mt_refused(number, out[0]);
}

/* What cleaning keeps of the members, and the reason of each of their points (MT_KEPT, MT_RANGE, MT_REPEAT, MT_SHORT_PIECE). `kept` has room for as many
 * points, and for half as many members; `reasons` has an entry for each point. Refuses by 3. */
static inline mt_refusal mt_members_clean(const mt_members *members, mt_members *kept, uint32_t *reasons) {
    uint64_t out[2] = {0, 0};
    size_t n = members->point_count, room = kept->point_room;
    uint32_t number = mt_clean(members->x, n, members->y, n, members->lengths, members->member_count, kept->x, room, kept->y, room, kept->lengths,
                               kept->member_room, reasons, n, out, 2);
    if (number == MT_OK) {
        kept->point_count = (size_t)out[0];
        kept->member_count = (size_t)out[1];
    }
    return mt_refused(number, out[0]);
}

/* The lines that are there. Nothing is copied. */
static inline mt_lines mt_lines_in(const mt_lines_room *room) {
    mt_lines lines;
    lines.start_x = room->start_x;
    lines.start_y = room->start_y;
    lines.end_x = room->end_x;
    lines.end_y = room->end_y;
    lines.count = room->count;
    return lines;
}

/* ---- the build ---- */

/* Picks a grid for the lines and writes its tables, as mt_build does: sizing is MT_SQUARE or MT_AXES, and mode one of the modes of walk.
 * Refuses by 3, 2, 1; at each grid tried by 4, 7; then by 5, 6. The values of 4, 5 and 6 are the room that lacks. */
static inline mt_refusal mt_tables_build(mt_tables *tables, const mt_lines *lines, uint32_t sizing, uint32_t mode) {
    uint64_t out[8] = {0};
    size_t n = lines->count;
    uint32_t number = mt_build(lines->start_x, n, lines->start_y, n, lines->end_x, n, lines->end_y, n, sizing, mode, tables->offsets,
                               tables->offset_room, tables->items, tables->item_room, tables->globals, tables->global_room, tables->scratch,
                               tables->scratch_room, out, 8);
    if (number == MT_OK) {
        tables->grid = mt_grid_of(out);
        tables->line_count = n;
        tables->item_count = (size_t)out[6];
        tables->global_count = (size_t)out[7];
    }
    return mt_refused(number, out[0]);
}

/* Writes the tables of the lines on a grid that was agreed on, as mt_tables_on does. Refuses by 3, 2, 1, 8, 4, 7, 5, 6. */
static inline mt_refusal mt_tables_fill(mt_tables *tables, const mt_lines *lines, const mt_grid *grid, uint32_t mode) {
    uint64_t words[6], out[2] = {0, 0};
    size_t n = lines->count;
    uint32_t number;
    mt_grid_words(grid, words);
    number = mt_tables_on(lines->start_x, n, lines->start_y, n, lines->end_x, n, lines->end_y, n, words, 6, mode, tables->offsets,
                          tables->offset_room, tables->items, tables->item_room, tables->globals, tables->global_room, tables->scratch,
                          tables->scratch_room, out, 2);
    if (number == MT_OK) {
        tables->grid = *grid;
        tables->line_count = n;
        tables->item_count = (size_t)out[0];
        tables->global_count = (size_t)out[1];
    }
    return mt_refused(number, out[0]);
}

/* Adds the line from (segment[0], segment[1]) to (segment[2], segment[3]) to the tables at their grid, as mt_add_line does; its number is the line_count of before.
 * The items need room for at most MT_MAX_ITEMS_OF_LINE more, the globals for one. On a refusal the tables stand as they were.
 * Refuses by 3, 2, 1, 8, 10, 14, 7, 5, 6. The values of 5 and 6 are the room that lacks. */
static inline mt_refusal mt_tables_push(mt_tables *tables, const double segment[4], uint32_t mode) {
    uint64_t grid[6], out[3] = {0};
    mt_grid_words(&tables->grid, grid);
    uint32_t number = mt_add_line(grid, 6, mode, segment[0], segment[1], segment[2], segment[3], tables->line_count, tables->offsets,
                                  tables->offset_room, tables->items, tables->item_room, tables->globals, tables->global_room,
                                  tables->global_count, tables->scratch, tables->scratch_room, out, 3);
    if (number == MT_OK) {
        tables->line_count++;
        tables->item_count = (size_t)out[0];
        tables->global_count = (size_t)out[1];
    }
    return mt_refused(number, out[0]);
}

/* Whether the functions below take the tables, as mt_check_tables asks it. Refuses by 2, 8, 10. */
static inline mt_refusal mt_tables_check(const mt_tables *tables) {
    uint64_t grid[6], out[1] = {0};
    uint32_t number;
    mt_grid_words(&tables->grid, grid);
    number = mt_check_tables(grid, 6, tables->line_count, tables->offsets, tables->offset_room, tables->items, tables->item_room,
                             tables->globals, tables->global_room, tables->global_count, out, 1);
    return mt_refused(number, out[0]);
}

/* The list of the cell (row, col). Refuses by 2, 8, 10, 9. */
static inline mt_refusal mt_tables_cell(const mt_tables *tables, uint32_t row, uint32_t col, mt_list *list) {
    uint64_t grid[6], out[2] = {0, 0};
    uint32_t number;
    mt_grid_words(&tables->grid, grid);
    number = mt_cell_list(grid, 6, tables->line_count, tables->offsets, tables->offset_room, tables->items, tables->item_room, tables->globals,
                          tables->global_room, tables->global_count, row, col, out, 2);
    if (number == MT_OK) {
        list->lines = tables->items + out[0];
        list->count = (size_t)out[1];
    }
    return mt_refused(number, out[0]);
}

/* The globals from a position among them on. Refuses by 2, 8, 10, 9. */
static inline mt_refusal mt_tables_global(const mt_tables *tables, uint64_t position, mt_list *list) {
    uint64_t grid[6], out[2] = {0, 0};
    uint32_t number;
    mt_grid_words(&tables->grid, grid);
    number = mt_global_list(grid, 6, tables->line_count, tables->offsets, tables->offset_room, tables->items, tables->item_room,
                            tables->globals, tables->global_room, tables->global_count, position, out, 2);
    if (number == MT_OK) {
        list->lines = tables->globals + out[0];
        list->count = (size_t)out[1];
    }
    return mt_refused(number, out[0]);
}

/* Lists by line: for each line the cells that list it, increasing. Refuses by 3, 2, 8, 10. */
static inline mt_refusal mt_tables_by_line(const mt_tables *tables, mt_lists_room *lists) {
    uint64_t grid[6], out[1] = {0};
    uint32_t number;
    mt_grid_words(&tables->grid, grid);
    number = mt_lists_by_line(grid, 6, tables->line_count, tables->offsets, tables->offset_room, tables->items, tables->item_room,
                              tables->globals, tables->global_room, tables->global_count, lists->starts, lists->start_room, lists->cells,
                              lists->cell_room, out, 1);
    if (number == MT_OK) lists->cell_count = (size_t)out[0];
    return mt_refused(number, out[0]);
}

/* The lines that may enter the window {low x, low y, high x, high y}, increasing, at the start of found; *count is then their number.
 * Refuses by 3, 2, 1, 8, 10, 5. */
static inline mt_refusal mt_tables_window(const mt_tables *tables, const mt_lines *lines, const double window[4], uint32_t *found, size_t room,
                                          size_t *count) {
    uint64_t grid[6], out[1] = {0};
    size_t n = lines->count;
    uint32_t number;
    mt_grid_words(&tables->grid, grid);
    number = mt_window(grid, 6, lines->start_x, n, lines->start_y, n, lines->end_x, n, lines->end_y, n, tables->offsets, tables->offset_room,
                       tables->items, tables->item_room, tables->globals, tables->global_room, tables->global_count, window[0], window[1],
                       window[2], window[3], found, room, out, 1);
    if (number == MT_OK) *count = (size_t)out[0];
    return mt_refused(number, out[0]);
}

/* ---- counts per block ---- */

/* How many blocks of 16 by 16 cells lie along so many cells. */
static inline uint64_t mt_blocks_along(uint32_t cells) {
    return ((uint64_t)cells + 15) / 16;
}

/* The summary of the tables by blocks: blocks->counts, in row order, with room for blocks->room of them, at most MT_MAX_BLOCKS. Refuses by 3 (the room), 2,
 * 8, 10. */
static inline mt_refusal mt_tables_blocks(const mt_tables *tables, mt_blocks *blocks) {
    uint64_t grid[6], out[1] = {0};
    uint32_t number;
    mt_grid_words(&tables->grid, grid);
    number = mt_block_counts(grid, 6, tables->line_count, tables->offsets, tables->offset_room, tables->items, tables->item_room,
                             tables->globals, tables->global_room, tables->global_count, blocks->counts, blocks->room, out, 1);
    if (number == MT_OK) {
        blocks->grid = tables->grid;
        blocks->count = (size_t)out[0];
    }
    return mt_refused(number, out[0]);
}

/* Adds a line to the tables, as mt_tables_push does, and to their summary. Refuses as that does, by 3 where the summary is short, and by 10 where it is
 * not that of the tables; on a refusal both stand as they were. */
static inline mt_refusal mt_tables_push_blocks(mt_tables *tables, const double segment[4], uint32_t mode, mt_blocks *blocks) {
    uint64_t grid[6], out[3] = {0};
    mt_grid_words(&tables->grid, grid);
    uint32_t number = mt_add_line_blocks(grid, 6, mode, segment[0], segment[1], segment[2], segment[3], tables->line_count, tables->offsets,
                                         tables->offset_room, tables->items, tables->item_room, tables->globals, tables->global_room,
                                         tables->global_count, blocks->counts, blocks->room, tables->scratch, tables->scratch_room, out, 3);
    if (number == MT_OK) {
        tables->line_count++;
        tables->item_count = (size_t)out[0];
        tables->global_count = (size_t)out[1];
    }
    return mt_refused(number, out[0]);
}

/* The items of the blocks from a lower corner to an upper, each its row and its column of blocks, both included. Refuses by 3, 8, 9. */
static inline mt_refusal mt_blocks_items(const mt_blocks *blocks, const uint32_t low[2], const uint32_t high[2], uint64_t *items) {
    uint64_t grid[6], out[1] = {0};
    uint32_t number;
    mt_grid_words(&blocks->grid, grid);
    number = mt_items_in_blocks(grid, 6, blocks->counts, blocks->room, low[0], low[1], high[0], high[1], out, 1);
    if (number == MT_OK) *items = out[0];
    return mt_refused(number, out[0]);
}

/* ---- the visit ---- */

/* What a full visit will cost, before it is begun. Refuses by 2, 8, 10. */
static inline mt_refusal mt_tables_cost(const mt_tables *tables, mt_cost *cost) {
    uint64_t grid[6], out[2] = {0, 0};
    uint32_t number;
    mt_grid_words(&tables->grid, grid);
    number = mt_visit_cost(grid, 6, tables->line_count, tables->offsets, tables->offset_room, tables->items, tables->item_room,
                           tables->globals, tables->global_room, tables->global_count, out, 2);
    if (number == MT_OK) {
        cost->tests = out[0];
        cost->longest = (uint32_t)out[1];
    }
    return mt_refused(number, out[0]);
}

/* One test by its bookmark. Refuses by 3, 2, 1, 8, 10, 9. */
static inline mt_refusal mt_tables_test(const mt_tables *tables, const mt_lines *lines, uint64_t bookmark, mt_test *test) {
    uint64_t grid[6], out[6] = {0, 0, 0, 0, 0, 0};
    size_t n = lines->count;
    uint32_t number;
    mt_grid_words(&tables->grid, grid);
    number = mt_test_at(grid, 6, lines->start_x, n, lines->start_y, n, lines->end_x, n, lines->end_y, n, tables->offsets, tables->offset_room,
                        tables->items, tables->item_room, tables->globals, tables->global_room, tables->global_count, bookmark, out, 6);
    if (number == MT_OK) {
        test->kind = (uint32_t)out[0];
        test->row = out[1];
        test->col = out[2];
        test->first = (uint32_t)out[3];
        test->second = (uint32_t)out[4];
        test->overlap = out[5] != 0;
    }
    return mt_refused(number, out[0]);
}

/* The pairs of the tests from *bookmark on, until the room is full of them or the end comes, as mt_batch hands them out; *bookmark, 0 at first, is
 * moved on. Where pairs->count is below pairs->room afterwards, the visit is over, and *bookmark is the number of all its tests.
 * Refuses by 3, 2, 1, 8, 10, 9. */
static inline mt_refusal mt_tables_pairs(const mt_tables *tables, const mt_lines *lines, uint64_t *bookmark, mt_pairs_room *pairs) {
    uint64_t grid[6], out[3] = {0, 0, 0};
    size_t n = lines->count;
    uint32_t number;
    mt_grid_words(&tables->grid, grid);
    number = mt_batch(grid, 6, lines->start_x, n, lines->start_y, n, lines->end_x, n, lines->end_y, n, tables->offsets, tables->offset_room,
                      tables->items, tables->item_room, tables->globals, tables->global_room, tables->global_count, *bookmark, pairs->first,
                      pairs->room, pairs->second, pairs->room, out, 3);
    if (number == MT_OK) {
        pairs->count = (size_t)out[1];
        *bookmark = out[2];
    }
    return mt_refused(number, out[0]);
}

/* Where a visit stands: what mt_tables_start answered, or mt_tables_next left. */
typedef struct {
    uint64_t place, i, j;
} mt_cursor;

/* Checks lines and tables whole, as mt_start does, and answers the cursor of a bookmark, 0 for a whole visit.
 * Refuses by 3, 2, 1, 8, 10, 9. */
static inline mt_refusal mt_tables_start(const mt_tables *tables, const mt_lines *lines, uint64_t bookmark, mt_cursor *cursor) {
    uint64_t grid[6], out[3] = {0, 0, 0};
    size_t n = lines->count;
    uint32_t number;
    mt_grid_words(&tables->grid, grid);
    number = mt_start(grid, 6, lines->start_x, n, lines->start_y, n, lines->end_x, n, lines->end_y, n, tables->offsets, tables->offset_room,
                      tables->items, tables->item_room, tables->globals, tables->global_room, tables->global_count, bookmark, out, 3);
    if (number == MT_OK) {
        cursor->place = out[0];
        cursor->i = out[1];
        cursor->j = out[2];
    }
    return mt_refused(number, out[0]);
}

/* The pairs of the tests from *cursor on, until the room is full of them or the end comes, as mt_next_unchecked hands them out; *cursor is moved on,
 * and *tests, where there is one, grows by the tests made. Where pairs->count is below pairs->room afterwards, the visit is over. It checks no tables:
 * lines and tables are those that mt_tables_start took, and are not changed between the calls.
 * Refuses by 3, 2. */
static inline mt_refusal mt_tables_next(const mt_tables *tables, const mt_lines *lines, mt_cursor *cursor, mt_pairs_room *pairs, uint64_t *tests) {
    uint64_t grid[6], out[5] = {0, 0, 0, 0, 0};
    size_t n = lines->count;
    uint32_t number;
    mt_grid_words(&tables->grid, grid);
    number = mt_next_unchecked(grid, 6, lines->start_x, n, lines->start_y, n, lines->end_x, n, lines->end_y, n, tables->offsets, tables->offset_room,
                               tables->items, tables->item_room, tables->globals, tables->global_room, tables->global_count, cursor->place, cursor->i,
                               cursor->j, pairs->first, pairs->room, pairs->second, pairs->room, out, 5);
    if (number == MT_OK) {
        pairs->count = (size_t)out[1];
        cursor->place = out[2];
        cursor->i = out[3];
        cursor->j = out[4];
        if (tests) *tests += out[0];
    }
    return mt_refused(number, out[0]);
}

/* The pairs of mt_tables_pairs, and beside each the number of the place where it was tested, as mt_batch_places says it; places has pairs->room entries.
 * Refuses by 3, 2, 1, 8, 10, 9. */
static inline mt_refusal mt_tables_pairs_places(const mt_tables *tables, const mt_lines *lines, uint64_t *bookmark, mt_pairs_room *pairs,
                                                uint32_t *places) {
    uint64_t grid[6], out[3] = {0, 0, 0};
    size_t n = lines->count;
    uint32_t number;
    mt_grid_words(&tables->grid, grid);
    number = mt_batch_places(grid, 6, lines->start_x, n, lines->start_y, n, lines->end_x, n, lines->end_y, n, tables->offsets,
                             tables->offset_room, tables->items, tables->item_room, tables->globals, tables->global_room,
                             tables->global_count, *bookmark, pairs->first, pairs->room, pairs->second, pairs->room, places, pairs->room, out, 3);
    if (number == MT_OK) {
        pairs->count = (size_t)out[1];
        *bookmark = out[2];
    }
    return mt_refused(number, out[0]);
}

/* The pairs of a full visit, each once, as mt_pairs_once hands them out: at its first test, in the order of the visit. The scratch is zeroed; it has
 * at least tables->item_room + 2 * lines->count + 1 entries.
 * Refuses by 3, 2, 1, 8, 10, 5 (how many pairs there are). */
static inline mt_refusal mt_tables_pairs_once(const mt_tables *tables, const mt_lines *lines, mt_pairs_room *pairs, uint32_t *scratch,
                                              size_t scratch_room) {
    uint64_t grid[6], out[1] = {0};
    size_t n = lines->count, left = scratch_room;
    size_t starts = left < n + 1 ? left : n + 1;
    size_t counts = left - starts < n ? left - starts : n;
    uint32_t number;
    left -= starts + counts;
    mt_grid_words(&tables->grid, grid);
    number = mt_pairs_once(grid, 6, lines->start_x, n, lines->start_y, n, lines->end_x, n, lines->end_y, n, tables->offsets, tables->offset_room,
                           tables->items, tables->item_room, tables->globals, tables->global_room, tables->global_count, pairs->first, pairs->room,
                           pairs->second, pairs->room, scratch, starts, scratch + starts + counts, left, scratch + starts, counts, out, 1);
    if (number == MT_OK) pairs->count = (size_t)out[0];
    return mt_refused(number, out[0]);
}

/* The pairs of lines that share a point, each once, as mt_crossings lists them: at its first test, in the order of the visit. The tables are those of
 * the same numbers as doubles. The scratch is zeroed; it has at least tables->item_room + 2 * samples->count + 1 entries.
 * Refuses by 3, 2, 15, 8, 10, 5 (how many pairs there are). */
static inline mt_refusal mt_tables_crossings(const mt_tables *tables, const mt_samples *samples, mt_pairs_room *pairs, uint32_t *scratch,
                                             size_t scratch_room) {
    uint64_t grid[6], out[1] = {0};
    size_t n = samples->count, left = scratch_room;
    size_t starts = left < n + 1 ? left : n + 1;
    size_t counts = left - starts < n ? left - starts : n;
    uint32_t number;
    left -= starts + counts;
    mt_grid_words(&tables->grid, grid);
    number = mt_crossings(grid, 6, samples->start_x, n, samples->start_y, n, samples->end_x, n, samples->end_y, n, tables->offsets,
                          tables->offset_room, tables->items, tables->item_room, tables->globals, tables->global_room, tables->global_count,
                          pairs->first, pairs->room, pairs->second, pairs->room, scratch, starts, scratch + starts + counts, left,
                          scratch + starts, counts, out, 1);
    if (number == MT_OK) pairs->count = (size_t)out[0];
    return mt_refused(number, out[0]);
}

/* ---- a grid ---- */

/* The cells that the segment {start x, start y, end x, end y} visits, increasing, at the start of the scratch, which has at least MT_SCRATCH entries.
 * Refuses by 3, 1, 8, 7. */
static inline mt_refusal mt_grid_cells(const mt_grid *grid, const double segment[4], uint32_t mode, uint32_t *scratch, size_t scratch_room,
                                       size_t *count) {
    uint64_t words[6], out[1] = {0};
    uint32_t number;
    mt_grid_words(grid, words);
    number = mt_segment_cells(words, 6, segment[0], segment[1], segment[2], segment[3], mode, scratch, scratch_room, out, 1);
    if (number == MT_OK) *count = (size_t)out[0];
    return mt_refused(number, out[0]);
}

/* Whose the point (x, y) is. Refuses by 1, 8. */
static inline mt_refusal mt_grid_owner(const mt_grid *grid, double x, double y, mt_place *place) {
    uint64_t words[6], out[3] = {0, 0, 0};
    uint32_t number;
    mt_grid_words(grid, words);
    number = mt_owner(words, 6, x, y, out, 3);
    if (number == MT_OK) {
        place->kind = (uint32_t)out[0];
        place->row = (uint32_t)out[1];
        place->col = (uint32_t)out[2];
    }
    return mt_refused(number, out[0]);
}

/* Whose each of so many points is: the number of a cell, MT_SEAM_NUMBER or MT_OUTSIDE_NUMBER. Refuses by 1, 8. */
static inline mt_refusal mt_grid_owners(const mt_grid *grid, const double *x, const double *y, size_t count, uint32_t *answers) {
    uint64_t words[6], out[1] = {0};
    uint32_t number;
    mt_grid_words(grid, words);
    number = mt_owners(words, 6, x, count, y, count, answers, count, out, 1);
    return mt_refused(number, out[0]);
}

/* Whether the cell (row, col) owns the point (x, y). Refuses by 1, 8, 9. */
static inline mt_refusal mt_grid_owns(const mt_grid *grid, uint32_t row, uint32_t col, double x, double y, int *owned) {
    uint64_t words[6], out[1] = {0};
    uint32_t number;
    mt_grid_words(grid, words);
    number = mt_point_owned(words, 6, row, col, x, y, out, 1);
    if (number == MT_OK) *owned = out[0] != 0;
    return mt_refused(number, out[0]);
}

/* ---- several benches ---- */

/* The grid that benches agree on, for so many lines between two opposite corners {x, y, x, y}. Refuses by 1. */
static inline mt_refusal mt_grid_agreed(mt_grid *grid, const double corners[4], size_t lines, uint32_t sizing) {
    uint64_t out[6] = {0, 0, 0, 0, 0, 0};
    uint32_t number = mt_agreed_grid(corners[0], corners[1], corners[2], corners[3], lines, sizing, out, 6);
    if (number == MT_OK) *grid = mt_grid_of(out);
    return mt_refused(number, out[0]);
}

/* Counts the lines of each cell of a grid. Refuses by 3, 2, 1, 8, 4, 7. */
static inline mt_refusal mt_counts_take(mt_counts *counts, const mt_lines *lines, const mt_grid *grid, uint32_t mode) {
    uint64_t words[6], out[2] = {0, 0};
    size_t n = lines->count;
    uint32_t number;
    mt_grid_words(grid, words);
    number = mt_count(lines->start_x, n, lines->start_y, n, lines->end_x, n, lines->end_y, n, words, 6, mode, counts->counts, counts->count_room,
                      counts->scratch, counts->scratch_room, out, 2);
    if (number == MT_OK) {
        counts->sum = out[0];
        counts->global_count = out[1];
    }
    return mt_refused(number, out[0]);
}

/* Adds the counts of another bench, which has as many entries, with their sum and the number of its global lines. Refuses by 3, 13. */
static inline mt_refusal mt_counts_add(mt_counts *into, const mt_counts *from) {
    uint64_t out[1] = {0};
    uint32_t number = mt_add(into->counts, into->count_room, from->counts, from->count_room, out, 1);
    if (number == MT_OK) {
        into->sum += from->sum;
        into->global_count += from->global_count;
    }
    return mt_refused(number, out[0]);
}

/* ---- snapping ---- */

/* Snaps the point (*x, *y) to multiples of size. Refuses by 1, 12. */
static inline mt_refusal mt_snap_point(double *x, double *y, double size) {
    uint64_t out[2] = {0, 0};
    uint32_t number = mt_snap(*x, *y, size, MT_GRID, out, 2);
    if (number == MT_OK) {
        *x = mt_of_bits(out[0]);
        *y = mt_of_bits(out[1]);
    }
    return mt_refused(number, out[0]);
}

#endif
