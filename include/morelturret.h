/* Morelturret: a uniform grid over line segments, proved.
 *
 * Link with the static library that `tools/build_library` builds. Nothing here allocates, keeps state between calls, or calls out. Every
 * function ends on every argument and checks what it is handed.
 *
 * Slices. A slice is lent as the address of its first entry and the number of its entries. It stays the caller's, and nothing of it is kept
 * after the call. The address is aligned for its type and not null, also where the length is 0; slices that are written (not `const`) must
 * overlap no other slice of the call.
 *
 * A grid is passed as 64-bit words, the first six that mt_build writes to `out`: the bit patterns of min_x, min_y, cell_width and cell_height,
 * then cols and rows. Further words are not read, so what a build answered may be handed on as it is. A grid is fit if both minima are finite
 * and at most 1e9 in magnitude, cell_width and cell_height are each from 0.25e-6 to 2e9, and cols and rows are both 0, or each 1 to 4,004 with
 * product at most 1,002,001. A cell's number is row * cols + column.
 *
 * Answers. A function that can refuse returns MT_OK or the number of the refusal, and writes 64-bit words to the start of `out`:
 *   on success     the words that its comment names ("out");
 *   on a refusal   one word, the refusal's value;
 * the rest of `out` stays as it was. `out` has at least the words that stand in brackets at each function. Where it has fewer, the function
 * returns MT_OUT_SHORT and changes nothing at all: this comes before every refusal, also where one word would be enough for that. Next, where
 * a grid has fewer than its six words, the function returns MT_FEW_WORDS, where a sizing is none of those below, MT_NO_SIZING, and where a mode
 * of walk is none, MT_NO_MODE; all three change nothing at all either.
 * A float in `out` is the bit pattern of the double; a NaN is 0x7ff8000000000000.
 *
 * Refusals come in the order in which each comment lists them: the first that applies is answered. Where a comment says nothing else, refusals
 * 4 to 7 leave zero throughout the slices that the call is lent to write (but not `out`). Every other refusal changes nothing but the first
 * word of `out`. */
#ifndef MORELTURRET_H
#define MORELTURRET_H

#include <stddef.h>
#include <stdint.h>

/* The version, as text and in numbers. CHANGELOG.md has what each brought; "-dev" stands where it is not released yet. */
#define MT_VERSION "0.2.0-dev"
#define MT_VERSION_MAJOR 0
#define MT_VERSION_MINOR 2
#define MT_VERSION_PATCH 0

#ifdef __cplusplus
extern "C" {
#endif

/* What is returned, and the value that is then in out[0]. README.md, "Refusals", has the same as a table, with what to do about each. */
enum {
    MT_OK = 0,
    MT_BAD_COORDINATE = 1,  /* a coordinate is not finite or above 1e9 in magnitude: the first such line, or of many points the first (0 for one point or one segment) */
    MT_TOO_MANY_LINES = 2,  /* more than 65,536 lines: the number of lines; examples/c/parts.c takes any number */
    MT_BAD_LENGTHS = 3,     /* slices that belong together differ in length, or one is too short: 0 */
    MT_SHORT_OFFSETS = 4,   /* a grid tried has more cells + 1 than the lent offsets: that cells + 1 */
    MT_SHORT_ITEMS = 5,     /* items, points, members, bytes, lines or pairs lent are fewer than needed: the number needed */
    MT_SHORT_GLOBALS = 6,   /* globals lent are fewer than found: the number found */
    MT_WALK_TOO_LONG = 7,   /* a walk made 5,000 turns and would make another: the line (0 for one segment) */
    MT_UNFIT_GRID = 8,      /* the grid is not fit: 0 */
    MT_BEYOND_END = 9,      /* a cell, global position or bookmark beyond its end: the cell's row, the position or the bookmark */
    MT_MISFIT_TABLES = 10,  /* the tables do not fit: 0 */
    MT_BAD_WKB = 11,        /* not a LineString, or not a MultiLineString, that the reader takes: the byte position */
    MT_UNFIT_SNAP = 12,     /* snap size or strategy unfit: 0 */
    MT_SUM_TOO_LARGE = 13,  /* the sum of two counts is above 65,536: the first such entry */
    MT_OUTSIDE_GRID = 14,   /* an end of a line that is to be added is outside the grid: 0 */
    MT_BAD_SAMPLE = 15,     /* a number is no sample, its magnitude is above 2^29: the first such line */
    MT_OFF_GRID = 16,       /* an end of one segment is off the grid of the covering walk: 0 */
    MT_OUT_SHORT = 100,     /* `out` has too few words; nothing is written */
    MT_FEW_WORDS = 101,     /* a grid has too few words; nothing is written */
    MT_NO_SIZING = 102,     /* there is no sizing of this number; nothing is written */
    MT_NO_MODE = 103        /* there is no mode of walk of this number; nothing is written */
};

/* Sizings: how a build sizes its cells, for n lines of so much extent in x (width) and in y (height).
 *   MT_SQUARE   cell_width and cell_height are equal: the largest of the square root of area / n, the longer side / 1000, and 1e-6. The area is
 *               width * height; below 1e-9 it counts as n.
 *   MT_AXES     each axis by itself, with s the square root of n: cell_width is the largest of width / s, width / 1000 and 1e-6; cell_height
 *               alike from height. A change of one axis's unit changes lists by rounding alone, as long as no size is held at 1e-6 and the
 *               1e-9 that a grid reaches beyond the lines is not lost. */
enum { MT_SQUARE = 0, MT_AXES = 1 };

/* Modes of walk. The first two go by turns and differ in which cells are added where an end, or a whole line that is parallel to an axis, lies on a
 * boundary between cells, which is within 1e-12 of it, in cells. At a corner each axis goes by itself, and the cell across both is added too. A cell
 * beyond the grid is not.
 *   MT_RUST       the lower neighbour, on whichever side of the boundary the value lies.
 *   MT_SIDED      the neighbour across the boundary: the lower one for a value at the boundary or just above it, the upper one for a value just below.
 *   MT_COVERING   no turns: row by row, the columns that the line comes to, with small margins. After a build in this mode a full visit tests, and hands
 *                 out, every two lines that share an exact point. Refusal 7 cannot come. */
enum { MT_RUST = 0, MT_SIDED = 1, MT_COVERING = 2 };

/* The snap strategy. Any other number is refused by 12. */
enum { MT_GRID = 0 };

/* Whose a point is: outside the grid, a cell's, or in a seam between cells, which nobody owns. */
enum { MT_OUTSIDE = 0, MT_OWNED = 1, MT_SEAM = 2 };

/* The numbers of these two among the answers for many points, above that of every cell. */
#define MT_SEAM_NUMBER UINT32_C(4294967294)
#define MT_OUTSIDE_NUMBER UINT32_C(4294967295)

/* ---- numbers: total on every double, nothing is refused ----
 *
 * Where a NaN is answered, its sign and payload are not promised. */

/* The lesser of two. A NaN gives way to the other; of two that are equal it is a. */
double mt_least(double a, double b);

/* The greater of two. A NaN gives way to the other; of two that are equal it is a. */
double mt_greatest(double a, double b);

/* v with its sign clear. A NaN is handed back as it came: its sign is not cleared. */
double mt_magnitude(double v);

/* The largest whole number that is at most v. A zero keeps its sign, infinities and NaN stay. */
double mt_floor(double v);

/* The floor of v brought into 0 .. count - 1; 0 for a NaN, and where count is 0. */
uint32_t mt_clamped_floor(double v, uint32_t count);

/* The smallest whole number that is at least v, brought into 0 .. 2^64 - 1; 0 for a NaN. */
uint64_t mt_ceiling(double v);

/* v rounded to the nearest whole number, halves away from zero. A zero has the sign of v, infinities and NaN stay. */
double mt_round_half_away(double v);

/* The square root, rounded to nearest. -0 for -0, a NaN below zero. */
double mt_square_root(double v);

/* ---- snapping and ownership ---- */

/* Snaps a point to multiples of `size` (0, or 1e-6 to 1e6; 0 returns the point) by a strategy, which is MT_GRID: v / size rounded half away
 * from zero, times size; a zero has the sign of v / size.
 * out (2 words): the bits of x and of y.
 * Refuses by 1, 12. */
uint32_t mt_snap(double x, double y, double size, uint32_t strategy, uint64_t *out, size_t out_len);

/* Whether GeosCompat, the strategy that had the number 1, gave the coordinate v the same bits as MT_GRID at this size (0, or 1e-6 to 1e6). It was the
 * floor of (|v / size| + 0.5), with the sign of v / size, times size. The two differ where |v / size| is 0.49999999999999994, and nowhere else: so
 * results that were stored with it can be sorted, coordinate by coordinate.
 * out (1 word): 1 where they are the same, else 0.
 * Refuses by 1, 12. */
uint32_t mt_strategies_agree(double v, double size, uint64_t *out, size_t out_len);

/* Whether the cell (row, col) owns the point (x, y): low <= p < high on both axes; in the last column or row p = high counts too.
 * out (1 word): 1 where it does, else 0.
 * Refuses by 1, 8, 9. */
uint32_t mt_point_owned(const uint64_t *grid, size_t grid_len, uint32_t row, uint32_t col, double x, double y,
                        uint64_t *out, size_t out_len);

/* Whether the cell (row, col) owns a collinear overlap whose first end is (x, y): that end, snapped, has low <= p < high on both axes, or the
 * cell is (0, 0).
 * out (1 word): 1 where it does, else 0.
 * Refuses by 1, 8, 12, 9. */
uint32_t mt_overlap_owned(const uint64_t *grid, size_t grid_len, uint32_t row, uint32_t col, double x, double y, double size,
                          uint32_t strategy, uint64_t *out, size_t out_len);

/* Whose the point (x, y) is: the first cell in row order that owns it; or else a seam, where the point lies between the low edge of the first
 * and the high edge of the last column and row, ends included; or else outside, and always on a grid with no cells.
 * out (3 words): MT_OWNED, its row, its column; MT_SEAM, 0, 0; or MT_OUTSIDE, 0, 0.
 * Refuses by 1, 8. */
uint32_t mt_owner(const uint64_t *grid, size_t grid_len, double x, double y, uint64_t *out, size_t out_len);

/* Whose each of many points (x[i], y[i]) is, as mt_owner says it for one: answers[i] is the number of its cell, row * cols + column; MT_SEAM_NUMBER
 * in a seam; or MT_OUTSIDE_NUMBER. The three slices have one length, and every answer is written.
 * out (1 word): nothing.
 * Refuses by 3, 1 (the first such point), 8; each of them changes no answer. */
uint32_t mt_owners(const uint64_t *grid, size_t grid_len, const double *x, size_t x_len, const double *y, size_t y_len,
                   uint32_t *answers, size_t answers_len, uint64_t *out, size_t out_len);

/* ---- the walk ---- */

/* The cells that the segment from (start_x, start_y) to (end_x, end_y) visits in a mode of walk (MT_RUST, MT_SIDED or MT_COVERING), increasing,
 * none twice, at the start of the scratch; zero beyond them. The scratch has at least 16,384 entries.
 * out (1 word): the number of cells.
 * Refuses by 3, 1, 8, 7; in MT_COVERING by 3, 1, 8, 16: an end is below min_x or min_y, or 4,095 cells and more above it, on a grid that has
 * cells. Such a segment counts as being in every cell, and these need not fit the scratch. */
uint32_t mt_segment_cells(const uint64_t *grid, size_t grid_len, double start_x, double start_y, double end_x, double end_y, uint32_t mode,
                          uint32_t *scratch, size_t scratch_len, uint64_t *out, size_t out_len);

/* ---- the build ---- */

/* Picks a grid for the lines, its cells sized by `sizing` (MT_SQUARE or MT_AXES), and writes its tables, by the walk of `mode` (MT_RUST,
 * MT_SIDED or MT_COVERING). Line i goes from (start_x[i], start_y[i]) to (end_x[i], end_y[i]). The list of cell c is items[offsets[c]] up to
 * items[offsets[c + 1]]: the lines, increasing, that visit it. A line that visits more than 2,048 cells is in no list but in globals. Where a cell would list more
 * than 500 lines and 4 times the cells are below 1,000,000, both sizes are halved, at most twice. Beyond what is written offsets, items and
 * globals are zeroed, and so is all of the scratch, which has at least 16,384 entries. Offsets for 1,002,002 entries, items for 2,048 times the
 * lines and globals for the lines are always enough.
 * More than 65,536 lines: cut them in parts of at most 32,768, and build each two parts together, every two once, as examples/c/parts.c does. Parts
 * built alone lose the pairs between them.
 * out (8 words): the six words of the grid (the bits of min_x, min_y, cell_width and cell_height, cols, rows), the number of items, the number of
 * globals. The grid is fit. A minimum that is zero has the sign of the first zero coordinate on its axis, lines in order, start before end.
 * Refuses by 3, 2, 1; at each grid tried by 4, 7; then by 5, 6. */
uint32_t mt_build(const double *start_x, size_t start_x_len, const double *start_y, size_t start_y_len,
                  const double *end_x, size_t end_x_len, const double *end_y, size_t end_y_len, uint32_t sizing, uint32_t mode,
                  uint32_t *offsets, size_t offsets_len, uint32_t *items, size_t items_len, uint32_t *globals, size_t globals_len,
                  uint32_t *scratch, size_t scratch_len, uint64_t *out, size_t out_len);

/* ---- several benches ----
 *
 * Benches that share lines among them agree on a grid and a mode of walk, count their own lines, and add the count tables. Where each of at most 65,536
 * lines is counted on exactly one bench, the sum is the table of a single count and no adding is refused, however the lines are shared and in whichever
 * order the tables are added. */

/* The grid that benches agree on: the first that a build of so many lines within these bounds would try, its cells sized by `sizing` (MT_SQUARE or MT_AXES).
 * The bounds go in by two opposite corners, in either order. Any number of lines may be named: from about 1,000,000 on the cells get no smaller, for there are
 * at most 1,001 columns and 1,001 rows. No lines have the grid of no cells.
 * out (6 words): the six words of the grid, which is fit.
 * Refuses by 1 (0). */
uint32_t mt_agreed_grid(double start_x, double start_y, double end_x, double end_y, size_t lines, uint32_t sizing,
                        uint64_t *out, size_t out_len);

/* Counts the lines of each cell of a grid in a mode of walk (MT_RUST, MT_SIDED or MT_COVERING): counts[c] is how many lines visit cell c, and zero
 * from the number of cells on. A line that visits more than 2,048 cells is global, and counted in no cell. All of the scratch, which has at least
 * 16,384 entries, is zeroed.
 * out (2 words): the sum of all counts, and the number of global lines. Those of all benches add up to those of a single count.
 * Refuses by 3, 2, 1, 8, 4 (counts have fewer than cells + 1 entries), 7. */
uint32_t mt_count(const double *start_x, size_t start_x_len, const double *start_y, size_t start_y_len,
                  const double *end_x, size_t end_x_len, const double *end_y, size_t end_y_len, const uint64_t *grid, size_t grid_len,
                  uint32_t mode, uint32_t *counts, size_t counts_len, uint32_t *scratch, size_t scratch_len, uint64_t *out, size_t out_len);

/* Adds the count table `from` into `into`, which has the same length.
 * out (1 word): written only on a refusal.
 * Refuses by 3 (unequal lengths), 13; both change nothing. */
uint32_t mt_add(uint32_t *into, size_t into_len, const uint32_t *from, size_t from_len, uint64_t *out, size_t out_len);

/* The tables of the lines on a grid that was agreed on, in a mode of walk (MT_RUST, MT_SIDED or MT_COVERING): as mt_build leaves them on a grid that it
 * picks, and laid out as there. The grid stays, however many lines a cell lists. Its offsets are the running sums of mt_count's counts.
 * out (2 words): the number of items, the number of globals.
 * Refuses by 3, 2, 1, 8, 4, 7, 5, 6. */
uint32_t mt_tables_on(const double *start_x, size_t start_x_len, const double *start_y, size_t start_y_len,
                      const double *end_x, size_t end_x_len, const double *end_y, size_t end_y_len, const uint64_t *grid, size_t grid_len,
                      uint32_t mode, uint32_t *offsets, size_t offsets_len, uint32_t *items, size_t items_len,
                      uint32_t *globals, size_t globals_len, uint32_t *scratch, size_t scratch_len, uint64_t *out, size_t out_len);

/* ---- one more line ---- */

/* Adds a line, numbered `lines`, to the standing tables of so many lines at their grid, in a mode of walk (MT_RUST, MT_SIDED or MT_COVERING), in place. Its number goes
 * to the end of the list of each cell that it visits, or of the globals if those are more than 2,048; all other lists keep their entries. Where the tables are those
 * of the lines so far in that mode, they are then those of all lines on that grid. Beyond the tables offsets, items and globals are zeroed, and so is all of the
 * scratch, which has at least 16,384 entries. A line adds at most 2,048 items, or one global.
 * out (3 words): the number of items, the number of globals, and how many cells list the line, which is none where it is global.
 * Refuses by 3, 2 (lines is not below 65,536), 1 (0), 8 (0 by 0 too), 10, 14, 7 (0), 5 (the new number of items), 6 (the new number of globals). No refusal changes the
 * tables; 5, 6 and 7 leave the scratch zero. */
uint32_t mt_add_line(const uint64_t *grid, size_t grid_len, uint32_t mode, double start_x, double start_y, double end_x, double end_y,
                     size_t lines, uint32_t *offsets, size_t offsets_len, uint32_t *items, size_t items_len,
                     uint32_t *globals, size_t globals_len, uint64_t global_count, uint32_t *scratch, size_t scratch_len,
                     uint64_t *out, size_t out_len);

/* ---- standing tables ---- */

/* Whether every call below that is lent the tables takes them, save mt_next_unchecked, which asks nothing of them: at most 65,536 lines, a grid record
 * that is fit, and tables that fit. Tables fit if offsets has at least cells + 1 entries, the first is 0, they never fall over those entries and the last
 * is within items; each list and the first global_count globals strictly increase below the number of lines; global_count is within globals.
 * out (1 word): written only on a refusal.
 * Refuses by 2, 8, 10. */
uint32_t mt_check_tables(const uint64_t *grid, size_t grid_len, size_t lines, const uint32_t *offsets, size_t offsets_len,
                         const uint32_t *items, size_t items_len, const uint32_t *globals, size_t globals_len, uint64_t global_count,
                         uint64_t *out, size_t out_len);

/* The list of the cell (row, col): the lines that visit it, increasing, as a part of items.
 * out (2 words): the index in items where the list starts, and its length.
 * Refuses by 2, 8, 10, 9. */
uint32_t mt_cell_list(const uint64_t *grid, size_t grid_len, size_t lines, const uint32_t *offsets, size_t offsets_len,
                      const uint32_t *items, size_t items_len, const uint32_t *globals, size_t globals_len, uint64_t global_count,
                      uint32_t row, uint32_t col, uint64_t *out, size_t out_len);

/* The list of a global line, by its position among the globals: the globals from there on, as a part of globals.
 * out (2 words): the index in globals where the list starts, and its length.
 * Refuses by 2, 8, 10, 9. */
uint32_t mt_global_list(const uint64_t *grid, size_t grid_len, size_t lines, const uint32_t *offsets, size_t offsets_len,
                        const uint32_t *items, size_t items_len, const uint32_t *globals, size_t globals_len, uint64_t global_count,
                        uint64_t position, uint64_t *out, size_t out_len);

/* ---- the visit ----
 *
 * A visit makes the tests of the tables in order: the cells in row order, and in a list entry i with each later j, i outermost; then each
 * global in order with every line in order, but not itself and not a lower global. A bookmark is the number of tests already made, 0 to the
 * total. The pairs that are handed out are those whose boxes overlap. */

/* One test by its bookmark.
 * out (6 words): 0 for a test in a cell, 1 for one of a global line, 2 for the end mark, which stands at the total; the cell's row, or the
 * global line's position; the cell's column, or 0; the first line; the second line; 1 where their boxes overlap, else 0. For the end mark the
 * last five words are 0.
 * Refuses by 3, 2, 1, 8, 10, 9. */
uint32_t mt_test_at(const uint64_t *grid, size_t grid_len, const double *start_x, size_t start_x_len,
                    const double *start_y, size_t start_y_len, const double *end_x, size_t end_x_len, const double *end_y, size_t end_y_len,
                    const uint32_t *offsets, size_t offsets_len, const uint32_t *items, size_t items_len,
                    const uint32_t *globals, size_t globals_len, uint64_t global_count, uint64_t bookmark, uint64_t *out, size_t out_len);

/* What a full visit of the tables will cost, before it is begun. A total far above the number of items, or a longest list far above the others,
 * tells of a grid that does not suit the lines: one stray sample far away makes the cells so large that most lines share one.
 * out (2 words): the tests of a full visit, and the number of lines of the longest list of a cell.
 * Refuses by 2, 8, 10. */
uint32_t mt_visit_cost(const uint64_t *grid, size_t grid_len, size_t lines, const uint32_t *offsets, size_t offsets_len,
                       const uint32_t *items, size_t items_len, const uint32_t *globals, size_t globals_len, uint64_t global_count,
                       uint64_t *out, size_t out_len);

/* Lists by line: for each line the cells that list it, increasing. The list of line i is listing[starts[i]] to before listing[starts[i + 1]], and a
 * cell has the number row * cols + column; beyond them both slices are zeroed. A global line has an empty list where a build made the tables.
 * starts has at least lines + 1 entries, and listing at least as many as items, used or not.
 * out (1 word): how many cells the lists have in all.
 * Refuses by 3, 2, 8, 10. */
uint32_t mt_lists_by_line(const uint64_t *grid, size_t grid_len, size_t lines, const uint32_t *offsets, size_t offsets_len,
                          const uint32_t *items, size_t items_len, const uint32_t *globals, size_t globals_len, uint64_t global_count,
                          uint32_t *starts, size_t starts_len, uint32_t *listing, size_t listing_len, uint64_t *out, size_t out_len);

/* The tests from a bookmark on, until the outputs first and second, of one length, are full of pairs or the end comes. Pair k is (first[k],
 * second[k]); beyond the pairs both are zeroed. Outputs of length 0 make no test. Start with the bookmark 0 and go on with the one that comes
 * back; the visit is over when a batch with outputs of some length makes no test.
 * out (3 words): the tests made, the pairs handed out, the new bookmark.
 * Refuses by 3, 2, 1, 8, 10, 9. */
uint32_t mt_batch(const uint64_t *grid, size_t grid_len, const double *start_x, size_t start_x_len,
                  const double *start_y, size_t start_y_len, const double *end_x, size_t end_x_len, const double *end_y, size_t end_y_len,
                  const uint32_t *offsets, size_t offsets_len, const uint32_t *items, size_t items_len,
                  const uint32_t *globals, size_t globals_len, uint64_t global_count, uint64_t bookmark, uint32_t *first, size_t first_len,
                  uint32_t *second, size_t second_len, uint64_t *out, size_t out_len);

/* A batch that says where each pair was tested: mt_batch in all, and beside pair k the number of its place in places[k]. A cell has the number row *
 * cols + column, as mt_owners has it, and a global the number of cells and its position. places is of the length of first and second, and zeroed
 * beyond the pairs too.
 * out (3 words): the tests made, the pairs handed out, the new bookmark.
 * Refuses by 3, 2, 1, 8, 10, 9. */
uint32_t mt_batch_places(const uint64_t *grid, size_t grid_len, const double *start_x, size_t start_x_len,
                         const double *start_y, size_t start_y_len, const double *end_x, size_t end_x_len,
                         const double *end_y, size_t end_y_len, const uint32_t *offsets, size_t offsets_len,
                         const uint32_t *items, size_t items_len, const uint32_t *globals, size_t globals_len, uint64_t global_count,
                         uint64_t bookmark, uint32_t *first, size_t first_len, uint32_t *second, size_t second_len,
                         uint32_t *places, size_t places_len, uint64_t *out, size_t out_len);

/* A visit that pays for its checks once. mt_batch checks lines and tables whole at every call, as it must. mt_start checks them once, as a batch
 * does, and answers the cursor of a bookmark, 0 for a whole visit; mt_next_unchecked goes on from a cursor.
 * out (3 words): the cursor, which is three numbers.
 * Refuses by 3, 2, 1, 8, 10, 9. */
uint32_t mt_start(const uint64_t *grid, size_t grid_len, const double *start_x, size_t start_x_len,
                  const double *start_y, size_t start_y_len, const double *end_x, size_t end_x_len, const double *end_y, size_t end_y_len,
                  const uint32_t *offsets, size_t offsets_len, const uint32_t *items, size_t items_len,
                  const uint32_t *globals, size_t globals_len, uint64_t global_count, uint64_t bookmark, uint64_t *out, size_t out_len);

/* The tests from a cursor on, as mt_batch makes them from a bookmark, with the same pairs in first and second. The cursor is the three numbers place, i
 * and j that mt_start or the last call answered. The visit is over when a call leaves an output unfilled.
 * It checks nothing of grid and tables, and of the lines their lengths and their count alone: call it with what mt_start took, and change none of it
 * between the calls. Then each call is the batch that stands there, bit for bit, and takes time by its tests alone. That it checks nothing is sound: no
 * words, lines, tables or numbers of a cursor make it read or write outside what it is lent. A list that is no part of the items, or does not
 * strictly increase below the number of lines, counts as empty, and so do the globals; a cursor past the end is the end.
 * out (5 words): the tests made, the pairs handed out, and the cursor of the tests that are left.
 * Refuses by 3, 2. */
uint32_t mt_next_unchecked(const uint64_t *grid, size_t grid_len, const double *start_x, size_t start_x_len,
                           const double *start_y, size_t start_y_len, const double *end_x, size_t end_x_len,
                           const double *end_y, size_t end_y_len, const uint32_t *offsets, size_t offsets_len,
                           const uint32_t *items, size_t items_len, const uint32_t *globals, size_t globals_len, uint64_t global_count,
                           uint64_t place, uint64_t i, uint64_t j, uint32_t *first, size_t first_len, uint32_t *second, size_t second_len,
                           uint64_t *out, size_t out_len);

/* Each pair once: a full visit that hands out two lines whose boxes overlap at their first test alone, in the order of the visit and with the lines
 * in that test's order. Pair k is (first[k], second[k]); first and second are of one length, and zeroed beyond the pairs. starts, listing and counts
 * are scratch, and zeroed: starts has at least one entry more than there are lines, listing at least as many as items, used or not, and counts at
 * least one for each line. Where there is no telling how many pairs there are, ask with first and second of length 0: 5 says it.
 * out (1 word): how many pairs there are.
 * Refuses by 3, 2, 1, 8, 10, 5 (how many pairs there are; all five slices are zeroed). */
uint32_t mt_pairs_once(const uint64_t *grid, size_t grid_len, const double *start_x, size_t start_x_len,
                       const double *start_y, size_t start_y_len, const double *end_x, size_t end_x_len,
                       const double *end_y, size_t end_y_len, const uint32_t *offsets, size_t offsets_len,
                       const uint32_t *items, size_t items_len, const uint32_t *globals, size_t globals_len, uint64_t global_count,
                       uint32_t *first, size_t first_len, uint32_t *second, size_t second_len, uint32_t *starts, size_t starts_len,
                       uint32_t *listing, size_t listing_len, uint32_t *counts, size_t counts_len, uint64_t *out, size_t out_len);

/* ---- the lines in a window ---- */

/* The lines that may enter the window from (low_x, low_y) to (high_x, high_y): those whose own boxes overlap it, where equality counts, and which
 * are global, or listed in a cell of the block from the cell of the lower corner to that of the upper. Each comes once, increasing, at the start of
 * found, which is zeroed beyond them. The cell of a corner is that of any point, clamped to the grid; a 0 by 0 grid has no block. A window with a
 * corner out of order matches nothing, the global lines neither.
 * out (1 word): how many there are.
 * Refuses by 3, 2, 1 (the first such line; 0 for the window, after the lines), 8, 10, 5 (how many there are; found is zeroed). */
uint32_t mt_window(const uint64_t *grid, size_t grid_len, const double *start_x, size_t start_x_len,
                   const double *start_y, size_t start_y_len, const double *end_x, size_t end_x_len, const double *end_y, size_t end_y_len,
                   const uint32_t *offsets, size_t offsets_len, const uint32_t *items, size_t items_len,
                   const uint32_t *globals, size_t globals_len, uint64_t global_count, double low_x, double low_y, double high_x,
                   double high_y, uint32_t *found, size_t found_len, uint64_t *out, size_t out_len);

/* ---- crossings of samples ---- */

/* The pairs of lines that share a point, ends, overlaps and single points included, each once: at its first test, in the order of the visit, and with
 * the lines in that test's order. Line i goes from (start_x[i], start_y[i]) to (end_x[i], end_y[i]), in samples, which are whole numbers of magnitude at
 * most 2^29: there it is decided exactly. The tables are those of the same numbers as doubles. The pairs are those among the pairs that are tested: after
 * a build in the mode MT_COVERING all that there are. Pair k is (first[k], second[k]); beyond the pairs both are zeroed. The last three slices are
 * scratch, and zeroed: starts has at least one entry more than there are lines, listing as many as items, and counts one for each line.
 * out (1 word): how many there are.
 * Refuses by 3 (also where first and second differ in length, or scratch is short), 2, 15, 8, 10, 5 (how many there are; all five are zeroed). */
uint32_t mt_crossings(const uint64_t *grid, size_t grid_len, const int32_t *start_x, size_t start_x_len,
                      const int32_t *start_y, size_t start_y_len, const int32_t *end_x, size_t end_x_len,
                      const int32_t *end_y, size_t end_y_len, const uint32_t *offsets, size_t offsets_len,
                      const uint32_t *items, size_t items_len, const uint32_t *globals, size_t globals_len, uint64_t global_count,
                      uint32_t *first, size_t first_len, uint32_t *second, size_t second_len, uint32_t *starts, size_t starts_len,
                      uint32_t *listing, size_t listing_len, uint32_t *counts, size_t counts_len, uint64_t *out, size_t out_len);

/* ---- counts per block ---- */

/* The summary of standing tables of so many lines: for each block of 16 by 16 cells the number of items in it, which is the sum over its cells of the
 * lengths of their lists. There are (cols + 15) / 16 blocks across and (rows + 15) / 16 up, whole numbers, those at the far edges smaller; they are
 * numbered in row order, as cells are. A fit grid has at most 4,148, and a 0 by 0 grid none. summary is zeroed beyond them. Global lines are in no block.
 * out (1 word): how many blocks there are.
 * Refuses by 3 (a summary shorter than the blocks), 2, 8, 10. None of them changes the summary. */
uint32_t mt_block_counts(const uint64_t *grid, size_t grid_len, size_t lines, const uint32_t *offsets, size_t offsets_len,
                         const uint32_t *items, size_t items_len, const uint32_t *globals, size_t globals_len, uint64_t global_count,
                         uint32_t *summary, size_t summary_len, uint64_t *out, size_t out_len);

/* The numbers of a summary added up over a rectangle of whole blocks, from the lower corner to the upper, both included. Corners out of order give 0. On
 * the tables' own summary that is the number of items in the lists of the rectangle's cells; any other summary may be handed in too, and the sum fits.
 * out (1 word): how many items.
 * Refuses by 3 (a summary shorter than the blocks), 8, 9 (a block beyond the end: its row of blocks, of the lower corner first). */
uint32_t mt_items_in_blocks(const uint64_t *grid, size_t grid_len, const uint32_t *summary, size_t summary_len, uint32_t low_row,
                            uint32_t low_col, uint32_t high_row, uint32_t high_col, uint64_t *out, size_t out_len);

/* Adds a line to standing tables and to their summary together: to the tables as mt_add_line does, and one item more to the block of each cell that lists
 * it. The summary has to be the tables' own; it is then that of the new tables, and zero beyond the blocks. A global line changes no block.
 * out (3 words): as mt_add_line.
 * Refuses by 3 (the scratch; a summary shorter than the blocks), 2, 1, 8, 10 (the tables; a summary that disagrees with the offsets), 14, 7, 5, 6, as
 * mt_add_line does. No refusal changes the tables or the summary; 5, 6 and 7 leave the scratch zero. */
uint32_t mt_add_line_blocks(const uint64_t *grid, size_t grid_len, uint32_t mode, double start_x, double start_y, double end_x,
                            double end_y, size_t lines, uint32_t *offsets, size_t offsets_len, uint32_t *items, size_t items_len,
                            uint32_t *globals, size_t globals_len, uint64_t global_count, uint32_t *summary, size_t summary_len,
                            uint32_t *scratch, size_t scratch_len, uint64_t *out, size_t out_len);

/* ---- well-known binary ---- */

/* Reads one LineString in well-known binary (type 2, either byte order, 1 to 1,024 points, no bytes after it) into x and y, which both have
 * the same length, at least 1,024. Beyond the points x and y are zeroed. Every NaN becomes the one NaN.
 * out (1 word): the number of points.
 * Refuses by 3, 11, and then writes nothing to x and y. */
uint32_t mt_read_line_string(const uint8_t *bytes, size_t bytes_len, double *x, size_t x_len, double *y, size_t y_len,
                             uint64_t *out, size_t out_len);

/* Reads one MultiLineString in well-known binary (type 5): its members are LineStrings of 1 to 1,024 points, each in a byte order of its own; none
 * at all is fine, and no bytes follow the last. The points go to x and y, of one length, member after member, as bit patterns, so that a NaN keeps all
 * its bits; the number of points of each member goes to `lengths`. Beyond them all three are zeroed. Nothing is written before all of the bytes were
 * looked at. Entries of x and y for a 16th of the bytes, and of lengths for a 25th, are always enough.
 * out (2 words): the number of points, the number of members.
 * Refuses by 3, 11, 2 (more than 65,536 lines, which are the points without the members), then by 5 with the number of points where x and y are short,
 * or with that of members where lengths is. 11 names the first byte of the field that fails, in the whole or in a member, the end of the bytes where
 * they are cut, or the first byte after the last member. */
uint32_t mt_read_multi_line_string(const uint8_t *bytes, size_t bytes_len, uint64_t *x, size_t x_len, uint64_t *y, size_t y_len,
                                   uint32_t *lengths, size_t lengths_len, uint64_t *out, size_t out_len);

/* Writes members as one MultiLineString, little-endian throughout, and zeros the bytes beyond it. The members are held as mt_read_multi_line_string
 * leaves them: the points of all in x and y, the number of points of each in `lengths`, and nothing beyond. What is written is read back as it was,
 * and what was read from a MultiLineString that is little-endian throughout is written as it was.
 * out (1 word): the number of bytes: 9, 9 for each member, 16 for each point.
 * Refuses by 3 (x and y differ in length, a length is 0 or above 1,024, the lengths do not add up to the points, or there are more than 2^32 - 1), 2,
 * then by 5 with the number of bytes needed. */
uint32_t mt_write_multi_line_string(const uint64_t *x, size_t x_len, const uint64_t *y, size_t y_len,
                                    const uint32_t *lengths, size_t lengths_len, uint8_t *bytes, size_t bytes_len,
                                    uint64_t *out, size_t out_len);

/* The lines of members, for a build: line i goes from (start_x[i], start_y[i]) to (end_x[i], end_y[i]). Consecutive points of a member make a line, and
 * no line joins two members; a member of one point makes none. The four slices have one length, and beyond the lines they are zeroed. Every NaN becomes
 * the one NaN, which a build refuses by 1.
 * out (1 word): the number of lines: the points without the members.
 * Refuses by 3 (the four slices differ in length; or as mt_write_multi_line_string does), 2, then by 5 with the number of lines. */
uint32_t mt_lines_of_members(const uint64_t *x, size_t x_len, const uint64_t *y, size_t y_len, const uint32_t *lengths, size_t lengths_len,
                             double *start_x, size_t start_x_len, double *start_y, size_t start_y_len, double *end_x, size_t end_x_len,
                             double *end_y, size_t end_y_len, uint64_t *out, size_t out_len);

/* ---- cleaning ---- */

/* What mt_clean says of a point:
 *   MT_KEPT         it is kept.
 *   MT_RANGE        it is outside the coordinate rule: finite, of magnitude at most 1e9.
 *   MT_REPEAT       it equals the one kept just before it in its piece; zeros of either sign are equal.
 *   MT_SHORT_PIECE  fewer than two points of its piece were left. */
enum { MT_KEPT = 0, MT_RANGE = 1, MT_REPEAT = 2, MT_SHORT_PIECE = 3 };

/* Cleans members, which are held as mt_read_multi_line_string leaves them, with nothing beyond. A point outside the coordinate rule is dropped, and its
 * member split there; of the pieces repeats are dropped, and then pieces left with fewer than two points. What is kept goes to kept_x and kept_y, bit for
 * bit, and the number of points of each piece to kept_lengths; it is what mt_write_multi_line_string and mt_lines_of_members take, and cleaning it again
 * changes nothing. Each point of the input has its reason in `reasons`: the first rule that drops it, or MT_KEPT. Beyond what is written all four are
 * zeroed. For n points kept_x, kept_y and reasons need n entries, kept_lengths n / 2.
 * out (2 words): the number of points and the number of pieces that are kept.
 * Refuses by 3 (as mt_write_multi_line_string does; or kept_x and kept_y differ in length, or one of the four slices is short), and then writes nothing
 * to them. */
uint32_t mt_clean(const uint64_t *x, size_t x_len, const uint64_t *y, size_t y_len, const uint32_t *lengths, size_t lengths_len,
                  uint64_t *kept_x, size_t kept_x_len, uint64_t *kept_y, size_t kept_y_len, uint32_t *kept_lengths, size_t kept_lengths_len,
                  uint32_t *reasons, size_t reasons_len, uint64_t *out, size_t out_len);

#ifdef __cplusplus
}
#endif

#endif
