/* structs FILE..: the functions of morelturret_structs.h, held to those of morelturret.h on each FILE, a LineString in well-known binary. C11 and C++17.
 * Prints how many answers were held, and ends with status 1 at the first that differs. */
#include "morelturret_structs.h"
#include <stdio.h>
#include <stdlib.h>

enum { LINES = MT_MAX_POINTS - 1, ITEMS = MT_MAX_ITEMS_OF_LINE * LINES, BYTES = 9 + 16 * MT_MAX_POINTS + 1, ROOM = 4096, ONCE = ITEMS + 2 * LINES + 1 };

static uint8_t bytes[BYTES];
static double x[MT_MAX_POINTS], y[MT_MAX_POINTS], flat_x[MT_MAX_POINTS], flat_y[MT_MAX_POINTS];
static uint32_t offsets[MT_MAX_OFFSETS], items[ITEMS], globals[LINES], scratch[MT_SCRATCH];
static uint32_t flat_offsets[MT_MAX_OFFSETS], flat_items[ITEMS], flat_globals[LINES], flat_scratch[MT_SCRATCH];
static uint32_t first[ROOM], second[ROOM], flat_first[ROOM], flat_second[ROOM], owners[MT_MAX_POINTS], flat_owners[MT_MAX_POINTS];
static uint32_t starts[LINES + 1], flat_starts[LINES + 1], cells[ITEMS], flat_cells[ITEMS];
static uint32_t counts[MT_MAX_OFFSETS], flat_counts[MT_MAX_OFFSETS], more_counts[MT_MAX_OFFSETS], flat_more_counts[MT_MAX_OFFSETS];
static uint64_t member_x[MT_MAX_POINTS], member_y[MT_MAX_POINTS], flat_member_x[MT_MAX_POINTS], flat_member_y[MT_MAX_POINTS];
static uint32_t lengths[MT_MAX_POINTS], flat_lengths[MT_MAX_POINTS];
static uint64_t kept_x[MT_MAX_POINTS], kept_y[MT_MAX_POINTS], flat_kept_x[MT_MAX_POINTS], flat_kept_y[MT_MAX_POINTS];
static uint32_t kept_lengths[MT_MAX_POINTS], flat_kept_lengths[MT_MAX_POINTS], reasons[MT_MAX_POINTS], flat_reasons[MT_MAX_POINTS];
static double line_ends[4][LINES], flat_line_ends[4][LINES];
static uint8_t written[BYTES + 9 * MT_MAX_POINTS], flat_written[BYTES + 9 * MT_MAX_POINTS];
static uint32_t once[ONCE];
static int32_t whole[4][LINES];
static unsigned long held;

static void same(int is_so, const char *what, const char *path) {
    if (!is_so) {
        printf("structs: %s: %s differs\n", path, what);
        exit(1);
    }
    held++;
}

/* The number and the value are those of the flat function; answers whether nothing was refused. */
static int alike(mt_refusal refusal, uint32_t number, uint64_t value, const char *what, const char *path) {
    same(refusal.number == number && refusal.value == (number == MT_OK ? 0 : value), what, path);
    return number == MT_OK;
}

static void visit(const mt_tables *tables, const mt_lines *lines, const uint64_t *grid, const char *path) {
    const size_t n = lines->count;
    const double *sx = lines->start_x, *sy = lines->start_y, *ex = lines->end_x, *ey = lines->end_y;
    uint64_t bookmark = 0, flat_bookmark = 0, out[6];
    mt_pairs_room pairs = {first, second, ROOM, 0};
    do {
        mt_test test = {0, 0, 0, 0, 0, 0};
        uint32_t number = mt_test_at(grid, 8, sx, n, sy, n, ex, n, ey, n, flat_offsets, MT_MAX_OFFSETS, flat_items, ITEMS, flat_globals, LINES, grid[7], bookmark, out, 6);
        if (alike(mt_tables_test(tables, lines, bookmark, &test), number, out[0], "a test", path)) {
            same(test.kind == out[0] && test.row == out[1] && test.col == out[2] && test.first == out[3] && test.second == out[4] &&
                 (uint64_t)test.overlap == out[5], "a test's answer", path);
        }
        number = mt_batch(grid, 8, sx, n, sy, n, ex, n, ey, n, flat_offsets, MT_MAX_OFFSETS, flat_items, ITEMS, flat_globals, LINES, grid[7], flat_bookmark, flat_first, ROOM, flat_second, ROOM, out, 3);
        if (!alike(mt_tables_pairs(tables, lines, &bookmark, &pairs), number, out[0], "a batch", path)) return;
        flat_bookmark = out[2];
        same(bookmark == out[2] && pairs.count == out[1] && !memcmp(first, flat_first, sizeof first) && !memcmp(second, flat_second, sizeof second), "a batch's pairs", path);
    } while (pairs.count == pairs.room);
    /* beyond the end, which leaves what was there */
    uint64_t beyond = bookmark + 1;
    uint32_t number = mt_batch(grid, 8, sx, n, sy, n, ex, n, ey, n, flat_offsets, MT_MAX_OFFSETS, flat_items, ITEMS, flat_globals, LINES, grid[7], beyond, flat_first, ROOM, flat_second, ROOM, out, 3);
    size_t count = pairs.count;
    alike(mt_tables_pairs(tables, lines, &beyond, &pairs), number, out[0], "a batch beyond the end", path);
    same(number == MT_BEYOND_END && beyond == bookmark + 1 && pairs.count == count, "what a batch beyond the end leaves", path);
}

/* the same batches with the places of their pairs, and one beyond the end */
static void visit_places(const mt_tables *tables, const mt_lines *lines, const uint64_t *grid, const char *path) {
    const size_t n = lines->count;
    const double *sx = lines->start_x, *sy = lines->start_y, *ex = lines->end_x, *ey = lines->end_y;
    static uint32_t places[ROOM], flat_places[ROOM];
    uint64_t bookmark = 0, flat_bookmark = 0, out[3];
    mt_pairs_room pairs = {first, second, ROOM, 0};
    do {
        uint32_t number = mt_batch_places(grid, 8, sx, n, sy, n, ex, n, ey, n, flat_offsets, MT_MAX_OFFSETS, flat_items, ITEMS, flat_globals, LINES, grid[7], flat_bookmark, flat_first, ROOM, flat_second, ROOM, flat_places, ROOM, out, 3);
        if (!alike(mt_tables_pairs_places(tables, lines, &bookmark, &pairs, places), number, out[0], "a batch with places", path)) return;
        flat_bookmark = out[2];
        same(bookmark == out[2] && pairs.count == out[1] && !memcmp(first, flat_first, sizeof first) && !memcmp(second, flat_second, sizeof second) &&
             !memcmp(places, flat_places, sizeof places), "a batch's pairs and places", path);
    } while (pairs.count == pairs.room);
    uint64_t beyond = bookmark + 1;
    uint32_t number = mt_batch_places(grid, 8, sx, n, sy, n, ex, n, ey, n, flat_offsets, MT_MAX_OFFSETS, flat_items, ITEMS, flat_globals, LINES, grid[7], beyond, flat_first, ROOM, flat_second, ROOM, flat_places, ROOM, out, 3);
    size_t count = pairs.count;
    alike(mt_tables_pairs_places(tables, lines, &beyond, &pairs, places), number, out[0], "a batch with places beyond the end", path);
    same(number == MT_BEYOND_END && beyond == bookmark + 1 && pairs.count == count, "what a batch with places beyond the end leaves", path);
}

/* the visit that is checked once, beside the flat functions and beside the batches of the same room; and from a bookmark beyond the end */
static void visit_from(const mt_tables *tables, const mt_lines *lines, const uint64_t *grid, const char *path) {
    const size_t n = lines->count;
    const double *sx = lines->start_x, *sy = lines->start_y, *ex = lines->end_x, *ey = lines->end_y;
    uint64_t out[5], tests = 0, bookmark = 0;
    mt_cursor cursor = {0, 0, 0}, flat;
    mt_pairs_room pairs = {first, second, ROOM, 0};
    uint32_t number = mt_start(grid, 8, sx, n, sy, n, ex, n, ey, n, flat_offsets, MT_MAX_OFFSETS, flat_items, ITEMS, flat_globals, LINES, grid[7], 0, out, 3);
    if (!alike(mt_tables_start(tables, lines, 0, &cursor), number, out[0], "a start", path)) return;
    same(cursor.place == out[0] && cursor.i == out[1] && cursor.j == out[2], "the cursor of a start", path);
    do {
        flat = cursor;
        number = mt_next_unchecked(grid, 8, sx, n, sy, n, ex, n, ey, n, flat_offsets, MT_MAX_OFFSETS, flat_items, ITEMS, flat_globals, LINES, grid[7], flat.place, flat.i, flat.j, flat_first, ROOM, flat_second, ROOM, out, 5);
        if (!alike(mt_tables_next(tables, lines, &cursor, &pairs, &tests), number, out[0], "a part of a visit", path)) return;
        same(cursor.place == out[2] && cursor.i == out[3] && cursor.j == out[4] && pairs.count == out[1], "the cursor of a part", path);
        same(!memcmp(first, flat_first, sizeof first) && !memcmp(second, flat_second, sizeof second), "the pairs of a part", path);
        number = mt_batch(grid, 8, sx, n, sy, n, ex, n, ey, n, flat_offsets, MT_MAX_OFFSETS, flat_items, ITEMS, flat_globals, LINES, grid[7], bookmark, flat_first, ROOM, flat_second, ROOM, out, 3);
        bookmark = out[2];
        same(number == MT_OK && bookmark == tests && pairs.count == out[1], "a part and a batch", path);
        same(!memcmp(first, flat_first, sizeof first) && !memcmp(second, flat_second, sizeof second), "the pairs of a part and a batch", path);
    } while (pairs.count == pairs.room);
    flat = cursor;
    number = mt_start(grid, 8, sx, n, sy, n, ex, n, ey, n, flat_offsets, MT_MAX_OFFSETS, flat_items, ITEMS, flat_globals, LINES, grid[7], tests + 1, out, 3);
    alike(mt_tables_start(tables, lines, tests + 1, &cursor), number, out[0], "a start beyond the end", path);
    same(number == MT_BEYOND_END && cursor.place == flat.place && cursor.i == flat.i && cursor.j == flat.j, "what a start beyond the end leaves", path);
}

/* each pair once; with room, with too little for one pair, and with a scratch that is short by one */
static void visit_once(const mt_tables *tables, const mt_lines *lines, const uint64_t *grid, const char *path) {
    const size_t n = lines->count, needed = ITEMS + 2 * n + 1;
    const double *sx = lines->start_x, *sy = lines->start_y, *ex = lines->end_x, *ey = lines->end_y;
    const size_t rooms[2] = {ROOM, 0};
    for (int k = 0; k < 2; k++) {
        uint64_t out[1] = {0};
        mt_pairs_room pairs = {first, second, rooms[k], 0};
        uint32_t number = mt_pairs_once(grid, 8, sx, n, sy, n, ex, n, ey, n, flat_offsets, MT_MAX_OFFSETS, flat_items, ITEMS, flat_globals, LINES, grid[7], flat_first, rooms[k], flat_second, rooms[k], flat_starts, n + 1, flat_cells, ITEMS, flat_counts, n, out, 1);
        memset(once, 7, sizeof once);
        if (alike(mt_tables_pairs_once(tables, lines, &pairs, once, needed), number, out[0], "each pair once", path)) {
            same(pairs.count == out[0] && !memcmp(first, flat_first, sizeof first) && !memcmp(second, flat_second, sizeof second), "the pairs, each once", path);
        }
        size_t zeros = 0;
        while (zeros < needed && once[zeros] == 0) zeros++;
        same(zeros == needed, "what is left in the scratch", path);
        alike(mt_tables_pairs_once(tables, lines, &pairs, once, needed - 1), MT_BAD_LENGTHS, 0, "a scratch that is short", path);
    }
}

/* crossings of the whole parts of the coordinates, on the tables of the coordinates themselves: any tables that fit will do */
static void cross(const mt_tables *tables, const mt_lines *lines, const uint64_t *grid, const char *path) {
    const size_t n = lines->count, needed = ITEMS + 2 * n + 1;
    const double *columns[4] = {lines->start_x, lines->start_y, lines->end_x, lines->end_y};
    const mt_samples samples = {whole[0], whole[1], whole[2], whole[3], n};
    const size_t rooms[2] = {ROOM, 0};
    for (int c = 0; c < 4; c++) {
        for (size_t i = 0; i < n; i++) whole[c][i] = (int32_t)columns[c][i];
    }
    for (int k = 0; k < 2; k++) {
        uint64_t out[1] = {0};
        mt_pairs_room pairs = {first, second, rooms[k], 0};
        uint32_t number = mt_crossings(grid, 8, whole[0], n, whole[1], n, whole[2], n, whole[3], n, flat_offsets, MT_MAX_OFFSETS, flat_items, ITEMS, flat_globals, LINES, grid[7], flat_first, rooms[k], flat_second, rooms[k], flat_starts, n + 1, flat_cells, ITEMS, flat_counts, n, out, 1);
        if (alike(mt_tables_crossings(tables, &samples, &pairs, once, needed), number, out[0], "the crossings", path)) {
            same(pairs.count == out[0] && !memcmp(first, flat_first, sizeof first) && !memcmp(second, flat_second, sizeof second), "the pairs that cross", path);
        }
        alike(mt_tables_crossings(tables, &samples, &pairs, once, needed - 1), MT_BAD_LENGTHS, 0, "a scratch that is short for crossings", path);
    }
    if (n > 0) {
        mt_pairs_room pairs = {first, second, ROOM, 0};
        whole[2][n - 1] = (1 << 29) + 1;
        mt_refusal refusal = mt_tables_crossings(tables, &samples, &pairs, once, needed);
        same(refusal.number == MT_BAD_SAMPLE && refusal.value <= n - 1, "a number that is no sample", path);
    }
}

static void by_blocks(const mt_tables *tables, const uint64_t *grid, const char *path) {
    static uint32_t counts[MT_MAX_BLOCKS], flat[MT_MAX_BLOCKS];
    mt_blocks blocks = {counts, MT_MAX_BLOCKS, 0, {0, 0, 0, 0, 0, 0}};
    uint64_t out[1], items = 0;
    uint32_t number = mt_block_counts(grid, 8, tables->line_count, flat_offsets, MT_MAX_OFFSETS, flat_items, ITEMS, flat_globals, LINES, grid[7], flat, MT_MAX_BLOCKS, out, 1);
    if (!alike(mt_tables_blocks(tables, &blocks), number, out[0], "a summary", path)) return;
    same(blocks.count == out[0] && blocks.count == mt_blocks_along(tables->grid.cols) * mt_blocks_along(tables->grid.rows) && !memcmp(counts, flat, sizeof counts), "the summary", path);
    for (uint32_t row = 0; row < 3; row++) {
        for (uint32_t col = 0; col < 3; col++) {
            uint32_t low[2] = {0, col / 2}, high[2] = {row, col};
            number = mt_items_in_blocks(grid, 8, flat, MT_MAX_BLOCKS, low[0], low[1], high[0], high[1], out, 1);
            if (alike(mt_blocks_items(&blocks, low, high, &items), number, out[0], "blocks", path)) same(items == out[0], "the items of blocks", path);
        }
    }
    /* a summary that is short is refused, and nothing of it is written */
    if (blocks.count > 0) {
        mt_blocks none = {counts, blocks.count - 1, 7, {0, 0, 0, 0, 0, 0}};
        same(mt_tables_blocks(tables, &none).number == MT_BAD_LENGTHS && none.count == 7 && !memcmp(counts, flat, sizeof counts), "a short summary", path);
    }
}

static void on_grid(const mt_tables *tables, const mt_points *points, const uint64_t *grid, const char *path) {
    const mt_grid *g = &tables->grid;
    uint64_t out[3];
    mt_list list = {items, 0};
    for (uint32_t row = 0; row <= g->rows && row < 5; row++) {
        for (uint32_t col = 0; col <= g->cols && col < 5; col++) {
            uint32_t number = mt_cell_list(grid, 8, tables->line_count, flat_offsets, MT_MAX_OFFSETS, flat_items, ITEMS, flat_globals, LINES, grid[7], row, col, out, 2);
            if (alike(mt_tables_cell(tables, row, col, &list), number, out[0], "a cell", path)) same(list.lines == items + out[0] && list.count == out[1], "a cell's list", path);
        }
    }
    for (uint64_t position = 0; position <= tables->global_count && position < 5; position++) {
        uint32_t number = mt_global_list(grid, 8, tables->line_count, flat_offsets, MT_MAX_OFFSETS, flat_items, ITEMS, flat_globals, LINES, grid[7], position, out, 2);
        if (alike(mt_tables_global(tables, position, &list), number, out[0], "a global line", path)) same(list.lines == globals + out[0] && list.count == out[1], "a global line's list", path);
    }
    uint32_t number = mt_owners(grid, 8, x, points->count, y, points->count, flat_owners, points->count, out, 1);
    if (alike(mt_grid_owners(g, x, y, points->count, owners), number, out[0], "owners", path)) same(!memcmp(owners, flat_owners, points->count * sizeof *owners), "the owners", path);
    for (size_t i = 0; i < points->count && i < 20; i++) {
        mt_place place = {0, 0, 0};
        int owned = 0;
        size_t cells = 0;
        double to[4] = {x[i], y[i], x[0], y[0]}, snapped_x = x[i], snapped_y = y[i];
        number = mt_owner(grid, 8, x[i], y[i], out, 3);
        if (alike(mt_grid_owner(g, x[i], y[i], &place), number, out[0], "an owner", path)) same(place.kind == out[0] && place.row == out[1] && place.col == out[2], "the owner", path);
        number = mt_point_owned(grid, 8, 0, 0, x[i], y[i], out, 1);
        if (alike(mt_grid_owns(g, 0, 0, x[i], y[i], &owned), number, out[0], "ownership", path)) same((uint64_t)owned == out[0], "whether it is owned", path);
        number = mt_segment_cells(grid, 8, to[0], to[1], to[2], to[3], MT_SIDED, flat_scratch, MT_SCRATCH, out, 1);
        if (alike(mt_grid_cells(g, to, MT_SIDED, scratch, MT_SCRATCH, &cells), number, out[0], "a walk", path)) same(cells == out[0] && !memcmp(scratch, flat_scratch, sizeof scratch), "a walk's cells", path);
        number = mt_snap(x[i], y[i], 0.25, MT_GRID, out, 2);
        if (alike(mt_snap_point(&snapped_x, &snapped_y, 0.25), number, out[0], "a snap", path)) same(mt_bits_of(snapped_x) == out[0] && mt_bits_of(snapped_y) == out[1], "the snapped point", path);
    }
}

/* What standing tables are asked besides: the cost of a visit, lists by line, windows. */
static void ask(const mt_tables *tables, const mt_lines *lines, const uint64_t *grid, const char *path) {
    const size_t n = lines->count;
    uint64_t out[2];
    mt_cost cost = {0, 0};
    uint32_t number = mt_visit_cost(grid, 8, n, flat_offsets, MT_MAX_OFFSETS, flat_items, ITEMS, flat_globals, LINES, grid[7], out, 2);
    if (alike(mt_tables_cost(tables, &cost), number, out[0], "a cost", path)) same(cost.tests == out[0] && cost.longest == out[1], "the cost", path);
    mt_lists_room lists = {starts, cells, LINES + 1, ITEMS, 0};
    number = mt_lists_by_line(grid, 8, n, flat_offsets, MT_MAX_OFFSETS, flat_items, ITEMS, flat_globals, LINES, grid[7], flat_starts, LINES + 1, flat_cells, ITEMS, out, 1);
    if (alike(mt_tables_by_line(tables, &lists), number, out[0], "lists by line", path)) {
        same(lists.cell_count == out[0] && !memcmp(starts, flat_starts, sizeof starts) && !memcmp(cells, flat_cells, sizeof cells), "the lists by line", path);
    }
    lists.start_room = n;
    same(mt_tables_by_line(tables, &lists).number == MT_BAD_LENGTHS, "lists by line in short starts", path);
    for (size_t i = 0; i < n && i < 20; i++) {
        double window[4] = {lines->start_x[i], lines->start_y[i], lines->end_x[i], lines->end_y[i]};
        for (size_t room = 0; room <= ROOM; room += ROOM) {
            size_t count = 0;
            number = mt_window(grid, 8, lines->start_x, n, lines->start_y, n, lines->end_x, n, lines->end_y, n, flat_offsets, MT_MAX_OFFSETS, flat_items, ITEMS,
                               flat_globals, LINES, grid[7], window[0], window[1], window[2], window[3], flat_first, room, out, 1);
            if (alike(mt_tables_window(tables, lines, window, first, room, &count), number, out[0], "a window", path)) {
                same(count == out[0] && !memcmp(first, flat_first, room * sizeof *first), "the lines in a window", path);
            }
        }
    }
}

/* The lines on an agreed grid, counted in two shares and added, and their tables. */
static void share(const mt_lines *lines, uint32_t sizing, uint32_t mode, const char *path) {
    const size_t n = lines->count, half = n / 2;
    const double corners[4] = {-50.0, 40.0, 60.0, -30.0};
    uint64_t words[6], out[2], flat_sum = 0, flat_globals_counted = 0;
    mt_grid grid;
    uint32_t number = mt_agreed_grid(corners[0], corners[1], corners[2], corners[3], n, sizing, words, 6);
    if (!alike(mt_grid_agreed(&grid, corners, n, sizing), number, number < MT_OUT_SHORT ? words[0] : 0, "an agreed grid", path)) return;
    mt_counts all = {counts, scratch, MT_MAX_OFFSETS, MT_SCRATCH, 0, 0}, more = {more_counts, scratch, MT_MAX_OFFSETS, MT_SCRATCH, 0, 0};
    for (int part = 0; part < 2; part++) {
        const size_t from = part == 0 ? 0 : half, m = part == 0 ? half : n - half;
        const mt_lines some = {lines->start_x + from, lines->start_y + from, lines->end_x + from, lines->end_y + from, m};
        number = mt_count(some.start_x, m, some.start_y, m, some.end_x, m, some.end_y, m, words, 6, mode, part == 0 ? flat_counts : flat_more_counts,
                          MT_MAX_OFFSETS, flat_scratch, MT_SCRATCH, out, 2);
        if (!alike(mt_counts_take(part == 0 ? &all : &more, &some, &grid, mode), number, out[0], "a count", path)) return;
        flat_sum += out[0], flat_globals_counted += out[1];
    }
    same(!memcmp(counts, flat_counts, sizeof counts) && !memcmp(more_counts, flat_more_counts, sizeof more_counts), "the counts", path);
    number = mt_add(flat_counts, MT_MAX_OFFSETS, flat_more_counts, MT_MAX_OFFSETS, out, 1);
    if (alike(mt_counts_add(&all, &more), number, out[0], "adding counts", path)) {
        same(!memcmp(counts, flat_counts, sizeof counts) && all.sum == flat_sum && all.global_count == flat_globals_counted, "the added counts", path);
    }
    more.count_room--;
    same(mt_counts_add(&all, &more).number == MT_BAD_LENGTHS && all.sum == flat_sum, "adding counts of another length", path);
    mt_tables tables;
    memset(&tables, 0, sizeof tables);
    tables.offsets = offsets, tables.offset_room = MT_MAX_OFFSETS;
    tables.items = items, tables.item_room = ITEMS;
    tables.globals = globals, tables.global_room = LINES;
    tables.scratch = scratch, tables.scratch_room = MT_SCRATCH;
    number = mt_tables_on(lines->start_x, n, lines->start_y, n, lines->end_x, n, lines->end_y, n, words, 6, mode, flat_offsets, MT_MAX_OFFSETS, flat_items, ITEMS,
                          flat_globals, LINES, flat_scratch, MT_SCRATCH, out, 2);
    if (!alike(mt_tables_fill(&tables, lines, &grid, mode), number, out[0], "tables on a grid", path)) return;
    same(tables.line_count == n && tables.item_count == out[0] && tables.global_count == out[1] && tables.item_count == all.sum, "what tables on a grid answer", path);
    same(!memcmp(offsets, flat_offsets, sizeof offsets) && !memcmp(items, flat_items, sizeof items) && !memcmp(globals, flat_globals, sizeof globals), "the tables on a grid", path);
    same(mt_tables_check(&tables).number == MT_OK, "the fit of tables on a grid", path);
}

/* Members with a gap and a repeat put in, cleaned, with room and without. */
static void clean(const mt_members *read, const char *path) {
    const size_t n = read->point_count;
    uint64_t out[2];
    if (n > 4) read->x[2] = read->x[1], read->y[2] = read->y[1];
    if (n > 2) read->x[n / 2] = UINT64_C(0x7ff8000000000000);
    for (size_t few = 0; few <= 1 && few <= n / 2; few++) {
        const size_t room = n / 2 - few;
        mt_members kept = {kept_x, kept_y, kept_lengths, MT_MAX_POINTS, room, 0, 0};
        uint32_t number = mt_clean(read->x, n, read->y, n, read->lengths, read->member_count, flat_kept_x, MT_MAX_POINTS, flat_kept_y, MT_MAX_POINTS, flat_kept_lengths, room,
                                   flat_reasons, n, out, 2);
        if (!alike(mt_members_clean(read, &kept, reasons), number, out[0], "cleaning members", path)) continue;
        same(kept.point_count == out[0] && kept.member_count == out[1] && (n <= 2 || reasons[n / 2] == MT_RANGE), "how many are kept", path);
        same(!memcmp(kept_x, flat_kept_x, sizeof kept_x) && !memcmp(kept_y, flat_kept_y, sizeof kept_y) && !memcmp(kept_lengths, flat_kept_lengths, sizeof kept_lengths)
             && !memcmp(reasons, flat_reasons, sizeof reasons), "the kept members", path);
    }
}

/* The points as members of one file, the first of them alone in one, written, read again and made lines of. */
static void members(const mt_points *points, const char *path) {
    const size_t n = points->count;
    uint64_t out[2];
    size_t length = 0;
    for (size_t i = 0; i < n; i++) flat_member_x[i] = mt_bits_of(x[i]), flat_member_y[i] = mt_bits_of(y[i]);
    flat_lengths[0] = 1, flat_lengths[1] = (uint32_t)(n - 1);
    const size_t count = n > 1 ? 2 : 1;
    const mt_members made = {flat_member_x, flat_member_y, flat_lengths, n, count, n, count};
    for (size_t room = 8; room <= sizeof written; room += sizeof written - 8) {
        uint32_t number = mt_write_multi_line_string(flat_member_x, n, flat_member_y, n, flat_lengths, count, flat_written, room, out, 1);
        if (alike(mt_members_write(&made, written, room, &length), number, out[0], "writing members", path)) same(length == out[0] && !memcmp(written, flat_written, room), "the bytes of members", path);
    }
    for (size_t room = 0; room <= MT_MAX_POINTS; room += MT_MAX_POINTS) {
        mt_members read = {member_x, member_y, lengths, MT_MAX_POINTS, room, 0, 0};
        uint32_t number = mt_read_multi_line_string(written, length, flat_member_x, MT_MAX_POINTS, flat_member_y, MT_MAX_POINTS, flat_lengths, room, out, 2);
        if (!alike(mt_members_read(&read, written, length), number, out[0], "reading members", path)) continue;
        same(read.point_count == out[0] && read.member_count == out[1] && read.point_count == n && read.member_count == count, "how many members were read", path);
        same(!memcmp(member_x, flat_member_x, sizeof member_x) && !memcmp(member_y, flat_member_y, sizeof member_y) && !memcmp(lengths, flat_lengths, sizeof lengths), "the members", path);
        mt_lines_room lines = {line_ends[0], line_ends[1], line_ends[2], line_ends[3], LINES, 0};
        number = mt_lines_of_members(flat_member_x, n, flat_member_y, n, flat_lengths, count, flat_line_ends[0], LINES, flat_line_ends[1], LINES, flat_line_ends[2], LINES,
                                     flat_line_ends[3], LINES, out, 1);
        if (!alike(mt_members_lines(&read, &lines), number, out[0], "lines of members", path)) continue;
        same(lines.count == out[0] && lines.count == n - count && mt_lines_in(&lines).count == lines.count && mt_lines_in(&lines).end_y == line_ends[3], "how many lines members have", path);
        same(!memcmp(line_ends, flat_line_ends, sizeof line_ends), "the lines of members", path);
        clean(&read, path);
    }
}

/* The first line turned round, and one that is far off. */
static void push(mt_tables *tables, const mt_lines *lines, const uint64_t *built, uint32_t mode, const char *path) {
    if (lines->count == 0 || lines->count == LINES) return;
    const double turned[4] = {lines->end_x[0], lines->end_y[0], lines->start_x[0], lines->start_y[0]}, far[4] = {1e9, 1e9, 1e9, 1e9};
    uint64_t out[3];
    uint32_t number = mt_add_line(built, 6, mode, far[0], far[1], far[2], far[3], lines->count, flat_offsets, MT_MAX_OFFSETS, flat_items, ITEMS, flat_globals,
                                  LINES, built[7], flat_scratch, MT_SCRATCH, out, 3);
    alike(mt_tables_push(tables, far, mode), number, out[0], "a line far off", path);
    same(tables->line_count == lines->count && tables->item_count == built[6] && tables->global_count == built[7], "what a line far off leaves", path);
    number = mt_add_line(built, 6, mode, turned[0], turned[1], turned[2], turned[3], lines->count, flat_offsets, MT_MAX_OFFSETS, flat_items, ITEMS, flat_globals,
                         LINES, built[7], flat_scratch, MT_SCRATCH, out, 3);
    if (!alike(mt_tables_push(tables, turned, mode), number, out[0], "a line added", path)) return;
    same(tables->line_count == lines->count + 1 && tables->item_count == out[0] && tables->global_count == out[1], "what a line added answers", path);
    same(!memcmp(offsets, flat_offsets, sizeof offsets) && !memcmp(items, flat_items, sizeof items) && !memcmp(globals, flat_globals, sizeof globals), "the tables with a line added", path);
    same(mt_tables_check(tables).number == MT_OK, "the fit of the tables with a line added", path);
    static uint32_t counts[MT_MAX_BLOCKS], flat_counts[MT_MAX_BLOCKS];
    mt_blocks blocks = {counts, MT_MAX_BLOCKS, 0, {0, 0, 0, 0, 0, 0}};
    if (lines->count + 1 == LINES || !alike(mt_tables_blocks(tables, &blocks), MT_OK, 0, "a summary with a line added", path)) return;
    memcpy(flat_counts, counts, sizeof counts);
    number = mt_add_line_blocks(built, 6, mode, turned[0], turned[1], turned[2], turned[3], lines->count + 1, flat_offsets, MT_MAX_OFFSETS, flat_items, ITEMS,
                                flat_globals, LINES, out[1], flat_counts, MT_MAX_BLOCKS, flat_scratch, MT_SCRATCH, out, 3);
    if (!alike(mt_tables_push_blocks(tables, turned, mode, &blocks), number, out[0], "a line added with a summary", path)) return;
    same(tables->line_count == lines->count + 2 && tables->item_count == out[0] && tables->global_count == out[1], "what that answers", path);
    same(!memcmp(items, flat_items, sizeof items) && !memcmp(counts, flat_counts, sizeof counts), "tables and summary with a line added", path);
}

static void build(const mt_lines *lines, const mt_points *points, uint32_t sizing, uint32_t mode, const char *path) {
    const size_t n = lines->count;
    uint64_t built[8];
    mt_tables tables;
    memset(&tables, 0, sizeof tables);
    tables.offsets = offsets, tables.offset_room = MT_MAX_OFFSETS;
    tables.items = items, tables.item_room = ITEMS;
    tables.globals = globals, tables.global_room = LINES;
    tables.scratch = scratch, tables.scratch_room = MT_SCRATCH;
    uint32_t number = mt_build(lines->start_x, n, lines->start_y, n, lines->end_x, n, lines->end_y, n, sizing, mode, flat_offsets, MT_MAX_OFFSETS, flat_items,
                               ITEMS, flat_globals, LINES, flat_scratch, MT_SCRATCH, built, 8);
    if (!alike(mt_tables_build(&tables, lines, sizing, mode), number, number < MT_OUT_SHORT ? built[0] : 0, "a build", path)) return;
    uint64_t words[6];
    mt_grid_words(&tables.grid, words);
    same(!memcmp(words, built, sizeof words) && tables.item_count == built[6] && tables.global_count == built[7] && tables.line_count == n, "what a build answers", path);
    same(!memcmp(offsets, flat_offsets, sizeof offsets) && !memcmp(items, flat_items, sizeof items) && !memcmp(globals, flat_globals, sizeof globals), "the tables", path);
    same(mt_tables_check(&tables).number == MT_OK, "the tables' fit", path);
    visit(&tables, lines, built, path);
    ask(&tables, lines, built, path);
    visit_places(&tables, lines, built, path);
    visit_from(&tables, lines, built, path);
    visit_once(&tables, lines, built, path);
    cross(&tables, lines, built, path);
    on_grid(&tables, points, built, path);
    by_blocks(&tables, built, path);
    push(&tables, lines, built, mode, path);
    tables.grid.cols = 4005;
    same(mt_tables_check(&tables).number == MT_UNFIT_GRID, "the fit of a grid of 4,005 columns", path);
}

int main(int argc, char **argv) {
    for (int i = 1; i < argc; i++) {
        FILE *file = fopen(argv[i], "rb");
        if (!file) {
            printf("structs: %s can't be read\n", argv[i]);
            return 2;
        }
        size_t length = fread(bytes, 1, BYTES, file);
        fclose(file);
        uint64_t out[1];
        mt_points points = {x, y, MT_MAX_POINTS, 0};
        uint32_t number = mt_read_line_string(bytes, length, flat_x, MT_MAX_POINTS, flat_y, MT_MAX_POINTS, out, 1);
        if (!alike(mt_points_read(&points, bytes, length), number, out[0], "the reader", argv[i])) continue;
        same(points.count == out[0] && !memcmp(x, flat_x, sizeof x) && !memcmp(y, flat_y, sizeof y), "the points", argv[i]);
        mt_lines lines = mt_lines_chain(x, y, points.count);
        same(lines.count == points.count - 1, "the lines", argv[i]);
        for (uint32_t sizing = MT_SQUARE; sizing <= MT_AXES; sizing++) {
            for (uint32_t mode = MT_RUST; mode <= MT_COVERING; mode++) {
                build(&lines, &points, sizing, mode, argv[i]);
                share(&lines, sizing, mode, argv[i]);
            }
        }
        build(&lines, &points, 99, MT_RUST, argv[i]);
        share(&lines, 99, MT_RUST, argv[i]);
        members(&points, argv[i]);
    }
    same(mt_lines_chain(x, y, 0).count == 0, "a chain of no points", "no file");
    for (uint32_t number = 1; number <= MT_OFF_GRID; number++) same(strcmp(mt_message(number), mt_message(MT_OK)) != 0 && strcmp(mt_message(number), mt_message(99)) != 0, "a message", "no file");
    same(MT_VERSION_AT_LEAST(MT_VERSION_MAJOR, MT_VERSION_MINOR, MT_VERSION_PATCH) && MT_VERSION_AT_LEAST(0, 1, 9) && !MT_VERSION_AT_LEAST(MT_VERSION_MAJOR + 1, 0, 0), "the version", "no file");
    printf("structs: %lu answers held to those of the flat functions\n", held);
    return 0;
}
