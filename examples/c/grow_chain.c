/* grow_chain FILE DAY: a chain of points built to one day, then grown line by line.
 *
 * FILE holds one LineString in well-known binary. Consecutive points make lines, numbered from 0. The first DAY lines are built, by the covering walk; each
 * further line is added to the standing tables. Where a line leaves the grid, which is refused by 14, the lines up to it are built anew. Printed are the tables
 * after each build and at the end, with the tests of a full visit, and each line that left the grid.
 * The exit status is 0; 1 where the library refuses otherwise, which is printed with its number and value; 2 where the words are not as above, FILE can't be
 * read or standard output can't be written.
 *
 * To build it by hand, at the top of the repository:
 *   tools/build_library
 *   cc -O2 -Itarget/library examples/c/grow_chain.c target/library/libmorelturret.a -o grow_chain
 * `tools/run_examples` does that, and runs it beside bindings/rust/examples/grow_chain.rs, which prints the same. */
#include "morelturret_structs.h"
#include <inttypes.h>
#include <stdio.h>
#include <stdlib.h>

/* What one LineString can hold, and what is enough for every build of so many lines. All memory is the caller's. */
enum { LINES = MT_MAX_POINTS - 1, BYTES = 9 + 16 * MT_MAX_POINTS + 1, ITEMS = MT_MAX_ITEMS_OF_LINE * LINES };

static uint8_t bytes[BYTES];
static double x[MT_MAX_POINTS], y[MT_MAX_POINTS];
static uint32_t offsets[MT_MAX_OFFSETS], items[ITEMS], globals[LINES], scratch[MT_SCRATCH];

static int ended(int status) {
    if (fflush(stdout) == 0 && !ferror(stdout)) return status;
    fprintf(stderr, "grow_chain: standard output can't be written\n");
    return 2;
}

static int refused(mt_refusal refusal) {
    printf("refused %" PRIu32 ", value %" PRIu64 "\n", refusal.number, refusal.value);
    return ended(1);
}

static mt_refusal show(const char *what, const mt_tables *t) {
    mt_cost cost = {0, 0};
    mt_refusal refusal = mt_tables_cost(t, &cost);
    if (refusal.number == MT_OK)
        printf("%s %zu lines, %" PRIu32 " by %" PRIu32 " cells, %zu items, %zu globals, %" PRIu64 " tests\n", what, t->line_count, t->grid.cols, t->grid.rows,
               t->item_count, t->global_count, cost.tests);
    return refusal;
}

int main(int argc, char **argv) {
    char *end = NULL;
    unsigned long day = argc == 3 ? strtoul(argv[2], &end, 10) : 0;
    if (!end || end == argv[2] || *end) {
        fprintf(stderr, "grow_chain: a FILE, which is a LineString in well-known binary, and a number of lines are needed: DAY\n");
        return 2;
    }
    FILE *file = fopen(argv[1], "rb");
    size_t length = file ? fread(bytes, 1, BYTES, file) : 0;
    if (!file || ferror(file)) {
        fprintf(stderr, "grow_chain: %s can't be read\n", argv[1]);
        return 2;
    }
    fclose(file);
    mt_points points = {x, y, MT_MAX_POINTS, 0};
    mt_refusal refusal = mt_points_read(&points, bytes, length);
    if (refusal.number != MT_OK) return refused(refusal);
    size_t all = points.count - 1, first = day < all ? day : all;

    mt_tables tables;
    memset(&tables, 0, sizeof tables);
    tables.offsets = offsets, tables.offset_room = MT_MAX_OFFSETS;
    tables.items = items, tables.item_room = ITEMS;
    tables.globals = globals, tables.global_room = LINES;
    tables.scratch = scratch, tables.scratch_room = MT_SCRATCH;
    mt_lines lines = mt_lines_chain(x, y, first + 1);
    refusal = mt_tables_build(&tables, &lines, MT_SQUARE, MT_COVERING);
    if (refusal.number == MT_OK) refusal = show("built", &tables);
    for (size_t i = first; i < all && refusal.number == MT_OK; i++) {
        const double line[4] = {x[i], y[i], x[i + 1], y[i + 1]};
        refusal = mt_tables_push(&tables, line, MT_COVERING);
        /* the tables of no lines have no cells, and those of some may end before this line does */
        if (refusal.number == MT_OUTSIDE_GRID || refusal.number == MT_UNFIT_GRID) {
            printf("line %zu is outside\n", i);
            lines = mt_lines_chain(x, y, i + 2);
            refusal = mt_tables_build(&tables, &lines, MT_SQUARE, MT_COVERING);
            if (refusal.number == MT_OK) refusal = show("built", &tables);
        }
    }
    if (refusal.number == MT_OK) refusal = show("grown", &tables);
    return refusal.number == MT_OK ? ended(0) : refused(refusal);
}
