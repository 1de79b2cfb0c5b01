/* season FILE LOW_X LOW_Y HIGH_X HIGH_Y: the lines of one eclipse season, which is a window on a chain of points.
 *
 * FILE holds one LineString in well-known binary. Consecutive points make lines, numbered from 0. The tables are built once, by the covering walk;
 * then the library is asked for the lines that may enter the window. Printed are how many lines there are, how many of them were found, and each of those.
 * The exit status is 0; 1 where the library refuses, which is printed with its number and value; 2 where the words are not as above, FILE can't be read
 * or standard output can't be written.
 *
 * To build it by hand, at the top of the repository:
 *   tools/build_library
 *   cc -O2 -Itarget/library examples/c/season.c target/library/libmorelturret.a -o season
 * `tools/run_examples` does that, and runs it beside bindings/rust/examples/season.rs, which prints the same. */
#include "morelturret_structs.h"
#include <inttypes.h>
#include <stdio.h>
#include <stdlib.h>

/* What one LineString can hold, and what is enough for every build of so many lines. All memory is the caller's. */
enum { LINES = MT_MAX_POINTS - 1, BYTES = 9 + 16 * MT_MAX_POINTS + 1, ITEMS = MT_MAX_ITEMS_OF_LINE * LINES };

static uint8_t bytes[BYTES];
static double x[MT_MAX_POINTS], y[MT_MAX_POINTS];
static uint32_t offsets[MT_MAX_OFFSETS], items[ITEMS], globals[LINES], scratch[MT_SCRATCH], found[LINES];

static int ended(int status) {
    if (fflush(stdout) == 0 && !ferror(stdout)) return status;
    fprintf(stderr, "season: standard output can't be written\n");
    return 2;
}

static int refused(mt_refusal refusal) {
    printf("refused %" PRIu32 ", value %" PRIu64 "\n", refusal.number, refusal.value);
    return ended(1);
}

int main(int argc, char **argv) {
    double corner[4];
    for (int i = 0; i < 4; i++) {
        char *end = NULL;
        if (argc == 6) corner[i] = strtod(argv[i + 2], &end);
        if (!end || end == argv[i + 2] || *end) {
            fprintf(stderr, "season: a FILE, which is a LineString in well-known binary, and four numbers are needed: LOW_X LOW_Y HIGH_X HIGH_Y\n");
            return 2;
        }
    }
    FILE *file = fopen(argv[1], "rb");
    size_t length = file ? fread(bytes, 1, BYTES, file) : 0;
    if (!file || ferror(file)) {
        fprintf(stderr, "season: %s can't be read\n", argv[1]);
        return 2;
    }
    fclose(file);

    mt_points points = {x, y, MT_MAX_POINTS, 0};
    mt_refusal refusal = mt_points_read(&points, bytes, length);
    if (refusal.number != MT_OK) return refused(refusal);
    mt_lines lines = mt_lines_chain(x, y, points.count);

    mt_tables tables = {.offsets = offsets, .items = items, .globals = globals, .scratch = scratch, .offset_room = MT_MAX_OFFSETS,
                        .item_room = ITEMS, .global_room = LINES, .scratch_room = MT_SCRATCH};
    refusal = mt_tables_build(&tables, &lines, MT_SQUARE, MT_COVERING);
    if (refusal.number != MT_OK) return refused(refusal);
    printf("lines %zu\n", lines.count);

    size_t count = 0;
    refusal = mt_tables_window(&tables, &lines, corner, found, LINES, &count);
    if (refusal.number != MT_OK) return refused(refusal);
    printf("season %zu\n", count);
    for (size_t k = 0; k < count; k++) printf("line %" PRIu32 "\n", found[k]);
    return ended(0);
}
