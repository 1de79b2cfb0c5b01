/* visit_chain [--sizing square|axes] [--walk rust|sided|covering] FILE: from a chain of points to the pairs of lines that may cross, by the structs of
 * morelturret_structs.h.
 *
 * FILE holds one LineString in well-known binary. Consecutive points make lines, numbered from 0. Printed are the grid that the library picks for
 * them, how long its tables are, how many tests a whole visit makes, how many of them found two lines whose boxes overlap, and the first such pairs.
 * The grid's cells are square, or, by `--sizing axes`, as wide and as high as each axis by itself asks for. On a boundary the walk adds the cells
 * that the Rust adds, or, by `--walk sided`, those across it; `--walk covering` misses no two with a common point.
 * The exit status is 0; 1 where the library refuses, which is printed with its number and value; 2 where FILE can't be read or standard
 * output can't be written.
 *
 * To build it by hand, at the top of the repository:
 *   tools/build_library
 *   cc -O2 -Itarget/library examples/c/visit_chain.c target/library/libmorelturret.a -o visit_chain
 * `tools/run_examples` does that, and runs it beside bindings/rust/examples/visit_chain.rs, which prints the same. */
#include "morelturret_structs.h"
#include <inttypes.h>
#include <stdio.h>
#include <string.h>

/* The reader takes so many points; its slices have room for all of them. */
enum { LINES = MT_MAX_POINTS - 1 };

/* 9 bytes of byte order, type and count, 16 for each point, and one more: so a byte after the last point is seen, and refused. */
enum { BYTES = 9 + 16 * MT_MAX_POINTS + 1 };

/* What is enough for every build of so many lines. The library allocates nothing: all memory is the caller's. */
enum { ITEMS = MT_MAX_ITEMS_OF_LINE * LINES };

/* How many pairs one batch hands out, and how many are printed. */
enum { BATCH = 256, SHOWN = 5 };

static uint8_t bytes[BYTES];
static double x[MT_MAX_POINTS], y[MT_MAX_POINTS];
static uint32_t offsets[MT_MAX_OFFSETS], items[ITEMS], globals[LINES], scratch[MT_SCRATCH];
static uint32_t first[BATCH], second[BATCH];

/* The status to end with. A stream keeps a mark of each write that failed, and what it still holds back is written now: so one look at the end
 * tells whether all of it was written, on a full disk too. */
static int ended(int status) {
    if (fflush(stdout) == 0 && !ferror(stdout)) return status;
    fprintf(stderr, "visit_chain: standard output can't be written\n");
    return 2;
}

/* Every function that can refuse returns a number and a value; the number is MT_OK where nothing was refused. mt_message has its sentence. */
static int refused(mt_refusal refusal) {
    printf("refused %" PRIu32 ", value %" PRIu64 "\n", refusal.number, refusal.value);
    return ended(1);
}

/* Whether a word is one of two; then 0 or 1 stands in *which. */
static int either(const char *word, const char *first, const char *second, uint32_t *which) {
    *which = strcmp(word, second) == 0;
    return *which || strcmp(word, first) == 0;
}

/* Whether the word names a walk, which then stands in *mode. */
static int walk_of(const char *word, uint32_t *mode) {
    if (strcmp(word, "covering") == 0) {
        *mode = MT_COVERING;
        return 1;
    }
    return either(word, "rust", "sided", mode);
}

/* Whether the words ask for one file, with options before it; then what they ask for stands in *sizing, *mode and *path. */
static int asked(int argc, char **argv, uint32_t *sizing, uint32_t *mode, const char **path) {
    *sizing = MT_SQUARE;
    *mode = MT_RUST;
    *path = argv[argc - 1];
    if (argc < 2 || argc % 2 != 0) return 0;
    for (int i = 1; i + 1 < argc; i += 2) {
        int known = strcmp(argv[i], "--sizing") == 0 ? either(argv[i + 1], "square", "axes", sizing)
                  : strcmp(argv[i], "--walk") == 0   ? walk_of(argv[i + 1], mode)
                                                     : 0;
        if (!known) return 0;
    }
    return 1;
}

int main(int argc, char **argv) {
    uint32_t sizing, mode;
    const char *path;
    if (!asked(argc, argv, &sizing, &mode, &path)) {
        fprintf(stderr, "visit_chain: [--sizing square|axes], [--walk rust|sided|covering] and one FILE are needed, a LineString in well-known binary\n");
        return 2;
    }

    /* 1. The bytes. */
    FILE *file = fopen(path, "rb");
    size_t length = file ? fread(bytes, 1, BYTES, file) : 0;
    if (!file || ferror(file)) {
        fprintf(stderr, "visit_chain: %s can't be read\n", path);
        return 2;
    }
    fclose(file);

    /* 2. Bytes to points. A struct points at memory that is lent, and says how much room there is. */
    mt_points points = {x, y, MT_MAX_POINTS, 0};
    mt_refusal refusal = mt_points_read(&points, bytes, length);
    if (refusal.number != MT_OK) return refused(refusal);

    /* 3. Points to lines: line i goes from point i to point i + 1. Nothing is copied. */
    mt_lines lines = mt_lines_chain(x, y, points.count);

    /* 4. A grid, and the tables on it: the list of cell c is items[offsets[c]] up to items[offsets[c + 1]]. */
    mt_tables tables = {0};
    tables.offsets = offsets, tables.offset_room = MT_MAX_OFFSETS;
    tables.items = items, tables.item_room = ITEMS;
    tables.globals = globals, tables.global_room = LINES;
    tables.scratch = scratch, tables.scratch_room = MT_SCRATCH;
    refusal = mt_tables_build(&tables, &lines, sizing, mode);
    if (refusal.number != MT_OK) return refused(refusal);
    const mt_grid *grid = &tables.grid;
    printf("lines %zu\n", lines.count);
    printf("grid %" PRIu32 " columns, %" PRIu32 " rows, cells %.9f by %.9f ", grid->cols, grid->rows, grid->cell_width, grid->cell_height);
    printf("(bits %016" PRIx64 " %016" PRIx64 ")\n", mt_bits_of(grid->cell_width), mt_bits_of(grid->cell_height));
    printf("items %zu\n", tables.item_count);
    printf("globals %zu\n", tables.global_count);

    /* 5. The visit, in batches of pairs. Lines and tables are checked once, at its start; the cursor is where the next batch starts. A batch that leaves
     * room came to the end. */
    mt_pairs_room pairs = {first, second, BATCH, 0};
    mt_cursor cursor;
    uint64_t tests = 0, overlaps = 0;
    uint32_t shown[SHOWN][2];
    refusal = mt_tables_start(&tables, &lines, 0, &cursor);
    if (refusal.number != MT_OK) return refused(refusal);
    do {
        refusal = mt_tables_next(&tables, &lines, &cursor, &pairs, &tests);
        if (refusal.number != MT_OK) return refused(refusal);
        /* This is where a program would work on its pairs. Here the first few are kept, to be printed. */
        for (size_t k = 0; k < pairs.count; k++) {
            if (overlaps + k < SHOWN) {
                shown[overlaps + k][0] = first[k];
                shown[overlaps + k][1] = second[k];
            }
        }
        overlaps += pairs.count;
    } while (pairs.count == pairs.room);

    printf("tests %" PRIu64 "\n", tests);
    printf("overlaps %" PRIu64 "\n", overlaps);
    for (uint64_t k = 0; k < overlaps && k < SHOWN; k++) printf("pair %" PRIu32 " %" PRIu32 "\n", shown[k][0], shown[k][1]);
    return ended(0);
}
