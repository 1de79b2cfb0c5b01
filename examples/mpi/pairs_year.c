/* pairs_year [LINES [WALK]]: the pairs of lines that may cross, each once, of more lines than one machine's tables take. LINES legs of years on a bench
 * (70,080, one year) lie on the ranks, each with a stretch of them; WALK is the mode of walk, the covering one where none is named: in it two lines that
 * share a point have a cell in common, on any grid that is fit (`common` in crates/cover/proofs/Laws.antt), or one of them is global; so none is lost.
 *
 * 1. Bounds of all lines, by MPI_Allreduce, give every rank the same grid.
 * 2. The rows of the grid are cut into bands, one for each rank, of about as many items. Each line is sent to the ranks whose bands its cells touch.
 * 3. A rank makes tables of its lines on the agreed grid and visits the cells of its band by the library's batches, from the bookmark of its first cell to
 *    that of its last. A pair is taken at the first cell that lists both lines: that cell lies in one band alone, so over all ranks each pair comes once.
 * 4. More lines than 65,536: the band is cut in two, down to one row. A row with more goes by parts of 32,768 lines, two at a time: a pair of different
 *    parts comes where the two parts meet, one within a part where the part stands alone.
 * 5. A global line has no cell. Every rank has all of them, and tests each with the lines whose first cell lies in its own band, and rank 0 tests them with
 *    each other. So these pairs come once too.
 *
 * Printed are how many pairs there are whose boxes overlap, and a sum over them that does not depend on their order: for one number of lines both are
 * the same with any number of ranks. Up to 8,192 lines rank 0 also goes through all pairs, and compares. The exit status is 0; 1 where
 * the library refuses, or the two differ. `tools/run_benches` runs it. */
#include "morelturret.h"
#include <inttypes.h>
#include <math.h>
#include <mpi.h>
#include <stdio.h>
#include <stdlib.h>
#include <string.h>

/* The most lines that a table takes, and the most cells of a line that is not global. With less of both (-DMOST=200 -DMOST_CELLS=30) few lines are enough to
 * try how bands and rows are cut up, and global lines. */
#ifndef MOST
#define MOST 65536
#endif
#ifndef MOST_CELLS
#define MOST_CELLS 2048
#endif
enum { PART = MOST / 2, SCRATCH = 16384, CHECKED = 8192, BATCH = 1 << 20 };

/* A line with its number among all lines, and the first and the last row that its cells touch. */
typedef struct {
    double at[4];
    uint64_t number;
    uint32_t first_row, last_row;
} Line;

typedef struct {
    Line *all;
    size_t count, room;
} Lines;

static int rank, ranks;
static uint64_t grid[6];
static uint32_t walk = MT_COVERING, cols, rows, scratch[SCRATCH];

/* What was found: pairs, their order-free sum, tests, items, lines sent. */
static uint64_t found[5];
enum { PAIRS, SUM, TESTS, ITEMS, SENT };

static void passed(const char *what, uint32_t number, uint64_t value) {
    if (number == MT_OK) return;
    fprintf(stderr, "pairs_year: rank %d: %s is refused by %" PRIu32 ", value %" PRIu64 "\n", rank, what, number, value);
    MPI_Abort(MPI_COMM_WORLD, 1);
}

static void *room(void *old, size_t count, size_t size) {
    void *memory = realloc(old, (count ? count : 1) * size);
    if (!memory) {
        fprintf(stderr, "pairs_year: rank %d: no memory\n", rank);
        MPI_Abort(MPI_COMM_WORLD, 1);
    }
    return memory;
}

static void put(Lines *lines, Line line) {
    if (lines->count == lines->room) lines->all = room(lines->all, lines->room = lines->room * 2 + 64, sizeof(Line));
    lines->all[lines->count++] = line;
}

static uint64_t mixed(uint64_t v) {
    v = (v ^ v >> 30) * UINT64_C(0xbf58476d1ce4e5b9);
    v = (v ^ v >> 27) * UINT64_C(0x94d049bb133111eb);
    return v ^ v >> 31;
}

/* Sample i of years on a bench, 70,080 legs each: orbits of 12 legs that loop through temperature and frequency, and drift. */
static void sample(uint64_t i, double *x, double *y) {
    const double turn = 6.283185307179586, year = 70080.0;
    double noise[2];
    for (uint64_t k = 0; k < 2; k++) noise[k] = ((double)(mixed(2 * i + k + 1) >> 11) / 9007199254740992.0 - 0.5) * 8.0 / sqrt(year);
    double phase = (double)i / 12.0 * turn, season = (double)i / year * turn;
    *x = 281.0 + (8.0 + 2.0 * cos(season)) * cos(phase) + 3.0 * sin(season) + noise[0];
    *y = 36.0 + 6.0 * cos(phase - 0.35 - 0.1 * sin(season)) + 14.0 * (double)i / year + noise[1];
}

static int boxes_overlap(const Line *a, const Line *b) {
    for (int k = 0; k < 2; k++) {
        if (fmax(a->at[k], a->at[k + 2]) < fmin(b->at[k], b->at[k + 2]) || fmax(b->at[k], b->at[k + 2]) < fmin(a->at[k], a->at[k + 2])) return 0;
    }
    return 1;
}

static void hand_out(const Line *a, const Line *b) {
    uint64_t low = a->number < b->number ? a->number : b->number, high = a->number < b->number ? b->number : a->number;
    found[PAIRS]++;
    found[SUM] += mixed(low * UINT64_C(0x9e3779b97f4a7c15) + mixed(high));
}

/* The cells of a line, at the start of the scratch. */
static size_t cells_of(const Line *line) {
    uint64_t out[1];
    passed("a walk", mt_segment_cells(grid, 6, line->at[0], line->at[1], line->at[2], line->at[3], walk, scratch, SCRATCH, out, 1), out[0]);
    return (size_t)out[0];
}

/* A pair is taken at the first cell that lists both lines. A visit makes the tests of a cell one after another and goes through the cells in order, so that
 * among the pairs that are handed out those at a first cell come in the order of that cell and of their places in it; a pair that was taken comes again with
 * a first cell and places that are not after those of the last one taken. So: taken is what comes after the last one taken, and has its first cell in the
 * band. `starts` and `listing` are the cells of each line, over all rows, and `place` has for each line the first of its cells from the last first cell on. */
typedef struct {
    const uint32_t *starts, *listing;
    uint32_t *place;
    size_t least, cell, first, second;
    int any;
} Taking;

static int taken(Taking *t, uint32_t a, uint32_t b) {
    uint32_t p = t->place[a], q = t->place[b];
    while (p < t->starts[a + 1] && t->listing[p] < t->cell) p++;
    while (q < t->starts[b + 1] && t->listing[q] < t->cell) q++;
    t->place[a] = p, t->place[b] = q;
    /* a common cell before: pairs that share a cell mostly share the one before it, so that one is soon found */
    for (uint32_t i = p, j = q; i > t->starts[a] && j > t->starts[b];) {
        if (t->listing[i - 1] == t->listing[j - 1]) return 0;
        t->listing[i - 1] > t->listing[j - 1] ? i-- : j--;
    }
    while (t->listing[p] != t->listing[q]) t->listing[p] < t->listing[q] ? p++ : q++;
    size_t cell = t->listing[p];
    if (cell < t->least || (t->any && cell == t->cell && (a < t->first || (a == t->first && b <= t->second)))) return 0;
    t->cell = cell, t->first = a, t->second = b, t->any = 1;
    return 1;
}

/* The pairs at the cells of rows [from, to), of at most 65,536 lines. Where `apart` is not 0, only those of one line below that place and one from it on. */
static void pairs_of(const Line *lines, size_t count, uint32_t from, uint32_t to, size_t apart) {
    static uint32_t *offsets, *band, *items, *listing, *firsts, *seconds, globals[1];
    static size_t items_room;
    size_t cells = (size_t)cols * rows;
    if (!offsets) {
        offsets = room(NULL, cells + 1, sizeof *offsets), band = room(NULL, cells + 1, sizeof *band);
        firsts = room(NULL, BATCH, sizeof *firsts), seconds = room(NULL, BATCH, sizeof *seconds);
    }
    double *at[4];
    for (int k = 0; k < 4; k++) {
        at[k] = room(NULL, count, sizeof(double));
        for (size_t i = 0; i < count; i++) at[k][i] = lines[i].at[k];
    }
    uint64_t out[3];
    for (;;) {
        uint32_t number = mt_tables_on(at[0], count, at[1], count, at[2], count, at[3], count, grid, 6, walk, offsets, cells + 1, items, items_room, globals, 0,
                                       scratch, SCRATCH, out, 2);
        if (number == MT_OK) break;
        if (number != MT_SHORT_ITEMS) passed("a table", number, out[0]);
        items_room = (size_t)out[0] + (size_t)out[0] / 4;
        items = room(items, items_room, sizeof *items), listing = room(listing, items_room, sizeof *listing);
    }
    found[ITEMS] += out[0];
    uint32_t *starts = room(NULL, count + 1, sizeof *starts), *place = room(NULL, count + 1, sizeof *place);
    passed("the lists by line", mt_lists_by_line(grid, 6, count, offsets, cells + 1, items, items_room, globals, 0, 0, starts, count + 1, listing, items_room, out, 1), out[0]);
    memcpy(place, starts, (count + 1) * sizeof *place);
    Taking taking = {.starts = starts, .listing = listing, .place = place, .least = (size_t)from * cols, .cell = (size_t)from * cols};

    /* The visit goes from the bookmark of the band's first cell to that of its last: in tables in which the other cells list nothing that is the whole. */
    uint32_t base = offsets[(size_t)from * cols], top = offsets[(size_t)to * cols];
    for (size_t c = 0; c <= cells; c++) band[c] = (offsets[c] < base ? base : offsets[c] > top ? top : offsets[c]) - base;
    for (uint64_t bookmark = 0;;) {
        passed("a visit", mt_batch(grid, 6, at[0], count, at[1], count, at[2], count, at[3], count, band, cells + 1, items + base, top - base, globals, 0, 0, bookmark,
                                   firsts, BATCH, seconds, BATCH, out, 3), out[0]);
        if (out[0] == 0) break;
        found[TESTS] += out[0];
        for (size_t k = 0; k < out[1]; k++) {
            uint32_t a = firsts[k], b = seconds[k];
            if (apart && (a < apart) == (b < apart)) continue;
            if (taken(&taking, a, b)) hand_out(&lines[a], &lines[b]);
        }
        bookmark = out[2];
    }
    for (int k = 0; k < 4; k++) free(at[k]);
    free(starts);
    free(place);
}

/* The pairs at the cells of rows [from, to), of any number of lines: 4 above. */
static void pairs_in(const Line *lines, size_t count, uint32_t from, uint32_t to) {
    if (from >= to) return;
    if (count <= MOST) {
        pairs_of(lines, count, from, to, 0);
        return;
    }
    if (to - from > 1) {
        uint32_t middle = from + (to - from) / 2;
        for (int half = 0; half < 2; half++) {
            uint32_t low = half ? middle : from, high = half ? to : middle;
            Lines touching = {0};
            for (size_t i = 0; i < count; i++) {
                if (lines[i].first_row < high && lines[i].last_row >= low) put(&touching, lines[i]);
            }
            pairs_in(touching.all, touching.count, low, high);
            free(touching.all);
        }
        return;
    }
    Line *two = room(NULL, MOST, sizeof *two);
    for (size_t a = 0; a < count; a += PART) {
        size_t first = count - a < PART ? count - a : PART;
        pairs_of(lines + a, first, from, to, 0);
        memcpy(two, lines + a, first * sizeof *two);
        for (size_t b = a + PART; b < count; b += PART) {
            size_t second = count - b < PART ? count - b : PART;
            memcpy(two + first, lines + b, second * sizeof *two);
            pairs_of(two, first + second, from, to, first);
        }
    }
    free(two);
}

/* All pairs that share a cell, or of which one is global, and whose boxes overlap, one by one. */
static void all_pairs(const Line *lines, size_t count, uint64_t sum[2]) {
    size_t *starts = room(NULL, count + 1, sizeof *starts);
    uint32_t *cells = NULL;
    starts[0] = 0;
    for (size_t i = 0; i < count; i++) {
        size_t n = cells_of(&lines[i]);
        starts[i + 1] = starts[i] + n;
        cells = room(cells, starts[i + 1], sizeof *cells);
        memcpy(cells + starts[i], scratch, n * sizeof *cells);
    }
    uint64_t kept[2] = {found[PAIRS], found[SUM]};
    found[PAIRS] = found[SUM] = 0;
    for (size_t a = 0; a < count; a++) {
        for (size_t b = a + 1; b < count; b++) {
            if (!boxes_overlap(&lines[a], &lines[b])) continue;
            int together = starts[a + 1] - starts[a] > MOST_CELLS || starts[b + 1] - starts[b] > MOST_CELLS;
            size_t p = starts[a], q = starts[b];
            while (!together && p < starts[a + 1] && q < starts[b + 1]) {
                together = cells[p] == cells[q];
                cells[p] < cells[q] ? p++ : q++;
            }
            if (together) hand_out(&lines[a], &lines[b]);
        }
    }
    sum[0] = found[PAIRS], sum[1] = found[SUM];
    found[PAIRS] = kept[0], found[SUM] = kept[1];
    free(starts);
    free(cells);
}

int main(int argc, char **argv) {
    MPI_Init(&argc, &argv);
    MPI_Comm_rank(MPI_COMM_WORLD, &rank);
    MPI_Comm_size(MPI_COMM_WORLD, &ranks);
    uint64_t total = argc > 1 ? strtoull(argv[1], NULL, 10) : 70080;
    if (argc > 2) walk = (uint32_t)strtoul(argv[2], NULL, 10);
    double begun = MPI_Wtime();

    /* 1. This rank's stretch of the lines, and the grid. */
    uint64_t first = total * (uint64_t)rank / (uint64_t)ranks, last = total * (uint64_t)(rank + 1) / (uint64_t)ranks;
    Lines own = {0};
    double low[2] = {1e9, 1e9}, high[2] = {-1e9, -1e9};
    for (uint64_t i = first; i < last; i++) {
        Line line = {.number = i};
        sample(i, &line.at[0], &line.at[1]);
        sample(i + 1, &line.at[2], &line.at[3]);
        for (int k = 0; k < 4; k++) low[k % 2] = fmin(low[k % 2], line.at[k]), high[k % 2] = fmax(high[k % 2], line.at[k]);
        put(&own, line);
    }
    MPI_Allreduce(MPI_IN_PLACE, low, 2, MPI_DOUBLE, MPI_MIN, MPI_COMM_WORLD);
    MPI_Allreduce(MPI_IN_PLACE, high, 2, MPI_DOUBLE, MPI_MAX, MPI_COMM_WORLD);
    passed("the grid", mt_agreed_grid(low[0], low[1], high[0], high[1], (size_t)total, MT_SQUARE, grid, 6), grid[0]);
    cols = (uint32_t)grid[4], rows = (uint32_t)grid[5];

    /* 2. The rows of each line; how many items each row has; bands of about as many. */
    Lines global = {0}, local = {0};
    uint64_t *in_row = room(NULL, (size_t)rows + 1, sizeof *in_row);
    memset(in_row, 0, ((size_t)rows + 1) * sizeof *in_row);
    for (size_t i = 0; i < own.count; i++) {
        Line line = own.all[i];
        size_t n = cells_of(&line);
        if (n == 0) continue;
        line.first_row = scratch[0] / cols, line.last_row = scratch[n - 1] / cols;
        for (size_t k = 0; n <= MOST_CELLS && k < n; k++) in_row[scratch[k] / cols]++;
        put(n > MOST_CELLS ? &global : &local, line);
    }
    MPI_Allreduce(MPI_IN_PLACE, in_row, (int)rows, MPI_UINT64_T, MPI_SUM, MPI_COMM_WORLD);
    uint64_t items = 0, so_far = 0;
    for (uint32_t k = 0; k < rows; k++) items += in_row[k];
    uint32_t *bands = room(NULL, (size_t)ranks + 1, sizeof *bands);
    int band = 0;
    bands[0] = 0;
    for (uint32_t k = 0; k < rows; k++) {
        while (band + 1 < ranks && so_far >= items * (uint64_t)(band + 1) / (uint64_t)ranks) bands[++band] = k;
        so_far += in_row[k];
    }
    while (band < ranks) bands[++band] = rows;

    /* Each line to the ranks whose bands it touches. MPI counts in lines: a rank can send and be sent 2^31 - 1 of them. */
    MPI_Datatype of_line;
    MPI_Type_contiguous((int)sizeof(Line), MPI_BYTE, &of_line);
    MPI_Type_commit(&of_line);
    int *sizes = room(NULL, 4 * (size_t)ranks, sizeof *sizes), *starts = sizes + ranks, *coming = starts + ranks, *places = coming + ranks;
    Lines *going = room(NULL, (size_t)ranks, sizeof *going), sent = {0};
    memset(going, 0, (size_t)ranks * sizeof *going);
    for (size_t i = 0; i < local.count; i++) {
        for (int k = 0; k < ranks; k++) {
            if (local.all[i].first_row < bands[k + 1] && local.all[i].last_row >= bands[k]) put(&going[k], local.all[i]);
        }
    }
    for (int k = 0; k < ranks; k++) {
        starts[k] = (int)sent.count, sizes[k] = (int)going[k].count;
        for (size_t i = 0; i < going[k].count; i++) put(&sent, going[k].all[i]);
        if (k != rank) found[SENT] += going[k].count;
        free(going[k].all);
    }
    MPI_Alltoall(sizes, 1, MPI_INT, coming, 1, MPI_INT, MPI_COMM_WORLD);
    int come = 0;
    for (int k = 0; k < ranks; k++) places[k] = come, come += coming[k];
    Lines mine = {room(NULL, (size_t)come, sizeof(Line)), (size_t)come, 0};
    MPI_Alltoallv(sent.all, sizes, starts, of_line, mine.all, coming, places, of_line, MPI_COMM_WORLD);
    /* All global lines to every rank. */
    int here = (int)global.count;
    MPI_Allgather(&here, 1, MPI_INT, coming, 1, MPI_INT, MPI_COMM_WORLD);
    for (int k = come = 0; k < ranks; k++) places[k] = come, come += coming[k];
    Lines globals = {room(NULL, (size_t)come, sizeof(Line)), (size_t)come, 0};
    MPI_Allgatherv(global.all, here, of_line, globals.all, coming, places, of_line, MPI_COMM_WORLD);
    MPI_Type_free(&of_line);
    double dealt = MPI_Wtime();

    /* 3 and 4. The pairs of this band. 5. Those of global lines. */
    pairs_in(mine.all, mine.count, bands[rank], bands[rank + 1]);
    for (size_t k = 0; k < globals.count; k++) {
        for (size_t i = 0; i < mine.count; i++) {
            int home = mine.all[i].first_row >= bands[rank] && mine.all[i].first_row < bands[rank + 1];
            if (home && boxes_overlap(&globals.all[k], &mine.all[i])) hand_out(&globals.all[k], &mine.all[i]);
        }
        for (size_t i = k + 1; rank == 0 && i < globals.count; i++) {
            if (boxes_overlap(&globals.all[k], &globals.all[i])) hand_out(&globals.all[k], &globals.all[i]);
        }
    }
    double done = MPI_Wtime(), times[2] = {dealt - begun, done - dealt}, longest[2];
    uint64_t all[5];
    MPI_Reduce(found, all, 5, MPI_UINT64_T, MPI_SUM, 0, MPI_COMM_WORLD);
    MPI_Reduce(times, longest, 2, MPI_DOUBLE, MPI_MAX, 0, MPI_COMM_WORLD);
    int same = 1;
    if (rank == 0) {
        printf("lines %" PRIu64 ", grid %" PRIu32 " by %" PRIu32 ", global lines %zu, pairs %" PRIu64 ", their sum %016" PRIx64 "\n", total, cols, rows, globals.count, all[PAIRS], all[SUM]);
        if (total <= CHECKED) {
            Lines every = {0};
            uint64_t wanted[2];
            for (uint64_t i = 0; i < total; i++) {
                Line line = {.number = i};
                sample(i, &line.at[0], &line.at[1]);
                sample(i + 1, &line.at[2], &line.at[3]);
                put(&every, line);
            }
            all_pairs(every.all, every.count, wanted);
            same = wanted[0] == all[PAIRS] && wanted[1] == all[SUM];
            printf("by all pairs, one by one: %s\n", same ? "the same" : "different");
        }
        fprintf(stderr, "pairs_year: ranks %d, walk %" PRIu32 ": items %" PRIu64 ", tests %" PRIu64 ", lines sent %" PRIu64 " (%" PRIu64 " bytes); dealt in %.2f s, paired in %.2f s\n",
                ranks, walk, all[ITEMS], all[TESTS], all[SENT], all[SENT] * (uint64_t)sizeof(Line), longest[0], longest[1]);
    }
    MPI_Finalize();
    return same ? 0 : 1;
}
