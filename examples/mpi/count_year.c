/* count_year [LINES]: a year shared among benches. Rank 0 has LINES legs of a year (65,536, the most that one count takes) and deals them out; every rank
 * counts its share on one agreed grid, and MPI adds the count tables with an operation that calls the library. Rank 0 then counts all lines by itself
 * and holds the two tables to each other. However the lines are shared and in whichever order MPI adds, the sum is the table of a single count: that
 * is proved (`sharing` in crates/counts/proofs/Sharings.antt), and so is that no adding is refused.
 * The exit status is 0; 1 where the library refuses, or the two tables differ.
 *
 * `tools/run_benches N` builds it and runs it with N ranks on this machine. By hand, at the top of the repository:
 *   tools/build_library
 *   mpicc -O2 -Itarget/library examples/mpi/count_year.c target/library/libmorelturret.a -lm -o count_year
 *   mpirun -n 3 ./count_year                       # on this machine
 *   mpirun -n 64 --hostfile hosts ./count_year     # on the machines that the file hosts names, one to a line: "bench7 slots=8" */
#include "morelturret.h"
#include <inttypes.h>
#include <math.h>
#include <mpi.h>
#include <stdio.h>
#include <stdlib.h>
#include <string.h>

enum { MOST_LINES = 65536, SCRATCH = 16384 };

static int rank, ranks;

/* Every function that can refuse returns 0, or the number of the refusal, and then its value stands in out[0]. */
static void passed(const char *what, uint32_t number, uint64_t value) {
    if (number == MT_OK) return;
    fprintf(stderr, "count_year: rank %d: %s is refused by %" PRIu32 ", value %" PRIu64 "\n", rank, what, number, value);
    MPI_Abort(MPI_COMM_WORLD, 1);
}

static void *room(size_t count, size_t size) {
    void *memory = calloc(count ? count : 1, size);
    if (!memory) {
        fprintf(stderr, "count_year: rank %d: no memory\n", rank);
        MPI_Abort(MPI_COMM_WORLD, 1);
    }
    return memory;
}

/* MPI's operation: one part of a table into another of the same length. MPI may hand a table over in parts, in any order: adding goes entry by entry, and
 * is commutative and associative. */
static void added(void *from, void *into, int *length, MPI_Datatype *type) {
    uint64_t out[1];
    (void)type;
    passed("adding", mt_add(into, (size_t)*length, from, (size_t)*length, out, 1), out[0]);
}

/* The points of a year on a bench: orbits of 12 legs that loop through temperature and frequency, and drift. */
static void year(double *x, double *y, size_t lines) {
    const double turn = 6.283185307179586;
    uint64_t state = 1;
    for (size_t i = 0; i <= lines; i++) {
        double noise[2];
        for (int k = 0; k < 2; k++) {
            state = state * UINT64_C(6364136223846793005) + UINT64_C(1442695040888963407);
            noise[k] = ((double)(state >> 11) / 9007199254740992.0 - 0.5) * 8.0 / sqrt((double)lines + 64.0);
        }
        double phase = (double)i / 12.0 * turn, season = (double)i / (double)(lines ? lines : 1) * turn;
        x[i] = 281.0 + (8.0 + 2.0 * cos(season)) * cos(phase) + 3.0 * sin(season) + noise[0];
        y[i] = 36.0 + 6.0 * cos(phase - 0.35 - 0.1 * sin(season)) + 14.0 * season / turn + noise[1];
    }
}

/* Counts lines on the grid; the sum of all counts and the number of global lines go to numbers. */
static void count(const double *lines[4], size_t n, const uint64_t *grid, uint32_t *counts, size_t cells, uint64_t numbers[2]) {
    uint32_t *scratch = room(SCRATCH, sizeof *scratch);
    passed("counting", mt_count(lines[0], n, lines[1], n, lines[2], n, lines[3], n, grid, 6, MT_RUST, counts, cells + 1, scratch, SCRATCH, numbers, 2), numbers[0]);
    free(scratch);
}

int main(int argc, char **argv) {
    MPI_Init(&argc, &argv);
    MPI_Comm_rank(MPI_COMM_WORLD, &rank);
    MPI_Comm_size(MPI_COMM_WORLD, &ranks);
    size_t lines = argc > 1 ? strtoul(argv[1], NULL, 10) : MOST_LINES;
    if (lines > MOST_LINES) passed("a single count", MT_TOO_MANY_LINES, lines);

    /* 1. Rank 0 deals the lines out, share by share: start x, start y, end x, end y. */
    double *all[4] = {0}, *x = NULL, *y = NULL;
    if (rank == 0) {
        x = room(lines + 1, sizeof *x);
        y = room(lines + 1, sizeof *y);
        year(x, y, lines);
        all[0] = x, all[1] = y, all[2] = x + 1, all[3] = y + 1;
    }
    int *sizes = room((size_t)ranks, sizeof *sizes), *starts = room((size_t)ranks, sizeof *starts);
    for (int k = 0; k < ranks; k++) {
        starts[k] = (int)(lines * (size_t)k / (size_t)ranks);
        sizes[k] = (int)(lines * (size_t)(k + 1) / (size_t)ranks) - starts[k];
    }
    size_t own = (size_t)sizes[rank];
    double *share[4];
    for (int k = 0; k < 4; k++) {
        share[k] = room(own, sizeof(double));
        MPI_Scatterv(all[k], sizes, starts, MPI_DOUBLE, share[k], sizes[rank], MPI_DOUBLE, 0, MPI_COMM_WORLD);
    }

    /* 2. The bounds of all lines, by the bounds of each share, give every rank the same grid. */
    double low[2] = {1e9, 1e9}, high[2] = {-1e9, -1e9};
    for (size_t i = 0; i < own; i++) {
        for (int k = 0; k < 4; k++) {
            low[k % 2] = mt_least(low[k % 2], share[k][i]);
            high[k % 2] = mt_greatest(high[k % 2], share[k][i]);
        }
    }
    MPI_Allreduce(MPI_IN_PLACE, low, 2, MPI_DOUBLE, MPI_MIN, MPI_COMM_WORLD);
    MPI_Allreduce(MPI_IN_PLACE, high, 2, MPI_DOUBLE, MPI_MAX, MPI_COMM_WORLD);
    uint64_t grid[6];
    passed("the grid", mt_agreed_grid(low[0], low[1], high[0], high[1], lines, MT_AXES, grid, 6), grid[0]);
    size_t cells = (size_t)(grid[4] * grid[5]);

    /* 3. Every rank counts its share, and MPI adds the tables. The two numbers of all ranks add up too. */
    double begun = MPI_Wtime();
    uint32_t *counts = room(cells + 1, sizeof *counts), *sum = room(cells + 1, sizeof *sum);
    uint64_t numbers[2], total[2] = {0, 0};
    const double *lent[4] = {share[0], share[1], share[2], share[3]};
    count(lent, own, grid, counts, cells, numbers);
    double counted = MPI_Wtime();
    MPI_Op add;
    MPI_Op_create(added, 1, &add);
    MPI_Reduce(counts, sum, (int)(cells + 1), MPI_UINT32_T, add, 0, MPI_COMM_WORLD);
    MPI_Reduce(numbers, total, 2, MPI_UINT64_T, MPI_SUM, 0, MPI_COMM_WORLD);
    double reduced = MPI_Wtime(), times[2] = {counted - begun, reduced - counted}, longest[2];
    MPI_Reduce(times, longest, 2, MPI_DOUBLE, MPI_MAX, 0, MPI_COMM_WORLD);

    /* 4. Rank 0 counts all lines, and compares. */
    int same = 1;
    if (rank == 0) {
        uint64_t single[2];
        const double *whole[4] = {all[0], all[1], all[2], all[3]};
        count(whole, lines, grid, counts, cells, single);
        same = memcmp(counts, sum, (cells + 1) * sizeof *sum) == 0 && single[0] == total[0] && single[1] == total[1];
        printf("ranks %d, lines %zu, grid %" PRIu64 " by %" PRIu64 ", counts add up to %" PRIu64 ", global lines %" PRIu64 "\n", ranks, lines, grid[4], grid[5], total[0], total[1]);
        printf("counted in %.1f ms, added in %.1f ms; sent to rank 0 by each other rank: %zu bytes\n", longest[0] * 1e3, longest[1] * 1e3, (cells + 1) * sizeof *sum);
        printf("the sum of all benches and a single count are %s\n", same ? "the same" : "different");
    }
    MPI_Op_free(&add);
    MPI_Finalize();
    return same ? 0 : 1;
}
