/* crossings FILE: from a chain to its crossings.
 *
 * FILE is as examples/c/chain.h has it: well-known binary where its name ends in .wkb, else little-endian doubles, x and y in turn. The tables are built
 * by the covering walk, with as much room as they need; the library hands out each pair of lines whose boxes overlap once, and it is proved that every
 * two lines that share a point are among them. Whether two lines do share one is decided by examples/c/meeting.h, which is this example's own. A leg and
 * the next, which share their joint and no other point, are no crossing.
 * Printed are how many lines, pairs and crossings there are; and, on standard error, the processor time from the lines to the crossings.
 * The exit status is 0; 1 where the library refuses, which is printed with its number and value (2 above 65,536 lines: examples/c/parts.c takes any
 * number); 2 where FILE can't be read, memory is short or standard output can't be written.
 *
 * To build it by hand, at the top of the repository:
 *   tools/build_library
 *   cc -O2 -Itarget/library examples/c/crossings.c target/library/libmorelturret.a -lm -o crossings
 * `tools/run_examples` does that, and runs it beside bindings/rust/examples/crossings.rs, which prints the same. */
#include "chain.h"
#include "meeting.h"
#include <time.h>

static double milliseconds(clock_t from, clock_t to) { return (double)(to - from) * 1e3 / CLOCKS_PER_SEC; }

int main(int argc, char **argv) {
    program = "crossings";
    if (argc != 2) {
        fprintf(stderr, "crossings: one FILE is needed, well-known binary (.wkb) or little-endian doubles, x and y in turn\n");
        return 2;
    }
    mt_lines lines = {NULL, NULL, NULL, NULL, 0};
    mt_refusal refusal = lines_of_file(argv[1], &lines);
    if (refusal.number != MT_OK) return refused(refusal);

    clock_t begun = clock();
    mt_tables tables = empty_tables();
    refusal = build_covering(&tables, &lines);
    if (refusal.number != MT_OK) return refused(refusal);
    clock_t built = clock();
    mt_pairs_room pairs = {NULL, NULL, 0, 0};
    refusal = pairs_once(&tables, &lines, &pairs);
    if (refusal.number != MT_OK) return refused(refusal);
    clock_t paired = clock();
    size_t found = 0;
    for (size_t k = 0; k < pairs.count; k++) found += (size_t)crosses(&lines, pairs.first[k], pairs.second[k]);
    clock_t decided = clock();

    printf("lines %zu\npairs %zu\ncrossings %zu\n", lines.count, pairs.count, found);
    fprintf(stderr, "crossings: %.1f ms: build %.1f, pairs %.1f, which of them cross %.1f\n", milliseconds(begun, decided), milliseconds(begun, built),
            milliseconds(built, paired), milliseconds(paired, decided));
    return ended(0);
}
