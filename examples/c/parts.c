/* parts FILE [MOST]: the pairs of any number of lines, in parts of at most MOST lines, every two of them together.
 *
 * FILE is as examples/c/chain.h has it: well-known binary where its name ends in .wkb, else little-endian doubles, x and y in turn, of any number. MOST
 * is 32,768 where nothing else is said, and never more: two parts are at most the 65,536 lines of a build. Where two parts are enough, all lines are
 * built at once. Else each two parts are built together, by the covering walk. Two lines of different parts stand together in one build alone. Two lines
 * of one part stand together in several: their pairs are taken from the first, which for the parts A, B, C and D is AB for those inside A and inside B,
 * AC for those inside C, and AD for those inside D. So every two lines that share a point are handed out, and none twice.
 * Printed are how many lines and builds there are, how many pairs were taken from each build, and how many in all.
 * The exit status is 0; 1 where the library refuses, which is printed with its number and value; 2 where FILE can't be read, memory is short or standard
 * output can't be written.
 *
 * To build it by hand, at the top of the repository:
 *   tools/build_library
 *   cc -O2 -Itarget/library examples/c/parts.c target/library/libmorelturret.a -o parts
 * `tools/run_examples` does that, and runs it beside bindings/rust/examples/parts.rs, which prints the same. */
#include "chain.h"

/* The lines from number `from` up to `to`, put after those that are there. */
static void put(mt_lines_room *room, const mt_lines *lines, size_t from, size_t to) {
    for (size_t i = from; i < to; i++, room->count++) {
        room->start_x[room->count] = lines->start_x[i];
        room->start_y[room->count] = lines->start_y[i];
        room->end_x[room->count] = lines->end_x[i];
        room->end_y[room->count] = lines->end_y[i];
    }
}

/* Two parts of the lines: from `lower` up to `lower_end`, and from `upper` up to `upper_end`. */
struct two_parts {
    size_t lower, lower_end, upper, upper_end;
    int takes_lower, takes_upper; /* whether the pairs inside each are taken from this build */
};

/* The number among all of a line of the build. */
static size_t number_of(const struct two_parts *two, size_t line) {
    size_t size = two->lower_end - two->lower;
    return line < size ? two->lower + line : two->upper + (line - size);
}

/* Builds two parts and takes pairs, by the numbers of their lines among all. Answers in *taken how many; a refusal's value, where it is a line, is its
 * number among all. */
static mt_refusal take(const mt_lines *lines, const struct two_parts *two, mt_tables *tables, mt_lines_room *room, mt_pairs_room *pairs, size_t *taken) {
    room->count = 0;
    put(room, lines, two->lower, two->lower_end);
    put(room, lines, two->upper, two->upper_end);
    mt_lines both = mt_lines_in(room);
    mt_refusal refusal = build_covering(tables, &both);
    if (refusal.number == MT_BAD_COORDINATE) refusal.value = number_of(two, (size_t)refusal.value);
    if (refusal.number == MT_OK) refusal = pairs_once(tables, &both, pairs);
    size_t size = two->lower_end - two->lower;
    *taken = 0;
    for (size_t k = 0; refusal.number == MT_OK && k < pairs->count; k++) {
        int first_low = pairs->first[k] < size, second_low = pairs->second[k] < size;
        if (first_low && second_low ? !two->takes_lower : !first_low && !second_low && !two->takes_upper) continue;
        /* here a program goes on with the two lines number_of(two, pairs->first[k]) and number_of(two, pairs->second[k]) */
        *taken += 1;
    }
    return refusal;
}

int main(int argc, char **argv) {
    program = "parts";
    char *end = NULL;
    unsigned long most = argc == 3 ? strtoul(argv[2], &end, 10) : MT_MAX_LINES / 2;
    if (argc < 2 || argc > 3 || (end && (end == argv[2] || *end)) || most < 1 || most > MT_MAX_LINES / 2) {
        fprintf(stderr, "parts: a FILE is needed, well-known binary (.wkb) or little-endian doubles, and perhaps a number from 1 to 32768\n");
        return 2;
    }
    mt_lines lines = {NULL, NULL, NULL, NULL, 0};
    mt_refusal refusal = lines_of_file(argv[1], &lines);
    if (refusal.number != MT_OK) return refused(refusal);
    size_t n = lines.count, count = n <= 2 * most ? 1 : (n + most - 1) / most;
    size_t builds = count == 1 ? 1 : count * (count - 1) / 2;
    printf("lines %zu\nbuilds %zu\n", n, builds);

    mt_tables tables = empty_tables();
    mt_lines_room room = room_for(count == 1 ? n : 2 * most);
    mt_pairs_room pairs = {NULL, NULL, 0, 0};
    size_t all = 0, taken;
    if (count == 1) {
        struct two_parts whole = {0, n, n, n, 1, 1};
        refusal = take(&lines, &whole, &tables, &room, &pairs, &taken);
        if (refusal.number != MT_OK) return refused(refusal);
        printf("build 0: pairs %zu\n", taken);
        all = taken;
    }
    for (size_t b = 1, build = 0; b < count; b++) {
        for (size_t a = 0; a < b; a++, build++) {
            struct two_parts two = {n * a / count, n * (a + 1) / count, n * b / count, n * (b + 1) / count, b == 1, a == 0};
            refusal = take(&lines, &two, &tables, &room, &pairs, &taken);
            if (refusal.number != MT_OK) return refused(refusal);
            printf("build %zu: pairs %zu\n", build, taken);
            all += taken;
        }
    }
    printf("pairs %zu\n", all);
    return ended(0);
}
