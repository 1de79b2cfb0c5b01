/* visit_year FILE: from a year of chains in one file to the pairs of lines that may cross, by the library's C functions.
 *
 * FILE holds one MultiLineString in well-known binary. Consecutive points of a member make lines, numbered from 0, member after member. Printed are how
 * many members, points and lines there are, the grid that the library picks for the lines, how long its tables are, how many tests a whole visit makes
 * and how many of them found two lines whose boxes overlap; and whether the members, written again, give the bytes of FILE. They do where FILE is
 * little-endian throughout.
 * The exit status is 0; 1 where the library refuses, which is printed with its number and value; 2 where FILE can't be read, memory is short or standard
 * output can't be written.
 *
 * To build it by hand, at the top of the repository:
 *   tools/build_library
 *   cc -O2 -Itarget/library examples/c/visit_year.c target/library/libmorelturret.a -o visit_year
 * `tools/run_examples` does that, and runs it beside bindings/rust/examples/visit_year.rs, which prints the same. */
#include "chain.h"

enum { BATCH = 4096 };

static uint32_t offsets[MT_MAX_OFFSETS], scratch[MT_SCRATCH], first[BATCH], second[BATCH];

int main(int argc, char **argv) {
    program = "visit_year";
    if (argc != 2) {
        fprintf(stderr, "visit_year: one FILE is needed, a MultiLineString in well-known binary\n");
        return 2;
    }
    size_t length;
    uint8_t *bytes = bytes_of(argv[1], &length);

    /* 1. Bytes to points, as bit patterns, and to member lengths. A point takes 16 bytes and a member at least 25, so this is room enough. */
    mt_members members = {.point_room = length / 16, .member_room = length / 25};
    members.x = lent(members.point_room, sizeof *members.x);
    members.y = lent(members.point_room, sizeof *members.y);
    members.lengths = lent(members.member_room, sizeof *members.lengths);
    mt_refusal refusal = mt_members_read(&members, bytes, length);
    if (refusal.number != MT_OK) return refused(refusal);

    /* 2. Points to lines: none joins two members. */
    mt_lines_room room = room_for(members.point_count - members.member_count);
    refusal = mt_members_lines(&members, &room);
    if (refusal.number != MT_OK) return refused(refusal);
    mt_lines lines = mt_lines_in(&room);
    printf("members %zu\npoints %zu\nlines %zu\n", members.member_count, members.point_count, lines.count);

    /* 3. Lines to tables. Items for 2,048 cells of each line are always enough; where there are fewer, refusal 5 says how many are needed. */
    mt_tables tables = {.offsets = offsets, .scratch = scratch, .offset_room = MT_MAX_OFFSETS, .scratch_room = MT_SCRATCH};
    tables.item_room = 16 * lines.count;
    tables.items = lent(tables.item_room, sizeof *tables.items);
    tables.global_room = lines.count;
    tables.globals = lent(tables.global_room, sizeof *tables.globals);
    refusal = mt_tables_build(&tables, &lines, MT_SQUARE, MT_RUST);
    if (refusal.number == MT_SHORT_ITEMS) {
        free(tables.items);
        tables.item_room = (size_t)refusal.value;
        tables.items = lent(tables.item_room, sizeof *tables.items);
        refusal = mt_tables_build(&tables, &lines, MT_SQUARE, MT_RUST);
    }
    if (refusal.number != MT_OK) return refused(refusal);
    printf("grid %" PRIu32 " columns, %" PRIu32 " rows\n", tables.grid.cols, tables.grid.rows);
    printf("items %zu\nglobals %zu\n", tables.item_count, tables.global_count);

    /* 4. The visit, batch by batch, with one check of lines and tables at its start. A batch that leaves room in its outputs came to the end. */
    mt_pairs_room pairs = {first, second, BATCH, 0};
    mt_cursor cursor;
    uint64_t tests = 0, overlaps = 0;
    refusal = mt_tables_start(&tables, &lines, 0, &cursor);
    if (refusal.number != MT_OK) return refused(refusal);
    do {
        refusal = mt_tables_next(&tables, &lines, &cursor, &pairs, &tests);
        if (refusal.number != MT_OK) return refused(refusal);
        overlaps += pairs.count;
    } while (pairs.count == pairs.room);
    printf("tests %" PRIu64 "\noverlaps %" PRIu64 "\n", tests, overlaps);

    /* 5. The members written again, in the little order throughout. */
    size_t need = 9 + 9 * members.member_count + 16 * members.point_count, written = 0;
    uint8_t *again = lent(need, 1);
    refusal = mt_members_write(&members, again, need, &written);
    if (refusal.number != MT_OK) return refused(refusal);
    int same = written == length && memcmp(again, bytes, length) == 0;
    printf("written %zu bytes, %s\n", written, same ? "as they came" : "not as they came");
    return ended(0);
}
