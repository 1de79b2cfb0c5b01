/* What examples share: memory, messages and bytes, also for visit_year.c; and, for parts.c and crossings.c, which take chains of any length, from a file
 * to lines.
 *
 * A file whose name ends in .wkb holds one LineString or one MultiLineString in well-known binary; consecutive points of a member make lines, none
 * joins two members, and the library refuses more than 65,536. Any other file holds little-endian doubles, x and y in turn, of one chain of any length. */
#ifndef EXAMPLES_CHAIN_H
#define EXAMPLES_CHAIN_H

#include "morelturret_structs.h"
#include <inttypes.h>
#include <stdio.h>
#include <stdlib.h>

/* What messages begin with. */
static const char *program;

/* The status to end with: one look tells whether all was written, on a full disk too. */
static inline int ended(int status) {
    if (fflush(stdout) == 0 && !ferror(stdout)) return status;
    fprintf(stderr, "%s: standard output can't be written\n", program);
    return 2;
}

static inline int refused(mt_refusal refusal) {
    printf("refused %" PRIu32 ", value %" PRIu64 "\n", refusal.number, refusal.value);
    return ended(1);
}

/* n entries of some size, all zero. A slice's address is never null, also where it has no entries. */
static inline void *lent(size_t n, size_t size) {
    void *slice = calloc(n > 0 ? n : 1, size);
    if (slice) return slice;
    fprintf(stderr, "%s: memory is short\n", program);
    exit(2);
}

/* The bytes of a file, and how many there are. */
static inline uint8_t *bytes_of(const char *path, size_t *length) {
    FILE *file = fopen(path, "rb");
    uint8_t *bytes = NULL;
    size_t room = 0;
    *length = 0;
    int failed = !file;
    while (!failed && *length == room) {
        room = 2 * room + 65536;
        uint8_t *more = realloc(bytes, room);
        failed = !more;
        if (more) {
            bytes = more;
            *length += fread(bytes + *length, 1, room - *length, file);
            failed = ferror(file) != 0;
        }
    }
    if (file) fclose(file);
    if (!failed) return bytes;
    fprintf(stderr, "%s: %s can't be read\n", program, path);
    exit(2);
}

/* Room for n lines. */
static inline mt_lines_room room_for(size_t n) {
    mt_lines_room room = {lent(n, sizeof(double)), lent(n, sizeof(double)), lent(n, sizeof(double)), lent(n, sizeof(double)), n, 0};
    return room;
}

/* The lines of one chain of doubles. What follows the last whole point is no point. */
static inline mt_lines lines_of_doubles(const uint8_t *bytes, size_t length) {
    size_t points = length / 16;
    double *x = lent(points, sizeof *x), *y = lent(points, sizeof *y);
    for (size_t i = 0; i < points; i++) {
        uint64_t bits[2] = {0, 0};
        for (int k = 15; k >= 0; k--) bits[k / 8] = bits[k / 8] << 8 | bytes[16 * i + (size_t)k];
        x[i] = mt_of_bits(bits[0]);
        y[i] = mt_of_bits(bits[1]);
    }
    return mt_lines_chain(x, y, points);
}

/* The lines of a LineString or a MultiLineString, whichever the type says. */
static inline mt_refusal lines_of_wkb(const uint8_t *bytes, size_t length, mt_lines *lines) {
    size_t type = length > 4 && bytes[0] == 0 ? 4 : 1;
    if (length > type && bytes[type] == 2) {
        mt_points points = {lent(MT_MAX_POINTS, sizeof(double)), lent(MT_MAX_POINTS, sizeof(double)), MT_MAX_POINTS, 0};
        mt_refusal refusal = mt_points_read(&points, bytes, length);
        if (refusal.number == MT_OK) *lines = mt_lines_chain(points.x, points.y, points.count);
        return refusal;
    }
    /* a point takes 16 bytes and a member at least 25, so this is room enough */
    mt_members members = {.point_room = length / 16, .member_room = length / 25};
    members.x = lent(members.point_room, sizeof *members.x);
    members.y = lent(members.point_room, sizeof *members.y);
    members.lengths = lent(members.member_room, sizeof *members.lengths);
    mt_refusal refusal = mt_members_read(&members, bytes, length);
    if (refusal.number != MT_OK) return refusal;
    mt_lines_room room = room_for(members.point_count - members.member_count);
    refusal = mt_members_lines(&members, &room);
    if (refusal.number == MT_OK) *lines = mt_lines_in(&room);
    return refusal;
}

/* The lines of a file, by its name. */
static inline mt_refusal lines_of_file(const char *path, mt_lines *lines) {
    mt_refusal refusal = {MT_OK, 0};
    size_t length, name = strlen(path);
    uint8_t *bytes = bytes_of(path, &length);
    if (name >= 4 && strcmp(path + name - 4, ".wkb") == 0) {
        refusal = lines_of_wkb(bytes, length, lines);
    } else {
        *lines = lines_of_doubles(bytes, length);
    }
    free(bytes);
    return refusal;
}

/* Tables of no lines, with room for the offsets of every build. */
static inline mt_tables empty_tables(void) {
    mt_tables tables = {.offset_room = MT_MAX_OFFSETS, .scratch_room = MT_SCRATCH};
    tables.offsets = lent(tables.offset_room, sizeof *tables.offsets);
    tables.scratch = lent(tables.scratch_room, sizeof *tables.scratch);
    tables.items = lent(0, sizeof *tables.items);
    tables.globals = lent(0, sizeof *tables.globals);
    return tables;
}

/* Builds by the covering walk on square cells. Most lines visit few cells; where items or globals lack, refusals 5 and 6 say how many are needed. */
static inline mt_refusal build_covering(mt_tables *tables, const mt_lines *lines) {
    if (tables->item_room < 8 * lines->count) {
        free(tables->items);
        tables->item_room = 8 * lines->count;
        tables->items = lent(tables->item_room, sizeof *tables->items);
    }
    for (;;) {
        mt_refusal refusal = mt_tables_build(tables, lines, MT_SQUARE, MT_COVERING);
        if (refusal.number == MT_SHORT_ITEMS) {
            free(tables->items);
            tables->item_room = (size_t)refusal.value;
            tables->items = lent(tables->item_room, sizeof *tables->items);
        } else if (refusal.number == MT_SHORT_GLOBALS) {
            free(tables->globals);
            tables->global_room = (size_t)refusal.value;
            tables->globals = lent(tables->global_room, sizeof *tables->globals);
        } else {
            return refusal;
        }
    }
}

/* Each pair of the tables once. There is room for four pairs an item at first; where there are more, refusal 5 says how many, and a second visit is made. */
static inline mt_refusal pairs_once(const mt_tables *tables, const mt_lines *lines, mt_pairs_room *pairs) {
    size_t scratch_room = tables->item_room + 2 * lines->count + 1;
    uint32_t *scratch = lent(scratch_room, sizeof *scratch);
    size_t wanted = pairs->room > 4 * tables->item_count ? pairs->room : 4 * tables->item_count;
    mt_refusal refusal;
    do {
        if (wanted > pairs->room || !pairs->first) {
            free(pairs->first);
            free(pairs->second);
            pairs->room = wanted;
            pairs->first = lent(wanted, sizeof *pairs->first);
            pairs->second = lent(wanted, sizeof *pairs->second);
        }
        refusal = mt_tables_pairs_once(tables, lines, pairs, scratch, scratch_room);
        wanted = (size_t)refusal.value;
    } while (refusal.number == MT_SHORT_ITEMS);
    free(scratch);
    return refusal;
}

#endif
