/* read_members [FILE]: the members of one MultiLineString in well-known binary from standard input, as the library reads them: for each member a line
 * with its number of points, then a line for each point, the bit patterns of x and y in 16 hex digits. What the library writes of them goes to FILE. A
 * refusal is told on standard error, with its value, and the exit status is its number; it is 100 where FILE can't be written. */
#include "morelturret.h"
#include <inttypes.h>
#include <stdio.h>

enum { BYTES = 1 << 22, POINTS = BYTES / 16, MEMBERS = BYTES / 25 };

static uint8_t bytes[BYTES], again[BYTES];
static uint64_t x[POINTS], y[POINTS];
static uint32_t lengths[MEMBERS];

static int refused(uint32_t number, uint64_t value) {
    fprintf(stderr, "refused %" PRIu32 " %" PRIu64 "\n", number, value);
    return (int)number;
}

int main(int argc, char **argv) {
    uint64_t out[2];
    size_t n = fread(bytes, 1, sizeof bytes, stdin);
    uint32_t number = mt_read_multi_line_string(bytes, n, x, POINTS, y, POINTS, lengths, MEMBERS, out, 2);
    if (number != 0) return refused(number, out[0]);
    size_t points = (size_t)out[0], members = (size_t)out[1], i = 0;
    for (size_t k = 0; k < members; k++) {
        printf("%" PRIu32 "\n", lengths[k]);
        for (uint32_t j = 0; j < lengths[k]; j++, i++) printf("%016" PRIx64 " %016" PRIx64 "\n", x[i], y[i]);
    }
    if (argc < 2) return 0;
    number = mt_write_multi_line_string(x, points, y, points, lengths, members, again, BYTES, out, 1);
    if (number != 0) return refused(number, out[0]);
    FILE *file = fopen(argv[1], "wb");
    int failed = !file || fwrite(again, 1, (size_t)out[0], file) != out[0];
    if (file) failed |= fclose(file) != 0;
    return failed ? 100 : 0;
}
