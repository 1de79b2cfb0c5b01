/* read_points: the points of one LineString in well-known binary from standard input, as the library reads them: a line for each point,
 * the bit patterns of x and y in 16 hex digits. A refusal is told on standard error, with its value, and the exit status is its number. */
#include "morelturret.h"
#include <inttypes.h>
#include <stdio.h>
#include <string.h>

int main(void) {
    static uint8_t bytes[16394];
    static double x[1024], y[1024];
    uint64_t out[1];
    size_t n = fread(bytes, 1, sizeof bytes, stdin);
    uint32_t refusal = mt_read_line_string(bytes, n, x, 1024, y, 1024, out, 1);
    if (refusal != 0) {
        fprintf(stderr, "refused %" PRIu32 " %" PRIu64 "\n", refusal, out[0]);
        return (int)refusal;
    }
    for (uint64_t i = 0; i < out[0]; i++) {
        uint64_t a, b;
        memcpy(&a, &x[i], sizeof a);
        memcpy(&b, &y[i], sizeof b);
        printf("%016" PRIx64 " %016" PRIx64 "\n", a, b);
    }
    return 0;
}
