/* print_lists: the lists of one chain after another. Standard input has records of 32-bit words and doubles as this machine has them: the sizing, the
 * mode of walk, the number of points, then x and y of each point. For each record it prints the lines `cell` and `global` as the program does, or
 * `refused` with the number, and then a line `end`. */
#include "morelturret.h"
#include <inttypes.h>
#include <stdio.h>

enum { POINTS = 1024, OFFSETS = 16384, ITEMS = 65536, GLOBALS = 1024, SCRATCH = 16384 };

int main(void) {
    static double point[2 * POINTS], x[POINTS], y[POINTS];
    static uint32_t offsets[OFFSETS], items[ITEMS], globals[GLOBALS], scratch[SCRATCH];
    uint32_t asked[3];
    uint64_t out[8];
    while (fread(asked, sizeof asked[0], 3, stdin) == 3) {
        size_t count = asked[2];
        if (count == 0 || count > POINTS || fread(point, sizeof point[0], 2 * count, stdin) != 2 * count) return 2;
        for (size_t i = 0; i < count; i++) {
            x[i] = point[2 * i];
            y[i] = point[2 * i + 1];
        }
        size_t lines = count - 1;
        uint32_t refusal = mt_build(x, lines, y, lines, x + 1, lines, y + 1, lines, asked[0], asked[1], offsets, OFFSETS, items, ITEMS, globals,
                                    GLOBALS, scratch, SCRATCH, out, 8);
        if (refusal != 0) {
            printf("refused %" PRIu32 "\n", refusal);
        } else {
            for (uint64_t cell = 0; cell < out[4] * out[5]; cell++) {
                if (offsets[cell] == offsets[cell + 1]) continue;
                printf("cell %" PRIu64 " %" PRIu64, cell / out[4], cell % out[4]);
                for (uint32_t i = offsets[cell]; i < offsets[cell + 1]; i++) printf(" %" PRIu32, items[i]);
                printf("\n");
            }
            if (out[7] > 0) {
                printf("global");
                for (uint64_t i = 0; i < out[7]; i++) printf(" %" PRIu32, globals[i]);
                printf("\n");
            }
        }
        printf("end\n");
        fflush(stdout);
    }
    return ferror(stdout) ? 2 : 0;
}
