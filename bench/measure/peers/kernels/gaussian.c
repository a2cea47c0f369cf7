#include "kernel.h"

enum { STRIDE = WIDTH + 4 };

void kernel(void) {
    for (int y = 0; y < HEIGHT + 4; y++)
        for (int x = 0; x < WIDTH; x++) {
            const word *at = in + y * STRIDE + x;
            stages[y * WIDTH + x] = (at[0] + 4 * at[1] + 6 * at[2] + 4 * at[3] + at[4]) >> 4;
        }
    for (int y = 0; y < HEIGHT; y++)
        for (int x = 0; x < WIDTH; x++) {
            const word *at = stages + y * WIDTH + x;
            out[y * WIDTH + x] = (at[0] + 4 * at[WIDTH] + 6 * at[2 * WIDTH] + 4 * at[3 * WIDTH] + at[4 * WIDTH]) >> 4;
        }
}
