#include "kernel.h"

enum { STRIDE = 2 * WIDTH };

void kernel(void) {
    for (int y = 0; y < HEIGHT; y++)
        for (int x = 0; x < WIDTH; x++) {
            const word *at = in + 2 * y * STRIDE + 2 * x;
            out[y * WIDTH + x] = (at[0] + at[1] + at[STRIDE] + at[STRIDE + 1]) >> 2;
        }
}
