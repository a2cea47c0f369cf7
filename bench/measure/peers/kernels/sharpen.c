#include "kernel.h"

enum { STRIDE = WIDTH + 2 };

void kernel(void) {
    for (int y = 0; y < HEIGHT; y++)
        for (int x = 0; x < WIDTH; x++) {
            const word *at = in + (y + 1) * STRIDE + x + 1;
            word sharp = 5 * at[0] - at[-1] - at[1] - at[-STRIDE] - at[STRIDE];
            out[y * WIDTH + x] = lesser(greater(sharp, 0), 255);
        }
}
