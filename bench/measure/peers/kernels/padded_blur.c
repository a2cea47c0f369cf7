#include "kernel.h"

enum { STRIDE = WIDTH + 2 };

void kernel(void) {
    for (int y = 0; y < HEIGHT + 2; y++)
        for (int x = 0; x < WIDTH; x++) {
            const word *at = in + y * STRIDE + x;
            stages[y * WIDTH + x] = floor_of(at[0] + at[1] + at[2], 3);
        }
    for (int y = 0; y < HEIGHT; y++)
        for (int x = 0; x < WIDTH; x++) {
            const word *at = stages + y * WIDTH + x;
            out[y * WIDTH + x] = floor_of(at[0] + at[WIDTH] + at[2 * WIDTH], 3);
        }
}
