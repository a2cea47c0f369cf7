#include "kernel.h"

enum { STRIDE = WIDTH + 2, STAGE = STRIDE * HEIGHT };

static word middle(word a, word b, word c) { return greater(lesser(a, b), lesser(greater(a, b), c)); }

void kernel(void) {
    word *low = stages, *mid = stages + STAGE, *high = stages + 2 * STAGE, *a = stages + 3 * STAGE, *b = a + STAGE, *c = b + STAGE;
    for (int y = 0; y < HEIGHT; y++)
        for (int x = 0; x < STRIDE; x++) {
            const word *at = in + y * STRIDE + x;
            low[y * STRIDE + x] = lesser(lesser(at[0], at[STRIDE]), at[2 * STRIDE]);
        }
    for (int y = 0; y < HEIGHT; y++)
        for (int x = 0; x < STRIDE; x++) {
            const word *at = in + y * STRIDE + x;
            mid[y * STRIDE + x] = middle(at[0], at[STRIDE], at[2 * STRIDE]);
        }
    for (int y = 0; y < HEIGHT; y++)
        for (int x = 0; x < STRIDE; x++) {
            const word *at = in + y * STRIDE + x;
            high[y * STRIDE + x] = greater(greater(at[0], at[STRIDE]), at[2 * STRIDE]);
        }
    for (int y = 0; y < HEIGHT; y++)
        for (int x = 0; x < WIDTH; x++) {
            const word *at = low + y * STRIDE + x;
            a[y * WIDTH + x] = greater(greater(at[0], at[1]), at[2]);
        }
    for (int y = 0; y < HEIGHT; y++)
        for (int x = 0; x < WIDTH; x++) {
            const word *at = mid + y * STRIDE + x;
            b[y * WIDTH + x] = middle(at[0], at[1], at[2]);
        }
    for (int y = 0; y < HEIGHT; y++)
        for (int x = 0; x < WIDTH; x++) {
            const word *at = high + y * STRIDE + x;
            c[y * WIDTH + x] = lesser(lesser(at[0], at[1]), at[2]);
        }
    for (int y = 0; y < HEIGHT; y++)
        for (int x = 0; x < WIDTH; x++) out[y * WIDTH + x] = middle(a[y * WIDTH + x], b[y * WIDTH + x], c[y * WIDTH + x]);
}
