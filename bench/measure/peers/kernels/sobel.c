#include "kernel.h"

enum { STRIDE = WIDTH + 2, STAGE = WIDTH * HEIGHT };

void kernel(void) {
    word *dx = stages, *dy = stages + STAGE;
    for (int y = 0; y < HEIGHT; y++)
        for (int x = 0; x < WIDTH; x++) {
            const word *a = in + y * STRIDE + x, *b = a + STRIDE, *c = b + STRIDE;
            dx[y * WIDTH + x] = a[2] + 2 * b[2] + c[2] - a[0] - 2 * b[0] - c[0];
        }
    for (int y = 0; y < HEIGHT; y++)
        for (int x = 0; x < WIDTH; x++) {
            const word *a = in + y * STRIDE + x, *c = a + 2 * STRIDE;
            dy[y * WIDTH + x] = c[0] + 2 * c[1] + c[2] - a[0] - 2 * a[1] - a[2];
        }
    for (int y = 0; y < HEIGHT; y++)
        for (int x = 0; x < WIDTH; x++) {
            word h = dx[y * WIDTH + x], v = dy[y * WIDTH + x];
            out[y * WIDTH + x] = lesser(greater(h, -h) + greater(v, -v), 255);
        }
}
