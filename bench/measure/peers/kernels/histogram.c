#include "kernel.h"

void kernel(void) {
    const byte *bytes = (const byte *)in;
    for (int i = 0; i < 256; i++) out[i] = 0;
    for (int y = 0; y < HEIGHT; y++)
        for (int x = 0; x < WIDTH; x++) out[bytes[y * WIDTH + x]]++;
}
