#include "pictures.h"

int main(void) {
    struct picture in = read_picture();
    int width = in.width, height = in.height;
    struct picture across = blank(width, height + 2), out = blank(width, height);
    for (int y = -1; y <= height; y++) {
        int32_t *from = in.pixels + (long)clamp(y, 0, height - 1) * width, *to = across.pixels + (long)(y + 1) * width;
        for (int x = 0; x < width; x++)
            to[x] = floor_of(from[clamp(x - 1, 0, width - 1)] + from[x] + from[clamp(x + 1, 0, width - 1)], 3);
    }
    for (int y = 0; y < height; y++)
        for (int x = 0; x < width; x++) {
            int32_t *at = across.pixels + (long)y * width + x;
            out.pixels[(long)y * width + x] = floor_of(at[0] + at[width] + at[2L * width], 3);
        }
    write_picture(out);
}
