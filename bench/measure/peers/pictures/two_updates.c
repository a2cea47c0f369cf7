#include "pictures.h"

static int at(struct picture in, int x, int y) { return x < in.width && y < in.height ? in.pixels[(long)y * in.width + x] : 0; }

int main(void) {
    struct picture in = read_picture(), out = blank(in.width, in.height);
    for (int y = 0; y < in.height; y++)
        for (int x = 0; x < in.width; x++) {
            int32_t value = at(in, x, y);
            for (int r = 0; r < 9; r++) value += greater(value, at(in, x + r, y));
            for (int s = 0; s < 5; s++) value = (value + at(in, x, y + s)) / 2 + value % 3;
            out.pixels[(long)y * in.width + x] = value;
        }
    write_picture(out);
}
