#include "pictures.h"

int main(void) {
    struct picture in = read_picture(), out = blank(in.width, in.height);
    for (int y = 0; y < in.height; y++)
        for (int x = 0; x < in.width; x++) {
            int32_t value = (y * in.width + x) % 7;
            for (int r = 0; r < 9; r++) value = value + value % 5 + in.pixels[(long)((y + r) % in.height) * in.width + x];
            out.pixels[(long)y * in.width + x] = value;
        }
    write_picture(out);
}
