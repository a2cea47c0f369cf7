#include "pictures.h"

int main(void) {
    struct picture in = read_picture(), out = blank(in.width / 2, in.height / 2);
    long count = (long)out.width * out.height;
    for (long i = 0; i < count; i++)
        for (int r = 0; r < 9; r++) {
            int value = in.pixels[(i / in.width + r) % in.height * in.width + i % in.width] % 4;
            out.pixels[i] += value < 3 ? value + 1 : 0;
        }
    write_picture(out);
}
