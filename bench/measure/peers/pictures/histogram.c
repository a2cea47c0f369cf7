#include "pictures.h"

int main(void) {
    struct picture in = read_picture(), out = blank(256, 1);
    for (long i = 0; i < (long)in.width * in.height; i++) out.pixels[clamp(in.pixels[i], 0, 255)]++;
    write_picture(out);
}
