#include "pictures.h"

int main(void) {
    struct picture in = read_picture();
    int32_t table[256];
    for (int i = 0; i < 256; i++) table[i] = 255 - i * i / 255;
    for (long i = 0; i < (long)in.width * in.height; i++) in.pixels[i] = table[clamp(in.pixels[i], 0, 255)];
    write_picture(in);
}
