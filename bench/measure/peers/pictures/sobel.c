#include "pictures.h"

static struct picture in;

static int at(int x, int y) { return in.pixels[(long)clamp(y, 0, in.height - 1) * in.width + clamp(x, 0, in.width - 1)]; }

int main(void) {
    in = read_picture();
    struct picture out = blank(in.width, in.height);
    for (int y = 0; y < in.height; y++)
        for (int x = 0; x < in.width; x++) {
            int dx = at(x + 1, y - 1) + 2 * at(x + 1, y) + at(x + 1, y + 1) - at(x - 1, y - 1) - 2 * at(x - 1, y) - at(x - 1, y + 1);
            int dy = at(x - 1, y + 1) + 2 * at(x, y + 1) + at(x + 1, y + 1) - at(x - 1, y - 1) - 2 * at(x, y - 1) - at(x + 1, y - 1);
            int sum = greater(dx, -dx) + greater(dy, -dy);
            out.pixels[(long)y * in.width + x] = sum < 255 ? sum : 255;
        }
    write_picture(out);
}
