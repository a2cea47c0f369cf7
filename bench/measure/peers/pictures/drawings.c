// The pictures of measure/pictures: `drawings NAME` reads the input, draws one some times, and prints the least seconds of these.
#include <time.h>

#include "pictures.h"

enum { TIMES = 15 };

static int32_t *row(struct picture of, int y) { return of.pixels + (long)clamp(y, 0, of.height - 1) * of.width; }

static int distance(int a, int b) { return greater(a - b, b - a); }

static int alike(int other, int middle) { return distance(other, middle) < 16 ? other : middle; }

static int least(int a, int b) { return a < b ? a : b; }

static void bilateral(struct picture in, struct picture out) {
    for (int y = 0; y < in.height; y++) {
        int32_t *above = row(in, y - 1), *from = row(in, y), *below = row(in, y + 1), *to = row(out, y);
        for (int x = 0; x < in.width; x++) {
            int left = clamp(x - 1, 0, in.width - 1), right = clamp(x + 1, 0, in.width - 1), middle = from[x];
            int sum = alike(above[left], middle) + alike(above[x], middle) + alike(above[right], middle)
                    + alike(from[left], middle) + middle + alike(from[right], middle)
                    + alike(below[left], middle) + alike(below[x], middle) + alike(below[right], middle);
            to[x] = floor_of(sum, 9);
        }
    }
}

// Of inputs of at least 2 by 2 pixels. A shift rounds to minus infinity.
static void bilinear(struct picture in, struct picture out) {
    for (int y = 0; y < out.height; y++) {
        int32_t *from = row(in, y / 2), *below = row(in, y / 2 + 1), *to = row(out, y);
        for (int x = 0; x < out.width; x++) {
            int at = x / 2, right = x % 2, down = y % 2;
            int sum = (2 - right) * ((2 - down) * from[at] + down * below[at])
                    + right * ((2 - down) * from[at + 1] + down * below[at + 1]);
            to[x] = sum >> 2;
        }
    }
}

static void box_of_49(struct picture in, struct picture out) {
    struct picture across = blank(in.width, in.height);
    int last = in.width - 1;
    for (int y = 0; y < in.height; y++) {
        int32_t *from = row(in, y), *to = row(across, y);
        for (int x = 0; x < in.width; x++)
            to[x] = from[clamp(x - 3, 0, last)] + from[clamp(x - 2, 0, last)] + from[clamp(x - 1, 0, last)] + from[x]
                  + from[clamp(x + 1, 0, last)] + from[clamp(x + 2, 0, last)] + from[clamp(x + 3, 0, last)];
    }
    for (int y = 0; y < in.height; y++) {
        int32_t *to = row(out, y), *rows[7];
        for (int i = 0; i < 7; i++) rows[i] = row(across, y + i - 3);
        for (int x = 0; x < in.width; x++)
            to[x] = floor_of(rows[0][x] + rows[1][x] + rows[2][x] + rows[3][x] + rows[4][x] + rows[5][x] + rows[6][x], 49);
    }
    free(across.pixels);
}

// Of each pixel the one of nine that `chosen` takes.
static inline void of_nine(struct picture in, struct picture out, int chosen(int, int)) {
    for (int y = 0; y < in.height; y++) {
        int32_t *above = row(in, y - 1), *from = row(in, y), *below = row(in, y + 1), *to = row(out, y);
        for (int x = 0; x < in.width; x++) {
            int left = clamp(x - 1, 0, in.width - 1), right = clamp(x + 1, 0, in.width - 1);
            int value = chosen(chosen(above[left], above[x]), above[right]);
            value = chosen(chosen(chosen(value, from[left]), from[x]), from[right]);
            to[x] = chosen(chosen(chosen(value, below[left]), below[x]), below[right]);
        }
    }
}

static void erosion_and_dilation(struct picture in, struct picture out) {
    struct picture eroded = blank(in.width, in.height);
    of_nine(in, eroded, least);
    of_nine(eroded, out, greater);
    free(eroded.pixels);
}

static void sobel(struct picture in, struct picture out) {
    for (int y = 0; y < in.height; y++) {
        int32_t *above = row(in, y - 1), *from = row(in, y), *below = row(in, y + 1), *to = row(out, y);
        for (int x = 0; x < in.width; x++) {
            int left = clamp(x - 1, 0, in.width - 1), right = clamp(x + 1, 0, in.width - 1);
            int dx = above[right] + 2 * from[right] + below[right] - above[left] - 2 * from[left] - below[left];
            int dy = below[left] + 2 * below[x] + below[right] - above[left] - 2 * above[x] - above[right];
            to[x] = least(greater(dx, -dx) + greater(dy, -dy), 255);
        }
    }
}

static void two_sums(struct picture in, struct picture out) {
    memcpy(out.pixels, in.pixels, 4L * in.width * in.height);
    for (int y = 1; y < out.height; y++)
        for (int x = 0; x < out.width; x++) row(out, y)[x] += row(out, y - 1)[x];
    for (int y = 0; y < out.height; y++)
        for (int x = 1; x < out.width; x++) row(out, y)[x] += row(out, y)[x - 1];
}

static const struct {
    const char *name;
    void (*draw)(struct picture in, struct picture out);
} drawings[] = {{"bilateral", bilateral}, {"bilinear", bilinear}, {"box_of_49", box_of_49},
                {"erosion_and_dilation", erosion_and_dilation}, {"sobel", sobel}, {"two_sums", two_sums}};

int main(int count, char **words) {
    struct picture in = read_picture(), out = blank(in.width, in.height);
    for (size_t i = 0; count == 2 && i < sizeof drawings / sizeof *drawings; i++) {
        if (strcmp(words[1], drawings[i].name) != 0) continue;
        clock_t shortest = 0;
        for (int time = 0; time < TIMES; time++) {
            clock_t start = clock();
            drawings[i].draw(in, out);
            clock_t taken = clock() - start;
            shortest = time == 0 || taken < shortest ? taken : shortest;
        }
        write_picture(out);
        printf("%f\n", (double)shortest / CLOCKS_PER_SEC);
        return 0;
    }
    return 1;
}
