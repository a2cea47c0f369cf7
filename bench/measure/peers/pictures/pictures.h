// Pictures as texts for the peers of bench/picture: one is read from the file "input", one is written to "peer_output".
#include <stdint.h>
#include <stdio.h>
#include <stdlib.h>
#include <string.h>

struct picture {
    int width, height;
    int32_t *pixels;
};

static char *text_of(const char *path) {
    FILE *file = fopen(path, "rb");
    fseek(file, 0, SEEK_END);
    long size = ftell(file);
    rewind(file);
    char *text = malloc(size + 1);
    if (fread(text, 1, size, file) != (size_t)size) exit(1);
    text[size] = 0;
    fclose(file);
    return text;
}

static int32_t number_of(char **at) {
    while (**at == ' ' || **at == '\n') ++*at;
    int is_negative = **at == '-';
    *at += is_negative;
    uint32_t value = 0;
    for (; **at >= '0'; ++*at) value = value * 10 + (**at - '0');
    return is_negative ? -value : value;
}

static struct picture read_picture(void) {
    char *text = text_of("input"), *at = text + strlen("picture ");
    struct picture made = {number_of(&at), number_of(&at), NULL};
    long count = (long)made.width * made.height;
    made.pixels = malloc(4 * count);
    for (long i = 0; i < count; i++) made.pixels[i] = number_of(&at);
    free(text);
    return made;
}

static void write_picture(struct picture own) {
    char *text = malloc(12L * own.width * own.height + 64), *at = text;
    at += sprintf(at, "picture %d %d\n", own.width, own.height);
    for (long i = 0; i < (long)own.width * own.height; i++) {
        int32_t pixel = own.pixels[i];
        uint32_t rest = pixel < 0 ? -(uint32_t)pixel : (uint32_t)pixel;
        char digits[10];
        int count = 0;
        if (pixel < 0) *at++ = '-';
        do digits[count++] = '0' + rest % 10;
        while (rest /= 10);
        while (count) *at++ = digits[--count];
        *at++ = (i + 1) % own.width ? ' ' : '\n';
    }
    FILE *file = fopen("peer_output", "wb");
    fwrite(text, 1, at - text, file);
    fclose(file);
    free(text);
}

static struct picture blank(int width, int height) {
    return (struct picture){width, height, calloc((long)width * height, 4)};
}

static int clamp(int value, int low, int high) { return value < low ? low : value > high ? high : value; }

static int greater(int a, int b) { return a > b ? a : b; }

static int floor_of(int a, int b) { return a / b - (a % b < 0); }
