/*
 * Two laboratories mask the hot pixels of the same dark frame, one row by row, the other from the last pixel back and with a pixel
 * that recovers. Each saves its register to a file; the two files are the same, byte for byte. A third register is filled at once, from a
 * pass over the frame in rising code, and has the same image.
 *
 * Usage: dark_frame FILE1 FILE2 (both are written). It is C99, and C++ as it stands.
 */
#include "pkreg.h"

#include <errno.h>
#include <stdio.h>
#include <stdlib.h>
#include <string.h>

enum { ORDER = 3, SIDE = 8, K = 3, MOST = 16, HOT = 100 };

/* More words than K and MOST need; store_words() sees that they are enough. */
static uint32_t first_store[1024], second_store[1024], third_store[1024];

/* A dark frame of 8 x 8 counts, row y, column x: what lies above HOT is unfit. */
static const int dark_frame[SIDE][SIDE] = {
    {812, 640, 11, 9, 12, 10, 8, 11},
    {905, 13, 10, 12, 9, 11, 10, 12},
    {10, 9, 12, 11, 8, 13, 12, 9},
    {12, 11, 9, 10, 11, 733, 10, 8},
    {9, 10, 13, 12, 10, 9, 11, 12},
    {11, 12, 8, 9, 12, 10, 9, 11},
    {8, 9, 11, 10, 13, 12, 256, 255},
    {10, 12, 9, 11, 10, 8, 11, 498},
};

static void stop(const char *what, const char *why)
{
    fprintf(stderr, "dark_frame: %s: %s\n", what, why);
    exit(1);
}

static void must(const char *call, uint32_t refusal)
{
    char why[64];
    if (refusal == PK_ACCEPTED)
        return;
    snprintf(why, sizeof why, "refused %u (pkreg.h says what to do)", (unsigned)refusal);
    stop(call, why);
}

/* The words to lend, from the library and not from a formula of one's own. */
static size_t store_words(void)
{
    uint64_t words = pk_words(K, MOST);
    if (words == 0 || words > sizeof first_store / sizeof first_store[0])
        stop("make", "the store of this program is too short for K and MOST");
    return (size_t)words;
}

static void mark_row_by_row(uint32_t *store, size_t words)
{
    uint32_t x, y;
    for (y = 0; y < SIDE; y++)
        for (x = 0; x < SIDE; x++)
            if (dark_frame[y][x] > HOT)
                must("mark", pk_mark(store, words, x, y));
}

static void mark_backwards(uint32_t *store, size_t words)
{
    int i;
    must("mark", pk_mark(store, words, 4, 4));
    for (i = SIDE * SIDE - 1; i >= 0; i--)
        if (dark_frame[i / SIDE][i % SIDE] > HOT)
            must("mark", pk_mark(store, words, (uint32_t)(i % SIDE), (uint32_t)(i / SIDE)));
    must("clear", pk_clear(store, words, 4, 4));
}

/* Every second bit of a code, from its lowest on: its x, and of the code without its lowest bit its y. */
static unsigned coordinate(uint32_t code)
{
    unsigned value = 0, i;
    for (i = 0; i < 16; i++)
        value |= ((code >> (2 * i)) & 1u) << i;
    return value;
}

static void show_window(const uint32_t *store, size_t words, uint32_t x0, uint32_t y0, uint32_t x1, uint32_t y1)
{
    uint32_t codes[MOST];
    uint32_t i;
    pk_answer listed = pk_list(store, words, x0, y0, x1, y1, codes, MOST);
    must("list", listed.refusal);
    printf("window %u %u to %u %u: %u found, %u blocks opened\n", (unsigned)x0, (unsigned)y0, (unsigned)x1, (unsigned)y1,
           (unsigned)listed.first, (unsigned)listed.second);
    for (i = 0; i < listed.first; i++)
        printf("  pixel %u %u, code %u\n", coordinate(codes[i]), coordinate(codes[i] >> 1), (unsigned)codes[i]);
}

/* Whether it is marked, and the square of the smallest block of the tree that contains it. */
static void show_pixel(const uint32_t *store, size_t words, uint32_t x, uint32_t y)
{
    pk_place asked = pk_ask(store, words, x, y);
    unsigned low_x = coordinate(asked.code), low_y = coordinate(asked.code >> 1), side = 1u << asked.level;
    must("ask", asked.refusal);
    printf("pixel %u %u: marked %u, %u blocks opened\n", (unsigned)x, (unsigned)y, (unsigned)asked.marked, (unsigned)asked.opened);
    printf("  smallest block: x %u to %u, y %u to %u\n", low_x, low_x + side - 1, low_y, low_y + side - 1);
}

static void save_to(const char *path, const uint32_t *store, size_t words)
{
    uint8_t image[1024];
    FILE *file;
    pk_answer saved = pk_save(store, words, image, sizeof image);
    must("save", saved.refusal);
    file = fopen(path, "wb");
    if (file == NULL || fwrite(image, 1, saved.first, file) != saved.first || fclose(file) != 0)
        stop(path, strerror(errno));
    printf("saved %u bytes\n", (unsigned)saved.first);
}

static size_t read_from(const char *path, uint8_t *bytes, size_t most)
{
    size_t length;
    FILE *file = fopen(path, "rb");
    if (file == NULL)
        stop(path, strerror(errno));
    length = fread(bytes, 1, most, file);
    fclose(file);
    return length;
}

static void load_back(const char *path, uint32_t *store, size_t words)
{
    uint8_t image[1024];
    size_t length = read_from(path, image, sizeof image);
    pk_answer counted;
    must("make", pk_make(store, words, ORDER, K, MOST));
    must("load", pk_load(store, words, image, length));
    counted = pk_count(store, words, 0, 0, SIDE - 1, SIDE - 1);
    must("count", counted.refusal);
    printf("loaded back: %u pixels, sound %u\n", (unsigned)counted.first, (unsigned)pk_check(store, words).first);
}

static int same_bytes(const char *one, const char *other)
{
    uint8_t first[1024], second[1024];
    size_t length = read_from(one, first, sizeof first);
    return read_from(other, second, sizeof second) == length && memcmp(first, second, length) == 0;
}

/* Code after code, so that the codes ascend; what the register held before is gone. */
static int fill_at_once(const char *path, uint32_t *store, size_t words)
{
    uint32_t codes[SIDE * SIDE], code;
    uint8_t image[1024], file[1024];
    size_t number = 0, length = read_from(path, file, sizeof file);
    pk_answer saved;
    int same;
    for (code = 0; code < SIDE * SIDE; code++)
        if (dark_frame[coordinate(code >> 1)][coordinate(code)] > HOT)
            codes[number++] = code;
    must("fill", pk_fill(store, words, codes, number));
    saved = pk_save(store, words, image, sizeof image);
    must("save", saved.refusal);
    same = saved.first == length && memcmp(image, file, length) == 0;
    printf("filled at once: %u pixels, the image is %s\n", (unsigned)number, same ? "the same" : "different");
    return same;
}

int main(int count, char **arguments)
{
    size_t words = store_words();
    int same, help = count == 2 && strcmp(arguments[1], "--help") == 0;
    if (help || count != 3) {
        fprintf(help ? stdout : stderr, "usage: dark_frame FILE1 FILE2 (both are written)\n");
        return help ? 0 : 2;
    }
    must("make", pk_make(first_store, words, ORDER, K, MOST));
    mark_row_by_row(first_store, words);
    show_pixel(first_store, words, 5, 3);
    show_pixel(first_store, words, 6, 7);
    show_window(first_store, words, 4, 2, 7, 7);
    save_to(arguments[1], first_store, words);

    must("make", pk_make(second_store, words, ORDER, K, MOST));
    mark_backwards(second_store, words);
    save_to(arguments[2], second_store, words);

    load_back(arguments[1], third_store, words);
    same = same_bytes(arguments[1], arguments[2]);
    printf("the two files are %s\n", same ? "the same" : "different");
    same = fill_at_once(arguments[1], third_store, words) && same;
    printf("marking a marked pixel is refused with %u\n", (unsigned)pk_mark(third_store, words, 0, 0));
    return same ? 0 : 1;
}
