/*
 * Every call on a stack of 16 KiB, nearest on 1 MiB, above memory that may not be touched, on panels of order 16 whose blocks lie one in the
 * other as deep as they can; nearest also in the middle of a ring, where it meets more blocks than it has places for at first. It prints
 * how much of the stack was used.
 */
#define _GNU_SOURCE
#include "pkreg.h"

#include <signal.h>
#include <stdio.h>
#include <stdlib.h>
#include <string.h>
#include <sys/mman.h>
#include <ucontext.h>
#include <unistd.h>

enum { SMALL = 16 * 1024, LARGE = 1024 * 1024, GUARD = 4 * LARGE, PAINT = 0xA5, ORDER = 16, MOST = 400, LAST = 65535 };
enum { MIDDLE = 32768, RADIUS = 500, RING = 4 * RADIUS, UNBOUNDED = 0x7FFFFFFF };

/* Words for the ring with k = 2, and bytes for 400 pixels with k = 2, which needs the most. */
static uint32_t store[36008], codes[MOST], listed[MOST];
static uint8_t image[4010];
static size_t words, pixels;
static uint32_t k;
static pk_nearest_answer nearest;
static unsigned char *small, *large;
static ucontext_t caller, called;

static void expect(int holds, const char *otherwise)
{
    if (!holds) {
        fprintf(stderr, "stack: k = %u: %s\n", (unsigned)k, otherwise);
        exit(1);
    }
}

static void guard_touched(int signal)
{
    static const char says[] = "stack: a call needs more than 16 KiB, or nearest more than 1 MiB\n";
    (void)signal;
    if (write(2, says, sizeof says - 1) < 0)
        _exit(2);
    _exit(1);
}

static uint32_t coordinate(uint32_t code)
{
    uint32_t value = 0, i;
    for (i = 0; i < 16; i++)
        value |= ((code >> (2 * i)) & 1u) << i;
    return value;
}

/* Beside the first quarter of every block at code 0, k - 1 pixels: so that the tree has each of these blocks, but for the smallest. */
static void draw_nested_pixels(void)
{
    uint32_t level, i;
    pixels = 0;
    codes[pixels++] = 0;
    for (level = 0; level < ORDER; level++)
        for (i = 0; i + 1 < k && i >> 2 * level == 0; i++)
            codes[pixels++] = (1u << 2 * level) + i;
}

/* Pairs of pixels, each of which makes a block, on a circle: all at nearly one distance from the middle, so that many blocks are met before
   a pixel is found. */
static void mark_ring(void)
{
    uint32_t across, up = RADIUS, i;
    pk_make(store, words, ORDER, k, RING);
    for (across = 0; across < RADIUS; across += 2) {
        while (across * across + up * up > RADIUS * RADIUS)
            up--;
        for (i = 0; i < 8; i++)
            pk_mark(store, words, (i & 2 ? MIDDLE + across : MIDDLE - 2 - across) + (i & 1), i & 4 ? MIDDLE + up : MIDDLE - 1 - up);
    }
}

/* What runs on the small stack. Its answers are looked at afterwards, on the other one. */
static void all_calls(void)
{
    size_t i;
    pk_answer saved;
    pk_make(store, words, ORDER, k, MOST);
    for (i = 0; i < pixels; i++)
        pk_mark(store, words, coordinate(codes[i]), coordinate(codes[i] >> 1));
    for (i = 0; i < pixels; i++) {
        pk_clear(store, words, coordinate(codes[i]), coordinate(codes[i] >> 1));
        pk_mark(store, words, coordinate(codes[i]), coordinate(codes[i] >> 1));
        pk_ask(store, words, coordinate(codes[i]), coordinate(codes[i] >> 1));
    }
    pk_count(store, words, 0, 0, LAST, LAST);
    pk_count(store, words, 0, 0, 0, 0);
    pk_list(store, words, 0, 0, LAST, LAST, listed, MOST);
    pk_list(store, words, 0, 0, 0, 0, listed, MOST);
    saved = pk_save(store, words, image, sizeof image);
    pk_load(store, words, image, saved.first);
    pk_fill(store, words, codes, pixels);
    pk_check(store, words);
    pk_words(k, MOST);
}

/* The call that runs on the large stack. */
static void search_middle(void)
{
    nearest = pk_nearest(store, words, MIDDLE, MIDDLE, UNBOUNDED);
}

/* Runs the calls on a stack of this size, and gives the bytes that they used of it. */
static size_t stack_used(void (*calls)(void), unsigned char *stack, size_t size)
{
    size_t untouched = 0;
    memset(stack, PAINT, size);
    getcontext(&called);
    called.uc_stack.ss_sp = stack;
    called.uc_stack.ss_size = size;
    called.uc_link = &caller;
    makecontext(&called, calls, 0);
    swapcontext(&caller, &called);
    while (untouched < size && stack[untouched] == PAINT)
        untouched++;
    return size - untouched;
}

static unsigned char *guarded_stack(size_t size)
{
    unsigned char *all = mmap(NULL, GUARD + size, PROT_NONE, MAP_PRIVATE | MAP_ANONYMOUS, -1, 0);
    expect(all != MAP_FAILED, "no memory for a stack");
    expect(mprotect(all + GUARD, size, PROT_READ | PROT_WRITE) == 0, "no memory for a stack");
    return all + GUARD;
}

static void prepare_stacks(void)
{
    static unsigned char other[64 * 1024];
    stack_t handler_stack;
    struct sigaction action;
    small = guarded_stack(SMALL);
    large = guarded_stack(LARGE);
    memset(&handler_stack, 0, sizeof handler_stack);
    handler_stack.ss_sp = other;
    handler_stack.ss_size = sizeof other;
    memset(&action, 0, sizeof action);
    action.sa_handler = guard_touched;
    action.sa_flags = SA_ONSTACK;
    expect(sigaltstack(&handler_stack, NULL) == 0 && sigaction(SIGSEGV, &action, NULL) == 0, "no handler");
}

/* Pixel (0, 0) lies in a block of each level from its smallest up. */
static void expect_nested(void)
{
    pk_place corner = pk_ask(store, words, 0, 0);
    expect(corner.refusal == PK_ACCEPTED && corner.marked == 1 && corner.code == 0, "the corner is not marked, or not in the blocks at code 0");
    expect(corner.opened >= ORDER - 2 && corner.level == ORDER + 1 - corner.opened, "the blocks are not one in the other");
}

static size_t larger(size_t a, size_t b)
{
    return a > b ? a : b;
}

int main(void)
{
    size_t used = 0, searching = 0, among_many;
    prepare_stacks();
    for (k = 2; k <= 16; k++) {
        words = (size_t)pk_words(k, MOST);
        draw_nested_pixels();
        used = larger(used, stack_used(all_calls, small, SMALL));
        expect(pk_count(store, words, 0, 0, LAST, LAST).first == pixels, "the pixels are not held");
        expect_nested();
        searching = larger(searching, stack_used(search_middle, large, LARGE));
        expect(nearest.refusal == PK_ACCEPTED && nearest.complete, "the nearest pixel is not found");
    }
    k = 2;
    words = (size_t)pk_words(k, RING);
    mark_ring();
    among_many = stack_used(search_middle, large, LARGE);
    expect(nearest.refusal == PK_ACCEPTED && nearest.complete && nearest.distance < RADIUS * RADIUS, "the nearest pixel of a ring is not found");
    /* the places for the blocks of the largest register alone take 289 KiB, and those of most searches 3 */
    expect(among_many > LARGE / 4, "a search in a ring did not need the many places");
    printf("stack: every call at order %d with the deepest trees of k 2 to 16: %u bytes of %d used, ok\n", ORDER, (unsigned)used, SMALL);
    printf("stack: nearest on these trees: %u bytes; in a ring of %d blocks: %u bytes of %d used, ok\n", (unsigned)searching, RING / 2,
           (unsigned)among_many, LARGE);
    return 0;
}
