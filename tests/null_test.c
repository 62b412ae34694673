/* A null pointer beside a length of 0 is allowed in every call: as a store, as an image, as codes and as an output. */
#include "pkreg.h"

#include <stdio.h>
#include <stdlib.h>
#include <string.h>

enum { ORDER = 3, K = 3, MOST = 9, WORDS = 148 };

static unsigned checks;

static void expect(const char *what, pk_answer got, uint32_t refusal, uint32_t first, uint32_t second)
{
    if (got.refusal != refusal || got.first != first || got.second != second) {
        fprintf(stderr, "null: %s gives %u %u %u and not %u %u %u\n", what, (unsigned)got.refusal, (unsigned)got.first,
                (unsigned)got.second, (unsigned)refusal, (unsigned)first, (unsigned)second);
        exit(1);
    }
    checks++;
}

static void expect_place(const char *what, pk_place got, uint32_t refusal, uint32_t marked, uint32_t opened, uint32_t level, uint32_t code)
{
    if (got.refusal != refusal || got.marked != marked || got.opened != opened || got.level != level || got.code != code) {
        fprintf(stderr, "null: %s gives %u %u %u %u %u and not %u %u %u %u %u\n", what, (unsigned)got.refusal, (unsigned)got.marked,
                (unsigned)got.opened, (unsigned)got.level, (unsigned)got.code, (unsigned)refusal, (unsigned)marked, (unsigned)opened,
                (unsigned)level, (unsigned)code);
        exit(1);
    }
    checks++;
}

/* The calls that answer with the refusal alone. */
static void expect_refusal(const char *what, uint32_t got, uint32_t refusal)
{
    pk_answer alone = {0, 0, 0};
    alone.refusal = got;
    expect(what, alone, refusal, 0, 0);
}

static void no_store(void)
{
    expect_refusal("make in no words", pk_make(NULL, 0, ORDER, K, MOST), PK_STORE_TOO_SHORT);
    expect_refusal("make beyond limits in no words", pk_make(NULL, 0, 0, K, MOST), PK_BEYOND_LIMITS);
    expect_refusal("mark", pk_mark(NULL, 0, 0, 0), PK_NO_REGISTER);
    expect_refusal("clear", pk_clear(NULL, 0, 0, 0), PK_NO_REGISTER);
    expect_refusal("load", pk_load(NULL, 0, NULL, 0), PK_NO_REGISTER);
    expect_refusal("fill", pk_fill(NULL, 0, NULL, 0), PK_NO_REGISTER);
    expect_place("ask", pk_ask(NULL, 0, 0, 0), PK_NO_REGISTER, 0, 0, 0, 0);
    expect_refusal("nearest", pk_nearest(NULL, 0, 0, 0, 1).refusal, PK_NO_REGISTER);
    expect("count", pk_count(NULL, 0, 0, 0, 0, 0), PK_NO_REGISTER, 0, 0);
    expect("list", pk_list(NULL, 0, 0, 0, 0, 0, NULL, 0), PK_NO_REGISTER, 0, 0);
    expect("save", pk_save(NULL, 0, NULL, 0), PK_NO_REGISTER, 0, 0);
    expect("check", pk_check(NULL, 0), PK_NO_REGISTER, 0, 0);
}

/* The specification's first panel: codes 0, 1, 2 and 60, with the block of level 1 at code 0. */
static void no_image_and_no_output(uint32_t *store)
{
    uint32_t before[WORDS];
    expect_refusal("make", pk_make(store, WORDS, ORDER, K, MOST), PK_ACCEPTED);
    expect("list of an empty register to no words", pk_list(store, WORDS, 0, 0, 7, 7, NULL, 0), PK_ACCEPTED, 0, 1);
    expect_refusal("mark 0 0", pk_mark(store, WORDS, 0, 0), PK_ACCEPTED);
    expect_refusal("mark 1 0", pk_mark(store, WORDS, 1, 0), PK_ACCEPTED);
    expect_refusal("mark 0 1", pk_mark(store, WORDS, 0, 1), PK_ACCEPTED);
    expect_refusal("mark 6 6", pk_mark(store, WORDS, 6, 6), PK_ACCEPTED);
    memcpy(before, store, sizeof before);
    expect("list to no words", pk_list(store, WORDS, 0, 0, 7, 7, NULL, 0), PK_OUTPUT_TOO_SHORT, 4, 0);
    expect("list of a window without pixels to no words", pk_list(store, WORDS, 2, 2, 3, 3, NULL, 0), PK_ACCEPTED, 0, 1);
    expect("list of a window off the panel to no words", pk_list(store, WORDS, 8, 0, 9, 9, NULL, 0), PK_ACCEPTED, 0, 0);
    expect("save to no bytes", pk_save(store, WORDS, NULL, 0), PK_OUTPUT_TOO_SHORT, 40, 0);
    expect_refusal("load of no bytes", pk_load(store, WORDS, NULL, 0), PK_NOT_AN_IMAGE);
    expect("check afterwards", pk_check(store, WORDS), PK_ACCEPTED, 1, 0);
    expect_place("ask 1 1 afterwards", pk_ask(store, WORDS, 1, 1), PK_ACCEPTED, 0, 2, 1, 0);
    expect_place("ask 6 6 afterwards", pk_ask(store, WORDS, 6, 6), PK_ACCEPTED, 1, 1, 3, 0);
    expect_place("ask off the panel", pk_ask(store, WORDS, 8, 0), PK_OFF_PANEL, 0, 0, 0, 0);
    if (memcmp(before, store, sizeof before) != 0) {
        fprintf(stderr, "null: the store was changed by calls that were refused or only look\n");
        exit(1);
    }
    expect_refusal("fill with no codes", pk_fill(store, WORDS, NULL, 0), PK_ACCEPTED);
    expect("count of the register that it emptied", pk_count(store, WORDS, 0, 0, 7, 7), PK_ACCEPTED, 0, 0);
    expect_place("ask of the register that it emptied", pk_ask(store, WORDS, 1, 1), PK_ACCEPTED, 0, 1, 3, 0);
}

int main(void)
{
    uint32_t store[WORDS];
    no_store();
    no_image_and_no_output(store);
    printf("null: %u calls with null beside a length of 0, or after one, ok\n", checks);
    return 0;
}
