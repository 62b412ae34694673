/*
 * pkreg: a register of unfit pixels, kept as a PK-tree in words that the caller lends.
 *
 * The panel. A panel of order m (1 to 16) has side 2^m; a pixel is (x, y), each from 0 to 2^m - 1. Its code interleaves the bits of both:
 * bit i of x is bit 2i of the code, bit i of y is bit 2i + 1. The register holds at most `most` pixels (1 to 24576; N in the
 * specification). Versions before 1.6.0 took a `most` of up to 65535. A store that one of them made with more than 24576 is refused with 3;
 * the image of that register still loads into one with a `most` of up to 24576, if it has no more pixels than that.
 *
 * The tree. The panel is cut into quarters, these again, and so on down to single pixels; each such square is a block. A block's elements
 * are what lies directly in it: marked pixels, and smaller blocks of the tree, each of which counts as one element with all that it holds.
 * The tree has the blocks with k elements or more (k is 2 to 16), and always the root, which is the whole panel. A call opens a block when
 * it reads the block's elements, so the number of blocks opened is a measure of its work. Each block also carries the number of marked
 * pixels in it.
 *
 * The image. Two registers of the same m and k that hold the same pixels save the same image, byte for byte. What is kept on disk or goes
 * to another program is an image, never the words of a store: from word 4 on they are laid out as this version of the library needs them.
 *
 * What the caller owes to every call:
 *   - a pointer to as many words or bytes as the number beside it says, aligned for its type; null is allowed beside a length of 0;
 *   - a store and an image, codes or an output that do not overlap;
 *   - one thread at a time on a store. The library has no state of its own, so different stores need no lock;
 *   - 16 KiB of stack, and 1 MiB for pk_nearest. This is tried, not proved: tests/stack_test.c runs every call on so much, and they use
 *     about 9 KiB, pk_nearest under 300 KiB.
 * Given that, no call can fail in another way than by its refusal: no other argument and no content of the store is asked for
 * beforehand, no call reads or writes past what was lent, and each call ends.
 */
#ifndef PKREG_H
#define PKREG_H

/* The version; the Makefile takes it from here. A new MAJOR gives the shared library a new name, so no program meets one that it was not
   linked for. */
#define PK_VERSION "2.0.0"
#define PK_VERSION_MAJOR 2
#define PK_VERSION_MINOR 0
#define PK_VERSION_PATCH 0

#include <stddef.h>
#include <stdint.h>

#ifdef __cplusplus
extern "C" {
#endif

/*
 * The refusals. They are judged in rising order, except that 13 may be met during the work only. A refused call changes nothing and
 * returns zeros beside the number; 9 and 13 say what is otherwise.
 */
enum {
    /* The call was done. */
    PK_ACCEPTED = 0,
    /* pk_make was given m, k or most beyond its limits. Give m from 1 to 16, k from 2 to 16, most from 1 to 24576. */
    PK_BEYOND_LIMITS = 1,
    /* pk_make was lent too few words. Lend pk_words(k, most) words, or more. */
    PK_STORE_TOO_SHORT = 2,
    /* The words are no register, or fewer are lent than pk_words(k, most). Call pk_make first, and lend the same words to every call. After
       a 13 of pk_mark or pk_clear: pk_make, then pk_load of the last image. So too for a store that an older version made with a most above
       24576: pk_make with one up to 24576, then pk_load of its image. */
    PK_NO_REGISTER = 3,
    /* pk_mark, pk_clear, pk_ask, pk_nearest: the pixel is not on the panel; give x and y below 2^m. pk_fill: a code is not; give codes below
       4^m. A window may reach past the panel: see pk_count. */
    PK_OFF_PANEL = 4,
    /* pk_mark: the pixel is marked already. There is nothing to do. */
    PK_ALREADY_MARKED = 5,
    /* pk_mark: the register holds as many pixels as it may. Clear some, or load its image into a register made with a larger most, of up to 24576.
       pk_fill: more codes are given than that. */
    PK_FULL = 6,
    /* pk_clear: the pixel is not marked. There is nothing to do. */
    PK_NOT_MARKED = 7,
    /* pk_count, pk_list: x0 > x1 or y0 > y1. Give the low corner first. */
    PK_WINDOW_REVERSED = 8,
    /* pk_list, pk_save: the output is too short. first is the length needed, in words for pk_list, in bytes for pk_save. */
    PK_OUTPUT_TOO_SHORT = 9,
    /* pk_load: the bytes are fewer than 10, or not as many as their own number of entries asks. Send the file whole. */
    PK_NOT_AN_IMAGE = 10,
    /* pk_load: the image has another m or k than the register, or more pixels than most. Make a register of the image's sizes. An image
       of more than 24576 pixels, as versions before 1.6.0 could save, loads into no register. */
    PK_IMAGE_UNLIKE = 11,
    /* pk_load: no set of pixels has this image, so its bytes were changed. Ask its sender for it again. */
    PK_IMAGE_DAMAGED = 12,
    /* The store is damaged: its words were changed by something else than these calls. Find who wrote there, then load the last image:
       pk_load and pk_fill rely on words 0 to 3 only. pk_mark and pk_clear have set word 0 to zero, so that every later call gives 3 until pk_make;
       the other calls left the store, and the content of their output is free. A damaged store is not always met: pk_check tells. Where it is
       not, a code that pk_ask, pk_nearest or pk_list hands over may be any number, also off the panel or out of order: look at it before it
       indexes a frame. */
    PK_STORE_DAMAGED = 13,
    /* pk_fill: the codes do not strictly ascend. Sort them, and give each once. */
    PK_NOT_ASCENDING = 14,
    /* pk_nearest: the budget is zero. Give the most blocks that the search may open, 1 or more; 4294967295 sets no bound. */
    PK_NO_BUDGET = 15
};

/* The refusal, and two values whose meaning stands beside each call. */
typedef struct {
    uint32_t refusal, first, second;
} pk_answer;

/* The refusal, and what pk_ask returns: whether a pixel is marked, the blocks opened, and the level and code of the smallest block of
   the tree that contains it. */
typedef struct {
    uint32_t refusal, marked, opened, level, code;
} pk_place;

/* The refusal, and what pk_nearest returns. distance and limit are squared distances, of up to 33 bits. */
typedef struct {
    uint64_t distance, limit;
    uint32_t refusal, found, code, opened, complete;
} pk_nearest_answer;

/* The words that a register of this k and most needs; 0 if k or most is beyond its limits. The order m does not matter. */
uint64_t pk_words(uint32_t k, uint32_t most);

/* Makes an empty register. most: N in the specification, the most pixels the register may hold. Words past pk_words(k, most) are never
   touched, by any call. Refusals 1, 2. */
uint32_t pk_make(uint32_t *store, size_t words, uint32_t m, uint32_t k, uint32_t most);

/* Marks a pixel. Refusals 3, 4, 5, 6, 13. */
uint32_t pk_mark(uint32_t *store, size_t words, uint32_t x, uint32_t y);

/* Clears a pixel. Refusals 3, 4, 7, 13. */
uint32_t pk_clear(uint32_t *store, size_t words, uint32_t x, uint32_t y);

/* The register holds exactly the image's pixels afterwards. The image is judged whole before a word is written, and only words 0 to 3
   of the store are relied on, so this also mends a damaged store with these words right. Refusals 3, 10, 11, 12. */
uint32_t pk_load(uint32_t *store, size_t words, const uint8_t *image, size_t bytes);

/* The register holds exactly the pixels of these codes afterwards, whatever it held before; no codes empty it. Its image is the one that
   marking them one by one on an empty register gives, but this is many times quicker. All codes are judged before a word is written, and
   only words 0 to 3 of the store are relied on, so this also mends a damaged store with these words right. Refusals 3, 4, 6, 14. */
uint32_t pk_fill(uint32_t *store, size_t words, const uint32_t *codes, size_t count);

/* marked: 1 for a marked pixel, else 0. opened: the blocks opened, which are those of the tree that contain the pixel. level, code: the
   smallest of these, whether or not the pixel is marked; where there is no smaller one it is the root, of level m and code 0. That block is
   the square of x from X to X + 2^level - 1 and y from Y to Y + 2^level - 1, where (X, Y) is the pixel with the code `code`: bit i of X is
   bit 2i of code, bit i of Y is bit 2i + 1. The pixel is marked exactly when it is an element of that block. Where the store is damaged and
   the call is not refused, marked is still at most 1, and opened and level are at most m; code may be any number, so that the square may
   reach past the panel. Refusals 3, 4, 13. */
pk_place pk_ask(const uint32_t *store, size_t words, uint32_t x, uint32_t y);

/* The marked pixel nearest to (x, y), sought until it is certain or `budget` blocks are opened. Blocks are opened from the root down, of
   those met always the one whose nearest position is nearest, at a tie the one of the lowest code.
   found: 1 if a pixel was found, else 0. code, distance: the nearest pixel found, of equally near ones the one of the lowest code, and its
   squared distance; zeros where none was found. opened: the blocks opened, never more than the budget, and fewer only when complete is 1.
   limit: no marked pixel has a lower squared distance, also where the search ended early: so it tells how far around the place the panel
   is certainly fit. complete: 1 when no block is left that could hold a pixel as near as the one found, else 0. The pixel is then the nearest
   of all, and limit is its distance; or found is 0, nothing is marked, and limit is 0. A larger budget never gives a farther pixel or a
   smaller limit, and a budget of all the blocks of the tree always completes the search.
   Most searches use about 4 KiB of stack, but one among many blocks at nearly one distance needs nearly 300 KiB. Refusals 3, 4, 13, 15. */
pk_nearest_answer pk_nearest(const uint32_t *store, size_t words, uint32_t x, uint32_t y, uint32_t budget);

/* The window from (x0, y0) to (x1, y1), both corners included; it may reach past the panel, to any coordinate, and its part on the panel is
   meant. first: the marked pixels in it. second: the blocks opened, which are those of the tree that share a pixel with it without lying
   wholly inside: such a block is taken by the number that it carries, so the whole panel opens 0, whatever is marked. A window wholly off
   the panel gives 0 and 0 without a look at the slots, so also where the store is damaged. Give 0 for a corner below 0: a negative number
   is taken for one far beyond the panel, and a window from there back onto the panel is refused with 8. Refusals 3, 8, 13. */
pk_answer pk_count(const uint32_t *store, size_t words, uint32_t x0, uint32_t y0, uint32_t x1, uint32_t y1);

/* As pk_count, but opens all blocks of the tree that share a pixel with the window, and writes the code of each found pixel once to the first
   words of the output, in rising order: for the same pixels and window the same words, so the list can be run beside a frame stored by
   code. An accepted call writes no word past the number that it returns, also where the store is damaged. With 9, first is the words
   needed; an output of `most` words is always long enough, and a window wholly off the panel needs none. Refusals 3, 8, 9, 13. */
pk_answer pk_list(const uint32_t *store, size_t words, uint32_t x0, uint32_t y0, uint32_t x1, uint32_t y1,
                  uint32_t *output, size_t output_words);

/* Writes the image to the first bytes of the output. first: the image's length; with 9, the bytes needed, so an output of 0 bytes asks for
   the length. An accepted call writes no byte past the length that it returns, also where the store is damaged. Refusals 3, 9, 13. */
pk_answer pk_save(const uint32_t *store, size_t words, uint8_t *output, size_t output_bytes);

/* first: 1 if the store is sound, which means that every word the calls rely on fits the tree of one set of pixels; 0 if it is damaged.
   Refusal 3. */
pk_answer pk_check(const uint32_t *store, size_t words);

#ifdef __cplusplus
}
#endif

#endif
