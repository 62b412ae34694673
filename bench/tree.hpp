// An unverified C++ PK-tree in the layout of the store, with the answers and refusals of pkreg.h but without a test for damaged words: what
// the calls are measured beside. They are not inlined, for callgrind. Here are count and list.
#pragma once
#include "change.hpp"
#include "image.hpp"

namespace unverified {

inline uint32_t judge_window(const uint32_t *store, size_t words, Window w)
{
    return !usable(store, words) ? PK_NO_REGISTER : w.x1 < w.x0 || w.y1 < w.y0 ? PK_WINDOW_REVERSED : PK_ACCEPTED;
}

// The walks over the blocks that share a pixel with a window. Coordinates are compared as the bits that they have in a code.
class Walk {
    enum : uint32_t { X = 0x55555555, Y = 0xAAAAAAAA };
    const uint32_t *store;
    size_t width;
    uint32_t x0, y0, x1, y1;

    const Slot &at(uint32_t slot) const { return slot_at(store, width, slot); }
    bool has(uint32_t code) const { return (code & X) - x0 <= x1 - x0 && (code & Y) - y0 <= y1 - y0; }
    bool meets(uint32_t low, uint32_t high) const { return (low & X) <= x1 && (low & Y) <= y1 && (high & X) >= x0 && (high & Y) >= y0; }
    bool covers(uint32_t low, uint32_t high) const { return (low & X) >= x0 && (low & Y) >= y0 && (high & X) <= x1 && (high & Y) <= y1; }
    bool covers_panel() const { return covers(0, UINT32_MAX >> (32 - 2 * store[1])); }
    uint32_t count_in(const Slot &block)
    {
        uint32_t found = 0;
        opened++;
        for (const Element &element : block)
            if (element.is_pixel())
                found += has(element.code);
            else if (meets(element.code, element.last()))
                found += covers(element.code, element.last()) ? at(element.slot()).number : count_in(at(element.slot()));
        return found;
    }
    uint32_t *list_all(const Slot &block, uint32_t *to)
    {
        opened++;
        for (const Element &element : block)
            if (element.is_pixel())
                *to++ = element.code;
            else
                to = list_all(at(element.slot()), to);
        return to;
    }
    uint32_t *list_in(const Slot &block, uint32_t *to)
    {
        opened++;
        for (const Element &element : block)
            if (element.is_pixel()) {
                if (has(element.code))
                    *to++ = element.code;
            } else if (meets(element.code, element.last())) {
                to = covers(element.code, element.last()) ? list_all(at(element.slot()), to) : list_in(at(element.slot()), to);
            }
        return to;
    }

public:
    uint32_t opened = 0;

    Walk(const uint32_t *words, Window w) : store(words), width(width_of(words[2]))
    {
        uint32_t first = code_of({w.x0, w.y0}), last = code_of({w.x1, w.y1});
        x0 = first & X, y0 = first & Y, x1 = last & X, y1 = last & Y;
    }
    // A block wholly inside the window is taken by its number, and not opened.
    uint32_t count() { return covers_panel() ? at(0).number : count_in(at(0)); }
    void list(uint32_t *output) { covers_panel() ? list_all(at(0), output) : list_in(at(0), output); }
};

// Cuts a window to its part on the panel; answers whether there is any.
inline bool reaches_panel(const uint32_t *store, Window &w)
{
    uint32_t last = (1u << store[1]) - 1;
    w.x1 = std::min(w.x1, last);
    w.y1 = std::min(w.y1, last);
    return w.x0 <= w.x1 && w.y0 <= w.y1;
}

__attribute__((noinline)) pk_answer count(const uint32_t *store, size_t words, uint32_t x0, uint32_t y0, uint32_t x1, uint32_t y1)
{
    Window window{x0, y0, x1, y1};
    uint32_t refusal = judge_window(store, words, window);
    if (refusal || !reaches_panel(store, window))
        return {refusal, 0, 0};
    Walk walk(store, window);
    uint32_t found = walk.count();
    return {PK_ACCEPTED, found, walk.opened};
}

// Counts first, so that nothing is written to an output that is too short.
__attribute__((noinline)) pk_answer list(const uint32_t *store, size_t words, uint32_t x0, uint32_t y0, uint32_t x1, uint32_t y1,
                                         uint32_t *output, size_t output_words)
{
    Window window{x0, y0, x1, y1};
    uint32_t refusal = judge_window(store, words, window);
    if (refusal || !reaches_panel(store, window))
        return {refusal, 0, 0};
    Walk walk(store, window);
    uint32_t found = walk.count();
    if (output_words < found)
        return {PK_OUTPUT_TOO_SHORT, found, 0};
    walk.opened = 0;
    walk.list(output);
    return {PK_ACCEPTED, found, walk.opened};
}

} // namespace unverified
