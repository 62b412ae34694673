// The layout of the store, and an unverified C++ build of a register from ascending codes.
#pragma once
#include "pkreg.h"

#include <cstring>

namespace unverified {

enum { REGISTER_MARK = 0x504B0001, HEAD = 8, SLOT_HEAD = 8, BLOCKS = 6, FIRST_FREE = 7 };

// A marked pixel, or an inner block with its slot and its level in the tag.
struct Element {
    uint32_t code, tag;
    bool is_pixel() const { return tag == 0; }
    uint32_t slot() const { return (tag & 0xFFFFF) - 1; }
    uint32_t level() const { return tag >> 20; }
    uint32_t last() const { return code + (1u << 2 * level()) - 1; } // the last code in it
};
inline Element block_element(uint32_t code, uint32_t slot, uint32_t level) { return {code, 1 + slot + (level << 20)}; }

// The first words of a slot, which its elements follow; `number` is that of the marked pixels beneath the block.
struct Slot {
    uint32_t level, code, count, next, number, unused[3];
    Element *begin() { return reinterpret_cast<Element *>(this + 1); }
    const Element *begin() const { return reinterpret_cast<const Element *>(this + 1); }
    const Element *end() const { return begin() + count; }
};
inline size_t width_of(uint32_t k) { return SLOT_HEAD + 10 * (k - 1); }
inline uint32_t slots_of(uint32_t k, uint32_t most) { return 1 + (most - 1) / (k - 1); }
inline Slot &slot_at(uint32_t *store, size_t width, size_t slot) { return *reinterpret_cast<Slot *>(store + HEAD + slot * width); }
inline const Slot &slot_at(const uint32_t *store, size_t width, size_t slot)
{
    return *reinterpret_cast<const Slot *>(store + HEAD + slot * width);
}

// Refusal 3 is for any other store.
inline bool usable(const uint32_t *store, size_t words)
{
    if (words < HEAD || store[0] != REGISTER_MARK || store[1] - 1 > 15 || store[2] - 2 > 14 || store[3] - 1 > 24575)
        return false;
    return words >= HEAD + slots_of(store[2], store[3]) * width_of(store[2]);
}

// The level of the smallest block that holds both.
inline uint32_t common_level(uint32_t a, uint32_t b) { return a == b ? 0 : (33 - __builtin_clz(a ^ b)) / 2; }
inline uint32_t block_around(uint32_t code, uint32_t level) { return code >> 2 * level << 2 * level; }
inline void copy_elements(Element *to, const Element *from, size_t count) { std::memmove(to, from, count * sizeof(Element)); }

class Build {
    uint32_t *store;
    uint32_t k, fresh = 1, last = 0, pixels = 0;
    size_t width, count = 0;
    Element stack[721];
    uint32_t before[721]; // so many pixels came before the element

    void lay(uint32_t slot, uint32_t level, uint32_t code, size_t first, uint32_t number)
    {
        Slot &block = slot_at(store, width, slot);
        block.level = level;
        block.code = code;
        block.count = count - first;
        block.number = number;
        copy_elements(block.begin(), stack + first, count - first);
    }
    // The smallest block around the last code that has k elements.
    void pack()
    {
        size_t first = count - k;
        uint32_t level = common_level(stack[first].code, last), code = block_around(last, level);
        while (first > 0 && stack[first - 1].code >= code)
            first--;
        lay(fresh, level, code, first, pixels - before[first]);
        stack[first] = block_element(code, fresh++, level);
        count = first + 1;
    }
    void pack_below(uint32_t limit)
    {
        while (count >= k && (stack[count - k].code ^ last) >> 2 * (limit - 1) == 0)
            pack();
    }

public:
    explicit Build(uint32_t *words) : store(words), k(words[2]), width(width_of(words[2])) {}
    void append(uint32_t code)
    {
        pack_below(common_level(last, code));
        before[count] = pixels++;
        stack[count++] = {code, 0};
        last = code;
    }
    void finish()
    {
        pack_below(store[1]);
        lay(0, store[1], 0, 0, pixels);
        uint32_t next = 0xFFFFFFFFu;
        for (uint32_t slot = slots_of(k, store[3]); slot-- > fresh; next = slot) {
            slot_at(store, width, slot).level = 0;
            slot_at(store, width, slot).next = next;
        }
        store[FIRST_FREE] = next;
        store[BLOCKS] = fresh;
    }
};

} // namespace unverified
