// The calls of the unverified C++ PK-tree that take or give a whole set: fill, save and load.
#pragma once
#include "build.hpp"

namespace unverified {

enum { IMAGE_HEAD = 10 };
// In an image the low byte comes first, as in the memory of the machines that this is measured on.
inline uint32_t four_at(const uint8_t *bytes) { uint32_t value; std::memcpy(&value, bytes, 4); return value; }
inline void put_four(uint8_t *bytes, uint32_t value) { std::memcpy(bytes, &value, 4); }

__attribute__((noinline)) uint32_t fill(uint32_t *store, size_t words, const uint32_t *codes, size_t count)
{
    if (!usable(store, words))
        return PK_NO_REGISTER;
    for (size_t i = 0; i < count; i++)
        if (uint64_t(codes[i]) >> 2 * store[1])
            return PK_OFF_PANEL;
    if (count > store[3])
        return PK_FULL;
    for (size_t i = 1; i < count; i++)
        if (codes[i] <= codes[i - 1])
            return PK_NOT_ASCENDING;
    Build build(store);
    for (size_t i = 0; i < count; i++)
        build.append(codes[i]);
    build.finish();
    return PK_ACCEPTED;
}

// The entries of a block and of what is in it, from index `at` on; answers the index after them.
inline size_t save_block(const uint32_t *store, size_t width, const Slot &block, uint8_t *codes, uint8_t *levels, size_t at)
{
    put_four(codes + 4 * at, block.code);
    levels[at++] = block.level;
    for (const Element &element : block)
        if (element.is_pixel()) {
            put_four(codes + 4 * at, element.code);
            levels[at++] = 0;
        } else {
            at = save_block(store, width, slot_at(store, width, element.slot()), codes, levels, at);
        }
    return at;
}

__attribute__((noinline)) pk_answer save(const uint32_t *store, size_t words, uint8_t *output, size_t output_bytes)
{
    if (!usable(store, words))
        return {PK_NO_REGISTER, 0, 0};
    size_t width = width_of(store[2]);
    const Slot &root = slot_at(store, width, 0);
    uint32_t entries = root.number + store[BLOCKS], needed = IMAGE_HEAD + 5 * entries;
    if (output_bytes < needed)
        return {PK_OUTPUT_TOO_SHORT, needed, 0};
    output[0] = store[1];
    output[1] = store[2];
    put_four(output + 2, entries);
    put_four(output + 6, root.number);
    save_block(store, width, root, output + IMAGE_HEAD, output + IMAGE_HEAD + 4 * size_t(entries), 0);
    return {PK_ACCEPTED, needed, 0};
}

class Image {
    const uint8_t *codes, *levels;
    size_t entries;
    uint32_t pixels = 0; // read so far

    // The elements of a block, from index `at` on; answers the index after them, 0 where no set has these entries.
    size_t read(uint32_t level, uint32_t block, size_t at, uint32_t k, uint32_t least)
    {
        uint64_t from = block, end = block + (1ull << 2 * level);
        uint32_t count = 0, met = 0, quarter = 0; // so many are met in this quarter
        for (; at < entries && code(at) < end; count++) {
            uint32_t start = code(at), inner = levels[at++];
            if (start < from || inner >= level || start & ((1u << 2 * inner) - 1))
                return 0;
            met = start >> 2 * (level - 1) == quarter ? met + 1 : 1;
            quarter = start >> 2 * (level - 1);
            if (met >= k)
                return 0;
            if (inner == 0)
                pixels++;
            else if ((at = read(inner, start, at, k, k)) == 0)
                return 0;
            from = start + (1ull << 2 * inner);
        }
        return count < least ? 0 : at;
    }

public:
    Image(const uint8_t *image, size_t number) : codes(image + IMAGE_HEAD), levels(codes + 4 * number), entries(number) {}
    uint32_t code(size_t at) const { return four_at(codes + 4 * at); }
    bool is_of_some_set(uint32_t order, uint32_t k, uint32_t number)
    {
        return entries > 0 && levels[0] == order && code(0) == 0 && read(order, 0, 1, k, 0) == entries && pixels == number;
    }
    void build(uint32_t *store) const
    {
        Build build(store);
        for (size_t i = 0; i < entries; i++)
            if (levels[i] == 0)
                build.append(code(i));
        build.finish();
    }
};

__attribute__((noinline)) uint32_t load(uint32_t *store, size_t words, const uint8_t *bytes, size_t length)
{
    if (!usable(store, words))
        return PK_NO_REGISTER;
    if (length < IMAGE_HEAD || length != IMAGE_HEAD + 5 * size_t(four_at(bytes + 2)))
        return PK_NOT_AN_IMAGE;
    if (bytes[0] != store[1] || bytes[1] != store[2] || four_at(bytes + 6) > store[3])
        return PK_IMAGE_UNLIKE;
    Image image(bytes, four_at(bytes + 2));
    if (!image.is_of_some_set(store[1], store[2], four_at(bytes + 6)))
        return PK_IMAGE_DAMAGED;
    image.build(store);
    return PK_ACCEPTED;
}

} // namespace unverified
