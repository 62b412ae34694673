// The calls of the unverified C++ PK-tree on one pixel: mark, clear and ask.
#pragma once
#include "build.hpp"
#include "workload.hpp"

namespace unverified {

inline uint32_t judge_pixel(const uint32_t *store, size_t words, uint32_t x, uint32_t y)
{
    return !usable(store, words) ? PK_NO_REGISTER : (x | y) >> store[1] ? PK_OFF_PANEL : PK_ACCEPTED;
}

// The smallest block around a code, how deep it lies, and where the code stands among its elements.
struct Place { uint32_t slot, place, depth; bool marked; };

// Goes down to it, and tells each block left on the way: its depth, slot, and the place entered there.
template <class Leave> Place descend(const uint32_t *store, uint32_t code, Leave leave)
{
    size_t width = width_of(store[2]);
    for (uint32_t slot = 0, depth = 0;; depth++) {
        const Slot &block = slot_at(store, width, slot);
        const Element *elements = block.begin(), *after = elements + block.count;
        while (after != elements && after[-1].code > code)
            after--;
        uint32_t place = after - elements;
        if (place == 0)
            return {slot, 0, depth, false};
        Element last = elements[place - 1];
        if (last.is_pixel() && last.code == code)
            return {slot, place - 1, depth, true};
        if (last.is_pixel() || (last.code ^ code) >> 2 * last.level() != 0)
            return {slot, place, depth, false};
        leave(depth, slot, place - 1);
        slot = last.slot();
    }
}

// The elements that become a block of this level; none where the length is 0.
struct Run { uint32_t level, first, length; };

// Widens a run to all elements in the block of this level around the code.
inline Run widened(const Slot &block, uint32_t first, uint32_t end, uint32_t code, uint32_t level)
{
    const Element *from = block.begin() + first, *to = block.begin() + end;
    uint32_t shift = 2 * level, index = code >> shift;
    while (from != block.begin() && from[-1].code >> shift == index)
        from--;
    while (to != block.end() && to->code >> shift == index)
        to++;
    return {level, uint32_t(from - block.begin()), uint32_t(to - from)};
}

// The run around the code, whose place is sought back from the given one. Mostly its quarter has fewer than k elements; else the k elements
// nearest to the code give the least level.
inline Run find_run(const Slot &block, uint32_t place, uint32_t k, uint32_t code)
{
    const Element *elements = block.begin();
    while (place > 0 && elements[place - 1].code > code)
        place--;
    if (widened(block, place, place, code, block.level - 1).length < k)
        return {0, 0, 0};
    uint32_t first = place, end = place, level = 0;
    while (end - first < k) {
        uint32_t below = first > 0 ? common_level(elements[first - 1].code, code) : 17;
        uint32_t above = end < block.count ? common_level(elements[end].code, code) : 17;
        level = std::min(below, above);
        below <= above ? first-- : end++;
    }
    return widened(block, first, end, code, level);
}

// A change of one pixel on its way up from the smallest block around it.
class Change {
    uint32_t *store, k, code;
    size_t width;
    Element handed[16]; // what a block hands up

    void splice(Slot &block, uint32_t place, uint32_t removed, const Element *source, uint32_t inserted)
    {
        Element *at = block.begin() + place;
        copy_elements(at + inserted, at + removed, block.count - place - removed);
        for (uint32_t i = 0; i < inserted; i++)
            at[i] = source[i];
        block.count += inserted - removed;
    }
    // The block of a run, whose elements may lie in the same slot.
    Element lay(uint32_t slot, const Element *elements, Run run)
    {
        Slot &block = slot_at(store, width, slot);
        copy_elements(block.begin(), elements, run.length);
        block.level = run.level;
        block.code = block_around(code, run.level);
        block.count = run.length;
        block.number = 0;
        for (const Element &element : block)
            block.number += element.is_pixel() ? 1 : slot_at(store, width, element.slot()).number;
        return block_element(block.code, slot, run.level);
    }
    void form(Slot &block, Run run)
    {
        uint32_t fresh = store[FIRST_FREE];
        store[FIRST_FREE] = slot_at(store, width, fresh).next;
        store[BLOCKS]++;
        Element formed = lay(fresh, block.begin() + run.first, run);
        splice(block, run.first, run.length, &formed, 1);
    }
    // An underfull block becomes the block of the run, and hands it up with the elements beside it.
    uint32_t hand_up_run(uint32_t slot, Slot &block, Run run)
    {
        uint32_t end = run.first + run.length, right = block.count - end;
        copy_elements(handed, block.begin(), run.first);
        copy_elements(handed + run.first + 1, block.begin() + end, right);
        handed[run.first] = lay(slot, block.begin() + run.first, run);
        return run.first + 1 + right;
    }
    uint32_t hand_up_all(uint32_t slot, Slot &block)
    {
        copy_elements(handed, block.begin(), block.count);
        block.level = 0;
        block.next = store[FIRST_FREE];
        store[FIRST_FREE] = slot;
        store[BLOCKS]--;
        return block.count;
    }
    // One block: answers how many elements it hands up, 0 where the change is at rest.
    uint32_t step(uint32_t slot, uint32_t place, uint32_t removed, uint32_t inserted)
    {
        Slot &block = slot_at(store, width, slot);
        splice(block, place, removed, handed, inserted);
        Run run = inserted == 0 ? Run{0, 0, 0} : find_run(block, place + inserted, k, code);
        bool forms = run.length > 0, stays = slot == 0 || block.count - run.length + forms >= k;
        if (stays && forms)
            form(block, run);
        return stays ? 0 : forms ? hand_up_run(slot, block, run) : hand_up_all(slot, block);
    }

public:
    Change(uint32_t *words, uint32_t pixel) : store(words), k(words[2]), code(pixel), width(width_of(words[2])) {}
    // Answers the refusal: `already` where the pixel is as it is to be.
    uint32_t make(bool marked, uint32_t already, uint32_t most)
    {
        uint32_t slots[16], places[16];
        Place at = descend(store, code, [&](uint32_t depth, uint32_t slot, uint32_t place) { slots[depth] = slot, places[depth] = place; });
        if (at.marked == marked)
            return already;
        if (slot_at(store, width, 0).number >= most)
            return PK_FULL;
        slot_at(store, width, at.slot).number += marked ? 1 : -1;
        for (uint32_t i = 0; i < at.depth; i++)
            slot_at(store, width, slots[i]).number += marked ? 1 : -1;
        handed[0] = {code, 0};
        uint32_t coming = step(at.slot, at.place, !marked, marked);
        for (uint32_t i = at.depth; coming > 0; i--)
            coming = step(slots[i - 1], places[i - 1], 1, coming);
        return PK_ACCEPTED;
    }
};

__attribute__((noinline)) uint32_t mark(uint32_t *store, size_t words, uint32_t x, uint32_t y)
{
    uint32_t refusal = judge_pixel(store, words, x, y);
    return refusal ? refusal : Change(store, code_of({x, y})).make(true, PK_ALREADY_MARKED, store[3]);
}

__attribute__((noinline)) uint32_t clear(uint32_t *store, size_t words, uint32_t x, uint32_t y)
{
    uint32_t refusal = judge_pixel(store, words, x, y);
    return refusal ? refusal : Change(store, code_of({x, y})).make(false, PK_NOT_MARKED, UINT32_MAX);
}

__attribute__((noinline)) pk_place ask(const uint32_t *store, size_t words, uint32_t x, uint32_t y)
{
    if (uint32_t refusal = judge_pixel(store, words, x, y))
        return {refusal, 0, 0, 0, 0};
    Place at = descend(store, code_of({x, y}), [](uint32_t, uint32_t, uint32_t) {});
    const Slot &block = slot_at(store, width_of(store[2]), at.slot);
    return {PK_ACCEPTED, at.marked, at.depth + 1, block.level, block.code};
}

} // namespace unverified
