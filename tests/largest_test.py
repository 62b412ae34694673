"""The largest register: order 16, k = 2 and 24,576 pixels, against the model's image after marking, loading, filling, and clearing half;
in which blocks its pixels lie, and searches in it against a look at every pixel; and what lies beyond it, up to the 65,535 pixels of older versions."""

import math
import random
import sys

from damage import all_give_3
from lent import LIBRARY, octets, words
from model import Model, Tree, corner, image_of, interleave, slots_for, squared_distance, words_needed
from spoiling import name_next
from subject import Difference, Subject, expect, told_by

ORDER, K, MOST = 16, 2, 24576
# just beyond, and the largest most of older versions, with the words that their store has by the formula
BEYOND = (24577, 65535)
OLDER_WORDS = 8 + slots_for(K, 65535) * (8 + 10 * (K - 1))
MIDDLE, RADIUS, UNBOUNDED = 32768, 6000, 2**32 - 1


def chosen(rolls):
    """Pixels in clusters and alone, with the panel's last corner."""
    codes = {4**ORDER - 1}
    while len(codes) < MOST:
        base = rolls.randrange(4**ORDER)
        codes.update(base ^ rolls.randrange(4**4) for _ in range(min(rolls.choice((1, 1, 40)), MOST - len(codes))))
    return codes


def empty():
    store = words(bytes(words_needed(K, MOST)))
    expect("make", LIBRARY.pk_make(*store.arguments, ORDER, K, MOST), 0)
    return store


def holds(store, codes):
    """The image, the soundness and the list of the whole panel are those of the codes."""
    image = image_of(ORDER, K, codes)
    output = octets(bytes(len(image)))
    saved = LIBRARY.pk_save(*store.arguments, *output.arguments)
    expect("save", (saved.refusal, saved.first, bytes(output.values()) == image), (0, len(image), True))
    expect("check", LIBRARY.pk_check(*store.arguments).first, 1)
    found = words([7] * (len(codes) + 9))
    listed = LIBRARY.pk_list(*store.arguments, 0, 0, 2**ORDER - 1, 2**ORDER - 1, *found.arguments)
    expect("list", (listed.refusal, listed.first, found.values() == sorted(codes) + [7] * 9), (0, len(codes), True))
    return image


def asks(rolls, store, codes):
    """Marked pixels with the panel's last corner, their neighbours, and pixels anywhere."""
    model, last = Model(ORDER, K, MOST), 2**ORDER - 1
    expect("the model's fill", model.fill(sorted(codes)), 0)
    marked = [corner(code) for code in [4**ORDER - 1, *rolls.sample(sorted(codes), 30)]]
    beside = [(x ^ rolls.randrange(4), y ^ rolls.randrange(4)) for x, y in marked]
    for x, y in marked + beside + [(rolls.randint(0, last), rolls.randint(0, last)) for _ in range(30)]:
        expect(f"ask({x}, {y})", told_by("ask", LIBRARY.pk_ask(*store.arguments, x, y)), model.ask(x, y))


def ring():
    """Pairs of pixels on a circle, each of which makes a block: more are met, before a pixel is found, than most searches have places for."""
    codes = set()
    for across in range(0, RADIUS, 2):
        up = math.isqrt(RADIUS**2 - across**2)
        pairs = [(x, y) for x in (MIDDLE + across, MIDDLE - 2 - across) for y in (MIDDLE + up, MIDDLE - 1 - up)]
        codes.update(interleave(x + i, y) for x, y in pairs for i in (0, 1))
    return codes


def searched(store, codes, blocks, x, y):
    """The nearest pixel with no bound, for which every block as near as it is opened; then with so many blocks, one fewer, and some."""
    distance, code = min((squared_distance(x, y, 0, code), code) for code in codes)
    opened = sum(squared_distance(x, y, *block) <= distance for block in blocks)
    whole = told_by("nearest", LIBRARY.pk_nearest(*store.arguments, x, y, UNBOUNDED))
    expect(f"nearest({x}, {y})", whole, (0, 1, code, distance, opened, distance, 1))
    for budget in {opened, opened - 1, opened // 2, 1} - {0}:
        part = LIBRARY.pk_nearest(*store.arguments, x, y, budget)
        told = part.refusal, part.opened, part.complete, part.limit <= distance, not part.found or distance <= part.distance
        expect(f"nearest({x}, {y}, {budget})", told, (0, budget, int(budget == opened), True, True))


def searches(rolls, store, codes):
    blocks, around = Tree(ORDER, K, codes).blocks, ring()
    for _ in range(5):
        searched(store, codes, blocks, rolls.randrange(2**ORDER), rolls.randrange(2**ORDER))
    ascending = words(sorted(around))
    expect("fill with a ring", LIBRARY.pk_fill(*store.arguments, *ascending.arguments), 0)
    searched(store, around, Tree(ORDER, K, around).blocks, MIDDLE, MIDDLE)


def damaged_search(rolls):
    """More blocks at one time than a search has places for."""
    subject = Subject([0] * words_needed(K, MOST))
    expect("make", subject.made(ORDER, K, MOST), 0)
    name_next(rolls, subject, Model(ORDER, K, MOST))
    subject.call("nearest", 2**ORDER - 1, 2**ORDER - 1, 999)
    expect("a search of damaged words", subject.call("nearest", 2**ORDER - 1, 2**ORDER - 1, UNBOUNDED)[0], 13)


def refused_beyond(store, codes, free):
    """A full register refuses images and codes of more pixels, and stays as it was."""
    for number, given in zip(BEYOND, (codes | {free}, set(range(65535)))):
        image, ascending = octets(image_of(ORDER, K, given)), words(sorted(given))
        expect(f"load of {number} pixels", (len(given), LIBRARY.pk_load(*store.arguments, *image.arguments)), (number, 11))
        expect(f"fill with {number} codes", LIBRARY.pk_fill(*store.arguments, *ascending.arguments), 6)
    holds(store, codes)


def older_store(rolls):
    """Words that are enough for the largest most of older versions: a store with a larger most than ours is refused for its most alone."""
    subject, model = Subject([0] * OLDER_WORDS), Model(ORDER, K, MOST)
    for most in BEYOND:
        expect(f"make with most {most}", subject.made(ORDER, K, most), 1)
    expect("make in more words than needed", subject.made(ORDER, K, MOST), 0)
    codes = [0, 1, 2, 60]
    expect("fill", (subject.call("fill", codes=words(codes))[0], model.fill(codes)), (0, 0))
    for most in BEYOND:
        subject.store[3] = most
        all_give_3(rolls, subject, model)
    subject.store[3] = MOST
    expect("check with the largest most", subject.call("check"), (0, 1, 0))


def run(rolls):
    codes, first, second = chosen(rolls), empty(), empty()
    for code in rolls.sample(sorted(codes), len(codes)):
        expect("mark", LIBRARY.pk_mark(*first.arguments, *corner(code)), 0)
    free = next(code for code in range(4**ORDER) if code not in codes)
    expect("mark on a full register", LIBRARY.pk_mark(*first.arguments, *corner(free)), 6)
    image = octets(holds(first, codes))
    expect("load", LIBRARY.pk_load(*second.arguments, *image.arguments), 0)
    holds(second, codes)
    third, ascending = empty(), words(sorted(codes))
    expect("fill", LIBRARY.pk_fill(*third.arguments, *ascending.arguments), 0)
    holds(third, codes)
    refused_beyond(third, codes, free)
    older_store(rolls)
    asks(rolls, third, codes)
    searches(rolls, third, codes)
    damaged_search(rolls)
    gone = rolls.sample(sorted(codes), MOST // 2)
    for code in gone:
        expect("clear", LIBRARY.pk_clear(*second.arguments, *corner(code)), 0)
    holds(second, codes.difference(gone))


def main():
    try:
        run(random.Random(1))
    except Difference as difference:
        print(f"largest: DIFFERENCE: {difference}")
        return 1
    print(f"largest: order {ORDER}, k {K}, {MOST} pixels marked, loaded, filled, asked for, searched and half cleared, and {' and '.join(map(str, BEYOND))} refused, ok")
    return 0


if __name__ == "__main__":
    sys.exit(main())
