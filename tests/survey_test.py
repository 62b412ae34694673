"""A sound store damaged in one word at a time: for each word, how many of eight values check still answers yes to.

The store is that of the specification's first panel. The numbers were worked out from the definition of soundness, by another program but for
those of the blocks' own numbers; the words that nothing relies on (4, 5, a slot's words 5 to 7, a free slot's word 4, and what lies past a
slot's elements) take any value.
"""

import sys

from lent import LIBRARY, words

EXPECTED = """words 0 to 7: 0 0 0 0 7 7 0 0
slot: 0 0 0 7 0 7 7 7 0 0 2 0 7 7 7 7 7 7 7 7 7 7 7 7 7 7 7 7
slot: 0 0 0 7 0 7 7 7 0 0 0 0 1 0 7 7 7 7 7 7 7 7 7 7 7 7 7 7
slot: 0 7 7 0 7 7 7 7 7 7 7 7 7 7 7 7 7 7 7 7 7 7 7 7 7 7 7 7
slot: 0 7 7 0 7 7 7 7 7 7 7 7 7 7 7 7 7 7 7 7 7 7 7 7 7 7 7 7
slot: 0 7 7 0 7 7 7 7 7 7 7 7 7 7 7 7 7 7 7 7 7 7 7 7 7 7 7 7
"""
HEAD, WIDTH, WORDS = 8, 28, 148


def first_panel():
    store = words([0] * WORDS)
    refusals = [LIBRARY.pk_make(*store.arguments, 3, 3, 9)]
    refusals += [LIBRARY.pk_mark(*store.arguments, x, y) for x, y in ((0, 0), (1, 0), (0, 1), (6, 6))]
    if any(refusals) or not is_sound(store):
        sys.exit(f"survey: the first panel is not made: {refusals}")
    return store


def is_sound(store):
    return LIBRARY.pk_check(*store.arguments).first == 1


def told_sound(store, at):
    """How many of eight values for this word are answered yes; the word's own is none of them."""
    old = store[at]
    number = 0
    for value in (0, 1, 2, old ^ 1, old ^ 2, old ^ 0x100000, old ^ 0x80000000, 0xFFFFFFFF):
        store[at] = value
        number += value != old and is_sound(store)
    store[at] = old
    return number


def main():
    store = first_panel()
    told = [str(told_sound(store, at)) for at in range(WORDS)]
    lines = ["words 0 to 7: " + " ".join(told[:HEAD])]
    lines += ["slot: " + " ".join(told[at : at + WIDTH]) for at in range(HEAD, WORDS, WIDTH)]
    survey = "\n".join(lines) + "\n"
    if survey != EXPECTED or not is_sound(store):
        print(f"survey: check answers\n{survey}and not\n{EXPECTED}")
        return 1
    print(f"survey: check on the first panel's store with each of {WORDS} words changed, ok")
    return 0


if __name__ == "__main__":
    sys.exit(main())
