"""The model against the specification's sample panels, its places of pixels against the law about them, and its searches against a look at
every pixel: it is to err, if at all, not where the library does."""

import random
import sys

from model import MARK, Model, corner, interleave, judge_image, squared_distance, usable, words_needed

# m, k, the codes, and the entries of their image as level/code
PANELS = [
    (3, 3, [0, 1, 2, 60], "3/0 1/0 0/0 0/1 0/2 0/60"),
    (3, 3, [0, 2, 60], "3/0 0/0 0/2 0/60"),
    (3, 3, [0, 1, 4], "3/0 2/0 0/0 0/1 0/4"),
    (3, 3, [0, 1, 2, 4], "3/0 1/0 0/0 0/1 0/2 0/4"),
    (3, 3, [0, 1, 16, 17, 32, 33, 48, 49], "3/0 0/0 0/1 0/16 0/17 0/32 0/33 0/48 0/49"),
    (3, 3, [0, 1, 4, 16, 17, 32, 33, 48, 49], "3/0 2/0 0/0 0/1 0/4 0/16 0/17 0/32 0/33 0/48 0/49"),
    (1, 2, [], "1/0"),
    (1, 2, [0, 1, 2, 3], "1/0 0/0 0/1 0/2 0/3"),
]
# m, k and the codes; then pixels, and of each whether it is marked, opened, level and code
PLACES = [
    (3, 3, [0, 1, 2, 60], {(1, 1): (0, 2, 1, 0), (0, 1): (1, 2, 1, 0), (3, 3): (0, 1, 3, 0), (6, 6): (1, 1, 3, 0), (2, 0): (0, 1, 3, 0)}),
    (3, 3, [0, 1, 4], {(3, 3): (0, 2, 2, 0), (2, 0): (1, 2, 2, 0), (4, 0): (0, 1, 3, 0)}),
    (3, 3, [60, 61, 63], {(6, 7): (0, 2, 1, 60), (7, 7): (1, 2, 1, 60), (5, 7): (0, 1, 3, 0)}),
    (3, 3, [32, 33, 36], {(3, 7): (0, 2, 2, 32), (2, 4): (1, 2, 2, 32), (3, 3): (0, 1, 3, 0)}),
    # 1/60 in 2/48 in the root
    (3, 2, [0, 52, 60, 61], {(7, 7): (0, 3, 1, 60), (6, 6): (1, 3, 1, 60), (6, 4): (1, 2, 2, 48), (4, 4): (0, 2, 2, 48), (0, 0): (1, 1, 3, 0)}),
    (1, 2, [], {(1, 1): (0, 1, 1, 0)}),
    (1, 2, [0, 1, 2, 3], {(1, 1): (1, 1, 1, 0)}),
    (16, 2, [2**32 - 3, 2**32 - 2], {(65535, 65535): (0, 2, 1, 2**32 - 4), (65533, 65535): (0, 1, 16, 0)}),
]
# on the first panel: the place, the budget, and found, code, distance, opened, limit, complete
SEARCHES = [
    ((1, 1), 1, (1, 60, 50, 1, 0, 0)),
    ((1, 1), 2, (1, 1, 1, 2, 1, 1)),
    ((1, 1), 9, (1, 1, 1, 2, 1, 1)),
    ((7, 7), 9, (1, 60, 2, 1, 2, 1)),
    ((4, 0), 1, (1, 60, 40, 1, 9, 0)),
    ((4, 0), 2, (1, 1, 9, 2, 9, 1)),
]


def holding(m, k, codes):
    model = Model(m, k, 9)
    for code in codes:
        model.mark(*corner(code))
    return model


def entries(image):
    number = int.from_bytes(image[2:6], "little")
    codes = [int.from_bytes(image[10 + 4 * i : 14 + 4 * i], "little") for i in range(number)]
    return " ".join(f"{level}/{code}" for code, level in zip(codes, image[10 + 4 * number :]))


def smallest_around(code, blocks):
    """The block of which the pixel is an element."""
    return min((level, low) for level, low in blocks if low <= code < low + 4**level)


def misplaced(model, x, y):
    """What is said of the place of every pixel and does not hold of this one's."""
    refusal, marked, opened, level, low = answer = model.ask(x, y)
    code, blocks = interleave(x, y), model.tree().blocks
    # those of the set that lie in the block and in no block inside it, whatever was gathered
    elements = {other for other in model.codes if smallest_around(other, blocks) == (level, low)}
    holds = {
        "a block of the tree that contains the pixel": (level, low) in blocks and low <= code < low + 4**level,
        "no smaller one does": smallest_around(code, blocks) == (level, low),
        "opened are those that do": opened == sum(first <= code < first + 4**above for above, first in blocks),
        "the pixel is marked": marked == (code in model.codes),
        "exactly when it is an element of the block": marked == (code in elements) == ((0, code) in model.tree().elements[level, low]),
    }
    return [f"{sentence}: {sorted(model.codes)} {x, y} {answer}" for sentence, so in holds.items() if refusal or not so]


def placed(rolls):
    """The pixels of the sample panels, and those of random registers: all of a small panel, else the marked ones and some others."""
    for m, k, codes, places in PLACES:
        model = holding(m, k, codes)
        yield {pixel: model.ask(*pixel) for pixel in places}, {pixel: (0, *expected) for pixel, expected in places.items()}
    for model in (drawn(rolls) for _ in range(200)):
        last = 2**model.order - 1
        pixels = [(x, y) for x in range(last + 1) for y in range(last + 1)]
        if model.order > 3:
            pixels = [corner(code) for code in model.codes] + rolls.sample(pixels, 40)
        yield [sentence for pixel in pixels for sentence in misplaced(model, *pixel)], []


def broken(model, x, y):
    """What is said of every search and does not hold at this place, with each budget up to one above the blocks held."""
    away = sorted((squared_distance(x, y, 0, code), code) for code in model.codes)
    # a block has no lower distance or code than those around it: so they are opened in this order
    blocks = sorted(model.tree().blocks, key=lambda block: (squared_distance(x, y, *block), block[1], -block[0]))
    around, before = {code: smallest_around(code, blocks) for code in model.codes}, None
    for budget in range(1, len(blocks) + 2):
        refusal, found, code, distance, opened, limit, complete = answer = model.nearest(x, y, budget)
        shown = [pixel for pixel in away if around[pixel[1]] in blocks[:opened]]
        left = [squared_distance(x, y, *block) for block in blocks[opened:]]
        holds = {
            "the nearest pixel of the blocks opened, or zeros": (found, distance, code) == ((1, *shown[0]) if shown else (0, 0, 0)),
            "the limit is the least of that distance and those to the other blocks": limit == min([distance] * found + left, default=0),
            "no pixel is below the limit": not away or limit <= away[0][0],
            "complete when all other blocks are farther": complete == all(found and distance < other for other in left),
            "then it is the nearest of all, of these that of the lowest code": not complete or [(distance, code)] == away[:1] or not away,
            "nothing marked": bool(away) or (found, limit, complete) == (0, 0, 1),
            "opened to the budget, below it only when complete": opened == budget or complete and opened < budget,
            "all the held blocks complete it": complete or budget < len(blocks),
            "no farther with a larger budget": not (before and before[1]) or found and distance <= before[3],
            "no lower limit with a larger budget": not before or limit >= before[5],
        }
        before = answer
        yield from (f"{sentence}: {sorted(model.codes)} {x, y} {budget} {answer}" for sentence, so in holds.items() if refusal or not so)


def drawn(rolls):
    """A register with some pixels, in a part of the panel or all over it."""
    m, k = rolls.randint(1, 6), rolls.choice((2, 2, 3, 4, 8))
    model = Model(m, k, 100)
    model.fill(sorted({rolls.randrange(4 ** rolls.randint(1, m)) for _ in range(rolls.randrange(70))}))
    return model


# on the first panel: the window, found and opened by a count, and by a list
FAR = 2**32 - 1
WINDOWS = (
    ((0, 0, 7, 7), (4, 0), (4, 2)),
    ((0, 0, FAR, FAR), (4, 0), (4, 2)),
    ((0, 0, 0, 7), (2, 2), (2, 2)),
    ((0, 0, 1, 7), (3, 1), (3, 2)),
    ((6, 6, 9, FAR), (1, 1), (1, 1)),
    ((7, 0, FAR, 8), (0, 1), (0, 1)),
    ((8, 0, 9, 7), (0, 0), (0, 0)),
    ((0, 8, 7, 8), (0, 0), (0, 0)),
    ((FAR, 0, FAR, 0), (0, 0), (0, 0)),
)


def cases():
    """What is told, and what the specification says."""
    for m, k, codes, expected in PANELS:
        image = holding(m, k, codes).image()
        yield entries(image), expected
        yield judge_image(m, k, 9, image), (0, set(codes))
    first = holding(3, 3, [0, 1, 2, 60])
    yield from placed(random.Random(2))
    yield [first.count(4, 4, 7, 7), first.list(4, 4, 7, 7, room=1)], [(0, 1, 1), ((0, 1, 1), [60])]
    yield [first.ask(*pixel) for pixel in ((8, 0), (0, 8), (FAR, 0), (7, FAR))], [(4, 0, 0, 0, 0)] * 4
    for place, budget, expected in SEARCHES:
        yield first.nearest(*place, budget), (0, *expected)
    yield holding(3, 3, []).nearest(4, 0, 1), (0, 0, 0, 0, 1, 0, 1)
    yield holding(3, 3, [0, 1, 2]).nearest(4, 0, 1), (0, 0, 0, 0, 1, 9, 0)
    yield [first.nearest(8, 0, 0), first.nearest(0, 2**32 - 1, 1)], [(4, 0, 0, 0, 0, 0, 0)] * 2
    yield first.nearest(7, 7, 0), (15, 0, 0, 0, 0, 0, 0)
    rolls = random.Random(1)
    for model in (drawn(rolls) for _ in range(300)):
        places = [[rolls.randrange(2**model.order) for _ in "xy"] for _ in range(5)]
        yield [sentence for place in places for sentence in broken(model, *place)], []
    # of the root and the block 1/0, a count opens those over the window's edge, a list those that it meets
    for window, counted, listed in WINDOWS:
        yield [first.count(*window), first.list(*window, room=4)[0]], [(0, *counted), (0, *listed)]
    yield [first.count(*window) for window in ((9, 0, 8, 7), (8, 9, 9, 8))], [(8, 0, 0)] * 2
    yield (interleave(5, 3), interleave(65535, 65535)), (27, 4294967295)
    yield [words_needed(k, most) for k, most in ((3, 9), (1, 9), (17, 9), (3, 0))], [148, 0, 0, 0]
    yield [words_needed(3, most) for most in (24576, 24577, 65535)], [344072, 0, 0]
    # in words enough for the largest most of older versions, so that only the most can be wrong
    yield [usable([MARK, 3, 3, most] + [0] * 917508) for most in (24576, 24577, 65535)], [True, False, False]
    full = holding(3, 3, range(9))
    yield (full.mark(0, 0), full.mark(7, 7)), (5, 6)
    filled = holding(3, 3, [5, 9])
    yield (filled.fill([0, 1, 2, 60]), filled.image()), (0, first.image())
    refused = ([64, 3, 3], [0, 64] * 5, range(10), [3] * 10, [3, 3], [2, 1])
    yield [filled.fill(list(codes)) for codes in refused], [4, 4, 6, 6, 14, 14]
    yield (filled.codes, filled.fill([]), filled.codes), ({0, 1, 2, 60}, 0, set())


def main():
    number = 0
    for told, expected in cases():
        number += 1
        if told != expected:
            print(f"model: {told} and not {expected}")
            return 1
    print(f"model: {number} facts of the sample panels, of places and of searches ok")
    return 0


if __name__ == "__main__":
    sys.exit(main())
