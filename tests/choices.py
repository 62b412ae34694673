"""Random sizes, pixels, windows, searches, images and codes, with a liking for what is near a limit."""

import math

from model import corner, image_of, interleave

FAR = 2**32 - 1


def sizes(random):
    """m, k and most: small panels fill up, large ones have long codes."""
    m = random.choice((1, 2, 3, 3, 4, 4, 6, 8, 15, 16))
    k = random.choice((2, 2, 3, 3, 4, 5, 8, 16))
    most = random.choice((1, 3, 9, 30, 50, 70, 100, 300))
    return m, k, most


def beyond(random, m, k, most):
    """Sizes of which one is beyond its limits; 65535 was the largest most of older versions."""
    wrong_m, wrong_k = [(value, k, most) for value in (0, 17, FAR)], [(m, value, most) for value in (0, 1, 17)]
    return random.choice(wrong_m + wrong_k + [(m, k, value) for value in (0, 24577, 65535, FAR)])


def pixel(random, model):
    """A pixel: marked, near a marked one, anywhere on the panel, or off it."""
    side, kind = 2**model.order, random.random()
    if kind < 0.03:
        return random.choice(((side, 0), (0, side), (FAR, 0), (side - 1, FAR)))
    if kind < 0.7 and model.codes:
        x, y = corner(random.choice(sorted(model.codes)))
        if kind < 0.3:
            return x, y
        return x ^ random.choice((0, 1, 1, 2, 3)) % side, y ^ random.choice((0, 1, 1, 2, 3)) % side
    return random.randrange(side), random.randrange(side)


def window(random, model):
    """A window: the panel, one pixel, between two pixels, reversed, about a block, over the panel's edges, or off it."""
    side, kind = 2**model.order, random.random()
    if kind < 0.2:
        return 0, 0, side - 1, side - 1
    if kind > 0.75:
        return over_edges(random, model)
    (xa, ya), (xb, yb) = pixel(random, model), pixel(random, model)
    if kind < 0.3:
        return xa, ya, xb, yb
    if kind < 0.35:
        return xa, ya, xa, ya
    if kind < 0.55:
        return about_block(random, model, xa, ya)
    return min(xa, xb), min(ya, yb), max(xa, xb), max(ya, yb)


def about_block(random, model, x, y):
    """The square of a block that holds the pixel, each side of it moved by one pixel or left: just inside the window, or just over its edge."""
    level = random.randint(0, model.order)
    low = [min(max((value >> level << level) + random.choice((-1, 0, 0, 0, 1)), 0), FAR) for value in (x, y)]
    high = [(value >> level << level) + 2**level - 1 + random.choice((-1, 0, 0, 0, 1)) for value in (x, y)]
    return *low, *(min(max(first, last), FAR) for first, last in zip(low, high))


def over_edges(random, model):
    """A window that ends near an edge or far beyond it; it begins at a pixel, in the last column or row, or off the panel."""
    side = 2**model.order
    ends = (side - 1, side, side + 1, 2 * side - 1, 65535, 65536, FAR)
    low, high = [], []
    for value in pixel(random, model):
        first = random.choice((value, value, value, max(value - 2, 0), side - 1, random.choice((side, side + 1, 65536, FAR))))
        low.append(first)
        high.append(max(first, random.choice((*ends, first, min(first + 2, FAR)))))
    return *low, *high


def search(random, model):
    """A place and a budget for nearest: a pixel, the middle between two marked ones, which are then as near, or a corner of the panel; no block,
    some, all that are held, one fewer or more, or no bound."""
    place, held, last = pixel(random, model), len(model.tree().blocks), 2**model.order - 1
    if random.random() < 0.3 and model.codes:
        one, other = (corner(random.choice(sorted(model.codes))) for _ in "ab")
        place = (one[0] + other[0]) // 2, (one[1] + other[1]) // 2
    elif random.random() < 0.1:
        place = random.choice((0, last)), random.choice((0, last))
    return *place, random.choice((0, 1, 1, 2, 3, random.randint(1, held), held - 1, held, held + 1, FAR, FAR))


def ring(random, model):
    """The place, and codes of pixels at nearly one distance from it, no more than the register may hold: those on a circle, whole or in part."""
    last = 2**model.order - 1
    x, y = (random.randint(0, last) for _ in "xy")
    radius, number = random.randint(1, last), random.randint(1, model.most)
    about = [math.tau * i / number for i in range(number)]
    drawn = [(round(x + radius * math.cos(angle)), round(y + radius * math.sin(angle))) for angle in about]
    return (x, y), sorted({interleave(a, b) for a, b in drawn if 0 <= a <= last and 0 <= b <= last})


def codes(random, model, limit=60):
    """A set of pixels, in clusters, that may be one too many for the register."""
    panel = 4**model.order
    number = min(random.randrange(model.most + 2), panel, limit)
    chosen, base = set(), random.randrange(panel)
    while len(chosen) < number:
        if random.random() < 0.2:
            base = random.randrange(panel)
        chosen.add((base ^ random.randrange(4 ** random.randint(0, model.order))) % panel)
    return chosen


def damaged(random, image):
    """An image with one thing changed; now and then that makes it another set's image."""
    image, kind = bytearray(image), random.randrange(7)
    entries = (len(image) - 10) // 5
    at = random.randrange(len(image))
    if kind == 0:
        image[at] ^= 1 << random.randrange(8)
    elif kind == 1:
        image[at] = random.randrange(256)
    elif kind == 2:
        del image[at:]
    elif kind == 3:
        image += bytes(random.randrange(1, 12))
    elif kind == 4:
        image[random.choice((0, 1, 2, 6, 7, 9))] ^= random.choice((1, 2, 3, 128))
    elif kind == 5:
        _swap(image, random.randrange(entries), random.randrange(entries), entries)
    else:
        _leave_out(image, random.randrange(entries), entries)
    return bytes(image)


def _swap(image, one, other, entries):
    a, b = slice(10 + 4 * one, 14 + 4 * one), slice(10 + 4 * other, 14 + 4 * other)
    image[a], image[b] = image[b], image[a]
    levels = 10 + 4 * entries
    image[levels + one], image[levels + other] = image[levels + other], image[levels + one]


def _leave_out(image, one, entries):
    """An entry is left out and the sizes agree with that; the blocks often do not."""
    pixels = int.from_bytes(image[6:10], "little") - (image[10 + 4 * entries + one] == 0)
    del image[10 + 4 * entries + one]
    del image[10 + 4 * one : 14 + 4 * one]
    image[2:6], image[6:10] = (entries - 1).to_bytes(4, "little"), max(pixels, 0).to_bytes(4, "little")


def image(random, model):
    """An image for load: whole, of other sizes, damaged, or any bytes."""
    kind = random.random()
    chosen = model.codes if kind < 0.15 else codes(random, model)
    whole = image_of(model.order, model.k, chosen)
    if kind < 0.45:
        return whole
    if kind < 0.5:
        return image_of(model.order % 16 + 1, model.k, chosen)
    if kind < 0.55:
        return image_of(model.order, model.k % 15 + 2, chosen)
    if kind < 0.95:
        return damaged(random, whole)
    return random.randbytes(random.randrange(40))


def given(random, model):
    """Codes for fill: a set in rising order, none, too many, or with one thing wrong; two wrong things tell which is judged first."""
    chosen = sorted(model.codes if random.random() < 0.1 else codes(random, model, limit=300))
    kind = random.random()
    if kind < 0.45:
        return chosen
    for _ in range(random.choice((1, 1, 2))):
        chosen = random.choice((_off_panel, _doubled, _swapped, _too_many, lambda random, model, chosen: []))(random, model, chosen)
    return chosen


def _off_panel(random, model, chosen):
    """A code beyond the panel somewhere, where the panel has fewer codes than a word."""
    beyond_panel = min(random.choice((4**model.order, 4**model.order + 7, FAR)), FAR)
    at = random.randint(0, len(chosen))
    return chosen[:at] + [beyond_panel] + chosen[at:]


def _doubled(random, model, chosen):
    if not chosen:
        return chosen
    at = random.randrange(len(chosen))
    return chosen[: at + 1] + chosen[at:]


def _swapped(random, model, chosen):
    if len(chosen) < 2:
        return chosen
    at = random.randrange(len(chosen) - 1)
    return chosen[:at] + [chosen[at + 1], chosen[at]] + chosen[at + 2 :]


def _too_many(random, model, chosen):
    """One more than the register may hold, if the panel has so many; strictly ascending."""
    return list(range(min(model.most + 1, 4**model.order)))


def marked_and_beside(model):
    """Marked pixels and their unmarked neighbours, for a last look."""
    for code in sorted(model.codes)[:40]:
        x, y = corner(code)
        yield x, y
        if interleave(x ^ 1, y) not in model.codes:
            yield x ^ 1, y


def block_ends(model):
    """Of some blocks, the root among them: the pixels of the first and the last code, and of those just outside."""
    for level, code in model.tree().blocks[-10:]:
        ends = (code - 1, code, code + 4**level - 1, code + 4**level)
        yield from (corner(end) for end in ends if 0 <= end < 4**model.order)
