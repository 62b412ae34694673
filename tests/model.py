"""A plain model of the register, written from its specification alone: a set of codes, and the blocks worked out anew from it.

It shares nothing with the library or with python/: not even the interleaving. It answers as the calls do, (refusal, first, second), ask as
(refusal, marked, opened, level, code) and nearest as (refusal, found, code, distance, opened, limit, complete).
"""

LIMITS = {"m": (1, 16), "k": (2, 16), "most": (1, 24576)}
MARK = 0x504B0001


def within(name, value):
    low, high = LIMITS[name]
    return low <= value <= high


def slots_for(k, most):
    return 1 + (most - 1) // (k - 1)


def words_needed(k, most):
    if not (within("k", k) and within("most", most)):
        return 0
    return 8 + slots_for(k, most) * (8 + 10 * (k - 1))


def usable(words):
    """Whether refusal 3 does not apply."""
    if len(words) < 8 or words[0] != MARK or not within("m", words[1]):
        return False
    return 0 < words_needed(words[2], words[3]) <= len(words)


def interleave(x, y):
    digits = zip(format(y, "016b"), format(x, "016b"))
    return int("".join(a + b for a, b in digits), 2)


def corner(code):
    digits = format(code, "032b")
    return int(digits[1::2], 2), int(digits[0::2], 2)


def squared_distance(x, y, level, code):
    """From a place to the nearest position in a block; a pixel is a block of level 0."""
    nearest = [min(max(value, low), low + 2**level - 1) for value, low in zip((x, y), corner(code))]
    return (x - nearest[0]) ** 2 + (y - nearest[1]) ** 2


class Tree:
    """The instantiated blocks of a set, each as (level, code), and the elements of each: pixels, of level 0, and blocks."""

    def __init__(self, order, k, codes):
        self.k = k
        self.blocks = []
        self.elements = {}
        self._elements(order, 0, sorted(codes), order)

    def _elements(self, level, code, codes, order):
        """The elements of a block; it is noted if it is instantiated."""
        if level == 0:
            return [(0, code) for code in codes]
        elements = []
        for quarter in range(4):
            low = code + quarter * 4 ** (level - 1)
            inside = [c for c in codes if low <= c < low + 4 ** (level - 1)]
            given = self._elements(level - 1, low, inside, order) if inside else []
            elements += given if len(given) < self.k else [(level - 1, low)]
        if len(elements) >= self.k or level == order:
            self.blocks.append((level, code))
            self.elements[level, code] = elements
        return elements


def entries_of(order, k, codes):
    """Pixels and blocks as (level, code), in an image's order."""
    entries = [(0, code) for code in codes] + Tree(order, k, codes).blocks
    return sorted(entries, key=lambda entry: (entry[1], -entry[0]))


def image_of(order, k, codes):
    entries = entries_of(order, k, codes)
    head = bytes((order, k)) + len(entries).to_bytes(4, "little") + len(codes).to_bytes(4, "little")
    return head + b"".join(code.to_bytes(4, "little") for _, code in entries) + bytes(level for level, _ in entries)


def judge_image(order, k, most, image):
    """The refusal of an image, and its set."""
    if len(image) < 10 or len(image) != 10 + 5 * int.from_bytes(image[2:6], "little"):
        return 10, None
    entries, pixels = int.from_bytes(image[2:6], "little"), int.from_bytes(image[6:10], "little")
    if image[0] != order or image[1] != k or pixels > most:
        return 11, None
    codes = [int.from_bytes(image[10 + 4 * i : 14 + 4 * i], "little") for i in range(entries)]
    levels = image[10 + 4 * entries :]
    # an image's pixels are its entries of level 0, so no other set can have it
    chosen = {code for code, level in zip(codes, levels) if level == 0}
    if any(code >= 4**order for code in chosen) or image_of(order, k, chosen) != image:
        return 12, None
    return 0, chosen


class Model:
    """A register after an accepted make."""

    def __init__(self, order, k, most):
        self.order, self.k, self.most = order, k, most
        self.codes = set()
        self._tree = None

    def tree(self):
        if self._tree is None:
            self._tree = Tree(self.order, self.k, self.codes)
        return self._tree

    def _on_panel(self, *coordinates):
        return all(value < 2**self.order for value in coordinates)

    def _become(self, codes):
        self.codes, self._tree = codes, None
        return 0

    def mark(self, x, y):
        if not self._on_panel(x, y):
            return 4
        if interleave(x, y) in self.codes:
            return 5
        if len(self.codes) >= self.most:
            return 6
        return self._become(self.codes | {interleave(x, y)})

    def clear(self, x, y):
        if not self._on_panel(x, y):
            return 4
        if interleave(x, y) not in self.codes:
            return 7
        return self._become(self.codes - {interleave(x, y)})

    def load(self, image):
        refusal, codes = judge_image(self.order, self.k, self.most, image)
        return refusal or self._become(codes)

    def fill(self, codes):
        """The codes replace the set; they are judged in the order of the refusals' numbers."""
        if any(code >= 4**self.order for code in codes):
            return 4
        if len(codes) > self.most:
            return 6
        if any(later <= code for code, later in zip(codes, codes[1:])):
            return 14
        return self._become(set(codes))

    def ask(self, x, y):
        """The smallest block is that of the lowest level: blocks of one level share no pixel."""
        if not self._on_panel(x, y):
            return 4, 0, 0, 0, 0
        around = [block for block in self.tree().blocks if self._shares(block, x, y, x, y)]
        return 0, int(interleave(x, y) in self.codes), len(around), *min(around)

    def nearest(self, x, y, budget):
        """The search itself: what is met and found, each with its distance first and its code next, so that the least is the one meant."""
        if not self._on_panel(x, y):
            return 4, 0, 0, 0, 0, 0, 0
        if budget == 0:
            return 15, 0, 0, 0, 0, 0, 0
        met, found, opened = [(0, 0, self.order)], [], 0
        while not self._complete(met, found) and opened < budget:
            _, code, level = met.pop(met.index(min(met)))
            opened += 1
            for inner, low in self.tree().elements[level, code]:
                (met if inner else found).append((squared_distance(x, y, inner, low), low, inner))
        distance, code, _ = min(found, default=(0, 0, 0))
        limit = min(found + met, default=(0,))[0]
        return 0, int(bool(found)), code, distance, opened, limit, int(self._complete(met, found))

    @staticmethod
    def _complete(met, found):
        """No met block is left unopened, or all of these are farther than a pixel found."""
        return not met or bool(found) and min(met)[0] > min(found)[0]

    def window(self, x0, y0, x1, y1):
        """The refusal of a window, the codes found in it, and the blocks that share a pixel with it: what of it is off the panel has neither."""
        if x0 > x1 or y0 > y1:
            return 8, [], []
        found = [code for code in sorted(self.codes) if x0 <= corner(code)[0] <= x1 and y0 <= corner(code)[1] <= y1]
        return 0, found, [block for block in self.tree().blocks if self._shares(block, x0, y0, x1, y1)]

    @staticmethod
    def _shares(block, x0, y0, x1, y1):
        level, code = block
        x, y = corner(code)
        return x <= x1 and x0 < x + 2**level and y <= y1 and y0 < y + 2**level

    @staticmethod
    def _lies_inside(block, x0, y0, x1, y1):
        level, code = block
        x, y = corner(code)
        return x0 <= x and x + 2**level - 1 <= x1 and y0 <= y and y + 2**level - 1 <= y1

    def count(self, *window):
        """A block wholly inside the window is taken by its number, and not opened."""
        refusal, found, shared = self.window(*window)
        return refusal, len(found), sum(not self._lies_inside(block, *window) for block in shared)

    def list(self, *window, room):
        """The answer, and the codes that are written, in rising order: so the header promises."""
        refusal, found, shared = self.window(*window)
        if not refusal and len(found) > room:
            return (9, len(found), 0), []
        return (refusal, len(found), len(shared)), found

    def image(self):
        return image_of(self.order, self.k, self.codes)

    def save(self, room):
        """The answer, and the bytes that are written."""
        image = self.image()
        if len(image) > room:
            return (9, len(image), 0), b""
        return (0, len(image), 0), image
