"""The register of unfit pixels, over the shared library that `make lib` builds.

    from pkreg import Register, Refusal
    register = Register.make(3, 3, 16)    # order m, k, and the most pixels that it may hold
    register.mark(5, 3)
    register.ask(5, 3)                    # Asked(marked=True, opened=1, level=3, code=0)
    open("lab.img", "wb").write(register.save())

A refused call raises Refusal, which carries the number, its meaning and, with 9, the length needed. Beside what is found stands the
number of blocks opened: the blocks of the tree whose elements the call has read (include/pkreg.h says what these are).
"""

import ctypes
import operator
import os
from typing import NamedTuple, Optional

# that of include/pkreg.h; the library is opened by the name that goes with its first number
__version__ = "2.0.0"

MEANINGS = {
    1: "m, k or most is beyond its limits: m is 1 to 16, k 2 to 16, most 1 to 24576",
    2: "the store is too short for k and most",
    3: "these words are no register",
    4: "a pixel or a code is not on the panel",
    5: "the pixel is marked already",
    6: "more pixels than the register may hold",
    7: "the pixel is not marked",
    8: "the window is reversed: x0 > x1 or y0 > y1",
    9: "the output is too short",
    10: "not an image: under 10 bytes, or not as long as its number of entries asks",
    11: "the image has another m or k than the register, or more pixels than the register may hold",
    12: "no set of pixels has this image: its bytes were changed",
    13: "the store is damaged: something else wrote to its words",
    14: "the codes do not strictly ascend: sort them, and give each once",
    15: "the budget is zero: let the search open one block or more",
}
LARGEST_MOST = 24576
# a budget that no search can spend
UNBOUNDED = 2**32 - 1
HEAD_BYTES = 10


class Refusal(Exception):
    """A refused call: its number, what that means, and the length needed (0 but for number 9)."""

    def __init__(self, number, needed=0):
        super().__init__(f"refused {number}: {MEANINGS[number]}")
        self.number = number
        self.meaning = MEANINGS[number]
        self.needed = needed


class LibraryMissing(Exception):
    """The shared library is not there."""


class Asked(NamedTuple):
    marked: bool
    opened: int
    level: int
    code: int

    @property
    def square(self):
        """The square of the block that level and code name, as (x0, y0, x1, y1), both corners included: count and list take it as a window."""
        return square_of(self.level, self.code)


class Nearest(NamedTuple):
    pixel: Optional[tuple]
    distance: int
    opened: int
    limit: int
    complete: bool


class Counted(NamedTuple):
    found: int
    opened: int


class Listed(NamedTuple):
    codes: list
    opened: int


class _Answer(ctypes.Structure):
    _fields_ = [("refusal", ctypes.c_uint32), ("first", ctypes.c_uint32), ("second", ctypes.c_uint32)]


class _Place(ctypes.Structure):
    _fields_ = [(name, ctypes.c_uint32) for name in ("refusal", "marked", "opened", "level", "code")]


class _NearestAnswer(ctypes.Structure):
    _fields_ = [(name, ctypes.c_uint64) for name in ("distance", "limit")] + [
        (name, ctypes.c_uint32) for name in ("refusal", "found", "code", "opened", "complete")
    ]


_NUMBER = ctypes.c_uint32
_WORDS = [ctypes.POINTER(ctypes.c_uint32), ctypes.c_size_t]
_BYTES = [ctypes.POINTER(ctypes.c_uint8), ctypes.c_size_t]
_SIGNATURES = {
    "pk_words": (ctypes.c_uint64, [_NUMBER] * 2),
    "pk_make": (_NUMBER, _WORDS + [_NUMBER] * 3),
    "pk_mark": (_NUMBER, _WORDS + [_NUMBER] * 2),
    "pk_clear": (_NUMBER, _WORDS + [_NUMBER] * 2),
    "pk_load": (_NUMBER, _WORDS + _BYTES),
    "pk_fill": (_NUMBER, _WORDS + _WORDS),
    "pk_ask": (_Place, _WORDS + [_NUMBER] * 2),
    "pk_nearest": (_NearestAnswer, _WORDS + [_NUMBER] * 3),
    "pk_count": (_Answer, _WORDS + [_NUMBER] * 4),
    "pk_list": (_Answer, _WORDS + [_NUMBER] * 4 + _WORDS),
    "pk_save": (_Answer, _WORDS + _BYTES),
    "pk_check": (_Answer, _WORDS),
}


def open_library():
    """The shared library: PKREG_LIBRARY, or that of this version in build/ of this repository."""
    name = "libpkreg.so." + __version__.split(".")[0]
    beside = os.path.join(os.path.dirname(os.path.abspath(__file__)), "..", "build", name)
    path = os.environ.get("PKREG_LIBRARY") or os.path.normpath(beside)
    try:
        library = ctypes.CDLL(path)
    except OSError as error:
        raise LibraryMissing(f"cannot open the library {path}: run 'make lib', or name it by PKREG_LIBRARY") from error
    for name, (result, arguments) in _SIGNATURES.items():
        function = getattr(library, name)
        function.restype, function.argtypes = result, arguments
    return library


_library = None


def _calls():
    """The library, opened by the first call: so that importing this module cannot fail."""
    global _library
    if _library is None:
        _library = open_library()
    return _library


def _number(value):
    """An argument of 32 bits: ctypes would cut a larger one to another, valid number, and takes no integers of other libraries."""
    value = operator.index(value)
    if not 0 <= value < 2**32:
        raise ValueError(f"{value} is not a number of 32 bits")
    return value


def _words_of(numbers):
    """Numbers of 32 bits, to be lent; an array of another library is lent as a copy of its items."""
    numbers = [_number(number) for number in numbers]
    return (ctypes.c_uint32 * len(numbers))(*numbers)


def words(k, most):
    """The words that a register of this k for so many pixels needs; 0 beyond the limits."""
    return _calls().pk_words(_number(k), _number(most))


def code_of(x, y):
    """The code of a pixel, x and y from 0 to 65535: bit i of x is bit 2i, bit i of y is bit 2i + 1. Higher bits are cut off."""
    return sum((x >> i & 1) << 2 * i | (y >> i & 1) << 2 * i + 1 for i in range(16))


def pixel_of(code):
    """The pixel (x, y) of a code."""
    x = sum((code >> 2 * i & 1) << i for i in range(16))
    y = sum((code >> 2 * i + 1 & 1) << i for i in range(16))
    return x, y


def square_of(level, code):
    """The square of a block, as (x0, y0, x1, y1), both corners included; a pixel is a block of level 0."""
    x, y = pixel_of(code)
    return x, y, x + 2**level - 1, y + 2**level - 1


class Entry(NamedTuple):
    level: int
    code: int


class Sizes(NamedTuple):
    order: int
    k: int
    entries: int
    pixels: int


def sizes_of(image):
    """The sizes at the head of an image; the bytes are not judged beyond their number."""
    if len(image) < HEAD_BYTES:
        raise Refusal(10)
    return Sizes(image[0], image[1], int.from_bytes(image[2:6], "little"), int.from_bytes(image[6:10], "little"))


def entries_of(image):
    """The entries of an image that was loaded or saved, in its order."""
    number = sizes_of(image).entries
    levels = HEAD_BYTES + 4 * number
    return [
        Entry(image[levels + i], int.from_bytes(image[HEAD_BYTES + 4 * i : HEAD_BYTES + 4 * i + 4], "little"))
        for i in range(number)
    ]


class Register:
    """A register in words of its own. Use Register.make, Register.from_image or Register.from_pixels."""

    def __init__(self, number_of_words):
        self._words = (ctypes.c_uint32 * number_of_words)()
        self._lent = (self._words, len(self._words))

    @classmethod
    def make(cls, m, k, most):
        """An empty register of order m, with this k, for at most so many pixels (N in the specification)."""
        register = cls(words(k, most))
        register._done(_calls().pk_make(*register._lent, _number(m), _number(k), _number(most)))
        return register

    @classmethod
    def from_image(cls, image):
        """A register of the image's own sizes that holds its pixels, with no room for more (for one, if it has none); Refusal 11 for more pixels than LARGEST_MOST, as
        versions before 1.6.0 could save."""
        sizes = sizes_of(image)
        register = cls.make(sizes.order, sizes.k, min(max(sizes.pixels, 1), LARGEST_MOST))
        register.load(image)
        return register

    @classmethod
    def from_pixels(cls, m, k, pixels, most=None):
        """A register of order m, with this k, that holds these pixels, (x, y) each, in any order and doubles taken once; if `most` is not
        given, there is no room for more (for one, if there are none). Refusal 6 for more pixels than `most` or LARGEST_MOST."""
        pixels = {(operator.index(x), operator.index(y)) for x, y in pixels}
        register = cls.make(m, k, min(max(len(pixels), 1), LARGEST_MOST) if most is None else most)
        register.fill(sorted(register._code(x, y) for x, y in pixels))
        return register

    @property
    def order(self):
        return self._words[1]

    @property
    def side(self):
        return 2**self.order

    @property
    def most(self):
        """The most pixels that the register may hold."""
        return self._words[3]

    def mark(self, x, y):
        """Marks a pixel; Refusal 5 if it is marked already, 6 if the register is full."""
        self._done(_calls().pk_mark(*self._lent, _number(x), _number(y)))

    def clear(self, x, y):
        """Clears a pixel; Refusal 7 if it is not marked."""
        self._done(_calls().pk_clear(*self._lent, _number(x), _number(y)))

    def load(self, image):
        """The register holds exactly the image's pixels afterwards."""
        lent = (ctypes.c_uint8 * len(image)).from_buffer_copy(image)
        self._done(_calls().pk_load(*self._lent, lent, len(image)))

    def fill(self, codes):
        """The register holds exactly the pixels of these codes afterwards, which must lie on the panel (Refusal 4), be no more than it may hold
        (6) and strictly ascend (14); code_of gives a pixel's code."""
        lent = _words_of(codes)
        self._done(_calls().pk_fill(*self._lent, lent, len(lent)))

    def ask(self, x, y):
        """Whether the pixel is marked, the blocks opened, and the level and code of the smallest block of the tree that contains the pixel,
        marked or not: the whole panel where there is no smaller one. The pixel is marked exactly when it is an element of that block."""
        answer = _calls().pk_ask(*self._lent, _number(x), _number(y))
        self._done(answer.refusal)
        return Asked(answer.marked == 1, answer.opened, answer.level, answer.code)

    def nearest(self, x, y, budget=UNBOUNDED):
        """The marked pixel nearest to this one, as far as a search that opens so many blocks at most can tell; of equally near pixels that of
        the lowest code. pixel is the nearest one found, as (x, y), or None, and distance its squared distance, 0 beside None. No marked pixel
        has a squared distance below limit, also where the search ended early. Where complete is True, the pixel is the nearest of all, or
        None as nothing is marked. Refusal 15 for a budget of 0."""
        answer = _calls().pk_nearest(*self._lent, *map(_number, (x, y, budget)))
        self._done(answer.refusal)
        pixel = pixel_of(answer.code) if answer.found else None
        return Nearest(pixel, answer.distance, answer.opened, answer.limit, answer.complete == 1)

    def count(self, x0, y0, x1, y1):
        """The marked pixels in the window, both corners included, and the blocks opened, which are those that share a pixel with it without
        lying wholly inside: of its part on the panel, where it reaches past that. Give 0 for a corner
        below 0: a negative number raises ValueError."""
        answer = self._answer(_calls().pk_count(*self._lent, *map(_number, (x0, y0, x1, y1))))
        return Counted(answer.first, answer.second)

    def list(self, x0, y0, x1, y1):
        """The code of each marked pixel in the window, in rising order, and the blocks opened, which are all that share a pixel with it;
        pixel_of gives a code's x and y."""
        output = (ctypes.c_uint32 * self.most)()
        answer = self._answer(_calls().pk_list(*self._lent, *map(_number, (x0, y0, x1, y1)), output, len(output)))
        return Listed(output[: answer.first], answer.second)

    def save(self):
        """The image, as bytes."""
        try:
            return self._save_into(0)
        except Refusal as refusal:
            if refusal.number != 9:
                raise
            return self._save_into(refusal.needed)

    def check(self):
        """Whether the store is sound, and not damaged."""
        return self._answer(_calls().pk_check(*self._lent)).first == 1

    def _code(self, x, y):
        """The code of a pixel of this panel; code_of would cut a larger coordinate to 16 bits."""
        if not (0 <= x < self.side and 0 <= y < self.side):
            raise Refusal(4)
        return code_of(x, y)

    def _save_into(self, length):
        output = (ctypes.c_uint8 * length)()
        answer = self._answer(_calls().pk_save(*self._lent, output, length))
        return bytes(output[: answer.first])

    @staticmethod
    def _done(refusal):
        if refusal:
            raise Refusal(refusal)

    @staticmethod
    def _answer(answer):
        if answer.refusal:
            raise Refusal(answer.refusal, answer.first)
        return answer
