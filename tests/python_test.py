"""The Python module: its results, its refusals as exceptions, and the numbers that it takes."""

import os
import subprocess
import sys

PYTHON = os.path.join(os.path.dirname(os.path.abspath(__file__)), "..", "python")
sys.path.insert(0, PYTHON)
import pkreg  # noqa: E402
from pkreg import Refusal, Register  # noqa: E402


class Whole:
    """An integer of another library, as those of an array are."""

    def __init__(self, value):
        self.value = value

    def __index__(self):
        return self.value


def raised(call, *arguments):
    """What a call raises: a refusal by its number, anything else by its name."""
    try:
        call(*arguments)
    except Refusal as refusal:
        return refusal.number, refusal.needed, str(refusal) == f"refused {refusal.number}: {refusal.meaning}"
    except (TypeError, ValueError) as error:
        return type(error).__name__
    return None


def first_pixels(number):
    """So many pixels of a panel of order 8, row by row."""
    return [(at % 256, at // 256) for at in range(number)]


def with_head(m, k, pixels):
    """Bytes as long as an image of so many pixels in one block, and with its head."""
    return bytes((m, k)) + (pixels + 1).to_bytes(4, "little") + pixels.to_bytes(4, "little") + bytes(5 * (pixels + 1))


def without_library():
    """What is said where the library is not."""
    program = "import pkreg\ntry:\n    pkreg.words(3, 9)\nexcept pkreg.LibraryMissing as error:\n    print(error)"
    environment = {**os.environ, "PKREG_LIBRARY": "/nowhere/libpkreg.so", "PYTHONPATH": PYTHON}
    return subprocess.run([sys.executable, "-c", program], env=environment, capture_output=True, text=True).stdout


def asked(register):
    """What ask tells on the first panel, and in the last corner of the largest, where two pixels make a block of level 1."""
    yield register.ask(1, 1), pkreg.Asked(marked=False, opened=2, level=1, code=0)
    yield register.ask(Whole(6), 6), pkreg.Asked(marked=True, opened=1, level=3, code=0)
    yield [register.ask(x, y).square for x, y in ((0, 1), (3, 3))], [(0, 0, 1, 1), (0, 0, 7, 7)]
    wrong = ((8, 0), (0, 8), (-1, 0), (0, 1.5))
    yield [raised(register.ask, *pixel) for pixel in wrong], [(4, 0, True), (4, 0, True), "ValueError", "TypeError"]
    corner = Register.from_pixels(16, 2, [(65534, 65535), (65535, 65534)])
    yield corner.ask(65535, 65534), pkreg.Asked(marked=True, opened=2, level=1, code=2**32 - 4)
    yield corner.ask(65534, 65534), pkreg.Asked(marked=False, opened=2, level=1, code=2**32 - 4)
    yield (corner.ask(65535, 65535).square, corner.ask(65533, 65535).square), ((65534, 65534, 65535, 65535), (0, 0, 65535, 65535))


def cases():
    """What is told, and what is expected: the specification's first panel."""
    register = Register.make(3, 3, 9)
    for x, y in (6, 6), (0, 1), (1, 0), (Whole(0), Whole(0)):
        register.mark(x, y)
    yield (register.order, register.side, register.most), (3, 8, 9)
    yield from asked(register)
    yield register.nearest(4, 0, 1), pkreg.Nearest(pixel=(6, 6), distance=40, opened=1, limit=9, complete=False)
    yield register.nearest(4, 0), pkreg.Nearest(pixel=(1, 0), distance=9, opened=2, limit=9, complete=True)
    yield register.count(4, 4, 7, 7), pkreg.Counted(found=1, opened=1)
    yield register.list(0, 0, 7, 7), pkreg.Listed(codes=[0, 1, 2, 60], opened=2)
    yield (register.count(6, 6, 9, 2**32 - 1), register.list(8, 0, 9, 7)), (pkreg.Counted(found=1, opened=1), pkreg.Listed(codes=[], opened=0))
    image = register.save()
    yield pkreg.sizes_of(image), pkreg.Sizes(order=3, k=3, entries=6, pixels=4)
    yield pkreg.entries_of(image), [(3, 0), (1, 0), (0, 0), (0, 1), (0, 2), (0, 60)]
    yield Register.from_image(image).save(), image
    yield (register.check(), pkreg.words(3, 9), pkreg.words(1, 9)), (True, 148, 0)
    yield raised(register.mark, 0, 0), (5, 0, True)
    yield raised(register.clear, 3, 3), (7, 0, True)
    yield [raised(register.count, *window) for window in ((1, 0, 0, 0), (9, 0, 8, 0), (-1, 0, 3, 3))], [(8, 0, True), (8, 0, True), "ValueError"]
    yield [raised(register.nearest, *search) for search in ((8, 0, 0), (7, 0, 0), (0, 0, 2**32))], [(4, 0, True), (15, 0, True), "ValueError"]
    yield raised(register.load, b""), (10, 0, True)
    yield raised(Register.from_image, image[:9]), (10, 0, True)
    yield [raised(Register.make, *sizes) for sizes in ((0, 3, 9), (3, 17, 9), (3, 3, 24577), (3, 3, 65535))], [(1, 0, True)] * 4
    yield (Register.make(3, 3, 24576).most, pkreg.LARGEST_MOST, pkreg.MEANINGS[1][-10:]), (24576, 24576, "1 to 24576")
    yield [pkreg.words(3, most) for most in (24576, 24577, 65535)], [344072, 0, 0]
    yield [raised(register.mark, x, 0) for x in (-1, 2**32, 1.5, "1")], ["ValueError", "ValueError", "TypeError", "TypeError"]
    yield (pkreg.code_of(5, 3), pkreg.pixel_of(2**32 - 1)), (27, (65535, 65535))
    yield [pkreg.square_of(*block) for block in ((0, 27), (2, 32), (16, 0))], [(5, 3, 5, 3), (0, 4, 3, 7), (0, 0, 65535, 65535)]
    filled = Register.make(3, 3, 4)
    filled.fill([0, 1, Whole(2), 60])
    yield (filled.save() == image, filled.check()), (True, True)
    wrong = ([64], [0, 1, 2, 3, 4], [3, 3], [2, 1])
    yield [raised(filled.fill, codes) for codes in wrong], [(4, 0, True), (6, 0, True), (14, 0, True), (14, 0, True)]
    yield [raised(filled.fill, codes) for codes in ([-1], [2**32], [1.5], 7)], ["ValueError", "ValueError", "TypeError", "TypeError"]
    yield filled.save(), image
    filled.fill(())
    yield filled.count(0, 0, 7, 7), pkreg.Counted(found=0, opened=0)
    yield filled.nearest(4, Whole(0), 1), pkreg.Nearest(pixel=None, distance=0, opened=1, limit=0, complete=True)
    far = Register.from_pixels(16, 2, [(65535, 65535)]).nearest(0, 0)
    yield far, pkreg.Nearest(pixel=(65535, 65535), distance=8589672450, opened=1, limit=8589672450, complete=True)
    pixels = Register.from_pixels(3, 3, ((x, y) for x, y in [(6, 6), (0, 1), (Whole(1), 0), (0, 0), (0, 1)]))
    yield (pixels.save() == image, pixels.most), (True, 4)
    yield (Register.from_pixels(3, 3, []).most, Register.from_pixels(3, 3, [(5, 5)], most=9).most), (1, 9)
    yield [raised(Register.from_pixels, *given) for given in ((3, 3, [(8, 0)]), (3, 3, [(0, 0), (1, 1)], 1), (17, 3, []))], [(4, 0, True), (6, 0, True), (1, 0, True)]
    yield raised(Register.from_pixels, 3, 3, [(-1, 0)]), (4, 0, True)
    largest = Register.from_pixels(8, 3, first_pixels(24576))
    yield (largest.most, largest.count(0, 0, 255, 255).found, Register.from_image(largest.save()).save() == largest.save()), (24576, 24576, True)
    yield [raised(Register.from_pixels, 8, 3, first_pixels(number)) for number in (24577, 65535)], [(6, 0, True)] * 2
    # only the head and the length of these bytes are an image's: they are judged first, by 11, and what is within that is refused with 12
    yield [raised(Register.from_image, with_head(8, 3, number)) for number in (24576, 24577, 65535)], [(12, 0, True), (11, 0, True), (11, 0, True)]
    yield without_library(), "cannot open the library /nowhere/libpkreg.so: run 'make lib', or name it by PKREG_LIBRARY\n"


def main():
    number = 0
    for told, expected in cases():
        number += 1
        if told != expected:
            print(f"python: {told} and not {expected}")
            return 1
    print(f"python: {number} facts of the module ok")
    return 0


if __name__ == "__main__":
    sys.exit(main())
