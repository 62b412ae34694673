"""Two laboratories mask the hot pixels of the same dark frame: what dark_frame.c does, in Python, with the same output."""

import argparse
import os
import sys

sys.path.insert(0, os.path.join(os.path.dirname(os.path.abspath(__file__)), "..", "python"))
from pkreg import LibraryMissing, Refusal, Register, code_of, pixel_of  # noqa: E402

ORDER, K, MOST, HOT = 3, 3, 16, 100

# a dark frame of 8 x 8 counts, row y, column x: what lies above HOT is unfit
DARK_FRAME = [
    [812, 640, 11, 9, 12, 10, 8, 11],
    [905, 13, 10, 12, 9, 11, 10, 12],
    [10, 9, 12, 11, 8, 13, 12, 9],
    [12, 11, 9, 10, 11, 733, 10, 8],
    [9, 10, 13, 12, 10, 9, 11, 12],
    [11, 12, 8, 9, 12, 10, 9, 11],
    [8, 9, 11, 10, 13, 12, 256, 255],
    [10, 12, 9, 11, 10, 8, 11, 498],
]


def hot_pixels():
    return [(x, y) for y, row in enumerate(DARK_FRAME) for x, count in enumerate(row) if count > HOT]


def row_by_row():
    register = Register.make(ORDER, K, MOST)
    for x, y in hot_pixels():
        register.mark(x, y)
    return register


def backwards():
    register = Register.make(ORDER, K, MOST)
    register.mark(4, 4)
    for x, y in reversed(hot_pixels()):
        register.mark(x, y)
    register.clear(4, 4)
    return register


def show_pixel(register, x, y):
    """Whether it is marked, and the square of the smallest block of the tree that contains it."""
    asked = register.ask(x, y)
    x0, y0, x1, y1 = asked.square
    print(f"pixel {x} {y}: marked {int(asked.marked)}, {asked.opened} blocks opened")
    print(f"  smallest block: x {x0} to {x1}, y {y0} to {y1}")


def show_window(register, x0, y0, x1, y1):
    listed = register.list(x0, y0, x1, y1)
    print(f"window {x0} {y0} to {x1} {y1}: {len(listed.codes)} found, {listed.opened} blocks opened")
    for code in listed.codes:
        x, y = pixel_of(code)
        print(f"  pixel {x} {y}, code {code}")


def save_to(path, register):
    image = register.save()
    with open(path, "wb") as file:
        file.write(image)
    print(f"saved {len(image)} bytes")


def read_from(path):
    with open(path, "rb") as file:
        return file.read()


def main(first, second):
    register = row_by_row()
    show_pixel(register, 5, 3)
    show_pixel(register, 6, 7)
    show_window(register, 4, 2, 7, 7)
    save_to(first, register)
    save_to(second, backwards())
    loaded = Register.from_image(read_from(first))
    last = loaded.side - 1
    print(f"loaded back: {loaded.count(0, 0, last, last).found} pixels, sound {int(loaded.check())}")
    same = read_from(first) == read_from(second)
    print(f"the two files are {'the same' if same else 'different'}")
    codes = sorted(code_of(x, y) for x, y in hot_pixels())
    loaded.fill(codes)
    filled = loaded.save() == read_from(first)
    print(f"filled at once: {len(codes)} pixels, the image is {'the same' if filled else 'different'}")
    try:
        loaded.mark(0, 0)
    except Refusal as refusal:
        print(f"marking a marked pixel is refused with {refusal.number}")
    return 0 if same and filled else 1


if __name__ == "__main__":
    parser = argparse.ArgumentParser(description=__doc__, epilog="Both files are written. Run `make lib` first.")
    parser.add_argument("first", metavar="FILE1")
    parser.add_argument("second", metavar="FILE2")
    arguments = parser.parse_args()
    try:
        sys.exit(main(arguments.first, arguments.second))
    except (LibraryMissing, OSError, Refusal) as error:
        sys.exit(f"dark_frame.py: {error}")
