"""The program pkshow, as it is built, on images and on what is none: what it prints is compared with the model.

Its own buffers are what no proof speaks of, so the inputs are about as long as the longest image that it shows, 4,010 bytes.
"""

import argparse
import os
import random
import subprocess
import sys
import time

import choices
from model import Model, entries_of, image_of, interleave, judge_image, within

ROOT = os.path.normpath(os.path.join(os.path.dirname(os.path.abspath(__file__)), ".."))
CRATE = os.path.join(ROOT, "crates", "pkshow")
BUILT = os.path.join(CRATE, "out", "pkshow")
MOST, LONGEST = 400, 4010
EMPTY = bytes.fromhex("03 03 01000000 00000000 00000000 03")


def expected_of(image):
    """What is printed, by the specification."""
    if not 2 <= len(image) <= LONGEST:
        return "refused 10\n"
    order, k = image[:2]
    if not (within("m", order) and within("k", k)):
        return "refused 1\n"
    refusal, codes = judge_image(order, k, MOST, image)
    if refusal:
        return f"refused {refusal}\n"
    entries = entries_of(order, k, codes)
    lines = [f"panel {order} {k} {len(entries) - len(codes)} {len(codes)}"] + [f"{level} {code}" for level, code in entries]
    return "\n".join(lines) + "\n"


def in_twos(order, mask, number):
    """The image of pixels (x, x & mask) with k = 2: no block has more than two quarters with pixels, so each pixel after the first brings
    one block, and the root is one more where all pixels lie in one quarter of it."""
    return image_of(order, 2, {interleave(x, x & mask) for x in range(number)})


ROW = in_twos(16, 0, MOST)

# sixteen images, and what is printed of each, or its first lines
SAMPLES = [
    (b"", "refused 10\n"),
    (bytes(1), "refused 10\n"),
    (bytes.fromhex("03 03"), "refused 10\n"),
    (bytes(2), "refused 1\n"),
    (bytes.fromhex("03 03 01000000 000000"), "refused 10\n"),
    (bytes(4011), "refused 10\n"),
    # k = 17
    (bytes.fromhex("03 11 01000000 00000000 00000000 03"), "refused 1\n"),
    # e = 2 with one entry; n = 401; no root; n = 1 without a pixel
    (bytes.fromhex("03 03 02000000 00000000 00000000 03"), "refused 10\n"),
    (bytes.fromhex("03 03 01000000 91010000 00000000 03"), "refused 11\n"),
    (bytes.fromhex("03 03 01000000 01000000 00000000 00"), "refused 12\n"),
    (bytes.fromhex("03 03 01000000 01000000 00000000 03"), "refused 12\n"),
    (EMPTY, "panel 3 3 1 0\n3 0\n"),
    (bytes.fromhex("10 02 02000000 01000000 00000000 ffffffff 10 00"), "panel 16 2 1 1\n16 0\n0 4294967295\n"),
    # a row of 400 pixels, as long as an image may be; a byte more; and with k = 17
    (ROW, "panel 16 2 400 400\n16 0\n9 0\n8 0\n7 0\n6 0\n5 0\n4 0\n3 0\n2 0\n1 0\n0 0\n0 1\n1 4\n"),
    (ROW + b"\0", "refused 10\n"),
    (bytes((16, 17)) + ROW[2:], "refused 1\n"),
]


def about_the_longest():
    """Images of 4,005 to 4,015 bytes, and the longest with something changed."""
    yield in_twos(9, 0, MOST)
    for mask in 0, 0xFFFF, 0x5A5A, 0x01FF:
        longest = in_twos(16, mask, MOST)
        yield longest
        yield longest[:-1]
        for more in b"\0", b"\xff", bytes(5):
            yield longest + more
        for at, value in (1, 3), (2, 0x21), (6, 0x91), (10, 1), (3210, 15), (4009, 1):
            yield longest[:at] + bytes((value,)) + longest[at + 1 :]
    yield in_twos(9, 0, MOST + 1)
    yield bytes((3, 3)) + bytes(LONGEST - 2)
    yield bytes(100_000)


def short():
    """Fewer bytes than a first entry has, with and without fitting sizes."""
    for length in 0, 1, 2, 9, 10, 11, 14:
        yield EMPTY[:length]
    yield bytes((3, 3)) + bytes(8)
    yield bytes(10)


def drawn(rolls):
    """Images of random sets, some damaged; k and m now and then of no register."""
    for _ in range(150):
        order, k, _ = choices.sizes(rolls)
        image = bytearray(choices.image(rolls, Model(order, k, MOST)))
        if len(image) > 1 and rolls.random() < 0.1:
            image[rolls.randrange(2)] = rolls.choice((0, 1, 17, 255))
        yield bytes(image)


def own_sample():
    """The specification's own image, which rt runs the program on."""
    with open(os.path.join(CRATE, "stdin"), "rb") as image, open(os.path.join(CRATE, "stdout")) as printed:
        return image.read(), printed.read()


def cases(rolls):
    """Each input, and what its output begins with."""
    yield own_sample()
    yield from SAMPLES
    for image in (*short(), *about_the_longest(), *drawn(rolls)):
        yield image, ""


def output_of(program, image, parts=1):
    """What the program prints of an image that is sent in so many parts."""
    process = subprocess.Popen([program], stdin=subprocess.PIPE, stdout=subprocess.PIPE, stderr=subprocess.STDOUT)
    size = -(-len(image) // parts)
    for part in range(parts - 1):
        process.stdin.write(image[part * size : (part + 1) * size])
        process.stdin.flush()
        time.sleep(0.02)
    printed = process.communicate(image[(parts - 1) * size :])[0].decode()
    return printed if process.returncode == 0 else f"status {process.returncode}, {printed}"


def first_line_apart(printed, expected):
    for number, (one, other) in enumerate(zip(printed.splitlines() + ["the end"], expected.splitlines() + ["the end"]), 1):
        if one != other:
            return f"line {number} is '{one}' and not '{other}'"
    return "the line ends differ"


def run(program, rolls):
    lengths = []
    for image, beginning in cases(rolls):
        expected = expected_of(image)
        if not expected.startswith(beginning):
            print(f"pkshow: the model says otherwise than the sample of {len(image)} bytes, {image[:40].hex()}")
            return 1
        for parts in (1, 3) if len(image) in (40, 4010, 4011) else (1,):
            printed = output_of(program, image, parts)
            if printed != expected:
                print(f"pkshow: {len(image)} bytes in {parts} parts, {image[:40].hex()}..: {first_line_apart(printed, expected)}")
                return 1
        lengths.append(len(image))
    print(f"pkshow: {len(lengths)} inputs of 0 to {max(lengths)} bytes ok, {lengths.count(LONGEST)} of them of {LONGEST}")
    return 0


def main():
    parser = argparse.ArgumentParser(description=__doc__, formatter_class=argparse.RawDescriptionHelpFormatter)
    parser.add_argument("--program", default=BUILT, help="the program to run; rt run in crates/pkshow builds it")
    program = parser.parse_args().program
    if not os.access(program, os.X_OK):
        print(f"pkshow: there is no program {program}: build it by rt run in crates/pkshow")
        return 1
    return run(program, random.Random(1))


if __name__ == "__main__":
    sys.exit(main())
