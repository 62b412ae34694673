"""Images of registers of unfit pixels: show them, ask for a pixel's cluster, list a window, compare two, turn them into mask pictures and back."""

import argparse
import itertools
import os
import sys

from pictures import PictureError, read_picture, write_picture
from pkreg import LARGEST_MOST, LibraryMissing, Refusal, Register, __version__, code_of, entries_of, pixel_of, sizes_of, square_of

# the image of the most pixels in the most blocks that a version before 1.6.0 could save: it is read whole, so that it is refused for its
# many pixels and not as a file that was cut
LONGEST_IMAGE = 10 + 5 * (2 * 65535)
PICTURES = """A picture is PBM (name ending .pbm), where 1 is masked, or PGM (.pgm) of greatest value 255, where 255 is masked and 0 is not.
Column x of row y is pixel (x, y); row 0 is the first row of the file. Its sides are equal, a power of two from 2 to 8192."""
CLUSTER = """The cluster of a pixel is the smallest block of the image's tree that contains it, masked or not: the whole panel where there is no
smaller one. opened is the number of blocks that contain the pixel."""
WINDOW = "opened is the number of blocks of the image's tree that share a pixel with the window."
TOO_MANY = f"more masked pixels than the {LARGEST_MOST} that a register holds"
DIFFERENT, FAILED = 1, 2


class UserError(Exception):
    """What the user is told, in one line."""


def read_image(path):
    """The bytes of an image, and a register that holds its pixels: so a damaged image is refused before it is shown."""
    with open(path, "rb") as file:
        image = file.read(LONGEST_IMAGE + 1)
    try:
        return image, Register.from_image(image)
    except Refusal as refusal:
        # the register has the image's own m and k, so only the number of its pixels can be meant
        if refusal.number == 11:
            raise UserError(f"{path}: {TOO_MANY}") from None
        raise UserError(f"{path}: not a whole image: {refusal}") from None


def pixels_of(register):
    last = register.side - 1
    return [pixel_of(code) for code in register.list(0, 0, last, last).codes]


def square_text(level, code):
    x0, y0, x1, y1 = square_of(level, code)
    return f"level {level} code {code}: x {x0} to {x1}, y {y0} to {y1}"


def show(arguments):
    image, register = read_image(arguments.image)
    sizes = sizes_of(image)
    blocks = sizes.entries - sizes.pixels
    print(f"order {sizes.order}, side {register.side}, k {sizes.k}, blocks {blocks}, pixels {sizes.pixels}")
    for level, code in entries_of(image):
        if level:
            print(f"block {square_text(level, code)}")
        else:
            x, y = pixel_of(code)
            print(f"pixel code {code}: x {x}, y {y}")
    return 0


def ask(arguments):
    _, register = read_image(arguments.image)
    asked = register.ask(arguments.x, arguments.y)
    print(f"{'masked' if asked.marked else 'not masked'}, opened {asked.opened}")
    print(f"cluster {square_text(asked.level, asked.code)}")
    return 0


def list_window(arguments):
    _, register = read_image(arguments.image)
    window = (arguments.x0, arguments.y0, arguments.x1, arguments.y1)
    listed = register.list(*window)
    print(f"found {len(listed.codes)}, opened {listed.opened}")
    for code in listed.codes:
        x, y = pixel_of(code)
        print(f"pixel code {code}: x {x}, y {y}")
    return 0


def compare(arguments):
    first, second = read_image(arguments.image)[1], read_image(arguments.other)[1]
    if first.order != second.order:
        raise UserError(f"{arguments.image} is of order {first.order} and {arguments.other} of order {second.order}: no panel is of both")
    one, other = set(pixels_of(first)), set(pixels_of(second))
    if one == other:
        print(f"the images mask alike, masked pixels: {len(one)}")
        return 0
    print(f"the images mask differently, differing pixels: {len(one ^ other)}")
    for x, y in sorted(one ^ other, key=lambda pixel: code_of(*pixel)):
        print(f"only in {arguments.image if (x, y) in one else arguments.other}: x {x}, y {y}")
    return DIFFERENT


def to_picture(arguments):
    _, register = read_image(arguments.image)
    write_picture(arguments.picture, register.order, pixels_of(register))
    return 0


def to_image(arguments):
    order, masked = read_picture(arguments.picture)
    pixels = list(itertools.islice(masked, LARGEST_MOST + 1))
    if len(pixels) > LARGEST_MOST:
        raise UserError(f"{arguments.picture}: {TOO_MANY}")
    register = Register.from_pixels(order, arguments.k, pixels)
    with open(arguments.image, "wb") as file:
        file.write(register.save())
    return 0


def coordinate(text):
    value = int(text)
    if not 0 <= value < 2**32:
        raise argparse.ArgumentTypeError(f"{text} is not from 0 to {2**32 - 1}")
    return value


def parse(words):
    parser = argparse.ArgumentParser(prog="pkmask", description=__doc__, epilog="Status: 0 done, 1 the images mask differently, 2 an error.")
    parser.add_argument("--version", action="version", version=f"pkmask {__version__}")
    commands = parser.add_subparsers(metavar="COMMAND", required=True)

    def command(name, run, says, *files, **more):
        added = commands.add_parser(name, help=says, description=says, formatter_class=argparse.RawDescriptionHelpFormatter, **more)
        added.set_defaults(run=run)
        for file in files:
            added.add_argument(file)
        return added

    command("show", show, "show an image's sizes and its entries, in the image's order", "image")
    pixel = command("ask", ask, "say whether a pixel is masked, and where its cluster lies", "image", epilog=CLUSTER)
    window = command("list", list_window, "list the masked pixels of a window, both corners included; it may reach past the panel", "image", epilog=WINDOW)
    for added, names in ((pixel, ("x", "y")), (window, ("x0", "y0", "x1", "y1"))):
        for name in names:
            added.add_argument(name, type=coordinate)
    command("compare", compare, "say whether two images mask alike, and which pixels differ", "image", "other")
    command("picture", to_picture, "write an image's mask as a picture", "image", "picture", epilog=PICTURES)
    back = command("image", to_image, "write the image of a mask picture", "picture", "image", epilog=PICTURES)
    back.add_argument("--k", type=coordinate, required=True, help="k of the register, 2 to 16; images are compared by bytes at the same k")
    return parser.parse_args(words)


def main(words):
    arguments = parse(words)
    try:
        status = arguments.run(arguments)
        sys.stdout.flush()
        return status
    except BrokenPipeError:
        # the reader of the output has gone: nothing is left to say, and to no one
        os.dup2(os.open(os.devnull, os.O_WRONLY), sys.stdout.fileno())
        return FAILED
    except OSError as error:
        print(f"pkmask: {error.filename or 'output'}: {error.strerror}", file=sys.stderr)
    except (UserError, Refusal, PictureError, LibraryMissing) as error:
        print(f"pkmask: {error}", file=sys.stderr)
    return FAILED


if __name__ == "__main__":
    sys.exit(main(sys.argv[1:]))
