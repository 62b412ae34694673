"""Mask pictures in the Netpbm formats: PBM, where 1 is masked, and PGM of greatest value 255, where 255 is masked and 0 is not.

Column x of row y is pixel (x, y); row 0 is the first of the file. Pictures are written raw (P4, P5) and read raw or plain (P1, P2).
"""

import re

# 8192 x 8192: the largest detector panels, and a PGM of 64 MiB
LARGEST_ORDER = 13
MASKED = 255


class PictureError(Exception):
    """A picture that cannot be written or read, in one line."""


def write_picture(path, order, pixels):
    """Writes the pixels of a panel as a picture, PBM or PGM by the name's ending."""
    if order > LARGEST_ORDER:
        raise PictureError(f"a panel of order {order} is too large for a picture: {LARGEST_ORDER} is the largest order")
    side = 2**order
    if path.endswith(".pbm"):
        data = b"P4\n%d %d\n" % (side, side) + _packed(side, pixels)
    elif path.endswith(".pgm"):
        data = b"P5\n%d %d\n%d\n" % (side, side, MASKED) + _spread(side, pixels)
    else:
        raise PictureError(f"{path}: a picture's name ends in .pbm or .pgm")
    with open(path, "wb") as file:
        file.write(data)


def read_picture(path):
    """The order of a picture's panel, and an iterator over its masked pixels, row by row: a picture may mask more than memory holds."""
    with open(path, "rb") as file:
        data = file.read()
    kind = data[:2]
    if kind not in _READERS:
        raise PictureError(f"{path}: not a PBM or PGM picture")
    try:
        numbers, rest = _header(data, 2 if kind in (b"P1", b"P4") else 3)
        order = _order(numbers[0], numbers[1])
        if numbers[2:] not in ([], [MASKED]):
            raise PictureError(f"the greatest value is {numbers[2]}, not {MASKED}")
        return order, _READERS[kind](rest, 2**order)
    except PictureError as error:
        raise PictureError(f"{path}: {error}") from None


def _packed(side, pixels):
    """Rows of bits, the first in a byte's highest."""
    stride = (side + 7) // 8
    rows = bytearray(stride * side)
    for x, y in pixels:
        rows[y * stride + x // 8] |= 0x80 >> x % 8
    return bytes(rows)


def _spread(side, pixels):
    """Rows of bytes."""
    rows = bytearray(side * side)
    for x, y in pixels:
        rows[y * side + x] = MASKED
    return bytes(rows)


def _header(data, number):
    """So many numbers after the kind, with comments between them, and what follows the one white space behind the last."""
    numbers, at = [], 2
    for _ in range(number):
        match = re.compile(rb"(?:\s|#[^\n]*\n)+(\d{1,9})(?=\s)").match(data, at)
        if match is None:
            raise PictureError("its header is not that of a picture")
        numbers.append(int(match[1]))
        at = match.end()
    return numbers, data[at + 1 :]


def _order(width, height):
    """The order of a panel of these sizes."""
    for order in range(1, LARGEST_ORDER + 1):
        if width == height == 2**order:
            return order
    raise PictureError(f"{width} x {height} is no panel: the sides must be equal, a power of two from 2 to {2**LARGEST_ORDER}")


def _expect(data, length):
    if len(data) < length:
        raise PictureError(f"shorter than its sizes ask: {len(data)} values of {length}")


def _read_packed(data, side):
    stride = (side + 7) // 8
    _expect(data, stride * side)
    return (
        (at % stride * 8 + bit, at // stride)
        for at, byte in enumerate(data[: stride * side])
        if byte
        for bit in range(8)
        if byte & 0x80 >> bit and at % stride * 8 + bit < side
    )


def _read_spread(data, side):
    _expect(data, side * side)
    data = data[: side * side]
    if data.translate(None, bytes((0, MASKED))):
        raise PictureError(f"a value is neither 0 nor {MASKED}")
    return _where(data, bytes((MASKED,)), side)


def _read_plain_bits(data, side):
    digits = b"".join(re.sub(rb"#[^\n]*", b"", data).split())
    _expect(digits, side * side)
    if digits.translate(None, b"01"):
        raise PictureError("a value is neither 0 nor 1")
    return _where(digits[: side * side], b"1", side)


def _read_plain_numbers(data, side):
    values = re.sub(rb"#[^\n]*", b"", data).split()
    _expect(values, side * side)
    if set(values) - {b"0", b"255"}:
        raise PictureError(f"a value is neither 0 nor {MASKED}")
    return ((at % side, at // side) for at, value in enumerate(values[: side * side]) if value != b"0")


def _where(data, value, side):
    """The pixels of a row-by-row sequence that have this value."""
    return ((match.start() % side, match.start() // side) for match in re.finditer(re.escape(value), data))


_READERS = {b"P1": _read_plain_bits, b"P2": _read_plain_numbers, b"P4": _read_packed, b"P5": _read_spread}
