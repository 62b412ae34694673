"""Words and bytes lent to the library, between guards that no call may touch."""

import ctypes
import os
import sys

sys.path.insert(0, os.path.join(os.path.dirname(os.path.abspath(__file__)), "..", "python"))
from pkreg import open_library  # noqa: E402

GUARD = 16
LIBRARY = open_library()


class Lent:
    """A slice of numbers of one type, with GUARD numbers of a pattern on each side."""

    def __init__(self, kind, values):
        self._all = (kind * (len(values) + 2 * GUARD))(*[0xA5] * GUARD, *values, *[0xA5] * GUARD)
        self._width = ctypes.sizeof(kind)
        start = ctypes.addressof(self._all) + GUARD * self._width
        self.arguments = (ctypes.cast(start, ctypes.POINTER(kind)), len(values))

    def __len__(self):
        return self.arguments[1]

    def __getitem__(self, at):
        return self._all[GUARD + at]

    def __setitem__(self, at, value):
        self._all[GUARD + at] = value

    def values(self):
        return self._all[GUARD : GUARD + len(self)]

    def content(self):
        """All bytes, with the guards: two contents are equal if nothing was written in between."""
        return bytes(self._all)

    def put_back(self, content):
        ctypes.memmove(self._all, content, len(content))

    def same_from(self, number, content):
        """Whether the numbers from this place on and the guards are as in that content."""
        low, high = GUARD * self._width, (GUARD + number) * self._width
        now = self.content()
        return now[:low] == content[:low] and now[high:] == content[high:]


def words(values):
    return Lent(ctypes.c_uint32, values)


def octets(values):
    return Lent(ctypes.c_uint8, values)
