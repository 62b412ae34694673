"""The command line on sample files: what it writes, its error lines and its statuses."""

import os
import subprocess
import sys
import tempfile

ROOT = os.path.join(os.path.dirname(os.path.abspath(__file__)), "..")
PKMASK = os.path.join(ROOT, "python", "pkmask.py")


def entry_bytes(m, k, pixels, entries):
    """An image from its entries, written out as (level, code)."""
    head = bytes((m, k)) + len(entries).to_bytes(4, "little") + pixels.to_bytes(4, "little")
    return head + b"".join(code.to_bytes(4, "little") for _, code in entries) + bytes(level for level, _ in entries)


# the specification's first panel, and the same after code 1 is cleared
FIRST = entry_bytes(3, 3, 4, [(3, 0), (1, 0), (0, 0), (0, 1), (0, 2), (0, 60)])
CLEARED = entry_bytes(3, 3, 3, [(3, 0), (0, 0), (0, 2), (0, 60)])
# the first panel's pixels by row: (0, 0), (1, 0), (0, 1) and (6, 6)
PICTURE = b"P1\n# row 0 first\n8 8\n11000000\n10000000\n" + b"00000000\n" * 4 + b"00000010\n00000000\n"
GRAY = b"P5\n8 8\n255\n" + bytes(255 if at in (0, 1, 8, 54) else 0 for at in range(64))
# 96 rows of 256, which are the 24,576 pixels that a register holds at most
LARGEST = b"P4\n256 256\n" + b"\xff" * (96 * 32) + bytes(160 * 32)
PACKED = b"P4\n8 8\n" + bytes((0xC0, 0x80, 0, 0, 0, 0, 0x02, 0))

FILES = {
    "first.img": FIRST,
    "cleared.img": CLEARED,
    "corner.img": entry_bytes(3, 3, 3, [(3, 0), (1, 60), (0, 60), (0, 61), (0, 63)]),
    "otherk.img": entry_bytes(3, 4, 4, [(3, 0), (0, 0), (0, 1), (0, 2), (0, 60)]),
    "small.img": entry_bytes(1, 2, 0, [(1, 0)]),
    "large.img": entry_bytes(16, 2, 1, [(16, 0), (0, 5)]),
    "cut.img": FIRST[:-1],
    "changed.img": FIRST[:14] + b"\1" + FIRST[15:],
    "empty.img": b"",
    "text.img": b"this is no image, but a text of some length",
    "plain.pbm": PICTURE,
    "gray.pgm": GRAY,
    "wide.pbm": b"P4\n16 8\n" + bytes(16),
    "short.pgm": GRAY[:-1],
    "half.pgm": GRAY[:-1] + b"\x80",
    "all.pbm": b"P4\n512 512\n" + b"\xff" * (512 * 64),
    "largest.pbm": LARGEST,
    "beyond.pbm": b"P4\n256 256\n" + b"\xff" * (96 * 32) + b"\x80" + bytes(160 * 32 - 1),
    "older.pbm": b"P4\n256 256\n" + b"\xff" * (256 * 32 - 1) + b"\xfe",
    # as many pixels as an older version could save, and as many blocks: the number of pixels is judged before the entries
    "beyond.img": entry_bytes(8, 2, 24577, [(8, 0)] + [(0, code) for code in range(24577)]),
    "older.img": entry_bytes(8, 2, 65535, [(8, 0)] * 65535 + [(0, code) for code in range(65535)]),
}

SHOWN = """order 3, side 8, k 3, blocks 2, pixels 4
block level 3 code 0: x 0 to 7, y 0 to 7
block level 1 code 0: x 0 to 1, y 0 to 1
pixel code 0: x 0, y 0
pixel code 1: x 1, y 0
pixel code 2: x 0, y 1
pixel code 60: x 6, y 6
"""
LIMITS = "refused 1: m, k or most is beyond its limits: m is 1 to 16, k 2 to 16, most 1 to 24576"
OFF_PANEL = "refused 4: a pixel or a code is not on the panel"
TOO_MANY = "more masked pixels than the 24576 that a register holds"
CHANGED = "not a whole image: refused 12: no set of pixels has this image: its bytes were changed"
CUT = "not a whole image: refused 10: not an image: under 10 bytes, or not as long as its number of entries asks"

# the words, the status, and what is written: to the output with status 0 and 1, as the one line of error with 2
RUNS = [
    ("show first.img", 0, SHOWN),
    ("show small.img", 0, "order 1, side 2, k 2, blocks 1, pixels 0\nblock level 1 code 0: x 0 to 1, y 0 to 1\n"),
    ("ask first.img 1 1", 0, "not masked, opened 2\ncluster level 1 code 0: x 0 to 1, y 0 to 1\n"),
    ("ask first.img 0 1", 0, "masked, opened 2\ncluster level 1 code 0: x 0 to 1, y 0 to 1\n"),
    ("ask first.img 6 6", 0, "masked, opened 1\ncluster level 3 code 0: x 0 to 7, y 0 to 7\n"),
    ("ask first.img 7 7", 0, "not masked, opened 1\ncluster level 3 code 0: x 0 to 7, y 0 to 7\n"),
    ("ask corner.img 6 7", 0, "not masked, opened 2\ncluster level 1 code 60: x 6 to 7, y 6 to 7\n"),
    ("list first.img 4 4 7 7", 0, "found 1, opened 1\npixel code 60: x 6, y 6\n"),
    ("list first.img 2 2 3 3", 0, "found 0, opened 1\n"),
    ("list first.img 6 6 9 4294967295", 0, "found 1, opened 1\npixel code 60: x 6, y 6\n"),
    ("list first.img 8 0 9 7", 0, "found 0, opened 0\n"),
    ("compare first.img first.img", 0, "the images mask alike, masked pixels: 4\n"),
    ("compare first.img otherk.img", 0, "the images mask alike, masked pixels: 4\n"),
    ("compare first.img cleared.img", 1, "the images mask differently, differing pixels: 1\nonly in first.img: x 1, y 0\n"),
    ("picture first.img first.pbm", 0, ""),
    ("picture first.img first.pgm", 0, ""),
    ("image plain.pbm plain.img --k 3", 0, ""),
    ("image first.pbm packed.img --k 3", 0, ""),
    ("image gray.pgm gray.img --k 3", 0, ""),
    ("image largest.pbm largest.img --k 3", 0, ""),
    ("compare largest.img largest.img", 0, "the images mask alike, masked pixels: 24576\n"),
    ("picture largest.img again.pbm", 0, ""),
    ("show missing.img", 2, "missing.img: No such file or directory"),
    ("show cut.img", 2, f"cut.img: {CUT}"),
    ("show empty.img", 2, f"empty.img: {CUT}"),
    ("show changed.img", 2, f"changed.img: {CHANGED}"),
    ("show text.img", 2, f"text.img: not a whole image: {LIMITS}"),
    ("ask cut.img 0 0", 2, f"cut.img: {CUT}"),
    ("ask first.img 8 0", 2, OFF_PANEL),
    ("ask first.img 0 4294967295", 2, OFF_PANEL),
    ("list first.img 4 0 3 0", 2, "refused 8: the window is reversed: x0 > x1 or y0 > y1"),
    ("compare first.img small.img", 2, "first.img is of order 3 and small.img of order 1: no panel is of both"),
    ("picture large.img large.pbm", 2, "a panel of order 16 is too large for a picture: 13 is the largest order"),
    ("picture first.img first.png", 2, "first.png: a picture's name ends in .pbm or .pgm"),
    ("picture first.img no/first.pbm", 2, "no/first.pbm: No such file or directory"),
    ("image wide.pbm x.img --k 3", 2, "wide.pbm: 16 x 8 is no panel: the sides must be equal, a power of two from 2 to 8192"),
    ("image short.pgm x.img --k 3", 2, "short.pgm: shorter than its sizes ask: 63 values of 64"),
    ("image half.pgm x.img --k 3", 2, "half.pgm: a value is neither 0 nor 255"),
    ("image first.img x.img --k 3", 2, "first.img: not a PBM or PGM picture"),
    ("image all.pbm x.img --k 3", 2, f"all.pbm: {TOO_MANY}"),
    ("image beyond.pbm x.img --k 3", 2, f"beyond.pbm: {TOO_MANY}"),
    ("image older.pbm x.img --k 3", 2, f"older.pbm: {TOO_MANY}"),
    ("show beyond.img", 2, f"beyond.img: {TOO_MANY}"),
    ("show older.img", 2, f"older.img: {TOO_MANY}"),
    ("image plain.pbm x.img --k 17", 2, LIMITS),
]

# words that are no command line: status 2, the usage, and this as the last line of error
MISUSES = [
    ("ask first.img 1", "pkmask ask: error: the following arguments are required: y"),
    ("ask first.img", "pkmask ask: error: the following arguments are required: x, y"),
    ("ask first.img 1 one", "pkmask ask: error: argument y: invalid coordinate value: 'one'"),
    ("ask first.img 1.5 1", "pkmask ask: error: argument x: invalid coordinate value: '1.5'"),
    ("ask first.img -1 1", "pkmask ask: error: argument x: -1 is not from 0 to 4294967295"),
    ("ask first.img 1 4294967296", "pkmask ask: error: argument y: 4294967296 is not from 0 to 4294967295"),
    ("ask first.img 1 1 1", "pkmask: error: unrecognized arguments: 1"),
    ("list first.img 0 0 1", "pkmask list: error: the following arguments are required: y1"),
    ("list first.img 0 0 1 -1", "pkmask list: error: argument y1: -1 is not from 0 to 4294967295"),
]

# what the runs above have written
WRITTEN = {"first.pbm": PACKED, "first.pgm": GRAY, "plain.img": FIRST, "packed.img": FIRST, "gray.img": FIRST, "again.pbm": LARGEST}


def failure(folder, line, status, expected):
    """What is wrong with a run, or nothing."""
    run = subprocess.run([sys.executable, PKMASK, *line.split()], cwd=folder, capture_output=True, text=True)
    written = ("", f"pkmask: {expected}\n") if status == 2 else (expected, "")
    if (run.returncode, run.stdout, run.stderr) == (status, *written):
        return ""
    return f"pkmask {line}: status {run.returncode} and not {status}, wrote\n{run.stdout}{run.stderr}and not\n{''.join(written)}"


def misuse(folder, line, expected):
    """What is wrong with a run that is to be refused for its words, or nothing."""
    run = subprocess.run([sys.executable, PKMASK, *line.split()], cwd=folder, capture_output=True, text=True)
    first, last = run.stderr.startswith("usage: pkmask"), run.stderr.splitlines()[-1:]
    if (run.returncode, run.stdout, first, last) == (2, "", True, [expected]):
        return ""
    return f"pkmask {line}: status {run.returncode} and not 2, wrote\n{run.stdout}{run.stderr}and not at last\n{expected}"


def helps():
    """Each command says how it is used, ask what a cluster is, and those of pictures which value is masked."""
    pictures = (("picture",), "1 is masked"), (("image",), "255 is masked")
    for command, says in ((), "compare"), (("ask",), "cluster of a pixel is"), (("list",), "both corners"), *pictures:
        run = subprocess.run([sys.executable, PKMASK, *command, "--help"], capture_output=True, text=True)
        if run.returncode != 0 or says not in run.stdout:
            return f"pkmask {' '.join(command)} --help: no '{says}' in\n{run.stdout}{run.stderr}"
    return ""


def first_failure():
    with tempfile.TemporaryDirectory() as folder:
        for name, content in FILES.items():
            with open(os.path.join(folder, name), "wb") as file:
                file.write(content)
        for line, status, expected in RUNS:
            wrong = failure(folder, line, status, expected)
            if wrong:
                return wrong
        for line, expected in MISUSES:
            wrong = misuse(folder, line, expected)
            if wrong:
                return wrong
        for name, content in WRITTEN.items():
            with open(os.path.join(folder, name), "rb") as file:
                if file.read() != content:
                    return f"{name} has other bytes than expected"
    return helps()


def main():
    wrong = first_failure()
    print(wrong or f"pkmask: {len(RUNS) + len(MISUSES)} command lines and {len(WRITTEN)} written files ok")
    return 1 if wrong else 0


if __name__ == "__main__":
    sys.exit(main())
