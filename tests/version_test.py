"""The version: the header, the shared library's file, its soname and its other names, what a program asks for, Python, and the names of the
library in the README and the manual agree."""

import os
import re
import subprocess
import sys

ROOT = os.path.normpath(os.path.join(os.path.dirname(os.path.abspath(__file__)), ".."))
BUILD = os.path.join(ROOT, "build")
sys.path.insert(0, os.path.join(ROOT, "python"))
import pkreg  # noqa: E402


def defined(header, name):
    """What the header defines a name to be, without quotes."""
    found = re.search(rf'^#define {name} "?([0-9.]+)"?$', header, re.MULTILINE)
    return found[1] if found else None


def dynamic(file, tag):
    """The names under this tag in a file's dynamic section."""
    readelf = ["readelf", "--dynamic", "--wide", os.path.join(BUILD, file)]
    section = subprocess.run(readelf, capture_output=True, text=True, check=True).stdout
    return re.findall(rf"\({tag}\).*\[(.*)\]", section)


def cases():
    """What is compared, what it is, and what it is to be."""
    with open(os.path.join(BUILD, "pkreg.h")) as file:
        header = file.read()
    version = defined(header, "PK_VERSION")
    numbers = [defined(header, "PK_VERSION_" + part) for part in ("MAJOR", "MINOR", "PATCH")]
    soname = f"libpkreg.so.{numbers[0]}"
    yield "the numbers of the header", ".".join(map(str, numbers)), version
    yield "pkreg.__version__", pkreg.__version__, version
    pkmask = subprocess.run([sys.executable, os.path.join(ROOT, "python", "pkmask.py"), "--version"], capture_output=True, text=True)
    yield "pkmask --version", pkmask.stdout, f"pkmask {version}\n"
    for name in "libpkreg.so", soname:
        file = os.path.join(BUILD, f"libpkreg.so.{version}")
        yield f"whether build/{name} is that file", os.path.samefile(os.path.join(BUILD, name), file), True
    yield "the soname of the shared library", dynamic("libpkreg.so", "SONAME"), [soname]
    yield "what build/dark_frame_cpp asks for", soname in dynamic("dark_frame_cpp", "NEEDED"), True
    for document in "README.md", os.path.join("docs", "MANUAL.md"):
        with open(os.path.join(ROOT, document)) as file:
            yield f"the library in {document}", set(re.findall(r"libpkreg\.so\.\d+", file.read())), {soname}


def main():
    number = 0
    for what, got, expected in cases():
        number += 1
        if got != expected:
            print(f"version: {what}: {got} and not {expected}")
            return 1
    print(f"version: {pkreg.__version__} in {number} places ok")
    return 0


if __name__ == "__main__":
    sys.exit(main())
