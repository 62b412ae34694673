"""The crates of crates.txt, and what rattle is told to check or build one of them over the libraries that stand in crates/*/out."""

import functools
import os
import subprocess

ROOT = os.path.dirname(os.path.dirname(os.path.realpath(__file__)))


@functools.lru_cache(maxsize=None)
def kit():
    """The toolchain's folder."""
    return os.path.dirname(subprocess.run(["rt", "doc"], stdout=subprocess.PIPE, check=True, text=True).stdout.strip())


def rattle():
    return f"{kit()}/bin/rattle"


def listed():
    """What crates.txt lists: of each crate, whether it is a static library, and what it uses itself."""
    crates = {}
    with open(f"{ROOT}/crates.txt", encoding="utf-8") as lines:
        for line in lines:
            words, colon, uses = line.partition("#")[0].partition(":")
            if colon:
                name, *marks = words.split()
                crates[name] = "staticlib" in marks, uses.split()
    return crates


def below(name):
    """The libraries of this repository on which a crate rests."""
    crates, found = listed(), []
    for use in crates[name][1]:
        if use in crates:
            found += [it for it in [*below(use), use] if it not in found]
    return found


def folder(name):
    return f"{ROOT}/crates/{name}"


def built(name):
    """Where a library of this repository is built."""
    return f"{folder(name)}/out/rlib/{name}.rlib"


def is_built_by_ci(name):
    """Whether all libraries below a crate stand built, and all by one rt ci, which leaves no stamp beside them as rt check does."""
    return all(os.path.isfile(f"{built(it)}/format") and not os.path.exists(f"{folder(it)}/out/rlib/stamp") for it in below(name))


def words(name):
    """What rattle is told of a crate, in its folder or in a copy of it."""
    is_static, uses = listed()[name]
    own = below(name)
    root = "main" if os.path.isfile(f"{folder(name)}/src/main.rt") else "lib"
    found = ["--crate-name", name, f"src/{root}.rt"]
    for use in ["std", *uses]:
        found += ["--extern", f"{use}={built(use) if use in own else f'{kit()}/rlibs/{use}.rlib'}"]
    for at in [f"{kit()}/rlibs", *(os.path.dirname(built(it)) for it in own)]:
        found += ["-L", f"dependency={at}"]
    found += ["--antt-project", f"{kit()}/rattle/logic/antt-project.json", "--logic-built", f"{kit()}/logic_built"]
    return found + ["--crate-type", "staticlib"] * is_static
