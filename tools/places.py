#!/usr/bin/env python3
"""Places of src/ that docs/DESIGN-PASS.md counts, point by point.

Usage: tools/places.py [COMMIT] [--list]    of a commit, or of the files as they stand; --list prints each place.
A place found is one to look at: what is kept has its reason on the page.
"""
import argparse
import collections
import itertools
import re
import subprocess

TOP = subprocess.run(["git", "rev-parse", "--show-toplevel"], capture_output=True, text=True, check=True).stdout.strip()
FUNCTION = re.compile(r"(?:^|\n)( *)(?:pub )?(?:extern \"C\" )?fn (\w+)(<[^>]*>)?\(([^)]*)\)([^{;]*?)(?:\n? *(?:requires|ensures).*?)*\n?\s*\{\n(.*?)\n\1\}", re.S)
WORD = re.compile(r"[A-Za-z_]\w*|\d[\w.]*")
KEPT = set("if else while for in return let mut match loop as fn true false self".split())


def git(*words):
    return subprocess.run(["git", "-C", TOP, *words], capture_output=True, text=True, check=True).stdout


def sources(commit):
    """Each file of src/, by its name."""
    names = git("ls-files", "crates") if commit is None else git("ls-tree", "-r", "--name-only", commit, "crates")
    for name in names.split("\n"):
        if re.fullmatch(r"crates/\w+/src/.*\.rt", name):
            yield name, open(f"{TOP}/{name}", encoding="utf-8").read() if commit is None else git("show", f"{commit}:{name}")


def clauses_off(text):
    """The text without clauses, so that a signature's braces are not taken for a body's."""
    return re.sub(r"\n *(?:requires|ensures)\b[^\n]*", "", text)


def functions(name, text):
    for found in FUNCTION.finditer(clauses_off(text)):
        yield f"{name[7:].replace('/src/', '::').replace('.rt', '').replace('/', '::').replace('::lib', '').replace('::main', '')}::{found[2]}", found[4], found[5], found[6]


def lines(files, pattern, leave=None):
    for name, text in files:
        for number, line in enumerate(text.split("\n"), 1):
            if re.search(pattern, line) and not (leave and re.search(leave, line)):
                yield f"{name[7:]}:{number}: {line.strip()}"


def variants(files):
    """Enums with their variants."""
    for name, text in files:
        for found in re.finditer(r"\nenum (\w+) \{\n(.*?)\n\}|\npub enum (\w+) \{\n(.*?)\n\}", text, re.S):
            body = found[2] or found[4]
            flat = re.sub(r"//[^\n]*", "", body)
            depth, parts, last = 0, [], ""
            for letter in flat:
                depth += letter in "{(" 
                depth -= letter in "})"
                if letter == "," and depth == 0:
                    parts.append(last.strip())
                    last = ""
                else:
                    last += letter
            if last.strip():
                parts.append(last.strip())
            yield name, found[1] or found[3], parts


def enums_like_option(files):
    """An enum of two or three cases of which one or two have a value and the others none, or a case Refused."""
    for name, enum, parts in variants(files):
        bare = [p for p in parts if re.fullmatch(r"\w+", p)]
        if len(parts) <= 3 and (len(bare) in (1, 2) and len(bare) < len(parts) or any(p.startswith("Refused") for p in parts) or len(parts) == len(bare) == 2):
            yield f"{name[7:]}: {enum} {{ {'; '.join(' '.join(p.split()) for p in parts)} }}"


def numbers_for_kinds(files):
    yield from lines(files, r"\bmatch (call|number)\b|\b(call\.number|number|call|part) == \d|^ *(return )?MORE_THAN_SLOTS;?$|^const (CHANGED|ALREADY|DISALLOWED|DAMAGED)\b")
    for name, text in files:
        for function, given, answer, body in functions(name, text):
            if re.search(r"-> (u32|bool)\b", answer) and re.search(r"refus|propagate|print_(outcome|asking|counting|searching|image)|open_image|::show$|plain::calls::(make|change|fill|load)$", function):
                yield f"{function}: {answer.strip()}"


def twins(files):
    """Functions whose bodies are alike but for names, types and numbers."""
    shapes = collections.defaultdict(list)
    for name, text in files:
        for function, given, answer, body in functions(name, text):
            shape = " ".join(WORD.sub(lambda m: m[0] if m[0] in KEPT else "_", re.sub(r"//[^\n]*", "", body)).split())
            kinds = WORD.sub("_", " ".join(given.split()))
            # a body of one short expression is alike by chance
            if len(WORD.findall(body)) >= 12 or re.search(r"\[0u?\d*;|\[0u", body):
                shapes[shape, kinds.count("_")].append(function)
    for (shape, _), found in shapes.items():
        if len(found) > 1:
            yield ", ".join(found)


def together(files):
    """Three or more parameters that stand together in three or more functions, or the pairs that the page names."""
    count = collections.defaultdict(list)
    for name, text in files:
        for function, given, answer, body in functions(name, text):
            words = [p.split(":")[0].replace("mut ", "").strip() for p in given.split(",") if ":" in p]
            for some in itertools.chain(itertools.combinations(words, 2), itertools.combinations(words, 3)):
                count[some].append(function)
    for some in (("store", "layout"), ("store", "sizes"), ("slot", "level", "code"), ("keys", "tags"), ("slots", "places"), ("x0", "y0", "x1"), ("stack", "build"), ("codes", "levels"),
                 ("part", "count"), ("first", "second"), ("panel", "set")):
        found = count.get(some, [])
        if len(found) >= 3:
            yield f"{', '.join(some)}: {len(found)} functions"


POINTS = {
    "1 enums of the shape of Option or Result": enums_like_option,
    "1 flags with a value beside": lambda f: lines(f, r"^    (pub )?(damaged|found|any): bool,"),
    "1 numbers for kinds, refusals or damage": numbers_for_kinds,
    "2 twins": twins,
    "3 loops by while or loop": lambda f: lines(f, r"^ *(while|loop)\b"),
    "3 loops over numbers that index a slice": lambda f: lines(f, r"^ *for \w+ in 0\.\.\w*(\.len\(\)|count|met|number|entries)\b"),
    "4 lines that print by hand": lambda f: lines(f, r"\bio::(write_all|print_decimal)"),
    "4 copying, comparing, converting by hand": lambda f: lines(
        f, r"\bfn (copy_words|copy_entries|move_words|put_four|four_at|byte_at|lowered|apart|one_less|yes_no|number_of|refusal_of|is_same|same_values|same_bytes|all_below|number|ending|find_place)\("),
    "5 parameters that travel together": together,
    "6 parallel arrays, buffers with a length": lambda f: lines(f, r"\b(keys|tags|places): &(mut )?\[|^ *(slots): &(mut )?\[|let mut (keys|tags|slots|places|stack) ="),
    "7 switches on which step to run": lambda f: lines(f, r"\bmatch call\b|\bcall\.number == 0\b|if number == 0|\bif call < "),
}


def main():
    words = argparse.ArgumentParser(description=__doc__, formatter_class=argparse.RawDescriptionHelpFormatter)
    words.add_argument("commit", nargs="?")
    words.add_argument("--list", action="store_true")
    given = words.parse_args()
    files = list(sources(given.commit))
    for point, of in POINTS.items():
        found = list(of(files))
        print(f"{len(found):4} {point}")
        if given.list:
            for place in found:
                print(f"       {place}")


if __name__ == "__main__":
    main()
