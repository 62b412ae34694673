#!/usr/bin/env python3
"""Spells the names that this repository declares in specs/ and proofs/ as Rattle's library does: words in snake case.

usage: respell.py TOP [--write]
A type and a module keep their upper camel case. What a file brings in from the toolchain's own modules keeps its spelling there.
Run once, right after the toolchain's own script and before its result is committed: what that script has turned is told from HEAD.
Names that would fall together are printed.
"""
import collections, glob, os, re, subprocess, sys

top = sys.argv[1]
WORD = re.compile(r"[^\s(){}.,;:\[\]«»\"`|+*/=<>≤≡◌λ→←×∷⊎∙↔@?!&#$%^~\\]+")
DECL = re.compile(r"^\s*(?:(?:abbrev|unfoldable|pub|field|constructor) )*([^\s:(){}.,;]+(?: [^\s:(){}.,;]+)*) :(?: |$)")
antt = sorted(glob.glob(f"{top}/crates/*/specs/**/*.antt", recursive=True) + glob.glob(f"{top}/crates/*/proofs/**/*.antt", recursive=True))
rt = sorted(glob.glob(f"{top}/crates/*/src/**/*.rt", recursive=True))
edits = sorted(glob.glob(f"{top}/crates/*/must-fail/*.edit"))
own = set(os.path.basename(d) for d in glob.glob(f"{top}/crates/*"))

# What is renamed by hand, since it would fall together with another name.
BY_HAND = dict(row.split() for row in open(os.path.join(os.path.dirname(os.path.abspath(__file__)), "respell.names"), encoding="utf8") if row.strip() and not row.startswith("#"))


def snake(name):
    name = re.sub(r"(?<=[a-z0-9])([A-Z])(?=[a-z]|$)", lambda m: "_" + m[1].lower(), name)
    return name.replace("-", "_")


def is_turned(name):
    return ("-" in name.strip("-") and not re.search(r"[^\w'-]", name)) or re.match(r"^[a-z][a-z0-9_]*[A-Z]", name) is not None


def text_of(path):
    with open(path, encoding="utf8") as f:
        return f.read()


def code_of(line):
    at = line.find("--") if not line.lstrip().startswith("--") else len(line) - len(line.lstrip())
    return line if at < 0 or (at and line[at - 1] not in " \t") else line[:at]


def generated(text):
    """The names of goals in a proof by hand, which the check makes."""
    return set(re.findall(r"\b(?:tie|goal)\.(?:Need-)?([^\s(){}.,;]+)", text))


def declared_in(text):
    """The names that a text gives a type: on one line with it, or alone on the line before."""
    goals = generated(text)
    lines = [code_of(it) for it in text.split("\n")]
    for at, line in enumerate(lines):
        m = DECL.match(line)
        if not m and at + 1 < len(lines) and re.match(r"\s+(:|\{|\()", lines[at + 1]):
            m = re.match(r"^\s*(?:(?:abbrev|unfoldable|pub) )*([^\s:(){}.,;]+)\s*$", line)
        if m:
            yield from (it for it in m[1].split(" ") if it not in goals)


declared = collections.defaultdict(set)
for path in antt:
    for name in declared_in(text_of(path)):
        declared[name].add(path)
# What the toolchain's script has turned already, for the edits and the pages, which it leaves.
before = subprocess.run(["git", "-C", top, "ls-tree", "-r", "--name-only", "HEAD", "crates"], capture_output=True, text=True, check=True).stdout.split("\n")
turned_before = {}
for path in before:
    if path.endswith(".antt"):
        for name in declared_in(subprocess.run(["git", "-C", top, "show", f"HEAD:{path}"], capture_output=True, text=True, check=True).stdout):
            if is_turned(name) and name not in declared:
                turned_before[name] = snake(name)
names = {it: BY_HAND.get(it, snake(it)) for it in declared if is_turned(it)}
names.update(BY_HAND)


def foreign(text):
    """What a file brings in from elsewhere than this repository."""
    kept = set()
    for m in re.finditer(r"\buse ([^\s;{]+?)\.?\{([^}]*)\}", text):
        parts = m[1].split(".")
        if not (parts[0] == "Rattle" and len(parts) > 1 and parts[1].split("·")[0] in own):
            kept |= set(re.split(r"[,\s]+", m[2]))
    return kept


def turn(path, text, quiet=False):
    kept = foreign(text) | generated(text)
    had = set(WORD.findall(text))
    out = []

    def one(m):
        new = names.get(m[0]) or (turned_before.get(m[0]) if path.endswith(".edit") else None)
        if new is None or m[0] in kept:
            return m[0]
        if new in had and new != m[0] and not quiet:
            clashes.add((os.path.relpath(path, top), m[0], new))
        return new

    for line in text.split("\n"):
        code = code_of(line)
        said = line[len(code):]
        # A comment is English: only what is quoted in it, or cannot be English, is a name.
        said = re.sub(r"`[^`]*`", lambda q: WORD.sub(one, q[0]), said)
        said = re.sub(r"(?<![\w/.-])[a-z][a-z0-9_]*[A-Z]\w*(?![\w-])", one, said)
        out.append(WORD.sub(one, code) + said)
    return "\n".join(out)


clashes = set()
turned = {}
for path in antt + rt + edits:
    text = text_of(path)
    new = turn(path, text)
    if new != text:
        turned[path] = new
by_new = collections.defaultdict(set)
for old, new in names.items():
    by_new[new].add(old)
for new, olds in sorted(by_new.items()):
    if len(olds) > 1 or (new in declared and new not in olds and new not in names):
        print("falls together:", new, sorted(olds), "declared already" if new in declared else "")
for it in sorted(clashes):
    print("is there already:", *it)
if "--write" in sys.argv:
    for path, new in turned.items():
        with open(path, "w", encoding="utf8") as f:
            f.write(new)
    names.update({old: new for old, new in turned_before.items() if old not in names})
    for page in [f"{top}/README.md"] + sorted(glob.glob(f"{top}/docs/*.md")):
        text = text_of(page)
        new = re.sub(r"`[^`\n]*`", lambda q: WORD.sub(lambda m: names.get(m[0], m[0]), q[0]), text)
        new = re.sub(r"(?<![\w/.-])[a-z][a-z0-9_]*[A-Z]\w*(?![\w-])", lambda m: names.get(m[0], m[0]), new)
        if new != text:
            with open(page, "w", encoding="utf8") as f:
                f.write(new)
    print(len(turned), "files turned,", len(names), "names")
