#!/usr/bin/env python3
"""Brings the repository's own definitions and lemmas to today's spelling: words in snake case.

usage: snake_names.py [--check]        at the top of the repository, once, right after the toolchain's port.py

A name of this repository that stands in specs/ or proofs/ (a definition, a lemma, a constructor, a field) and is written with capitals
inside or with hyphens gets underscores: `aboveTop` is `above_top`, `gives-ruled` is `gives_ruled`. Types and modules, functions of src/,
exported C names, strings, inputs and outputs keep theirs. It rewrites .antt and .rt files, must-fail edits and the names in backticks of
the documents. OTHER has the names that would fall together with another one. --check writes nothing and prints what falls together.
"""
import collections
import os
import re
import sys

# Names that, in snake case, would be another name of the same module.
HOLDS = """
    all-zero by-address-bytes by-address-general early-header first-state from-grown give-back give-general give-reserved grant-from in-general insert-at in-reserved
    none-used only-general reserved-in take-general take-reserved by_bytes by_count from_place in_order range_at by-address pair-at range-of slots-of put_count no_place above-top after-grant area-at idle-slot in-sorted join-above join-below
    not-above put-after put-before put-words room-free room-regions
"""
OTHER = {n: n.replace("-", "_") + "_holds" for n in HOLDS.split()} | {"in-frames": "boots_frames", "in_bytes": "boots_bytes"}

W = r"[^\s(){}\[\];,.«»\"`@⌜⌝⟦⟧]+"
WORD = re.compile(W)
LIBRARY = ("Prim", "mathlib", "lib", "borrow", "native", "denote", "seplogic", "types", "mir", "sound", "prog", "contract", "base", "Rattle.std", "Rattle.check", "Rattle.bytes", "Rattle.io", "Rattle.libc", "Rattle.core", "antt", "logic")


def is_library(path):
    return any(path == l or path.startswith(l + ".") for l in LIBRARY)


def snake(name):
    if name in OTHER:
        return OTHER[name]
    name = name.replace("-", "_")
    name = re.sub(r"(?<=[a-z0-9'])([A-Z])", lambda m: "_" + m[1].lower(), name)
    return name


def files(endings, tops=("src", "specs", "proofs")):
    for c in sorted(os.listdir("crates")):
        for top in tops:
            for d, _, fs in sorted(os.walk(os.path.join("crates", c, top))):
                for f in sorted(fs):
                    if f.endswith(endings):
                        yield os.path.join(d, f)


def read(p):
    with open(p, encoding="utf-8") as f:
        return f.read()


USE = re.compile(r"^(?:pub )?(?:ghost )?use ([\w.'◌+-]+)(?:\.\{([^}]*)\})?", re.M)
MARKS = r"(?:(?:abbrev|unfoldable|pub|opaque|mutual|syntax|infixr? \d+) +)*"
TOP = re.compile(r"^" + MARKS + r"(?:(record|data) )?(" + W + r")(?=[ :\n])", re.M)
INNER = re.compile(r"^ +" + MARKS + r"(?:let )?(" + W + r") :", re.M)
FIELD = re.compile(r"^  (?:pub )?(" + W + r") :", re.M)


def own_names():
    """Each name that the repository's own antt files declare, with the files."""
    own = collections.defaultdict(set)
    for p in files(".antt", ("specs", "proofs")):
        t = re.sub(r"--[^\n]*", "", read(p))
        if p.endswith("/Proof.antt"):
            continue
        for m in TOP.finditer(t):
            own[m[2]].add(p)
        for m in INNER.finditer(t):
            own[m[1]].add(p)
        for m in re.finditer(r"^" + MARKS + r"(?:record|data) .*\n((?:  .*\n|\n)*)", t, re.M):
            for f in FIELD.finditer(m[1]):
                own[f[1]].add(p)
    return {n: ps for n, ps in own.items() if re.match(r"[a-z]", n) and (("-" in n) or re.match(r"[a-z0-9]+[A-Z]", n) and "_" not in n or n in OTHER)}


def imported(text):
    """The names that a file takes from the library."""
    return {n.strip().split(" as ")[0] for m in USE.finditer(text) if m[2] and is_library(m[1]) for n in m[2].split(",")}


def turned(text, names):
    """The text with each word that is one of the names in snake case, and which words were turned."""
    seen = set()

    def one(m):
        if m[0] in names:
            seen.add(m[0])
            return snake(m[0])
        return m[0]

    out = []
    for line in text.split("\n"):
        if re.match(r"(?:pub )?(?:ghost )?use ", line) and is_library(line.split("use ", 1)[1].split(".{")[0].strip(" ;")):
            out.append(line)
        else:
            out.append(WORD.sub(one, line))
    return "\n".join(out), seen


def in_backticks(text, names):
    return re.sub(r"`[^`\n]+`", lambda m: "`" + turned(m[0][1:-1], names)[0] + "`", text)


def rust(text, names):
    """A .rt file: hyphens only in backticks and in lists of lemmas, capitals wherever no string is."""
    camel = {n for n in names if "-" not in n and re.search(r"[A-Z]", n)}
    out = []
    for line in text.split("\n"):
        if "//" in line and line.strip().startswith("//"):
            line = in_backticks(line, names)
            line = turned(line, camel)[0]
        elif '"' in line:
            line = "".join(s if i % 2 else turned(s, camel)[0] for i, s in enumerate(re.split(r'("(?:[^"\\]|\\.)*")', line)))
        else:
            line = turned(line, camel)[0]
        out.append(line)
    return "\n".join(out)


def main():
    check = "--check" in sys.argv
    own = own_names()
    back = collections.defaultdict(set)
    for n in own:
        back[snake(n)].add(n)
    for new, olds in sorted(back.items()):
        if len(olds) > 1:
            shared = set.intersection(*[own[o] for o in olds])
            print(f"two names: {' '.join(sorted(olds))} -> {new}" + (f"  IN ONE FILE {sorted(shared)}" if shared else ""))
    writes = {}
    for p in files(".antt"):
        t = read(p)
        names = {n: 1 for n in own if n not in imported(t)}
        new, seen = turned(t, names)
        words = set(WORD.findall(re.sub(r"--[^\n]*", "", t)))
        for n in sorted(seen):
            if snake(n) in words and snake(n) == snake(snake(n)):
                print(f"falls together: {p}: {n} and {snake(n)}")
        if new != t:
            writes[p] = new
    for p in files(".rt", ("src",)):
        t = read(p)
        new = rust(t, own)
        if new != t:
            writes[p] = new
    for top in ("must-fail", "must-fail-inner"):
        for p in files(".edit", (top,)):
            t = read(p)
            new = turned(t, own)[0] if re.search(r"^file: (?:specs|proofs)", t, re.M) else rust(t, own)
            if new != t:
                writes[p] = new
    pages = ["README.md"] + [os.path.join("docs", f) for f in sorted(os.listdir("docs")) if f.endswith(".md")]
    for p in pages:
        t = read(p)
        new = in_backticks(t, own)
        if new != t:
            writes[p] = new
    print(f"{len(own)} names, {len(writes)} files")
    if not check:
        for p, t in writes.items():
            with open(p, "w", encoding="utf-8") as f:
                f.write(t)


main()
