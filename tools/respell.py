#!/usr/bin/env python3
"""Brings the repository's own names to today's spelling, once, after the kit's port.py and on what it left.

usage: python3 tools/respell.py        at the top of the repository

Definitions, lemmas and local names of specs/ and proofs/, and the clauses that cite them, go from lowerCamel and from hyphens to snake
case; must-fail edits and the pages of docs/ follow. Types, modules, functions of src/, exported C names, strings, inputs and outputs
keep their names. The crate `hex` has the name of a library of the kit and is `hexdigits`. Says which new names were there before.
"""

import glob
import os
import re
import sys

CRATES = {"hex": "hexdigits"}

# Names that snake case alone would bring together with another name of the repository.
APART = {
    "goesOn": "continues",
    "madeUp": "made_up_acks",
    **{lemma: lemma.replace("-", "_") + "_lem" for lemma in (
        "all-suspected digits-below election-sound empty-tag follow-sound in-calls in-room in-roster is-claimed is-master is-moved key-rows least-timeout marks-sound most-timeout one-slot over-twice record-sound remarked-seen state-after with-asking bytes-at bytes-of first-of frame-for in-pieces bit-and bit-or"
    ).split()},
}

# Words of document 01 that stand in comments and texts and name nothing here.
WORDS = {"configEpoch", "currentEpoch", "lastVoteEpoch"}

IDENT = r"(?<![\w'-])%s(?![\w'-])"
CAMEL = re.compile(r"(?<![\w'-])[a-z][a-z0-9_]*[A-Z][\w']*(?![\w-])")
HYPHEN = re.compile(r"^\s*(?:pub |abbrev |unfoldable )*([a-zA-Z][\w']*(?:-[\w']+)+) :", re.M)
USED = re.compile(r"^\s*(?:ghost |pub )*use ([\w.·+'-]+)\.\{([^}]*)\}", re.M)
PARTS = {
    ".rt": re.compile(r'(?P<comment>//[^\n]*)|(?P<string>b?"(?:\\[\s\S]|[^"\\])*")|(?P<code>(?:(?!//|b?")[\s\S])+)'),
    ".antt": re.compile(r'(?P<comment>--[^\n]*)|(?P<string>"(?:\\[\s\S]|[^"\\])*")|(?P<code>(?:(?!--|")[\s\S])+)'),
}


def snake(name):
    name = name.replace("-", "_")
    return re.sub(r"(?<=[a-z0-9'])(?=[A-Z])", "_", name).lower() if name[0].islower() else name


def read(path):
    with open(path, encoding="utf-8") as f:
        return f.read()


def code_of(path, text):
    """The text without comments and strings."""
    return "".join(m.group() if m.lastgroup == "code" else " " for m in PARTS[os.path.splitext(path)[1]].finditer(text))


def own(module, crates):
    parts = module.split(".")
    return len(parts) > 1 and parts[0] == "Rattle" and parts[1] in crates


def from_libraries(code, crates):
    names = set()
    for module, listed in USED.findall(code):
        if not own(module, crates):
            for item in listed.split(","):
                names.update(item.strip().split(" as ")[:1])
    return names


def renamed(text, names):
    if not names:
        return text
    return re.sub(r"(?<![\w'-])[A-Za-z][\w']*(?:-[\w']+)*(?![\w'-])", lambda m: names.get(m.group(), m.group()), text)


def in_ticks(text, names):
    return re.sub(r"`[^`\n]*`", lambda m: renamed(m.group(), names), text)


def paths_of_crates(text):
    for old, new in CRATES.items():
        text = re.sub(r"\bRattle\.%s\." % old, "Rattle.%s." % new, text)
        text = re.sub(r"(?<![\w:])%s::" % old, "%s::" % new, text)
    return text


def turned(path, text, names, crates):
    kept = from_libraries(code_of(path, text), crates)
    mine = {k: v for k, v in names.items() if k not in kept}
    out = []
    at = 0
    for m in PARTS[os.path.splitext(path)[1]].finditer(text):
        if m.start() != at:
            sys.exit(f"respell: {path} cannot be read at {at}")
        at = m.end()
        if m.lastgroup == "code":
            out.append(paths_of_crates(renamed(m.group(), mine)))
        elif m.lastgroup == "comment":
            out.append(in_ticks(m.group(), mine).replace("`hex::", "`hexdigits::"))
        else:
            out.append(m.group())
    return "".join(out)


def turned_edit(text, names):
    out = []
    for line in text.split("\n"):
        if line.startswith(("old:", "new:")):
            line = line[:4] + "".join(piece if piece.startswith('"') else paths_of_crates(renamed(piece, names)) for piece in re.split(r'("(?:\\.|[^"\\])*")', line[4:]))
        else:
            line = in_ticks(line, names)
        out.append(line)
    return "\n".join(out)


def main():
    if not os.path.isdir("crates") or os.path.isdir("crates/hexdigits"):
        sys.exit("respell: run once, at the top of the repository")
    crates = {c for c in os.listdir("crates")}
    sources = sorted(glob.glob("crates/*/src/**/*.rt", recursive=True) + glob.glob("crates/*/specs/**/*.antt", recursive=True) + glob.glob("crates/*/proofs/**/*.antt", recursive=True))
    texts = {p: read(p) for p in sources}
    codes = {p: code_of(p, t) for p, t in texts.items()}
    names, there = {}, set()
    for p, code in codes.items():
        library = from_libraries(code, crates)
        names.update({n: None for n in CAMEL.findall(code) if n not in WORDS and n not in library})
        if p.endswith(".antt") and not re.search(r"/proofs/[^/]+/", p):
            names.update({n: None for n in HYPHEN.findall(code)})
        there.update(re.findall(r"[A-Za-z_][\w']*(?:-[\w']+)*", code))
    for n in names:
        names[n] = APART.get(n, snake(n))
    seen = {}
    for n, new in sorted(names.items()):
        if new in seen:
            print(f"together: {seen[new]} and {n} are both {new}")
        seen.setdefault(new, n)
        if new in there and n not in APART:
            print(f"there: {n} becomes {new}")
    for p, t in texts.items():
        with open(p, "w", encoding="utf-8") as f:
            f.write(turned(p, t, names, crates))
    for p in glob.glob("crates/*/must-fail/*.edit"):
        t = read(p)
        with open(p, "w", encoding="utf-8") as f:
            f.write(turned_edit(t, names))
    for p in ["README.md"] + glob.glob("docs/**/*.md", recursive=True) + glob.glob("tests/**/*.md", recursive=True):
        t = read(p)
        with open(p, "w", encoding="utf-8") as f:
            f.write(in_ticks(t, names))
    t = read("crates.txt")
    for old, new in CRATES.items():
        t = re.sub(r"(?<![\w-])%s(?![\w-])" % old, new, t)
        os.rename(f"crates/{old}", f"crates/{new}")
    with open("crates.txt", "w", encoding="utf-8") as f:
        f.write(t)
    print(f"respell: {len(names)} names")


main()
