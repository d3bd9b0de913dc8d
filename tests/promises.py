#!/usr/bin/env python3
"""Holds docs/PROMISES.md and docs/GLOSSARY.md against the repository: what they name is there, and every must-fail edit is
named.

    python3 tests/promises.py

- a name in a column of definitions or statements is one of specs/ (or a type of src/) of its crate;
- a name in a column of functions or theorems is a public function of src/ or a theorem of proofs/;
- such a theorem is stated in specs/: what follows its arguments is a statement defined there, so nobody has to read proofs/;
- a name in the column of edits is an edit of its crate, and every edit of every crate is named once or more.

The crate is the one named before (`slots: a, b` or slots `a`), up to the next semicolon, else one of the section's.
Prints what is wrong, a line each, and ends with status 1 if there is anything.
"""
import re
import sys
from pathlib import Path

ROOT = Path(__file__).resolve().parents[1]
CRATES = {p.name: p for p in (ROOT / "crates").iterdir() if p.is_dir()}
WORDS = {"as above", "all edits below", "several of the above"}
wrong = []


def texts(crate, part, suffix):
    return [p.read_text() for p in sorted((CRATES[crate] / part).glob(f"**/*{suffix}"))]


def signatures(crate, part):
    """name -> signature of each definition or theorem, the lines of a long one joined."""
    found = {}
    for text in texts(crate, part, ".antt"):
        joined = re.sub(r"\n\s+(?=→)", " ", text)
        for m in re.finditer(r"^[ \t]*(?:(?:abbrev|unfoldable) )?(?:pub )?(?:record |data )?([^\s:(){}=]+)((?: \([^\n]*?\))*) : ([^\n]*)$", joined, re.M):
            found.setdefault(m.group(1), []).append((m.group(2) + " : " + m.group(3)).strip())
    return found


SPECS = {c: signatures(c, "specs") for c in CRATES}
PROOFS = {c: signatures(c, "proofs") for c in CRATES}
CODE = {c: set(re.findall(r"^\s*(?:pub )?(?:extern \"C\" )?(?:fn|struct|enum|const) (\w+)", "\n".join(texts(c, "src", ".rt")), re.M)) for c in CRATES}
EDITS = {c: {p.stem for p in (CRATES[c] / "must-fail").glob("*.edit")} for c in CRATES}
STATEMENTS = {name for c in CRATES for name, sigs in SPECS[c].items() if any(s.endswith("Type 0 where") or s.endswith("Type 0") for s in sigs)}


def conclusion(signature):
    """What follows the arguments of a theorem."""
    rest = signature.split(" : ", 1)[1] if signature.startswith("(") else signature[2:]
    while True:
        rest = rest.strip()
        if rest[:1] in "({":
            depth = 0
            for i, c in enumerate(rest):
                depth += (c in "({") - (c in ")}")
                if not depth:
                    break
            if " : " not in rest[:i]:
                return rest
            rest = re.sub(r"^\s*→\s*", "", rest[i + 1 :])
        else:
            return rest


def stated(signature):
    """The conclusion is one statement of specs/, with nothing asked before it."""
    said = conclusion(signature)
    return "→" not in re.sub(r"\([^()]*\)", "", said) and re.split(r"[\s.]", said)[0] in STATEMENTS


def tokens(cell, own):
    """(crates to look in, name) of each name in a cell."""
    for part in cell.split(";"):
        crates = own
        for quoted, crate, colon in re.findall(r"`([^`]+)`|([a-z_]+)(:?)", part):
            if quoted:
                yield crates, quoted
            elif crate in CRATES:
                crates = [crate]


def edit_names(cell, own):
    for part in cell.split(";"):
        part = part.strip()
        if part in WORDS or not part:
            continue
        crates = own
        m = re.match(r"([a-z_]+): ", part)
        if m and m.group(1) in CRATES:
            crates, part = [m.group(1)], part[m.end() :]
        for name in part.split(","):
            yield crates, name.strip()


def one(crates, name):
    """`crate::f` names its crate itself; of `f .field` the name is f."""
    name = name.split()[0]
    if "::" in name:
        crate, name = name.split("::", 1)
        return [crate], name
    return crates, name


def look(where, crates, name, column):
    crates, name = one(crates, name)
    if name in CRATES:
        return
    if column == "definition":
        if not any(name in SPECS[c] or name in CODE[c] or (CRATES[c] / "specs" / f"{name}.antt").is_file() for c in crates):
            wrong.append(f"{where}: no definition {name} in specs/ of {', '.join(crates)}")
        return
    holders = [c for c in crates if name in CODE[c]]
    if holders:
        return
    sigs = [s for c in crates for s in PROOFS[c].get(name, [])]
    if not sigs:
        wrong.append(f"{where}: no function or theorem {name} in {', '.join(crates)}")
    elif not any(stated(s) for s in sigs):
        wrong.append(f"{where}: theorem {name} is not stated by a definition of specs/: {sigs[0][:160]}")


def rows(file):
    """(where, crates of the section, columns, cells) of each row of each table of a page."""
    own, columns = [], None
    for number, line in enumerate((ROOT / "docs" / file).read_text().split("\n"), 1):
        where = f"{file}:{number}"
        if line.startswith("#"):
            own = [c for c in re.findall(r"`(\w+)`", line) if c in CRATES] or sorted(CRATES)
        if not line.startswith("|"):
            columns = None
            continue
        cells = [c.strip() for c in line.strip("|").split("|")]
        if columns is None:
            columns = cells
        elif len(cells) != len(columns):
            wrong.append(f"{where}: {len(cells)} cells in a table of {len(columns)} columns")
        elif not set(line) <= set("|- "):
            yield where, own, columns, cells


def main():
    named = {c: set() for c in CRATES}
    for where, own, columns, cells in [*rows("PROMISES.md"), *rows("GLOSSARY.md")]:
        for column, cell in zip(columns, cells):
            if column in ("Definition", "Statement", "Where"):
                for crates, name in tokens(cell, own):
                    look(where, crates, name, "definition")
            elif column in ("Function", "Theorem", "Function or theorem"):
                for crates, name in tokens(cell, own):
                    look(where, crates, name, "theorem")
            elif column == "Tried by":
                for crates, name in edit_names(cell, own):
                    holders = [c for c in crates if name in EDITS[c]]
                    if not holders:
                        wrong.append(f"{where}: no edit {name} in {', '.join(crates)}")
                    for c in holders:
                        named[c].add(name)
    for c in sorted(CRATES):
        for name in sorted(EDITS[c] - named[c]):
            wrong.append(f"crates/{c}/must-fail/{name}.edit is not named in PROMISES.md")
    print("\n".join(wrong) or f"PROMISES.md and GLOSSARY.md: all names are there, {sum(map(len, EDITS.values()))} edits named")
    sys.exit(bool(wrong))


if __name__ == "__main__":
    main()
