#!/usr/bin/env python3
"""Brings this repository's own definitions and lemmas to today's spelling: snake case, as the library has it.

usage: tools/respell.py [--try]     at the top of the repository, after the kit's port.py, with nothing uncommitted

Definitions of specs/ and proofs/ (camelCase) and lemmas (words joined by dashes) become words joined by underscores, in every file of
crates/ and in the must-fail edits. Types, facts, records and modules keep their capitals. Names of functions of src/, of exported
symbols, of constants, and whatever stands in a string keep their spelling. --try writes nothing and prints what would fall together.
"""

import os
import re
import sys

TOKEN = re.compile(r"[^\s(){}\[\],;.\":]+")
SIGNED = re.compile(r"^\s*(?:(?:pub|abbrev|unfoldable) )*((?:[^\s(){}\[\],;.\":]+ )+):(?:\s|$)")
# words of the library that a name of ours was built from, as the library now spells them
PARTS = {"getD": "get_or", "ltb": "ltb", "leb": "leb", "eqb": "eqb"}
# where two names would be one, or a name would hide another
INSTEAD = {}
MADE = re.compile(r"^(tie|goal|ℓ)$")


def snake(name):
    if name in INSTEAD:
        return INSTEAD[name]
    if not re.search(r"[a-z]", name) or name[0].isupper() or "◌" in name or not (name[0].isalpha() or name[0] == "_"):
        return name
    parts = []
    for part in name.split("-"):
        part = PARTS.get(part, part)
        part = re.sub(r"(?<=[a-z0-9])([A-Z])", lambda m: "_" + m[1], part)
        parts.append(part if "_" not in part and part.isupper() else part.lower() if re.fullmatch(r"[\x00-\x7f]*", part) else part)
    return "_".join(parts)


def files(ending):
    for folder, dirs, names in os.walk("crates"):
        dirs[:] = sorted(d for d in dirs if d != "out")
        for f in sorted(names):
            if f.endswith(ending):
                yield os.path.join(folder, f)


def is_walk(path):
    return path.endswith("/Proof.antt")


def own_names():
    """Each name that a signature of specs/ or proofs/ gives; of a function's proof only what is no goal of it."""
    found = {}
    for path in files(".antt"):
        with open(path, encoding="utf-8") as f:
            lines = f.read().split("\n")
        for line in lines:
            m = SIGNED.match(line)
            if not m or line.lstrip().startswith("--"):
                continue
            if is_walk(path) and (re.search(r": (tie\.|\{M : Type 1\} → statement)", line)):
                continue
            for name in m[1].split():
                if name not in ("pub", "abbrev", "unfoldable", "λ", "let", "in", "→"):
                    found.setdefault(name, set()).add(path)
    return found


def imported(path, text):
    """Names that a file takes from the library."""
    got = set()
    for m in re.finditer(r"(?:^|\n)\s*(?:pub )?use ((?!Rattle\.(?!std\b))[\w.·-]+)\.\{([^}]*)\}", text):
        got |= {n.strip() for n in m[2].split(",")}
    for m in re.finditer(r"ghost use (Rattle\.std[\w.]*|mathlib[\w.]*|Prim[\w.]*)\.\{([^}]*)\}", text):
        got |= {n.strip() for n in m[2].split(",")}
    return got


def goal_labels(text):
    return {m[1] for m in re.finditer(r"(?m)^(\S+) : tie\.", text)}


def fields(names):
    """Own names that a record's field has: these alone are turned behind a dot, where other names are of the source."""
    got = set()
    for path in files(".antt"):
        with open(path, encoding="utf-8") as f:
            for block in re.findall(r"(?m)^(?:pub )?record .*\n((?:(?:  .*)?\n)+)", f.read()):
                for m in re.finditer(r"(?m)^  (?:pub )?((?:[^\s(){}\[\],;.\":]+ )+):(?:\s|$)", block):
                    got |= set(m[1].split())
    return got


def turned(text, table, of_fields, keep=()):
    def one(m):
        w = m[0]
        if w in keep or (m.start() and text[m.start() - 1] == "." and w not in of_fields):
            return w
        return table.get(w, w)
    return TOKEN.sub(one, text)


def loose(text):
    """The words of a text but for those of paths and behind a dot."""
    return {m[0] for m in TOKEN.finditer(text) if not (m.start() and text[m.start() - 1] == ".")}


def turned_rt(text, table, of_fields):
    """Only clauses and ghost lines: code, strings and comments keep their words, but for a comment's names in backticks."""
    out, i = [], 0
    pattern = re.compile(r"ghost use [^;]*;|(?:requires|ensures)\*?(?: \w+)? \{|ghost \w+: \{")
    while True:
        m = pattern.search(text, i)
        if not m:
            out.append(text[i:])
            break
        out.append(text[i:m.start()])
        if m[0].startswith("ghost use"):
            out.append(turned(m[0], table, of_fields))
            i = m.end()
            continue
        depth, j = 1, m.end()
        while depth:
            depth += {"{": 1, "}": -1}.get(text[j], 0)
            j += 1
        out.append(m[0] + turned(text[m.end():j], table, of_fields))
        i = j
    return "".join(out)


def main():
    dry = "--try" in sys.argv
    names = own_names()
    table = {}
    for n in sorted(names):
        new = snake(n)
        if new != n:
            table[n] = new
    of_fields = fields(names)
    for _ in range(2):
        together = {}
        for n in list(names):
            together.setdefault(table.get(n, n), set()).add(n)
        # a definition keeps the plain name, and a lemma that would have it ends in _lem
        for new, olds in sorted(together.items()):
            if len(olds) > 1:
                by_rank = sorted(olds, key=lambda o: (not any("/specs/" in p for p in names[o]), "-" in o, o))
                for o in by_rank[1:]:
                    table[o] = new + "_lem"
    together = {}
    for n in list(names):
        together.setdefault(table.get(n, n), set()).add(n)
    trouble = []
    for new, olds in sorted(together.items()):
        if len(olds) > 1:
            places = [names[o] for o in sorted(olds)]
            trouble.append(f"one name: {new} <- {sorted(olds)} {[sorted(p)[:3] for p in places]}")
    for path in list(files(".antt")) + list(files(".rt")):
        with open(path, encoding="utf-8") as f:
            text = f.read()
        code = "\n".join(l for l in text.split("\n") if not l.lstrip().startswith(("--", "//")))
        words = loose(re.sub(r"(?m)^\s*(pub )?(ghost )?use [^{;\n]*", "", code))
        lib = imported(path, text)
        for w in sorted(words & set(table)):
            if w in lib:
                trouble.append(f"library: {path}: {w}")
            if path.endswith(".antt") and table[w] in words and table.get(table[w], table[w]) == table[w]:
                trouble.append(f"both: {path}: {w} and {table[w]}")
            if path.endswith(".rt"):
                if re.search(rf"(?:[(,]\s*(?:mut )?|let (?:mut )?|pub |\n\s+){re.escape(table[w])}\s*:", code):
                    trouble.append(f"hidden: {path}: {w} and {table[w]}")
    print("\n".join(trouble))
    print(f"{len(table)} names; {len(trouble)} troubles")
    if dry:
        return
    for path in files(".antt"):
        with open(path, encoding="utf-8") as f:
            text = f.read()
        keep = (goal_labels(text) if is_walk(path) else set()) | imported(path, text)
        new = turned(text, table, of_fields, keep)
        if new != text:
            with open(path, "w", encoding="utf-8") as f:
                f.write(new)
    for path in files(".rt"):
        with open(path, encoding="utf-8") as f:
            text = f.read()
        new = turned_rt(text, table, of_fields)
        if new != text:
            with open(path, "w", encoding="utf-8") as f:
                f.write(new)
    with open("tools/respelled.tsv", "w", encoding="utf-8") as f:
        f.write("".join(f"{a}\t{b}\n" for a, b in sorted(table.items())))


main()
