#!/usr/bin/env python3
"""Lists functions of crates/*/src whose bodies are one but for names and numbers, in groups.

usage: python3 tools/twin_functions.py [FOLDER]   FOLDER: the repository, by default that of this file

A body counts from 25 words and signs on. Names are told apart by where each stands first, so that two bodies are one
where renaming makes them so.
"""
import collections
import os
import re
import sys

ROOT = sys.argv[1] if len(sys.argv) > 1 else os.path.dirname(os.path.dirname(os.path.abspath(__file__)))
LEAST = 25
WORDS = set("let mut if else match return while for in as Ok Err Some None self fn loop break continue ref move true false".split())
HEAD = re.compile(r'^(\s*)(pub(\([^)]*\))? )?(unsafe )?(extern "C" )?fn (\w+)')


def functions(path):
    """The name and the body of each function of a file that rt fmt laid out."""
    lines = open(path).read().split("\n")
    i = 0
    while i < len(lines):
        head = HEAD.match(lines[i])
        if not head:
            i += 1
            continue
        indent = head.group(1)
        start = i
        while lines[start] != indent + "{" and not (lines[start].endswith(" {") and (start == i or lines[start].startswith(indent + ")"))):
            if lines[start].endswith(";"):
                break
            start += 1
        if lines[start].endswith(";"):
            # a trait's method, which has no body
            i = start + 1
            continue
        end = start
        while lines[end] != indent + "}":
            end += 1
        yield head.group(6), "\n".join(lines[start + 1 : end])
        i = end + 1


def shape(body):
    """The body with each name as the number of its first place, and each number as 9; None where it is short."""
    words = re.findall(r"\w+|[^\w\s]", re.sub(r"//[^\n]*", "", body))
    if len(words) < LEAST:
        return None
    seen = {}
    return " ".join(
        "9" if word.isdigit() else f"v{seen.setdefault(word, len(seen))}" if re.match(r"[A-Za-z_]", word) and word not in WORDS else word
        for word in words
    )


groups = collections.defaultdict(list)
for crate in sorted(os.listdir(f"{ROOT}/crates")):
    for folder, _, files in os.walk(f"{ROOT}/crates/{crate}/src"):
        for file in sorted(files):
            if file.endswith(".rt"):
                for name, body in functions(os.path.join(folder, file)):
                    of = shape(body)
                    if of:
                        groups[of].append(f"{crate}::{name}")
twins = sorted((group for group in groups.values() if len(group) > 1), key=lambda group: (-len(group), group))
print(f"{len(twins)} groups, {sum(map(len, twins))} functions")
for group in twins:
    print(len(group), " ".join(group))
