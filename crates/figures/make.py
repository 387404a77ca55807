#!/usr/bin/env python3
"""Writes the files of the program's run: a header and page lists in data/, its arguments in args, and what it is to print in stdout. The table is written by
hand below, and once more put together from the figures as figure_cases works them out."""

import os
import shutil
import sys

HERE = os.path.dirname(os.path.abspath(__file__))
sys.path.insert(0, os.path.join(HERE, "..", "figure_cases"))

from reports import FIGURES, MOST, Header, PageList, of_pages, taken

NAMES = [b"px", b"hits", b"_0\nx", "größe".encode(), b"", b"flag"]
# A repetitive field 2 is below field 1, whose number is a list of offsets; field 4 has a column of a type that is not known, and field 5 has two.
HEADER = Header(
    [(0, 0, NAMES[0]), (1, 0, NAMES[1]), (1, 1, NAMES[2]), (3, 0, NAMES[3]), (4, 0, NAMES[4]), (5, 0, NAMES[5])],
    [(0x14, 32, 0), (0x0E, 64, 1), (0x11, 32, 2), (0x0D, 8, 3), (0x101D, 7, 4), (0x06, 1, 5), (0x06, 1, 5)],
)
JANUARY = of_pages(HEADER, [[(100, 1)], [(100, 1)], [(700, 1), (41, 0)], [(60, 0), (40, 0)], [(3, 0)], [(100, 1)], []], entries=100, file_length=100000)
FEBRUARY = of_pages(HEADER, [[(7, 0)], [(7, 0)], [(2**29 - 1, 1)] * 10, [(7, 1)], [], [(7, 0)], [(9, 1)]], entries=7, file_length=MOST, offset=2**63)
LISTS = {
    "january": JANUARY,
    "another_entry_count": PageList(JANUARY.bytes, entries=99, file_length=100000),
    "february": FEBRUARY,
    "cut": PageList(FEBRUARY.bytes[:-1], entries=7, file_length=MOST),
    "another_file_length": PageList(JANUARY.bytes, entries=100, file_length=2803),
    "january_again": JANUARY,
    "empty": PageList(b"", entries=0, file_length=0),
}
PRINTED = """\
 column   type    pages        elements    stored bytes checksums field
      0 0x0014        3             207             828         2     0 px
      1 0x000e        3             207            1656         2     1 hits
      2 0x0011       14      5368710592     21474842368        12     2 _0?x
      3 0x000d        5             207             207         1     3 größe
      4 0x101d        2               6               6         0     4 
      5 0x0006        3             207              27         2     5 flag
      6 0x0006        1               9               2         1     5 flag
lists: 3 accepted, 4 refused
list 2: 3 refused 19
list 4: 3 refused 3
list 5: 3 refused 18
list 7: 3 refused 2
"""


def lines():
    counts, report, refused = (0, 0), [0] * FIGURES * len(HEADER.columns), []
    for number, given in enumerate(LISTS.values(), 1):
        refusal, counts, report = taken(HEADER, given, *counts, report)
        refused += ["list {}: {} refused {}\n".format(number, *refusal)] if refusal else []
    yield PRINTED.split("\n")[0] + "\n"
    for number, (column_type, _, field) in enumerate(HEADER.columns):
        pages, elements, stored, checksums = report[FIGURES * number :][:FIGURES]
        name = NAMES[field].decode().replace("\n", "?")
        yield f"{number:7} 0x{column_type:04x}{pages:9}{elements:16}{stored:16}{checksums:10}{field:6} {name}\n"
    yield "lists: {} accepted, {} refused\n".format(*counts)
    yield from refused


if __name__ == "__main__":
    assert "".join(lines()) == PRINTED, "".join(lines())
    words = ["header"]
    for name, given in LISTS.items():
        words += [name, str(given.entries), str(given.file_length)]
    shutil.rmtree(os.path.join(HERE, "data"), ignore_errors=True)
    os.mkdir(os.path.join(HERE, "data"))
    files = {os.path.join("data", name): given.bytes for name, given in {"header": HEADER, **LISTS}.items()}
    files["args"] = "".join(f"{word}\n" for word in words).encode()
    files["stdout"] = PRINTED.encode()
    for path, content in files.items():
        with open(os.path.join(HERE, path), "wb") as file:
            file.write(content)
