#!/usr/bin/env python3
"""Writes data/cases: envelopes, each beside itself with one byte added at the end of one of its frames or of its payload, for every frame in
turn; and stdout, the counts that are due. A case is 44 bytes (eleven little-endian words: kind, which envelope has the added byte, the
byte's place, lengths of plain header, newer header, plain other, newer other, the file length, and the checksums that a raised footer has for
its clusters) and then four envelopes, each in 512 bytes. Kinds: 1 header, 2 footer beside its header, 3 page list beside its header, 4 footer
of version 1 beside its header, and raised. Documents 01 and 02 say how the envelopes are written."""
import pathlib
import struct
import zlib

ROOM = 512
FILE_LENGTH = 1 << 20
ADDED = b"\xEE"


class Writer:
    """Writes frames; adds one byte at the end of the frame with this number."""

    def __init__(self, extended=None):
        self.extended = extended
        self.frames = 0

    def spare(self):
        self.frames += 1
        return ADDED if self.frames - 1 == self.extended else b""

    def record(self, content):
        body = content + self.spare()
        return struct.pack("<i", 4 + len(body)) + body

    def list(self, items):
        body = b"".join(items) + self.spare()
        return struct.pack("<iI", -(8 + len(body)), len(items)) + body

    def envelope(self, payload, version=1):
        body = payload + self.spare()
        version = version if self.extended is None else 2
        front = struct.pack("<HH", version, 1) + body
        return front + struct.pack("<I", zlib.crc32(front))


def string(text):
    return struct.pack("<I", len(text)) + text


def field(w, name, parent, flags=0, repetition=None, kind=b"float", role=0):
    times = b"" if repetition is None else struct.pack("<Q", repetition)
    return w.record(struct.pack("<IIIHH", 1, 2, parent, role, flags) + times + string(name) + string(kind) + string(b"") + string(b"d"))


def header(w, size):
    """A header of so many fields, with columns, aliases and parents that come later in the list."""
    fields, columns, aliases = [], [], []
    for i in range(size):
        flags = 2 if i == 2 else 1 if i == 3 else 0
        parent = i if i % 3 != 1 else min(i + 1, size - 1)
        name = f"θ{i}" if i % 2 else f"f{i}"
        fields.append(field(w, name.encode(), parent, flags, 9 if flags & 1 else None))
    fields = w.list(fields)
    for i in range(size):
        columns.append(w.record(struct.pack("<HHII", *((2, 32) if i % 2 == 0 else (0x77, 5)), i, i % 8)))
    columns = w.list(columns)
    if size > 2:
        aliases.append(w.record(struct.pack("<II", size - 1, 2)))
    aliases = w.list(aliases)
    return w.envelope(struct.pack("<Q", 0) + string(b"events") + string(b"") + fields + columns + aliases)


# The checksums that footers of version 2 and above have for their page lists.
SUMS = (0x04030201, 0, 0xFFFFFFFF)


def footer(w, checksum, size, version=2):
    clusters, first = [], 0
    empty = w.list([]), w.list([])
    for i in range(size):
        carried = struct.pack("<I", SUMS[i]) if version > 1 else b""
        clusters.append(w.record(struct.pack("<QQIIQ", first, i + 1, 40 + i, 40 + i, 1000 * i) + carried))
        first += i + 1
    clusters = w.list(clusters)
    links = w.list([struct.pack("<IIQ", 7, 7, 100 * i) for i in range(size)])
    return w.envelope(struct.pack("<QI", 0, checksum) + empty[0] + empty[1] + clusters + links, version)


def page_list(w, size):
    """Pages of a header of so many fields: three elements for each top-level field's column of known type."""
    columns = []
    for i in range(size):
        bits = 32 if i % 2 == 0 else 5
        pages = [struct.pack("<IIQ", n | (i % 2) << 30, (n * bits + 7) // 8, 64 * i + n) for n in (1, 2)]
        columns.append(w.list(pages))
    return w.envelope(w.list(columns))


def frames(write):
    w = Writer()
    write(w)
    return w.frames


def case(kind, which, place, plain_header, newer_header, plain=b"", newer=b""):
    lengths = [len(e) for e in (plain_header, newer_header, plain, newer)]
    head = struct.pack("<11I", kind, which, place, *lengths, FILE_LENGTH, *SUMS)
    return head + b"".join(e.ljust(ROOM, b"\0") for e in (plain_header, newer_header, plain, newer))


def added(newer):
    """Where the added byte stands: it is the only one of its value between the versions and the checksum."""
    places = [i for i in range(4, len(newer) - 4) if newer[i] == ADDED[0]]
    assert len(places) == 1, places
    return places[0]


def checksum_of(envelope):
    return struct.unpack("<I", envelope[-4:])[0]


# A footer of version 2 stays at it, and one of version 1 is raised to it.
FOOTERS = ((2, 2), (4, 1))


def cases():
    for size in (0, 1, 4, 6):
        plain = header(Writer(), size)
        for k in range(frames(lambda w: header(w, size))):
            newer = header(Writer(k), size)
            yield size, case(1, 1, added(newer), plain, newer)
            if size == 4:
                for kind, version in FOOTERS:
                    f, g = footer(Writer(), checksum_of(plain), 2, version), footer(Writer(), checksum_of(newer), 2)
                    yield size, case(kind, 1, added(newer), plain, newer, f, g)
                p = page_list(Writer(), size)
                yield size, case(3, 1, added(newer), plain, newer, p, p)
        # Of the header a footer needs no more than that it is accepted: two of them are enough.
        for n in (0, 1, 3) if size in (0, 4) else ():
            for k in range(frames(lambda w: footer(w, checksum_of(plain), n))):
                newer = footer(Writer(k), checksum_of(plain), n)
                for kind, version in FOOTERS:
                    yield size, case(kind, 2, added(newer), plain, plain, footer(Writer(), checksum_of(plain), n, version), newer)
        p = page_list(Writer(), size)
        for k in range(frames(lambda w: page_list(w, size))):
            newer = page_list(Writer(k), size)
            yield size, case(3, 2, added(newer), plain, plain, p, newer)


def told(kind, size):
    """How many changed words are told apart: every word of a table without strings, counted or not, and of a row of a field that is counted all but
    the place of the one string that is empty. The tables have 32 words of columns and 4 of aliases, 20 of clusters and 8 of links, 80 of pages."""
    return {1: 14 * size + 32 + 4, 2: 20 + 8, 3: 80, 4: 20 + 8}[kind]


# What is printed, in turn: the kind of its cases, its name, and how many changed words of a case are told apart. The sum of the moves is one word.
PRINTED = (
    (1, "header", told),
    (1, "moves to the top", lambda kind, size: 1),
    (2, "footer", told),
    (4, "footer raised from version 1", told),
    (3, "page list", told),
    (3, "page list and its row", told),
)


def main():
    sized = list(cases())
    lines = []
    for kind, name, words_told in PRINTED:
        sizes = [size for size, c in sized if c[0] == kind]
        n, words = 256 * len(sizes), sum(words_told(kind, size) for size in sizes)
        lines.append(f"{name}: {len(sizes)} added bytes, each of 256 values: {n} read the same, {n} refused 11 where the version is the minimum, {words} changed words told apart\n")
    # A page list beside a newer header is itself the same, and so is its row.
    changed = sum(256 for _, c in sized if (c[0], c[4]) == (3, 2))
    lines.append(f"page list and an old row: {changed} refused 26\n")
    here = pathlib.Path(__file__).parent
    (here / "data").mkdir(exist_ok=True)
    (here / "data" / "cases").write_bytes(b"".join(c for _, c in sized))
    (here / "stdout").write_text("".join(lines))


if __name__ == "__main__":
    main()
