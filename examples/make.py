#!/usr/bin/env python3
"""Writes the example envelopes beside this file."""

import os
import struct
import zlib

HERE = os.path.dirname(os.path.abspath(__file__))


def envelope(payload, version=1, minimum=1):
    content = struct.pack("<HH", version, minimum) + payload
    return content + struct.pack("<I", zlib.crc32(content))


def string(text):
    content = text.encode() if isinstance(text, str) else text
    return struct.pack("<I", len(content)) + content


def record(content, spare=b""):
    content += spare
    return struct.pack("<i", 4 + len(content)) + content


def items(members, spare=b""):
    content = b"".join(members) + spare
    return struct.pack("<iI", -(8 + len(content)), len(members)) + content


def field(parent, role, name, type_name, flags=0, repetition=0, spare=b""):
    content = struct.pack("<IIIHH", 0, 0, parent, role, flags)
    if flags & 0x01:
        content += struct.pack("<Q", repetition)
    return record(content + string(name) + string(type_name) + string("") + string(""), spare)


def column(column_type, bits, on_field, flags=0, spare=b""):
    return record(struct.pack("<HHII", column_type, bits, on_field, flags), spare)


def alias(physical_column, on_field, spare=b""):
    return record(struct.pack("<II", physical_column, on_field), spare)


FEATURES = struct.pack("<Q", 0)

SMALLEST_HEADER = envelope(FEATURES + string("") + string("") + items([]) * 3)
SMALLEST_FOOTER = envelope(FEATURES + SMALLEST_HEADER[-4:] + items([]) * 4)
SMALLEST_PAGE_LIST = envelope(items([]))


def fields_header(version, spare):
    """Energies, a collection of hits, a fixed array, and an alias to the
    energies. `spare` is what a newer writer has added to each frame."""
    fields = [
        field(0, 0, "energy", "float", spare=spare),
        field(1, 1, "hits", "std::vector<std::int32_t>", spare=spare),
        field(1, 0, "_0", "std::int32_t", spare=spare),
        field(3, 0, "position", "std::array<double,3>", flags=0x01, repetition=3, spare=spare),
        field(4, 0, "e", "float", flags=0x02, spare=spare),
    ]
    columns = [
        column(0x11, 32, 0, spare=spare),
        column(0x0F, 32, 1, spare=spare),
        column(0x1B, 32, 2, spare=spare),
        column(0x10, 64, 3, spare=spare),
    ]
    aliases = [alias(0, 4, spare=spare)]
    payload = FEATURES + string("events") + string("an example")
    payload += items(fields, spare) + items(columns, spare) + items(aliases, spare) + spare
    return envelope(payload, version)


def link(size, offset):
    return struct.pack("<IIQ", size, size, offset)


def page(elements, bits, offset, checksum=False):
    return struct.pack("<IIQ", elements | checksum << 30, (elements * bits + 7) // 8, offset)


def flipped(content, place):
    return content[:place] + bytes([content[place] ^ 0x01]) + content[place + 1:]


FIELDS_HEADER = fields_header(1, b"")


def fields_page_list(positions):
    """Three entries with five hits in all, in a file of 4,096 bytes; the
    positions' page stands at the given place."""
    return envelope(items([
        items([page(3, 32, 64, checksum=True)]),
        items([page(3, 32, 128)]),
        items([page(2, 32, 192), page(3, 32, 200)]),
        items([page(9, 64, positions)]),
    ]))


FIELDS_PAGE_LIST = fields_page_list(256)


def fields_footer(version, checksum):
    """One cluster, whose page list stands at byte 512. From version 2 on the
    cluster record ends with the page list's checksum."""
    cluster = record(struct.pack("<QQ", 0, 3) + link(len(FIELDS_PAGE_LIST), 512) + checksum)
    return envelope(
        FEATURES + FIELDS_HEADER[-4:] + items([]) * 2 + items([cluster]) + items([link(16, 4080)]),
        version)


def alphabets_header(name):
    """Names of fields in other alphabets."""
    fields = [field(0, 0, name, "float"), field(1, 0, "θ", "double"), field(2, 0, "検出器", "std::int32_t")]
    columns = [column(0x11, 32, 0), column(0x10, 64, 1), column(0x1B, 32, 2)]
    payload = FEATURES + string("Zähler") + string("события детектора")
    return envelope(payload + items(fields) + items(columns) + items([]))


def tree_header():
    """Top-level fields first, then those below them, as writers number them:
    the tracks of an event, each a record, and a reading that is one of two
    types. The second of these has a column of a type that is not listed."""
    fields = [
        field(0, 0, "run", "std::uint32_t"),
        field(1, 1, "tracks", "std::vector<Track>"),
        field(2, 3, "adc", "std::variant<std::int32_t,std::bfloat16_t>"),
        field(3, 0, "run_number", "std::uint32_t", flags=0x02),
        field(1, 2, "_0", "Track"),
        field(2, 0, "_0", "std::int32_t"),
        field(2, 0, "_1", "std::bfloat16_t"),
        field(4, 0, "pt", "float"),
        field(4, 0, "φ", "double"),
    ]
    columns = [
        column(0x14, 32, 0),
        column(0x0F, 32, 1),
        column(0x03, 96, 2),
        column(0x1B, 32, 5),
        column(0x1D, 16, 6),
        column(0x11, 32, 7),
        column(0x10, 64, 8),
    ]
    payload = FEATURES + string("muons") + string("a tree of fields")
    return envelope(payload + items(fields) + items(columns) + items([alias(0, 3)]))


EXAMPLES = {
    "smallest.header": SMALLEST_HEADER,
    "smallest.footer": SMALLEST_FOOTER,
    "smallest.pagelist": SMALLEST_PAGE_LIST,
    "fields.header": FIELDS_HEADER,
    "fields.footer": fields_footer(1, b""),
    "fields.pagelist": FIELDS_PAGE_LIST,
    "paired.footer": fields_footer(2, FIELDS_PAGE_LIST[-4:]),
    "stale.pagelist": fields_page_list(384),
    "newer.header": fields_header(2, b"new"),
    "damaged.header": flipped(FIELDS_HEADER, 16),
    "alphabets.header": alphabets_header("энергия"),
    "surrogate.header": alphabets_header(b"\xed\xa0\x80"),
    "tree.header": tree_header(),
}

if __name__ == "__main__":
    for name, content in EXAMPLES.items():
        with open(os.path.join(HERE, name), "wb") as file:
            file.write(content)
        print(f"{name}: {len(content)} bytes")
