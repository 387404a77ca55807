#!/usr/bin/env python3
"""Writes the headers in data/, the list of them in args and what is to be printed for them in stdout.
Each case has its bytes and the answer that document 01 gives for them, both written by hand: nothing here reads a header."""

import os
import shutil
import struct
import zlib

HERE = os.path.dirname(os.path.abspath(__file__))
CASES = []  # (name, bytes, what is printed)


# The parts of a header.


def u16(n):
    return struct.pack("<H", n)


def u32(n):
    return struct.pack("<I", n)


def u64(n):
    return struct.pack("<Q", n)


def envelope(payload, version=1, minimum=1):
    content = u16(version) + u16(minimum) + payload
    return content + u32(zlib.crc32(content))


def string(text=b""):
    return u32(len(text)) + text


def record(content, more=0):
    """A record frame; `more` is how much its size says beside what it has."""
    return struct.pack("<i", 4 + len(content) + more) + content


def items(members, more=0, count=None, spare=b""):
    """A list frame; `more` as above, and `count` where it is not the number of members."""
    content = b"".join(members) + spare
    return struct.pack("<i", -(8 + len(content) + more)) + u32(len(members) if count is None else count) + content


EMPTY = items([])
NO_TEXTS = u64(0) + string() + string()  # no feature, no name, no description


def numbers(parent=0, role=0, flags=0, repetition=b""):
    """A field's numbers."""
    return u32(1) + u32(2) + u32(parent) + u16(role) + u16(flags) + repetition


def texts(name=b"", type_name=b"", type_alias=b"", description=b""):
    """A field's strings."""
    return string(name) + string(type_name) + string(type_alias) + string(description)


def field(parent=0, role=0, flags=0, repetition=b"", spare=b"", **strings):
    return record(numbers(parent, role, flags, repetition) + texts(**strings) + spare)


def column(column_type=0x11, bits=32, on_field=0, flags=0, spare=b""):
    return record(u16(column_type) + u16(bits) + u32(on_field) + u32(flags) + spare)


def alias(physical_column=0, on_field=0, spare=b""):
    return record(u32(physical_column) + u32(on_field) + spare)


def header(fields=EMPTY, columns=EMPTY, aliases=EMPTY, spare=b"", version=1, minimum=1):
    return envelope(NO_TEXTS + fields + columns + aliases + spare, version, minimum)


# The cases.


def accepted(name, content, fields=0, columns=0, aliases=0):
    CASES.append((name, content, f"1 accepted {fields} fields {columns} columns {aliases} aliases"))


def refused(number, name, content):
    CASES.append((name, content, f"1 refused {number}"))


def flipped(content, place):
    return content[:place] + bytes([content[place] ^ 0x01]) + content[place + 1 :]


SMALLEST = header()
assert len(SMALLEST) == 48

# Length, checksum and versions.
accepted("smallest", SMALLEST)
refused(2, "empty", b"")
refused(2, "seven_bytes", SMALLEST[:7])
refused(7, "eight_bytes", envelope(b""))
refused(3, "checksum_bit", flipped(SMALLEST, 47))
refused(3, "content_bit", flipped(SMALLEST, 4))
refused(3, "checksum_before_versions", flipped(header(minimum=0), 47))
refused(4, "minimum_0", header(minimum=0))
refused(4, "minimum_above_version", header(version=1, minimum=2))
refused(4, "version_0", header(version=0, minimum=1))
refused(5, "minimum_2", header(version=2, minimum=2))
accepted("version_65535", header(version=65535))
longest = 65536 - len(SMALLEST)
accepted("length_65536", envelope(u64(0) + string() + string(b"d" * longest) + EMPTY * 3))
CASES.append(("length_65537", envelope(u64(0) + string() + string(b"d" * (longest + 1)) + EMPTY * 3), "1 longer than 65536"))

# Feature words: bit 63 alone may be set, and asks for another.
refused(6, "feature_bit_0", envelope(u64(1) + string() * 2 + EMPTY * 3))
refused(6, "feature_bit_62", envelope(u64(1 << 62) + string() * 2 + EMPTY * 3))
refused(6, "feature_bits_63_and_0", envelope(u64(1 << 63 | 1) + u64(0) + string() * 2 + EMPTY * 3))
accepted("feature_words_2", envelope(u64(1 << 63) + u64(0) + string() * 2 + EMPTY * 3))
refused(6, "feature_word_2_bit_0", envelope(u64(1 << 63) + u64(1) + string() * 2 + EMPTY * 3))
refused(7, "feature_word_of_7_bytes", envelope(bytes(7)))
refused(7, "feature_word_2_missing", envelope(u64(1 << 63)))

# Name and description.
refused(7, "name_length_of_3_bytes", envelope(u64(0) + bytes(3)))
refused(7, "name_too_long", envelope(u64(0) + u32(5) + b"name"))
refused(7, "name_length_ffffffff", envelope(u64(0) + u32(0xFFFFFFFF) + string() + EMPTY * 3))
accepted("name_byte_127", envelope(u64(0) + string(b"a\x7f") + string() + EMPTY * 3))
refused(9, "name_byte_128", envelope(u64(0) + string(b"a\x80") + string() + EMPTY * 3))
refused(9, "description_byte_255", envelope(u64(0) + string(b"name") + string(b"\xff") + EMPTY * 3))
refused(7, "description_missing", envelope(u64(0) + string(b"name")))


# Strings are well-formed UTF-8: the first and the last sequence of each row of the Unicode Standard's Table 3-7, and what stands beside them.
def named(name, description=b""):
    return envelope(u64(0) + string(name) + string(description) + EMPTY * 3)


ROW_ENDS = (
    "00 7f c2.80 df.bf e0.a0.80 e0.bf.bf e1.80.80 ec.bf.bf ed.80.80 ed.9f.bf ee.80.80 ef.bf.bf "
    "f0.90.80.80 f0.bf.bf.bf f1.80.80.80 f3.bf.bf.bf f4.80.80.80 f4.8f.bf.bf"
)
ILL_FORMED = (
    # overlong forms of 2, 3 and 4 bytes
    "c0.80 c1.bf e0.80.80 e0.9f.bf f0.80.80.80 f0.8f.bf.bf "
    # the first and the last surrogate
    "ed.a0.80 ed.bf.bf "
    # 110000, and first bytes that no sequence has
    "f4.90.80.80 f5.80.80.80 f6.80.80.80 f7.bf.bf.bf f8.88.80.80.80 f9.80.80.80 fa.80.80.80 fb.bf.bf.bf fc.84.80.80.80.80 fd.bf.bf.bf fe ff "
    # a continuation byte with no sequence that it continues
    "80 bf 41.80 c2.80.80 e1.80.80.80 f1.80.80.80.80 "
    # cut off by the end of the string
    "c2 e1 e1.80 f1 f1.80 f1.80.80 41.c2 "
    # cut off by the next sequence, and each continuation byte below and above its range
    "c2.41 c2.c2.80 c2.7f df.c0 e1.41.80 e1.80.41 e1.80.7f e1.80.c0 e1.7f.80 e1.c0.80 f1.41.80.80 f1.80.41.80 f1.80.80.41 f1.80.c0.80 f1.80.80.c0 f1.80.80.7f"
)


def sequences(text):
    for sequence in text.split():
        yield sequence.replace(".", "_"), bytes.fromhex(sequence.replace(".", ""))


for label, characters in sequences(ROW_ENDS):
    accepted(f"utf8_{label}", named(characters))
for label, characters in sequences(ILL_FORMED):
    refused(9, f"utf8_{label}", named(characters))
# the next string's bytes, or those of the frame after it, would complete the sequence
refused(9, "utf8_completed_by_the_next_string", named(b"\xf1\x80", b"\x80" * 128))
refused(9, "utf8_completed_by_the_next_length", envelope(u64(0) + string(b"\xc2") + string(b"d" * 128) + EMPTY * 3))
refused(9, "utf8_completed_by_the_next_field", header(items([field(description=b"\xf0\x9f"), field(name=b"\x9b\xb0")])))
accepted("utf8_alphabets", named("Zähler αβγ детектор 検出器 🛰".encode(), "Ω".encode()))
# around blocks of 8 and of 32 bytes: a sequence across the end of one, one that starts the next, and one cut at the end of the last
for length in (7, 8, 15, 16, 31, 32, 33, 63, 64, 65, 71):
    accepted(f"utf8_ascii_{length}_then_4_bytes", named(b"a" * length + "🛰".encode() + b"end"))
    refused(9, f"utf8_ascii_{length}_then_80", named(b"a" * length + b"\x80"))
    refused(9, f"utf8_ascii_{length}_then_cut", named(b"a" * length + "🛰".encode()[:3]))
accepted("utf8_long", named("検出器".encode() * 40 + b"end"))
refused(9, "utf8_long_cut", named(("検出器" * 40).encode()[:-1]))

# The same in every string of a field.
for place in ("name", "type_name", "type_alias", "description"):
    accepted(f"utf8_in_a_field_{place}", header(items([field(**{place: "検出器 🛰".encode()})])), fields=1)
    refused(9, f"utf8_surrogate_in_a_field_{place}", header(items([field(**{place: b"a\xed\xa0\x80"})])))
accepted("utf8_in_a_description", named(b"name", "検出器 🛰".encode()))
refused(9, "utf8_surrogate_in_a_description", named(b"name", b"a\xed\xa0\x80"))
# 7 for a string that is not all there comes before 9, and 9 for the first ill-formed string before all that follows
refused(7, "utf8_ill_formed_and_too_long", envelope(u64(0) + u32(3) + b"\xff\xff"))
refused(9, "utf8_before_the_next_string", envelope(u64(0) + string(b"\xff") + u32(0xFFFFFFFF)))
refused(9, "utf8_before_the_fields", envelope(u64(0) + string() + string(b"\xff") + u32(0)))

# Frames where a list is due.
accepted("list_size_fffffff8", header(fields=u32(0xFFFFFFF8) + u32(0)))
refused(8, "list_size_00000004", header(fields=u32(0x00000004)))
refused(8, "list_size_00000008", header(fields=u32(0x00000008) + u32(0)))
refused(8, "list_size_fffffffc", header(fields=u32(0xFFFFFFFC) + u32(0)))
refused(8, "list_size_fffffff9", header(fields=u32(0xFFFFFFF9) + u32(0)))
refused(8, "list_size_00000000", header(fields=u32(0x00000000) + u32(0)))
refused(7, "list_size_80000000", header(fields=u32(0x80000000) + u32(0)))
refused(8, "list_size_7fffffff", header(fields=u32(0x7FFFFFFF) + u32(0)))
refused(7, "list_size_of_3_bytes", envelope(NO_TEXTS + EMPTY * 2 + bytes(3)))
refused(7, "list_missing", envelope(NO_TEXTS + EMPTY * 2))
refused(7, "list_past_its_envelope", header(aliases=items([], more=1)))
refused(7, "list_ends_in_the_checksum", header(aliases=items([], more=4)))
refused(8, "reserved_bit_28", header(fields=items([], count=1 << 28)))
refused(8, "reserved_bit_31", header(columns=items([], count=1 << 31)))
refused(8, "reserved_before_count", header(aliases=items([], count=1 << 29 | 257)))
refused(7, "frame_before_reserved", header(aliases=items([], more=1, count=1 << 28)))

# Frames where a record is due.
refused(7, "item_missing", header(fields=items([], count=1)))
refused(7, "item_size_of_3_bytes", header(fields=items([bytes(3)])))
refused(8, "item_is_a_list", header(fields=items([items([])])))
refused(8, "item_size_00000003", header(fields=items([u32(3) + numbers() + texts()])))
refused(7, "item_size_00000004", header(fields=items([u32(4)])))
refused(8, "item_size_80000000", header(fields=items([u32(0x80000000) + numbers() + texts()])))
refused(7, "item_past_its_list", header(fields=items([record(numbers() + texts(), more=1)])))
refused(7, "second_item_missing", header(fields=items([field()], count=2)))
refused(7, "list_cut_in_its_item", header(fields=items([field()], more=-1)))

# Fields.
ONE_FIELD = items([field()])
accepted("one_field", header(ONE_FIELD), 1)
accepted("field_strings", header(items([field(name=b"n", type_name=b"std::int32_t", type_alias=b"alias", description=b"text")])), 1)
refused(14, "parent_1_of_one", header(items([field(parent=1)])))
refused(14, "parent_ffffffff", header(items([field(parent=0xFFFFFFFF)])))
accepted("parents_later", header(items([field(parent=1), field(parent=2), field(parent=2)])), 3)
refused(15, "each_others_parent", header(items([field(parent=1), field(parent=0)])))
refused(15, "circle_beside_a_top_field", header(items([field(), field(parent=2), field(parent=3), field(parent=1)])))
refused(15, "chain_into_a_circle", header(items([field(parent=1), field(parent=2), field(parent=1)])))
refused(11, "spare_before_chains", header(items([field(parent=1), field(parent=0)]), spare=b"\0"))
accepted("role_4", header(items([field(role=4)])), 1)
refused(12, "role_5", header(items([field(role=5)])))
refused(14, "parent_before_role", header(items([field(parent=1, role=5)])))
accepted("flags_3", header(items([field(flags=3, repetition=u64(7))])), 1)
refused(12, "flags_4", header(items([field(flags=4)])))
refused(12, "flags_8000", header(items([field(flags=0x8000)])))
refused(7, "repetition_missing", header(items([field(flags=1)])))
refused(7, "flags_missing", header(items([record(numbers()[:15])])))
refused(7, "type_name_too_long", header(items([record(numbers() + string() + u32(99) + string() * 2)])))
refused(9, "type_name_byte_128", header(items([field(type_name=b"\x80")])))
refused(9, "field_description_byte_200", header(items([field(description=b"ok\xc8")])))
refused(7, "field_description_missing", header(items([record(numbers() + string() * 3)])))
refused(12, "second_field_role_5", header(items([field(), field(role=5)])))
accepted("fields_512", header(items([field()] * 512)), 512)
refused(10, "fields_513", header(items([field()] * 513)))
refused(10, "count_before_items", header(items([], count=513)))
refused(10, "count_0fffffff", header(items([], count=0x0FFFFFFF)))

# Columns. The types in order, with their bits.
BITS = [64, 32, 96, 8, 8, 1, 64, 32, 16, 64, 32, 16, 8, 64, 32, 64, 32, 16, 64, 32, 16, 64, 32, 16, 8, 64, 32, 16]
assert len(BITS) == 28
KNOWN = [column(1 + i, bits) for i, bits in enumerate(BITS)]
accepted("one_column", header(ONE_FIELD, items([column()])), 1, 1)
accepted("known_types", header(ONE_FIELD, items(KNOWN)), 1, 28)
accepted("type_1d_is_unknown", header(ONE_FIELD, items([column(0x1D, 7)])), 1, 1)
accepted("type_00_is_unknown", header(ONE_FIELD, items([column(0, 0)])), 1, 1)
accepted("type_ffff_is_unknown", header(ONE_FIELD, items([column(0xFFFF, 0xFFFF)])), 1, 1)
refused(13, "type_1b_of_64_bits", header(ONE_FIELD, items([column(0x1B, 64)])))
refused(13, "type_06_of_8_bits", header(ONE_FIELD, items([column(0x06, 8)])))
refused(13, "type_03_of_95_bits", header(ONE_FIELD, items([column(0x03, 95)])))
refused(13, "type_1c_of_0_bits", header(ONE_FIELD, items([column(0x1C, 0)])))
refused(13, "type_01_after_right_ones", header(ONE_FIELD, items(KNOWN + [column(0x01, 65)])))
refused(14, "column_on_field_1_of_one", header(ONE_FIELD, items([column(on_field=1)])))
refused(14, "column_without_fields", header(columns=items([column()])))
refused(13, "bits_before_field", header(ONE_FIELD, items([column(bits=31, on_field=1)])))
refused(14, "field_before_flags", header(ONE_FIELD, items([column(on_field=1, flags=8)])))
accepted("column_flags_7", header(ONE_FIELD, items([column(flags=7)])), 1, 1)
refused(12, "column_flags_8", header(ONE_FIELD, items([column(flags=8)])))
refused(12, "column_flags_80000000", header(ONE_FIELD, items([column(flags=0x80000000)])))
refused(7, "column_flags_of_3_bytes", header(ONE_FIELD, items([record(column()[4:-1])])))
accepted("columns_1024", header(ONE_FIELD, items([column()] * 1024)), 1, 1024)
refused(10, "columns_1025", header(ONE_FIELD, items([column()] * 1025)))

# Aliases.
ALIASED = items([field(), field(parent=1, flags=2)])
ONE_COLUMN = items([column()])
accepted("one_alias", header(ALIASED, ONE_COLUMN, items([alias(0, 1)])), 2, 1, 1)
refused(14, "alias_field_without_flag", header(ALIASED, ONE_COLUMN, items([alias(0, 0)])))
refused(14, "alias_field_2_of_two", header(ALIASED, ONE_COLUMN, items([alias(0, 2)])))
refused(14, "alias_column_1_of_one", header(ALIASED, ONE_COLUMN, items([alias(1, 1)])))
refused(14, "alias_without_columns", header(ALIASED, EMPTY, items([alias(0, 1)])))
refused(14, "second_alias_column_1", header(ALIASED, ONE_COLUMN, items([alias(0, 1), alias(1, 1)])))
refused(7, "alias_field_missing", header(ALIASED, ONE_COLUMN, items([record(u32(0))])))
accepted("aliases_256", header(ALIASED, ONE_COLUMN, items([alias(0, 1)] * 256)), 2, 1, 256)
refused(10, "aliases_257", header(ALIASED, ONE_COLUMN, items([alias(0, 1)] * 257)))

# One byte after the last known content of each container.
SPARE = b"\xff"


def spare(where, counts, **parts):
    """Refused at version 1, which is the minimum, and accepted at version 2."""
    refused(11, f"spare_in_{where}", header(**parts))
    accepted(f"spare_in_{where}_version_2", header(version=2, **parts), *counts)


spare("payload", (0, 0, 0), spare=SPARE)
spare("empty_list", (0, 0, 0), columns=items([], spare=SPARE))
spare("field_list", (1, 0, 0), fields=items([field()], spare=SPARE))
spare("field", (1, 0, 0), fields=items([field(spare=SPARE)]))
spare("column_list", (1, 1, 0), fields=ONE_FIELD, columns=items([column()], spare=SPARE))
spare("column", (1, 1, 0), fields=ONE_FIELD, columns=items([column(spare=SPARE)]))
spare("alias_list", (2, 1, 1), fields=ALIASED, columns=ONE_COLUMN, aliases=items([alias(0, 1)], spare=SPARE))
spare("alias", (2, 1, 1), fields=ALIASED, columns=ONE_COLUMN, aliases=items([alias(0, 1, spare=SPARE)]))


def write(path, content):
    with open(os.path.join(HERE, path), "wb") as file:
        file.write(content)


if __name__ == "__main__":
    names = [name for name, _, _ in CASES]
    assert len(set(names)) == len(names)
    shutil.rmtree(os.path.join(HERE, "data"), ignore_errors=True)
    os.mkdir(os.path.join(HERE, "data"))
    for name, content, _ in CASES:
        write(os.path.join("data", name), content)
    write("args", "".join(f"{name}\n" for name in names).encode())
    write("stdout", "".join(f"{name}: {line}\n" for name, _, line in CASES).encode())
    print(f"{len(CASES)} cases")
