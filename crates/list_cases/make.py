#!/usr/bin/env python3
"""Writes the cases in data/, the list of them in args and what is to be printed for them in stdout.
A case is a header, how many bytes are lent for its listing and how many words for the result. The listings are made here from the fields, as
document 02 has them, and those of the small headers are written by hand beside that; so are the numbers of refusals. Nothing here reads a header."""

import os
import random
import sys
import zlib

HERE = os.path.dirname(os.path.abspath(__file__))
sys.path.insert(0, os.path.join(HERE, "..", "envelope_cases"))

from parts import EMPTY, LONGEST, envelope, flipped, items, printed, record, string, u16, u32, u64, words_of, write_files

CASES = []  # (name, bytes, what is printed)

# A header, and its listing.


class Field:
    def __init__(self, parent, name=b"", type_name=b"", type_alias=b"", description=b"", role=0, flags=0, spare=b""):
        self.parent, self.name, self.type_name, self.spare = parent, name, type_name, spare
        self.numbers = u32(1) + u32(2) + u32(parent) + u16(role) + u16(flags) + (u64(3) if flags & 1 else b"")
        self.texts = string(name) + string(type_name) + string(type_alias) + string(description)

    def bytes(self):
        return record(self.numbers + self.texts + self.spare)


class Column:
    def __init__(self, column_type, bits, on_field, spare=b""):
        # The types are 01 to 1C.
        self.unknown, self.on_field = not 1 <= column_type <= 0x1C, on_field
        self.bytes = record(u16(column_type) + u16(bits) + u32(on_field) + u32(0) + spare)


def known(on_field):
    return Column(0x11, 32, on_field)


def unknown(on_field):
    return Column(0x1D, 7, on_field)


def alias(physical_column, on_field):
    return record(u32(physical_column) + u32(on_field))


def header(fields=(), columns=(), aliases=(), features=u64(0), title=b"events", description=b"of a run", spare=b"", version=1, minimum=1, spare_fields=b""):
    lists = items([f.bytes() for f in fields], spare=spare_fields) + items([c.bytes for c in columns]) + items(aliases)
    return envelope(features + string(title) + string(description) + lists + spare, version, minimum)


def readable(text):
    return bytes(ord("?") if byte < 32 or byte == 127 else byte for byte in text)


def listing(fields, columns=()):
    dark = set()
    for at in (c.on_field for c in columns if c.unknown):
        dark.add(at)
        while fields[at].parent != at:
            at = fields[at].parent
            dark.add(at)
    children = [[] for _ in fields]
    for number, field in enumerate(fields):
        if field.parent != number:
            children[field.parent].append(number)
    lines = []

    def list_field(number, level):
        field = fields[number]
        mark = b" dark" if number in dark else b""
        lines.append(b"  " * level + b"%d " % number + readable(field.name) + b" " + readable(field.type_name) + mark + b"\n")
        for child in children[number]:
            list_field(child, level + 1)

    for number, field in enumerate(fields):
        if field.parent == number:
            list_field(number, 0)
    assert len(lines) == len(fields)
    return b"".join(lines)


# The cases. Each lent byte is EE and each lent word 9 before the call.

MOST_LENT = LONGEST + 1


def case(name, content, line, room, result_words, zeros=0):
    CASES.append((name, words_of([room, result_words, zeros]) + content, line))


def listed(name, fields, columns=(), due=None, room=None, result_words=1, number=0, **parts):
    """`due` is the listing as it is written by hand; with no room given there are three bytes more than it has. `number` is that of the answer."""
    text = listing(fields, columns)
    assert due in (None, text), (name, due, text)
    lent = len(text) + 3 if room is None else room
    assert lent <= MOST_LENT and number == (20 if lent < len(text) else 0), name
    line = printed(256 + 20 if number else 0, b"" if number else text, lent, result_words)
    case(name, header(fields, columns, **parts), line, lent, result_words)


def exactly(name, fields, columns=(), due=None):
    """With exactly the room, and with one byte less."""
    length = len(listing(fields, columns))
    listed(name, fields, columns, due, room=length)
    listed(f"{name}_one_byte_less", fields, columns, due, room=length - 1, number=20)


def refused(number, name, content, room=8, result_words=1, zeros=0):
    case(name, content, printed(256 + number, b"", room, result_words), room, result_words, zeros)


# Document 02's example, with every kind of room and of result.
PAIR = [Field(0, b"v", b"vec"), Field(0, b"_0", b"float")]
PAIR_LISTED = b"0 v vec\n  1 _0 float\n"
listed("example", PAIR, due=PAIR_LISTED)
for room in (len(PAIR_LISTED), 128, 129, 65536, MOST_LENT):
    listed(f"example_room_{room}", PAIR, due=PAIR_LISTED, room=room)
for room in (0, 1, 8, len(PAIR_LISTED) - 1):
    listed(f"example_room_{room}", PAIR, due=PAIR_LISTED, room=room, number=20)
for result_words in (0, 2, 4):
    listed(f"example_result_{result_words}", PAIR, due=PAIR_LISTED, result_words=result_words)
    listed(f"example_room_0_result_{result_words}", PAIR, due=PAIR_LISTED, room=0, result_words=result_words, number=20)

# No fields: nothing is written.
for room in (0, 3, 200):
    listed(f"no_fields_room_{room}", [], due=b"", room=room)
listed("no_fields_room_0_result_0", [], due=b"", room=0, result_words=0)
listed("no_fields_result_2", [], due=b"", result_words=2)
listed("no_fields_no_title", [], due=b"", title=b"", description=b"")

# One field, and strings that are empty or no part of a listing.
exactly("one_field", [Field(0, b"v", b"vec")], due=b"0 v vec\n")
exactly("one_field_without_strings", [Field(0)], due=b"0  \n")
listed("one_field_without_name", [Field(0, b"", b"vec")], due=b"0  vec\n")
listed("one_field_without_type", [Field(0, b"v")], due=b"0 v \n")
listed("other_strings", [Field(0, b"v", b"vec", b"an alias", b"what it is for")], due=b"0 v vec\n")
listed("other_numbers", [Field(0, b"v", b"vec", role=1, flags=3), Field(0, b"w", b"x", role=4, flags=1)], due=b"0 v vec\n  1 w x\n")
listed("spaces", [Field(0, b" a  b ", b" "), Field(0, b"  1 c", b" d")], due=b"0  a  b   \n  1   1 c  d\n")
listed("looks_like_a_refusal", [Field(1, b"a", b"b"), Field(1, b"refused", b"7")], due=b"1 refused 7\n  0 a b\n")

# Parents that stand anywhere.
exactly("child_first", [Field(1, b"a", b"A"), Field(1, b"b", b"B")], due=b"1 b B\n  0 a A\n")
exactly(
    "children_on_both_sides",
    [Field(2, b"a"), Field(2, b"b"), Field(2, b"c"), Field(2, b"d"), Field(1, b"e"), Field(4, b"f")],
    due=b"2 c \n  0 a \n  1 b \n    4 e \n      5 f \n  3 d \n",
)
exactly(
    "forest",
    [Field(0, b"a"), Field(6, b"b"), Field(0, b"c"), Field(3, b"d"), Field(3, b"e"), Field(2, b"f"), Field(6, b"g"), Field(0, b"h")],
    due=b"0 a \n  2 c \n    5 f \n  7 h \n3 d \n  4 e \n6 g \n  1 b \n",
)
exactly(
    "binary_tree",
    [Field(max(0, (i - 1) // 2), b"%c" % (97 + i)) for i in range(7)],
    due=b"0 a \n  1 b \n    3 d \n    4 e \n  2 c \n    5 f \n    6 g \n",
)
exactly(
    "binary_tree_from_its_end",
    [Field(6 - max(0, (5 - i) // 2), b"%c" % (97 + i)) for i in range(7)],
    due=b"6 g \n  4 e \n    0 a \n    1 b \n  5 f \n    2 c \n    3 d \n",
)
exactly("chain_that_turns", [Field(3), Field(0), Field(1), Field(3)], due=b"3  \n  0  \n    1  \n      2  \n")
exactly("two_chains", [Field(0), Field(1), Field(0), Field(1), Field(2), Field(3)], due=b"0  \n  2  \n    4  \n1  \n  3  \n    5  \n")


# As many fields as there can be. All of them may name the same parent, itself included.
def names(parents):
    return [Field(parent, b"f%d" % i, b"t") for i, parent in enumerate(parents)]


SHAPES = {
    "chain": [max(0, i - 1) for i in range(512)],
    "chain_from_its_end": [min(511, i + 1) for i in range(512)],
    "all_on_the_first": [0] * 512,
    "all_on_the_last": [511] * 512,
    "all_on_one": [256] * 512,
    "tops": list(range(512)),
    "binary": [max(0, (i - 1) // 2) for i in range(512)],
    "binary_from_its_end": [511 - max(0, (510 - i) // 2) for i in range(512)],
    "pairs": [i // 2 * 2 for i in range(512)],
    "pairs_from_their_ends": [i // 2 * 2 + 1 for i in range(512)],
    "chain_of_256_with_a_leaf_each": [i if i == 0 else i - 1 if i < 256 else i - 256 for i in range(512)],
}
for label, parents in SHAPES.items():
    listed(f"fields_512_{label}", names(parents), room=len(listing(names(parents))))
listed("fields_512_chain_without_strings", [Field(max(0, i - 1)) for i in range(512)])
listed("fields_512_chain_room_much", names(SHAPES["chain"]), room=MOST_LENT)
listed("fields_511_chain", names(SHAPES["chain"][:511]))
listed("fields_512_chain_one_byte_less", names(SHAPES["chain"]), room=len(listing(names(SHAPES["chain"]))) - 1, number=20)
listed("fields_512_chain_room_0", names(SHAPES["chain"]), room=0, number=20)
listed("fields_512_chain_result_0", names(SHAPES["chain"]), room=0, result_words=0, number=20)


def any_forest(seed, count, tops):
    """Fields in any order, each but the tops below one that was taken before."""
    order = list(range(count))
    dice = random.Random(seed)
    dice.shuffle(order)
    parents = [0] * count
    for i, number in enumerate(order):
        parents[number] = number if i < tops else order[dice.randrange(max(0, i - 20), i)]
    return parents, [unknown(dice.randrange(count)) for _ in range(count // 40)] + [known(dice.randrange(count))]


for seed, (count, tops) in enumerate([(10, 1), (12, 3), (40, 2), (101, 7), (300, 1), (512, 1), (512, 20)], 1):
    parents, columns = any_forest(seed, count, tops)
    listed(f"forest_{count}_fields_{tops}_tops", names(parents), columns)

# Dark fields: those with an unknown column, and those above them.
FAMILY = [Field(0, b"a", b"A"), Field(0, b"b", b"B"), Field(1, b"c", b"C"), Field(1, b"d", b"D"), Field(4, b"e", b"E")]
FAMILY_LISTED = b"0 a A\n  1 b B\n    2 c C\n    3 d D\n4 e E\n"


def marked(*numbers):
    lines = FAMILY_LISTED.split(b"\n")[:-1]
    return b"".join(line + (b" dark\n" if number in numbers else b"\n") for number, line in enumerate(lines))


listed("dark_none", FAMILY, [known(2), known(4)], due=FAMILY_LISTED)
listed("dark_leaf", FAMILY, [unknown(3)], due=marked(0, 1, 3))
listed("dark_middle", FAMILY, [known(2), unknown(1)], due=marked(0, 1))
listed("dark_top", FAMILY, [unknown(0)], due=marked(0))
listed("dark_other_top", FAMILY, [unknown(4)], due=marked(4))
listed("dark_all", FAMILY, [unknown(4), unknown(3), known(3), unknown(2)], due=marked(0, 1, 2, 3, 4))
listed("dark_type_0", FAMILY, [Column(0, 1, 2)], due=marked(0, 1, 2))
listed("dark_type_ffff", FAMILY, [Column(0xFFFF, 65535, 2)], due=marked(0, 1, 2))
listed("dark_not_by_an_alias", [*FAMILY, Field(5, b"g", b"G", flags=2)], [unknown(4)], due=marked(4) + b"5 g G\n", aliases=[alias(0, 5)])
exactly("dark_child_first", [Field(1, b"a", b"A"), Field(1, b"b", b"B")], [unknown(0)], due=b"1 b B dark\n  0 a A dark\n")
listed("dark_in_a_type_name", [Field(0, b"a", b"A dark"), Field(0, b"", b"dark")], [unknown(0)], due=b"0 a A dark dark\n  1  dark\n")
exactly("dark_without_strings", [Field(0)], [unknown(0)], due=b"0   dark\n")
listed("dark_up_a_chain_of_512", names(SHAPES["chain"]), [unknown(511)])
listed("dark_up_a_chain_of_512_from_its_end", names(SHAPES["chain_from_its_end"]), [unknown(0)])
listed("dark_up_half_a_chain_of_512", names(SHAPES["chain"]), [unknown(255)])
listed("dark_in_1024_columns", names(SHAPES["binary"]), [unknown(511 - i // 2) if i % 64 == 0 else known(i % 512) for i in range(1024)])

# Every byte that a string can have. Those below 32 and byte 127 are printed as ?.
for first in range(0, 128, 16):
    text = bytes(range(first, first + 16))
    due = {0: b"?" * 16, 16: b"?" * 16, 112: b"pqrstuvwxyz{|}~?"}.get(first, text)
    listed(f"bytes_{first:02x}_to_{first + 15:02x}", [Field(0, text, text)], due=b"0 " + due + b" " + due + b"\n")
WIDE = {
    "bytes_80_to_9f": [[0xC2, i] for i in range(0x80, 0xA0)],
    "bytes_a0_to_bf": [[0xC3, i] for i in range(0xA0, 0xC0)],
    "bytes_c2_to_df": [[i, 0x80] for i in range(0xC2, 0xE0)],
    "bytes_e0_to_ef": [[i, 0x9F if i == 0xED else 0xBF, 0x80] for i in range(0xE0, 0xF0)],
    "bytes_f0_to_f4": [[i, 0x8F if i == 0xF4 else 0x90, 0x80, 0xBF] for i in range(0xF0, 0xF5)],
}
EVERY = bytes(range(128)) + b"".join(bytes(b) for rows in WIDE.values() for b in rows)
assert EVERY.decode("utf-8") and set(EVERY) == set(range(256)) - {0xC0, 0xC1, *range(0xF5, 0x100)}
for label, sequences in WIDE.items():
    text = b"".join(bytes(s) for s in sequences)
    assert text.decode("utf-8")
    listed(label, [Field(0, text)], due=b"0 " + text + b" \n")
    listed(f"{label}_in_a_type", [Field(0, b"", text)], due=b"0  " + text + b"\n")
exactly("every_byte", [Field(0, EVERY, EVERY), Field(0, EVERY + EVERY, EVERY)])
listed("line_feeds", [Field(0, b"a\n  1 b c", b"\n"), Field(0, b"\r\n", b"\x1b[1m\t")], due=b"0 a?  1 b c ?\n  1 ?? ?[1m?\n")
listed("question_marks", [Field(0, b"?", b"?\x7f?")], due=b"0 ? ???\n")
LETTERS = [Field(0, "Größe µ".encode(), "темп".encode()), Field(0, "温度".encode(), "🌡".encode())]
listed("alphabets", LETTERS, due="0 Größe µ темп\n  1 温度 🌡\n".encode())
listed("byte_7f_between_wide_ones", [Field(0, "é\x7fé\x1f€\x00".encode(), b"x")], due="0 é?é?€? x\n".encode())
exactly("long_name", [Field(0, b"n" * 30000, "é".encode() * 15000), Field(0, b"\n" * 3000, b"\x7f" * 2000)])

# Newer writers' headers, and other spellings.
SPARE = b"\xff\x00\xff"
listed("spare_bytes", PAIR, due=PAIR_LISTED, version=2, spare=SPARE, spare_fields=SPARE)
SPACIOUS = [Field(0, b"v", b"vec", spare=SPARE), Field(0, b"_0", b"float")]
listed("spare_bytes_in_records", SPACIOUS, [Column(0x1D, 7, 1, SPARE)], due=b"0 v vec dark\n  1 _0 float dark\n", version=65535)
listed("two_feature_words", PAIR, due=PAIR_LISTED, features=u64(1 << 63) + u64(0))

# Refusals: the header's come first, and nothing lent is changed.
CIRCLE = [Field(1, b"a", b"A"), Field(0, b"b", b"B")]
SMALL = header(PAIR)
REFUSED = {
    "of_no_bytes": (2, b""),
    "of_7_bytes": (2, SMALL[:7]),
    "of_8_bytes": (7, envelope(b"")),
    "checksum": (3, flipped(SMALL, len(SMALL) - 1)),
    "content": (3, flipped(SMALL, 40)),
    "minimum_0": (4, header(PAIR, minimum=0)),
    "minimum_above_version": (4, header(PAIR, minimum=2)),
    "minimum_2": (5, header(PAIR, version=2, minimum=2)),
    "feature": (6, header(PAIR, features=u64(1))),
    "name_too_long": (7, envelope(u64(0) + u32(9) + b"name")),
    "list_is_a_record": (8, envelope(u64(0) + string() * 2 + record(b"") + EMPTY * 2)),
    "name_cut": (9, header([Field(0, b"a\xc2", b"A")])),
    "surrogate_in_a_type": (9, header([Field(0, b"a", b"\xed\xa0\x80")])),
    "overlong_line_feed": (9, header([Field(0, b"\xc0\x8a", b"A")])),
    "byte_ff_in_a_description": (9, header([Field(0, b"a", b"A", b"", b"\xff")])),
    "fields_513": (10, header([Field(0)] * 513)),
    "columns_1025": (10, header([Field(0)], [known(0)] * 1025)),
    "spare_byte": (11, header(PAIR, spare=b"\x00")),
    "spare_byte_in_a_field": (11, header([Field(0, b"v", b"vec", spare=b"\x00")])),
    "role_5": (12, header([Field(0, role=5)])),
    "flags_4": (12, header([Field(0, flags=4)])),
    "bits": (13, header(PAIR, [Column(0x11, 31, 0)])),
    "parent_2_of_two": (14, header([Field(0), Field(2)])),
    "column_on_field_2_of_two": (14, header(PAIR, [known(2)])),
    "alias_without_flag": (14, header(PAIR, [known(0)], [alias(0, 1)])),
    "circle": (15, header(CIRCLE)),
    "circle_beside_a_top": (15, header([Field(0), Field(2), Field(1)])),
    "chain_into_a_circle": (15, header([Field(1), Field(2), Field(1), Field(3)])),
    "circle_of_512": (15, header(names([(i + 1) % 512 for i in range(512)]))),
}
assert {number for number, _ in REFUSED.values()} == set(range(2, 16))
for label, (number, content) in REFUSED.items():
    refused(number, f"refused_{label}", content)
    if len(content) < 1000:
        refused(number, f"refused_{label}_room_0", content, room=0)
# So many zeros are an envelope whose checksum differs, and no more than that.
assert zlib.crc32(bytes(LONGEST - 4)) != 0
refused(3, "refused_1048576_zeros", b"", zeros=LONGEST)
refused(1, "refused_1048577_zeros", b"", zeros=LONGEST + 1)
refused(1, "refused_1048577_zeros_room_0", b"", room=0, zeros=LONGEST + 1)
refused(1, "refused_1048577_zeros_result_0", b"", result_words=0, zeros=LONGEST + 1)
refused(15, "refused_circle_room_200", header(CIRCLE), room=200)
for result_words in (0, 2, 4):
    refused(15, f"refused_circle_result_{result_words}", header(CIRCLE), result_words=result_words)


# Listings near the most that the program prints: a chain of 200 fields, of which the last has a name that makes up the length.
def of_length(length):
    fields = [Field(max(0, i - 1), b"n", b"t") for i in range(200)]
    more = length - len(listing(fields))
    assert more > 0
    fields[199] = Field(198, b"n" * (1 + more), b"t")
    assert len(listing(fields)) == length
    return fields


for length in (65535, 65536, 65537):
    listed(f"listing_of_{length}", of_length(length), room=65536, number=20 if length > 65536 else 0)
exactly("listing_of_65537_and_its_room", of_length(65537))


if __name__ == "__main__":
    write_files(HERE, CASES)
    assert all(len(content) <= 65536 for _, content, _ in CASES)
