#!/usr/bin/env python3
"""Writes the cases in data/, the list of them in args and what is to be printed for them in stdout.
A case is a column type, the words of a table of pages, the part of a file that these lie in, and how many words are lent for the elements and for
the result. The answers are worked out here from documents 01 and 02, page after page. Beside that the elements of each accepted column are
those that its pages were made of, and the number and the index of each refusal are written by hand."""

import itertools
import os
import random
import sys
import zlib

HERE = os.path.dirname(os.path.abspath(__file__))
sys.path.insert(0, os.path.join(HERE, "..", "envelope_cases"))

from parts import BITS, TOO_SHORT, flipped, rows_of, summed, table, u32, words_of, write_files

CASES = []  # (name, bytes, what is printed)

SWITCH = 0x03
SPLIT = {*range(0x0E, 0x16), *range(0x1A, 0x1D)}
DELTA = {0x0E, 0x0F}
ZIGZAG = {0x1A, 0x1B, 0x1C}
KNOWN = [t for t in BITS if t != SWITCH]
assert len(KNOWN) == 27

MOST_PAGES, MOST_ELEMENTS = 256, 131072
# The most words that the program lends, and that a table of pages has.
MOST_LENT, MOST_PAGE_WORDS = 1024, 2048

# A page's bytes and its elements, each way by itself.


def page_of(column_type, values):
    bits = BITS[column_type]
    if bits == 1:
        return bytes(sum(v << i for i, v in enumerate(values[at : at + 8])) for at in range(0, len(values), 8))
    if column_type in DELTA:
        values = [(v - before) % 2**bits for v, before in zip(values, [0, *values])]
    if column_type in ZIGZAG:
        signed = [v - 2**bits if v >= 2 ** (bits - 1) else v for v in values]
        values = [2 * v if v >= 0 else -(2 * v + 1) for v in signed]
    stored = [v.to_bytes(bits // 8, "little") for v in values]
    if column_type in SPLIT:
        stored = [bytes(plane) for plane in zip(*stored)]
    return b"".join(stored)


def elements_of(column_type, count, content):
    bits = BITS[column_type]
    if bits == 1:
        return [content[i // 8] >> i % 8 & 1 for i in range(count)]
    width = bits // 8
    if column_type in SPLIT:
        stored = [content[i::count] for i in range(count)]
    else:
        stored = [content[i : i + width] for i in range(0, count * width, width)]
    numbers = [int.from_bytes(b, "little") for b in stored]
    if column_type in DELTA:
        return [total % 2**bits for total in itertools.accumulate(numbers)]
    if column_type in ZIGZAG:
        return [n // 2 if n % 2 == 0 else 2**bits - (n + 1) // 2 for n in numbers]
    return numbers


# Document 01's vectors.
VECTORS = [
    (0x06, (1, 0, 0, 0, 0, 0, 0, 0, 1), b"\x01\x01"),
    (0x0F, (1, 1, 3), b"\x01\x00\x02" + bytes(9)),
    (0x0F, (5, 3), b"\x05\xfe\x00\xff\x00\xff\x00\xff"),
    (0x15, (0x1234, 0xABCD), b"\x34\xcd\x12\xab"),
    (0x1C, (0, 0xFFFF, 1, 32767, 0x8000), b"\x00\x01\x02\xfe\xff\x00\x00\x00\xff\xff"),
]
for t, values, content in VECTORS:
    assert page_of(t, values) == content and elements_of(t, len(values), content) == list(values)

# A column, page after page.


def page_faults(column_type, file, row, lent, start):
    """The numbers of what is wrong with a page, in the order in which they are looked for: the first is the answer."""
    offset, size, elements, checksum = row
    bits, behind = BITS.get(column_type, 0), 4 if checksum else 0
    content, check_bytes = file[offset : offset + size], file[offset + size : offset + size + behind]
    faults = {
        23: column_type not in KNOWN,
        10: elements > MOST_ELEMENTS,
        18: offset + size + behind > len(file),
        21: size != (elements * bits + 7) // 8,
        22: checksum and check_bytes != u32(zlib.crc32(content)),
        24: bits == 1 and int.from_bytes(content, "little") >> elements,
        20: start + elements > lent,
    }
    return [number for number, is_given in faults.items() if is_given]


def column(column_type, page_words, file, lent):
    """The number of the answer, the index that is returned, and the elements that are decoded."""
    rows = rows_of(4, page_words)
    if len(rows) > MOST_PAGES:
        return 10, MOST_PAGES, []
    got = []
    for index, (offset, size, elements, checksum) in enumerate(rows):
        faults = page_faults(column_type, file, rows[index], lent, len(got))
        if faults:
            return faults[0], index, got
        got += elements_of(column_type, elements, file[offset : offset + size])
    return 0, len(rows), got


# The cases. Each lent word is 9 before the call.


def case(name, column_type, page_words, file, lent, result_words, number, index, elements):
    """`number`, `index` and `elements` are what is due where a result is lent."""
    assert column(column_type, page_words, file, lent) == (number, index, elements), (name, column(column_type, page_words, file, lent))
    assert lent <= MOST_LENT and len(page_words) <= MOST_PAGE_WORDS and result_words <= 4, name
    code = 4 * 256 + number if number else 0
    if result_words == 0:
        code, elements = TOO_SHORT, []
    line = f" refused {code // 256} {code % 256}" if code else " accepted"
    line += table(result_words, (index,) if result_words else ()) + table(lent, elements)
    numbers = words_of([column_type, 8 * len(page_words), lent, result_words])
    CASES.append((name, numbers + words_of(page_words) + file, line))


def words_in(rows):
    return [word for row in rows for word in row]


def decoded(name, column_type, rows, file, elements, lent=None, result_words=1, left_over=()):
    """With no room given there are two words more than elements."""
    room = len(elements) + 2 if lent is None else lent
    case(name, column_type, [*words_in(rows), *left_over], file, room, result_words, 0, len(rows), list(elements))


def refused(number, index, name, column_type, rows, file, before=(), lent=8, result_words=1, left_over=()):
    """`before` are the elements of the pages before the refused one."""
    case(name, column_type, [*words_in(rows), *left_over], file, lent, result_words, number, index, list(before))


def first_page(column_type, file):
    """The row of a page in a file's first bytes, and its elements: eight bits, or one element."""
    elements, size = (8, 1) if BITS[column_type] == 1 else (1, BITS[column_type] // 8)
    return (0, size, elements, 0), elements_of(column_type, elements, file[:size])


def refused_at(index, number, name, column_type, row, file, lent=8):
    """A page that is refused, behind so many that are not, and before one. `lent` is the room that is left for it."""
    good, elements = first_page(column_type, file)
    rows = [good] * index + [row, good]
    refused(number, index, f"{name}_at_{index}", column_type, rows, file, elements * index, lent + index * len(elements))


def refused_first_and_later(*words, **more):
    refused_at(0, *words, **more)
    refused_at(2, *words, **more)


def laid(column_type, pages, checksums=None, between=b""):
    """The rows of pages of these elements, and the file part that has them one behind another."""
    rows, file = [], between
    for values, checksum in zip(pages, checksums or [0] * len(pages)):
        content = page_of(column_type, values)
        rows.append((len(file), len(content), len(values), checksum))
        file += (summed(content) if checksum else content) + between
    return rows, file


# Every type: pages of 19, 1 and 8 elements, the first with the ends of the type's range. Without checksums there are bytes between the pages.
def values_of(column_type, count, ends=True):
    most = 2 ** BITS[column_type] - 1
    dice = random.Random(100 * column_type + count)
    some = [0, most, 1, most - 1, most // 2, most // 2 + 1, 0, 0] if ends else []
    return (some + [dice.randint(0, most) for _ in range(count)])[:count]


for t in KNOWN:
    THREE = [values_of(t, 19), values_of(t, 1, ends=False), values_of(t, 8, ends=False)]
    rows, file = laid(t, THREE, between=b"\xee\xdd\xcc")
    decoded(f"type_{t:02x}", t, rows, file, sum(THREE, []))
    rows, file = laid(t, THREE, checksums=(1, 1, 1))
    decoded(f"type_{t:02x}_checksums", t, rows, file, sum(THREE, []))

# Document 01's vectors, each page twice: the second starts anew.
for number, (t, values, content) in enumerate(VECTORS):
    rows = [(0, len(content), len(values), 0), (len(content), len(content), len(values), 1)]
    decoded(f"vector_{number}", t, rows, content + summed(content), values * 2)
MANY = {t: [values_of(t, count, ends=count % 3 == 0) for count in range(25)] for t in (0x06, 0x0E, 0x15, 0x1B)}
for t, pages in MANY.items():
    rows, file = laid(t, pages, checksums=[n % 2 for n in range(25)], between=b"\xff")
    decoded(f"pages_of_0_to_24_elements_type_{t:02x}", t, rows, file, sum(pages, []))

# Types that are not known, with pages of zeros that have the size for a type with the same last byte. With no pages they are accepted.
for t in (0x00, SWITCH, 0x1D, 0x104, 0xFFFF, 0x10000, 0x10004, 0x10006, 0x1000F, 0x10000 + SWITCH, 2**24 + 0x0D, 2**31 + 0x0B, 2**32 - 1):
    size = (4 * BITS.get(t % 256, 8) + 7) // 8
    refused(23, 0, f"unknown_type_{t:x}", t, [(0, size, 4, 0), (size, size, 4, 0)], bytes(2 * size))
for t in (0x00, SWITCH, 0x1D, 0x10000, 0x10004):
    decoded(f"no_pages_unknown_type_{t:x}", t, [], b"", [])
refused(23, 0, "unknown_type_no_elements", 0x1D, [(0, 0, 0, 0)], b"")
refused(23, 0, "switch_of_12_bytes", SWITCH, [(0, 12, 1, 0)], bytes(12))
refused(23, 0, "unknown_type_10004_result_2", 0x10004, [(0, 4, 4, 0)], bytes(4), result_words=2)
refused(23, 0, "unknown_type_10004_result_0", 0x10004, [(0, 4, 4, 0)], bytes(4), result_words=0)

# No pages.
for lent in (0, 1, 8):
    decoded(f"no_pages_room_{lent}", 0x0D, [], b"\x01\x02", [], lent=lent)
for result_words in (0, 2):
    decoded(f"no_pages_result_{result_words}", 0x0D, [], b"", [], result_words=result_words)

# Words left over behind the last row are no page.
FIVE_SIX = summed(page_of(0x0B, (5, 6)))
for count in (1, 2, 3):
    left_over = [2**64 - 1] * count
    decoded(f"left_over_{count}", 0x0B, [(0, 8, 2, 1)], FIVE_SIX, (5, 6), left_over=left_over)
    decoded(f"left_over_{count}_alone", 0x0B, [], FIVE_SIX, (), left_over=left_over)
decoded("left_over_3_of_a_good_row", 0x0B, [(0, 8, 2, 1)], FIVE_SIX, (5, 6), left_over=(0, 8, 2))
decoded("left_over_3_unknown_type", 0x1D, [], FIVE_SIX, (), left_over=(0, 8, 2))

# How many pages there are. Byte n of the file is n, and the rows name its bytes from the last to the first; or all rows name the same two.
BYTES = bytes(range(256))
FALLING = [(255 - i, 1, 1, 0) for i in range(256)]
for count in (255, 256):
    decoded(f"pages_{count}", 0x0D, FALLING[:count], BYTES, range(255, 255 - count, -1))
    decoded(f"pages_{count}_room_exact", 0x0D, FALLING[:count], BYTES, range(255, 255 - count, -1), lent=count)
    refused(20, count - 1, f"pages_{count}_room_one_less", 0x0D, FALLING[:count], BYTES, range(255, 256 - count, -1), lent=count - 1)
    decoded(f"pages_{count}_of_the_same_bytes", 0x0C, [(1, 2, 1, 0)] * count, b"\x00\x34\x12", [0x1234] * count)
    decoded(f"pages_{count}_without_elements", 0x0D, [(0, 0, 0, 0)] * count, b"", [])
decoded("pages_256_of_4_elements", 0x0D, [(i % 253, 4, 4, 0) for i in range(256)], BYTES, [i % 253 + j for i in range(256) for j in range(4)], lent=1024)
decoded("pages_256_left_over_3", 0x0D, FALLING, BYTES, range(255, -1, -1), left_over=(0, 1, 1))
decoded("pages_256_result_2", 0x0D, FALLING, BYTES, range(255, -1, -1), result_words=2)
refused(18, 255, "pages_256_last_outside", 0x0D, FALLING[:255] + [(256, 1, 1, 0)], BYTES, range(255, 0, -1), lent=256)
refused(23, 0, "pages_256_unknown_type", 0x1D, FALLING, BYTES)
for count in (257, 300, 512):
    refused(10, 256, f"pages_{count}", 0x0D, [(0, 1, 1, 0)] * count, BYTES, lent=count)
refused(10, 256, "pages_257_room_0", 0x0D, [(0, 1, 1, 0)] * 257, BYTES, lent=0)
for t in (0x00, SWITCH, 0x10004):
    refused(10, 256, f"pages_257_unknown_type_{t:x}", t, [(0, 1, 1, 0)] * 257, BYTES)
refused(10, 256, "pages_257_left_over_3", 0x0D, [(0, 1, 1, 0)] * 257, BYTES, left_over=(0, 1, 1))
refused(10, 256, "pages_257_without_elements", 0x0D, [(0, 0, 0, 0)] * 257, b"")
refused(10, 256, "pages_257_first_outside", 0x0D, [(256, 1, 1, 0)] + [(0, 1, 1, 0)] * 256, BYTES)
refused(10, 256, "pages_257_first_of_131073_elements", 0x0D, [(0, 1, MOST_ELEMENTS + 1, 0)] + [(0, 1, 1, 0)] * 256, BYTES)
refused(10, 256, "pages_257_result_2", 0x0D, [(0, 1, 1, 0)] * 257, BYTES, result_words=2)
refused(10, 256, "pages_257_result_0", 0x0D, [(0, 1, 1, 0)] * 257, BYTES, result_words=0)

# Each number, first and behind other pages. The file part has 8 bytes that are two elements of 32 bits, their checksum, and four bytes more.
PART = FIVE_SIX + b"\x07\x00\x00\x00"
assert len(PART) == 16
refused_first_and_later(10, "elements_131073", 0x0B, (0, 8, MOST_ELEMENTS + 1, 0), PART)
refused_first_and_later(10, "elements_2_to_32_and_2", 0x0B, (0, 8, 2**32 + 2, 0), PART)
refused_at(1, 10, "elements_2_to_62_and_2", 0x0B, (0, 8, 2**62 + 2, 0), PART)
refused_first_and_later(10, "elements_most", 0x0B, (0, 8, 2**64 - 1, 0), PART)
refused_first_and_later(18, "outside", 0x0B, (9, 8, 2, 0), PART)
refused_at(1, 18, "check_bytes_outside", 0x0B, (8, 8, 2, 1), PART)
refused_first_and_later(21, "one_byte_less", 0x0B, (0, 7, 2, 0), PART)
refused_first_and_later(21, "one_byte_more", 0x0B, (0, 9, 2, 0), PART)
refused_first_and_later(21, "size_with_check_bytes", 0x0B, (0, 12, 2, 0), PART)
refused_at(1, 21, "size_with_check_bytes_and_a_checksum", 0x0B, (0, 12, 2, 1), PART)
refused_first_and_later(21, "bytes_without_elements", 0x0B, (0, 8, 0, 0), PART)
refused_at(1, 21, "elements_without_bytes", 0x0B, (0, 0, 2, 0), PART)
refused_first_and_later(21, "elements_131072", 0x0B, (0, 8, MOST_ELEMENTS, 0), PART)
refused_first_and_later(22, "checksum", 0x0B, (0, 8, 2, 1), flipped(PART, 8))
refused_at(1, 22, "checksum_last_byte", 0x0B, (0, 8, 2, 1), flipped(PART, 11))
refused_first_and_later(22, "content", 0x0B, (0, 8, 2, 1), flipped(PART, 7))
refused_at(1, 22, "page_beside_its_checksum", 0x0B, (4, 8, 2, 1), PART)
refused_at(1, 22, "nothing_and_no_checksum", 0x0B, (0, 0, 0, 1), PART)
refused_first_and_later(24, "unused_bit", 0x06, (0, 2, 9, 0), b"\x01\x03", lent=9)
refused_at(1, 24, "highest_unused_bit", 0x06, (1, 1, 1, 0), b"\x01\x81")
refused_at(1, 24, "unused_bit_with_checksum", 0x06, (0, 2, 9, 1), summed(b"\x01\x03"), lent=9)
refused_first_and_later(20, "room_for_one_of_two", 0x0B, (0, 8, 2, 0), PART, lent=1)
refused_first_and_later(20, "room_for_none_of_two", 0x0B, (0, 8, 2, 1), PART, lent=0)

# 131,072 elements are within the ceiling, whatever the pages before have: here it is the room that is too small.
LARGE = bytes(range(256)) * 64 + b"\x00"
refused(20, 0, "bits_131072", 0x06, [(0, 16384, MOST_ELEMENTS, 0)], LARGE)
refused(20, 1, "bits_131072_behind_8", 0x06, [(1, 1, 8, 0), (0, 16384, MOST_ELEMENTS, 0)], LARGE, (1, 0, 0, 0, 0, 0, 0, 0), lent=1024)
refused(10, 0, "bits_131073", 0x06, [(0, 16385, MOST_ELEMENTS + 1, 0)], LARGE)

# The order of the numbers at one page.
def ordered(numbers, column_type, row, file, lent=8):
    """A page that has all these faults. Each page of an unknown type is refused, so that only the first can be."""
    assert set(numbers) <= set(page_faults(column_type, file, row, lent, 0)), numbers
    name = "_".join(["order", *map(str, numbers)])
    if numbers[0] == 23:
        refused(23, 0, name, column_type, [row], file, lent=lent)
    else:
        refused_at(1, numbers[0], name, column_type, row, file, lent=lent)


ordered((23, 10), 0x1D, (0, 8, MOST_ELEMENTS + 1, 0), PART)
ordered((23, 18), 0x1000B, (9, 8, 2, 0), PART)
ordered((23, 10, 18), SWITCH, (17, 8, MOST_ELEMENTS + 1, 1), PART)
ordered((23, 21), SWITCH, (0, 8, 2, 0), PART)
ordered((23, 22), SWITCH, (0, 12, 1, 1), PART)
ordered((23, 20), SWITCH, (0, 12, 1, 0), PART, lent=0)
ordered((10, 18), 0x0B, (17, 8, MOST_ELEMENTS + 1, 0), PART)
ordered((10, 22), 0x0B, (4, 8, MOST_ELEMENTS + 1, 1), PART)
ordered((10, 20), 0x0B, (0, 8, MOST_ELEMENTS + 1, 0), PART, lent=0)
ordered((18, 21), 0x0B, (9, 8, 1, 0), PART)
ordered((18, 22), 0x0B, (7, 8, 2, 1), PART)
ordered((18, 24), 0x06, (0, 2, 9, 1), b"\x01\x03\x00\x00\x00")
ordered((18, 20), 0x0B, (9, 8, 2, 0), PART, lent=0)
ordered((21, 22), 0x0B, (4, 8, 1, 1), PART)
ordered((21, 24), 0x06, (0, 2, 3, 0), b"\x01\x83")
ordered((21, 20), 0x0B, (0, 8, 3, 0), PART, lent=0)
ordered((22, 24), 0x06, (0, 2, 9, 1), flipped(summed(b"\x01\x03"), 5))
ordered((22, 20), 0x0B, (4, 8, 2, 1), PART, lent=0)
ordered((24, 20), 0x06, (0, 2, 9, 0), b"\x01\x03", lent=8)

# The end of the file part. Behind a page of no elements the check bytes are zeros.
ZEROS, EMPTY_PAGE = bytes(16), (0, 0, 0, 0)
decoded("range_to_the_end", 0x0B, [(8, 8, 2, 0)], PART, (zlib.crc32(PART[:8]), 7))
refused(18, 0, "range_one_further", 0x0B, [(9, 8, 2, 0)], PART)
decoded("check_bytes_to_the_end", 0x0B, [(4, 8, 2, 1)], b"\xff" * 4 + FIVE_SIX, (5, 6))
for out in (1, 2, 3, 4):
    refused(18, 0, f"check_bytes_{out}_outside", 0x0B, [(4, 8, 2, 1)], (b"\xff" * 4 + FIVE_SIX)[:-out])
decoded("check_bytes_outside_none_asked_for", 0x0B, [(4, 8, 2, 0)], b"\xff" * 4 + FIVE_SIX[:8], (5, 6))
decoded("nothing_at_the_end", 0x0B, [(16, 0, 0, 0)], ZEROS, ())
refused(18, 0, "nothing_one_further", 0x0B, [(17, 0, 0, 0)], ZEROS)
decoded("nothing_with_checksum_at_the_end", 0x0B, [(12, 0, 0, 1)], ZEROS, ())
refused(18, 0, "nothing_with_checksum_one_further", 0x0B, [(13, 0, 0, 1)], ZEROS)
decoded("nothing_of_no_file", 0x0B, [EMPTY_PAGE], b"", ())
refused(18, 0, "nothing_with_checksum_of_no_file", 0x0B, [(0, 0, 0, 1)], b"")
refused(18, 0, "one_of_no_file", 0x0D, [(0, 1, 1, 0)], b"")
refused(18, 0, "file_of_one_byte_less", 0x0D, [(0, 4, 4, 0)], b"\x01\x02\x03")

# Offsets and sizes that 64 bits or 32 bits cannot add: some of the sums would wrap to a range that is there.
OUTSIDE = {
    "offset_most": (2**64 - 1, 8, 2, 0),
    "offset_most_nothing": (2**64 - 1, 0, 0, 0),
    "offset_wraps_to_0": (2**64 - 8, 8, 2, 0),
    "offset_wraps_to_4": (2**64 - 4, 8, 2, 0),
    "offset_wraps_with_check_bytes": (2**64 - 12, 8, 2, 1),
    "offset_wraps_by_check_bytes": (2**64 - 4, 0, 0, 1),
    "offset_2_to_63": (2**63, 8, 2, 0),
    "offset_2_to_32": (2**32, 8, 2, 0),
    "offset_2_to_31": (2**31, 8, 2, 0),
    "size_most": (0, 2**64 - 1, 2, 0),
    "size_most_wraps_to_0": (1, 2**64 - 1, 2, 0),
    "size_most_wraps_to_8": (9, 2**64 - 1, 2, 0),
    "size_wraps_by_check_bytes": (0, 2**64 - 4, 2, 1),
    "size_2_to_63": (0, 2**63, 2, 0),
    "size_2_to_32_and_8": (0, 2**32 + 8, 2, 0),
    "offset_and_size_2_to_63": (2**63, 2**63, 0, 0),
    "offset_and_size_most": (2**64 - 1, 2**64 - 1, 2, 0),
    "offset_and_size_most_with_checksum": (2**64 - 1, 2**64 - 1, 2, 1),
}
for label, row in OUTSIDE.items():
    refused_at(1, 18, label, 0x0B, row, PART)

# Rows that share bytes, rows in any order, and pages without elements.
decoded("the_same_page_three_times", 0x0B, [(0, 8, 2, 1)] * 3, PART, (5, 6) * 3)
decoded("the_same_page_with_and_without_checksum", 0x0B, [(0, 8, 2, 0), (0, 8, 2, 1), (0, 8, 2, 0)], PART, (5, 6) * 3)
decoded("pages_that_overlap", 0x0D, [(i, 4, 4, 0) for i in (0, 2, 3, 1)], b"\x01\x02\x03\x04\x05\x06\x07", (1, 2, 3, 4, 3, 4, 5, 6, 4, 5, 6, 7, 2, 3, 4, 5))
decoded("check_bytes_are_a_page", 0x0B, [(0, 8, 2, 1), (8, 4, 1, 0)], PART, (5, 6, zlib.crc32(PART[:8])))
decoded("a_page_in_a_page", 0x0B, [(0, 16, 4, 0), (4, 4, 1, 0)], PART, (5, 6, zlib.crc32(PART[:8]), 7, 6))
for t in (0x0F, 0x14, 0x1B):
    THREE = [values_of(t, 3), values_of(t, 5), values_of(t, 2, ends=False)]
    rows, file = laid(t, THREE, checksums=(1, 0, 1), between=b"\xaa")
    decoded(f"falling_offsets_type_{t:02x}", t, rows[::-1], file, sum(THREE[::-1], []))
    decoded(f"middle_first_type_{t:02x}", t, [rows[1], rows[2], rows[0]], file, THREE[1] + THREE[2] + THREE[0])
NOTHING = (12, 0, 0, 1)
SEVEN_EIGHT = page_of(0x0B, (7, 8)) + bytes(12)
for label, rows, values in (
    ("first", [EMPTY_PAGE, (0, 8, 2, 0)], (7, 8)),
    ("between", [(4, 4, 1, 0), EMPTY_PAGE, NOTHING, (0, 4, 1, 0)], (8, 7)),
    ("last", [(0, 8, 2, 0), NOTHING], (7, 8)),
    ("alone", [NOTHING, EMPTY_PAGE, NOTHING], ()),
):
    decoded(f"no_elements_{label}", 0x0B, rows, SEVEN_EIGHT, values)
    decoded(f"no_elements_{label}_room_exact", 0x0B, rows, SEVEN_EIGHT, values, lent=len(values))
refused(20, 1, "no_elements_and_no_room_behind", 0x0B, [EMPTY_PAGE, (0, 8, 2, 0)], SEVEN_EIGHT, lent=1)

# Room and result.
ROWS, FILE = laid(0x0F, [(1, 1, 3), (5, 3), (7,)], checksums=(0, 1, 0))
for lent in (6, 7, 64):
    decoded(f"room_{lent}_of_6", 0x0F, ROWS, FILE, (1, 1, 3, 5, 3, 7), lent=lent)
for lent, index, before in ((5, 2, (1, 1, 3, 5, 3)), (4, 1, (1, 1, 3)), (2, 0, ()), (0, 0, ())):
    refused(20, index, f"room_{lent}_of_6", 0x0F, ROWS, FILE, before, lent=lent)
for result_words in (0, 2, 4):
    decoded(f"result_{result_words}", 0x0F, ROWS, FILE, (1, 1, 3, 5, 3, 7), result_words=result_words)
    refused(20, 2, f"room_5_of_6_result_{result_words}", 0x0F, ROWS, FILE, (1, 1, 3, 5, 3), lent=5, result_words=result_words)
    refused(22, 1, f"checksum_result_{result_words}", 0x0F, ROWS, flipped(FILE, 20), (1, 1, 3), result_words=result_words)

# Two refused pages: the first counts.
BAD = {10: (0, 8, 2**64 - 1, 0), 18: (9, 8, 2, 0), 20: (0, 16, 4, 0), 21: (0, 8, 3, 0), 22: (4, 8, 2, 1)}
for number, other in zip(BAD, [*BAD][1:]):
    for first, second in ((number, other), (other, number)):
        rows = [(12, 4, 1, 0), BAD[first], (0, 8, 2, 1), BAD[second]]
        refused(first, 1, f"refused_{first}_and_then_{second}", 0x0B, rows, PART, (7,), lent=4)

# Any word but 0 says that a checksum follows.
for label, word in {"1": 1, "2": 2, "2_to_32": 2**32, "2_to_63": 2**63}.items():
    decoded(f"checksum_word_{label}", 0x0B, [(0, 8, 2, word), (12, 4, 1, 0)], PART, (5, 6, 7))
    refused(22, 0, f"checksum_word_{label}_differs", 0x0B, [(4, 8, 2, word), (12, 4, 1, 0)], PART)
    refused(18, 1, f"checksum_word_{label}_outside", 0x0B, [(0, 8, 2, word), (12, 4, 1, word)], PART, (5, 6))

if __name__ == "__main__":
    write_files(HERE, CASES)
    assert all(len(content) <= 65536 for _, content, _ in CASES)
