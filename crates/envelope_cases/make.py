#!/usr/bin/env python3
"""Writes the cases in data/, the list of them in args and what is to be printed for them in stdout.
Each case has its bytes and the answer that documents 01 and 02 give for them, both written by hand: nothing here reads an envelope or a page."""

import os
import zlib

from parts import EMPTY, LONGEST, NONE, TOO_SHORT, checksum_of, envelope, flipped, items, page_bytes, record, string, summed, table, u16, u32, u64, words_of, write_files

CASES = []  # (name, bytes, what is printed)

# The records of a header, and the header.

SPARE = b"\xff"


def field(parent, flags=0, repetition=b"", name=b"", spare=b""):
    return record(u32(1) + u32(2) + u32(parent) + u16(0) + u16(flags) + repetition + string(name) + string() * 3 + spare)


def column(column_type, bits, on_field):
    return record(u16(column_type) + u16(bits) + u32(on_field) + u32(0))


def header(fields=(), columns=(), aliases=(), name=b"", description=b"", features=u64(0), spare=b"", version=1, minimum=1, **parts):
    """`parts` are those of the list of fields."""
    lists = items(fields, **parts) + items(columns) + items(aliases)
    return envelope(features + string(name) + string(description) + lists + spare, version, minimum)


# The cases. Each word of a lent table is 9 before the call, each byte of words that a page is decoded to 9 too, and each byte of a lent page EE;
# a refusal leaves them so.

NINES = 0x0909090909090909


def case(called, name, line, number_1=0, number_2=0, words=(), page_room=0, first=b"", second=b"", zeros_for=0, zeros=0):
    lent = list(words) + [0] * (3 - len(words))
    numbers = [called, number_1, number_2, *lent, page_room, len(first), zeros_for, zeros]
    CASES.append((name, words_of(numbers) + first + second, line))


def kept(words):
    return "".join(table(n) for n in words)


SMALLEST = header()
assert len(SMALLEST) == 48
# So many zeros are an envelope whose checksum differs, and no more than that.
assert zlib.crc32(bytes(LONGEST - 4)) != 0

# Headers: too long, and lent rooms that fit and do not. A row has 15 words for a field, 4 for a column, 2 for an alias.


def header_accepted(name, content, words, counts, rows=((), (), ())):
    """`counts` are those of fields, columns and aliases, and then the places and lengths of name and description."""
    line = " accepted" + "".join(f" {n}" for n in counts) + "".join(table(n, r) for n, r in zip(words, rows))
    case(1, name, line, words=words, first=content)


def header_refused(number, name, content=b"", words=(15, 4, 2), **more):
    case(1, name, f" refused 1 {number}" + kept(words), words=words, first=content, **more)


# The name n stands at 16, the description text at 21. Field 0 has a column of unknown type, so it is dark; its strings are empty and
# stand at 57, 61, 65 and 69. Field 1 is an alias with a repetition, the name xy at 101, and empty strings at 107, 111 and 115.
TWO_FIELDS = header([field(0), field(1, 3, u64(7), b"xy")], [column(0x1D, 5, 0)], [record(u32(0) + u32(1))], b"n", b"text")
TWO_COUNTS = (2, 1, 1, 16, 1, 21, 4)
FIELD_ROWS = [1, 2, 0, 0, 0, 0, 57, 0, 61, 0, 65, 0, 69, 0, 1] + [1, 2, 1, 0, 3, 7, 101, 2, 107, 0, 111, 0, 115, 0, 0]
HEADER_ROWS = (FIELD_ROWS, [0x1D, 5, 0, 0], [0, 1])

header_accepted("header_smallest", SMALLEST, (0, 0, 0), (0, 0, 0, 16, 0, 20, 0))
header_refused(1, "header_of_1048577_bytes", zeros_for=1, zeros=LONGEST + 1)
header_refused(3, "header_of_1048576_bytes", zeros_for=1, zeros=LONGEST)
header_accepted("header_room_exact", TWO_FIELDS, (30, 4, 2), TWO_COUNTS, HEADER_ROWS)
header_accepted("header_room_left", TWO_FIELDS, (34, 9, 5), TWO_COUNTS, HEADER_ROWS)
header_refused(20, "header_room_for_one_field", TWO_FIELDS, (29, 4, 2))
header_refused(20, "header_room_for_no_column", TWO_FIELDS, (30, 3, 2))
header_refused(20, "header_room_for_no_alias", TWO_FIELDS, (30, 4, 1))
header_refused(15, "header_chains_before_room", header([field(1), field(0)]), (0, 0, 0))

# Places and lengths count bytes: Zähler has 7 at 16, 検出器 9 at 27, and the field's name θ 2 at 68, its empty strings at 74, 78 and 82.
ALPHABETS = header([field(0, name="θ".encode())], name="Zähler".encode(), description="検出器".encode())
header_accepted("header_alphabets", ALPHABETS, (15, 4, 2), (1, 0, 0, 16, 7, 27, 9), ([1, 2, 0, 0, 0, 0, 68, 2, 74, 0, 78, 0, 82, 0, 0], (), ()))
header_refused(9, "header_name_cut_in_a_sequence", header([field(0, name="θ".encode()[:1])]), (15, 4, 2))
header_refused(9, "header_characters_before_room", header([field(0, name=b"\xed\xa0\x80")]), (0, 0, 0))
header_refused(9, "header_characters_before_chains", header([field(1), field(0, name=b"\xc0\x80")]))
header_refused(14, "header_parent_before_characters", header([field(1, name=b"\xff")]))

# The sum over all fields of the moves from the field to its self-parented top. The words lent are those of the result: the first gets the
# sum, 0 for a refused header, and those behind it are kept. Where none is lent the code is 4294967295, whatever the header is.


def walked(parents):
    """The sum, with each field followed to its top."""
    total = 0
    for at in range(len(parents)):
        while parents[at] != at:
            at = parents[at]
            total += 1
    return total


def moves(name, line, content, words, first_word, **more):
    case(10, name, line + table(words, (first_word,)), words=(words,), first=content, **more)


def moves_accepted(name, parents, total, content=None, words=1):
    """`content` is the header where it has more than fields of these parents."""
    assert walked(parents) == total, (name, walked(parents))
    moves(name, " accepted", header([field(p) for p in parents]) if content is None else content, words, total)


def moves_refused(number, name, content=b"", words=1, **more):
    moves(name, f" refused 1 {number}", content, words, 0, **more)


def moves_too_short(name, content=b"", **more):
    case(10, name, f" refused {TOO_SHORT // 256} {TOO_SHORT % 256}" + table(0), first=content, **more)


moves_accepted("moves_smallest", (), 0, SMALLEST)
moves_accepted("moves_one_field", (0,), 0)
moves_accepted("moves_two_tops", (0, 1), 0)
moves_accepted("moves_parent_before_its_child", (0, 0), 1)
moves_accepted("moves_parent_after_its_child", (1, 1), 1)
# Chains of three fields, whose moves are 0, 1 and 2, in each order; the names have the fields from the top down.
moves_accepted("moves_chain_of_3_rising", (0, 0, 1), 3)
moves_accepted("moves_chain_of_3_falling", (1, 2, 2), 3)
moves_accepted("moves_chain_0_2_1", (0, 2, 0), 3)
moves_accepted("moves_chain_1_0_2", (1, 1, 0), 3)
moves_accepted("moves_chain_1_2_0", (2, 1, 1), 3)
moves_accepted("moves_chain_2_0_1", (2, 0, 2), 3)
# 0, 4, 1, 3 and 2, each the child of the next: 4, 3, 2 and 1 moves.
moves_accepted("moves_chain_there_and_back", (4, 3, 2, 2, 1), 10)
# 512 times 511, by two: no header has more.
moves_accepted("moves_chain_of_512_rising", [max(i - 1, 0) for i in range(512)], 130816)
moves_accepted("moves_chain_of_512_falling", [min(i + 1, 511) for i in range(512)], 130816)
moves_accepted("moves_star_of_9", (0,) * 9, 8)
moves_accepted("moves_star_of_9_top_last", (8,) * 9, 8)
moves_accepted("moves_star_of_9_top_between", (4,) * 9, 8)
# Fifteen fields, of which 2 are at one move, 4 at two and 8 at three; and the same ones from the last to the first.
moves_accepted("moves_two_children_each", [max(i - 1, 0) // 2 for i in range(15)], 34)
moves_accepted("moves_two_children_each_falling", [14 - max(i - 1, 0) // 2 for i in reversed(range(15))], 34)
# Two trees of a top, one child and one grandchild: the fields of one between those of the other, before and after their parents.
moves_accepted("moves_two_trees", (0, 0, 1, 3, 3, 4), 6)
moves_accepted("moves_two_trees_in_turn", (0, 1, 0, 1, 2, 3), 6)
moves_accepted("moves_two_trees_crossed", (4, 5, 0, 1, 4, 5), 6)
# The tops 0, 3 and 9. Below 0 are 1 and 5 (one move each), 2 (two), 4, 6 and 10 (three to five); below 3 are 7, 8 and 11 (one to three);
# below 9 is none.
FOREST = (0, 0, 5, 3, 2, 0, 4, 3, 7, 9, 6, 8)
moves_accepted("moves_forest", FOREST, 22)
moves_accepted("moves_forest_falling", [11 - p for p in reversed(FOREST)], 22)
# A top with a chain of five on each side, and a chain that joins another half way.
moves_accepted("moves_chains_of_5_on_both_sides", (1, 2, 3, 4, 5, 5, 5, 6, 7, 8, 9), 30)
moves_accepted("moves_chain_that_joins_another", (1, 2, 3, 3, 5, 2), 11)

# Columns, aliases, flags, names and dark marks make no difference.
DARK = [column(0x1D, 5, i) for i in range(3)]
moves_accepted("moves_columns", (1, 2, 2), 3, header([field(p) for p in (1, 2, 2)], [column(0x11, 32, i) for i in range(3)]))
moves_accepted("moves_dark_fields", (1, 2, 2), 3, header([field(p) for p in (1, 2, 2)], DARK))
moves_accepted("moves_dark_top", (1, 2, 2), 3, header([field(p) for p in (1, 2, 2)], DARK[2:]))
moves_accepted("moves_flags", (1, 2, 2), 3, header([field(1, 2), field(2, 1, u64(512)), field(2, 3, u64(7), b"xy")]))
moves_accepted("moves_all_kinds_of_records", (0, 1), 0, TWO_FIELDS)
moves_accepted("moves_alphabets", (0,), 0, ALPHABETS)

# Newer headers.
CHAIN = [field(1), field(2), field(2)]
moves_accepted("moves_version_2", (1, 2, 2), 3, header(CHAIN, version=2))
moves_accepted("moves_version_65535", (1, 2, 2), 3, header(CHAIN, version=65535))
moves_accepted("moves_feature_words_2", (1, 2, 2), 3, header(CHAIN, features=u64(1 << 63) + u64(0)))


def moves_spare(where, fields=CHAIN, **parts):
    """Refused at version 1, which is the minimum, and accepted at version 2."""
    moves_refused(11, f"moves_spare_in_{where}", header(fields, **parts))
    moves_accepted(f"moves_spare_in_{where}_version_2", (1, 2, 2), 3, header(fields, version=2, **parts))


moves_spare("payload", spare=SPARE)
moves_spare("payload_as_a_field", spare=field(0))
moves_spare("field", [field(1), field(2, spare=SPARE), field(2)])
# A field behind those that are counted is spare bytes, and has no moves.
moves_spare("fields", CHAIN + [field(0)], count=3)

# The header's refusals, of which 20 is none.
CIRCLE = header([field(1), field(0)])
moves_refused(1, "moves_of_1048577_bytes", zeros_for=1, zeros=LONGEST + 1)
moves_refused(3, "moves_of_1048576_bytes", zeros_for=1, zeros=LONGEST)
moves_refused(2, "moves_of_no_bytes")
moves_refused(2, "moves_of_7_bytes", SMALLEST[:7])
moves_refused(3, "moves_checksum_bit", flipped(SMALLEST, 47))
moves_refused(3, "moves_parent_bit", flipped(header(CHAIN), 40))
moves_refused(4, "moves_minimum_0", header(CHAIN, minimum=0))
moves_refused(5, "moves_minimum_2", header(CHAIN, version=2, minimum=2))
moves_refused(6, "moves_feature_bit_0", header(CHAIN, features=u64(1)))
moves_refused(7, "moves_of_8_bytes", envelope(b""))
moves_refused(7, "moves_third_field_missing", header(CHAIN[:2], count=3))
moves_refused(7, "moves_fields_512_missing", header(count=512))
moves_refused(8, "moves_field_is_a_list", header([EMPTY]))
moves_refused(9, "moves_ill_formed_name", header([field(1), field(2), field(2, name=b"\xc0\x80")]))
moves_refused(10, "moves_fields_513", header(count=513))
moves_refused(12, "moves_flag_04", header([field(0, 4)]))
moves_refused(13, "moves_column_bits_31", header(CHAIN, [column(0x11, 31, 0)]))
moves_refused(14, "moves_parent_1_of_one", header([field(1)]))
moves_refused(14, "moves_parent_3_of_three", header([field(1), field(2), field(3)]))
moves_refused(14, "moves_parent_ffffffff", header([field(0), field(0xFFFFFFFF)]))
moves_refused(14, "moves_parent_65536", header([field(0), field(65536)]))
moves_refused(15, "moves_circle_of_two", CIRCLE)
moves_refused(15, "moves_circle_of_three", header([field(1), field(2), field(0)]))
moves_refused(15, "moves_circle_behind_a_top", header([field(0), field(2), field(1)]))
moves_refused(15, "moves_circle_before_a_top", header([field(1), field(0), field(2)]))
moves_refused(15, "moves_chain_into_a_circle", header([field(1), field(2), field(1)]))
moves_refused(14, "moves_columns_before_circles", header([field(1), field(0)], [column(0x11, 32, 2)]))

# Results of other lengths.
moves_accepted("moves_result_of_2_words", (1, 2, 2), 3, words=2)
moves_accepted("moves_result_of_3_words", (1, 2, 2), 3, words=3)
moves_accepted("moves_result_of_64_words", FOREST, 22, words=64)
moves_refused(15, "moves_refused_result_of_3_words", CIRCLE, 3)
moves_refused(1, "moves_too_long_result_of_3_words", words=3, zeros_for=1, zeros=LONGEST + 1)
moves_too_short("moves_result_of_no_words", header(CHAIN))
moves_too_short("moves_result_of_no_words_smallest", SMALLEST)
moves_too_short("moves_result_of_no_words_circle", CIRCLE)
moves_too_short("moves_result_of_no_words_1048577_bytes", zeros_for=1, zeros=LONGEST + 1)

# Footers.


def link(size, offset, stored=None):
    return u32(size) + u32(size if stored is None else stored) + u64(offset)


def cluster(first_entry, entries, page_list=link(0, 0), checksum=None, spare=b""):
    """`checksum` is that of the page list, which footers of version 2 and above carry."""
    carried = b"" if checksum is None else u32(checksum)
    return record(u64(first_entry) + u64(entries) + page_list + carried + spare)


FEATURES = u64(0)
NAMED = checksum_of(SMALLEST)


def footer(clusters=EMPTY, metadata=EMPTY, extension=EMPTY, groups=EMPTY, named=NAMED, features=FEATURES, spare=b"", version=1, minimum=1):
    return envelope(features + named + extension + groups + clusters + metadata + spare, version, minimum)


def footer_accepted(name, content, words, counts, rows=((), ()), file_length=1000, beside=SMALLEST):
    line = f" accepted {counts[0]} {counts[1]}" + "".join(table(n, r) for n, r in zip(words, rows))
    case(2, name, line, file_length, words=words, first=beside, second=content)


def footer_refused(number, name, content=b"", words=(10, 4), file_length=1000, beside=SMALLEST, place=2, **more):
    case(2, name, f" refused {place} {number}" + kept(words), file_length, words=words, first=beside, second=content, **more)


SMALLEST_FOOTER = footer()
assert len(SMALLEST_FOOTER) == 52
footer_accepted("footer_smallest", SMALLEST_FOOTER, (0, 0), (0, 0))
footer_refused(1, "footer_of_1048577_bytes", zeros_for=2, zeros=LONGEST + 1)
footer_refused(3, "footer_of_1048576_bytes", zeros_for=2, zeros=LONGEST)
footer_refused(2, "footer_of_7_bytes", SMALLEST_FOOTER[:7])
footer_refused(2, "footer_empty", b"")
footer_refused(3, "footer_checksum_bit", flipped(SMALLEST_FOOTER, 51))
footer_refused(3, "footer_content_bit", flipped(SMALLEST_FOOTER, 12))
footer_refused(4, "footer_minimum_0", footer(minimum=0))
footer_refused(4, "footer_minimum_above_version", footer(minimum=2))
footer_refused(4, "footer_minimum_3_above_version_2", footer(version=2, minimum=3))
footer_accepted("footer_minimum_2", footer(version=2, minimum=2), (0, 0), (0, 0))
footer_refused(5, "footer_minimum_3", footer(version=3, minimum=3))
footer_refused(5, "footer_minimum_65535", footer(version=65535, minimum=65535))
footer_refused(6, "footer_feature_bit_0", footer(features=u64(1)))
footer_refused(6, "footer_feature_word_2_bit_62", footer(features=u64(1 << 63) + u64(1 << 62)))
footer_accepted("footer_feature_words_2", footer(features=u64(1 << 63) + u64(0)), (0, 0), (0, 0))
footer_refused(7, "footer_of_8_bytes", envelope(b""))
footer_refused(7, "footer_header_checksum_of_3_bytes", envelope(FEATURES + NAMED[:3]))
footer_refused(7, "footer_metadata_missing", envelope(FEATURES + NAMED + EMPTY * 3))
footer_refused(7, "footer_metadata_past_its_envelope", footer(metadata=items([], more=1)))
footer_refused(7, "footer_cluster_missing", footer(items([], count=1)))
footer_refused(7, "footer_cluster_cut", footer(items([record(u64(0) + u64(1) + link(0, 0)[:-1])])))
footer_refused(7, "footer_link_cut", footer(metadata=items([link(0, 0)[:-1]])))
footer_refused(8, "footer_extension_is_a_record", footer(extension=u32(8) + u32(0)))
footer_refused(8, "footer_groups_size_fffffffc", footer(groups=u32(0xFFFFFFFC) + u32(0)))
footer_refused(8, "footer_clusters_reserved_bit_28", footer(items([], count=1 << 28)))
footer_refused(8, "footer_cluster_is_a_list", footer(items([items([u64(0) + u64(0) + link(0, 0)])])))
footer_refused(10, "footer_clusters_1025", footer(items([], count=1025)))
footer_refused(7, "footer_clusters_1024_missing", footer(items([], count=1024)))
footer_refused(10, "footer_links_65", footer(metadata=items([], count=65)))
footer_refused(10, "footer_links_65_there", footer(metadata=items([link(0, 0)] * 65)))
footer_refused(20, "footer_links_64", footer(metadata=items([link(0, 0)] * 64)))
footer_refused(12, "footer_flag_61", footer(items([cluster(0, 1 << 61)])))
footer_refused(12, "footer_flag_63", footer(items([cluster(0, 1 << 63)])))
footer_refused(16, "footer_names_another_header", footer(named=flipped(NAMED, 0)))
footer_refused(16, "footer_header_checksum_before_lists", footer(named=flipped(NAMED, 3), extension=items([link(0, 0)])))
footer_refused(16, "footer_of_the_smallest_beside_another", SMALLEST_FOOTER, beside=TWO_FIELDS)
footer_refused(17, "footer_extension_header", footer(extension=items([link(0, 0)])))
footer_refused(17, "footer_extension_at_the_count", footer(extension=items([], count=1025)))
footer_refused(17, "footer_column_group", footer(groups=items([link(0, 0)])))
footer_refused(17, "footer_flag_60", footer(items([cluster(0, 1 << 60)])))
footer_refused(17, "footer_flag_60_before_61", footer(items([cluster(0, 3 << 60)])))
footer_refused(17, "footer_locator_bit_31", footer(metadata=items([link(5, 0, 1 << 31 | 5)])))
footer_refused(17, "footer_stored_size_4_of_5", footer(metadata=items([link(5, 0, 4)])))
footer_refused(17, "footer_cluster_stored_size_4_of_5", footer(items([cluster(0, 1, link(5, 0, 4))])))
footer_refused(17, "footer_size_80000000", footer(metadata=items([link(1 << 31, 0, 1 << 31)])))
LAST_BYTE = footer(items([cluster(0, 3, link(10, 90))]), items([link(5, 95)]))
LAST_ROWS = ((0, 3, 10, 90, NONE), (5, 95))
footer_accepted("footer_ranges_to_the_last_byte", LAST_BYTE, (5, 2), (1, 1), LAST_ROWS, file_length=100)
footer_refused(18, "footer_cluster_range_one_further", footer(items([cluster(0, 3, link(10, 91))]), items([link(5, 95)])), file_length=100)
footer_refused(18, "footer_link_range_one_further", footer(items([cluster(0, 3, link(10, 90))]), items([link(5, 96)])), file_length=100)
footer_refused(18, "footer_file_one_byte_shorter", LAST_BYTE, file_length=99)
footer_refused(18, "footer_range_past_64_bits", footer(metadata=items([link(2, 2**64 - 1)])))
HIGHEST = 2**64 - 1
footer_accepted("footer_range_to_the_highest_byte", footer(metadata=items([link(2, HIGHEST - 2)])), (0, 2), (0, 1), ((), (2, HIGHEST - 2)), file_length=HIGHEST)
footer_accepted("footer_range_of_no_bytes_at_the_end", footer(metadata=items([link(0, 1000)])), (0, 2), (0, 1), ((), (0, 1000)))
footer_refused(18, "footer_range_of_no_bytes_past_the_end", footer(metadata=items([link(0, 1001)])))
footer_refused(19, "footer_first_entry_1", footer(items([cluster(1, 5)])))
footer_refused(19, "footer_second_first_entry_4_of_5", footer(items([cluster(0, 5), cluster(4, 1)])))
footer_refused(19, "footer_first_entry_before_flag_60", footer(items([cluster(1, 1 << 60)])))
MOST = 2**60 - 1
footer_accepted("footer_sum_at_its_most", footer(items([cluster(0, MOST - 1), cluster(MOST - 1, 1)])), (10, 0), (2, 0), ((0, MOST - 1, 0, 0, NONE, MOST - 1, 1, 0, 0, NONE), ()))
footer_refused(19, "footer_sum_one_further", footer(items([cluster(0, MOST - 1), cluster(MOST - 1, 2)])))
THREE = items([cluster(0, 5, link(10, 20)), cluster(5, 0, link(0, 1000)), cluster(5, 7, link(100, 900))])
THREE_ROWS = (0, 5, 10, 20, NONE, 5, 0, 0, 1000, NONE, 5, 7, 100, 900, NONE)
LINKS = items([link(1, 2), link(3, 4)])
TWO_NAMED = checksum_of(TWO_FIELDS)
FULL = footer(THREE, LINKS, named=TWO_NAMED)
footer_accepted("footer_room_exact", FULL, (15, 4), (3, 2), (THREE_ROWS, (1, 2, 3, 4)), beside=TWO_FIELDS)
footer_accepted("footer_room_left", FULL, (19, 7), (3, 2), (THREE_ROWS, (1, 2, 3, 4)), beside=TWO_FIELDS)
footer_refused(20, "footer_room_for_two_clusters", FULL, (14, 4), beside=TWO_FIELDS)
footer_refused(20, "footer_room_in_rows_of_4_words", FULL, (12, 4), beside=TWO_FIELDS)
footer_refused(20, "footer_room_for_one_link", FULL, (15, 3), beside=TWO_FIELDS)

# Footers of version 2 and above, whatever their minimum, carry the checksum of each page list right after its link.


def carrying(*checksums, spare=b"", each=b""):
    """Clusters of five entries whose page lists have these checksums; spare bytes of the list, and of each record."""
    return items([cluster(5 * i, 5, checksum=c, spare=each) for i, c in enumerate(checksums)], spare=spare)


SUM = 0x04030201
SUM_ROW = (0, 5, 0, 0, SUM)


def footer_carries(name, version, minimum=1, **parts):
    footer_accepted(name, footer(carrying(SUM, **parts), version=version, minimum=minimum), (5, 0), (1, 0), (SUM_ROW, ()))


footer_carries("footer_checksum_version_2", 2)
footer_carries("footer_checksum_version_2_minimum_2", 2, 2)
footer_carries("footer_checksum_version_3_minimum_2", 3, 2)
footer_carries("footer_checksum_version_65535", 65535)
footer_accepted("footer_checksums_0_and_most", footer(carrying(0, NONE - 1), version=2), (10, 0), (2, 0), ((0, 5, 0, 0, 0, 5, 5, 0, 0, NONE - 1), ()))
footer_accepted("footer_checksum_room_left", footer(carrying(SUM), version=2), (9, 0), (1, 0), (SUM_ROW, ()))
footer_refused(20, "footer_checksum_room_for_4_words", footer(carrying(SUM), version=2), (4, 0))
# At version 1 those four bytes are no part of the record.
footer_refused(11, "footer_checksum_in_version_1", footer(carrying(SUM)))
footer_refused(11, "footer_second_checksum_after_the_first_minimum_2", footer(carrying(SUM, each=u32(SUM)), version=2, minimum=2))
footer_carries("footer_second_checksum_after_the_first", 2, each=u32(SUM))
WITHOUT = items([cluster(0, 5)])
footer_refused(7, "footer_checksum_missing_version_2", footer(WITHOUT, version=2))
footer_refused(7, "footer_checksum_missing_minimum_2", footer(WITHOUT, version=2, minimum=2))
footer_refused(7, "footer_checksum_missing_version_65535", footer(WITHOUT, version=65535))
footer_refused(7, "footer_checksum_of_3_bytes", footer(items([cluster(0, 5, spare=bytes(3))]), version=2))
# What follows the record is no part of it.
footer_refused(7, "footer_first_checksum_missing", footer(items([cluster(0, 5), cluster(5, 5, checksum=SUM)]), version=2))
footer_refused(7, "footer_second_checksum_missing", footer(items([cluster(0, 5, checksum=SUM), cluster(5, 5)]), version=2))
footer_refused(7, "footer_checksum_behind_its_record", footer(items([cluster(0, 5)], spare=u32(SUM)), version=2))
footer_refused(18, "footer_range_before_checksum", footer(items([cluster(0, 5, link(1, 1000))]), version=2))
footer_refused(17, "footer_stored_size_before_checksum", footer(items([cluster(0, 5, link(5, 0, 4))]), version=2))
footer_refused(7, "footer_checksum_before_the_next_first_entry", footer(items([cluster(0, 5), cluster(4, 5)]), version=2))
footer_refused(19, "footer_first_entry_after_a_checksum", footer(items([cluster(0, 5, checksum=SUM), cluster(4, 5)]), version=2))


def footer_spare(where, words, counts, rows=((), ()), clusters=EMPTY, first_clusters=EMPTY, **parts):
    """Refused where the version is the minimum, and accepted where it is above; `first_clusters` are those at version 1."""
    footer_refused(11, f"footer_spare_in_{where}", footer(first_clusters, **parts), words)
    footer_refused(11, f"footer_spare_in_{where}_minimum_2", footer(clusters, version=2, minimum=2, **parts), words)
    footer_accepted(f"footer_spare_in_{where}_version_2", footer(clusters, version=2, **parts), words, counts, rows)
    footer_accepted(f"footer_spare_in_{where}_version_3", footer(clusters, version=3, minimum=2, **parts), words, counts, rows)


footer_spare("payload", (0, 0), (0, 0), spare=SPARE)
footer_spare("extension", (0, 0), (0, 0), extension=items([], spare=SPARE))
footer_spare("groups", (0, 0), (0, 0), groups=items([], spare=SPARE))
footer_spare("clusters", (5, 0), (1, 0), (SUM_ROW, ()), carrying(SUM, spare=SPARE), items([cluster(0, 5)], spare=SPARE))
footer_spare("cluster", (5, 0), (1, 0), (SUM_ROW, ()), carrying(SUM, each=SPARE), items([cluster(0, 5, spare=SPARE)]))
footer_spare("metadata", (0, 2), (0, 1), ((), (7, 8)), metadata=items([link(7, 8)], spare=SPARE))

# The header's refusal comes before all of the footer's.
footer_refused(3, "footer_beside_a_header_checksum_bit", SMALLEST_FOOTER, beside=flipped(SMALLEST, 47), place=1)
footer_refused(15, "footer_beside_a_circle", b"", beside=header([field(1), field(0)]), place=1)
footer_refused(9, "footer_beside_an_ill_formed_name", SMALLEST_FOOTER, beside=header(name=b"\xf4\x90\x80\x80"), place=1)
# A header stays at minimum 1.
footer_refused(5, "footer_beside_minimum_2", SMALLEST_FOOTER, beside=envelope(SMALLEST[4:-4], 2, 2), place=1)
footer_refused(1, "footer_beside_1048577_bytes", SMALLEST_FOOTER, beside=b"", place=1, zeros_for=1, zeros=LONGEST + 1)

# Page lists.


def page(elements, size, offset, flags=0):
    return u32(flags << 30 | elements) + u32(size) + u64(offset)


def page_list(columns=EMPTY, spare=b"", version=1, minimum=1):
    return envelope(columns + spare, version, minimum)


def pages_accepted(name, content, beside, words, count, rows=(), entries=5, file_length=1000):
    case(3, name, f" accepted {count}" + table(words, rows), file_length, entries, (words,), first=beside, second=content)


def pages_refused(number, name, content=b"", beside=SMALLEST, words=15, entries=5, file_length=1000, place=3, **more):
    case(3, name, f" refused {place} {number}" + kept((words,)), file_length, entries, (words,), first=beside, second=content, **more)


SMALLEST_PAGE_LIST = page_list()
assert len(SMALLEST_PAGE_LIST) == 16
# One field with a 32-bit column; one with a Bit column; one with a column of unknown type that has 5 bits.
ONE = header([field(0)], [column(0x11, 32, 0)])
BIT = header([field(0)], [column(0x06, 1, 0)])
UNKNOWN = header([field(0)], [column(0x1D, 5, 0)])


def one(*pages, **parts):
    """The page list of one column."""
    return page_list(items([items(pages, **parts)]))


pages_accepted("pages_smallest", SMALLEST_PAGE_LIST, SMALLEST, 0, 0)
pages_refused(1, "pages_of_1048577_bytes", zeros_for=2, zeros=LONGEST + 1)
pages_refused(3, "pages_of_1048576_bytes", zeros_for=2, zeros=LONGEST)
pages_refused(2, "pages_of_7_bytes", SMALLEST_PAGE_LIST[:7])
pages_refused(2, "pages_empty", b"")
pages_refused(3, "pages_checksum_bit", flipped(SMALLEST_PAGE_LIST, 15))
pages_refused(3, "pages_content_bit", flipped(SMALLEST_PAGE_LIST, 8))
pages_refused(4, "pages_minimum_0", page_list(minimum=0))
pages_refused(4, "pages_minimum_above_version", page_list(minimum=2))
pages_refused(5, "pages_minimum_2", page_list(version=2, minimum=2))
pages_refused(7, "pages_of_8_bytes", envelope(b""))
pages_refused(7, "pages_outer_past_its_envelope", page_list(items([], more=1)))
pages_refused(7, "pages_inner_missing", page_list(items([], count=1)), ONE)
pages_refused(7, "pages_inner_past_its_list", page_list(items([items([page(5, 20, 0)], more=1)])), ONE)
pages_refused(7, "pages_page_missing", one(count=1), ONE)
pages_refused(7, "pages_page_cut", one(page(5, 20, 0)[:-1]), ONE)
pages_refused(8, "pages_outer_is_a_record", page_list(u32(8) + u32(0)))
pages_refused(8, "pages_inner_is_a_record", page_list(items([record(page(5, 20, 0))])), ONE)
pages_refused(8, "pages_outer_reserved_bit_31", page_list(items([], count=1 << 31)))
pages_refused(8, "pages_inner_reserved_bit_28", one(count=1 << 28), ONE)
pages_refused(10, "pages_outer_1025", page_list(items([], count=1025)))
pages_refused(19, "pages_outer_1024", page_list(items([], count=1024)))
pages_refused(10, "pages_inner_16385", one(count=16385), ONE)
pages_refused(7, "pages_inner_16384_missing", one(count=16384), ONE)
# Two columns on the field: a page of the first, and then the count of the second's.
TWO = header([field(0)], [column(0x11, 32, 0), column(0x0D, 8, 0)])


def two(first, second):
    return page_list(items([first, second]))


FIVE = items([page(5, 20, 0)])
pages_refused(10, "pages_running_total_16385", two(FIVE, items([], count=16384)), TWO)
pages_refused(7, "pages_running_total_16384_missing", two(FIVE, items([], count=16383)), TWO)
pages_refused(12, "pages_bit_31", one(page(5, 20, 0, 2)), ONE)
pages_refused(12, "pages_bit_31_before_size", one(page(5, 19, 0, 2)), ONE)
pages_refused(17, "pages_size_19_of_20", one(page(5, 19, 0)), ONE)
pages_refused(17, "pages_size_21_of_20", one(page(5, 21, 0)), ONE)
pages_refused(17, "pages_locator_bit_31", one(page(5, 1 << 31 | 20, 0)), ONE)
pages_refused(17, "pages_checksum_not_in_the_size", one(page(5, 24, 0, 1)), ONE)
pages_refused(17, "pages_size_before_range", one(page(5, 19, 1001)), ONE)
pages_refused(18, "pages_range_one_further", one(page(5, 20, 981)), ONE)
pages_refused(18, "pages_file_one_byte_shorter", one(page(5, 20, 980)), ONE, file_length=999)
pages_refused(18, "pages_range_past_64_bits", one(page(5, 20, HIGHEST)), ONE, file_length=HIGHEST)
pages_refused(18, "pages_range_before_totals", one(page(4, 16, 985)), ONE)
pages_accepted("pages_range_to_the_last_byte", one(page(5, 20, 980)), ONE, 5, 1, (0, 5, 0, 20, 980))
# With bit 30 the four check bytes behind the page are inside the file too, though not in its size. A file that was cut has lost some of
# them, or all.
pages_accepted("pages_check_bytes_to_the_last_byte", one(page(5, 20, 976, 1)), ONE, 5, 1, (0, 5, 1, 20, 976))
pages_refused(18, "pages_check_bytes_one_further", one(page(5, 20, 977, 1)), ONE)
pages_accepted("pages_no_check_bytes_one_further", one(page(5, 20, 977)), ONE, 5, 1, (0, 5, 0, 20, 977))
pages_refused(18, "pages_check_bytes_of_a_page_at_the_end", one(page(5, 20, 980, 1)), ONE)
pages_refused(18, "pages_check_bytes_cut_by_one", one(page(5, 20, 976, 1)), ONE, file_length=999)
pages_refused(18, "pages_check_bytes_cut_off", one(page(5, 20, 976, 1)), ONE, file_length=996)
pages_refused(18, "pages_check_bytes_of_the_second_page", one(page(2, 8, 0, 1), page(3, 12, 988, 1)), ONE)
pages_refused(17, "pages_size_before_check_bytes", one(page(5, 24, 977, 1)), ONE)
pages_refused(18, "pages_check_bytes_before_totals", one(page(4, 16, 984, 1)), ONE)
# A page of no bytes has its check bytes all the same.
pages_accepted("pages_check_bytes_alone", one(page(0, 0, 0, 1)), ONE, 5, 1, (0, 0, 1, 0, 0), entries=0, file_length=4)
pages_refused(18, "pages_check_bytes_alone_in_3_bytes", one(page(0, 0, 0, 1)), ONE, entries=0, file_length=3)
pages_refused(18, "pages_check_bytes_alone_in_no_bytes", one(page(0, 0, 0, 1)), ONE, entries=0, file_length=0)
pages_accepted("pages_check_bytes_alone_to_the_highest_byte", one(page(0, 0, HIGHEST - 4, 1)), ONE, 5, 1, (0, 0, 1, 0, HIGHEST - 4), entries=0, file_length=HIGHEST)
pages_refused(18, "pages_check_bytes_alone_past_64_bits", one(page(0, 0, HIGHEST - 3, 1)), ONE, entries=0, file_length=HIGHEST)
pages_refused(18, "pages_check_bytes_alone_at_the_highest_offset", one(page(0, 0, HIGHEST, 1)), ONE, entries=0, file_length=HIGHEST)
pages_refused(18, "pages_check_bytes_past_64_bits", one(page(5, 20, HIGHEST, 1)), ONE, file_length=HIGHEST)
# The largest page of such a column: with its check bytes it has 2^31 bytes.
MOST = 2**29 - 1
LARGEST = dict(words=5, count=1, entries=MOST)
pages_accepted("pages_largest_with_check_bytes", one(page(MOST, 4 * MOST, 0, 1)), ONE, rows=(0, MOST, 1, 4 * MOST, 0), file_length=2**31, **LARGEST)
pages_refused(18, "pages_largest_with_check_bytes_cut", one(page(MOST, 4 * MOST, 0, 1)), ONE, entries=MOST, file_length=2**31 - 1)
pages_accepted("pages_largest_up_to_32_bits", one(page(MOST, 4 * MOST, 2**31, 1)), ONE, rows=(0, MOST, 1, 4 * MOST, 2**31), file_length=2**32, **LARGEST)
pages_refused(18, "pages_largest_up_to_32_bits_cut", one(page(MOST, 4 * MOST, 2**31, 1)), ONE, entries=MOST, file_length=2**32 - 1)
pages_refused(18, "pages_largest_past_64_bits", one(page(MOST, 4 * MOST, 2**64 - 2**31, 1)), ONE, entries=MOST, file_length=HIGHEST)
pages_accepted("pages_largest_without_check_bytes", one(page(MOST, 4 * MOST, 2**64 - 2**31)), ONE, rows=(0, MOST, 0, 4 * MOST, 2**64 - 2**31), file_length=HIGHEST, **LARGEST)
pages_refused(19, "pages_columns_1_of_0", page_list(items([EMPTY])))
pages_refused(19, "pages_columns_0_of_1", page_list(), ONE)
pages_refused(19, "pages_columns_2_of_1", two(FIVE, EMPTY), ONE)
pages_refused(19, "pages_columns_before_items", page_list(items([], count=2)), ONE)
pages_refused(7, "pages_frame_before_columns", page_list(items([], more=1, count=2)), ONE)
pages_refused(19, "pages_total_4_of_5", one(page(4, 16, 0)), ONE)
pages_refused(19, "pages_total_6_of_5", one(page(3, 12, 0), page(3, 12, 12)), ONE)
pages_refused(19, "pages_total_of_no_pages", one(), ONE)
pages_accepted("pages_no_pages_no_entries", one(), ONE, 0, 0, entries=0)
pages_refused(19, "pages_totals_before_room", one(page(4, 16, 0)), ONE, words=0)
pages_accepted("pages_second_column_is_not_totalled", two(FIVE, items([page(3, 3, 40)])), TWO, 10, 2, (0, 5, 0, 20, 0, 1, 3, 0, 3, 40))
pages_refused(19, "pages_first_column_is_totalled", two(items([page(3, 12, 0)]), items([page(5, 5, 40)])), TWO)
REPETITIVE = header([field(0, 1, u64(2))], [column(0x11, 32, 0)])
pages_accepted("pages_repetitive_field_is_not_totalled", one(page(3, 12, 0)), REPETITIVE, 5, 1, (0, 3, 0, 12, 0))
ALIASED = header([field(0, 2)], [column(0x11, 32, 0)])
pages_accepted("pages_alias_field_is_not_totalled", one(page(3, 12, 0)), ALIASED, 5, 1, (0, 3, 0, 12, 0))
CHILD = header([field(0), field(0)], [column(0x11, 32, 1)])
pages_accepted("pages_child_is_not_totalled", one(page(3, 12, 0)), CHILD, 5, 1, (0, 3, 0, 12, 0))
LATER = header([field(1), field(1)], [column(0x11, 32, 1)])
pages_refused(19, "pages_later_top_field_is_totalled", one(page(3, 12, 0)), LATER)
# Bits: nine elements of one bit take two bytes; three elements of the unknown type's five bits take two, and are not totalled.
pages_accepted("pages_nine_bits", one(page(9, 2, 7)), BIT, 5, 1, (0, 9, 0, 2, 7), entries=9)
pages_refused(17, "pages_nine_bits_in_one_byte", one(page(9, 1, 7)), BIT, entries=9)
pages_accepted("pages_unknown_type", one(page(3, 2, 7)), UNKNOWN, 5, 1, (0, 3, 0, 2, 7))
pages_refused(17, "pages_unknown_type_in_one_byte", one(page(3, 1, 7)), UNKNOWN)
# Three pages of two columns, one with a checksum behind it.
THREE_PAGES = two(items([page(2, 8, 100, 1), page(3, 12, 200)]), items([page(1073741823, 1073741823, 0)]))
THREE_PAGE_ROWS = (0, 2, 1, 8, 100, 0, 3, 0, 12, 200, 1, 1073741823, 0, 1073741823, 0)
pages_accepted("pages_room_exact", THREE_PAGES, TWO, 15, 3, THREE_PAGE_ROWS, file_length=2**31)
pages_accepted("pages_room_left", THREE_PAGES, TWO, 21, 3, THREE_PAGE_ROWS, file_length=2**31)
pages_refused(20, "pages_room_for_two", THREE_PAGES, TWO, 14, file_length=2**31)


def pages_spare(where, columns=EMPTY, spare=b"", beside=SMALLEST, words=0, count=0, rows=()):
    """Refused at version 1, which is the minimum, and accepted at version 2."""
    pages_refused(11, f"pages_spare_in_{where}", page_list(columns, spare), beside, words)
    pages_accepted(f"pages_spare_in_{where}_version_2", page_list(columns, spare, version=2), beside, words, count, rows)


pages_spare("payload", spare=SPARE)
pages_spare("outer", items([], spare=SPARE))
pages_spare("inner", items([items([page(5, 20, 3)], spare=SPARE)]), beside=ONE, words=5, count=1, rows=(0, 5, 0, 20, 3))

# The header's refusal comes before all of the page list's.
pages_refused(3, "pages_beside_a_header_checksum_bit", SMALLEST_PAGE_LIST, flipped(SMALLEST, 47), place=1)
pages_refused(14, "pages_beside_parent_1_of_one", b"", header([field(1)]), place=1)
pages_refused(9, "pages_beside_an_ill_formed_name", SMALLEST_PAGE_LIST, header([field(0, name=b"\xf5")]), place=1)
pages_refused(1, "pages_beside_1048577_bytes", SMALLEST_PAGE_LIST, b"", place=1, zeros_for=1, zeros=LONGEST + 1)

# Page lists for the row of a cluster, of which the call gets the entry count and the checksum.


def paired(name, checksum, content, line, beside=ONE, words=5, entries=5, file_length=1000, **more):
    case(8, name, line, file_length, entries, (words, checksum), first=beside, second=content, **more)


def pairing_accepted(name, checksum, content, count=1, rows=(0, 5, 0, 20, 980), words=5, **more):
    paired(name, checksum, content, f" accepted {count}" + table(words, rows), words=words, **more)


def pairing_refused(number, name, checksum, content=b"", words=5, place=3, **more):
    paired(name, checksum, content, f" refused {place} {number}" + kept((words,)), words=words, **more)


def number_of(content):
    """The number that an envelope ends with."""
    return int.from_bytes(checksum_of(content), "little")


PAIRED = one(page(5, 20, 980))
ITS_OWN = number_of(PAIRED)
OTHER = ITS_OWN ^ 1
pairing_accepted("pairing_its_own_checksum", ITS_OWN, PAIRED)
pairing_accepted("pairing_no_checksum", NONE, PAIRED)
pairing_accepted("pairing_room_left", ITS_OWN, PAIRED, words=9)
pairing_accepted("pairing_smallest", number_of(SMALLEST_PAGE_LIST), SMALLEST_PAGE_LIST, 0, (), 0, beside=SMALLEST)
pairing_refused(26, "pairing_another_checksum", OTHER, PAIRED)
pairing_refused(26, "pairing_another_highest_bit", ITS_OWN ^ 1 << 31, PAIRED)
pairing_refused(26, "pairing_checksum_0", 0, PAIRED)
pairing_refused(26, "pairing_checksum_below_none", NONE - 1, PAIRED)
pairing_refused(26, "pairing_checksum_above_none", NONE + 1, PAIRED)
pairing_refused(26, "pairing_its_own_plus_2_to_32", NONE + ITS_OWN, PAIRED)
pairing_refused(26, "pairing_checksum_of_64_bits", 2**64 - 1, PAIRED)
# 0 is a checksum like others: with these four spare bytes the page list ends with it.
ZERO_SUM = page_list(items([items([page(5, 20, 980)])]), b"\x4f\x76\x37\xc2", version=2)
assert number_of(ZERO_SUM) == 0
pairing_accepted("pairing_checksum_0_is_its_own", 0, ZERO_SUM)
pairing_accepted("pairing_checksum_0_and_none", NONE, ZERO_SUM)
pairing_refused(26, "pairing_checksum_0_plus_2_to_33", 2 * NONE, ZERO_SUM)
# The header's refusals come first, and then 1 to 3, whatever the row has.
pairing_refused(3, "pairing_after_the_header_checksum", OTHER, PAIRED, beside=flipped(ONE, 20), place=1)
pairing_refused(5, "pairing_after_the_header_minimum_2", OTHER, PAIRED, beside=envelope(ONE[4:-4], 2, 2), place=1)
pairing_refused(15, "pairing_after_a_circle", OTHER, b"", beside=header([field(1), field(0)]), place=1)
pairing_refused(1, "pairing_after_a_header_of_1048577_bytes", OTHER, PAIRED, beside=b"", place=1, zeros_for=1, zeros=LONGEST + 1)
pairing_refused(1, "pairing_of_1048577_bytes", OTHER, zeros_for=2, zeros=LONGEST + 1)
pairing_refused(1, "pairing_of_1048577_bytes_and_none", NONE, zeros_for=2, zeros=LONGEST + 1)
pairing_refused(2, "pairing_of_no_bytes", OTHER)
pairing_refused(2, "pairing_of_no_bytes_checksum_0", 0)
pairing_refused(2, "pairing_of_7_bytes", OTHER, PAIRED[:7])
pairing_refused(2, "pairing_of_7_bytes_and_their_last_4", number_of(PAIRED[:7]), PAIRED[:7])
pairing_refused(3, "pairing_of_1048576_bytes", OTHER, zeros_for=2, zeros=LONGEST)
DAMAGED = flipped(PAIRED, 20)
pairing_refused(3, "pairing_damaged", OTHER, DAMAGED)
pairing_refused(3, "pairing_damaged_and_the_number_at_its_end", ITS_OWN, DAMAGED)
pairing_refused(3, "pairing_damaged_and_the_checksum_of_its_bytes", zlib.crc32(DAMAGED[:-4]), DAMAGED)
pairing_refused(3, "pairing_damaged_and_none", NONE, DAMAGED)


def pairing_before(number, what, content, **more):
    """26 comes before this number, which is given for the page list's own checksum and for none."""
    pairing_refused(26, f"pairing_before_{what}", number_of(content) ^ 1, content, **more)
    pairing_refused(number, f"pairing_its_own_{what}", number_of(content), content, **more)
    pairing_refused(number, f"pairing_none_{what}", NONE, content, **more)


pairing_before(4, "minimum_0", page_list(minimum=0))
pairing_before(4, "minimum_above_version", page_list(minimum=2))
pairing_before(5, "minimum_2", page_list(version=2, minimum=2))
pairing_before(7, "payload_missing", envelope(b""))
pairing_before(11, "spare_byte", page_list(items([items([page(5, 20, 980)])]), SPARE))
pairing_before(17, "page_size", one(page(5, 21, 0)))
pairing_before(18, "page_range", one(page(5, 20, 981)))
pairing_before(19, "columns", page_list())
pairing_before(19, "another_entry_count", PAIRED, entries=6)
pairing_before(20, "room", PAIRED, words=4)

# A file, whose pages come first, then the page lists of its two clusters, then its footer. The footer is read, and then the page list of each
# cluster, from where its row has it, with the row's entry count and checksum, and into one table of pages. The page of the second
# cluster was written anew at 24; the list of before has the same counts, and names the page at 12.
FIRST_LIST, SECOND_LIST, STALE_LIST = one(page(3, 12, 0)), one(page(3, 12, 24)), one(page(3, 12, 12))
FIRST_LINK, SECOND_LINK, FOOTER_AT = link(40, 36), link(40, 76), 116
FILE_FOOTER_1 = footer(items([cluster(0, 3, FIRST_LINK), cluster(3, 3, SECOND_LINK)]), named=checksum_of(ONE))
SUMS = number_of(FIRST_LIST), number_of(SECOND_LIST)
FILE_FOOTER_2 = footer(items([cluster(0, 3, FIRST_LINK, SUMS[0]), cluster(3, 3, SECOND_LINK, SUMS[1])]), named=checksum_of(ONE), version=2)


def file(name, carried, lists, answers):
    """`answers` has for each list the answer, and the offset of the page that the table then has, if it has one."""
    first, second = SUMS if carried else (NONE, NONE)
    line = " accepted 2 0" + table(10, (0, 3, 40, 36, first, 3, 3, 40, 76, second)) + table(0)
    for answer, offset in answers:
        line += f" {answer}" + table(7, () if offset is None else (0, 3, 0, 12, offset))
    content = bytes(36) + b"".join(lists) + (FILE_FOOTER_2 if carried else FILE_FOOTER_1)
    case(9, name, line, len(content), FOOTER_AT, (10, 0, 7), first=ONE, second=content)


TAKEN, STALE = "accepted 1", "refused 3 26"
file("file_version_1", False, (FIRST_LIST, SECOND_LIST), ((TAKEN, 0), (TAKEN, 24)))
file("file_version_1_stale", False, (FIRST_LIST, STALE_LIST), ((TAKEN, 0), (TAKEN, 12)))
file("file_version_2", True, (FIRST_LIST, SECOND_LIST), ((TAKEN, 0), (TAKEN, 24)))
file("file_version_2_stale", True, (FIRST_LIST, STALE_LIST), ((TAKEN, 0), (STALE, 0)))
file("file_version_2_first_stale", True, (STALE_LIST, SECOND_LIST), ((STALE, None), (TAKEN, 24)))
file("file_version_2_lists_swapped", True, (SECOND_LIST, FIRST_LIST), ((STALE, None), (STALE, None)))
file("file_version_2_damaged", True, (FIRST_LIST, flipped(SECOND_LIST, 24)), ((TAKEN, 0), ("refused 3 3", 0)))

# Pages to decode: `words` are lent, and the elements are put from `start` on.


def decode(name, column_type, elements, content, words, start, checksum, line):
    case(4, name, line, column_type, elements, (words, start, checksum), first=content)


def decoded(name, column_type, content, values, words=None, start=0, checksum=0):
    lent = start + len(values) if words is None else words
    line = " accepted" + table(lent, [NINES] * start + list(values), NINES)
    decode(name, column_type, len(values), content, lent, start, checksum, line)


def not_decoded(number, name, column_type, elements, content, words=4, start=0, checksum=0):
    decode(name, column_type, elements, content, words, start, checksum, f" refused 4 {number}" + table(words, old=NINES))


BITS = (1, 0, 0, 0, 0, 0, 0, 0, 1)
decoded("decode_bit", 0x06, b"\x01\x01", BITS)
decoded("decode_bit_within", 0x06, b"\x01\x01", BITS, words=14, start=3)
decoded("decode_bit_with_checksum", 0x06, summed(b"\x01\x01"), BITS, checksum=1)
not_decoded(24, "decode_bit_01_03", 0x06, 9, b"\x01\x03", words=9)
not_decoded(24, "decode_bit_highest_unused", 0x06, 1, b"\x81")
decoded("decode_bit_eight", 0x06, b"\x81", (1, 0, 0, 0, 0, 0, 0, 1))
not_decoded(24, "decode_bit_before_room", 0x06, 9, b"\x01\x03", words=8)
not_decoded(22, "decode_checksum_before_bits", 0x06, 9, flipped(summed(b"\x01\x03"), 5), words=9, checksum=1)
not_decoded(23, "decode_type_00", 0x00, 1, bytes(4))
not_decoded(23, "decode_type_1d", 0x1D, 1, bytes(4))
not_decoded(23, "decode_type_ffff", 0xFFFF, 1, bytes(4))
not_decoded(23, "decode_switch", 0x03, 1, bytes(12))
not_decoded(23, "decode_switch_before_count", 0x03, 131073, b"")
not_decoded(10, "decode_elements_131073", 0x0D, 131073, b"")
not_decoded(21, "decode_elements_131072", 0x0D, 131072, b"")
not_decoded(10, "decode_elements_most", 0x01, 2**64 - 1, b"")
not_decoded(21, "decode_7_bytes_of_8", 0x0B, 2, bytes(7))
not_decoded(21, "decode_9_bytes_of_8", 0x0B, 2, bytes(9))
not_decoded(21, "decode_checksum_missing", 0x0B, 2, bytes(8), checksum=1)
not_decoded(21, "decode_checksum_not_asked_for", 0x0B, 2, summed(bytes(8)))
not_decoded(22, "decode_checksum_bit", 0x0B, 2, flipped(summed(bytes(8)), 11), checksum=1)
not_decoded(22, "decode_content_bit", 0x0B, 2, flipped(summed(bytes(8)), 0), checksum=1)
not_decoded(22, "decode_checksum_before_room", 0x0B, 2, flipped(summed(bytes(8)), 0), words=1, checksum=1)
not_decoded(20, "decode_room_for_one", 0x0B, 2, bytes(8), words=1)
not_decoded(20, "decode_start_1_of_2", 0x0B, 2, bytes(8), words=2, start=1)
not_decoded(20, "decode_start_past_the_words", 0x0B, 0, b"", words=2, start=3)
not_decoded(20, "decode_start_past_64_bits", 0x0B, 2, bytes(8), words=2, start=2**64 - 1)
decoded("decode_nothing_at_the_end", 0x0B, b"", (), words=2, start=2)
decoded("decode_nothing_with_checksum", 0x0B, summed(b""), (), words=2, checksum=1)
decoded("decode_32_bits_within", 0x0B, u32(1) + u32(0xFFFFFFFF), (1, 0xFFFFFFFF), words=5, start=1)
decoded("decode_16_bits_split", 0x15, b"\x34\xcd\x12\xab", (0x1234, 0xABCD))
decoded("decode_index32_1_1_3", 0x0F, b"\x01\x00\x02" + bytes(9), (1, 1, 3))
# 5 and the difference 4294967294: planes of five, FE; then 0, FF three times.
decoded("decode_deltas_5_3", 0x0F, b"\x05\xfe\x00\xff\x00\xff\x00\xff", (5, 3))
# 0, 65535, 65534 and 1 of zigzag at 16 bits: 0, -32768, 32767 and -1 in two's complement.
decoded("decode_zigzag", 0x1C, b"\x00\xff\xfe\x01\x00\xff\xff\x00", (0, 0x8000, 0x7FFF, 0xFFFF))


def planes(values, count):
    return b"".join(bytes(v >> 8 * p & 255 for v in values) for p in range(count))


# Bytes of 19 elements that all differ from those beside, below and above them.
NINETEEN = [sum((37 * i + 59 * p + 1) % 251 << 8 * p for p in range(8)) for i in range(19)]


def nineteen(name, column_type, count):
    values = [v % 256**count for v in NINETEEN]
    decoded(name, column_type, planes(values, count), values, words=23, start=3)


nineteen("decode_16_bits_split_19", 0x15, 2)
nineteen("decode_32_bits_split_19", 0x14, 4)
nineteen("decode_64_bits_split_19", 0x13, 8)

# Planes to place, each into lent words that are given.


def placed(name, number, plane, old, new):
    case(7, name, table(len(old), new), number, words=(len(old),), first=words_of(old), second=plane)


WORDS = [0x1122334455667788, 0x99AABBCCDDEEFF00, 2**64 - 1]
placed("place_plane_0", 0, b"\x0a\x0b\x0c", WORDS, [0x112233445566770A, 0x99AABBCCDDEEFF0B, 0xFFFFFFFFFFFFFF0C])
placed("place_plane_3", 3, b"\x0a\x0b\x0c", WORDS, [0x112233440A667788, 0x99AABBCC0BEEFF00, 0xFFFFFFFF0CFFFFFF])
placed("place_plane_7", 7, b"\x0a\x0b\x0c", WORDS, [0x0A22334455667788, 0x0BAABBCCDDEEFF00, 0x0CFFFFFFFFFFFFFF])
placed("place_plane_8_of_8", 8, b"\x0a\x0b\x0c", WORDS, WORDS)
placed("place_plane_past_64_bits", 2**64 - 1, b"\x0a\x0b\x0c", WORDS, WORDS)
placed("place_plane_of_2_bytes", 1, b"\x0a\x0b", WORDS, [0x1122334455660A88, 0x99AABBCCDDEE0B00, 2**64 - 1])
placed("place_plane_of_4_bytes", 1, b"\x0a\x0b\x0c\x0d", WORDS, [0x1122334455660A88, 0x99AABBCCDDEE0B00, 0xFFFFFFFFFFFF0CFF])
placed("place_plane_without_bytes", 1, b"", WORDS, WORDS)
placed("place_plane_without_words", 1, b"\x0a", [], [])
for number in range(8):
    turned = [w ^ (w >> 8 * number & 255) << 8 * number ^ (3 * i + 5) << 8 * number for i, w in enumerate(NINETEEN)]
    placed(f"place_plane_{number}_of_19_bytes", number, bytes(3 * i + 5 for i in range(19)), NINETEEN, turned)

# Pages to encode: `values` are the lent words.


def encode(name, column_type, values, elements, start, room, checksum, line):
    content = words_of(values)
    case(5, name, line, column_type, elements, (len(values), start, checksum), room, first=content)


def encoded(name, column_type, values, content, elements=None, start=0, room=None, checksum=0):
    lent = len(content) if room is None else room
    count = len(values) if elements is None else elements
    encode(name, column_type, values, count, start, lent, checksum, f" accepted {len(content)}" + page_bytes(lent, content))


def not_encoded(number, name, column_type, values, elements=None, start=0, room=8, checksum=0):
    count = len(values) if elements is None else elements
    encode(name, column_type, values, count, start, room, checksum, f" refused 4 {number}" + page_bytes(room))


encoded("encode_bit", 0x06, BITS, b"\x01\x01")
encoded("encode_bit_room_left", 0x06, BITS, b"\x01\x01", room=5)
encoded("encode_bit_with_checksum", 0x06, BITS, summed(b"\x01\x01"), checksum=1)
encoded("encode_bit_of_a_part", 0x06, (7, 7) + BITS + (7,), b"\x01\x01", elements=9, start=2)
encoded("encode_nothing", 0x06, (), b"", room=2)
encoded("encode_nothing_with_checksum", 0x06, (7, 7), bytes(4), elements=0, start=2, room=6, checksum=1)
encoded("encode_16_bits_split", 0x15, (0x1234, 0xABCD), b"\x34\xcd\x12\xab")
encoded("encode_index32_1_1_3", 0x0F, (1, 1, 3), b"\x01\x00\x02" + bytes(9))
encoded("encode_deltas_5_3", 0x0F, (5, 3), b"\x05\xfe\x00\xff\x00\xff\x00\xff")
encoded("encode_zigzag", 0x1C, (0, 0x8000, 0x7FFF, 0xFFFF), b"\x00\xff\xfe\x01\x00\xff\xff\x00")
encoded("encode_64_bits_highest", 0x0A, (2**64 - 1,), b"\xff" * 8)
not_encoded(23, "encode_type_00", 0x00, (1,))
not_encoded(23, "encode_type_1d", 0x1D, (1,))
not_encoded(23, "encode_switch", 0x03, (1,), room=12)
not_encoded(23, "encode_switch_before_count", 0x03, (), 131073)
not_encoded(10, "encode_elements_131073", 0x0D, (), 131073)
not_encoded(20, "encode_elements_131072", 0x0D, (), 131072)
not_encoded(20, "encode_words_1_of_2", 0x0B, (1,), 2)
not_encoded(20, "encode_start_1_of_2", 0x0B, (1, 2), 2, start=1)
not_encoded(20, "encode_start_past_the_words", 0x0B, (1, 2), 0, start=3)
not_encoded(20, "encode_start_past_64_bits", 0x0B, (1, 2), 2, start=2**64 - 1)
not_encoded(20, "encode_page_room_7_of_8", 0x0B, (1, 2), room=7)
not_encoded(20, "encode_page_room_without_checksum", 0x0B, (1, 2), room=11, checksum=1)
not_encoded(20, "encode_room_before_values", 0x06, (2,), room=0)
not_encoded(25, "encode_bit_2", 0x06, (1, 2))
not_encoded(25, "encode_8_bits_256", 0x0D, (255, 256))
not_encoded(25, "encode_16_bits_sign_above", 0x1C, (2**64 - 1,))
not_encoded(25, "encode_32_bits_33", 0x0F, (1, 2**32), room=16)
encoded("encode_8_bits_255", 0x0D, (255, 0), b"\xff\x00")

# The checksum of the digits.
case(6, "crc32_of_the_digits", " cbf43926", first=b"123456789")


if __name__ == "__main__":
    write_files(os.path.dirname(os.path.abspath(__file__)), CASES)
