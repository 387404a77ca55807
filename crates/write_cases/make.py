#!/usr/bin/env python3
"""Writes the cases in data/, the list of them in args and what is to be printed for them in stdout.
A case is tables to write. The bytes that are due, or the refusal, are put together here from documents 01 and 02: each part of the envelope in
its turn, the first that is refused being the answer. For each case the number of the answer is written by hand beside that."""

import os
import sys
import zlib

HERE = os.path.dirname(os.path.abspath(__file__))
sys.path.insert(0, os.path.join(HERE, "..", "envelope_cases"))

from parts import BITS, EMPTY, LONGEST, NONE, checksum_of, envelope, flipped, items, printed, record, rows_of, string, table, u16, u32, u64, words_of, write_files

CASES = []  # (name, bytes, what is printed)

FIELD_WORDS, COLUMN_WORDS, ALIAS_WORDS, CLUSTER_WORDS, LINK_WORDS, PAGE_WORDS = 15, 4, 2, 5, 2, 5


class Refused(Exception):
    """The number of a refusal."""


def refuse_if(refused, number):
    if refused:
        raise Refused(number)


def fits(bits, n):
    """A number that has so many bits."""
    refuse_if(n >> bits, 25)
    return n


# A header of tables.


class Header:
    """The bytes of a header of tables, and the rows that its reader then has; `fields`, `columns` and `aliases` are words."""

    def __init__(self, strings=b"", texts=(0, 0, 0, 0), fields=(), columns=(), aliases=()):
        self.strings = strings
        self.fields = rows_of(FIELD_WORDS, fields)
        self.columns = rows_of(COLUMN_WORDS, columns)
        self.aliases = rows_of(ALIAS_WORDS, aliases)
        refuse_if(self.length(texts) > LONGEST, 1)
        self.content = u16(1) + u16(1) + u64(0)
        self.places = self.texts(texts)
        self.read_fields = self.list(self.fields, 512, self.field)
        self.read_columns = self.list(self.columns, 1024, self.column)
        self.read_aliases = self.list(self.aliases, 256, self.alias)
        refuse_if(any(self.top_of(i) is None for i in range(len(self.fields))), 15)
        self.mark_dark()
        self.bytes = self.content + u32(zlib.crc32(self.content))
        assert len(self.bytes) == self.length(texts)

    def length(self, texts):
        """The exact length, with the lengths of strings as they are given."""
        fields = sum(36 + 8 * (f[4] & 1) + f[7] + f[9] + f[11] + f[13] for f in self.fields)
        return 48 + texts[1] + texts[3] + fields + 16 * len(self.columns) + 12 * len(self.aliases)

    def texts(self, pairs):
        """Writes the strings that these places and lengths name; answers the places and lengths that they get."""
        got = []
        for place, length in zip(pairs[::2], pairs[1::2]):
            refuse_if(place + length > len(self.strings), 7)
            text = self.strings[place : place + length]
            try:
                text.decode("utf-8")
            except UnicodeDecodeError:
                raise Refused(9) from None
            got += [len(self.content) + 4, length]
            self.content += string(text)
        return got

    def list(self, rows, most, write):
        """Each row as a record; the sizes of the frames are put right when their contents are there."""
        refuse_if(len(rows) > most, 10)
        start = len(self.content)
        self.content += bytes(8)
        read = []
        for row in rows:
            at = len(self.content)
            self.content += bytes(4)
            read.append(write(row))
            self.content = self.content[:at] + record(self.content[at + 4 :])
        self.content = self.content[:start] + items([self.content[start + 8 :]], count=len(rows))
        return read

    def field(self, row):
        field_version, type_version, parent, role, flags, repetition = row[:6]
        self.content += u32(fits(32, field_version)) + u32(fits(32, type_version)) + u32(fits(32, parent))
        refuse_if(parent >= len(self.fields), 14)
        self.content += u16(fits(16, role))
        refuse_if(role > 4, 12)
        self.content += u16(fits(16, flags))
        refuse_if(flags > 3, 12)
        if flags & 1:
            self.content += u64(repetition)
        kept = repetition if flags & 1 else 0
        return [field_version, type_version, parent, role, flags, kept] + self.texts(row[6:14]) + [0]

    def column(self, row):
        column_type, bits, on_field, flags = row
        self.content += u16(fits(16, column_type)) + u16(fits(16, bits))
        refuse_if(BITS.get(column_type, bits) != bits, 13)
        self.content += u32(fits(32, on_field))
        refuse_if(on_field >= len(self.fields), 14)
        self.content += u32(fits(32, flags))
        refuse_if(flags > 7, 12)
        return list(row)

    def alias(self, row):
        column, on_field = row
        self.content += u32(fits(32, column))
        refuse_if(column >= len(self.columns), 14)
        self.content += u32(fits(32, on_field))
        refuse_if(on_field >= len(self.fields) or not self.fields[on_field][4] & 2, 14)
        return list(row)

    def top_of(self, at):
        """The self-parented field above a field, none where there is none."""
        for _ in self.fields:
            if self.fields[at][2] == at:
                return at
            at = self.fields[at][2]
        return None

    def mark_dark(self):
        for column_type, _, at, _ in self.columns:
            if column_type not in BITS:
                self.read_fields[at][14] = 1
                while self.fields[at][2] != at:
                    at = self.fields[at][2]
                    self.read_fields[at][14] = 1


# A footer of tables, and a page list.


def footer_of(header, file_length, clusters, metadata):
    """`clusters` and `metadata` are words; the answer is the footer's bytes."""

    def link(size, offset):
        content = u32(fits(32, size)) + u32(fits(31, size))
        refuse_if(offset + size > file_length, 18)
        return content + u64(offset)

    rows, links = rows_of(CLUSTER_WORDS, clusters), rows_of(LINK_WORDS, metadata)
    having = [row[4] != NONE for row in rows]
    refuse_if(any(having) and not all(having), 19)
    carried = any(having)
    length = 52 + (40 if carried else 36) * len(rows) + 16 * len(links)
    refuse_if(length > LONGEST, 1)
    refuse_if(len(rows) > 1024, 10)
    written, entries_before = [], 0
    for first_entry, entries, size, offset, checksum in rows:
        refuse_if(first_entry != entries_before, 19)
        content = u64(first_entry) + u64(fits(60, entries))
        entries_before += entries
        refuse_if(entries_before > 2**60 - 1, 19)
        content += link(size, offset)
        written.append(record(content + (u32(fits(32, checksum)) if carried else b"")))
    refuse_if(len(links) > 64, 10)
    lists = items(written) + items([link(*pair) for pair in links])
    content = envelope(u64(0) + checksum_of(header.bytes) + EMPTY * 2 + lists, 2 if carried else 1)
    assert len(content) == length
    return content


def page_list_of(header, entries, file_length, pages):
    rows = rows_of(PAGE_WORDS, pages)
    count = len(header.columns)
    length = 16 + 8 * count + 16 * len(rows)
    refuse_if(length > LONGEST, 1)
    numbers = [row[0] for row in rows]
    refuse_if(numbers != sorted(numbers) or any(n >= count for n in numbers), 14)
    lists, total, elements_of = [], 0, [0] * count
    for number in range(count):
        written, bits = [], header.columns[number][1]
        total += numbers.count(number)
        refuse_if(total > 16384, 10)
        for column, elements, summed, size, offset in rows:
            if column == number:
                written.append(u32(fits(1, summed) << 30 | fits(30, elements)) + u32(fits(31, size)))
                refuse_if(size != (elements * bits + 7) // 8, 17)
                refuse_if(offset + size + 4 * summed > file_length, 18)
                written[-1] += u64(offset)
                elements_of[number] += elements
        lists.append(items(written))
    for number, row in enumerate(header.fields):
        if row[2] == number and row[4] == 0:
            lowest = next((c for c, column in enumerate(header.columns) if column[2] == number), None)
            if lowest is not None and header.columns[lowest][0] in BITS:
                refuse_if(elements_of[lowest] != entries, 19)
    content = envelope(items(lists))
    assert len(content) == length
    return content


# The cases. Each lent byte is EE and each lent word 9 before the call. The result, the lent bytes (checksums of them where they are many) and, where
# the envelope is written, what its reader leaves in tables of as many words as the call was lent are printed.

SHOWN_WORDS, READ_WORDS = 128, 8192
# How many bytes are lent for tables that are refused.
LITTLE = 8


def case(called, name, line, numbers, tables, first, room, result_words, zeros):
    """`tables` are three, each the words that are given and how many are lent: the given ones are lent again and again."""
    lent, given = [t[1] for t in tables], [8 * len(t[0]) for t in tables]
    head = [called, *numbers, *lent, *given, room, result_words, zeros, len(first)]
    assert len(head) == 15
    CASES.append((name, words_of(head) + first + b"".join(words_of(t[0]) for t in tables), line))


class Times(list):
    """Words that stand so often in a table."""

    def __init__(self, times, words):
        super().__init__(words)
        self.times = times


def lent_table(given):
    return list(given), len(given) * getattr(given, "times", 1)


def whole(lent):
    words, count = lent
    return words * (count // len(words)) if words else []


def table_shown(lent, rows):
    words = [w for row in rows for w in row]
    return table(lent[1], words) if lent[1] <= SHOWN_WORDS else ""


def run(number, kind, write, refusal_in, name, room, result_words):
    """The bytes that are written and the line of the call; `number` is the answer as it is written by hand, 0 for an accepted call."""
    try:
        written, code = write(), 0
    except Refused as refused:
        written, code = b"", 256 * kind + refused.args[0]
    lent = room if room is not None else LITTLE if code else len(written) + 3
    if code == 0 and lent < len(written):
        written, code = b"", 256 * kind + 20
    if refusal_in is not None:
        written, code = b"", 256 + refusal_in
    assert code % 256 == number, (name, code, number)
    reads = code == 0 and result_words > 0
    return written, lent, reads, printed(code, written, lent, result_words)


def wrote_header(number, name, strings=b"", texts=(0, 0, 0, 0), fields=(), columns=(), aliases=(), room=None, result_words=1, zeros=0):
    tables = [lent_table(t) for t in (fields, columns, aliases)]
    made = []

    def write():
        made.append(Header(bytes(zeros) if zeros else strings, texts, *(whole(t) for t in tables)))
        return made[0].bytes

    written, lent, reads, line = run(number, 1, write, None, name, room, result_words)
    if reads:
        h = made[0]
        read = (h.read_fields, h.read_columns, h.read_aliases)
        line += " accepted" + "".join(f" {len(r)}" for r in read) + "".join(f" {n}" for n in h.places)
        line += "".join(table_shown(t, r) for t, r in zip(tables, read))
    case(1, name, line, list(texts), tables, strings, lent, result_words, zeros)


def wrote_beside(kind, number, name, header, numbers, tables, write, count_words, room, result_words, refusal_in, bytes_beside, zeros):
    """A footer or a page list; `refusal_in` is the number that its header is refused with, where that is so."""
    tables = [lent_table(t) for t in tables]
    written, lent, reads, line = run(number, kind, lambda: write(*(whole(t) for t in tables)), refusal_in, name, room, result_words)
    if reads:
        rows = [rows_of(n, whole(t)) for n, t in zip(count_words, tables)]
        # More words than the program has for reading back: 20, which comes last.
        read = " accepted" + "".join(f" {len(r)}" for r in rows) if tables[0][1] <= READ_WORDS else f" refused {kind} 20"
        line += read + "".join(table_shown(t, r) for t, r in zip(tables, rows))
    tables += [([], 0)] * (3 - len(tables))
    beside = header.bytes if bytes_beside is None else bytes_beside
    case(kind, name, line, numbers, tables, beside, lent, result_words, zeros)


def wrote_footer(
    number, name, clusters=(), metadata=(), file_length=1000, header=None, room=None, result_words=1, refusal_in=None, bytes_beside=None, zeros=0
):
    h = SMALLEST if header is None else header
    write = lambda c, m: footer_of(h, file_length, c, m)
    wrote_beside(2, number, name, h, [file_length, 0, 0, 0], (clusters, metadata), write, (5, 2), room, result_words, refusal_in, bytes_beside, zeros)


def wrote_pages(number, name, pages=(), entries=5, file_length=1000, header=None, room=None, result_words=1, refusal_in=None, bytes_beside=None, zeros=0):
    h = ONE if header is None else header
    write = lambda p: page_list_of(h, entries, file_length, p)
    wrote_beside(3, number, name, h, [file_length, entries, 0, 0], (pages,), write, (5,), room, result_words, refusal_in, bytes_beside, zeros)


# Rows. A field's strings are four places with their lengths.

NO_TEXTS = (0,) * 8


def field(parent=0, flags=0, repetition=0, texts=NO_TEXTS, role=0, dark=0):
    return [1, 2, parent, role, flags, repetition, *texts, dark]


def column(column_type=0x11, bits=32, on_field=0, flags=0):
    return [column_type, bits, on_field, flags]


def cluster(first_entry, entries, size=0, offset=0, checksum=NONE):
    return [first_entry, entries, size, offset, checksum]


def page(column_number, elements, size, offset=0, summed=0):
    return [column_number, elements, summed, size, offset]


def changed(row, word, n):
    return row[:word] + [n] + row[word + 1 :]


WIDE = {"2_to_16": 2**16, "2_to_31": 2**31, "2_to_32": 2**32, "2_to_60": 2**60, "most": 2**64 - 1}


def in_turn(numbers, write, name):
    """Each word of a row in turn is set to numbers that are too wide for some places. `numbers` has for each word the answers to them."""
    for word, answers in enumerate(numbers):
        for answer, (label, n) in zip(answers, WIDE.items()):
            write(answer, f"{name}_word_{word}_{label}", word, n)


# Headers.

SMALLEST = Header()
assert len(SMALLEST.bytes) == 48
wrote_header(0, "header_smallest")
wrote_header(0, "header_smallest_room_exact", room=48)
wrote_header(20, "header_smallest_room_47", room=47)
wrote_header(20, "header_smallest_room_1", room=1)
wrote_header(20, "header_smallest_room_none", room=0)
wrote_header(0, "header_smallest_room_much", room=2000)
wrote_header(0, "header_smallest_room_most", room=LONGEST + 1)

# The strings, and the places of some of them.
STRINGS = "eventsZähler検出器θfloatvector<float>\0".encode()


def at(text):
    content = text.encode()
    assert STRINGS.count(content) == 1, text
    return STRINGS.index(content), len(content)


NAMES = (*at("events"), *at("Zähler"))
FIELD_TEXTS = (*at("θ"), *at("vector<float>"), *at("検出器"), *at("ev"))
# Field 0 is dark by the column of an unknown type that is on its child 2; field 1 is an alias with a repetition; field 3 is a top of its own.
FIELDS = field(0, texts=FIELD_TEXTS) + field(1, 3, 2**64 - 1, FIELD_TEXTS[2:] + FIELD_TEXTS[:2], 4) + field(0) + field(3, 1, 0, role=1)
COLUMNS = column() + column(0x1D, 5, 2, 7) + column(0x06, 1, 3, 1)
ALIASES = [0, 1, 2, 1]
ALL = dict(strings=STRINGS, texts=NAMES, fields=FIELDS, columns=COLUMNS, aliases=ALIASES)
FULL = Header(STRINGS, NAMES, FIELDS, COLUMNS, ALIASES)
wrote_header(0, "header_all_kinds_of_records", **ALL)
wrote_header(0, "header_room_exact", **ALL, room=len(FULL.bytes))
wrote_header(20, "header_room_one_byte_short", **ALL, room=len(FULL.bytes) - 1)
wrote_header(20, "header_room_none", **ALL, room=0)
wrote_header(0, "header_room_left", **ALL, room=len(FULL.bytes) + 1000)

# Results of other lengths. The words behind the first are kept; where there is none, nothing is written.
for words in (0, 2, 3):
    wrote_header(0, f"header_result_of_{words}_words", **ALL, result_words=words)
    wrote_header(20, f"header_no_room_result_of_{words}_words", **ALL, room=10, result_words=words)
    wrote_header(14, f"header_refused_result_of_{words}_words", fields=field(1), result_words=words)

# Words that are left over are no row.
wrote_header(0, "header_words_left_over", STRINGS, NAMES, FIELDS + field(9)[:14], COLUMNS + [9, 9, 9], ALIASES + [9])
wrote_header(0, "header_words_for_no_row", STRINGS, NAMES, field(9)[:14], [9, 9, 9], [9])
wrote_header(0, "header_one_word_each", STRINGS, NAMES, [9], [9], [])

# Strings: other alphabets, places that are shared and that overlap, and the end of the lent strings.
wrote_header(0, "header_alphabets", STRINGS, (*at("検出器"), *at("θ")), field(0, texts=FIELD_TEXTS))
wrote_header(0, "header_all_strings_share", b"xyz", (0, 3, 0, 3), field(0, texts=(0, 3) * 4))
wrote_header(0, "header_strings_overlap", b"abcde", (0, 3, 1, 3), field(0, texts=(2, 3, 0, 5, 4, 1, 1, 4)))
wrote_header(0, "header_strings_back_to_front", b"abcdef", (5, 1, 4, 1), field(0, texts=(3, 1, 2, 1, 1, 1, 0, 1)))
wrote_header(0, "header_character_0", STRINGS, (*at("\0"), 0, 0))
LAST = len(STRINGS)
wrote_header(0, "header_empty_at_the_end", STRINGS, (LAST, 0, LAST, 0), field(0, texts=(LAST, 0) * 4))
for i, what in enumerate(("name", "description")):
    for where, place, length in (("empty_one_byte_further", LAST + 1, 0), ("one_byte_past_the_end", LAST - 1, 2)):
        wrote_header(7, f"header_{what}_{where}", STRINGS, (0, 0) * i + (place, length) + (0, 0) * (1 - i))
for i, what in enumerate(("name", "type", "type_alias", "description")):
    others = (0, 0) * i, (0, 0) * (3 - i)
    wrote_header(0, f"header_field_{what}_to_the_end", STRINGS, fields=field(0, texts=others[0] + (0, LAST) + others[1]))
    for where, place, length in (("empty_one_byte_further", LAST + 1, 0), ("one_byte_past_the_end", 1, LAST)):
        wrote_header(7, f"header_field_{what}_{where}", STRINGS, fields=field(0, texts=others[0] + (place, length) + others[1]))
    wrote_header(9, f"header_field_{what}_ill_formed", b"\xc3\xa4\xff", fields=field(0, texts=others[0] + (0, 3) + others[1]))
wrote_header(7, "header_empty_without_strings", texts=(0, 0, 1, 0))
# Places and lengths near 2^64, whose sums in 64 bits would lie in the lent strings.
TOP = 2**64
wrote_header(7, "header_place_most_empty", STRINGS, (TOP - 1, 0, 0, 0))
wrote_header(7, "header_place_most_1_byte", STRINGS, (TOP - 1, 1, 0, 0))
wrote_header(7, "header_place_most_4_bytes", STRINGS, (0, 0, TOP - 1, 4))
wrote_header(7, "header_place_past_64_bits", STRINGS, fields=field(0, texts=(0, 0, TOP - 5, 6, 0, 0, 0, 0)))
wrote_header(7, "header_place_2_to_63", STRINGS, (2**63, 1, 0, 0))
wrote_header(1, "header_length_most", STRINGS, (1, TOP - 1, 0, 0))
wrote_header(1, "header_length_to_2_to_64", STRINGS, (0, TOP - 48, 0, 0))
wrote_header(1, "header_lengths_to_2_to_64", STRINGS, (0, TOP - 96, 0, 0), field(0, texts=(0, 0, 0, 12, 0, 0, 0, 0)))
wrote_header(1, "header_lengths_2_to_63_twice", STRINGS, (0, 2**63, 0, 2**63))
wrote_header(1, "header_lengths_most_six_times", STRINGS, (0, TOP - 1) * 2, field(0, texts=(0, TOP - 1) * 4))
wrote_header(1, "header_lengths_2_to_62_four_times", STRINGS, fields=field(0, texts=(0, 2**62) * 4))
wrote_header(1, "header_lengths_over_two_fields", STRINGS, fields=field(0, texts=(0, 2**63) + (0, 0) * 3) + field(1, texts=(0, 2**63) + (0, 0) * 3))

# Characters: cut sequences, also where the next lent byte would complete them, overlong forms, surrogates, and above 10FFFF.
THETA = at("θ")[0]
wrote_header(9, "header_name_cut_in_a_sequence", STRINGS, (THETA, 1, 0, 0))
wrote_header(9, "header_name_from_within_a_sequence", STRINGS, (THETA + 1, 1, 0, 0))
wrote_header(9, "header_description_cut_in_a_sequence", STRINGS, (0, 0, at("検出器")[0], 8))
for label, text in {
    "overlong_2": b"\xc1\xbf", "overlong_3": b"\xe0\x9f\xbf", "overlong_4": b"\xf0\x8f\xbf\xbf", "surrogate_d800": b"\xed\xa0\x80",
    "surrogate_dfff": b"\xed\xbf\xbf", "110000": b"\xf4\x90\x80\x80", "f5": b"\xf5\x80\x80\x80", "lone_80": b"a\x80", "ff": b"\xff",
}.items():  # fmt: skip
    wrote_header(9, f"header_characters_{label}", text, (0, len(text), 0, 0))
SCALARS = "\x7f\u0080\u07ff\u0800\ud7ff\ue000\uffff\U00010000\U0010ffff".encode()
wrote_header(0, "header_characters_first_and_last", SCALARS, (0, len(SCALARS), 0, 0))

# Repetitions and dark marks. Without the flag a repetition is not written, and is read back as 0; a mark is read back as it is due.
wrote_header(0, "header_repetition_without_flag", fields=field(0, 0, 7) + field(0, 2, TOP - 1))
wrote_header(0, "header_repetition_with_flag", fields=field(0, 1, 7) + field(0, 3, TOP - 1) + field(0, 1, 0))
wrote_header(0, "header_dark_mark_on_a_field_that_is_not", fields=field(0, dark=1) + field(0, dark=TOP - 1), columns=column())
wrote_header(0, "header_dark_field_without_mark", fields=field(0) + field(0) + field(0), columns=column(0x1D, 0, 1))
wrote_header(0, "header_dark_chain", fields=field(1) + field(2) + field(2) + field(2), columns=column(0xFFFF, 65535, 0))

# The exact length, which comes before all else. The strings are zeros.
NAME = LONGEST - 48
wrote_header(0, "header_of_1048576_bytes", texts=(0, NAME, 0, 0), zeros=LONGEST + 1, room=LONGEST)
wrote_header(20, "header_of_1048576_bytes_room_short", texts=(0, NAME, 0, 0), zeros=LONGEST + 1, room=LONGEST - 1)
wrote_header(1, "header_of_1048577_bytes", texts=(0, NAME + 1, 0, 0), zeros=LONGEST + 1)
wrote_header(1, "header_of_1048577_bytes_room", texts=(0, NAME + 1, 0, 0), zeros=LONGEST + 1, room=LONGEST + 1)
wrote_header(7, "header_of_1048576_bytes_past_the_strings", texts=(2, NAME, 0, 0), zeros=NAME + 1)
wrote_header(1, "header_of_1048577_bytes_past_the_strings", texts=(2, NAME + 1, 0, 0), zeros=NAME + 1)
wrote_header(1, "header_of_1048577_bytes_place_most", texts=(TOP - 1, NAME + 1, 0, 0))
wrote_header(0, "header_of_1048576_bytes_in_two", texts=(0, 500000, 500000, NAME - 500000), zeros=LONGEST, room=LONGEST)
wrote_header(1, "header_of_1048577_bytes_in_two", texts=(0, 500000, 500000, NAME - 499999), zeros=LONGEST)
# Records count with their heads, and a repetition with 8 bytes where bit 0 of the flags is set, however wide they are.
REST = NAME - 36 - 16 - 12
EACH = dict(fields=field(0, 2), columns=column(), aliases=[0, 0], zeros=LONGEST)
wrote_header(0, "header_of_1048576_bytes_with_records", texts=(0, REST, 0, 0), **EACH, room=LONGEST + 1)
wrote_header(1, "header_of_1048577_bytes_with_records", texts=(0, REST + 1, 0, 0), **EACH)
wrote_header(0, "header_of_1048576_bytes_repetition", texts=(0, NAME - 44, 0, 0), fields=field(0, 1), zeros=LONGEST, room=LONGEST)
wrote_header(1, "header_of_1048577_bytes_repetition", texts=(0, NAME - 43, 0, 0), fields=field(0, 1), zeros=LONGEST)
wrote_header(0, "header_of_1048576_bytes_no_repetition", texts=(0, NAME - 36, 0, 0), fields=field(0, 0, 7), zeros=LONGEST, room=LONGEST)
wrote_header(25, "header_of_1048576_bytes_wide_flags_bit_0", texts=(0, NAME - 44, 0, 0), fields=field(0, 2**16 + 1), zeros=LONGEST)
wrote_header(1, "header_of_1048577_bytes_wide_flags_bit_0", texts=(0, NAME - 43, 0, 0), fields=field(0, 2**16 + 1), zeros=LONGEST)
wrote_header(25, "header_of_1048576_bytes_wide_flags", texts=(0, NAME - 36, 0, 0), fields=field(0, 2**16), zeros=LONGEST)
wrote_header(12, "header_of_1048576_bytes_flags_5", texts=(0, NAME - 44, 0, 0), fields=field(0, 5), zeros=LONGEST)
wrote_header(1, "header_of_1048577_bytes_flags_5", texts=(0, NAME - 43, 0, 0), fields=field(0, 5), zeros=LONGEST)
wrote_header(1, "header_too_long_before_513_fields", texts=(0, LONGEST, 0, 0), fields=Times(513, field(9)), zeros=LONGEST)
# 512 fields share one string: 2,000 bytes each, and one with 12 more.
SHARED = field(0, texts=(0, 2000) + (0, 0) * 3)
wrote_header(0, "header_512_fields_share_a_string", texts=(0, NAME - 512 * 2036, 0, 0), fields=Times(512, SHARED), zeros=20000, room=LONGEST)
wrote_header(1, "header_512_fields_share_a_string_too_long", texts=(0, NAME - 512 * 2036 + 1, 0, 0), fields=Times(512, SHARED), zeros=20000)

# Each word of a row in turn.
FITS_32, FITS_NONE, PARENT = (0, 0, 25, 25, 25), (25,) * 5, (14, 14, 25, 25, 25)
ACCEPTED, PLACE, LENGTH, FLAGS_32 = (0,) * 5, (7,) * 5, (7, 1, 1, 1, 1), (12, 12, 25, 25, 25)
FIELD_ANSWERS = [FITS_32, FITS_32, PARENT, FITS_NONE, FITS_NONE, ACCEPTED] + [PLACE, LENGTH] * 4 + [ACCEPTED]


def wide_field(answer, name, word, n):
    wrote_header(answer, name, b"abc", fields=changed(field(0, 1 if word == 5 else 0, texts=(1, 2) * 4), word, n))


in_turn(FIELD_ANSWERS, wide_field, "header_field")
in_turn([FITS_NONE, FITS_NONE, PARENT, FLAGS_32], lambda a, name, w, n: wrote_header(a, name, fields=field(), columns=changed(column(), w, n)), "header_column")
in_turn(
    [PARENT] * 2,
    lambda a, name, w, n: wrote_header(a, name, fields=field(0, 2), columns=column(), aliases=changed([0, 0], w, n)),
    "header_alias",
)
# 25 comes before the verdict on the same number, and after those on the numbers in front of it.
wrote_header(25, "header_wide_bits_of_a_known_type", fields=field(), columns=column(0x11, 2**16 + 32))
wrote_header(25, "header_wide_type", fields=field(), columns=column(2**16 + 0x11, 31))
wrote_header(13, "header_bits_before_a_wide_field", fields=field(), columns=column(0x11, 31, 2**32))
wrote_header(14, "header_parent_before_wide_role", fields=field(1, role=2**16))
wrote_header(25, "header_wide_parent_before_role", fields=field(2**32, role=5))
wrote_header(25, "header_wide_version_before_parent", fields=changed(field(1), 1, 2**32))
wrote_header(12, "header_role_before_wide_flags", fields=field(role=5, flags=2**16))
wrote_header(12, "header_flags_before_texts", fields=field(flags=4, texts=(9, 9) * 4))
wrote_header(25, "header_wide_flags_before_texts", fields=field(flags=2**16, texts=(9, 9) * 4))
wrote_header(7, "header_texts_before_the_next_field", fields=field(texts=(0, 0) * 3 + (1, 0)) + field(2**32))
wrote_header(7, "header_name_before_a_wide_field", texts=(1, 0, 0, 0), fields=field(2**32))
wrote_header(9, "header_description_before_a_wide_field", b"\x80", (0, 0, 0, 1), field(2**32))
wrote_header(7, "header_description_before_nothing", b"\x80", (0, 0, 1, 1))
wrote_header(9, "header_name_before_the_description", b"\x80", (0, 1, 1, 1))
wrote_header(25, "header_wide_field_before_columns", fields=field(2**32), columns=column(0x11, 31))
wrote_header(13, "header_columns_before_aliases", fields=field(), columns=column(0x11, 31), aliases=[2**32, 0])
wrote_header(25, "header_wide_alias_before_chains", fields=field(1) + field(0), columns=column(), aliases=[2**32, 0])
wrote_header(14, "header_alias_column_before_wide_field", fields=field(0, 2), columns=column(), aliases=[1, 2**32])

# The verdicts.
wrote_header(0, "header_role_4", fields=field(role=4))
wrote_header(12, "header_role_5", fields=field(role=5))
wrote_header(12, "header_role_65535", fields=field(role=65535))
wrote_header(0, "header_flags_3", fields=field(flags=3))
wrote_header(12, "header_flags_4", fields=field(flags=4))
wrote_header(12, "header_flags_65535", fields=field(flags=65535))
wrote_header(0, "header_column_flags_7", fields=field(), columns=column(flags=7))
wrote_header(12, "header_column_flags_8", fields=field(), columns=column(flags=8))
wrote_header(12, "header_column_flags_most", fields=field(), columns=column(flags=2**32 - 1))
wrote_header(0, "header_every_column_type", fields=field(), columns=[w for t, bits in BITS.items() for w in column(t, bits)])
wrote_header(0, "header_unknown_types", fields=field(), columns=column(0, 0) + column(0x1D, 65535) + column(65535, 1))
wrote_header(13, "header_type_1b_of_64_bits", fields=field(), columns=column(0x1B, 64))
wrote_header(13, "header_second_column_bits", fields=field(), columns=column() + column(0x06, 8))
wrote_header(14, "header_parent_1_of_1", fields=field(1))
wrote_header(14, "header_parent_of_the_last", fields=field() + field() + field(3))
wrote_header(14, "header_column_without_fields", columns=column())
wrote_header(14, "header_column_on_field_1_of_1", fields=field(), columns=column(on_field=1))
wrote_header(14, "header_alias_without_columns", fields=field(0, 2), aliases=[0, 0])
wrote_header(14, "header_alias_of_column_1_of_1", fields=field(0, 2), columns=column(), aliases=[1, 0])
wrote_header(14, "header_alias_on_field_1_of_1", fields=field(0, 2), columns=column(), aliases=[0, 1])
wrote_header(14, "header_alias_without_flag", fields=field(0, 1), columns=column(), aliases=[0, 0])
wrote_header(14, "header_second_alias_without_flag", fields=field(0, 2) + field(1), columns=column(), aliases=[0, 0, 0, 1])
wrote_header(15, "header_circle", fields=field(1) + field(0))
wrote_header(15, "header_circle_behind_a_top", fields=field(0) + field(2) + field(1))
wrote_header(15, "header_circle_without_room", fields=field(1) + field(0), room=0)
wrote_header(15, "header_circle_with_room", fields=field(1) + field(0), room=200)
wrote_header(14, "header_aliases_before_chains", fields=field(1) + field(0), columns=column(), aliases=[0, 0])
wrote_header(0, "header_parents_later", fields=field(2) + field(0) + field(2))

# Counts, each at the head of its list.
wrote_header(0, "header_512_fields", fields=Times(512, field(511)))
wrote_header(10, "header_513_fields", fields=Times(513, field(0)))
wrote_header(10, "header_513_fields_before_the_first", fields=Times(513, field(2**32)))
wrote_header(9, "header_name_before_513_fields", b"\x80", (0, 1, 0, 0), Times(513, field(0)))
wrote_header(0, "header_1024_columns", fields=field(), columns=Times(1024, column()))
wrote_header(10, "header_1025_columns", fields=field(), columns=Times(1025, column()))
wrote_header(10, "header_1025_columns_before_the_first", fields=field(), columns=Times(1025, column(on_field=1)))
wrote_header(14, "header_field_before_1025_columns", fields=field(1), columns=Times(1025, column()))
wrote_header(0, "header_256_aliases", fields=field(0, 2), columns=column(), aliases=Times(256, [0, 0]))
wrote_header(10, "header_257_aliases", fields=field(0, 2), columns=column(), aliases=Times(257, [0, 0]))
wrote_header(10, "header_257_aliases_before_chains", fields=field(1) + field(0), columns=column(), aliases=Times(257, [5, 5]))
wrote_header(13, "header_column_before_257_aliases", fields=field(0, 2), columns=column(bits=31), aliases=Times(257, [0, 0]))
FULL_TABLES = dict(fields=Times(512, field(0, 3)), columns=Times(1024, column()), aliases=Times(256, [1023, 511]))
wrote_header(0, "header_full_tables", **FULL_TABLES)
wrote_header(20, "header_full_tables_room_short", **FULL_TABLES, room=48 + 512 * 44 + 1024 * 16 + 256 * 12 - 1)

# Footers: version 2 where every cluster has the checksum of its page list, else 1.

SUM = 0x04030201
wrote_footer(0, "footer_smallest")
wrote_footer(0, "footer_smallest_room_exact", room=52)
wrote_footer(20, "footer_smallest_room_51", room=51)
wrote_footer(20, "footer_smallest_room_none", room=0)
CLUSTERS = cluster(0, 5, 10, 20) + cluster(5, 0, 0, 1000) + cluster(5, 7, 100, 900)
CARRYING = cluster(0, 5, 10, 20, 0) + cluster(5, 0, 0, 1000, 2**32 - 1) + cluster(5, 7, 100, 900, SUM)
LINKS = [1, 2, 3, 4]
wrote_footer(0, "footer_version_1", CLUSTERS, LINKS, header=FULL)
wrote_footer(0, "footer_version_2", CARRYING, LINKS, header=FULL)
wrote_footer(0, "footer_links_alone", metadata=LINKS)
wrote_footer(0, "footer_one_cluster", cluster(0, 5))
wrote_footer(0, "footer_one_cluster_version_2", cluster(0, 5, checksum=SUM))
for version, rows, length in ((1, CLUSTERS, 52 + 108 + 32), (2, CARRYING, 52 + 120 + 32)):
    wrote_footer(0, f"footer_version_{version}_room_exact", rows, LINKS, room=length)
    wrote_footer(20, f"footer_version_{version}_room_one_byte_short", rows, LINKS, room=length - 1)
    wrote_footer(0, f"footer_version_{version}_room_left", rows, LINKS, room=length + 1000)
    wrote_footer(20, f"footer_version_{version}_room_none", rows, LINKS, room=0)
for words in (0, 2):
    wrote_footer(0, f"footer_result_of_{words}_words", CLUSTERS, LINKS, result_words=words)
    wrote_footer(19, f"footer_refused_result_of_{words}_words", cluster(1, 5), result_words=words)
wrote_footer(0, "footer_words_left_over", CLUSTERS + [9, 9, 9, 9], LINKS + [9])
wrote_footer(0, "footer_words_left_over_version_2", CARRYING + [9, 9, 9, 9], LINKS + [9])
wrote_footer(0, "footer_words_for_no_row", [1, 2, 3, 4], [9])

# Rows of which some have a checksum and some have none: 19 before 1, and after the header's refusals.
MIXED = cluster(0, 5, checksum=SUM) + cluster(5, 5)
wrote_footer(19, "footer_mixed", MIXED)
wrote_footer(19, "footer_mixed_none_first", cluster(0, 5) + cluster(5, 5, checksum=SUM))
wrote_footer(19, "footer_mixed_last_of_three", cluster(0, 5) + cluster(5, 0) + cluster(5, 5, checksum=0))
wrote_footer(19, "footer_mixed_without_room", MIXED, room=0)
wrote_footer(19, "footer_mixed_with_room", MIXED, room=1000)
wrote_footer(19, "footer_mixed_before_wide_numbers", cluster(2**60, 2**60, 2**32) + cluster(0, 0, checksum=SUM))
wrote_footer(19, "footer_mixed_before_1025", Times(513, MIXED))
wrote_footer(19, "footer_mixed_before_too_long", Times(16000, MIXED))
wrote_footer(0, "footer_checksum_most", cluster(0, 5, checksum=2**32 - 1))
wrote_footer(25, "footer_checksum_one_above_none", cluster(0, 5, checksum=NONE + 1))
wrote_footer(25, "footer_checksum_one_above_none_second", cluster(0, 5, checksum=SUM) + cluster(5, 5, checksum=NONE + 1))
wrote_footer(19, "footer_checksum_one_above_none_mixed", cluster(0, 5, checksum=NONE + 1) + cluster(5, 5))
wrote_footer(19, "footer_checksum_of_64_bits_mixed", cluster(0, 5) + cluster(5, 5, checksum=TOP - 1))
wrote_footer(18, "footer_range_before_a_wide_checksum", cluster(0, 5, 1, 1000, NONE + 1))
wrote_footer(25, "footer_wide_checksum_before_the_next_cluster", cluster(0, 5, checksum=NONE + 1) + cluster(4, 5, checksum=0))

# The exact length: clusters take 36 bytes each, or 40 with a checksum, and links 16. Where it is not too much, the count is (10).
wrote_footer(10, "footer_of_1048552_bytes", Times(29125, cluster(0, 0)))
wrote_footer(1, "footer_of_1048588_bytes", Times(29126, cluster(0, 0)))
wrote_footer(10, "footer_of_1048572_bytes_version_2", Times(26213, cluster(0, 0, checksum=SUM)))
wrote_footer(1, "footer_of_1048612_bytes_version_2", Times(26214, cluster(0, 0, checksum=SUM)))
wrote_footer(10, "footer_of_1048576_bytes", Times(29115, cluster(9, 2**60)), Times(24, [1, 1]))
wrote_footer(1, "footer_of_1048592_bytes", Times(29115, cluster(9, 2**60)), Times(25, [1, 1]))

# Each word of a row in turn.
HIGHEST = TOP - 1
in_turn(
    [(19,) * 5, (0, 0, 0, 25, 25), (0, 25, 25, 25, 25), (0, 0, 0, 0, 18), (0, 0, 0, 25, 25)],
    lambda a, name, w, n: wrote_footer(a, name, changed(cluster(0, 5, 10, 0, SUM), w, n), file_length=HIGHEST),
    "footer_cluster",
)
in_turn(
    [(0, 25, 25, 25, 25), (0, 0, 0, 0, 18)],
    lambda a, name, w, n: wrote_footer(a, name, metadata=changed([10, 0], w, n), file_length=HIGHEST),
    "footer_link",
)

# The verdicts, and 25 before the one on the same number.
wrote_footer(19, "footer_first_entry_1", cluster(1, 5))
wrote_footer(19, "footer_first_entry_before_wide_entries", cluster(1, 2**60))
wrote_footer(19, "footer_second_first_entry", cluster(0, 5) + cluster(4, 1))
MOST = 2**60 - 1
wrote_footer(0, "footer_sum_at_its_most", cluster(0, MOST - 1) + cluster(MOST - 1, 1))
wrote_footer(19, "footer_sum_one_further", cluster(0, MOST - 1) + cluster(MOST - 1, 2))
wrote_footer(19, "footer_sum_before_range", cluster(0, MOST) + cluster(MOST, 1, 1, 1000))
wrote_footer(25, "footer_wide_entries_before_the_sum", cluster(0, 1) + cluster(1, 2**60))
wrote_footer(0, "footer_range_to_the_last_byte", cluster(0, 5, 10, 90), [5, 95], 100)
wrote_footer(18, "footer_cluster_range_one_further", cluster(0, 5, 10, 91), [5, 95], 100)
wrote_footer(18, "footer_link_range_one_further", cluster(0, 5, 10, 90), [5, 96], 100)
wrote_footer(18, "footer_range_past_64_bits", metadata=[2, HIGHEST])
wrote_footer(0, "footer_range_to_the_highest_byte", metadata=[2, HIGHEST - 2], file_length=HIGHEST)
wrote_footer(18, "footer_range_one_past_the_highest", metadata=[2, HIGHEST - 1], file_length=HIGHEST)
wrote_footer(0, "footer_size_2_to_31_less_1", metadata=[2**31 - 1, 0], file_length=2**31)
wrote_footer(25, "footer_wide_size_before_range", metadata=[2**31, 2], file_length=2**31)
wrote_footer(25, "footer_size_2_to_32_less_1", metadata=[2**32 - 1, 0], file_length=HIGHEST)
wrote_footer(18, "footer_clusters_before_links", cluster(0, 5, 1, 1000), Times(65, [2**31, 0]))
wrote_footer(18, "footer_second_link_range", metadata=[1, 2, 1, 1000])

# Counts.
wrote_footer(0, "footer_1024_clusters", Times(1024, cluster(0, 0)))
wrote_footer(10, "footer_1025_clusters", Times(1025, cluster(0, 0)))
wrote_footer(0, "footer_1024_clusters_version_2", Times(1024, cluster(0, 0, checksum=SUM)))
wrote_footer(10, "footer_1025_clusters_version_2", Times(1025, cluster(0, 0, checksum=SUM)))
wrote_footer(10, "footer_1025_clusters_before_the_first", Times(1025, cluster(1, 0)))
wrote_footer(0, "footer_64_links", metadata=Times(64, [1, 2]))
wrote_footer(10, "footer_65_links", metadata=Times(65, [1, 2]))
wrote_footer(10, "footer_65_links_before_the_first", metadata=Times(65, [2**31, 2]))
wrote_footer(10, "footer_65_links_without_room", metadata=Times(65, [1, 2]), room=0)

# The header's refusals come first, with envelope 1.
CIRCLE = envelope(u64(0) + string() * 2 + items([record(u32(1) + u32(2) + u32(p) + u32(0) + string() * 4) for p in (1, 0)]) + EMPTY * 2)
REFUSED_HEADERS = {
    "of_7_bytes": (2, SMALLEST.bytes[:7], 0),
    "checksum_bit": (3, flipped(SMALLEST.bytes, 47), 0),
    "minimum_2": (5, envelope(SMALLEST.bytes[4:-4], 2, 2), 0),
    "a_circle": (15, CIRCLE, 0),
    "of_1048577_bytes": (1, b"", LONGEST + 1),
    "of_1048576_bytes": (3, b"", LONGEST),
}
for label, (number, content, zeros) in REFUSED_HEADERS.items():
    wrote_footer(number, f"footer_beside_{label}", CLUSTERS, refusal_in=number, bytes_beside=content, zeros=zeros)
wrote_footer(15, "footer_beside_a_circle_mixed", MIXED, refusal_in=15, bytes_beside=CIRCLE)
wrote_footer(15, "footer_beside_a_circle_too_long", Times(29126, cluster(0, 0)), refusal_in=15, bytes_beside=CIRCLE)
wrote_footer(15, "footer_beside_a_circle_no_room", refusal_in=15, bytes_beside=CIRCLE, room=0)

# Page lists, beside a header of one column of 32 bits; of two, the second of 8 bits; of one Bit column; of one of an unknown type of 5 bits.

ONE = Header(fields=field(), columns=column())
TWO = Header(fields=field(), columns=column() + column(0x0D, 8))
BIT = Header(fields=field(), columns=column(0x06, 1))
UNKNOWN = Header(fields=field(), columns=column(0x1D, 5))
FIVE = page(0, 5, 20)
wrote_pages(0, "pages_smallest", header=SMALLEST)
wrote_pages(0, "pages_smallest_room_exact", header=SMALLEST, room=16)
wrote_pages(20, "pages_smallest_room_15", header=SMALLEST, room=15)
wrote_pages(20, "pages_smallest_room_none", header=SMALLEST, room=0)
wrote_pages(0, "pages_one", FIVE)
THREE = page(0, 2, 8, 100, 1) + page(0, 3, 12, 200) + page(1, 2**30 - 1, 2**30 - 1)
LARGE = dict(header=TWO, file_length=2**31)
wrote_pages(0, "pages_three_of_two_columns", THREE, **LARGE)
wrote_pages(0, "pages_room_exact", THREE, **LARGE, room=80)
wrote_pages(20, "pages_room_one_byte_short", THREE, **LARGE, room=79)
wrote_pages(20, "pages_room_none", THREE, **LARGE, room=0)
wrote_pages(0, "pages_room_left", THREE, **LARGE, room=1080)
for words in (0, 2):
    wrote_pages(0, f"pages_result_of_{words}_words", FIVE, result_words=words)
    wrote_pages(14, f"pages_refused_result_of_{words}_words", page(1, 5, 20), result_words=words)
wrote_pages(0, "pages_words_left_over", FIVE + [9, 9, 9, 9])
wrote_pages(0, "pages_words_for_no_row", [9, 9, 9, 9], entries=0)
wrote_pages(0, "pages_first_column_without_pages", page(1, 5, 5), entries=0, header=TWO)
wrote_pages(0, "pages_last_column_without_pages", FIVE, header=TWO)

# Rows out of the order of columns, or of a column that is not there: 14, just after 1.
wrote_pages(14, "pages_out_of_order", page(1, 5, 5) + FIVE, header=TWO)
wrote_pages(14, "pages_out_of_order_last", FIVE + page(1, 5, 5) + page(0, 0, 0), header=TWO)
wrote_pages(14, "pages_of_no_column", page(1, 5, 20))
wrote_pages(14, "pages_of_no_column_last", FIVE + page(1, 0, 0))
wrote_pages(14, "pages_without_columns", page(0, 0, 0), header=SMALLEST)
wrote_pages(14, "pages_order_before_wide_numbers", page(0, 2**30, 2**31, HIGHEST, 2) + page(1, 0, 0))
wrote_pages(14, "pages_order_before_size_and_range", page(0, 5, 19, 1001) + page(1, 5, 5) + page(0, 0, 0), header=TWO)
wrote_pages(14, "pages_order_before_16385", Times(8193, page(1, 0, 0) + page(0, 0, 0)), header=TWO)
wrote_pages(14, "pages_order_before_totals_and_room", page(1, 4, 4), room=0)
wrote_pages(14, "pages_column_2_to_32", page(2**32, 5, 20))

# Each word of a row in turn.
in_turn(
    [(14,) * 5, (17, 25, 25, 25, 25), FITS_NONE, (17, 25, 25, 25, 25), (0, 0, 0, 0, 18)],
    lambda a, name, w, n: wrote_pages(a, name, changed(FIVE, w, n), file_length=HIGHEST),
    "pages_page",
)
wrote_pages(17, "pages_elements_2_to_30_less_1", page(0, 2**30 - 1, 20))
wrote_pages(25, "pages_elements_2_to_30", page(0, 2**30, 2**27), header=BIT, entries=2**30, file_length=HIGHEST)
wrote_pages(25, "pages_bit_30_is_2", page(0, 5, 20, 0, 2))
wrote_pages(25, "pages_bit_30_is_2_before_size", page(0, 5, 19, 0, 2))
wrote_pages(25, "pages_wide_size_before_range", page(0, 2**29, 2**31, 0), entries=2**29, file_length=HIGHEST)
wrote_pages(17, "pages_size_before_range", page(0, 5, 19, 1001))
wrote_pages(17, "pages_size_21", page(0, 5, 21))
wrote_pages(17, "pages_checksum_not_in_the_size", page(0, 5, 24, 0, 1))
wrote_pages(17, "pages_size_before_the_next_page", page(0, 5, 19) + page(0, 2**30, 0))

# Ranges, with the check bytes where bit 30 is set.
wrote_pages(0, "pages_range_to_the_last_byte", page(0, 5, 20, 980))
wrote_pages(18, "pages_range_one_further", page(0, 5, 20, 981))
wrote_pages(0, "pages_check_bytes_to_the_last_byte", page(0, 5, 20, 976, 1))
wrote_pages(18, "pages_check_bytes_one_further", page(0, 5, 20, 977, 1))
wrote_pages(0, "pages_no_check_bytes_there", page(0, 5, 20, 977))
wrote_pages(0, "pages_check_bytes_alone", page(0, 0, 0, 0, 1), entries=0, file_length=4)
wrote_pages(18, "pages_check_bytes_alone_in_3_bytes", page(0, 0, 0, 0, 1), entries=0, file_length=3)
wrote_pages(0, "pages_check_bytes_to_the_highest_byte", page(0, 0, 0, HIGHEST - 4, 1), entries=0, file_length=HIGHEST)
wrote_pages(18, "pages_check_bytes_past_64_bits", page(0, 0, 0, HIGHEST - 3, 1), entries=0, file_length=HIGHEST)
wrote_pages(18, "pages_range_past_64_bits", page(0, 5, 20, HIGHEST), file_length=HIGHEST)
wrote_pages(18, "pages_second_page_range", page(0, 2, 8) + page(0, 3, 12, 989))
wrote_pages(18, "pages_range_before_totals", page(0, 4, 16, 985))
wrote_pages(18, "pages_range_without_room", page(0, 5, 20, 981), room=0)

# Sizes by the bits of the column, and totals.
wrote_pages(0, "pages_nine_bits", page(0, 9, 2), header=BIT, entries=9)
wrote_pages(17, "pages_nine_bits_in_one_byte", page(0, 9, 1), header=BIT, entries=9)
wrote_pages(0, "pages_unknown_type", page(0, 3, 2), header=UNKNOWN)
wrote_pages(17, "pages_unknown_type_in_one_byte", page(0, 3, 1), header=UNKNOWN)
wrote_pages(19, "pages_total_4_of_5", page(0, 4, 16))
wrote_pages(19, "pages_total_6_of_5", page(0, 3, 12) + page(0, 3, 12))
wrote_pages(0, "pages_total_in_two", page(0, 2, 8) + page(0, 3, 12))
wrote_pages(19, "pages_total_of_no_pages")
wrote_pages(0, "pages_no_pages_no_entries", entries=0)
wrote_pages(19, "pages_total_of_64_bits", page(0, 5, 20), entries=2**32 + 5)
wrote_pages(19, "pages_total_without_room", page(0, 4, 16), room=0)
wrote_pages(19, "pages_total_with_room", page(0, 4, 16), room=200)
wrote_pages(0, "pages_second_column_is_not_totalled", FIVE + page(1, 3, 3), header=TWO)
wrote_pages(19, "pages_first_column_is_totalled", page(0, 3, 12) + page(1, 5, 5), header=TWO)
for label, number, fields in (
    ("repetitive_field", 0, field(0, 1, 2)), ("alias_field", 0, field(0, 2)), ("child", 0, field(1) + field(1)), ("later_top", 19, field(0) + field(1)),
):  # fmt: skip
    on_field = 1 if label == "later_top" else 0
    wrote_pages(number, f"pages_{label}_total", page(0, 3, 12), header=Header(fields=fields, columns=column(on_field=on_field)))

# Counts: 10 at the list whose count takes the running total past 16,384; where the length is too much, 1 and nothing else.
wrote_pages(0, "pages_16384", Times(16384, page(0, 0, 0)), entries=0)
wrote_pages(10, "pages_16385", Times(16385, page(0, 0, 0)), entries=0)
wrote_pages(10, "pages_16385_before_the_first", Times(16385, page(0, 2**30, 0)), entries=0)
wrote_pages(10, "pages_of_1048568_bytes", Times(65534, page(0, 0, 0)))
wrote_pages(1, "pages_of_1048584_bytes", Times(65535, page(0, 0, 0)))
wrote_pages(1, "pages_too_long_before_order", Times(65535, page(1, 0, 0)))

# The header's refusals come first, with envelope 1.
for label, (number, content, zeros) in REFUSED_HEADERS.items():
    wrote_pages(number, f"pages_beside_{label}", FIVE, refusal_in=number, bytes_beside=content, zeros=zeros)
wrote_pages(15, "pages_beside_a_circle_of_no_column", page(9, 5, 20), refusal_in=15, bytes_beside=CIRCLE)
wrote_pages(15, "pages_beside_a_circle_no_room", refusal_in=15, bytes_beside=CIRCLE, room=0)


if __name__ == "__main__":
    write_files(HERE, CASES)
