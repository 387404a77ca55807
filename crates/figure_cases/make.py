#!/usr/bin/env python3
"""Writes the cases in data/, the list of them in args and what is to be printed for them in stdout.
A case is a report that gets page lists one after another, or a Bit page whose true elements are counted. The answers are worked out here from documents
01 and 02, from the bytes of a page list (reports.py) or a page. Beside that the figures of an accepted list are those of the pages it was made of, and
the number of each refusal is written by hand."""

import itertools
import os

# The folder of parts.py is added there.
from reports import FIGURES, MOST, MOST_COLUMNS, Header, PageList, of_pages, page, page_list, taken

from parts import EMPTY, LONGEST, TOO_SHORT, envelope, flipped, items, record, summed, table, u32, u64, words_of, write_files

HERE = os.path.dirname(os.path.abspath(__file__))

CASES = []  # (name, bytes, what is printed)

MOST_ELEMENTS = 131072
# The most words of a report that the program lends.
MOST_LENT = 4104
# The bytes of a case's numbers, and of a part's row.
NUMBER_BYTES, ROW_BYTES = 48, 32


def laid(parts, start):
    """The rows of parts of a case, and the parts. A part of zeros has more bytes than the case, and none in it."""
    rows, content = [], b""
    for part, length, *numbers in parts:
        rows.append([start + ROW_BYTES * len(parts) + len(content), length, *numbers, 0, 0][:4])
        content += part
    assert all(len(part) == length or length > 65536 for part, length, *_ in parts)
    return words_of(word for row in rows for word in row), content


def cycled(first, count):
    return list(itertools.islice(itertools.cycle(first), count))


def reported(name, header, lists, answers, room=None, first=(0,), counts=(0, 0), result_words=2, turns=None):
    """`answers` are the numbers that are due for the lists in their turn, 0 for an accepted one; `turns` are given where the lists do not come once each. With
    no room given there is a row for each column. `first` are the words that the report has at first, again from the first of them where it has
    more. Answers the counts and the report at the end."""
    turns = range(len(lists)) if turns is None else turns
    room = FIGURES * len(header.columns) if room is None else room
    assert room <= MOST_LENT and len(answers) == len(turns) and len(lists) <= 13, name
    parts = [words_of(first), words_of(3 + turn for turn in turns)]
    parts = [(part, len(part)) for part in parts] + [(header.bytes, header.length)]
    parts += [(given.bytes, given.length, given.entries, given.file_length) for given in lists]
    rows, content = laid(parts, NUMBER_BYTES)
    numbers = words_of([2, result_words, room, *counts, len(rows)])
    report, line = cycled(first, room), ""
    for number, turn in zip(answers, turns):
        refusal, after, left = taken(header, lists[turn], *counts, report)
        assert number == (refusal[1] if refusal else 0), (name, number, refusal)
        if result_words < 2:
            refusal, after, left = divmod(TOO_SHORT, 256), (), report
        line += " refused {} {}".format(*refusal) if refusal else " accepted"
        line += table(result_words, after) + table(0, left)
        counts, report = after or counts, left
    CASES.append((name, numbers + rows + content, line))
    return counts, report


def refused(number, name, header, given, **more):
    """A list that is refused."""
    return reported(name, header, [given], [number], **more)


# Headers, and the lists of their columns. A field without flags has as many elements in its first column as there are entries.
ONE_FIELD = [(0, 0)]
SMALLEST = Header()
ONE = Header(ONE_FIELD, [(0x11, 32, 0)])
BIT = Header(ONE_FIELD, [(0x06, 1, 0)])
UNKNOWN = Header(ONE_FIELD, [(0x1D, 5, 0)])
TWO = Header(ONE_FIELD, [(0x11, 32, 0), (0x0D, 8, 0)])
# A field with two columns, a repetitive one below it, an alias, a top that is the parent of one before it, and two columns of unknown type.
SEVEN = Header(
    [(0, 0), (0, 1), (2, 2), (4, 0), (4, 0)],
    [(0x0B, 32, 0), (0x0D, 8, 0), (0x06, 1, 1), (0x03, 96, 2), (0x0E, 64, 4), (0x1D, 7, 3), (0xFFFF, 65535, 4)],
)
FULL = Header(ONE_FIELD, [(0x0D, 8, 0)] * MOST_COLUMNS)


def one(*pages, entries=5, file_length=1000, **parts):
    """The list of one column, of pages in bytes."""
    return page_list(items([items(pages, **parts)]), entries=entries, file_length=file_length)


def two(first, second):
    return page_list(items([first, second]))


NOTHING = page_list()
FIVE = of_pages(ONE, [[(5, 0)]])
CHECKED = of_pages(ONE, [[(2, 1), (0, 0), (3, 1), (0, 1)]])
MIXED = of_pages(TWO, [[(2, 1), (3, 0)], [(100, 1), (0, 1), (7, 0)]])
SEVENS = [
    of_pages(SEVEN, [[(5, 0)], [(9, 1)], [(9, 0), (8, 1)], [(1, 0)], [(5, 1)], [(3, 0), (8, 0)], [(0, 0)]]),
    of_pages(SEVEN, [[(0, 1)] * 3, [], [(1, 1)] * 9, [], [], [(1, 1)], []], entries=0),
    of_pages(SEVEN, [[(4, 0), (4, 1)], [(1, 0)], [], [(2, 1)], [(8, 0)], [], [(0, 1)]], entries=8, file_length=2**64 - 1, offset=2**64 - 101),
]

# Lists that are accepted: the report from zeros, and from other words, with exactly the rows and with more words. Words left over are no row.
GOOD = {
    "no_columns": (SMALLEST, [NOTHING]),
    "one_page": (ONE, [FIVE]),
    "pages_with_and_without_checksum": (ONE, [CHECKED]),
    "no_pages": (ONE, [of_pages(ONE, [[]], entries=0)]),
    "nine_bits": (BIT, [of_pages(BIT, [[(9, 1), (8, 0)]], entries=17)]),
    "unknown_type": (UNKNOWN, [of_pages(UNKNOWN, [[(3, 0), (8, 1)]])]),
    "two_columns": (TWO, [MIXED]),
    "seven_columns": (SEVEN, SEVENS),
    "largest_pages": (BIT, [of_pages(BIT, [[(2**30 - 1, 1)] * 8], entries=8 * (2**30 - 1), file_length=2**27 + 4)]),
    "newer_version": (ONE, [page_list(items([items([page(5, 20)], spare=b"\xff")], spare=b"\xff" * 2), b"\xff" * 3, version=2)]),
    "largest_numbers": (UNKNOWN, [of_pages(UNKNOWN, [[(2**30 - 1, 1)] * 3], entries=MOST, file_length=MOST, offset=MOST - 2**30)]),
}
for label, (header, lists) in GOOD.items():
    rows, zeros = FIGURES * len(header.columns), [0] * len(lists)
    reported(label, header, lists, zeros)
    reported(f"{label}_again", header, lists, zeros * 2, turns=[*range(len(lists))] * 2, first=range(1, 30), counts=(3, 2))
    for more in (1, 3, 4, 9):
        reported(f"{label}_{more}_words_more", header, lists, zeros, room=rows + more, first=(9, MOST // 2, 9))
    for fewer in {1, 2, FIGURES, rows} - {0} if rows else ():
        reported(f"{label}_{fewer}_words_fewer", header, lists, [20] * len(lists), room=rows - fewer, first=(9,), counts=(3, 2))
FULL_LIST = of_pages(FULL, [[(5, 0)]] + [[(n % 7, n % 2)] * (n % 5) for n in range(1, MOST_COLUMNS)])
reported("columns_1024", FULL, [FULL_LIST], [0])
reported("columns_1024_3_words_more", FULL, [FULL_LIST], [0, 0], turns=(0, 0), room=4099, first=(1, 2, 3))
refused(20, "columns_1024_1_word_fewer", FULL, FULL_LIST, room=4095)
# As many pages as a list can have.
SHORT = [page(0, 0)] * 3000
reported("pages_3000", TWO, [page_list(items([items([page(5, 20)]), items(SHORT)]))], [0])

# Lists that their reader refuses, among good ones: each adds nothing, and is counted apart.
REFUSED_LISTS = {
    "zeros_1048577": (1, ONE, PageList(b"", length=LONGEST + 1)),
    "zeros_1048576": (3, ONE, PageList(b"", length=LONGEST)),
    "empty": (2, ONE, PageList(b"")),
    "seven_bytes": (2, ONE, PageList(FIVE.bytes[:7])),
    "checksum_bit": (3, ONE, PageList(flipped(FIVE.bytes, len(FIVE.bytes) - 1))),
    "content_bit": (3, ONE, PageList(flipped(FIVE.bytes, 20))),
    "minimum_0": (4, ONE, page_list(items([EMPTY]), minimum=0)),
    "minimum_above_version": (4, ONE, page_list(items([EMPTY]), minimum=2)),
    "minimum_2": (5, ONE, page_list(items([EMPTY]), version=2, minimum=2)),
    "eight_bytes": (7, ONE, page_list(b"")),
    "outer_past_its_envelope": (7, ONE, page_list(items([EMPTY], more=1))),
    "inner_past_its_list": (7, ONE, one(page(5, 20), more=1)),
    "page_missing": (7, ONE, one(page(5, 20), count=2)),
    "page_cut": (7, ONE, one(page(5, 20)[:-1])),
    "outer_is_a_record": (8, ONE, page_list(record(EMPTY))),
    "outer_is_least": (7, ONE, page_list(u32(1 << 31) + u32(1) + EMPTY)),
    "inner_is_a_record": (8, ONE, page_list(items([record(page(5, 20))]))),
    "outer_reserved": (8, ONE, page_list(items([EMPTY], count=1 << 28 | 1))),
    "inner_reserved": (8, ONE, one(page(5, 20), count=1 << 31 | 1)),
    "columns_1025": (10, ONE, page_list(items([EMPTY], count=1025))),
    "pages_16385": (10, ONE, one(page(5, 20), count=16385)),
    "pages_16384_missing": (7, ONE, one(page(5, 20), count=16384)),
    "pages_running_total_16385": (10, TWO, two(items([page(5, 20)]), items([], count=16384))),
    "spare_in_inner": (11, ONE, one(page(5, 20), spare=b"\xff")),
    "spare_in_outer": (11, ONE, page_list(items([items([page(5, 20)])], spare=b"\xff"))),
    "spare_in_payload": (11, ONE, page_list(items([items([page(5, 20)])]), b"\xff")),
    "page_bit_31": (12, ONE, one(page(5, 20, checksum=2))),
    "second_page_bit_31": (12, ONE, one(page(5, 20), page(0, 0, checksum=3))),
    "locator_bit_31": (17, ONE, one(page(5, 1 << 31 | 20))),
    "size_19_of_20": (17, ONE, one(page(5, 19))),
    "size_with_check_bytes": (17, ONE, one(page(5, 24, checksum=1))),
    "range_one_further": (18, ONE, one(page(5, 20, 981))),
    "check_bytes_one_further": (18, ONE, one(page(5, 20, 977, 1))),
    "file_one_byte_shorter": (18, ONE, one(page(5, 20, 980), file_length=999)),
    "range_past_64_bits": (18, ONE, one(page(5, 20, MOST - 3), file_length=MOST)),
    "columns_0_of_1": (19, ONE, NOTHING),
    "columns_2_of_1": (19, ONE, MIXED),
    "columns_1_of_2": (19, TWO, FIVE),
    "columns_1_of_0": (19, SMALLEST, FIVE),
    "total_4_of_5": (19, ONE, one(page(4, 16))),
    "total_6_of_5": (19, ONE, one(page(5, 20), page(1, 4))),
    "total_of_a_later_top": (19, SEVEN, PageList(SEVENS[1].bytes, entries=1)),
    "entries_most": (19, ONE, PageList(FIVE.bytes, entries=MOST)),
    "second_column_is_refused": (17, TWO, two(items([page(5, 20)]), items([page(5, 20)]))),
}
BESIDE = {ONE: FIVE, TWO: MIXED, SEVEN: SEVENS[0], SMALLEST: NOTHING}
for label, (number, header, given) in REFUSED_LISTS.items():
    refused(number, f"refused_{label}", header, given, first=(9,), counts=(3, 2))
    reported(f"refused_{label}_among_others", header, [given, BESIDE[header]], [0, number, 0, number], turns=(1, 0, 1, 0), first=(9, 8, 7))
    refused(number, f"refused_{label}_no_report", header, given, room=0, first=(9,))

# Headers that are refused: the list makes no difference.
CIRCLE = [(1, 0), (0, 0)]
ACCEPTED = ONE.bytes
REFUSED_HEADERS = {
    "zeros_1048577": Header(refused=1, content=b"", length=LONGEST + 1),
    "zeros_1048576": Header(refused=3, content=b"", length=LONGEST),
    "empty": Header(refused=2, content=b""),
    "checksum_bit": Header(refused=3, content=flipped(ACCEPTED, len(ACCEPTED) - 1)),
    "minimum_0": Header(refused=4, minimum=0),
    "minimum_2": Header(refused=5, version=2, minimum=2),
    "feature_bit": Header(refused=6, features=u64(1)),
    "eight_bytes": Header(refused=7, content=envelope(b"")),
    "fields_past_their_envelope": Header(ONE_FIELD, refused=7, more=1000),
    "fields_reserved": Header(ONE_FIELD, refused=8, count=1 << 29 | 1),
    "name": Header([(0, 0, b"\xff")], refused=9),
    "fields_513": Header(ONE_FIELD, refused=10, count=513),
    "spare_byte": Header(ONE_FIELD, refused=11, spare=b"\xff"),
    "role_5": Header([(0, 0, b"", b"", 5)], refused=12),
    "column_bits": Header(ONE_FIELD, [(0x11, 31, 0)], refused=13),
    "parent_1_of_1": Header([(1, 0)], refused=14),
    "column_on_field_1_of_1": Header(ONE_FIELD, [(0x11, 32, 1)], refused=14),
    "circle": Header(CIRCLE, [(0x11, 32, 0)], refused=15),
}
for label, header in REFUSED_HEADERS.items():
    lists = [FIVE, NOTHING, PageList(b"")]
    reported(f"header_{label}", header, lists, [header.refused] * 3, room=FIGURES, first=(9,))
    refused(header.refused, f"header_{label}_no_report", header, NOTHING, room=0, counts=(1000, 23))

# 1,024 lists: a further one is 10, before anything else. The sum of the two counts is exact.
BAD = one(page(4, 16))
FULL_COUNTS = [(1024, 0), (0, 1024), (1000, 24), (1023, 1), (1, 1023), (1025, 0), (0, 1025), (1024, 1024), (2**32, 0), (0, 2**32)]
FULL_COUNTS += [(2**63, 2**63), (2**63, 2**63 + 5), (MOST, 0), (0, MOST), (MOST, 1), (1, MOST), (MOST, MOST), (MOST, 1024), (2**64 - 512, 512)]
for counts in FULL_COUNTS:
    label = f"lists_{counts[0]}_and_{counts[1]}"
    refused(10, label, ONE, FIVE, counts=counts, first=(9,))
    refused(10, f"{label}_a_list_that_is_refused", ONE, BAD, counts=counts, first=(9,))
    refused(10, f"{label}_no_report", ONE, FIVE, counts=counts, room=0)
for label, header in REFUSED_HEADERS.items():
    refused(10, f"lists_1024_header_{label}", header, FIVE, counts=(512, 512), room=FIGURES, first=(9,))
for counts in [(1023, 0), (0, 1023), (512, 511), (1022, 1)]:
    label = f"lists_{counts[0]}_and_{counts[1]}"
    reported(f"{label}_one_more", ONE, [FIVE, FIVE], [0, 10], counts=counts)
    reported(f"{label}_one_more_refused", ONE, [BAD, FIVE, BAD], [19, 10, 10], counts=counts)
    reported(f"{label}_one_more_not_counted", ONE, [FIVE, BAD, FIVE], [20, 19, 10], counts=counts, room=3)
THOUSAND = [19 if n % 5 == 3 else 0 for n in range(1024)]
reported("lists_1025_in_turn", ONE, [CHECKED, BAD], THOUSAND + [10] * 3, turns=[1 if answer == 19 else 0 for answer in THOUSAND] + [0, 1, 0])

# A figure past 64 bits: any of them, and then nothing is added and the list is not counted. MIXED adds these.
ADDED = [2, 5, 20, 1, 3, 107, 107, 2]
for place, more in enumerate(ADDED):
    fits, passes = [0] * 8, [5] * 8
    fits[place], passes[place] = MOST - more, MOST - more + 1
    reported(f"sum_fits_at_{place}", TWO, [MIXED], [0], first=fits)
    refused(10, f"sum_passes_at_{place}", TWO, MIXED, first=passes, counts=(3, 2))
    reported(f"sum_fits_once_at_{place}", TWO, [MIXED], [0, 10, 10], first=fits, turns=(0, 0, 0))
reported("sum_fits_at_all", TWO, [MIXED], [0], first=[MOST - more for more in ADDED])
refused(10, "sum_passes_at_all", TWO, MIXED, first=[MOST] * 8)
refused(10, "sum_passes_at_all_words_more", TWO, MIXED, first=[MOST] * 11, room=11)
reported("sum_words_beyond_stay", TWO, [MIXED], [0], first=[0] * 8 + [MOST] * 3, room=11)
reported("sum_of_nothing_fits", TWO, [of_pages(TWO, [[], []], entries=0)], [0], first=[MOST])
reported("sum_of_empty_pages_fits", ONE, [of_pages(ONE, [[(0, 0)]], entries=0)], [0], first=[MOST - 1, MOST, MOST, MOST])
refused(10, "sum_of_an_empty_page_passes", ONE, of_pages(ONE, [[(0, 0)]], entries=0), first=[MOST, 0, 0, 0])
refused(10, "sum_of_a_checksum_passes", ONE, of_pages(ONE, [[(0, 1)]], entries=0), first=[0, 0, 0, MOST])
reported("sum_passes_and_then_not", ONE, [CHECKED, FIVE], [10, 0, 10], first=[MOST - 3, 0, 0, 0], turns=(0, 1, 0))

# The order: the reader's refusal, then too few rows, then a figure past 64 bits.
refused(19, "order_refused_and_no_room", ONE, BAD, room=3, first=[MOST])
refused(19, "order_refused_and_a_sum_that_passes", ONE, one(page(6, 24)), first=[MOST])
refused(20, "order_no_room_and_a_sum_that_passes", ONE, FIVE, room=3, first=[MOST])
refused(20, "order_room_for_one_of_two_and_a_sum_that_passes", TWO, MIXED, room=7, first=[MOST])
refused(10, "order_lists_and_no_room_and_a_sum_that_passes", TWO, MIXED, room=7, first=[MOST], counts=(1024, 0))

# Any order of the lists gives the same report and counts.
ONE_OF_EACH = [SEVENS[0], SEVENS[1], PageList(SEVENS[2].bytes, entries=9, file_length=MOST), SEVENS[2]]
ENDS = []
for turns in itertools.permutations(range(4)):
    label = "".join(map(str, turns))
    ENDS.append(reported(f"order_of_lists_{label}", SEVEN, ONE_OF_EACH, [0 if turn != 2 else 19 for turn in turns], turns=turns, room=29))
assert all(end == ENDS[0] for end in ENDS) and ENDS[0][0] == (3, 1)
NO_ROOM = [reported(f"order_of_lists_no_room_{turns[0]}", SEVEN, ONE_OF_EACH, [20 if turn != 2 else 19 for turn in turns], turns=turns, room=27) for turns in ((0, 1, 2, 3), (3, 2, 1, 0))]
assert NO_ROOM == [((0, 1), [0] * 27)] * 2

# Results of other lengths. With fewer than two words nothing is written at all; those beyond the second stay.
for result_words in (0, 1, 3, 4):
    label = f"result_{result_words}"
    reported(label, ONE, [FIVE, CHECKED], [0, 0], result_words=result_words)
    for number, which, header, given, counts in (
        (19, "list_refused", ONE, BAD, (0, 0)),
        (15, "header_refused", REFUSED_HEADERS["circle"], FIVE, (0, 0)),
        (20, "no_room", TWO, MIXED, (0, 0)),
        (10, "lists_1024", ONE, FIVE, (1024, 0)),
    ):
        refused(number, f"{label}_{which}", header, given, counts=counts, room=FIGURES, result_words=result_words)

# True elements of Bit pages.


def count_faults(elements, checksum, content):
    """The numbers of what is wrong with a page, in the order in which they are looked for: the first is the answer."""
    size = (elements + 7) // 8
    faults = {
        10: elements > MOST_ELEMENTS,
        21: len(content) != size + (4 if checksum else 0),
        22: checksum and summed(content[:-4]) != content,
        24: int.from_bytes(content[:size], "little") >> elements if elements <= MOST_ELEMENTS else False,
    }
    return [number for number, is_given in faults.items() if is_given]


def counted(name, elements, content, number=0, checksum=0, result_words=1, due=None):
    """`number` is that of the answer; `due` is how many elements are true, as the page was made."""
    faults = count_faults(elements, checksum, content)
    assert number == (faults[0] if faults else 0), (name, faults)
    count = 0 if number else sum(content[i // 8] >> i % 8 & 1 for i in range(elements))
    assert due in (None, count), (name, count)
    code = TOO_SHORT if result_words == 0 else 4 * 256 + number if number else 0
    line = f" refused {code // 256} {code % 256}" if code else " accepted"
    line += table(result_words, (count,) if result_words else ())
    CASES.append((name, words_of([1, result_words, elements, checksum, 0, 0]) + content, line))


def bits(values):
    return bytes(sum(v << i for i, v in enumerate(values[at : at + 8])) for at in range(0, len(values), 8))


SIZES = (0, 1, 7, 8, 9, 33, 56, 57, 63, 64, 65, 127, 128, 129, 1000)
PATTERNS = {"none": lambda i: 0, "all": lambda i: 1, "some": lambda i: i * i // 5 % 7 % 2}
for n in SIZES:
    for label, value in PATTERNS.items():
        values = [value(i) for i in range(n)]
        counted(f"true_{label}_of_{n}", n, bits(values), due=sum(values))
        counted(f"true_{label}_of_{n}_with_checksum", n, summed(bits(values)), checksum=1, due=sum(values))
    some = bits([value(i) for i in range(n)])
    counted(f"true_{n}_one_byte_more", n, some + b"\x00", 21)
    counted(f"true_{n}_check_bytes_too_many", n, summed(some), 21)
    counted(f"true_{n}_no_check_bytes", n, some, 21, checksum=1)
    counted(f"true_{n}_checksum_differs", n, flipped(summed(some), len(some)), 22, checksum=1)
    counted(f"true_{n}_checksum_differs_at_its_end", n, flipped(summed(some), len(some) + 3), 22, checksum=1)
    if n:
        counted(f"true_{n}_one_byte_fewer", n, some[:-1], 21)
        counted(f"true_{n}_content_differs", n, flipped(summed(some), len(some) - 1), 22, checksum=1)
    for which, bit in {"first": n % 8, "last": 7}.items() if n % 8 else ():
        unused = some[:-1] + bytes([some[-1] | 1 << bit])
        counted(f"true_{n}_{which}_unused_bit", n, unused, 24)
        counted(f"true_{n}_{which}_unused_bit_with_checksum", n, summed(unused), 24, checksum=1)
        counted(f"true_{n}_{which}_unused_bit_and_checksum_differs", n, flipped(summed(unused), len(unused)), 22, checksum=1)
# Each bit of ten bytes in turn, by itself and alone missing.
for i in range(0, 80, 3):
    counted(f"true_only_bit_{i}", 80, (1 << i).to_bytes(10, "little"), due=1)
    counted(f"true_all_but_bit_{i}", 80, (2**80 - 1 - (1 << i)).to_bytes(10, "little"), due=79)

# As many elements as a call takes.
MANY = b"\x01\x80\xff\x00\x55" * 3276 + b"\xfe\x7f\x10\x03"
assert len(MANY) == 16384
counted("true_131072", MOST_ELEMENTS, MANY)
counted("true_131072_all_with_checksum", MOST_ELEMENTS, summed(b"\xff" * 16384), checksum=1, due=131072)
counted("true_131072_checksum_differs", MOST_ELEMENTS, flipped(summed(MANY), 9), 22, checksum=1)
counted("true_131071", MOST_ELEMENTS - 1, b"\xff" * 16383 + b"\x7f", due=131071)
counted("true_131071_unused_bit", MOST_ELEMENTS - 1, b"\xff" * 16384, 24)
counted("true_131073", MOST_ELEMENTS + 1, MANY + b"\x01", 10)
for label, n in {"131073": MOST_ELEMENTS + 1, "2_to_32": 2**32, "2_to_32_and_8": 2**32 + 8, "2_to_35_and_8": 2**35 + 8, "2_to_63": 2**63, "most": MOST}.items():
    counted(f"true_{label}_of_one_byte", n, b"\x03", 10)
    counted(f"true_{label}_of_none_with_checksum", n, summed(b""), 10, checksum=1)
    counted(f"true_{label}_checksum_differs", n, bytes([1] * 5), 10, checksum=1)

# Any number but 0 says that a checksum follows.
for checksum in (0, 1, 2, 255, 256, 65536, 2**31, 2**32 - 1):
    counted(f"true_checksum_number_{checksum}", 9, summed(b"\x05\x01") if checksum else b"\x05\x01", checksum=checksum, due=3)
    counted(f"true_checksum_number_{checksum}_none_there", 9, b"\x05\x01" if checksum else summed(b"\x05\x01"), 21, checksum=checksum)
    if checksum:
        counted(f"true_checksum_number_{checksum}_differs", 9, flipped(summed(b"\x05\x01"), 4), 22, checksum=checksum)

# Document 01's page, the order of the numbers, and results of other lengths.
counted("true_vector", 9, b"\x01\x01", due=2)
counted("true_vector_unused_bit", 9, b"\x01\x03", 24)
counted("true_order_21_22", 9, flipped(summed(b"\x01\x01\x00"), 3), 21, checksum=1)
counted("true_order_21_24", 9, b"\x01\x03\x00", 21)
counted("true_order_21_24_check_bytes", 9, b"\x01\x83\x00\x00\x00", 21, checksum=1)
for result_words in (0, 2, 4):
    counted(f"true_result_{result_words}", 9, b"\x01\x01", result_words=result_words)
    for number, n, content in ((10, MOST, b""), (21, 9, b""), (24, 9, b"\x01\x03")):
        counted(f"true_refused_{number}_result_{result_words}", n, content, number, result_words=result_words)
    counted(f"true_refused_22_result_{result_words}", 9, bytes(6), 22, checksum=1, result_words=result_words)

if __name__ == "__main__":
    write_files(HERE, CASES)
    assert all(len(content) <= 65536 for _, content, _ in CASES)
