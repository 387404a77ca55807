"""Page lists beside a header, and a report over them, as documents 01 and 02 have them: for figure_cases and figures. A list is read from its bytes;
nothing here reads a header."""

import os
import struct
import sys

sys.path.insert(0, os.path.join(os.path.dirname(os.path.abspath(__file__)), "..", "envelope_cases"))

from parts import BITS, EMPTY, LONGEST, envelope, items, record, string, summed, u16, u32, u64

MOST = 2**64 - 1
MOST_LISTS, MOST_COLUMNS, MOST_PAGES = 1024, 1024, 16384
# The words of a report's row.
FIGURES = 4


class Refused(Exception):
    """The envelope and the number of a refusal."""

    def tell(self):
        return self.args


def refuse_if(refused, number, place=3):
    if refused:
        raise Refused(place, number)


# A header, and a page list beside it.


def field(parent, flags=0, name=b"f", spare=b"", role=0):
    repetition = u64(2) if flags & 1 else b""
    return record(u32(1) + u32(2) + u32(parent) + u16(role) + u16(flags) + repetition + string(name) + string() * 3 + spare)


def column(column_type, bits, on_field, flags=0):
    return record(u16(column_type) + u16(bits) + u32(on_field) + u32(flags))


class Header:
    """`fields` are parents with flags and perhaps a name, `columns` are types, bits and fields. A header that is refused is made with its number."""

    def __init__(self, fields=(), columns=(), refused=0, content=None, length=None, features=u64(0), spare=b"", version=1, minimum=1, **parts):
        self.fields, self.columns, self.refused = fields, columns, refused
        lists = items([field(*words) for words in fields], **parts) + items([column(*words) for words in columns]) + EMPTY
        made = envelope(features + string(b"events") + string() + lists + spare, version, minimum)
        self.bytes = made if content is None else content
        self.length = len(self.bytes) if length is None else length

    def totalled(self):
        """The columns that have as many elements as the cluster has entries."""
        for number, (parent, flags, *_) in enumerate(self.fields):
            on_field = [n for n, (_, _, on) in enumerate(self.columns) if on == number]
            if parent == number and not flags & 3 and on_field and self.columns[on_field[0]][0] in BITS:
                yield on_field[0]


class PageList:
    """A page list as bytes, with the entry count and the file length that its reader gets."""

    def __init__(self, content, entries=5, file_length=1000, length=None):
        self.bytes, self.entries, self.file_length = content, entries, file_length
        self.length = len(content) if length is None else length


def page(elements, size, offset=0, checksum=0):
    return u32(checksum << 30 | elements) + u32(size) + u64(offset)


class Container:
    """Bytes that are read from a place on to their end."""

    def __init__(self, content, strict):
        self.content, self.at, self.strict = content, 0, strict

    def take(self, count):
        refuse_if(self.at + count > len(self.content), 7)
        self.at += count
        return self.content[self.at - count : self.at]

    def number(self, count):
        return int.from_bytes(self.take(count), "little")

    def list_frame(self, most):
        start = self.at
        size = -struct.unpack("<i", self.take(4))[0]
        refuse_if(size < 8, 8)
        refuse_if(start + size > len(self.content), 7)
        word = self.number(4)
        refuse_if(word >> 28, 8)
        refuse_if(word > most, 10)
        self.at = start + size
        return Container(self.content[start + 8 : self.at], self.strict), word

    def end(self):
        refuse_if(self.strict and self.at < len(self.content), 11)


def pages_in(header, listed):
    """Of each column the elements, size and bit 30 of its pages."""
    refuse_if(listed.length > LONGEST, 1)
    content = listed.bytes if listed.length == len(listed.bytes) else bytes(listed.length)
    refuse_if(len(content) < 8, 2)
    refuse_if(summed(content[:-4]) != content, 3)
    version, minimum = struct.unpack("<HH", content[:4])
    refuse_if(minimum == 0 or minimum > version, 4)
    refuse_if(minimum > 1, 5)
    payload = Container(content[4:-4], version == minimum)
    outer, count = payload.list_frame(MOST_COLUMNS)
    refuse_if(count != len(header.columns), 19)
    left, columns = MOST_PAGES, []
    for _, bits, _ in header.columns:
        inner, count = outer.list_frame(left)
        left -= count
        columns.append([page_in(inner, bits, listed.file_length) for _ in range(count)])
        inner.end()
    outer.end()
    payload.end()
    for number in header.totalled():
        refuse_if(sum(elements for elements, _, _ in columns[number]) != listed.entries, 19)
    return columns


def page_in(inner, bits, file_length):
    word = inner.number(4)
    refuse_if(word >> 31, 12)
    elements, checksum = word % 2**30, word >> 30
    size = inner.number(4)
    refuse_if(size >> 31, 17)
    refuse_if(size != (elements * bits + 7) // 8, 17)
    refuse_if(inner.number(8) + size + 4 * checksum > file_length, 18)
    return elements, size, checksum


# A report.


def figures_of(pages):
    """The words of a row."""
    return [len(pages)] + [sum(numbers) for numbers in zip(*pages)] if pages else [0] * FIGURES


def taken(header, listed, accepted, refused, report):
    """The envelope and number of the answer, the two counts, and the report as the call leaves it."""
    if accepted + refused >= MOST_LISTS:
        return (3, 10), (accepted, refused), report
    try:
        refuse_if(header.refused, header.refused, 1)
        columns = pages_in(header, listed)
    except Refused as refusal:
        return refusal.tell(), (accepted, refused + 1), report
    figures = [word for pages in columns for word in figures_of(pages)]
    sums = [old + more for old, more in zip(report, figures)]
    if len(report) // FIGURES < len(columns):
        return (3, 20), (accepted, refused), report
    if any(word > MOST for word in sums):
        return (3, 10), (accepted, refused), report
    return None, (accepted + 1, refused), sums + report[len(sums) :]


# A list that is made.


def page_list(columns=EMPTY, spare=b"", version=1, minimum=1, **more):
    return PageList(envelope(columns + spare, version, minimum), **more)


def of_pages(header, columns, entries=5, file_length=1000, offset=0):
    """A list of the columns' pages, each by its elements and bit 30. The figures are told from these."""
    sized = [[(n, (n * bits + 7) // 8, checksum) for n, checksum in pages] for pages, (_, bits, _) in zip(columns, header.columns)]
    made = page_list(items([items([page(n, size, offset, checksum) for n, size, checksum in pages]) for pages in sized]), entries=entries, file_length=file_length)
    figures = [word for pages in columns for word in (len(pages), sum(n for n, _ in pages), 0, sum(checksum for _, checksum in pages))]
    for number, (pages, (_, bits, _)) in enumerate(zip(columns, header.columns)):
        figures[FIGURES * number + 2] = sum(-(-n * bits // 8) for n, _ in pages)
    assert [word for pages in pages_in(header, made) for word in figures_of(pages)] == figures
    return made
