"""The parts of an envelope, and the files of a program that runs cases: for envelope_cases, write_cases, list_cases, column_cases, figure_cases
and figures."""

import os
import shutil
import struct
import zlib

LONGEST = 1048576
# In the row of a cluster whose footer carries no checksums of page lists.
NONE = 1 << 32
# The code where too few result words are lent.
TOO_SHORT = 4294967295
# Of more lent bytes checksums are shown.
SHOWN_BYTES = 128
# The bits of each column type.
BITS = dict(enumerate([64, 32, 96, 8, 8, 1, 64, 32, 16, 64, 32, 16, 8, 64, 32, 64, 32, 16, 64, 32, 16, 64, 32, 16, 8, 64, 32, 16], 1))
assert BITS[0x1C] == 16 and BITS[0x1B] == 32 and len(BITS) == 28


def u16(n):
    return struct.pack("<H", n)


def u32(n):
    return struct.pack("<I", n)


def u64(n):
    return struct.pack("<Q", n)


def words_of(numbers):
    return b"".join(u64(n) for n in numbers)


def rows_of(words, table_words):
    """The whole rows of a table; the words left over are none."""
    return [table_words[i : i + words] for i in range(0, len(table_words) - words + 1, words)]


def summed(content):
    """Bytes with their checksum behind them."""
    return content + u32(zlib.crc32(content))


def envelope(payload, version=1, minimum=1):
    return summed(u16(version) + u16(minimum) + payload)


def string(text=b""):
    return u32(len(text)) + text


def record(content):
    return struct.pack("<i", 4 + len(content)) + content


def items(members, more=0, count=None, spare=b""):
    """A list frame; `more` is how much its size says beside what it has, and `count` is given where it is not the number of members."""
    content = b"".join(members) + spare
    return struct.pack("<i", -(8 + len(content) + more)) + u32(len(members) if count is None else count) + content


EMPTY = items([])


def checksum_of(content):
    return content[-4:]


def flipped(content, place):
    return content[:place] + bytes([content[place] ^ 0x01]) + content[place + 1 :]


# What is printed.


def table(words, rows=(), old=9):
    """How a lent table of so many words is printed, with these words in front."""
    return " |" + "".join(f" {w}" for w in list(rows) + [old] * (words - len(rows)))


def page_bytes(room, content=b""):
    """How so many lent bytes are printed, with these in front."""
    return " |" + "".join(f" {b:02x}" for b in content + b"\xee" * (room - len(content)))


def printed(code, written, room, result_words):
    """How a call that writes bytes is printed: the answer, the result and the lent bytes, or two checksums of these where they are many."""
    if result_words == 0:
        code, written = TOO_SHORT, b""
    line = f" refused {code // 256} {code % 256}" if code else " accepted"
    line += table(result_words, (len(written),) if result_words else ())
    if room <= SHOWN_BYTES:
        return line + page_bytes(room, written)
    # Of an envelope with its own checksum the checksum is always the same.
    front, rest = written[:-4], written[-4:] + b"\xee" * (room - len(written))
    return line + f" {zlib.crc32(front):08x} {zlib.crc32(rest):08x}"


def write_files(folder, cases):
    """The cases in data/, the list of them in args, and what is to be printed for them in stdout. A case is its name, its bytes and its line."""
    names = [name for name, _, _ in cases]
    assert len(set(names)) == len(names)
    shutil.rmtree(os.path.join(folder, "data"), ignore_errors=True)
    os.mkdir(os.path.join(folder, "data"))
    files = {os.path.join("data", name): content for name, content, _ in cases}
    files["args"] = "".join(f"{name}\n" for name in names).encode()
    files["stdout"] = "".join(f"{name}:{line}\n" for name, _, line in cases).encode()
    for path, content in files.items():
        with open(os.path.join(folder, path), "wb") as file:
            file.write(content)
    print(f"{len(cases)} cases")
