/* Null pointers with count 0: every call takes them wherever nothing need be read or written; moves along chains; envelopes written
   and read back; listings of fields; columns; reports of page lists; counts of true elements; and the constants of the header. */
#include "rntuple_check.h"
#include <stdio.h>
#include <string.h>

static int failed, passed;

static void same(const char *what, uint64_t got, uint64_t due) {
    if (got == due) {
        passed++;
        return;
    }
    failed++;
    printf("%s: %llu, not %llu\n", what, (unsigned long long)got, (unsigned long long)due);
}

static uint8_t header[48], footer[52], page_list[16];

static void seal(uint8_t *envelope, size_t length) {
    envelope[0] = 1;
    envelope[2] = 1;
    uint32_t sum = rnt_crc32(envelope, length - 4);
    for (int i = 0; i < 4; i++) envelope[length - 4 + i] = (uint8_t)(sum >> 8 * i);
}

static void empty_lists(uint8_t *at, int count) {
    for (int i = 0; i < count; i++) memcpy(at + 8 * i, "\xf8\xff\xff\xff\0\0\0\0", 8);
}

/* The smallest envelopes that are accepted. */
static void write_envelopes(void) {
    empty_lists(header + 20, 3);
    seal(header, sizeof header);
    memcpy(footer + 12, header + 44, 4);
    empty_lists(footer + 16, 4);
    seal(footer, sizeof footer);
    empty_lists(page_list + 4, 1);
    seal(page_list, sizeof page_list);
}

static void headers(void) {
    uint64_t result[7];
    memset(result, 9, sizeof result);
    same("no header", rnt_read_header(NULL, 0, NULL, 0, NULL, 0, NULL, 0, result, 7), 256 + 2);
    for (int i = 0; i < 7; i++) same("no header, a result word", result[i], 0);
    same("header without tables", rnt_read_header(header, sizeof header, NULL, 0, NULL, 0, NULL, 0, result, 7), 0);
    same("place of the name", result[0], 16);
    same("place of the description", result[2], 20);
    same("fields", result[4], 0);
    same("header without a result", rnt_read_header(NULL, 0, NULL, 0, NULL, 0, NULL, 0, NULL, 0), RNT_RESULT_TOO_SHORT);
}

/* The bytes of a field record whose strings are empty; its parent stands at byte 12. */
#define FIELD_BYTES 36

static uint8_t chain[sizeof header + (RNT_MOST_FIELDS + 1) * FIELD_BYTES];

static void put(uint8_t *at, uint32_t number) {
    for (int i = 0; i < 4; i++) at[i] = (uint8_t)(number >> 8 * i);
}

/* Writes a header with so many fields; parent gives the parent of each. Gives its length. */
static size_t write_fields(uint32_t count, uint32_t (*parent)(uint32_t field, uint32_t count)) {
    size_t length = sizeof header + (size_t)count * FIELD_BYTES;
    memset(chain, 0, length);
    put(chain + 20, (uint32_t)-(8 + count * FIELD_BYTES));
    put(chain + 24, count);
    for (uint32_t i = 0; i < count; i++) {
        uint8_t *field = chain + 28 + i * FIELD_BYTES;
        put(field, FIELD_BYTES);
        put(field + 12, parent(i, count));
    }
    empty_lists(chain + 28 + count * FIELD_BYTES, 2);
    seal(chain, length);
    return length;
}

static uint32_t before(uint32_t field, uint32_t count) { return (void)count, field > 0 ? field - 1 : 0; }
static uint32_t after(uint32_t field, uint32_t count) { return field + 1 < count ? field + 1 : field; }
static uint32_t itself(uint32_t field, uint32_t count) { return (void)count, field; }
static uint32_t last(uint32_t field, uint32_t count) { return (void)field, count - 1; }
static uint32_t around(uint32_t field, uint32_t count) { return (field + 1) % count; }
static uint32_t beyond(uint32_t field, uint32_t count) { return (void)field, count; }

static void moves(void) {
    uint64_t result[3] = {9, 9, 9};
    same("moves, no header", rnt_parent_moves(NULL, 0, result, 1), 256 + 2);
    same("moves, no header, their sum", result[0], 0);
    result[0] = 9;
    same("moves of no fields", rnt_parent_moves(header, sizeof header, result, 1), 0);
    same("moves of no fields, their sum", result[0], 0);
    same("moves without a header and a result", rnt_parent_moves(NULL, 0, NULL, 0), RNT_RESULT_TOO_SHORT);
    same("moves without a result", rnt_parent_moves(header, sizeof header, NULL, 0), RNT_RESULT_TOO_SHORT);
    result[0] = 9;
    same("moves, a result of no words", rnt_parent_moves(header, sizeof header, result, 0), RNT_RESULT_TOO_SHORT);
    same("moves, a result of no words, what stands there", result[0], 9);

    const struct {
        const char *name;
        uint32_t count;
        uint32_t (*parent)(uint32_t field, uint32_t count);
        uint32_t answer;
        uint64_t sum;
    } cases[] = {
        {"moves of one field", 1, before, 0, 0},
        {"moves of two fields", 2, before, 0, 1},
        {"moves of two fields, the second on top", 2, after, 0, 1},
        {"moves of a chain of five", 5, after, 0, 10},
        {"moves of a chain", RNT_MOST_FIELDS, before, 0, 130816},
        {"moves of a chain, the last on top", RNT_MOST_FIELDS, after, 0, 130816},
        {"moves of tops", RNT_MOST_FIELDS, itself, 0, 0},
        {"moves to the last", RNT_MOST_FIELDS, last, 0, RNT_MOST_FIELDS - 1},
        {"moves in a circle", 2, around, 256 + 15, 0},
        {"moves in the longest circle", RNT_MOST_FIELDS, around, 256 + 15, 0},
        {"moves to no field", 1, beyond, 256 + 14, 0},
        {"moves of too many fields", RNT_MOST_FIELDS + 1, before, 256 + 10, 0},
    };
    for (size_t i = 0; i < sizeof cases / sizeof *cases; i++) {
        size_t length = write_fields(cases[i].count, cases[i].parent);
        for (size_t words = 1; words <= 3; words++) {
            result[0] = result[1] = result[2] = 9;
            same(cases[i].name, rnt_parent_moves(chain, length, result, words), cases[i].answer);
            same(cases[i].name, result[0], cases[i].sum);
            same("moves, the words behind", result[1] + result[2], 18);
        }
        result[0] = 9;
        same(cases[i].name, rnt_parent_moves(chain, length, result, 0), RNT_RESULT_TOO_SHORT);
        same("moves, no words", result[0], 9);
        chain[length - 5] ^= 1;
        same("moves, another checksum", rnt_parent_moves(chain, length, result, 1), 256 + 3);
        same("moves, another checksum, their sum", result[0], 0);
    }
}

static void footers(void) {
    uint64_t result[2] = {9, 9};
    same("footer, no header", rnt_read_footer(NULL, 0, footer, sizeof footer, 0, NULL, 0, NULL, 0, result, 2), 256 + 2);
    same("no footer", rnt_read_footer(header, sizeof header, NULL, 0, 0, NULL, 0, NULL, 0, result, 2), 512 + 2);
    same("no footer, a count", result[0] + result[1], 0);
    same("footer without tables", rnt_read_footer(header, sizeof header, footer, sizeof footer, 0, NULL, 0, NULL, 0, result, 2), 0);
    same("footer without a result", rnt_read_footer(NULL, 0, NULL, 0, 0, NULL, 0, NULL, 0, NULL, 0), RNT_RESULT_TOO_SHORT);
}

static void page_lists(void) {
    uint64_t result[1] = {9};
    same("page list, no header", rnt_read_page_list(NULL, 0, page_list, sizeof page_list, 0, 0, NULL, 0, result, 1), 256 + 2);
    same("no page list", rnt_read_page_list(header, sizeof header, NULL, 0, 0, 0, NULL, 0, result, 1), 768 + 2);
    same("no page list, its count", result[0], 0);
    same("page list without a table", rnt_read_page_list(header, sizeof header, page_list, sizeof page_list, 0, 0, NULL, 0, result, 1), 0);
    same("page list without a result", rnt_read_page_list(NULL, 0, NULL, 0, 0, 0, NULL, 0, NULL, 0), RNT_RESULT_TOO_SHORT);
}

static void paired_page_lists(void) {
    uint64_t result[1] = {9}, own = 0;
    for (int i = 0; i < 4; i++) own |= (uint64_t)page_list[sizeof page_list - 4 + i] << 8 * i;
    same("pairing, no header", rnt_read_paired_page_list(NULL, 0, page_list, sizeof page_list, 0, own ^ 1, 0, NULL, 0, result, 1), 256 + 2);
    same("pairing, no page list", rnt_read_paired_page_list(header, sizeof header, NULL, 0, 0, 0, 0, NULL, 0, result, 1), 768 + 2);
    same("pairing, no page list, its count", result[0], 0);
    const uint64_t right[] = {own, RNT_NO_CHECKSUM};
    const uint64_t wrong[] = {own ^ 1, own + RNT_NO_CHECKSUM, RNT_NO_CHECKSUM - 1, RNT_NO_CHECKSUM + 1, 0, UINT64_MAX};
    for (size_t i = 0; i < sizeof right / sizeof *right; i++)
        same("pairing without a table", rnt_read_paired_page_list(header, sizeof header, page_list, sizeof page_list, 0, right[i], 0, NULL, 0, result, 1), 0);
    for (size_t i = 0; i < sizeof wrong / sizeof *wrong; i++) {
        result[0] = 9;
        same("pairing, another checksum", rnt_read_paired_page_list(header, sizeof header, page_list, sizeof page_list, 0, wrong[i], 0, NULL, 0, result, 1), 768 + 26);
        same("pairing, another checksum, its count", result[0], 0);
    }
    same("pairing without a result", rnt_read_paired_page_list(NULL, 0, NULL, 0, 0, 0, 0, NULL, 0, NULL, 0), RNT_RESULT_TOO_SHORT);
}

/* The bytes that are lent to a writer; what it does not write stays. */
#define OUT_BYTES 512
#define OUT_OLD 0xA5

static uint8_t out[OUT_BYTES];

static void clear_out(void) { memset(out, OUT_OLD, sizeof out); }

/* Whether all bytes from this one on are as they were. */
static int kept(size_t from) {
    for (size_t i = from; i < sizeof out; i++)
        if (out[i] != OUT_OLD) return 0;
    return 1;
}

/* A call that writes into the first so many bytes of out, with so many result words. */
typedef uint32_t (*writer)(size_t out_length, uint64_t *result, size_t result_words);

/* What is due of a writer: an envelope, or an answer, for rooms from none to more than enough and for results of any length. */
static void written(const char *name, writer write, const uint8_t *envelope, size_t length, uint32_t answer, uint32_t short_of_room) {
    uint64_t result[3];
    const size_t rooms[] = {0, 1, length / 2, length ? length - 1 : 2, length, length + 1, sizeof out};
    for (size_t i = 0; i < sizeof rooms / sizeof *rooms; i++) {
        size_t room = rooms[i];
        uint32_t due = answer != 0 ? answer : room < length ? short_of_room : 0;
        for (size_t words = 0; words <= 3; words++) {
            result[0] = result[1] = result[2] = 9;
            clear_out();
            same(name, write(room, result, words), words == 0 ? RNT_RESULT_TOO_SHORT : due);
            int accepted = words > 0 && due == 0;
            same("written bytes", result[0], words == 0 ? 9 : accepted ? length : 0);
            same("words behind the result", result[1] + result[2], 18);
            if (accepted) same("the envelope", memcmp(out, envelope, length), 0);
            same("bytes that are not written", kept(accepted ? length : 0), 1);
        }
    }
}

/* The calls with nothing lent but the header. */
static uint32_t no_header_tables(size_t out_length, uint64_t *result, size_t result_words) {
    return rnt_write_header(NULL, 0, 0, 0, 0, 0, NULL, 0, NULL, 0, NULL, 0, out_length ? out : NULL, out_length, result, result_words);
}

static uint32_t no_footer_tables(size_t out_length, uint64_t *result, size_t result_words) {
    return rnt_write_footer(header, sizeof header, 0, NULL, 0, NULL, 0, out_length ? out : NULL, out_length, result, result_words);
}

static uint32_t no_pages(size_t out_length, uint64_t *result, size_t result_words) {
    return rnt_write_page_list(header, sizeof header, 0, 0, NULL, 0, out_length ? out : NULL, out_length, result, result_words);
}

static uint32_t footer_of_nothing(size_t out_length, uint64_t *result, size_t result_words) {
    return rnt_write_footer(NULL, 0, 0, NULL, 0, NULL, 0, out, out_length, result, result_words);
}

static uint32_t page_list_of_nothing(size_t out_length, uint64_t *result, size_t result_words) {
    return rnt_write_page_list(NULL, 0, 0, 0, NULL, 0, out, out_length, result, result_words);
}

/* A header of two fields, two columns and an alias; words behind the last row are no row. */
static const uint8_t strings[] = "pxs";
static uint64_t texts[4] = {0, 2, 2, 1};
static uint64_t fields[2 * RNT_FIELD_WORDS + 14] = {
    1, 2, 0, 0, 0, 9, 0, 1, 1, 1, 3, 0, 0, 3, 1, /* its repetition and its dark mark are not written */
    3, 4, 0, 1, 3, 7, 2, 1, 1, 1, 0, 0, 3, 0, 0,
};
static uint64_t columns[2 * RNT_COLUMN_WORDS + 3] = {6, 1, 0, 0, 0x14, 32, 1, 7};
static uint64_t aliases[RNT_ALIAS_WORDS + 1] = {0, 1};

static uint32_t full_header(size_t out_length, uint64_t *result, size_t result_words) {
    return rnt_write_header(strings, 3, texts[0], texts[1], texts[2], texts[3], fields, sizeof fields / 8, columns, sizeof columns / 8,
                            aliases, sizeof aliases / 8, out, out_length, result, result_words);
}

static uint64_t clusters[2 * RNT_CLUSTER_WORDS + 4] = {0, 5, 10, 90, 0xFFFFFFFF, 5, 6, 0, 100, 0};
static uint64_t links[RNT_LINK_WORDS + 1] = {100, 0};

static uint32_t full_footer(size_t out_length, uint64_t *result, size_t result_words) {
    return rnt_write_footer(header, sizeof header, 100, clusters, sizeof clusters / 8, links, sizeof links / 8, out, out_length, result,
                            result_words);
}

/* Under the full header: Bit pages, whose elements are the entries, and 32 bits. */
static uint8_t full[256];
static size_t full_length;
static uint64_t page_rows[3 * RNT_PAGE_WORDS + 4] = {0, 9, 1, 2, 94, 0, 1, 0, 1, 99, 1, 2, 0, 8, 92};

static uint32_t full_page_list(size_t out_length, uint64_t *result, size_t result_words) {
    return rnt_write_page_list(full, full_length, 10, 100, page_rows, sizeof page_rows / 8, out, out_length, result, result_words);
}

/* One number of a table replaced: the answer, with no room and with room; nothing is written. */
static void replaced(const char *name, writer write, uint64_t *number, uint64_t wrong, uint32_t due) {
    uint64_t old = *number, result[1] = {9};
    *number = wrong;
    for (size_t room = 0; room <= sizeof out; room += sizeof out) {
        clear_out();
        result[0] = 9;
        same(name, write(room, result, 1), due);
        same("result of a refused table", result[0], 0);
        same("bytes of a refused table", kept(0), 1);
    }
    *number = old;
}

static void written_headers(void) {
    uint64_t result[7], read_fields[2 * RNT_FIELD_WORDS], read_columns[2 * RNT_COLUMN_WORDS], read_aliases[RNT_ALIAS_WORDS];
    clear_out();
    same("writing a header", full_header(sizeof out, result, 1), 0);
    full_length = (size_t)result[0];
    same("bytes of the header", full_length, 48 + 2 * 36 + 8 + 2 * 16 + 12 + 10);
    memcpy(full, out, full_length);
    same("reading it back", rnt_read_header(full, full_length, read_fields, 30, read_columns, 8, read_aliases, 2, result, 7), 0);
    same("its fields", result[4], 2);
    same("its columns", result[5], 2);
    same("its aliases", result[6], 1);
    same("its name", memcmp(full + result[0], "px", 2) | (result[1] != 2), 0);
    same("its description", memcmp(full + result[2], "s", 1) | (result[3] != 1), 0);
    for (int row = 0; row < 2; row++) {
        const uint64_t *given = fields + 15 * row, *read = read_fields + 15 * row;
        for (int i = 0; i < 5; i++) same("a number of a field", read[i], given[i]);
        same("a repetition", read[5], given[4] & 1 ? given[5] : 0);
        for (int i = 6; i < 14; i += 2) {
            same("the length of a string", read[i + 1], given[i + 1]);
            same("a string", memcmp(full + read[i], strings + given[i], given[i + 1]), 0);
        }
        same("a dark mark", read[14], 0);
    }
    same("its columns' rows", memcmp(columns, read_columns, sizeof read_columns), 0);
    same("its alias's row", memcmp(aliases, read_aliases, sizeof read_aliases), 0);
    written("a header", full_header, full, full_length, 0, 256 + 20);

    replaced("too long", full_header, texts + 1, RNT_MOST_FIELDS * 2048, 256 + 1);
    replaced("a length near 2^64", full_header, texts + 1, UINT64_MAX - 100, 256 + 1);
    replaced("a string outside", full_header, texts, 2, 256 + 7);
    replaced("a string far outside", full_header, fields + 6, UINT64_MAX, 256 + 7);
    replaced("an empty string outside", full_header, fields + 10, 4, 256 + 7);
    replaced("a version of 33 bits", full_header, fields, UINT64_C(1) << 32, 256 + 25);
    replaced("a parent that is no field", full_header, fields + 2, 2, 256 + 14);
    replaced("a parent of 33 bits", full_header, fields + 2, UINT64_C(1) << 32, 256 + 25);
    replaced("a role that is none", full_header, fields + 3, 5, 256 + 12);
    replaced("a role of 17 bits", full_header, fields + 3, 65536, 256 + 25);
    replaced("flags that are none", full_header, fields + 4, 4, 256 + 12);
    replaced("flags of 64 bits", full_header, fields + 4, UINT64_MAX, 256 + 25);
    replaced("other bits", full_header, columns + 1, 2, 256 + 13);
    replaced("a column of no field", full_header, columns + 2, 2, 256 + 14);
    replaced("column flags that are none", full_header, columns + 3, 8, 256 + 12);
    replaced("an alias of no column", full_header, aliases, 2, 256 + 14);
    replaced("an alias to a field without its flag", full_header, aliases + 1, 0, 256 + 14);
    replaced("an alias of 33 bits", full_header, aliases + 1, UINT64_C(1) << 32, 256 + 25);
    replaced("a circle", full_header, fields + 2, 1, 256 + 15);
}

static void written_footers(void) {
    uint64_t result[2], read_clusters[2 * RNT_CLUSTER_WORDS], read_links[RNT_LINK_WORDS];
    uint8_t own[256];
    clear_out();
    same("writing a footer", full_footer(sizeof out, result, 1), 0);
    size_t length = (size_t)result[0];
    same("bytes of the footer", length, 52 + 2 * 40 + 16);
    memcpy(own, out, length);
    same("its version", own[0], 2);
    same("its minimum", own[2], 1);
    same("reading it back", rnt_read_footer(header, sizeof header, own, length, 100, read_clusters, 10, read_links, 2, result, 2), 0);
    same("its clusters", memcmp(clusters, read_clusters, sizeof read_clusters) | (result[0] != 2), 0);
    same("its links", memcmp(links, read_links, sizeof read_links) | (result[1] != 1), 0);
    written("a footer", full_footer, own, length, 0, 512 + 20);

    replaced("mixed rows", full_footer, clusters + 4, RNT_NO_CHECKSUM, 512 + 19);
    replaced("a checksum of 33 bits", full_footer, clusters + 9, RNT_NO_CHECKSUM + 1, 512 + 25);
    replaced("a first entry that is none", full_footer, clusters + 5, 4, 512 + 19);
    replaced("an entry count of 61 bits", full_footer, clusters + 6, UINT64_C(1) << 60, 512 + 25);
    replaced("entries past their end", full_footer, clusters + 6, (UINT64_C(1) << 60) - 5, 512 + 19);
    replaced("a size of 32 bits", full_footer, clusters + 2, UINT64_C(1) << 31, 512 + 25);
    replaced("a range outside", full_footer, clusters + 3, 91, 512 + 18);
    replaced("a range that wraps", full_footer, links + 1, UINT64_MAX, 512 + 18);
    clusters[4] = clusters[9] = RNT_NO_CHECKSUM;
    clear_out();
    same("writing a footer without checksums", full_footer(sizeof out, result, 1), 0);
    same("bytes of a footer without checksums", result[0], 52 + 2 * 36 + 16);
    same("version of a footer without checksums", out[0], 1);
    replaced("mixed rows", full_footer, clusters + 9, 0, 512 + 19);
    replaced("mixed rows, one no checksum", full_footer, clusters + 9, UINT64_MAX, 512 + 19);
}

static void written_page_lists(void) {
    uint64_t result[1], read_rows[3 * RNT_PAGE_WORDS];
    uint8_t own[256];
    clear_out();
    same("writing a page list", full_page_list(sizeof out, result, 1), 0);
    size_t length = (size_t)result[0];
    same("bytes of the page list", length, 16 + 2 * 8 + 3 * 16);
    memcpy(own, out, length);
    same("reading it back", rnt_read_page_list(full, full_length, own, length, 10, 100, read_rows, 15, result, 1), 0);
    same("its pages", memcmp(page_rows, read_rows, sizeof read_rows) | (result[0] != 3), 0);
    written("a page list", full_page_list, own, length, 0, 768 + 20);

    replaced("rows out of order", full_page_list, page_rows, 1, 768 + 14);
    replaced("a row of no column", full_page_list, page_rows + 10, 2, 768 + 14);
    replaced("a column of 33 bits", full_page_list, page_rows + 10, (UINT64_C(1) << 32) + 1, 768 + 14);
    replaced("elements of 31 bits", full_page_list, page_rows + 1, UINT64_C(1) << 30, 768 + 25);
    replaced("bit 30 of 2 bits", full_page_list, page_rows + 2, 2, 768 + 25);
    replaced("a size of 32 bits", full_page_list, page_rows + 3, UINT64_C(1) << 31, 768 + 25);
    replaced("another size", full_page_list, page_rows + 3, 3, 768 + 17);
    replaced("check bytes outside", full_page_list, page_rows + 4, 95, 768 + 18);
    replaced("a page outside", full_page_list, page_rows + 14, 93, 768 + 18);
    replaced("another total", full_page_list, page_rows + 6, 2, 768 + 19);
}

static void writers(void) {
    uint64_t result[1];
    written("the smallest header", no_header_tables, header, sizeof header, 0, 256 + 20);
    written("the smallest footer", no_footer_tables, footer, sizeof footer, 0, 512 + 20);
    written("the smallest page list", no_pages, page_list, sizeof page_list, 0, 768 + 20);
    written("a footer of no header", footer_of_nothing, NULL, 0, 256 + 2, 0);
    written("a page list of no header", page_list_of_nothing, NULL, 0, 256 + 2, 0);
    same("writing a header without a result", rnt_write_header(NULL, 0, 1, 0, 0, 0, NULL, 0, NULL, 0, NULL, 0, NULL, 0, NULL, 0), RNT_RESULT_TOO_SHORT);
    same("writing a footer without a result", rnt_write_footer(NULL, 0, 0, NULL, 0, NULL, 0, NULL, 0, NULL, 0), RNT_RESULT_TOO_SHORT);
    same("writing a page list without a result", rnt_write_page_list(NULL, 0, 0, 0, NULL, 0, NULL, 0, NULL, 0), RNT_RESULT_TOO_SHORT);
    same("an empty string of no strings", rnt_write_header(NULL, 0, 1, 0, 0, 0, NULL, 0, NULL, 0, NULL, 0, NULL, 0, result, 1), 256 + 7);
    written_headers();
    written_footers();
    written_page_lists();
}

/* A listing of as many fields as there may be, as deep as they can be, and some bytes behind it. */
static char due[300000];
static size_t due_length;
static uint8_t lines[sizeof due];

static void due_line(uint32_t level, uint32_t field) {
    due_length += (size_t)sprintf(due + due_length, "%*s%u  \n", (int)(2 * level), "", (unsigned)field);
}

/* The listings of fields without names that write_fields makes. */
static void due_before(uint32_t count) {
    for (uint32_t i = 0; i < count; i++) due_line(i, i);
}
static void due_after(uint32_t count) {
    for (uint32_t i = 0; i < count; i++) due_line(i, count - 1 - i);
}
static void due_itself(uint32_t count) {
    for (uint32_t i = 0; i < count; i++) due_line(0, i);
}
static void due_last(uint32_t count) {
    due_line(0, count - 1);
    for (uint32_t i = 0; i + 1 < count; i++) due_line(1, i);
}
static void due_nothing(uint32_t count) { (void)count; }

/* What is due of a listing: the lines, or an answer, for rooms from none to more than enough and for results of any length. */
static void listed(const char *name, const uint8_t *envelope, size_t length, uint32_t answer) {
    uint64_t result[3];
    const size_t rooms[] = {0, 1, due_length / 2, due_length ? due_length - 1 : 2, due_length, due_length + 1, sizeof lines};
    for (size_t i = 0; i < sizeof rooms / sizeof *rooms; i++) {
        size_t room = rooms[i];
        uint32_t code = answer != 0 ? answer : room < due_length ? 256 + 20 : 0;
        for (size_t words = 0; words <= 3; words++) {
            result[0] = result[1] = result[2] = 9;
            memset(lines, OUT_OLD, sizeof lines);
            same(name, rnt_list_fields(envelope, length, room ? lines : NULL, room, result, words), words == 0 ? RNT_RESULT_TOO_SHORT : code);
            size_t used = words > 0 && code == 0 ? due_length : 0;
            same("bytes of the listing", result[0], words == 0 ? 9 : used);
            same("words behind the listing's result", result[1] + result[2], 18);
            same("the listing", memcmp(lines, due, used), 0);
            size_t kept_bytes = 0;
            for (size_t k = used; k < sizeof lines; k++) kept_bytes += lines[k] == OUT_OLD;
            same("bytes that are not listed", kept_bytes, sizeof lines - used);
        }
    }
}

/* A chain of three: names with bytes that are not printed and two that are one character, a type that looks like a mark, and a column of
   no listed type on the field in the middle. */
static const uint8_t labels[] = "v\x1F\x7F\nvec _\xC3\xA4 dark~";
static uint64_t label_fields[3 * RNT_FIELD_WORDS] = {
    0, 0, 2, 0, 0, 0, 0, 4, 4, 3, 8, 3, 0, 1, 1, /* it has a type alias and a description, and is not dark, whatever its row says */
    0, 0, 1, 0, 0, 0, 16, 1, 0, 0, 0, 0, 0, 0, 1,
    0, 0, 1, 0, 0, 0, 8, 3, 11, 5, 0, 4, 0, 0, 0,
};
static uint64_t label_columns[RNT_COLUMN_WORDS] = {0x1D, 5, 2, 0};

static void listings(void) {
    uint64_t result[1] = {9};
    same("listing without a header and a result", rnt_list_fields(NULL, 0, NULL, 0, NULL, 0), RNT_RESULT_TOO_SHORT);
    same("listing without a result", rnt_list_fields(header, sizeof header, NULL, 0, NULL, 0), RNT_RESULT_TOO_SHORT);
    same("listing no fields into no room", rnt_list_fields(header, sizeof header, NULL, 0, result, 1), 0);
    same("listing no fields into no room, its bytes", result[0], 0);
    due_length = 0;
    listed("listing of no header", NULL, 0, 256 + 2);
    listed("listing of no fields", header, sizeof header, 0);

    const struct {
        const char *name;
        uint32_t count;
        uint32_t (*parent)(uint32_t field, uint32_t count);
        uint32_t answer;
        void (*due)(uint32_t count);
    } cases[] = {
        {"listing of one field", 1, before, 0, due_before},
        {"listing of two fields", 2, before, 0, due_before},
        {"listing of two fields, the second on top", 2, after, 0, due_after},
        {"listing of a chain of twelve", 12, after, 0, due_after},
        {"listing of a chain", RNT_MOST_FIELDS, before, 0, due_before},
        {"listing of a chain, the last on top", RNT_MOST_FIELDS, after, 0, due_after},
        {"listing of tops", RNT_MOST_FIELDS, itself, 0, due_itself},
        {"listing of children of the last", RNT_MOST_FIELDS, last, 0, due_last},
        {"listing of a circle", 2, around, 256 + 15, due_nothing},
        {"listing of the longest circle", RNT_MOST_FIELDS, around, 256 + 15, due_nothing},
        {"listing of a field below none", 1, beyond, 256 + 14, due_nothing},
        {"listing of too many fields", RNT_MOST_FIELDS + 1, before, 256 + 10, due_nothing},
    };
    for (size_t i = 0; i < sizeof cases / sizeof *cases; i++) {
        size_t length = write_fields(cases[i].count, cases[i].parent);
        due_length = 0;
        cases[i].due(cases[i].count);
        listed(cases[i].name, chain, length, cases[i].answer);
        if (cases[i].due == due_before && cases[i].count == RNT_MOST_FIELDS) same("bytes of the deepest listing", due_length, 264594);
        chain[length - 5] ^= 1;
        due_length = 0;
        listed("listing, another checksum", chain, length, 256 + 3);
    }

    clear_out();
    same("writing a header to list", rnt_write_header(labels, sizeof labels - 1, 0, 0, 0, 0, label_fields, sizeof label_fields / 8, label_columns, sizeof label_columns / 8,
                                                      NULL, 0, out, sizeof out, result, 1), 0);
    due_length = (size_t)sprintf(due, "1 ~  dark\n  2 _\xC3\xA4  dark dark\n    0 v??? vec\n");
    listed("listing of names", out, (size_t)result[0], 0);
}

static void constants(void) {
    same("words of a cluster row", RNT_CLUSTER_WORDS, 5);
    same("words of a row of a column's pages", RNT_COLUMN_PAGE_WORDS, 4);
    same("most pages of a column", RNT_MOST_COLUMN_PAGES, 256);
    same("words of a row of a report", RNT_FIGURE_WORDS, 4);
    same("most lists of a report", RNT_MOST_LISTS, 1024);
    same("no checksum", RNT_NO_CHECKSUM, (uint64_t)UINT32_MAX + 1);
    same("bytes of no checksum", sizeof RNT_NO_CHECKSUM, sizeof(uint64_t));
}

static void pages(void) {
    uint64_t result[1] = {9};
    same("decoding nothing", rnt_decode_page(0x14, 0, 0, NULL, 0, NULL, 0, 0), 0);
    same("decoding nothing past the words", rnt_decode_page(0x14, 0, 0, NULL, 0, NULL, 0, 1), 1024 + 20);
    same("decoding one element of no bytes", rnt_decode_page(0x14, 1, 0, NULL, 0, NULL, 0, 0), 1024 + 21);
    same("decoding an unknown type", rnt_decode_page(0x10000, 0, 0, NULL, 0, NULL, 0, 0), 1024 + 23);
    same("encoding nothing", rnt_encode_page(0x14, 0, 0, NULL, 0, 0, NULL, 0, result, 1), 0);
    same("encoding nothing, its bytes", result[0], 0);
    same("encoding one element of no words", rnt_encode_page(0x14, 1, 0, NULL, 0, 0, NULL, 0, result, 1), 1024 + 20);
    same("encoding a checksum into no room", rnt_encode_page(0x14, 0, 1, NULL, 0, 0, NULL, 0, result, 1), 1024 + 20);
    same("encoding without a result", rnt_encode_page(0x14, 0, 0, NULL, 0, 0, NULL, 0, NULL, 0), RNT_RESULT_TOO_SHORT);
}

/* A part of a file: bytes 1 to 4 are two elements of type 12, 5 and 6 one with four check bytes behind it, and one more byte is no page's. */
static uint8_t part[12] = {0xEE, 0x34, 0xCD, 0x12, 0xAB, 0x78, 0x56};

/* Its pages: the first two, one with its checksum, the same bytes without it, none at the end of the part; words behind the last row are
   no row. */
#define COLUMN_TYPE 0x12
#define COLUMN_ROWS 4
static uint64_t column_rows[COLUMN_ROWS * RNT_COLUMN_PAGE_WORDS + 3] = {
    1, 4, 2, 0, 5, 2, 1, 1, 5, 2, 1, 0, sizeof part, 0, 0, 0, 1, 4, 2,
};
static const uint64_t column_elements[] = {0x1234, 0xABCD, 0x5678, 0x5678};
#define COLUMN_ELEMENTS (sizeof column_elements / sizeof *column_elements)

/* The words of a column call; what it does not write stays. */
#define WORD_OLD UINT64_C(0x0909090909090909)
static uint64_t column_words[RNT_MOST_COLUMN_PAGES + 8];
#define COLUMN_WORDS (sizeof column_words / sizeof *column_words)

/* What is due of a column call, for results of any length: the answer, the result and the first words; the others stay. */
static void decoded(const char *name, uint32_t type, const uint64_t *rows, size_t row_words, const uint8_t *file, size_t length, size_t room,
                    uint32_t answer, uint64_t index, const uint64_t *elements, size_t count) {
    uint64_t result[3];
    for (size_t words = 0; words <= 3; words++) {
        result[0] = result[1] = result[2] = 9;
        for (size_t i = 0; i < COLUMN_WORDS; i++) column_words[i] = WORD_OLD;
        same(name, rnt_decode_column(type, rows, row_words, file, length, room ? column_words : NULL, room, words ? result : NULL, words),
             words == 0 ? RNT_RESULT_TOO_SHORT : answer);
        same("result of a column", result[0], words == 0 ? 9 : index);
        same("words behind the result of a column", result[1] + result[2], 18);
        size_t used = words == 0 ? 0 : count, kept_words = 0;
        for (size_t i = 0; i < used; i++) same("an element of a column", column_words[i], elements[i]);
        for (size_t i = used; i < COLUMN_WORDS; i++) kept_words += column_words[i] == WORD_OLD;
        same("words that no page has", kept_words, COLUMN_WORDS - used);
    }
}

/* The column with another number in its table, or another type: the answer, and the pages before the refused one. */
static void column_refused(const char *name, uint32_t type, uint64_t *number, uint64_t wrong, uint32_t answer, uint64_t index) {
    static const size_t before[] = {0, 2, 3, 4};
    uint64_t old = *number;
    *number = wrong;
    decoded(name, type, column_rows, sizeof column_rows / 8, part, sizeof part, COLUMN_ELEMENTS, answer, index, column_elements, before[index]);
    decoded(name, type, column_rows, sizeof column_rows / 8, part, sizeof part, COLUMN_WORDS, answer, index, column_elements, before[index]);
    *number = old;
}

static void no_columns(void) {
    static const uint32_t types[] = {0, 3, 6, COLUMN_TYPE, 29, 0x10012, UINT32_MAX};
    for (size_t i = 0; i < sizeof types / sizeof *types; i++) {
        decoded("a column of no pages", types[i], NULL, 0, NULL, 0, 0, 0, 0, NULL, 0);
        decoded("a column of no pages, and words", types[i], NULL, 0, part, sizeof part, 5, 0, 0, NULL, 0);
        decoded("a column of three words", types[i], column_rows, 3, part, sizeof part, 5, 0, 0, NULL, 0);
    }
    const uint64_t nowhere[RNT_COLUMN_PAGE_WORDS] = {0}, behind[RNT_COLUMN_PAGE_WORDS] = {1};
    decoded("a page of nothing in no file part", COLUMN_TYPE, nowhere, 4, NULL, 0, 0, 0, 1, NULL, 0);
    decoded("a page of nothing behind no file part", COLUMN_TYPE, behind, 4, NULL, 0, 0, 1024 + 18, 0, NULL, 0);
    decoded("a page in no file part", COLUMN_TYPE, column_rows, 4, NULL, 0, 5, 1024 + 18, 0, NULL, 0);
    decoded("a page and no words", COLUMN_TYPE, column_rows, 4, part, sizeof part, 0, 1024 + 20, 0, NULL, 0);
}

static void full_columns(void) {
    static uint64_t rows[(RNT_MOST_COLUMN_PAGES + 1) * RNT_COLUMN_PAGE_WORDS], elements[RNT_MOST_COLUMN_PAGES];
    for (size_t i = 0; i <= RNT_MOST_COLUMN_PAGES; i++) {
        rows[4 * i] = 1 + i % 4;
        rows[4 * i + 1] = rows[4 * i + 2] = 1;
        if (i < RNT_MOST_COLUMN_PAGES) elements[i] = part[1 + i % 4];
    }
    size_t most = 4 * RNT_MOST_COLUMN_PAGES, room = RNT_MOST_COLUMN_PAGES;
    decoded("255 pages", 4, rows, most - 4, part, sizeof part, COLUMN_WORDS, 0, room - 1, elements, room - 1);
    decoded("256 pages", 4, rows, most, part, sizeof part, room, 0, room, elements, room);
    decoded("256 pages and words left over", 4, rows, most + 3, part, sizeof part, COLUMN_WORDS, 0, room, elements, room);
    decoded("256 pages, a word too few", 4, rows, most, part, sizeof part, room - 1, 1024 + 20, room - 1, elements, room - 1);
    decoded("257 pages", 4, rows, most + 4, part, sizeof part, COLUMN_WORDS, 1024 + 10, RNT_MOST_COLUMN_PAGES, NULL, 0);
    decoded("257 pages of no type", 3, rows, most + 4, NULL, 0, 0, 1024 + 10, RNT_MOST_COLUMN_PAGES, NULL, 0);
    rows[most - 4] = sizeof part;
    decoded("256 pages, the last outside", 4, rows, most, part, sizeof part, room, 1024 + 18, room - 1, elements, room - 1);
}

static void refused_columns(void) {
    static const uint32_t types[] = {0, 3, 29, 0xFFFF, 0x10012, 0x80000012, UINT32_MAX};
    uint64_t *rows = column_rows;
    for (size_t i = 0; i < sizeof types / sizeof *types; i++) {
        column_refused("a column of no type", types[i], rows, 1, 1024 + 23, 0);
        column_refused("no type before the elements", types[i], rows + 2, 131073, 1024 + 23, 0);
        column_refused("no type before the range", types[i], rows, 100, 1024 + 23, 0);
    }
    column_refused("too many elements", COLUMN_TYPE, rows + 6, RNT_MOST_ELEMENTS + 1, 1024 + 10, 1);
    column_refused("elements of 64 bits", COLUMN_TYPE, rows + 14, UINT64_MAX, 1024 + 10, 3);
    column_refused("as many elements as there may be", COLUMN_TYPE, rows + 6, RNT_MOST_ELEMENTS, 1024 + 21, 1);
    column_refused("check bytes behind the part", COLUMN_TYPE, rows + 4, 7, 1024 + 18, 1);
    column_refused("a page behind the part", COLUMN_TYPE, rows + 8, 11, 1024 + 18, 2);
    column_refused("an empty page behind the part", COLUMN_TYPE, rows + 12, sizeof part + 1, 1024 + 18, 3);
    column_refused("an offset that wraps", COLUMN_TYPE, rows + 8, UINT64_MAX, 1024 + 18, 2);
    column_refused("check bytes that wrap", COLUMN_TYPE, rows + 4, UINT64_MAX - 5, 1024 + 18, 1);
    column_refused("a size that wraps", COLUMN_TYPE, rows + 9, UINT64_MAX - 4, 1024 + 18, 2);
    column_refused("a size of 33 bits", COLUMN_TYPE, rows + 9, (UINT64_C(1) << 32) + 2, 1024 + 18, 2);
    column_refused("a longer page", COLUMN_TYPE, rows + 9, 3, 1024 + 21, 2);
    column_refused("an element more", COLUMN_TYPE, rows + 2, 3, 1024 + 21, 0);
    column_refused("no element", COLUMN_TYPE, rows + 6, 0, 1024 + 21, 1);
    column_refused("a page without its checksum", COLUMN_TYPE, rows + 3, 1, 1024 + 22, 0);
    part[7] ^= 1;
    column_refused("another checksum", COLUMN_TYPE, rows, rows[0], 1024 + 22, 1);
    part[7] ^= 1;
    for (size_t room = 0; room < COLUMN_ELEMENTS; room++) {
        uint64_t index = room < 2 ? 0 : room - 1;
        decoded("too few words", COLUMN_TYPE, rows, sizeof column_rows / 8, part, sizeof part, room, 1024 + 20, index, column_elements, index ? room : 0);
    }
    const uint64_t bits[] = {1, 1, 6, 0, 2, 1, 6, 0}, elements[] = {0, 0, 1, 0, 1, 1};
    decoded("unused bits", 6, bits, 8, part, sizeof part, 20, 1024 + 24, 1, elements, 6);
}

static void decoded_columns(void) {
    uint32_t sum = rnt_crc32(part + 5, 2);
    for (int i = 0; i < 4; i++) part[7 + i] = (uint8_t)(sum >> 8 * i);
    const uint64_t checksums[] = {1, 2, UINT64_C(1) << 32, UINT64_MAX};
    for (size_t i = 0; i < sizeof checksums / sizeof *checksums; i++) {
        column_rows[7] = checksums[i];
        for (size_t room = COLUMN_ELEMENTS; room <= COLUMN_ELEMENTS + 2; room++)
            decoded("a column", COLUMN_TYPE, column_rows, sizeof column_rows / 8, part, sizeof part, room, 0, COLUMN_ROWS, column_elements, COLUMN_ELEMENTS);
    }
    no_columns();
    full_columns();
    refused_columns();
}

/* A page list that is handed to a report, with its numbers. */
struct handed {
    const uint8_t *header;
    size_t header_length;
    const uint8_t *list;
    size_t list_length;
    uint64_t entries, file_length;
};

/* The words of a report under the full header, and some behind them; and what the full page list adds. */
#define REPORT_WORDS (2 * RNT_FIGURE_WORDS)
#define REPORT_ROOM (REPORT_WORDS + 6)
static const uint64_t list_figures[REPORT_WORDS] = {2, 10, 3, 1, 1, 2, 8, 0};

/* What is due of one call on a report that begins with these words, for results of any length: the answer, and the counts. The figures are
   added where it accepts, and nothing else is changed. */
static void reported(const char *name, const struct handed *handed, const uint64_t *begin, size_t room, uint64_t accepted, uint64_t refused,
                     uint32_t answer) {
    uint64_t result[4], report[REPORT_ROOM];
    int reader = answer != 0 && answer != 768 + 10 && answer != 768 + 20;
    for (size_t words = 0; words <= 4; words++) {
        for (int i = 0; i < 4; i++) result[i] = 9;
        memcpy(report, begin, sizeof report);
        same(name, rnt_report_page_list(handed->header, handed->header_length, handed->list, handed->list_length, handed->entries,
                                        handed->file_length, accepted, refused, room ? report : NULL, room, words ? result : NULL, words),
             words < 2 ? RNT_RESULT_TOO_SHORT : answer);
        same("accepted lists", result[0], words < 2 ? 9 : accepted + (answer == 0));
        same("refused lists", result[1], words < 2 ? 9 : refused + (uint64_t)reader);
        same("words behind the result of a report", result[2] + result[3], 18);
        size_t used = words >= 2 && answer == 0 ? REPORT_WORDS : 0;
        for (size_t i = 0; i < REPORT_ROOM; i++) same("a word of a report", report[i], begin[i] + (i < used ? list_figures[i] : 0));
    }
}

/* The counts of a report that takes no further list, and of those that take one. */
static void report_counts(const struct handed *handed, const struct handed *nothing, const uint64_t *begin) {
    const uint64_t most = RNT_MOST_LISTS, half = UINT64_C(1) << 63, all = UINT64_MAX;
    const uint64_t taken[][2] = {{0, 0}, {most - 1, 0}, {0, most - 1}, {500, 523}};
    const uint64_t full_counts[][2] = {{most, 0},      {0, most}, {512, 512}, {1000, 25},        {all, 0},
                                       {0, all},       {all, 1},  {1, all},   {half, half},      {all, all},
                                       {all - 1, 2},   {all, 1024}, {UINT64_C(1) << 32, 0}, {UINT64_C(1) << 32, half}};
    struct handed other = *handed;
    other.entries++;
    for (size_t i = 0; i < sizeof taken / sizeof *taken; i++) {
        reported("a list", handed, begin, REPORT_WORDS, taken[i][0], taken[i][1], 0);
        reported("a list of other entries", &other, begin, REPORT_WORDS, taken[i][0], taken[i][1], 768 + 19);
        reported("a list without rows", handed, begin, 0, taken[i][0], taken[i][1], 768 + 20);
    }
    for (size_t i = 0; i < sizeof full_counts / sizeof *full_counts; i++) {
        reported("a list too many", handed, begin, REPORT_WORDS, full_counts[i][0], full_counts[i][1], 768 + 10);
        reported("a refused list too many", &other, begin, REPORT_WORDS, full_counts[i][0], full_counts[i][1], 768 + 10);
        reported("nothing too many", nothing, begin, 0, full_counts[i][0], full_counts[i][1], 768 + 10);
    }
}

/* Each figure right before its end, at it, and past it. */
static void report_ends(const struct handed *handed, const struct handed *damaged) {
    for (size_t i = 0; i < REPORT_WORDS; i++) {
        uint64_t begin[REPORT_ROOM] = {0};
        for (size_t k = REPORT_WORDS; k < REPORT_ROOM; k++) begin[k] = UINT64_MAX;
        begin[i] = UINT64_MAX - list_figures[i];
        reported("a figure at its end", handed, begin, REPORT_WORDS, 3, 4, 0);
        reported("words behind the rows", handed, begin, REPORT_ROOM, 3, 4, 0);
        if (list_figures[i] == 0) continue;
        begin[i]++;
        reported("a figure past its end", handed, begin, REPORT_WORDS, 3, 4, 768 + 10);
        reported("a figure far past its end", handed, begin, REPORT_ROOM, 3, 4, 768 + 10);
        reported("too few rows before a figure's end", handed, begin, REPORT_WORDS - 1, 3, 4, 768 + 20);
        reported("a damaged list before a figure's end", damaged, begin, REPORT_WORDS, 3, 4, 768 + 3);
    }
}

/* A report from zeros with as many lists as it takes, every third of them damaged. */
static void full_report(const struct handed *handed, const struct handed *damaged) {
    uint64_t counts[2] = {0, 0}, report[REPORT_ROOM] = {0};
    for (uint64_t i = 0; i <= RNT_MOST_LISTS; i++) {
        const struct handed *own = i % 3 == 2 ? damaged : handed;
        uint32_t due = i == RNT_MOST_LISTS ? 768 + 10 : i % 3 == 2 ? 768 + 3 : 0;
        same("a list of many", rnt_report_page_list(own->header, own->header_length, own->list, own->list_length, own->entries, own->file_length,
                                                    counts[0], counts[1], report, REPORT_ROOM, counts, 2), due);
    }
    same("many accepted lists", counts[0], 683);
    same("many refused lists", counts[1], 341);
    for (size_t i = 0; i < REPORT_ROOM; i++) same("a figure of many lists", report[i], i < REPORT_WORDS ? 683 * list_figures[i] : 0);
}

static void reports(void) {
    uint64_t result[2], begin[REPORT_ROOM];
    uint8_t own[256], wrong[256];
    for (size_t i = 0; i < REPORT_ROOM; i++) begin[i] = 1000 * i;
    same("a report without anything", rnt_report_page_list(NULL, 0, NULL, 0, 0, 0, 0, 0, NULL, 0, NULL, 0), RNT_RESULT_TOO_SHORT);
    same("a report of no columns", rnt_report_page_list(header, sizeof header, page_list, sizeof page_list, 0, 0, 7, 8, NULL, 0, result, 2), 0);
    same("a report of no columns, its counts", (result[0] == 8) & (result[1] == 8), 1);

    same("writing a page list to report", full_page_list(sizeof out, result, 1), 0);
    size_t length = (size_t)result[0];
    memcpy(own, out, length);
    memcpy(wrong, own, length);
    wrong[length - 5] ^= 1;
    const struct handed right = {full, full_length, own, length, 10, 100}, damaged = {full, full_length, wrong, length, 10, 100};
    const struct handed no_list = {full, full_length, NULL, 0, 10, 100}, nothing = {NULL, 0, NULL, 0, 0, 0};
    const struct handed short_file = {full, full_length, own, length, 10, 99}, other_header = {header, sizeof header, own, length, 10, 100};
    for (size_t room = 0; room <= REPORT_ROOM; room++) {
        reported("a report of any length", &right, begin, room, 5, 6, room < REPORT_WORDS ? 768 + 20 : 0);
        reported("a damaged list", &damaged, begin, room, 5, 6, 768 + 3);
        reported("no list", &no_list, begin, room, 5, 6, 768 + 2);
        reported("no header and no list", &nothing, begin, room, 5, 6, 256 + 2);
        reported("a shorter file", &short_file, begin, room, 5, 6, 768 + 18);
        reported("another header", &other_header, begin, room, 5, 6, 768 + 19);
    }
    report_counts(&right, &nothing, begin);
    report_ends(&right, &damaged);
    full_report(&right, &damaged);
}

/* What is due of a count of true elements, for results of any length. */
static void counted(const char *name, uint64_t elements, uint32_t checksum, const uint8_t *page, size_t length, uint32_t answer, uint64_t count) {
    uint64_t result[3];
    for (size_t words = 0; words <= 3; words++) {
        result[0] = result[1] = result[2] = 9;
        same(name, rnt_count_true(elements, checksum, page, length, words ? result : NULL, words), words == 0 ? RNT_RESULT_TOO_SHORT : answer);
        same("true elements", result[0], words == 0 ? 9 : count);
        same("words behind the true elements", result[1] + result[2], 18);
    }
}

/* So many elements that are all true, with unused bits that are not set, with the checksum behind them; gives the bytes without it. */
static uint8_t ones[RNT_MOST_ELEMENTS / 8 + 8];

static size_t fill_ones(uint64_t elements) {
    size_t length = (size_t)((elements + 7) / 8);
    memset(ones, 0xFF, sizeof ones);
    if (elements % 8) ones[length - 1] = (uint8_t)((1 << elements % 8) - 1);
    put(ones + length, rnt_crc32(ones, length));
    return length;
}

static void counts(void) {
    static const uint32_t checksums[] = {1, 2, 256, 0x10000, 0x80000000, UINT32_MAX};
    static const uint64_t lengths[] = {1, 7, 8, 9, 55, 56, 57, 63, 64, 65, 71, 72, 73, 127, 128, 129, 1000, RNT_MOST_ELEMENTS - 1, RNT_MOST_ELEMENTS};
    static const uint64_t too_many[] = {RNT_MOST_ELEMENTS + 1, UINT64_C(1) << 32, (UINT64_C(1) << 32) + 8, UINT64_MAX - 7, UINT64_MAX};
    counted("no elements", 0, 0, NULL, 0, 0, 0);
    counted("no elements and no checksum", 0, 1, NULL, 0, 1024 + 21, 0);
    counted("one element of no bytes", 1, 0, NULL, 0, 1024 + 21, 0);
    counted("true, seven false, true", 9, 0, (const uint8_t *)"\1\1", 2, 0, 2);
    counted("an unused bit", 9, 0, (const uint8_t *)"\1\3", 2, 1024 + 24, 0);
    counted("the checksum of nothing", 0, 1, (const uint8_t *)"\0\0\0\0", 4, 0, 0);
    for (size_t i = 0; i < sizeof lengths / sizeof *lengths; i++) {
        uint64_t elements = lengths[i];
        size_t length = fill_ones(elements);
        counted("all true", elements, 0, ones, length, 0, elements);
        for (size_t k = 0; k < sizeof checksums / sizeof *checksums; k++) counted("all true, with a checksum", elements, checksums[k], ones, length + 4, 0, elements);
        counted("a byte too few", elements, 0, ones, length - 1, 1024 + 21, 0);
        counted("a byte too many", elements, 0, ones, length + 1, 1024 + 21, 0);
        counted("check bytes that are not asked for", elements, 0, ones, length + 4, 1024 + 21, 0);
        counted("no check bytes", elements, 1, ones, length, 1024 + 21, 0);
        ones[length / 2] ^= 1;
        counted("another checksum", elements, 1, ones, length + 4, 1024 + 22, 0);
        counted("one of them false", elements, 0, ones, length, 0, elements - 1);
        if (elements % 8 == 0) continue;
        ones[length - 1] |= 0x80;
        counted("another checksum and an unused bit", elements, 1, ones, length + 4, 1024 + 22, 0);
        put(ones + length, rnt_crc32(ones, length));
        counted("an unused bit under a checksum", elements, 1, ones, length + 4, 1024 + 24, 0);
    }
    for (size_t i = 0; i < sizeof too_many / sizeof *too_many; i++) {
        counted("too many elements", too_many[i], 0, ones, RNT_MOST_ELEMENTS / 8 + 1, 1024 + 10, 0);
        counted("too many elements of no bytes", too_many[i], 1, NULL, 0, 1024 + 10, 0);
    }
}

int main(void) {
    same("checksum of nothing", rnt_crc32(NULL, 0), 0);
    same("UTF-8 of nothing", rnt_is_utf8(NULL, 0), 1);
    same("UTF-8 of D7FF", rnt_is_utf8((const uint8_t *)"\xED\x9F\xBF", 3), 1);
    same("UTF-8 of D800", rnt_is_utf8((const uint8_t *)"\xED\xA0\x80", 3), 0);
    write_envelopes();
    headers();
    moves();
    footers();
    page_lists();
    paired_page_lists();
    writers();
    listings();
    pages();
    decoded_columns();
    reports();
    counts();
    constants();
    printf("%d passed, %d failed\n", passed, failed);
    return failed != 0;
}
