/*
 * Page decoding and encoding as plain loops: straightforward, and specialised
 * by width, so that the compiler sees constants. Neither a checksum nor the
 * checks of a page call, but for the width of elements when encoding.
 */
#include <stddef.h>
#include <stdint.h>
#include <string.h>

#define MOST_ELEMENTS 131072

static const int WIDTH[29] = {0,  64, 32, 96, 8,  8,  1,  64, 32, 16, 64, 32, 16, 8, 64,
                              32, 64, 32, 16, 64, 32, 16, 64, 32, 16, 8,  64, 32, 16};

static int is_split(int type) { return (type >= 0x0E && type <= 0x15) || type >= 0x1A; }
static int is_delta(int type) { return type == 0x0E || type == 0x0F; }
static int is_zigzag(int type) { return type >= 0x1A; }
static uint64_t mask_of(int width) { return width == 64 ? ~0ull : (1ull << width) - 1; }

static inline __attribute__((always_inline)) void join(int bytes, int split, size_t n, const uint8_t *page,
                                                       uint64_t *words) {
    for (size_t i = 0; i < n; i++) {
        uint64_t word = 0;
        for (int k = 0; k < bytes; k++)
            word |= (uint64_t)page[split ? k * n + i : i * bytes + k] << (8 * k);
        words[i] = word;
    }
}

void plain_decode(int type, size_t n, const uint8_t *page, uint64_t *words) {
    int width = WIDTH[type], split = is_split(type);
    uint64_t mask = mask_of(width);
    if (type == 6) {
        for (size_t i = 0; i < n; i++)
            words[i] = page[i / 8] >> (i % 8) & 1;
        return;
    }
    switch (width) {
    case 8: join(1, 0, n, page, words); break;
    case 16: split ? join(2, 1, n, page, words) : join(2, 0, n, page, words); break;
    case 32: split ? join(4, 1, n, page, words) : join(4, 0, n, page, words); break;
    default: split ? join(8, 1, n, page, words) : join(8, 0, n, page, words); break;
    }
    if (is_delta(type)) {
        uint64_t sum = 0;
        for (size_t i = 0; i < n; i++) {
            sum = (sum + words[i]) & mask;
            words[i] = sum;
        }
    }
    if (is_zigzag(type))
        for (size_t i = 0; i < n; i++)
            words[i] = ((words[i] >> 1) ^ -(words[i] & 1)) & mask;
}

static inline __attribute__((always_inline)) void part(int bytes, int split, size_t n, const uint64_t *words,
                                                       uint8_t *page) {
    if (split) {
        for (int k = 0; k < bytes; k++)
            for (size_t i = 0; i < n; i++)
                page[k * n + i] = words[i] >> (8 * k);
    } else {
        for (size_t i = 0; i < n; i++)
            for (int k = 0; k < bytes; k++)
                page[i * bytes + k] = words[i] >> (8 * k);
    }
}

static uint64_t stored[MOST_ELEMENTS];

/* Gives 25 when an element does not fit, else 0. At least one element. */
int plain_encode(int type, size_t n, const uint64_t *words, uint8_t *page) {
    int width = WIDTH[type], split = is_split(type);
    uint64_t mask = mask_of(width);
    if (width < 64)
        for (size_t i = 0; i < n; i++)
            if (words[i] >> width)
                return 25;
    if (type == 6) {
        memset(page, 0, (n + 7) / 8);
        for (size_t i = 0; i < n; i++)
            page[i / 8] |= words[i] << (i % 8);
        return 0;
    }
    if (is_delta(type)) {
        stored[0] = words[0];
        for (size_t i = 1; i < n; i++)
            stored[i] = (words[i] - words[i - 1]) & mask;
        words = stored;
    }
    if (is_zigzag(type)) {
        for (size_t i = 0; i < n; i++) {
            int64_t x = (int64_t)(words[i] << (64 - width)) >> (64 - width);
            stored[i] = (((uint64_t)x << 1) ^ (uint64_t)(x >> 63)) & mask;
        }
        words = stored;
    }
    switch (width) {
    case 8: part(1, 0, n, words, page); break;
    case 16: split ? part(2, 1, n, words, page) : part(2, 0, n, words, page); break;
    case 32: split ? part(4, 1, n, words, page) : part(4, 0, n, words, page); break;
    default: split ? part(8, 1, n, words, page) : part(8, 0, n, words, page); break;
    }
    return 0;
}
