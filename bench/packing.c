/* The sum and the packing of PCS in C: byte by byte, and by words of 64 bits. */
#include "parts.h"

static uint8_t as_sum(uint8_t s) { return pcs_sent(s > 250 ? s - 128 : s); }

uint8_t sum_bytes(const uint8_t *p, size_t n) {
    uint8_t s = 0;
    for (size_t i = 0; i < n; i++) s += p[i];
    return as_sum(s);
}

/* Four sums of 16 bits side by side; after 128 words they are added up, before one of them overflows. */
uint8_t sum_words(const uint8_t *p, size_t n) {
    const uint64_t even = 0x00FF00FF00FF00FFu;
    uint8_t s = 0;
    while (n >= 8) {
        size_t k = n < 1024 ? n / 8 : 128;
        n -= 8 * k;
        uint64_t w = 0;
        for (; k; k--, p += 8) w += (load8(p) & even) + (load8(p) >> 8 & even);
        s += (uint8_t)(w + (w >> 16) + (w >> 32) + (w >> 48));
    }
    for (size_t i = 0; i < n; i++) s += p[i];
    return as_sum(s);
}

static size_t pack_group(const uint8_t *data, size_t k, uint8_t *out) {
    uint8_t top = 0;
    for (size_t j = 0; j < k; j++) {
        out[j] = pcs_sent(data[j] & 127);
        top = (uint8_t)(top << 1 | data[j] >> 7);
    }
    out[k] = pcs_sent((uint8_t)(top << (7 - k)));
    return k + 1;
}

size_t pack_bytes(const uint8_t *data, size_t n, uint8_t *out, size_t room) {
    if (room < n + (n + 6) / 7) return 0;
    size_t w = 0;
    for (size_t i = 0; i < n; i += 7) w += pack_group(data + i, n - i < 7 ? n - i : 7, out + w);
    return w;
}

/* A group of seven in one word: the product gathers the top bits, the first byte's highest; a byte of 0 gets its top bit. */
size_t pack_words(const uint8_t *data, size_t n, uint8_t *out, size_t room) {
    if (room < n + (n + 6) / 7) return 0;
    size_t w = 0, i = 0;
    for (; n - i >= 8; i += 7, w += 8) {
        uint64_t d = load8(data + i) & 0x00FFFFFFFFFFFFFFu;
        uint64_t top = ((d >> 7 & EACH(1)) * 0x0040201008040201u) >> 48 & 127;
        uint64_t v = (d & EACH(0x7F)) | top << 56;
        store8(out + w, v | (~(v + EACH(0x7F)) & EACH(0x80)));
    }
    for (; i < n; i += 7) w += pack_group(data + i, n - i < 7 ? n - i : 7, out + w);
    return w;
}

/* Of a short last group the low places are unused: of n % 8 packed bytes, 8 - n % 8 places. */
static int well_ended(const uint8_t *p, size_t n) { return n % 8 == 0 || (n % 8 != 1 && (p[n - 1] & ((1 << (8 - n % 8)) - 1)) == 0); }

static int sent_bytes(const uint8_t *p, size_t n) {
    for (size_t i = 0; i < n; i++) if (p[i] < 1 || p[i] > 128) return 0;
    return 1;
}

static size_t unpack_group(const uint8_t *p, size_t k, uint8_t *out) {
    uint8_t top = p[k] & 127;
    for (size_t j = 0; j < k; j++) out[j] = (uint8_t)((p[j] & 127) | (top >> (6 - j) & 1) << 7);
    return k;
}

size_t unpack_bytes(uint8_t *store, size_t size, size_t from, size_t count) {
    const uint8_t *p = store + from;
    if (from > size || count > size - from || !sent_bytes(p, count) || !well_ended(p, count)) return 0;
    size_t w = 0;
    for (size_t i = 0; i < count; i += 8) w += unpack_group(p + i, (count - i < 8 ? count - i : 8) - 1, store + w);
    return w;
}

/* A byte is as sent if its top bit is set exactly where its low bits are 0. */
static int sent_words(const uint8_t *p, size_t n) {
    uint64_t wrong = 0;
    for (; n >= 8; p += 8, n -= 8) wrong |= ~(load8(p) ^ ((load8(p) & EACH(0x7F)) + EACH(0x7F))) & EACH(0x80);
    return !wrong && sent_bytes(p, n);
}

size_t unpack_words(uint8_t *store, size_t size, size_t from, size_t count) {
    const uint8_t *p = store + from;
    if (from > size || count > size - from || !sent_words(p, count) || !well_ended(p, count)) return 0;
    size_t w = 0, i = 0;
    for (; count - i >= 8; i += 8, w += 7) {
        uint64_t d = load8(p + i);
        d = (d & EACH(0x7F)) | ((d >> 56 & 127) * 0x0080402010080402u & EACH(0x80));
        memcpy(store + w, &d, 7);
    }
    if (i < count) w += unpack_group(p + i, count - i - 1, store + w);
    return w;
}

SIDE bytewise = {.way = "byte by byte", .sum = sum_bytes, .pack = pack_bytes, .unpack = unpack_bytes};
SIDE words = {.way = "64-bit words", .sum = sum_words, .pack = pack_words, .unpack = unpack_words};
