/* The whole-frame reads in C with care: marks are found by memchr or by words, what lies between is copied whole, check values as in runs_write.c. */
#include "parts.h"

static size_t least(size_t a, size_t b) { return a < b ? a : b; }

static uint64_t pcs_end(uint8_t *g, size_t n, int exact) {
    int crc = pcs_has_crc(g, n);
    if (n < (crc ? 12 : 9)) return 6;
    if (!crc && n > 1180) return 5;
    size_t body = n - (crc ? 4 : 1), k = body - 8, stated = (size_t)(g[4] & 127) * 128 + (g[5] & 127);
    if (g[body] != sum_words(g, body) || (crc && !pcs_same_crc(g + body + 1, crc16_slices(0, g, body)))) return 8;
    if (!pcs_fields_ok(g) || ((g[2] & 2) && stated)) return 9;
    if (stated != k) return 10;
    uint8_t head[8];
    memcpy(head, g, 8);
    size_t size = unpack_words(g, n, 8, k);
    if (k && !size) return 13;
    return exact ? pcs_answer(head, size) : 6;
}

uint64_t runs_pcs_read(const uint8_t *frame, size_t n, uint8_t *store, size_t size) {
    if (size < 1183) return 1;
    const uint8_t *p = n ? memchr(frame, 253, n) : 0, *end = frame + n;
    if (!p++) return 6;
    size_t most = least((size_t)(end - p), 1184);
    const uint8_t *stop = memchr(p, 254, most), *again = memchr(p, 253, stop ? (size_t)(stop - p) : most);
    size_t count = (size_t)((again ? again : stop ? stop : p + most) - p);
    memcpy(store, p, least(count, 1183));
    if (again) return 4;
    if (stop) return pcs_end(store, count, stop + 1 == end && *frame == 253);
    return count > 1183 ? 5 : 6;
}

uint64_t runs_mdu_read(const uint8_t *frame, size_t n, uint8_t *store, size_t size) {
    if (size < 1033) return 1;
    const uint8_t *p = n ? memchr(frame, 0xE3, n) : 0;
    if (!p) return 6;
    size_t there = (size_t)(frame + n - p);
    memcpy(store, p, least(there, 6));
    if (there < 6) return 6;
    if (p[1] != 1 || p[4] == 0) return 9;
    if (p[5] != (uint8_t)(p[0] + p[1] + p[2] + p[3] + p[4])) return 8;
    size_t length = (size_t)p[2] << 8 | p[3];
    if (length < 1 || length > 1025) return 10;
    memcpy(store + 6, p + 6, least(there, length + 8) - 6);
    if (there < length + 8) return 6;
    uint16_t c = crc16_slices(0, p + 6, length);
    if (p[6 + length] != c >> 8 || p[7 + length] != (c & 255)) return 8;
    if (there != length + 8 || p != frame) return 6;
    return (uint64_t)length << 8 | (uint64_t)p[4] << 24;
}

static uint64_t dle_end(const uint8_t *g, size_t count, int exact) {
    if (count < 4) return 6;
    size_t length = g[2];
    if (count != (length ? length + 3 : 4)) return 10;
    if (!exact) return 6;
    return (uint64_t)length << 8 | (uint64_t)!length << 20 | (uint64_t)g[0] << 24 | (uint64_t)g[1] << 32 | (uint64_t)(length ? 0 : g[3]) << 40;
}

uint64_t runs_dle_read(const uint8_t *frame, size_t n, uint8_t *store, size_t size) {
    if (size < 258) return 1;
    const uint8_t *p = frame, *end = frame + n;
    do {
        p = end - p < 2 ? 0 : memchr(p, 16, (size_t)(end - p - 1));
        if (!p) return 6;
        p += 2;
    } while (p[-1] != 2);
    const uint8_t *begin = p - 2;
    for (size_t count = 0;;) {
        size_t most = least((size_t)(end - p), 259 - count);
        const uint8_t *mark = most ? memchr(p, 16, most) : 0;
        size_t k = mark ? (size_t)(mark - p) : most;
        memcpy(store + count, p, least(k, 258 - count));
        count += k; p += k;
        if (count > 258) return 5;
        if (!mark || end - p < 2) return 6;
        uint8_t b = p[1];
        p += 2;
        if (b == 2) return 4;
        if (b == 3) return dle_end(store, count, p == end && begin == frame);
        if (b != 16) return 7;
        if (count == 258) return 5;
        store[count++] = 16;
    }
}

static uint64_t expansion_end(const uint8_t *g, size_t count, int exact) {
    if (count < 8) return 6;
    uint32_t c = ~crc32_slices(0xFFFFFFFFu, g, count - 4);
    if (memcmp(&c, g + count - 4, 4)) return 8;
    if (g[1] > 2 || g[2] > 3 || (g[1] && count > 8)) return 9;
    if (!exact) return 6;
    return (uint64_t)(count - 8) << 8 | (uint64_t)g[0] << 24 | (uint64_t)g[1] << 32 | (uint64_t)g[2] << 40 | (uint64_t)g[3] << 48;
}

uint64_t runs_expansion_read(const uint8_t *frame, size_t n, uint8_t *store, size_t size) {
    if (size < 1032) return 1;
    const uint8_t *begin = n ? memchr(frame, 0xFD, n) : 0, *p = begin, *end = frame + n;
    if (!p++) return 6;
    for (size_t count = 0; p < end;) {
        if (end - p >= 8 && count <= 1024) {
            uint64_t w = load8(p), m = marks(w);
            if (!m) { store8(store + count, w); count += 8; p += 8; continue; }
            for (size_t k = __builtin_ctzll(m) >> 3; k; k--) store[count++] = *p++;
        }
        uint8_t b = *p++;
        if (b == 0xFD) return 4;
        if (b == 0xFE) return expansion_end(store, count, p == end && begin == frame);
        if (b == 0xFF) {
            if (p == end) return 6;
            b = *p++;
            if (b == 0xFD) return 4;
            if (b > 2) return 7;
            b = 0xFF - b;
        }
        if (count == 1032) return 5;
        store[count++] = b;
    }
    return 6;
}

/* The digits in one word, the last highest and zeros below the first: joined to twos, fours and all eight by products. */
uint64_t runs_display_read(const uint8_t *frame, size_t n, uint8_t *store, size_t size) {
    uint64_t r = runs_pcs_read(frame, n, store, size);
    if (r & 255) return r;
    if (!display_fits(r, store)) return 21;
    uint64_t w = (load8(store + 5) ^ EACH('0')) << (8 * (8 - display_digits(r)));
    if ((w | (w + EACH(0x76))) & EACH(0x80)) return 21;
    w = (w * 10 + (w >> 8)) & 0x00FF00FF00FF00FFu;
    w = (w * 100 + (w >> 16)) & 0x0000FFFF0000FFFFu;
    return display_answer(r, (uint32_t)(w * 10000 + (w >> 32)));
}

SIDE runs_read = {.way = "by runs", .pcs_read = runs_pcs_read, .mdu_read = runs_mdu_read,
    .dle_read = runs_dle_read, .expansion_read = runs_expansion_read, .display_read = runs_display_read};
