/* The whole-frame reads in C as one writes them down: one byte after the other, by the state that it meets. */
#include "parts.h"

static uint64_t pcs_end(uint8_t *g, size_t n, int exact) {
    int crc = pcs_has_crc(g, n);
    if (n < (crc ? 12 : 9)) return 6;
    if (!crc && n > 1180) return 5;
    size_t body = n - (crc ? 4 : 1), k = body - 8, stated = (size_t)(g[4] & 127) * 128 + (g[5] & 127);
    if (g[body] != sum_bytes(g, body) || (crc && !pcs_same_crc(g + body + 1, crc16_table(0, g, body)))) return 8;
    if (!pcs_fields_ok(g) || ((g[2] & 2) && stated)) return 9;
    if (stated != k) return 10;
    uint8_t head[8];
    memcpy(head, g, 8);
    size_t size = unpack_bytes(g, n, 8, k);
    if (k && !size) return 13;
    return exact ? pcs_answer(head, size) : 6;
}

uint64_t plain_pcs_read(const uint8_t *frame, size_t n, uint8_t *store, size_t size) {
    if (size < 1183) return 1;
    int open = 0; size_t count = 0, noise = 0;
    for (size_t i = 0; i < n; i++) {
        uint8_t b = frame[i];
        if (!open) { if (b == 253) open = 1; else noise++; continue; }
        if (b == 253) return 4;
        if (b == 254) return pcs_end(store, count, i + 1 == n && noise == 0);
        if (count == 1183) return 5;
        store[count++] = b;
    }
    return 6;
}

uint64_t plain_mdu_read(const uint8_t *frame, size_t n, uint8_t *store, size_t size) {
    if (size < 1033) return 1;
    size_t count = 0, length = 0, noise = 0;
    for (size_t i = 0; i < n; i++) {
        uint8_t b = frame[i];
        if (count == 0 && b != 0xE3) { noise++; continue; }
        store[count++] = b;
        if (count == 6) {
            if (store[1] != 1 || store[4] == 0) return 9;
            if (store[5] != (uint8_t)(store[0] + store[1] + store[2] + store[3] + store[4])) return 8;
            length = (size_t)store[2] << 8 | store[3];
            if (length < 1 || length > 1025) return 10;
        } else if (count > 6 && count == length + 8) {
            uint16_t c = crc16_table(0, store + 6, length);
            if (store[6 + length] != c >> 8 || store[7 + length] != (c & 255)) return 8;
            if (i + 1 != n || noise) return 6;
            return (uint64_t)length << 8 | (uint64_t)store[4] << 24;
        }
    }
    return 6;
}

static uint64_t dle_end(const uint8_t *g, size_t count, int exact) {
    if (count < 4) return 6;
    size_t length = g[2];
    if (count != (length ? length + 3 : 4)) return 10;
    if (!exact) return 6;
    return (uint64_t)length << 8 | (uint64_t)!length << 20 | (uint64_t)g[0] << 24 | (uint64_t)g[1] << 32 | (uint64_t)(length ? 0 : g[3]) << 40;
}

uint64_t plain_dle_read(const uint8_t *frame, size_t n, uint8_t *store, size_t size) {
    if (size < 258) return 1;
    int mode = 0; size_t count = 0, noise = 0;
    for (size_t i = 0; i < n; i++) {
        uint8_t b = frame[i];
        switch (mode) {
        case 0: if (b == 16) mode = 1; else noise++; break;
        case 1: if (b == 2) mode = 2; else { noise += 2; mode = 0; } break;
        case 2: if (b == 16) { mode = 3; break; }
                if (count == 258) return 5;
                store[count++] = b; break;
        default:
            if (b == 2) return 4;
            if (b == 3) return dle_end(store, count, i + 1 == n && noise == 0);
            if (b != 16) return 7;
            if (count == 258) return 5;
            store[count++] = b; mode = 2;
        }
    }
    return 6;
}

static uint64_t expansion_end(const uint8_t *g, size_t count, int exact) {
    if (count < 8) return 6;
    uint32_t c = ~crc32_table(0xFFFFFFFFu, g, count - 4);
    for (size_t i = 0; i < 4; i++) if (g[count - 4 + i] != (uint8_t)(c >> (8 * i))) return 8;
    if (g[1] > 2 || g[2] > 3 || (g[1] && count > 8)) return 9;
    if (!exact) return 6;
    return (uint64_t)(count - 8) << 8 | (uint64_t)g[0] << 24 | (uint64_t)g[1] << 32 | (uint64_t)g[2] << 40 | (uint64_t)g[3] << 48;
}

uint64_t plain_expansion_read(const uint8_t *frame, size_t n, uint8_t *store, size_t size) {
    if (size < 1032) return 1;
    int mode = 0; size_t count = 0, noise = 0;
    for (size_t i = 0; i < n; i++) {
        uint8_t b = frame[i];
        if (mode == 0) { if (b == 0xFD) mode = 1; else noise++; continue; }
        if (b == 0xFD) return 4;
        if (mode == 1) {
            if (b == 0xFE) return expansion_end(store, count, i + 1 == n && noise == 0);
            if (b == 0xFF) { mode = 2; continue; }
        } else {
            if (b > 2) return 7;
            b = 0xFF - b; mode = 1;
        }
        if (count == 1032) return 5;
        store[count++] = b;
    }
    return 6;
}

uint64_t plain_display_read(const uint8_t *frame, size_t n, uint8_t *store, size_t size) {
    uint64_t r = plain_pcs_read(frame, n, store, size);
    if (r & 255) return r;
    if (!display_fits(r, store)) return 21;
    uint32_t value = 0;
    for (size_t i = 0; i < display_digits(r); i++) {
        uint8_t b = store[5 + i];
        if (b < '0' || b > '9') return 21;
        value = value * 10 + (b - '0');
    }
    return display_answer(r, value);
}

uint32_t plain_display_shown(uint32_t value) {
    uint32_t left = value > 99 ? '0' + value / 100 % 10 : ' ', middle = value > 9 ? '0' + value / 10 % 10 : ' ';
    return left | middle << 8 | ('0' + value % 10) << 16;
}

SIDE plain_read = {.way = "plain", .pcs_read = plain_pcs_read, .mdu_read = plain_mdu_read, .dle_read = plain_dle_read,
    .expansion_read = plain_expansion_read, .display_read = plain_display_read, .display_shown = plain_display_shown};
