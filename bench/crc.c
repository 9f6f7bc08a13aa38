/* Both CRCs in C: bit by bit, by a mask and by a condition; by a table of 256 entries; and eight bytes at a time by eight tables (slicing by 8). The
 * 16-bit one also from sixteen constants, four bits at a time, as linebox has it. */
#include "parts.h"

static inline uint32_t bit_by_mask(uint32_t c, uint32_t constant) { return c >> 1 ^ (-(c & 1) & constant); }
static inline uint32_t bit_by_condition(uint32_t c, uint32_t constant) { return c & 1 ? c >> 1 ^ constant : c >> 1; }

uint16_t crc16_masks(uint16_t start, const uint8_t *p, size_t n) {
    uint32_t c = start;
    for (size_t i = 0; i < n; i++) {
        c ^= p[i];
        for (int k = 8; k > 0; k--) c = bit_by_mask(c, 0xA001);
    }
    return (uint16_t)c;
}

uint32_t crc32_masks(const uint8_t *p, size_t n) {
    uint32_t c = 0xFFFFFFFFu;
    for (size_t i = 0; i < n; i++) {
        c ^= p[i];
        for (int k = 8; k > 0; k--) c = bit_by_mask(c, 0xEDB88320u);
    }
    return ~c;
}

uint16_t crc16_conditions(uint16_t start, const uint8_t *p, size_t n) {
    uint32_t c = start;
    for (size_t i = 0; i < n; i++) {
        c ^= p[i];
        for (int k = 8; k > 0; k--) c = bit_by_condition(c, 0xA001);
    }
    return (uint16_t)c;
}

uint32_t crc32_conditions(const uint8_t *p, size_t n) {
    uint32_t c = 0xFFFFFFFFu;
    for (size_t i = 0; i < n; i++) {
        c ^= p[i];
        for (int k = 8; k > 0; k--) c = bit_by_condition(c, 0xEDB88320u);
    }
    return ~c;
}

/* With the bits counted up, clang 22 knows these loops for CRCs, and makes of each a table of 256 entries. */
uint16_t crc16_counting_up(uint16_t c, const uint8_t *p, size_t n) {
    for (size_t i = 0; i < n; i++) {
        c ^= p[i];
        for (int k = 0; k < 8; k++) c = c & 1 ? (c >> 1) ^ 0xA001 : c >> 1;
    }
    return c;
}

uint32_t crc32_counting_up(const uint8_t *p, size_t n) {
    uint32_t c = 0xFFFFFFFFu;
    for (size_t i = 0; i < n; i++) {
        c ^= p[i];
        for (int k = 0; k < 8; k++) c = c & 1 ? (c >> 1) ^ 0xEDB88320u : c >> 1;
    }
    return ~c;
}

static const uint16_t constants16[16] = {0x0000, 0xCC01, 0xD801, 0x1400, 0xF001, 0x3C00, 0x2800, 0xE401,
                                         0xA001, 0x6C00, 0x7800, 0xB401, 0x5000, 0x9C01, 0x8801, 0x4400};

uint16_t crc16_halves(uint16_t start, const uint8_t *p, size_t n) {
    uint32_t c = start;
    for (size_t i = 0; i < n; i++) {
        c ^= p[i];
        c = constants16[c & 15] ^ c >> 4;
        c = constants16[c & 15] ^ c >> 4;
    }
    return (uint16_t)c;
}

/* The table of 256 entries, and behind it row k: a byte with k + 1 bytes of 0 after it. They stand ready before main. */
static uint16_t one16[256], slice16[7][256];
static uint32_t one32[256], slice32[7][256];

__attribute__((constructor)) static void fill(void) {
    for (unsigned b = 0; b < 256; b++) {
        uint16_t c = (uint16_t)b;
        uint32_t d = b;
        for (int k = 0; k < 8; k++) {
            c = c & 1 ? (c >> 1) ^ 0xA001 : c >> 1;
            d = d & 1 ? (d >> 1) ^ 0xEDB88320u : d >> 1;
        }
        one16[b] = c;
        one32[b] = d;
    }
    for (int k = 0; k < 7; k++)
        for (int b = 0; b < 256; b++) {
            uint16_t c = k ? slice16[k - 1][b] : one16[b];
            uint32_t d = k ? slice32[k - 1][b] : one32[b];
            slice16[k][b] = c >> 8 ^ one16[c & 255];
            slice32[k][b] = d >> 8 ^ one32[d & 255];
        }
}

uint16_t crc16_table(uint16_t c, const uint8_t *p, size_t n) {
    for (size_t i = 0; i < n; i++) c = one16[(c ^ p[i]) & 255] ^ c >> 8;
    return c;
}

uint32_t crc32_table(uint32_t c, const uint8_t *p, size_t n) {
    for (size_t i = 0; i < n; i++) c = one32[(c ^ p[i]) & 255] ^ c >> 8;
    return c;
}

uint16_t crc16_slices(uint16_t c, const uint8_t *p, size_t n) {
    for (; n >= 8; p += 8, n -= 8) {
        uint64_t w = load8(p) ^ c;
        c = slice16[6][w & 255] ^ slice16[5][w >> 8 & 255] ^ slice16[4][w >> 16 & 255] ^ slice16[3][w >> 24 & 255]
            ^ slice16[2][w >> 32 & 255] ^ slice16[1][w >> 40 & 255] ^ slice16[0][w >> 48 & 255] ^ one16[w >> 56];
    }
    return crc16_table(c, p, n);
}

uint32_t crc32_slices(uint32_t c, const uint8_t *p, size_t n) {
    for (; n >= 8; p += 8, n -= 8) {
        uint64_t w = load8(p) ^ c;
        c = slice32[6][w & 255] ^ slice32[5][w >> 8 & 255] ^ slice32[4][w >> 16 & 255] ^ slice32[3][w >> 24 & 255]
            ^ slice32[2][w >> 32 & 255] ^ slice32[1][w >> 40 & 255] ^ slice32[0][w >> 48 & 255] ^ one32[w >> 56];
    }
    return crc32_table(c, p, n);
}

uint32_t crc32_by_table(const uint8_t *p, size_t n) { return ~crc32_table(0xFFFFFFFFu, p, n); }
uint32_t crc32_by_slices(const uint8_t *p, size_t n) { return ~crc32_slices(0xFFFFFFFFu, p, n); }

SIDE masks = {.way = "bit by bit, mask", .crc16 = crc16_masks, .crc32 = crc32_masks};
SIDE conditions = {.way = "bit by bit, condition", .crc16 = crc16_conditions, .crc32 = crc32_conditions};
SIDE counting_up = {.way = "bit by bit, counting up", .crc16 = crc16_counting_up, .crc32 = crc32_counting_up};
SIDE halves = {.way = "sixteen constants", .crc16 = crc16_halves};
SIDE table = {.way = "table of 256", .crc16 = crc16_table, .crc32 = crc32_by_table};
SIDE slices = {.way = "slicing by 8", .crc16 = crc16_slices, .crc32 = crc32_by_slices};
