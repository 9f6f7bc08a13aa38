/* What the opponents' files share. The registers of crc16_.. and crc32_.. come in and go out as they are: a 32-bit value starts with all ones and
 * ends inverted. */
#ifndef PARTS_H
#define PARTS_H
#include "side.h"
#include <string.h>

uint16_t crc16_table(uint16_t c, const uint8_t *p, size_t n);
uint16_t crc16_slices(uint16_t c, const uint8_t *p, size_t n);
uint32_t crc32_table(uint32_t c, const uint8_t *p, size_t n);
uint32_t crc32_slices(uint32_t c, const uint8_t *p, size_t n);

uint8_t sum_bytes(const uint8_t *p, size_t n);
uint8_t sum_words(const uint8_t *p, size_t n);
size_t pack_bytes(const uint8_t *data, size_t n, uint8_t *out, size_t room);
size_t pack_words(const uint8_t *data, size_t n, uint8_t *out, size_t room);
size_t unpack_bytes(uint8_t *store, size_t size, size_t from, size_t count);
size_t unpack_words(uint8_t *store, size_t size, size_t from, size_t count);

#define EACH(byte) ((byte) * 0x0101010101010101u)
static inline uint64_t load8(const uint8_t *p) { uint64_t w; memcpy(&w, p, 8); return w; }
static inline void store8(uint8_t *p, uint64_t w) { memcpy(p, &w, 8); }

/* The top bit of each byte of a word that is FD, FE or FF. */
static inline uint64_t marks(uint64_t w) { return ((w & EACH(0x7F)) + EACH(3)) & w & EACH(0x80); }

/* PCS: what is tested of a frame's fields, and the answer that they give. Info is 4 and the kind added, and 8 more with a CRC. */
static inline int pcs_plain(uint8_t b) { return b >= 1 && b <= 250; }
static inline uint8_t pcs_sent(uint8_t v) { return v ? v : 128; }
static inline int pcs_fields_ok(const uint8_t *g) {
    return (pcs_plain(g[0]) || g[0] == 255) && pcs_plain(g[1]) && pcs_plain(g[3]) && pcs_plain(g[6]) && pcs_plain(g[7])
           && (g[2] & 0xF4) == 4 && g[4] >= 1 && g[4] <= 128 && g[5] >= 1 && g[5] <= 128;
}
static inline uint64_t pcs_answer(const uint8_t *head, size_t n) {
    return (uint64_t)n << 8 | (uint64_t)(head[2] & 3) << 20 | (uint64_t)(head[2] >> 3 & 1) << 22 | (uint64_t)head[0] << 24 | (uint64_t)head[1] << 32
           | (uint64_t)head[3] << 40 | (uint64_t)head[6] << 48 | (uint64_t)head[7] << 56;
}

/* PCS: whether n gathered bytes are a frame with a CRC, and how a CRC is sent. */
static inline int pcs_has_crc(const uint8_t *g, size_t n) { return n >= 3 && (g[2] & 0xFC) == 12; }
static inline void pcs_put_crc(uint8_t *p, uint16_t c) {
    p[0] = pcs_sent(c & 127);
    p[1] = pcs_sent(c >> 7 & 127);
    p[2] = pcs_sent((uint8_t)(c >> 14));
}
static inline int pcs_same_crc(const uint8_t *p, uint16_t c) { uint8_t sent[3]; pcs_put_crc(sent, c); return !memcmp(p, sent, 3); }

/* The display: whether a PCS message is an order, its digits still to be looked at one by one, and the answer to an order. */
static inline size_t display_digits(uint64_t r) { return (r >> 8 & 0xFFF) - 5; }
static inline int display_fits(uint64_t r, const uint8_t *data) {
    size_t n = display_digits(r);
    return (r >> 20 & 7) == 1 && r >> 48 == 0x0101 && n >= 1 && n <= 8 && !memcmp(data, "CLCSH", 5) && (n == 1 || data[5] != '0');
}
static inline uint64_t display_answer(uint64_t r, uint32_t value) { return (r >> 24 & 0xFFFFFF) << 8 | (uint64_t)value << 32; }
#endif
