/* The writers in C with care: plain runs are found by memchr or by words and copied whole, CRCs are sliced by 8, packing goes by words. */
#include "parts.h"

int32_t runs_pcs_write(uint8_t receiver, uint8_t sender, uint8_t kind, uint8_t number, uint8_t sender_port, uint8_t receiver_port,
                       uint8_t crc, const uint8_t *data, size_t n, uint8_t *out, size_t room) {
    size_t k = n + (n + 6) / 7, length = k + (crc ? 14 : 11);
    uint8_t info = (uint8_t)(4 + kind + 8 * crc);
    uint8_t head[8] = {receiver, sender, info, number, pcs_sent(k >> 7 & 127), pcs_sent(k & 127), sender_port, receiver_port};
    if (kind > 3 || crc > 1 || n > 1024 || (kind > 1 && n) || !pcs_fields_ok(head)) return -3;
    if (room < length) return -2;
    out[0] = 253;
    memcpy(out + 1, head, 8);
    pack_words(data, n, out + 9, k);
    out[9 + k] = sum_words(out + 1, 8 + k);
    if (crc) pcs_put_crc(out + 10 + k, crc16_slices(0, out + 1, 8 + k));
    out[length - 1] = 254;
    return (int32_t)length;
}

int32_t runs_mdu_write(uint8_t address, const uint8_t *body, size_t n, uint8_t *out, size_t room) {
    if (address == 0 || n == 0 || n > 1025) return -3;
    if (room < n + 8) return -2;
    uint8_t high = (uint8_t)(n >> 8), low = n & 255;
    uint8_t head[6] = {0xE3, 1, high, low, address, (uint8_t)(0xE3 + 1 + high + low + address)};
    memcpy(out, head, 6);
    memcpy(out + 6, body, n);
    uint16_t c = crc16_slices(0, body, n);
    out[6 + n] = (uint8_t)(c >> 8); out[7 + n] = c & 255;
    return (int32_t)(n + 8);
}

static uint8_t *dle_one(uint8_t *p, uint8_t b) { *p++ = b; if (b == 16) *p++ = 16; return p; }

/* A run up to a 10 and with it is copied whole, and then the second 10 put. */
static uint8_t *dle_put(uint8_t *p, const uint8_t *data, size_t n) {
    const uint8_t *end = data + n, *mark;
    while ((mark = memchr(data, 16, (size_t)(end - data)))) {
        size_t k = (size_t)(mark + 1 - data);
        memcpy(p, data, k);
        p[k] = 16;
        p += k + 1; data += k;
    }
    memcpy(p, data, (size_t)(end - data));
    return p + (end - data);
}

int32_t runs_dle_write(uint8_t sequence, uint8_t node, const uint8_t *data, size_t n, uint8_t *out, size_t room) {
    if (n == 0 || n > 255) return -3;
    if (room < 10 + 2 * n) {
        size_t need = 7 + n + (sequence == 16) + (node == 16) + (n == 16);
        for (size_t i = 0; i < n; i++) need += data[i] == 16;
        if (room < need) return -2;
    }
    uint8_t *p = out;
    *p++ = 16; *p++ = 2;
    p = dle_put(dle_one(dle_one(dle_one(p, sequence), node), (uint8_t)n), data, n);
    *p++ = 16; *p++ = 3;
    return (int32_t)(p - out);
}

static uint8_t *expansion_one(uint8_t *p, uint8_t b) {
    if (b >= 0xFD) { *p++ = 0xFF; *p++ = 0xFF - b; } else *p++ = b;
    return p;
}

/* Eight bytes with no mark among them are copied as one word. */
static uint8_t *expansion_put(uint8_t *p, const uint8_t *data, size_t n) {
    const uint8_t *end = data + n;
    while (end - data >= 8) {
        uint64_t w = load8(data), m = marks(w);
        if (!m) { store8(p, w); p += 8; data += 8; continue; }
        for (const uint8_t *mark = data + (__builtin_ctzll(m) >> 3); data <= mark; data++) p = expansion_one(p, *data);
    }
    for (; data < end; data++) p = expansion_one(p, *data);
    return p;
}

static size_t expansion_length(const uint8_t *data, size_t n) {
    size_t k = n;
    for (size_t i = 0; i < n; i++) k += data[i] >= 0xFD;
    return k;
}

int32_t runs_expansion_write(uint8_t id, uint8_t type, uint8_t repeat, uint8_t address, const uint8_t *data, size_t n, uint8_t *out, size_t room) {
    if (type > 2 || repeat > 3 || n > 1024 || (type && n)) return -3;
    uint8_t head[4] = {id, type, repeat, address}, check[4];
    uint32_t c = ~crc32_slices(crc32_table(0xFFFFFFFFu, head, 4), data, n);
    memcpy(check, &c, 4);
    if (room < 18 + 2 * n && room < 2 + expansion_length(head, 4) + expansion_length(data, n) + expansion_length(check, 4)) return -2;
    uint8_t *p = out;
    *p++ = 0xFD;
    p = expansion_put(expansion_put(expansion_put(p, head, 4), data, n), check, 4);
    *p++ = 0xFE;
    return (int32_t)(p - out);
}

/* Eight digits in one word, the first lowest: cut into fours, twos and ones by products; the zeros before the first that counts are shifted out. */
int32_t runs_display_write(uint32_t value, uint8_t receiver, uint8_t sender, uint8_t number, uint8_t *out, size_t room) {
    if (value > 99999999) return -3;
    uint64_t w = value / 10000 | (uint64_t)(value % 10000) << 32;
    uint64_t high = (w * 5243 >> 19) & 0x0000007F0000007Fu;
    w = high | (w - high * 100) << 16;
    high = (w * 103 >> 10) & 0x000F000F000F000Fu;
    w = high | (w - high * 10) << 8;
    size_t zeros = (size_t)__builtin_ctzll(w | 1ull << 56) >> 3;
    uint8_t data[13] = "CLCSH";
    store8(data + 5, (w | EACH('0')) >> (8 * zeros));
    return runs_pcs_write(receiver, sender, 1, number, 1, 1, 0, data, 13 - zeros, out, room);
}

SIDE runs_write = {.way = "by runs", .pcs_write = runs_pcs_write, .mdu_write = runs_mdu_write,
    .dle_write = runs_dle_write, .expansion_write = runs_expansion_write, .display_write = runs_display_write};
