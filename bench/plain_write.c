/* The writers in C as one writes them down: a loop over the bytes, and a table of 256 entries for a CRC. */
#include "parts.h"

int32_t plain_pcs_write(uint8_t receiver, uint8_t sender, uint8_t kind, uint8_t number, uint8_t sender_port, uint8_t receiver_port,
                        uint8_t crc, const uint8_t *data, size_t n, uint8_t *out, size_t room) {
    size_t k = n + (n + 6) / 7, length = k + (crc ? 14 : 11);
    uint8_t info = (uint8_t)(4 + kind + 8 * crc);
    uint8_t head[8] = {receiver, sender, info, number, pcs_sent(k >> 7 & 127), pcs_sent(k & 127), sender_port, receiver_port};
    if (kind > 3 || crc > 1 || n > 1024 || (kind > 1 && n) || !pcs_fields_ok(head)) return -3;
    if (room < length) return -2;
    out[0] = 253;
    for (int i = 0; i < 8; i++) out[1 + i] = head[i];
    pack_bytes(data, n, out + 9, k);
    out[9 + k] = sum_bytes(out + 1, 8 + k);
    if (crc) pcs_put_crc(out + 10 + k, crc16_table(0, out + 1, 8 + k));
    out[length - 1] = 254;
    return (int32_t)length;
}

int32_t plain_mdu_write(uint8_t address, const uint8_t *body, size_t n, uint8_t *out, size_t room) {
    if (address == 0 || n == 0 || n > 1025) return -3;
    if (room < n + 8) return -2;
    out[0] = 0xE3; out[1] = 1; out[2] = (uint8_t)(n >> 8); out[3] = n & 255; out[4] = address;
    out[5] = (uint8_t)(out[0] + out[1] + out[2] + out[3] + out[4]);
    for (size_t i = 0; i < n; i++) out[6 + i] = body[i];
    uint16_t c = crc16_table(0, body, n);
    out[6 + n] = (uint8_t)(c >> 8); out[7 + n] = c & 255;
    return (int32_t)(n + 8);
}

static uint8_t *dle_put(uint8_t *p, const uint8_t *data, size_t n) {
    for (size_t i = 0; i < n; i++) { *p++ = data[i]; if (data[i] == 16) *p++ = 16; }
    return p;
}

int32_t plain_dle_write(uint8_t sequence, uint8_t node, const uint8_t *data, size_t n, uint8_t *out, size_t room) {
    if (n == 0 || n > 255) return -3;
    uint8_t head[3] = {sequence, node, (uint8_t)n};
    size_t need = 7 + n;
    for (int i = 0; i < 3; i++) need += head[i] == 16;
    for (size_t i = 0; i < n; i++) need += data[i] == 16;
    if (room < need) return -2;
    uint8_t *p = out;
    *p++ = 16; *p++ = 2;
    p = dle_put(dle_put(p, head, 3), data, n);
    *p++ = 16; *p++ = 3;
    return (int32_t)(p - out);
}

static uint8_t *expansion_put(uint8_t *p, const uint8_t *data, size_t n) {
    for (size_t i = 0; i < n; i++) {
        if (data[i] >= 0xFD) { *p++ = 0xFF; *p++ = 0xFF - data[i]; } else *p++ = data[i];
    }
    return p;
}

static size_t expansion_length(const uint8_t *data, size_t n) {
    size_t k = n;
    for (size_t i = 0; i < n; i++) k += data[i] >= 0xFD;
    return k;
}

int32_t plain_expansion_write(uint8_t id, uint8_t type, uint8_t repeat, uint8_t address, const uint8_t *data, size_t n, uint8_t *out, size_t room) {
    if (type > 2 || repeat > 3 || n > 1024 || (type && n)) return -3;
    uint8_t head[4] = {id, type, repeat, address}, check[4];
    uint32_t c = ~crc32_table(crc32_table(0xFFFFFFFFu, head, 4), data, n);
    for (int i = 0; i < 4; i++) check[i] = (uint8_t)(c >> (8 * i));
    if (room < 2 + expansion_length(head, 4) + expansion_length(data, n) + expansion_length(check, 4)) return -2;
    uint8_t *p = out;
    *p++ = 0xFD;
    p = expansion_put(expansion_put(expansion_put(p, head, 4), data, n), check, 4);
    *p++ = 0xFE;
    return (int32_t)(p - out);
}

int32_t plain_display_write(uint32_t value, uint8_t receiver, uint8_t sender, uint8_t number, uint8_t *out, size_t room) {
    if (value > 99999999) return -3;
    uint8_t data[13], *end = data + 13, *p = end;
    do *--p = (uint8_t)('0' + value % 10); while (value /= 10);
    p -= 5;
    memcpy(p, "CLCSH", 5);
    return plain_pcs_write(receiver, sender, 1, number, 1, 1, 0, p, (size_t)(end - p), out, room);
}

SIDE plain_write = {.way = "plain", .pcs_write = plain_pcs_write, .mdu_write = plain_mdu_write,
    .dle_write = plain_dle_write, .expansion_write = plain_expansion_write, .display_write = plain_display_write};
