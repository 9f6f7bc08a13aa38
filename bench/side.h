/* A side of the benchmark: linebox, or C written in one way. A call that a side does not have is null; the calls of frames are those of linebox.h. */
#ifndef SIDE_H
#define SIDE_H
#include <stddef.h>
#include <stdint.h>

#define SIDE __attribute__((visibility("default"))) const struct side

struct side {
    const char *way;
    uint16_t (*crc16)(uint16_t start, const uint8_t *bytes, size_t n);
    uint32_t (*crc32)(const uint8_t *bytes, size_t n);
    uint8_t (*sum)(const uint8_t *bytes, size_t n);
    size_t (*pack)(const uint8_t *data, size_t n, uint8_t *out, size_t room);               /* 0: no room */
    size_t (*unpack)(uint8_t *store, size_t size, size_t from, size_t count);               /* 0: badly packed */
    int32_t (*pcs_write)(uint8_t receiver, uint8_t sender, uint8_t kind, uint8_t number, uint8_t sender_port, uint8_t receiver_port,
                         uint8_t crc, const uint8_t *data, size_t n, uint8_t *out, size_t room);
    int32_t (*mdu_write)(uint8_t address, const uint8_t *body, size_t n, uint8_t *out, size_t room);
    int32_t (*dle_write)(uint8_t sequence, uint8_t node, const uint8_t *data, size_t n, uint8_t *out, size_t room);
    int32_t (*expansion_write)(uint8_t id, uint8_t type, uint8_t repeat, uint8_t address, const uint8_t *data, size_t n, uint8_t *out, size_t room);
    uint64_t (*pcs_read)(const uint8_t *frame, size_t n, uint8_t *store, size_t size);
    uint64_t (*mdu_read)(const uint8_t *frame, size_t n, uint8_t *store, size_t size);
    uint64_t (*dle_read)(const uint8_t *frame, size_t n, uint8_t *store, size_t size);
    uint64_t (*expansion_read)(const uint8_t *frame, size_t n, uint8_t *store, size_t size);
    int32_t (*display_write)(uint32_t value, uint8_t receiver, uint8_t sender, uint8_t number, uint8_t *out, size_t room);
    uint64_t (*display_read)(const uint8_t *frame, size_t n, uint8_t *store, size_t size);
    uint32_t (*display_shown)(uint32_t value);
};
#endif
