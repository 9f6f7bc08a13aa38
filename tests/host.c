/* The C interface as a host uses it: each link is written and read back, a check value is carried on, orders for a display are sent and served, each
 * rule of the header is tried, and what fails is printed. */
#include "linebox.h"

#include <stdio.h>
#include <string.h>

static int failures;

#define CHECK(x)                                               \
    do {                                                       \
        if (!(x)) {                                            \
            printf("%s:%d: failed: %s\n", __FILE__, __LINE__, #x); \
            failures++;                                        \
        }                                                      \
    } while (0)

/* a cast that neither language warns of */
#ifdef __cplusplus
#define CAST(type, x) static_cast<type>(x)
#else
#define CAST(type, x) ((type)(x))
#endif

#define MARK 0xA5 /* what lent memory holds before a call */

static uint8_t out[LINEBOX_LONGEST + 2], store[LINEBOX_PCS_STORE + 2], data[1026];

/* memory behind the first n bytes is as it was */
static int kept(const uint8_t *memory, size_t n, size_t size) {
    for (size_t i = n; i < size; i++)
        if (memory[i] != MARK) return 0;
    return 1;
}

static void fresh(void) {
    memset(out, MARK, sizeof out);
    memset(store, MARK, sizeof store);
}

/* memory holds these n bytes at its start, and behind them is as it was */
static int holds(const uint8_t *memory, const uint8_t *bytes, size_t n, size_t size) { return !memcmp(memory, bytes, n) && kept(memory, n, size); }

/* the acknowledgement frame of document 000 */
static const uint8_t acknowledgement[] = {253, 250, 101, 6, 2, 128, 128, 1, 1, 105, 254};

static void pcs_reads_back(void) {
    fresh();
    int32_t n = linebox_pcs_write(250, 101, LINEBOX_PCS_POSITIVE, 2, 1, 1, 0, NULL, 0, out, sizeof out);
    CHECK(n == CAST(int32_t, sizeof acknowledgement) && !memcmp(out, acknowledgement, sizeof acknowledgement));
    CHECK(kept(out, sizeof acknowledgement, sizeof out));
    uint64_t r = linebox_pcs_read(acknowledgement, sizeof acknowledgement, store, LINEBOX_PCS_STORE);
    CHECK(linebox_refusal(r) == 0 && linebox_length(r) == 0 && linebox_pcs_kind(r) == LINEBOX_PCS_POSITIVE);
    CHECK(linebox_pcs_receiver(r) == 250 && linebox_pcs_sender(r) == 101 && linebox_pcs_number(r) == 2);
    CHECK(kept(store, LINEBOX_PCS_STORE, sizeof store));

    /* all fields differ; every data byte, and the longest data */
    n = linebox_pcs_write(255, 2, LINEBOX_PCS_ASKS, 3, 4, 5, 0, data, 1024, out, sizeof out);
    CHECK(n == 1182);
    r = linebox_pcs_read(out, CAST(size_t, n), store, LINEBOX_PCS_STORE);
    CHECK(linebox_refusal(r) == 0 && linebox_length(r) == 1024 && linebox_pcs_kind(r) == LINEBOX_PCS_ASKS && linebox_pcs_crc(r) == 0);
    CHECK(linebox_pcs_receiver(r) == 255 && linebox_pcs_sender(r) == 2 && linebox_pcs_number(r) == 3);
    CHECK(linebox_pcs_sender_port(r) == 4 && linebox_pcs_receiver_port(r) == 5);
    CHECK(!memcmp(store + LINEBOX_PCS_DATA, data, 1024));
}

/* may not be sent, then does not fit; nothing is written */
static void pcs_not_written(void) {
    fresh();
    CHECK(linebox_pcs_write(0, 2, 0, 3, 4, 5, 0, data, 1, out, sizeof out) == -LINEBOX_UNSENDABLE);
    CHECK(linebox_pcs_write(251, 2, 0, 3, 4, 5, 0, data, 1, out, sizeof out) == -LINEBOX_UNSENDABLE);
    CHECK(linebox_pcs_write(1, 255, 0, 3, 4, 5, 0, data, 1, out, sizeof out) == -LINEBOX_UNSENDABLE);
    CHECK(linebox_pcs_write(1, 2, 4, 3, 4, 5, 0, data, 1, out, sizeof out) == -LINEBOX_UNSENDABLE);
    CHECK(linebox_pcs_write(1, 2, 0, 0, 4, 5, 0, data, 1, out, sizeof out) == -LINEBOX_UNSENDABLE);
    CHECK(linebox_pcs_write(1, 2, 0, 3, 0, 5, 0, data, 1, out, sizeof out) == -LINEBOX_UNSENDABLE);
    CHECK(linebox_pcs_write(1, 2, 0, 3, 4, 251, 0, data, 1, out, sizeof out) == -LINEBOX_UNSENDABLE);
    CHECK(linebox_pcs_write(1, 2, 0, 3, 4, 5, 0, data, 1025, NULL, 0) == -LINEBOX_UNSENDABLE);
    CHECK(linebox_pcs_write(1, 2, 3, 3, 4, 5, 0, data, 1, out, sizeof out) == -LINEBOX_UNSENDABLE);
    CHECK(linebox_pcs_write(1, 2, 0, 3, 4, 5, 0, data, 1, out, 12) == -LINEBOX_OUTPUT_SHORT);
    CHECK(linebox_pcs_write(1, 2, 0, 3, 4, 5, 0, NULL, 0, NULL, 0) == -LINEBOX_OUTPUT_SHORT);
    CHECK(kept(out, 0, sizeof out));
    CHECK(linebox_pcs_write(1, 2, 0, 3, 4, 5, 0, data, 1, out, 13) == 13 && kept(out, 13, sizeof out));
}

static void pcs_refused(void) {
    uint8_t bad[sizeof acknowledgement];
    fresh();
    CHECK(linebox_pcs_read(acknowledgement, 11, store, LINEBOX_PCS_STORE - 1) == LINEBOX_STORE_SHORT);
    CHECK(linebox_pcs_read(acknowledgement, 11, NULL, 0) == LINEBOX_STORE_SHORT);
    CHECK(linebox_pcs_read(acknowledgement, 10, store, sizeof store) == LINEBOX_TOO_SHORT);
    CHECK(linebox_pcs_read(NULL, 0, store, sizeof store) == LINEBOX_TOO_SHORT);
    memcpy(bad, acknowledgement, sizeof bad);
    bad[9] ^= 1;
    CHECK(linebox_pcs_read(bad, 11, store, sizeof store) == LINEBOX_WRONG_CHECK);
    bad[3] = 12; /* a frame with a CRC has three bytes more */
    CHECK(linebox_pcs_read(bad, 11, store, sizeof store) == LINEBOX_TOO_SHORT);
    bad[5] = 253;
    CHECK(linebox_pcs_read(bad, 11, store, sizeof store) == LINEBOX_NEW_START);
    static const uint8_t field[] = {253, 251, 101, 6, 2, 128, 128, 1, 1, 106, 254};
    CHECK(linebox_pcs_read(field, sizeof field, store, sizeof store) == LINEBOX_WRONG_FIELD);
    static const uint8_t stated[] = {253, 1, 1, 4, 1, 128, 2, 1, 1, 139, 254};
    CHECK(linebox_pcs_read(stated, sizeof stated, store, sizeof store) == LINEBOX_WRONG_LENGTH);
    static const uint8_t packing[] = {253, 1, 1, 4, 1, 128, 1, 1, 1, 128, 10, 254}; /* one packed byte */
    CHECK(linebox_pcs_read(packing, sizeof packing, store, sizeof store) == LINEBOX_BADLY_PACKED);
    uint8_t longer[1200];
    memset(longer, 1, sizeof longer);
    longer[0] = 253;
    CHECK(linebox_pcs_read(longer, sizeof longer, store, sizeof store) == LINEBOX_TOO_LONG);
}

/* seven bits as PCS sends them */
static uint8_t sent(unsigned v) { return CAST(uint8_t, v ? v : 128); }

/* puts the sum of frame[1] to frame[n], with a CRC its three bytes too, and the end mark behind them; answers how long the frame is */
static size_t pcs_closed(uint8_t *frame, size_t n, int crc) {
    unsigned sum = 0, c = linebox_crc16(0, frame + 1, n);
    for (size_t i = 1; i <= n; i++) sum = (sum + frame[i]) % 256;
    frame[++n] = sent(sum > 250 ? sum - 128 : sum);
    if (crc) {
        frame[++n] = sent(c % 128);
        frame[++n] = sent(c / 128 % 128);
        frame[++n] = sent(c / 16384);
    }
    frame[++n] = 254;
    return n + 1;
}

/* the frame of the packed bytes 1 to k and behind them one of top bits, with its sum; answers how long it is */
static size_t pcs_frame_of(uint8_t k, uint8_t tops) {
    static const uint8_t header[] = {253, 1, 1, 4, 1, 128, 0, 1, 1};
    memcpy(out, header, sizeof header);
    out[6] = CAST(uint8_t, k + 1);
    for (uint8_t j = 0; j < k; j++) out[9 + j] = CAST(uint8_t, j + 1);
    out[9 + k] = sent(tops);
    return pcs_closed(out, CAST(size_t, 9) + k, 0);
}

/* top bits read into byte j from place 6 - j, and written there again; 13 where a place below that of byte k - 1 is set. Afterwards the store holds
 * what was gathered, and of an accepted frame the data in place of the first k bytes */
static void pcs_group_read(uint8_t k, uint8_t tops) {
    uint8_t frame[20], left[18];
    fresh();
    size_t n = pcs_frame_of(k, tops);
    memcpy(frame, out, n);
    uint64_t r = linebox_pcs_read(frame, n, store, sizeof store);
    if (tops & ((1 << (7 - k)) - 1)) {
        CHECK(r == LINEBOX_BADLY_PACKED && holds(store, frame + 1, n - 2, sizeof store));
        return;
    }
    memcpy(left, frame + 1, n - 2);
    for (uint8_t j = 0; j < k; j++) left[j] = CAST(uint8_t, (j + 1) + 128 * (tops >> (6 - j) & 1));
    CHECK(linebox_refusal(r) == 0 && linebox_length(r) == k && holds(store, left, n - 2, sizeof store));
    fresh();
    CHECK(linebox_pcs_write(1, 1, LINEBOX_PCS_PLAIN, 1, 1, 1, 0, left, k, out, sizeof out) == CAST(int32_t, n) && holds(out, frame, n, sizeof out));
}

/* every length of a last group, with every byte of top bits */
static void pcs_last_groups(void) {
    for (uint8_t k = 1; k <= 7; k++)
        for (uint8_t tops = 0; tops < 128; tops++) pcs_group_read(k, tops);
    /* a fare of two bytes, as request 3 of paper 02 prints it, and as it went out before */
    static const uint8_t fare[] = {0x96, 0x64}, frame[] = {253, 1, 1, 4, 1, 128, 3, 1, 1, 22, 100, 64, 70, 254};
    static const uint8_t before[] = {253, 1, 1, 4, 1, 128, 3, 1, 1, 22, 100, 2, 8, 254};
    fresh();
    CHECK(linebox_pcs_write(1, 1, LINEBOX_PCS_PLAIN, 1, 1, 1, 0, fare, 2, out, sizeof out) == 14 && holds(out, frame, 14, sizeof out));
    CHECK(linebox_pcs_read(before, sizeof before, store, sizeof store) == LINEBOX_BADLY_PACKED);
}

/* the display frame of document 000, the same with a CRC, and their data */
static const uint8_t display[] = {253, 101, 250, 5, 2, 128, 12, 1, 1, 67, 76, 67, 83, 72, 49, 50, 128, 51, 52, 53, 128, 96, 254};
static const uint8_t display_crc[] = {253, 101, 250, 13, 2, 128, 12, 1, 1, 67, 76, 67, 83, 72, 49, 50, 128, 51, 52, 53, 128, 104, 124, 117, 1, 254};
static const uint8_t display_data[] = {'C', 'L', 'C', 'S', 'H', '1', '2', '3', '4', '5'};

/* the message of the display, with a CRC and without: the answers differ in bit 22 alone */
static void pcs_crc_reads_back(void) {
    uint8_t left[sizeof display_crc - 2];
    fresh();
    CHECK(linebox_pcs_write(101, 250, LINEBOX_PCS_ASKS, 2, 1, 1, 1, display_data, 10, out, sizeof out) == CAST(int32_t, sizeof display_crc));
    CHECK(holds(out, display_crc, sizeof display_crc, sizeof out));
    fresh();
    CHECK(linebox_pcs_write(101, 250, LINEBOX_PCS_ASKS, 2, 1, 1, 0, display_data, 10, out, sizeof out) == CAST(int32_t, sizeof display));
    CHECK(holds(out, display, sizeof display, sizeof out));

    uint64_t without = linebox_pcs_read(display, sizeof display, store, LINEBOX_PCS_STORE);
    CHECK(linebox_refusal(without) == 0 && linebox_pcs_crc(without) == 0);
    fresh();
    uint64_t r = linebox_pcs_read(display_crc, sizeof display_crc, store, LINEBOX_PCS_STORE);
    CHECK(r == (without | 1 << 22) && linebox_refusal(r) == 0 && linebox_pcs_crc(r) == 1);
    CHECK(linebox_length(r) == 10 && linebox_pcs_kind(r) == LINEBOX_PCS_ASKS && linebox_kind(r) == LINEBOX_PCS_ASKS);
    CHECK(linebox_pcs_receiver(r) == 101 && linebox_pcs_sender(r) == 250 && linebox_pcs_number(r) == 2);
    CHECK(linebox_pcs_sender_port(r) == 1 && linebox_pcs_receiver_port(r) == 1);
    /* what was gathered, check values too, with the data over the first of it */
    memcpy(left, display_crc + 1, sizeof left);
    memcpy(left, display_data, sizeof display_data);
    CHECK(holds(store, left, sizeof left, sizeof store));
}

/* both acknowledgements with a CRC; no data with them either */
static void pcs_crc_acknowledges(void) {
    for (uint8_t kind = LINEBOX_PCS_POSITIVE; kind <= LINEBOX_PCS_NEGATIVE; kind++) {
        uint8_t frame[14] = {253, 250, 101, CAST(uint8_t, 12 + kind), 2, 128, 128, 1, 1};
        CHECK(pcs_closed(frame, 8, 1) == 14);
        fresh();
        CHECK(linebox_pcs_write(250, 101, kind, 2, 1, 1, 1, data, 1, out, sizeof out) == -LINEBOX_UNSENDABLE);
        CHECK(linebox_pcs_write(250, 101, kind, 2, 1, 1, 1, NULL, 0, out, 13) == -LINEBOX_OUTPUT_SHORT && kept(out, 0, sizeof out));
        CHECK(linebox_pcs_write(250, 101, kind, 2, 1, 1, 1, NULL, 0, out, 14) == 14 && holds(out, frame, 14, sizeof out));
        uint64_t r = linebox_pcs_read(frame, 14, store, LINEBOX_PCS_STORE);
        CHECK(linebox_refusal(r) == 0 && linebox_length(r) == 0 && linebox_pcs_kind(r) == kind && linebox_pcs_crc(r) == 1);
    }
}

/* a crc above 1 may not be sent, and that is looked for before the memory is */
static void pcs_crc_not_written(void) {
    fresh();
    for (unsigned crc = 2; crc < 256; crc++) {
        CHECK(linebox_pcs_write(1, 2, 0, 3, 4, 5, CAST(uint8_t, crc), data, 1, out, sizeof out) == -LINEBOX_UNSENDABLE);
        CHECK(linebox_pcs_write(1, 2, 0, 3, 4, 5, CAST(uint8_t, crc), data, 1, out, 12) == -LINEBOX_UNSENDABLE);
        CHECK(linebox_pcs_write(1, 2, 2, 3, 4, 5, CAST(uint8_t, crc), NULL, 0, NULL, 0) == -LINEBOX_UNSENDABLE);
    }
    /* a CRC makes no other field sendable, and takes three bytes more than no CRC */
    CHECK(linebox_pcs_write(1, 2, 4, 3, 4, 5, 1, data, 1, out, sizeof out) == -LINEBOX_UNSENDABLE);
    CHECK(linebox_pcs_write(0, 2, 0, 3, 4, 5, 1, data, 1, NULL, 0) == -LINEBOX_UNSENDABLE);
    CHECK(linebox_pcs_write(1, 2, 0, 3, 4, 5, 1, data, 1025, NULL, 0) == -LINEBOX_UNSENDABLE);
    CHECK(linebox_pcs_write(1, 2, 0, 3, 4, 5, 1, data, 1, out, 15) == -LINEBOX_OUTPUT_SHORT);
    CHECK(kept(out, 0, sizeof out));
    CHECK(linebox_pcs_write(1, 2, 0, 3, 4, 5, 1, data, 1, out, 16) == 16 && kept(out, 16, sizeof out));
}

/* every kind with and without a CRC, with data of 0 to 40 bytes: the frame ends as the rule says, and reads back */
static void pcs_crc_round_trips(void) {
    for (unsigned k = 0; k < 8 * 41; k++) {
        uint8_t kind = k % 4, crc = k / 4 % 2, frame[64];
        size_t n = k / 8, packed = n + (n + 6) / 7;
        fresh();
        int32_t length = linebox_pcs_write(1, 2, kind, 3, 4, 5, crc, data, n, out, sizeof out);
        if (kind > LINEBOX_PCS_ASKS && n > 0) {
            CHECK(length == -LINEBOX_UNSENDABLE && kept(out, 0, sizeof out));
            continue;
        }
        memcpy(frame, out, 9 + packed);
        CHECK(frame[3] == (crc ? 12 : 4) + kind && frame[5] == 128 && frame[6] == sent(CAST(unsigned, packed)));
        size_t whole = pcs_closed(frame, 8 + packed, crc);
        CHECK(length == CAST(int32_t, whole) && holds(out, frame, whole, sizeof out));
        uint64_t r = linebox_pcs_read(frame, whole, store, LINEBOX_PCS_STORE);
        CHECK(linebox_refusal(r) == 0 && linebox_length(r) == n && !memcmp(store + LINEBOX_PCS_DATA, data, n));
        CHECK(linebox_pcs_kind(r) == kind && linebox_pcs_crc(r) == crc && linebox_pcs_receiver(r) == 1 && linebox_pcs_sender(r) == 2);
        CHECK(linebox_pcs_number(r) == 3 && linebox_pcs_sender_port(r) == 4 && linebox_pcs_receiver_port(r) == 5);
    }
}

/* any other byte in place of one of the four check bytes, but for the two marks */
static void pcs_crc_damaged(void) {
    uint8_t bad[sizeof display_crc];
    for (size_t i = sizeof bad - 5; i < sizeof bad - 1; i++)
        for (unsigned v = 0; v < 256; v++) {
            memcpy(bad, display_crc, sizeof bad);
            if (v == bad[i] || v == 253 || v == 254) continue;
            bad[i] = CAST(uint8_t, v);
            fresh();
            CHECK(linebox_pcs_read(bad, sizeof bad, store, sizeof store) == LINEBOX_WRONG_CHECK);
            CHECK(holds(store, bad + 1, sizeof bad - 2, sizeof store));
        }
    memcpy(bad, display_crc, sizeof bad); /* two bytes in each other's place: the sum stays, only a CRC tells */
    bad[9] = display_crc[10];
    bad[10] = display_crc[9];
    CHECK(linebox_pcs_read(bad, sizeof bad, store, sizeof store) == LINEBOX_WRONG_CHECK);
    memcpy(bad, display, sizeof display);
    bad[9] = display[10];
    bad[10] = display[9];
    CHECK(linebox_refusal(linebox_pcs_read(bad, sizeof display, store, sizeof store)) == 0);
}

/* 0 where a check byte is 128 is wrong too: frames are tried until each of the four was 128 */
static void pcs_crc_as_sent(void) {
    unsigned seen = 0;
    for (unsigned k = 0; k < 250 * 250 && seen != 15; k++) {
        uint8_t number = CAST(uint8_t, k % 250 + 1), port = CAST(uint8_t, k / 250 + 1), bad[14];
        CHECK(linebox_pcs_write(1, 2, 0, number, port, 1, 1, NULL, 0, out, sizeof out) == 14);
        for (size_t i = 9; i < 13; i++) {
            if (out[i] != 128) continue;
            seen |= 1u << (i - 9);
            memcpy(bad, out, 14);
            bad[i] = 0;
            CHECK(linebox_pcs_read(bad, 14, store, sizeof store) == LINEBOX_WRONG_CHECK);
        }
    }
    CHECK(seen == 15);
}

/* what is refused behind the check values, which are right here */
static void pcs_crc_refused(void) {
    uint8_t frame[32] = {253, 1, 2, 12, 3, 128, 128, 4, 5};
#define CLOSED(n, crc) linebox_pcs_read(frame, pcs_closed(frame, n, crc), store, sizeof store)
    for (unsigned info = 0; info < 253; info++) { /* 4 to 7 and 12 to 15 are the only ones */
        frame[3] = CAST(uint8_t, info);
        int crc = info / 4 == 3, plain = info / 4 == 1;
        CHECK(linebox_refusal(CLOSED(8, crc)) == (crc || plain ? 0 : LINEBOX_WRONG_FIELD));
    }
    frame[6] = 3; /* the length counts the packed data, not the CRC */
    frame[3] = 13;
    CHECK(CLOSED(8, 1) == LINEBOX_WRONG_LENGTH);
    frame[3] = 14; /* an acknowledgement that states data, with them and without */
    CHECK(CLOSED(8, 1) == LINEBOX_WRONG_FIELD);
    frame[9] = frame[10] = 1;
    frame[11] = 128;
    CHECK(CLOSED(11, 1) == LINEBOX_WRONG_FIELD);
    frame[3] = 12;
    CHECK(linebox_length(CLOSED(11, 1)) == 2);
    frame[11] = 1; /* an unused place is set */
    CHECK(CLOSED(11, 1) == LINEBOX_BADLY_PACKED);
    frame[1] = 0;
    CHECK(CLOSED(11, 1) == LINEBOX_WRONG_FIELD);
    frame[13] ^= 1; /* the CRC comes before the fields */
    CHECK(linebox_pcs_read(frame, 17, store, sizeof store) == LINEBOX_WRONG_CHECK);
}

/* frames of 0 to 12 bytes between the marks: 9 are enough for one with the sum alone, 12 for one with a CRC; here no check value is right */
static void pcs_crc_too_short(void) {
    for (uint8_t info = 4; info < 16; info++)
        for (size_t n = 0; n <= 12; n++) {
            uint8_t frame[14] = {253, 1, 1, info, 1, 1, 1, 1, 1, 1, 1, 1, 1};
            frame[n + 1] = 254;
            CHECK(linebox_pcs_read(frame, n + 2, store, sizeof store) == (n < (info < 12 ? 9 : 12) ? LINEBOX_TOO_SHORT : LINEBOX_WRONG_CHECK));
        }
    uint8_t frame[14] = {253, 1, 1, 12, 1, 128, 128, 1, 1}; /* a right sum does not help */
    CHECK(linebox_pcs_read(frame, pcs_closed(frame, 8, 0), store, sizeof store) == LINEBOX_TOO_SHORT);
    CHECK(linebox_refusal(linebox_pcs_read(frame, pcs_closed(frame, 8, 1), store, sizeof store)) == 0);
}

/* frames of 1,180 to 1,184 bytes between the marks. Without a CRC those of 1,181 to 1,183 are refused at their end, though all else is right:
 * the sum, the fields, the stated length and the packing of 1,025 to 1,027 bytes of data */
static void pcs_crc_too_long(void) {
    static uint8_t frame[1200];
    memset(frame, 1, sizeof frame);
    frame[0] = 253;
    frame[5] = 9; /* 1,171 packed bytes and more */
    for (size_t n = 1180; n <= 1183; n++) {
        frame[3] = 4;
        frame[6] = CAST(uint8_t, n - 9 - 9 * 128);
        memset(frame + 9, 1, n - 9);
        frame[n - 1] = 128; /* no top bit in the last group */
        fresh();
        CHECK(pcs_closed(frame, n - 1, 0) == n + 2);
        uint64_t r = linebox_pcs_read(frame, n + 2, store, sizeof store);
        CHECK(n == 1180 ? linebox_refusal(r) == 0 && linebox_length(r) == 1024 : r == LINEBOX_TOO_LONG && holds(store, frame + 1, n, sizeof store));
        frame[n] ^= 1; /* the sum comes after the size */
        CHECK(linebox_pcs_read(frame, n + 2, store, sizeof store) == (n == 1180 ? LINEBOX_WRONG_CHECK : LINEBOX_TOO_LONG));
        for (unsigned info = 0; info < 253; info++) { /* whatever the info byte: 5, but for a frame with a CRC, which is judged on */
            frame[3] = CAST(uint8_t, info);
            pcs_closed(frame, n - 1, 0);
            if (n == 1180 && info / 4 != 3) continue;
            CHECK(linebox_pcs_read(frame, n + 2, store, sizeof store) == (info / 4 == 3 ? LINEBOX_WRONG_CHECK : LINEBOX_TOO_LONG));
        }
    }
    for (int crc = 0; crc < 2; crc++) { /* byte 1,184 is one too many, and not stored; without it the frame is open */
        frame[3] = crc ? 12 : 4;
        memset(frame + 9, 1, sizeof frame - 9);
        fresh();
        CHECK(linebox_pcs_read(frame, 1185, store, sizeof store) == LINEBOX_TOO_LONG && holds(store, frame + 1, 1183, sizeof store));
        CHECK(linebox_pcs_read(frame, 1184, store, sizeof store) == LINEBOX_TOO_SHORT);
        frame[1185] = 254;
        CHECK(linebox_pcs_read(frame, 1186, store, sizeof store) == LINEBOX_TOO_LONG);
        frame[1184] = 253;
        CHECK(linebox_pcs_read(frame, 1186, store, sizeof store) == LINEBOX_NEW_START);
    }
}

static const uint8_t mdu_frame[] = {0xE3, 0x01, 0x00, 0x01, 0x0D, 0xF2, 0x31, 0xD4, 0xC1}, body[] = {0x31};

static void mdu_reads_back(void) {
    fresh();
    CHECK(linebox_mdu_write(0x0D, body, 1, out, sizeof out) == 9 && !memcmp(out, mdu_frame, 9) && kept(out, 9, sizeof out));
    uint64_t r = linebox_mdu_read(mdu_frame, 9, store, LINEBOX_MDU_STORE);
    CHECK(r == (CAST(uint64_t, 0x0D) << 24 | 1 << 8));
    CHECK(linebox_mdu_address(r) == 0x0D && linebox_length(r) == 1 && store[LINEBOX_MDU_DATA] == 0x31);
    CHECK(!memcmp(store, mdu_frame, 9) && kept(store, 9, sizeof store));

    CHECK(linebox_mdu_write(255, data, 1025, out, 1033) == 1033);
    r = linebox_mdu_read(out, 1033, store, LINEBOX_MDU_STORE);
    CHECK(linebox_refusal(r) == 0 && linebox_length(r) == 1025 && linebox_mdu_address(r) == 255);
    CHECK(!memcmp(store + LINEBOX_MDU_DATA, data, 1025));
}

static void mdu_not_written(void) {
    fresh();
    CHECK(linebox_mdu_write(0, body, 1, out, sizeof out) == -LINEBOX_UNSENDABLE);
    CHECK(linebox_mdu_write(1, NULL, 0, out, sizeof out) == -LINEBOX_UNSENDABLE);
    CHECK(linebox_mdu_write(1, data, 1026, out, sizeof out) == -LINEBOX_UNSENDABLE);
    CHECK(linebox_mdu_write(1, body, 1, out, 8) == -LINEBOX_OUTPUT_SHORT);
    CHECK(linebox_mdu_write(1, body, 1, NULL, 0) == -LINEBOX_OUTPUT_SHORT);
    CHECK(kept(out, 0, sizeof out));
}

static void mdu_refused(void) {
    uint8_t bad[12];
    fresh();
    CHECK(linebox_mdu_read(mdu_frame, 9, store, LINEBOX_MDU_STORE - 1) == LINEBOX_STORE_SHORT && kept(store, 0, sizeof store));
    CHECK(linebox_mdu_read(mdu_frame, 8, store, sizeof store) == LINEBOX_TOO_SHORT);
    /* noise before the frame, a byte behind it */
    memcpy(bad + 1, mdu_frame, 9);
    bad[0] = 0;
    bad[10] = 0;
    CHECK(linebox_mdu_read(bad, 10, store, sizeof store) == LINEBOX_TOO_SHORT);
    CHECK(linebox_mdu_read(bad + 1, 10, store, sizeof store) == LINEBOX_TOO_SHORT);
    memcpy(bad, mdu_frame, 9);
    bad[8] ^= 1;
    CHECK(linebox_mdu_read(bad, 9, store, sizeof store) == LINEBOX_WRONG_CHECK);
    bad[1] = 2;
    CHECK(linebox_mdu_read(bad, 9, store, sizeof store) == LINEBOX_WRONG_FIELD);
    static const uint8_t length[] = {0xE3, 0x01, 0x04, 0x02, 0x01, 0xEB, 0}; /* 1,026 */
    CHECK(linebox_mdu_read(length, sizeof length, store, sizeof store) == LINEBOX_WRONG_LENGTH);
}

static const uint8_t dle_frame[] = {0x10, 0x02, 0x10, 0x10, 0x03, 0x02, 0x64, 0x96, 0x10, 0x03}, two[] = {0x64, 0x96};

static void dle_reads_back(void) {
    fresh();
    CHECK(linebox_dle_write(0x10, 3, two, 2, out, sizeof out) == 10 && !memcmp(out, dle_frame, 10) && kept(out, 10, sizeof out));
    uint64_t r = linebox_dle_read(dle_frame, 10, store, LINEBOX_DLE_STORE);
    CHECK(r == (CAST(uint64_t, 3) << 32 | CAST(uint64_t, 0x10) << 24 | 2 << 8));
    CHECK(linebox_dle_sequence(r) == 0x10 && linebox_dle_node(r) == 3 && !linebox_dle_is_error(r) && linebox_length(r) == 2);
    CHECK(!memcmp(store + LINEBOX_DLE_DATA, two, 2));

    CHECK(linebox_dle_write_error(7, 8, 9, out, sizeof out) == 8);
    r = linebox_dle_read(out, 8, store, LINEBOX_DLE_STORE);
    CHECK(r == (CAST(uint64_t, 9) << 40 | CAST(uint64_t, 8) << 32 | CAST(uint64_t, 7) << 24 | 1 << 20));
    CHECK(linebox_dle_is_error(r) && linebox_dle_error(r) == 9 && linebox_length(r) == 0);

    uint8_t tens[255];
    memset(tens, 0x10, sizeof tens);
    CHECK(linebox_dle_write(0x10, 0x10, tens, 255, out, 519) == 519);
    r = linebox_dle_read(out, 519, store, LINEBOX_DLE_STORE);
    CHECK(linebox_refusal(r) == 0 && linebox_length(r) == 255 && !memcmp(store + LINEBOX_DLE_DATA, tens, 255));
}

static void dle_not_written(void) {
    fresh();
    CHECK(linebox_dle_write(1, 2, NULL, 0, out, sizeof out) == -LINEBOX_UNSENDABLE);
    CHECK(linebox_dle_write(1, 2, data, 256, out, sizeof out) == -LINEBOX_UNSENDABLE);
    CHECK(linebox_dle_write(1, 2, two, 2, out, 8) == -LINEBOX_OUTPUT_SHORT);
    CHECK(linebox_dle_write(1, 2, two, 2, NULL, 0) == -LINEBOX_OUTPUT_SHORT);
    CHECK(linebox_dle_write_error(1, 2, 3, out, 7) == -LINEBOX_OUTPUT_SHORT);
    CHECK(kept(out, 0, sizeof out));
}

static void dle_refused(void) {
    fresh();
    CHECK(linebox_dle_read(dle_frame, 10, NULL, 0) == LINEBOX_STORE_SHORT);
    CHECK(linebox_dle_read(dle_frame, 10, store, LINEBOX_DLE_STORE - 1) == LINEBOX_STORE_SHORT);
    CHECK(linebox_dle_read(dle_frame, 9, store, sizeof store) == LINEBOX_TOO_SHORT);
    CHECK(linebox_dle_read(NULL, 0, store, sizeof store) == LINEBOX_TOO_SHORT);
    static const uint8_t start[] = {0x10, 0x02, 1, 0x10, 0x02}, code[] = {0x10, 0x02, 1, 0x10, 0x04};
    CHECK(linebox_dle_read(start, sizeof start, store, sizeof store) == LINEBOX_NEW_START);
    CHECK(linebox_dle_read(code, sizeof code, store, sizeof store) == LINEBOX_WRONG_CODE);
    static const uint8_t length[] = {0x10, 0x02, 1, 2, 3, 4, 0x10, 0x03};
    CHECK(linebox_dle_read(length, sizeof length, store, sizeof store) == LINEBOX_WRONG_LENGTH);
    uint8_t longer[300] = {0x10, 0x02};
    CHECK(linebox_dle_read(longer, sizeof longer, store, sizeof store) == LINEBOX_TOO_LONG);
}

static void expansion_reads_back(void) {
    uint8_t marks[1024];
    memset(marks, 0xFF, sizeof marks);
    fresh();
    int32_t n = linebox_expansion_write(0xFD, LINEBOX_EXPANSION_REQUEST, 3, 0xFE, marks, 1024, out, sizeof out);
    CHECK(n > 2050 && n <= LINEBOX_LONGEST && kept(out, CAST(size_t, n), sizeof out));
    uint64_t r = linebox_expansion_read(out, CAST(size_t, n), store, LINEBOX_EXPANSION_STORE);
    CHECK(linebox_refusal(r) == 0 && linebox_length(r) == 1024 && linebox_kind(r) == 0);
    CHECK(linebox_expansion_id(r) == 0xFD && linebox_expansion_type(r) == LINEBOX_EXPANSION_REQUEST);
    CHECK(linebox_expansion_repeat(r) == 3 && linebox_expansion_address(r) == 0xFE && linebox_field(r, 4) == 0);
    CHECK(!memcmp(store + LINEBOX_EXPANSION_DATA, marks, 1024));

    n = linebox_expansion_write(1, LINEBOX_EXPANSION_CHECK_ERROR, 0, 2, NULL, 0, out, sizeof out);
    CHECK(n >= 10);
    r = linebox_expansion_read(out, CAST(size_t, n), store, LINEBOX_EXPANSION_STORE);
    CHECK(r == (CAST(uint64_t, 2) << 48 | CAST(uint64_t, 0) << 40 | CAST(uint64_t, 2) << 32 | CAST(uint64_t, 1) << 24));
}

static void expansion_not_written(void) {
    fresh();
    CHECK(linebox_expansion_write(1, 3, 0, 2, NULL, 0, out, sizeof out) == -LINEBOX_UNSENDABLE);
    CHECK(linebox_expansion_write(1, 0, 4, 2, NULL, 0, out, sizeof out) == -LINEBOX_UNSENDABLE);
    CHECK(linebox_expansion_write(1, 1, 0, 2, data, 1, out, sizeof out) == -LINEBOX_UNSENDABLE);
    CHECK(linebox_expansion_write(1, 0, 0, 2, data, 1025, out, sizeof out) == -LINEBOX_UNSENDABLE);
    CHECK(linebox_expansion_write(1, 0, 0, 2, data, 1, NULL, 0) == -LINEBOX_OUTPUT_SHORT);
    CHECK(kept(out, 0, sizeof out));
}

static void expansion_refused(void) {
    fresh();
    int32_t n = linebox_expansion_write(1, LINEBOX_EXPANSION_REQUEST, 0, 2, NULL, 0, out, sizeof out);
    out[1] ^= 4;
    CHECK(linebox_expansion_read(out, CAST(size_t, n), store, sizeof store) == LINEBOX_WRONG_CHECK);
    CHECK(store[0] == (1 ^ 4) && store[3] == 2); /* id and address as they arrived */
    out[1] ^= 4;
    CHECK(linebox_expansion_read(out, CAST(size_t, n), store, LINEBOX_EXPANSION_STORE - 1) == LINEBOX_STORE_SHORT);
    CHECK(linebox_expansion_read(out, CAST(size_t, n) - 1, store, sizeof store) == LINEBOX_TOO_SHORT);
    CHECK(linebox_expansion_read(out, CAST(size_t, n) + 1, store, sizeof store) == LINEBOX_TOO_SHORT);
    static const uint8_t shortest[] = {0xFD, 0xFE}, start[] = {0xFD, 1, 0xFD}, code[] = {0xFD, 0xFF, 3};
    CHECK(linebox_expansion_read(shortest, 2, store, sizeof store) == LINEBOX_TOO_SHORT);
    CHECK(linebox_expansion_read(start, 3, store, sizeof store) == LINEBOX_NEW_START);
    CHECK(linebox_expansion_read(code, 3, store, sizeof store) == LINEBOX_WRONG_CODE);
    CHECK(linebox_expansion_read(NULL, 0, store, sizeof store) == LINEBOX_TOO_SHORT);
}

/* some message of each link takes the longest frame, and one byte less of memory is too short for it; no larger data is sent */
static void longest_frames(void) {
    uint8_t most[LINEBOX_MDU_MAX_DATA + 1];
    fresh();
    memset(most, 0x10, sizeof most);
#define PCS(crc, n, room) linebox_pcs_write(1, 1, LINEBOX_PCS_PLAIN, 1, 1, 1, crc, most, n, out, room)
    CHECK(PCS(1, LINEBOX_PCS_MAX_DATA + 1, sizeof out) == -LINEBOX_UNSENDABLE);
    CHECK(PCS(1, LINEBOX_PCS_MAX_DATA, LINEBOX_PCS_LONGEST - 1) == -LINEBOX_OUTPUT_SHORT && kept(out, 0, sizeof out));
    CHECK(PCS(0, LINEBOX_PCS_MAX_DATA, LINEBOX_PCS_LONGEST - 4) == -LINEBOX_OUTPUT_SHORT && kept(out, 0, sizeof out));
    CHECK(PCS(0, LINEBOX_PCS_MAX_DATA, LINEBOX_PCS_LONGEST - 3) == LINEBOX_PCS_LONGEST - 3);
    CHECK(PCS(1, LINEBOX_PCS_MAX_DATA, LINEBOX_PCS_LONGEST) == LINEBOX_PCS_LONGEST && kept(out, LINEBOX_PCS_LONGEST, sizeof out));
    /* it fills the store to its last byte */
    CHECK(linebox_pcs_read(out, LINEBOX_PCS_LONGEST, store, LINEBOX_PCS_STORE - 1) == LINEBOX_STORE_SHORT && kept(store, 0, sizeof store));
    uint64_t r = linebox_pcs_read(out, LINEBOX_PCS_LONGEST, store, LINEBOX_PCS_STORE);
    CHECK(linebox_refusal(r) == 0 && linebox_pcs_crc(r) == 1 && linebox_length(r) == LINEBOX_PCS_MAX_DATA);
    CHECK(!memcmp(store + LINEBOX_PCS_DATA, most, LINEBOX_PCS_MAX_DATA) && store[LINEBOX_PCS_STORE - 1] == out[LINEBOX_PCS_LONGEST - 2]);
    CHECK(kept(store, LINEBOX_PCS_STORE, sizeof store) && LINEBOX_PCS_LONGEST == 1185 && LINEBOX_PCS_STORE == 1183);
    fresh();
#define MDU(n, room) linebox_mdu_write(1, most, n, out, room)
    CHECK(MDU(LINEBOX_MDU_MAX_DATA + 1, sizeof out) == -LINEBOX_UNSENDABLE);
    CHECK(MDU(LINEBOX_MDU_MAX_DATA, LINEBOX_MDU_LONGEST - 1) == -LINEBOX_OUTPUT_SHORT && kept(out, 0, sizeof out));
    CHECK(MDU(LINEBOX_MDU_MAX_DATA, LINEBOX_MDU_LONGEST) == LINEBOX_MDU_LONGEST);
    fresh();
#define DLE(n, room) linebox_dle_write(0x10, 0x10, most, n, out, room)
    CHECK(DLE(LINEBOX_DLE_MAX_DATA + 1, sizeof out) == -LINEBOX_UNSENDABLE);
    CHECK(DLE(LINEBOX_DLE_MAX_DATA, LINEBOX_DLE_LONGEST - 1) == -LINEBOX_OUTPUT_SHORT && kept(out, 0, sizeof out));
    CHECK(DLE(LINEBOX_DLE_MAX_DATA, LINEBOX_DLE_LONGEST) == LINEBOX_DLE_LONGEST);
    fresh();
    /* data of escaped bytes alone, whose CRC has four escaped bytes too */
    static const uint8_t last[] = {0xFD, 0xFF, 0xFF, 0xFD, 0xFE, 0xFF, 0xFD, 0xFE, 0xFE, 0xFD, 0xFE, 0xFD, 0xFF, 0xFD, 0xFD, 0xFD};
    memset(most, 0xFF, sizeof most);
    memcpy(most + LINEBOX_EXPANSION_MAX_DATA - sizeof last, last, sizeof last);
#define EXPANSION(n, room) linebox_expansion_write(0xFF, LINEBOX_EXPANSION_REQUEST, 0, 0xFF, most, n, out, room)
    CHECK(EXPANSION(LINEBOX_EXPANSION_MAX_DATA + 1, sizeof out) == -LINEBOX_UNSENDABLE);
    CHECK(EXPANSION(LINEBOX_EXPANSION_MAX_DATA, LINEBOX_EXPANSION_LONGEST - 1) == -LINEBOX_OUTPUT_SHORT && kept(out, 0, sizeof out));
    CHECK(EXPANSION(LINEBOX_EXPANSION_MAX_DATA, LINEBOX_EXPANSION_LONGEST) == LINEBOX_EXPANSION_LONGEST);
    CHECK(linebox_refusal(linebox_expansion_read(out, LINEBOX_EXPANSION_LONGEST, store, sizeof store)) == 0);
    CHECK(LINEBOX_EXPANSION_LONGEST <= LINEBOX_LONGEST);
}

/* the CELDL query of document 000, and its data */
static const uint8_t query[] = {253, 2, 250, 4, 4, 128, 11, 1, 1, 67, 69, 76, 68, 76, 128, 128, 128, 128, 1, 128, 118, 254};
static const uint8_t query_data[] = {'C', 'E', 'L', 'D', 'L', 0, 0, 0, 1};

/* what a refusal leaves in the store: the bytes gathered of the first frame, on PCS with an accepted frame's data over them */
static void left_in_the_store(void) {
    uint8_t run[1200], left[20];
    memcpy(left, query + 1, sizeof left);
    memcpy(left, query_data, sizeof query_data);
    memcpy(run + 1, query, sizeof query);
    run[0] = 0;
    run[sizeof query + 1] = 0;
    fresh(); /* a byte behind the frame, one before it, the frame itself */
    CHECK(linebox_pcs_read(run + 1, sizeof query + 1, store, sizeof store) == LINEBOX_TOO_SHORT && holds(store, left, 20, sizeof store));
    fresh();
    CHECK(linebox_pcs_read(run, sizeof query + 1, store, sizeof store) == LINEBOX_TOO_SHORT && holds(store, left, 20, sizeof store));
    fresh();
    CHECK(linebox_refusal(linebox_pcs_read(query, sizeof query, store, sizeof store)) == 0 && holds(store, left, 20, sizeof store));
    fresh(); /* a frame that stays open, is refused at its end, or by a new start, behind which nothing is gathered */
    CHECK(linebox_pcs_read(query, sizeof query - 1, store, sizeof store) == LINEBOX_TOO_SHORT && holds(store, query + 1, 20, sizeof store));
    fresh();
    run[10] ^= 1;
    CHECK(linebox_pcs_read(run, sizeof query + 1, store, sizeof store) == LINEBOX_WRONG_CHECK && holds(store, run + 2, 20, sizeof store));
    fresh();
    run[12] = 253;
    CHECK(linebox_pcs_read(run, sizeof query + 1, store, sizeof store) == LINEBOX_NEW_START && holds(store, run + 2, 10, sizeof store));
    fresh(); /* the byte that is one too many is not stored */
    memset(run, 7, sizeof run);
    run[0] = 253;
    CHECK(linebox_pcs_read(run, sizeof run, store, sizeof store) == LINEBOX_TOO_LONG && holds(store, run + 1, LINEBOX_PCS_STORE, sizeof store));
    fresh(); /* noise alone; the first of two frames */
    CHECK(linebox_mdu_read(run + 1, 9, store, sizeof store) == LINEBOX_TOO_SHORT && kept(store, 0, sizeof store));
    memcpy(run, mdu_frame, 9);
    run[9] = 0xE3;
    CHECK(linebox_mdu_read(run, 10, store, sizeof store) == LINEBOX_TOO_SHORT && holds(store, mdu_frame, 9, sizeof store));
    fresh();
    static const uint8_t bare[] = {0x10, 3, 2, 0x64, 0x96}, codes[] = {0xFD, 1, 0xFF, 0, 0xFF, 3}, gathered[] = {1, 0xFF};
    CHECK(linebox_dle_read(dle_frame, 9, store, sizeof store) == LINEBOX_TOO_SHORT && holds(store, bare, 5, sizeof store));
    fresh();
    CHECK(linebox_expansion_read(codes, sizeof codes, store, sizeof store) == LINEBOX_WRONG_CODE && holds(store, gathered, 2, sizeof store));
}

/* the published values of 123456789: from 0, and from FFFF as Modbus starts */
static void check_value(void) {
    static const uint8_t digits[] = {'1', '2', '3', '4', '5', '6', '7', '8', '9'};
    CHECK(linebox_crc16(0, digits, 9) == 0xBB3D && linebox_crc16(0xFFFF, digits, 9) == 0x4B37);
    CHECK(linebox_crc16(0, body, 1) == 0xD4C1); /* as behind the body of mdu_frame */
    /* a run of no bytes gives the start, whatever the pointer */
    CHECK(linebox_crc16(0, NULL, 0) == 0 && linebox_crc16(0xD4C1, NULL, 0) == 0xD4C1 && linebox_crc16(0xFFFF, digits, 0) == 0xFFFF);
    /* three blocks, cut anywhere, empty ones too */
    for (size_t i = 0; i <= 9; i++)
        for (size_t j = i; j <= 9; j++) {
            uint16_t value = linebox_crc16(0xFFFF, digits, i);
            value = linebox_crc16(value, digits + i, j - i);
            CHECK(linebox_crc16(value, digits + j, 9 - j) == 0x4B37);
        }
}

/* one byte, whatever it is, from every value that can be reached: the rule bit by bit. What longer runs give is one byte after the other */
static void check_value_of_each_byte(void) {
    unsigned wrong = 0;
    for (unsigned start = 0; start <= 0xFFFF; start++)
        for (unsigned b = 0; b <= 0xFF; b++) {
            unsigned register16 = start ^ b;
            for (int bit = 0; bit < 8; bit++) register16 = register16 & 1 ? register16 >> 1 ^ 0xA001 : register16 >> 1;
            uint8_t byte = CAST(uint8_t, b);
            wrong += linebox_crc16(CAST(uint16_t, start), &byte, 1) != register16;
        }
    CHECK(wrong == 0);
    uint16_t value = 0x1234;
    for (size_t i = 0; i < 1025; i++) {
        CHECK(linebox_crc16(0x1234, data, i) == value);
        value = linebox_crc16(value, data + i, 1);
    }
}

/* the loop of the header: a file with the longest body of an MDU frame, read in blocks, has the value that the frame carries */
static void check_value_by_blocks(void) {
    FILE *file = tmpfile();
    CHECK(file != NULL);
    if (file == NULL) return;
    CHECK(fwrite(data, 1, 1025, file) == 1025);
    rewind(file);
    uint8_t block[256];
    uint16_t value = 0;
    size_t n;
    while ((n = fread(block, 1, sizeof block, file)) > 0) value = linebox_crc16(value, block, n);
    CHECK(!ferror(file));
    fclose(file);
    CHECK(value == linebox_crc16(0, data, 1025));
    CHECK(linebox_mdu_write(1, data, 1025, out, sizeof out) == 1033 && out[1031] == value >> 8 && out[1032] == (value & 0xFF));
}

/* the second example of document 000: the order, what the display shows of it, and the display's answer, which is no order */
static void display_example(void) {
    uint8_t left[sizeof display - 2];
    fresh();
    CHECK(linebox_display_write(12345, 101, 250, 2, out, sizeof out) == CAST(int32_t, sizeof display));
    CHECK(holds(out, display, sizeof display, sizeof out));
    uint64_t r = linebox_display_read(display, sizeof display, store, LINEBOX_PCS_STORE);
    CHECK(linebox_refusal(r) == 0 && linebox_display_receiver(r) == 101 && linebox_display_sender(r) == 250);
    CHECK(linebox_display_number(r) == 2 && linebox_display_value(r) == 12345);
    CHECK(r == (CAST(uint64_t, 12345) << 32 | CAST(uint64_t, 2) << 24 | CAST(uint64_t, 250) << 16 | 101 << 8));
    memcpy(left, display + 1, sizeof left); /* the store is left as linebox_pcs_read leaves it */
    memcpy(left, display_data, sizeof display_data);
    CHECK(holds(store, left, sizeof left, sizeof store));
    uint32_t shown = linebox_display_shown(linebox_display_value(r));
    CHECK(linebox_display_place(shown, 0) == '3' && linebox_display_place(shown, 1) == '4' && linebox_display_place(shown, 2) == '5');

    fresh(); /* the number and the ports as they came, the addresses turned */
    int32_t n = linebox_pcs_write(linebox_display_sender(r), linebox_display_receiver(r), LINEBOX_PCS_POSITIVE, linebox_display_number(r), 1, 1, 0,
                                  NULL, 0, out, sizeof out);
    CHECK(n == CAST(int32_t, sizeof acknowledgement) && holds(out, acknowledgement, sizeof acknowledgement, sizeof out));
    r = linebox_pcs_read(acknowledgement, sizeof acknowledgement, store, LINEBOX_PCS_STORE);
    CHECK(linebox_refusal(r) == 0 && linebox_pcs_kind(r) == LINEBOX_PCS_POSITIVE);
    fresh();
    CHECK(linebox_display_read(acknowledgement, sizeof acknowledgement, store, LINEBOX_PCS_STORE) == LINEBOX_OUTSIDE_PROFILE);
    CHECK(holds(store, acknowledgement + 1, sizeof acknowledgement - 2, sizeof store));
}

/* puts the frame of PCS with this text, from 250 to 101 with number 2, into `out`; answers how long it is */
static size_t pcs_text(uint8_t kind, uint8_t sender_port, uint8_t receiver_port, uint8_t crc, const char *text) {
    uint8_t bytes[40];
    size_t n = strlen(text);
    memcpy(bytes, text, n);
    int32_t length = linebox_pcs_write(101, 250, kind, 2, sender_port, receiver_port, crc, bytes, n, out, sizeof out);
    CHECK(length > 0);
    return length > 0 ? CAST(size_t, length) : 0;
}

/* the frame of a number is that of PCS with the word and the digits; as many bytes are enough; it is read back, and its last digits are shown */
static void display_round_trip(uint32_t value) {
    char text[20], three[20];
    uint8_t frame[LINEBOX_DISPLAY_LONGEST];
    snprintf(text, sizeof text, "CLCSH%lu", CAST(unsigned long, value));
    size_t n = pcs_text(LINEBOX_PCS_ASKS, 1, 1, 0, text);
    CHECK(n <= sizeof frame);
    if (n > sizeof frame) return;
    memcpy(frame, out, n);
    fresh();
    CHECK(linebox_display_write(value, 101, 250, 2, out, n - 1) == -LINEBOX_OUTPUT_SHORT && kept(out, 0, sizeof out));
    CHECK(linebox_display_write(value, 101, 250, 2, out, n) == CAST(int32_t, n) && holds(out, frame, n, sizeof out));
    uint64_t r = linebox_display_read(frame, n, store, LINEBOX_PCS_STORE);
    CHECK(linebox_refusal(r) == 0 && linebox_display_value(r) == value && linebox_display_receiver(r) == 101);
    CHECK(linebox_display_sender(r) == 250 && linebox_display_number(r) == 2);
    snprintf(three, sizeof three, "%3lu", CAST(unsigned long, value));
    const char *last = three + strlen(three) - 3;
    uint32_t shown = linebox_display_shown(value);
    for (unsigned i = 0; i < 3; i++) CHECK(linebox_display_place(shown, i) == last[i]);
    CHECK(shown >> 24 == 0);
}

/* every number of up to four digits, and the least and the most of each more */
static void display_reads_back(void) {
    for (uint32_t value = 0; value < 10000; value++) display_round_trip(value);
    for (uint32_t ten = 10000; ten <= LINEBOX_DISPLAY_MOST; ten *= 10) {
        display_round_trip(ten - 1);
        display_round_trip(ten);
        display_round_trip(ten + 7);
    }
    display_round_trip(LINEBOX_DISPLAY_MOST);
    CHECK(LINEBOX_DISPLAY_MOST == 99999999);
    CHECK(linebox_display_write(LINEBOX_DISPLAY_MOST, 255, 1, 250, out, sizeof out) == LINEBOX_DISPLAY_LONGEST && LINEBOX_DISPLAY_LONGEST == 26);
    uint64_t r = linebox_display_read(out, LINEBOX_DISPLAY_LONGEST, store, LINEBOX_PCS_STORE);
    CHECK(linebox_display_receiver(r) == 255 && linebox_display_sender(r) == 1 && linebox_display_number(r) == 250);
}

/* a number that is too large, then what PCS does not send, then memory that is too short; nothing is written */
static void display_not_written(void) {
    fresh();
    CHECK(linebox_display_write(LINEBOX_DISPLAY_MOST + 1, 101, 250, 2, out, sizeof out) == -LINEBOX_UNSENDABLE);
    CHECK(linebox_display_write(LINEBOX_DISPLAY_MOST + 1, 101, 250, 2, NULL, 0) == -LINEBOX_UNSENDABLE);
    CHECK(linebox_display_write(0xFFFFFFFF, 101, 250, 2, out, sizeof out) == -LINEBOX_UNSENDABLE);
    CHECK(linebox_display_write(7, 0, 250, 2, out, sizeof out) == -LINEBOX_UNSENDABLE);
    CHECK(linebox_display_write(7, 251, 250, 2, NULL, 0) == -LINEBOX_UNSENDABLE);
    CHECK(linebox_display_write(7, 101, 0, 2, out, sizeof out) == -LINEBOX_UNSENDABLE);
    CHECK(linebox_display_write(7, 101, 255, 2, out, sizeof out) == -LINEBOX_UNSENDABLE);
    CHECK(linebox_display_write(7, 101, 250, 0, out, sizeof out) == -LINEBOX_UNSENDABLE);
    CHECK(linebox_display_write(7, 101, 250, 251, out, 17) == -LINEBOX_UNSENDABLE);
    CHECK(linebox_display_write(7, 101, 250, 2, out, 17) == -LINEBOX_OUTPUT_SHORT);
    CHECK(linebox_display_write(7, 101, 250, 2, NULL, 0) == -LINEBOX_OUTPUT_SHORT);
    CHECK(kept(out, 0, sizeof out));
}

/* the n bytes in `out` are a message of PCS and no order; the store is left as linebox_pcs_read leaves it */
static void outside(size_t n) {
    static uint8_t left[sizeof store];
    memset(store, MARK, sizeof store);
    CHECK(linebox_refusal(linebox_pcs_read(out, n, store, sizeof store)) == 0);
    memcpy(left, store, sizeof left);
    memset(store, MARK, sizeof store);
    CHECK(linebox_display_read(out, n, store, sizeof store) == LINEBOX_OUTSIDE_PROFILE && !memcmp(store, left, sizeof left));
    memset(store, MARK, sizeof store);
    CHECK(linebox_display_read(out, n, store, LINEBOX_PCS_STORE - 1) == LINEBOX_STORE_SHORT && kept(store, 0, sizeof store));
}

static void display_outside(void) {
    static const char *const texts[] = {"",           "CLCS",        "CLCSH",       "CLCSH00",    "CLCSH007",   "CLCSH01234567",  "CLCSH123456789",
                                        "CLCSH 7",    "CLCSH7 ",     "CLCSH1:",     "CLCSH1/",    "CLCSH-7",    "CLCSH4294967296", "clcsh7",
                                        "CLCSI12345", "CCLCSH12345", "12345CLCSH7", "CLCSHCLCSH7"};
    for (size_t i = 0; i < sizeof texts / sizeof *texts; i++) outside(pcs_text(LINEBOX_PCS_ASKS, 1, 1, 0, texts[i]));
    outside(pcs_text(LINEBOX_PCS_PLAIN, 1, 1, 0, "CLCSH12345"));
    outside(pcs_text(LINEBOX_PCS_ASKS, 2, 1, 0, "CLCSH12345"));
    outside(pcs_text(LINEBOX_PCS_ASKS, 1, 2, 0, "CLCSH12345"));
    outside(pcs_text(LINEBOX_PCS_NEGATIVE, 1, 1, 0, ""));
    size_t n = pcs_text(LINEBOX_PCS_ASKS, 1, 1, 1, "CLCSH12345");
    CHECK(n == sizeof display_crc && !memcmp(out, display_crc, n));
    outside(n);
}

/* what PCS refuses is refused with its number, also where the message would be outside the profile */
static void display_refused(void) {
    uint8_t run[sizeof display + 1], frame[32] = {253, 101, 250, 5, 2, 128, 128, 2, 2};
    fresh();
    CHECK(linebox_display_read(display, sizeof display, store, LINEBOX_PCS_STORE - 1) == LINEBOX_STORE_SHORT && kept(store, 0, sizeof store));
    CHECK(linebox_display_read(display, sizeof display, NULL, 0) == LINEBOX_STORE_SHORT);
    CHECK(linebox_display_read(NULL, 0, store, sizeof store) == LINEBOX_TOO_SHORT && kept(store, 0, sizeof store));
    CHECK(linebox_display_read(display, sizeof display - 1, store, sizeof store) == LINEBOX_TOO_SHORT);
    CHECK(holds(store, display + 1, sizeof display - 2, sizeof store));
    memcpy(run, display, sizeof display);
    run[sizeof display] = 0;
    CHECK(linebox_display_read(run, sizeof run, store, sizeof store) == LINEBOX_TOO_SHORT);
    run[13] = 'I'; /* another word, but the sum comes first */
    fresh();
    CHECK(linebox_display_read(run, sizeof display, store, sizeof store) == LINEBOX_WRONG_CHECK);
    CHECK(holds(store, run + 1, sizeof display - 2, sizeof store));
    run[12] = 253;
    CHECK(linebox_display_read(run, sizeof display, store, sizeof store) == LINEBOX_NEW_START);
#define REFUSED(n) linebox_display_read(frame, pcs_closed(frame, n, 0), store, sizeof store)
    CHECK(REFUSED(8) == LINEBOX_OUTSIDE_PROFILE); /* a message without data, to port 2 */
    frame[6] = 2;
    CHECK(REFUSED(8) == LINEBOX_WRONG_LENGTH);
    frame[9] = '7';
    frame[10] = 1; /* a place that is not used */
    CHECK(REFUSED(10) == LINEBOX_BADLY_PACKED);
    frame[2] = 251;
    CHECK(REFUSED(10) == LINEBOX_WRONG_FIELD);
    static uint8_t longer[1200];
    memset(longer, '7', sizeof longer);
    longer[0] = 253;
    CHECK(linebox_display_read(longer, sizeof longer, store, sizeof store) == LINEBOX_TOO_LONG);
}

/* the last three digits, with spaces on the left where there are fewer; of numbers that cannot be sent too */
static void display_places(void) {
    static const struct {
        uint32_t value;
        const char *places;
    } shown[] = {{0, "  0"},      {7, "  7"},          {45, " 45"},         {99, " 99"},         {100, "100"},        {345, "345"},
                 {1000, "000"},   {1005, "005"},       {12345, "345"},      {99999999, "999"},   {100000000, "000"},  {100000045, "045"},
                 {65536, "536"},  {2147483648, "648"}, {4294967295, "295"}, {4294967000, "000"}};
    for (size_t i = 0; i < sizeof shown / sizeof *shown; i++) {
        uint32_t places = linebox_display_shown(shown[i].value);
        for (unsigned k = 0; k < 3; k++) CHECK(linebox_display_place(places, k) == shown[i].places[k]);
        CHECK(places >> 24 == 0);
    }
}

int main(void) {
    for (size_t i = 0; i < sizeof data; i++) data[i] = CAST(uint8_t, 7 * i + i / 256);
    pcs_reads_back();
    pcs_not_written();
    pcs_refused();
    pcs_last_groups();
    pcs_crc_reads_back();
    pcs_crc_acknowledges();
    pcs_crc_not_written();
    pcs_crc_round_trips();
    pcs_crc_damaged();
    pcs_crc_as_sent();
    pcs_crc_refused();
    pcs_crc_too_short();
    pcs_crc_too_long();
    mdu_reads_back();
    mdu_not_written();
    mdu_refused();
    dle_reads_back();
    dle_not_written();
    dle_refused();
    expansion_reads_back();
    expansion_not_written();
    expansion_refused();
    longest_frames();
    left_in_the_store();
    check_value();
    check_value_of_each_byte();
    check_value_by_blocks();
    display_example();
    display_reads_back();
    display_not_written();
    display_outside();
    display_refused();
    display_places();
    if (failures) {
        printf("%d failed\n", failures);
        return 1;
    }
    puts("host: ok");
    return 0;
}
