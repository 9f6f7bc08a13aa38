/*
 * linebox: frames of four serial links, written and read, the orders for a three-digit display, and a check value that is
 * carried on block by block.
 *
 *   PCS        boards on one bus; 253 .. 254, data packed into seven bits a byte, a sum byte, with or without a 16-bit CRC
 *   MDU        E3 01 with a stated length, a header sum and a 16-bit CRC
 *   DLE        10 02 .. 10 03 (hex), a 10 between the marks is doubled, no check value
 *   expansion  FD .. FE (hex), the marks are escaped by FF, a 32-bit CRC
 *
 * For C99 and C++11, and later.
 *
 * Every function is a plain function of its arguments: it keeps nothing between calls, allocates nothing, and may be
 * called from several threads at once as long as they lend different memory.
 *
 * Memory. `out` and `store` are lent: while the call lasts nothing else reads or writes them, and they overlap no other
 * argument. The other runs of bytes are only read: while the call lasts others may read them too, but nothing writes them.
 * A length of 0 takes any pointer, NULL too; with any other length the pointer is to that many bytes.
 *
 * Single numbers are bytes, but for a check value, which is any number of 16 bits, and the value that a display is to show,
 * which is any number of 32 bits. What a link does not allow is refused by the call. A larger number that C is given for a
 * byte is cut to its lowest eight bits, one for a check value to its lowest sixteen, one for a display to its lowest
 * thirty-two, by the language, before the call: test it first where that can happen.
 */
#ifndef LINEBOX_H
#define LINEBOX_H

#include <stddef.h>
#include <stdint.h>

#ifdef __cplusplus
extern "C" {
#endif

/* The version of this interface: 1,000 times the major number, and the minor one. The minor number grows with what is added
 * here, the major one when something that stood here changes: a number, a name, a call's parameters, or what a call answers or
 * leaves for some arguments. The library carries no number of its own: link the one that was built beside this header.
 * 1001 added linebox_crc16. 2000 moved the top bits of a PCS frame's last group where that is shorter than seven bytes. A frame
 * that has them where they stood before is refused with LINEBOX_BADLY_PACKED or, with four to six bytes in that group, may be
 * read as other data. Where the last group is full or has no byte above 127, nothing moved.
 * 3000 brought PCS frames with a CRC. linebox_pcs_write takes crc before the data; 0 gives the frame that it wrote until then.
 * LINEBOX_PCS_STORE and LINEBOX_PCS_LONGEST grew by 3. Frames with a CRC are read, and told by linebox_pcs_crc; the number that
 * they were refused with, LINEBOX_CRC_ASKED, is gone. A frame without a CRC that is too long by one to three bytes is still
 * LINEBOX_TOO_LONG, but only at its end mark, and all its bytes lie in the store; a start mark in it is LINEBOX_NEW_START.
 * 3001 added linebox_display_write, linebox_display_read and linebox_display_shown, and LINEBOX_OUTSIDE_PROFILE. */
#define LINEBOX_VERSION 3001

/* ---- Refusals: why a call was not done. 0 is no refusal. */
enum {
    LINEBOX_STORE_SHORT = 1,    /* read: the store is shorter than LINEBOX_.._STORE */
    LINEBOX_OUTPUT_SHORT = 2,   /* write: `out` is shorter than the frame */
    LINEBOX_UNSENDABLE = 3,     /* write: a field or a length that the link does not allow, a value above LINEBOX_DISPLAY_MOST */
    LINEBOX_NEW_START = 4,      /* read: a new start mark inside the frame (not on MDU) */
    LINEBOX_TOO_LONG = 5,       /* read: more bytes in the frame than the link allows (not on MDU) */
    LINEBOX_TOO_SHORT = 6,      /* read: the frame ends too early, or the bytes are not one whole frame */
    LINEBOX_WRONG_CODE = 7,     /* read: an escape that means nothing (DLE, expansion) */
    LINEBOX_WRONG_CHECK = 8,    /* read: a sum or a CRC differs, on PCS either of the two (not on DLE) */
    LINEBOX_WRONG_FIELD = 9,    /* read: a field with a value that is not allowed (not on DLE) */
    LINEBOX_WRONG_LENGTH = 10,  /* read: the stated length is wrong (not on expansion) */
    /* 11 is withdrawn: no call answers it */
    LINEBOX_UNKNOWN_STATE = 12, /* a receiver's state is not one; no function of this header gives it */
    LINEBOX_BADLY_PACKED = 13,  /* read: PCS data that is not packed by the rules */
    /* 14 to 18 are numbers of calls that this header does not have; 19 and 20 do not exist */
    LINEBOX_OUTSIDE_PROFILE = 21 /* linebox_display_read: a PCS message that is no order for a display */
};

/* ---- Writers
 *
 * Each writes the frame of one message at the start of `out` and answers its length in bytes, which is above 0 and at
 * most LINEBOX_.._LONGEST. What lies in `out` behind the frame stays as it was.
 * A negative answer is minus the number of a refusal, and `out` is unchanged: -LINEBOX_UNSENDABLE, which is tested
 * first, or -LINEBOX_OUTPUT_SHORT. `out` of LINEBOX_.._LONGEST bytes is never too short.
 */

/* The longest frame of each link, in wire bytes: some message takes as many. LINEBOX_LONGEST is enough on every link, and the
 * bound that is proved; the others are added up from the rules and tried. */
#define LINEBOX_PCS_LONGEST 1185       /* two marks, 8 of header, 1,171 that carry 1,024 of data, the sum, the CRC of 3 */
#define LINEBOX_MDU_LONGEST 1033       /* 6 of header, the body, the CRC of 2 */
#define LINEBOX_DLE_LONGEST 519        /* two marks of 2; sequence, node and data doubled, 514; the length, 255, is not */
#define LINEBOX_EXPANSION_LONGEST 2064 /* two marks; id, address, data and the CRC escaped, 2,060; type and repeat are not */
#define LINEBOX_LONGEST 2066

/* The largest data of a message of each link, in bytes. */
#define LINEBOX_PCS_MAX_DATA 1024
#define LINEBOX_MDU_MAX_DATA 1025 /* the body: the type byte, then the data */
#define LINEBOX_DLE_MAX_DATA 255
#define LINEBOX_EXPANSION_MAX_DATA 1024

/* receiver 1 to 250, or 255 for all; sender, number, sender_port and receiver_port 1 to 250; kind one of
 * LINEBOX_PCS_..; crc 0 or 1; data of 0 to 1,024 bytes, and none with the two acknowledgements.
 * crc is 1 for a frame that carries a 16-bit CRC behind its sum, 0 for one with the sum alone. Set it to 1 for boards that work
 * with a CRC, and only for those: no call finds out whether a board understands it. PCS advises it for frames of more than 64
 * bytes, but any message may have it, an acknowledgement too. A frame is three bytes longer with it. A crc above 1 is
 * unsendable: where a flag may be any number, hand over flag != 0. */
enum {
    LINEBOX_PCS_PLAIN = 0,
    LINEBOX_PCS_ASKS = 1,     /* asks for an acknowledgement */
    LINEBOX_PCS_POSITIVE = 2, /* positive acknowledgement */
    LINEBOX_PCS_NEGATIVE = 3  /* negative acknowledgement */
};
int32_t linebox_pcs_write(uint8_t receiver, uint8_t sender, uint8_t kind, uint8_t number, uint8_t sender_port,
                          uint8_t receiver_port, uint8_t crc, const uint8_t *data, size_t data_len, uint8_t *out,
                          size_t out_len);

/* address 1 to 255; body, that is the type byte and then the data, of 1 to 1,025 bytes. */
int32_t linebox_mdu_write(uint8_t address, const uint8_t *body, size_t body_len, uint8_t *out, size_t out_len);

/* sequence and node any byte; data of 1 to 255 bytes. */
int32_t linebox_dle_write(uint8_t sequence, uint8_t node, const uint8_t *data, size_t data_len, uint8_t *out,
                          size_t out_len);

/* A DLE error message: sequence, node and error any byte. It is never unsendable. */
int32_t linebox_dle_write_error(uint8_t sequence, uint8_t node, uint8_t error, uint8_t *out, size_t out_len);

/* id and address any byte; type one of LINEBOX_EXPANSION_..; repeat 0 to 3; data of 0 to 1,024 bytes, and only with
 * a request. */
enum {
    LINEBOX_EXPANSION_REQUEST = 0,
    LINEBOX_EXPANSION_ACKNOWLEDGEMENT = 1,
    LINEBOX_EXPANSION_CHECK_ERROR = 2
};
int32_t linebox_expansion_write(uint8_t id, uint8_t type, uint8_t repeat, uint8_t address, const uint8_t *data,
                                size_t data_len, uint8_t *out, size_t out_len);

/* ---- Reads
 *
 * Each reads a run of bytes that should be one whole frame, no byte before it and none behind it, and answers one number:
 *
 *   bits  0 to 7    the number of the refusal, and then every other bit is 0; or 0: a message was read, and
 *   bits  8 to 19   the length of its data in bytes
 *   bits 20 to 21   PCS: the kind; DLE: 1 for an error message, else 0; MDU and expansion: 0
 *   bit  22         PCS: 1 for a frame with a CRC, else 0; MDU, DLE and expansion: 0
 *   bit  23         0
 *   bits 24 to 63   its fields, one byte each, from bit 24 on:
 *                   PCS        receiver, sender, number, sender's port, receiver's port
 *                   MDU        address
 *                   DLE        sequence, node, error byte (0 for a message with data)
 *                   expansion  id, type, repeat, address
 *                   the bits behind the last field are 0
 *
 * The store is where the frame is gathered. It has to have LINEBOX_.._STORE bytes at least, and may hold anything. After
 * a message was read its data lies in the store from place LINEBOX_.._DATA on, until the store is used again; a DLE error
 * message has no data.
 *
 * What else a call leaves. A store that is too short is left unchanged. In every other case, a refusal too, the run is gone
 * through up to the first frame in it that is accepted or refused, or to the end of the run. What was gathered of that frame,
 * or of one that the run leaves open, lies in the store from place 0 on (PCS: the bytes between the marks; MDU: the frame
 * itself; DLE and expansion: the bytes between the marks, with no escapes). Then an accepted PCS frame has its unpacked data
 * put over the first of them. No other place is written.
 * A frame that is accepted is not always told as a message: with a byte before it or behind it the answer is
 * LINEBOX_TOO_SHORT, and the store is left as the accepted frame leaves it, on PCS with the unpacked data.
 * After LINEBOX_WRONG_CHECK on the expansion link store[0] is the id and store[3] the address as they arrived, for a reply of
 * type LINEBOX_EXPANSION_CHECK_ERROR.
 *
 * PCS frames with and without a CRC are read by the same call, and linebox_pcs_crc tells which it was. The frame itself says so
 * by the third byte behind its start mark: 12 to 15 is a frame with a CRC, any other value one without. A byte that would be
 * number 1,184 between the marks is LINEBOX_TOO_LONG at once, with a CRC or without. At the end mark:
 *
 *   LINEBOX_TOO_SHORT    with fewer than 9 bytes between the marks, or fewer than 12 in a frame with a CRC; else
 *   LINEBOX_TOO_LONG     with more than 1,180 between the marks of a frame without a CRC, even where its sum is right; else
 *   LINEBOX_WRONG_CHECK  where the sum, or one of the three bytes of a CRC, is not as the writer sends it: a 0 is not a 128
 *   then LINEBOX_WRONG_FIELD, LINEBOX_WRONG_LENGTH and LINEBOX_BADLY_PACKED; the stated length never counts the CRC
 *
 * A frame is read as exactly the message that the writer makes that frame of, and nothing else is read as a message.
 */
#define LINEBOX_PCS_STORE 1183
#define LINEBOX_MDU_STORE 1033
#define LINEBOX_DLE_STORE 258
#define LINEBOX_EXPANSION_STORE 1032

#define LINEBOX_PCS_DATA 0
#define LINEBOX_MDU_DATA 6 /* the body: the type byte, then the data */
#define LINEBOX_DLE_DATA 3
#define LINEBOX_EXPANSION_DATA 4

uint64_t linebox_pcs_read(const uint8_t *frame, size_t frame_len, uint8_t *store, size_t store_len);
uint64_t linebox_mdu_read(const uint8_t *frame, size_t frame_len, uint8_t *store, size_t store_len);
uint64_t linebox_dle_read(const uint8_t *frame, size_t frame_len, uint8_t *store, size_t store_len);
uint64_t linebox_expansion_read(const uint8_t *frame, size_t frame_len, uint8_t *store, size_t store_len);

/* ---- The parts of a read's answer. All but linebox_refusal are for an answer whose refusal is 0, and those with the name
 * of a link only for an answer of that link's read. The data itself is in the store, at LINEBOX_.._DATA. */

/* the number of the refusal, or 0 */
static inline unsigned linebox_refusal(uint64_t r) { return r & 0xFF; }

/* the length of the data */
static inline size_t linebox_length(uint64_t r) { return r >> 8 & 0xFFF; }

/* the two bits of the kind; the accessors of PCS and DLE below say what they mean */
static inline unsigned linebox_kind(uint64_t r) { return r >> 20 & 3; }

/* field number i, 0 to 4: a higher i is not allowed */
static inline uint8_t linebox_field(uint64_t r, unsigned i) { return r >> (24 + 8 * i) & 0xFF; }

/* PCS: the kind, one of LINEBOX_PCS_..; crc, 1 where the frame had a CRC and else 0, and the five fields, as linebox_pcs_write
 * takes them */
static inline unsigned linebox_pcs_kind(uint64_t r) { return linebox_kind(r); }
static inline uint8_t linebox_pcs_crc(uint64_t r) { return r >> 22 & 1; }
static inline uint8_t linebox_pcs_receiver(uint64_t r) { return linebox_field(r, 0); }
static inline uint8_t linebox_pcs_sender(uint64_t r) { return linebox_field(r, 1); }
static inline uint8_t linebox_pcs_number(uint64_t r) { return linebox_field(r, 2); }
static inline uint8_t linebox_pcs_sender_port(uint64_t r) { return linebox_field(r, 3); }
static inline uint8_t linebox_pcs_receiver_port(uint64_t r) { return linebox_field(r, 4); }

/* MDU: the address; the type byte is the first of the body, in the store */
static inline uint8_t linebox_mdu_address(uint64_t r) { return linebox_field(r, 0); }

/* DLE: whether it is an error message, which has no data; sequence and node; the error byte, 0 for a message with data */
static inline int linebox_dle_is_error(uint64_t r) { return linebox_kind(r) == 1; }
static inline uint8_t linebox_dle_sequence(uint64_t r) { return linebox_field(r, 0); }
static inline uint8_t linebox_dle_node(uint64_t r) { return linebox_field(r, 1); }
static inline uint8_t linebox_dle_error(uint64_t r) { return linebox_field(r, 2); }

/* expansion: the four fields as linebox_expansion_write takes them, the type one of LINEBOX_EXPANSION_.. */
static inline uint8_t linebox_expansion_id(uint64_t r) { return linebox_field(r, 0); }
static inline uint8_t linebox_expansion_type(uint64_t r) { return linebox_field(r, 1); }
static inline uint8_t linebox_expansion_repeat(uint64_t r) { return linebox_field(r, 2); }
static inline uint8_t linebox_expansion_address(uint64_t r) { return linebox_field(r, 3); }

/* ---- The three-digit display
 *
 * The queue display takes orders over PCS: show this value. It shows the last three digits. An order is a PCS message of kind
 * LINEBOX_PCS_ASKS, both ports 1, without a CRC, whose data are the five letters CLCSH and then the value in decimal, 1 to 8
 * digits in ASCII, the first of several not 0; nothing else is an order.
 */
#define LINEBOX_DISPLAY_MOST 99999999 /* the largest value */
#define LINEBOX_DISPLAY_LONGEST 26    /* two marks, 8 of header, 15 that carry the letters and 8 digits, the sum */

/* Writes the order for `receiver`, from `sender`, to show `value`: 0 to LINEBOX_DISPLAY_MOST; receiver, sender and number as
 * linebox_pcs_write takes them. Answers and leaves what a writer does: -LINEBOX_UNSENDABLE for a value that is larger or a
 * field that PCS does not allow, then -LINEBOX_OUTPUT_SHORT. The frame is the one that linebox_pcs_write makes of that message. */
int32_t linebox_display_write(uint32_t value, uint8_t receiver, uint8_t sender, uint8_t number, uint8_t *out, size_t out_len);

/* Reads a run of bytes that should be one whole order, whoever it is for, with a store of LINEBOX_PCS_STORE bytes at least.
 * It refuses what linebox_pcs_read refuses, with the same number, then a message that is no order with
 * LINEBOX_OUTSIDE_PROFILE, and leaves the store as linebox_pcs_read does, whatever it answers. Its answer has bits of its own;
 * linebox_refusal is the only other accessor for it:
 *
 *   bits  0 to 7    the number of the refusal, and then every other bit is 0; or 0: an order was read, and
 *   bits  8 to 15   its receiver
 *   bits 16 to 23   its sender
 *   bits 24 to 31   its number
 *   bits 32 to 58   its value; the bits behind it are 0
 *
 * A frame is read as exactly the order that linebox_display_write makes it of, and nothing else is read as an order.
 * A display answers an order for its own address by a frame of kind LINEBOX_PCS_POSITIVE without data or a CRC, both ports 1,
 * with the number of the order, to its sender. One for receiver 255 it does not answer. An order with the sender and the number
 * of the last one that it took is a repeat: it is not shown again, but answered like any other. */
uint64_t linebox_display_read(const uint8_t *frame, size_t frame_len, uint8_t *store, size_t store_len);

static inline uint8_t linebox_display_receiver(uint64_t r) { return r >> 8 & 0xFF; }
static inline uint8_t linebox_display_sender(uint64_t r) { return r >> 16 & 0xFF; }
static inline uint8_t linebox_display_number(uint64_t r) { return r >> 24 & 0xFF; }
static inline uint32_t linebox_display_value(uint64_t r) { return r >> 32 & 0x7FFFFFF; }

/* The three places that show a value, in ASCII: its last three digits, with spaces on the left where it has fewer. 7 shows two
 * spaces and 7, 1005 shows 005. Bits 0 to 7 of the answer are the left place, 8 to 15 the middle one, 16 to 23 the right one; the
 * others are 0. Every value has its places, those above LINEBOX_DISPLAY_MOST too. */
uint32_t linebox_display_shown(uint32_t value);

/* place number i of the places shown, 0 to 2 from the left: a higher i is not allowed */
static inline uint8_t linebox_display_place(uint32_t shown, unsigned i) { return shown >> 8 * i & 0xFF; }

/* ---- The 16-bit check value, the CRC of MDU and PCS (A001, reflected), carried on from one block to the next
 *
 * Answers the value after `len` bytes when `start` is the value before them; with a length of 0 that is `start` itself. It
 * refuses nothing, and writes nothing. A run that comes in blocks takes one call a block: the first from the start of the whole
 * run, each of the others from what the call before it answered.
 *
 *     uint8_t block[256];
 *     uint16_t value = 0;
 *     size_t n;
 *     while ((n = fread(block, 1, sizeof block, file)) > 0) value = linebox_crc16(value, block, n);
 *     if (ferror(file)) ... the value is that of a part of the file
 *
 * However the run is cut, with empty blocks or without, the last value is that of one call on the whole run from the same
 * start. On MDU the start is 0, and the run is the body: the value stands behind it in the frame, high byte first. On PCS the
 * start is 0 too, and the run is what the sum is over: the bytes as sent, from the receiver's address through the packed data.
 * The value stands behind the sum in three bytes: bits 0 to 6, bits 7 to 13, bits 14 and 15, with 128 wherever that gives 0. A
 * writer or a read of a frame works it out by itself and needs no call of this.
 */
uint16_t linebox_crc16(uint16_t start, const uint8_t *bytes, size_t len);

#ifdef __cplusplus
}
#endif

#endif
