/* Measures linebox against C in one run: the sides, the calls, their inputs and the rows. The opponents' libraries are named on the command line. */
#include "../include/linebox.h"
#include "measure.h"
#include "parts.h"
#include <dlfcn.h>
#include <stdio.h>
#include <stdlib.h>
#include <string.h>
#include <zlib.h>

uint16_t bench_crc16(uint16_t start, const uint8_t *p, size_t n);
uint32_t bench_crc32(const uint8_t *p, size_t n);
uint8_t bench_sum(const uint8_t *p, size_t n);
size_t bench_pack(const uint8_t *data, size_t n, uint8_t *out, size_t room);
size_t bench_unpack(uint8_t *store, size_t size, size_t from, size_t count);

const struct side linebox = {"linebox", bench_crc16, bench_crc32, bench_sum, bench_pack, bench_unpack, linebox_pcs_write, linebox_mdu_write,
    linebox_dle_write, linebox_expansion_write, linebox_pcs_read, linebox_mdu_read, linebox_dle_read, linebox_expansion_read,
    linebox_display_write, linebox_display_read, linebox_display_shown};

static uint32_t zlib_crc32(const uint8_t *p, size_t n) { return (uint32_t)crc32(0, p, (uInt)n); }
static const struct side zlib = {.way = "zlib", .crc32 = zlib_crc32};
static const char *const ways[WAYS - 1] = {"masks", "conditions", "counting_up", "halves", "table", "slices", "bytewise", "words",
    "plain_write", "runs_write", "plain_read", "runs_read"};
const struct side *opponents[WAYS][COMPILERS] = {[WAYS - 1] = {0, &zlib}};

uint8_t out[4096], store[2048];
static size_t room = sizeof out, size = sizeof store; /* how much of them is lent */
static uint16_t start;                                /* of a 16-bit check: 0 while it is timed */
static size_t block;                                  /* how many bytes of a run a call is given */

/* Unpacking needs its bytes in the store: they are laid there anew each time, on every side. */
static size_t unpacked(const struct side *s, const uint8_t *p, size_t n) { memcpy(store, p, n); return s->unpack(store, sizeof store, 8, n - 8); }

/* An order to be written is its value, in four bytes, receiver, sender and number. The length of such an input counts the digits of the value. */
static uint32_t value_at(const uint8_t *p) { uint32_t v; memcpy(&v, p, 4); return v; }

#define WORK(name, writes, f, call) \
    static void (*f##_entry(const struct side *s))(void) { return (void (*)(void))s->f; } \
    static uint64_t f##_run(const struct side *s, const uint8_t *p, size_t n) { (void)n; return (uint64_t)(call); } \
    static const struct work f##_work = {name, writes, f##_entry, f##_run};
WORK("CRC-16", 0, crc16, s->crc16(start, p, n))
WORK("CRC-32", 0, crc32, s->crc32(p, n))
WORK("PCS sum", 0, sum, s->sum(p, n))
WORK("PCS packing", 1, pack, s->pack(p, n, out, room))
WORK("PCS unpacking", 0, unpack, unpacked(s, p, n))
WORK("PCS write", 1, pcs_write, s->pcs_write(2, 250, 0, 4, 1, 1, 0, p, n, out, room))
WORK("MDU write", 1, mdu_write, s->mdu_write(13, p, n, out, room))
WORK("DLE write", 1, dle_write, s->dle_write(7, 3, p, n, out, room))
WORK("expansion write", 1, expansion_write, s->expansion_write(1, 0, 0, 5, p, n, out, room))
WORK("PCS read", 0, pcs_read, s->pcs_read(p, n, store, size))
WORK("MDU read", 0, mdu_read, s->mdu_read(p, n, store, size))
WORK("DLE read", 0, dle_read, s->dle_read(p, n, store, size))
WORK("expansion read", 0, expansion_read, s->expansion_read(p, n, store, size))
WORK("display write", 1, display_write, s->display_write(value_at(p), p[4], p[5], p[6], out, room))
WORK("display read", 0, display_read, s->display_read(p, n, store, size))
WORK("display shown", 0, display_shown, s->display_shown(value_at(p)))

/* PCS with a CRC is written and read by the same functions. */
static uint64_t pcs_write_crc_run(const struct side *s, const uint8_t *p, size_t n) {
    return (uint64_t)s->pcs_write(2, 250, 0, 4, 1, 1, 1, p, n, out, room);
}
static const struct work pcs_write_crc_work = {"PCS write, CRC", 1, pcs_write_entry, pcs_write_crc_run};
static const struct work pcs_read_crc_work = {"PCS read, CRC", 0, pcs_read_entry, pcs_read_run};

/* A run in blocks, each from the value of the one before it; on linebox's side by the call of its C interface. */
static uint64_t blocks_run(const struct side *s, const uint8_t *p, size_t n) {
    uint16_t (*crc16)(uint16_t, const uint8_t *, size_t) = s == &linebox ? linebox_crc16 : s->crc16;
    uint16_t c = start;
    for (size_t i = 0; i < n; i += block) c = crc16(c, p + i, n - i < block ? n - i : block);
    return c;
}
static const struct work blocks_work = {"CRC-16", 0, crc16_entry, blocks_run};

#define SEED 88172645463325252u
static uint64_t state = SEED;
static uint64_t next(void) { state ^= state << 13; state ^= state >> 7; state ^= state << 17; return state >> 16; }

/* The inputs of a row, made of as many payloads: a branch predictor does not learn them by heart as it would one. */
enum { INPUTS = 32, LONGEST = 2100, ANY = -1, NOISE = 65536 };
/* The run that is given in blocks: so long that its calls are not stepped through, which would count the first of them alone. */
enum { BODY = 8192 };
/* The most bytes of a frame that a 16-bit check covers: those of the longest PCS frame. */
enum { COVERED = 1179 };
static uint8_t memory[INPUTS][LONGEST];
static struct input inputs[INPUTS];

/* Payloads of n bytes, of any bytes or all of one. The bytes of a row do not depend on the rows before it. */
static void payloads(size_t n, int byte) {
    state = SEED;
    for (int k = 0; k < INPUTS; k++) {
        for (size_t i = 0; i < n; i++) memory[k][i] = (uint8_t)(byte == ANY ? next() : (uint64_t)byte);
        inputs[k] = (struct input){memory[k], n};
    }
}

static uint32_t power_of_ten(size_t k) { uint32_t v = 1; while (k--) v *= 10; return v; }

static void put_order(uint8_t *p, uint32_t value, uint8_t receiver, uint8_t sender, uint8_t number) {
    memcpy(p, &value, 4);
    p[4] = receiver; p[5] = sender; p[6] = number;
}

/* In place of the payloads orders with values of so many digits. */
static void orders(size_t digits) {
    uint32_t least = power_of_ten(digits - 1);
    state = SEED;
    for (int k = 0; k < INPUTS; k++) {
        put_order(memory[k], least + (uint32_t)(next() % (9 * (uint64_t)least)), 2, 250, 4);
        inputs[k] = (struct input){memory[k], digits};
    }
}

/* In place of the payloads what linebox makes of them: frames, or packed bytes from place 8 on. */
static void made(const struct work *writer, size_t before) {
    for (int k = 0; k < INPUTS; k++) {
        size_t n = (size_t)writer->run(&linebox, inputs[k].bytes, inputs[k].n);
        memcpy(memory[k] + before, out, n);
        inputs[k].n = before + n;
    }
}

/* Gives a damaged PCS frame the end that its info byte asks for, which half of the time is made another first: so that the tests behind the check
 * values are reached, with a CRC and without. */
static void pcs_mended(uint8_t *frame, size_t n) {
    if (n < 11) return;
    if (next() % 2) frame[3] = (uint8_t)(next() % 20);
    int crc = pcs_has_crc(frame + 1, n - 2);
    if (crc && n < 14) return;
    size_t body = n - (crc ? 6 : 3);
    frame[1 + body] = linebox.sum(frame + 1, body);
    if (crc) pcs_put_crc(frame + 2 + body, linebox.crc16(0, frame + 1, body));
    frame[n - 1] = 254;
}

/* A PCS frame that is an order, or is none by one part or another of its message: so that every test of the profile is reached. */
static size_t near_order(uint8_t *frame) {
    uint8_t data[15] = "CLCSH";
    size_t n = next() % 4 ? 5 + next() % 10 : next() % 6;
    for (size_t i = 5; i < 15; i++) data[i] = (uint8_t)('0' + next() % 10);
    if (next() % 4 == 0) data[next() % 15] = (uint8_t)(next() % 2 ? next() : '/' + next() % 12);
    uint8_t kind = (uint8_t)(next() % 4 ? 1 : next() % (n ? 2 : 4)), crc = next() % 8 == 0;
    uint8_t sender_port = next() % 8 ? 1 : 2, receiver_port = next() % 8 ? 1 : 2;
    return (size_t)linebox.pcs_write(2, 250, kind, 4, sender_port, receiver_port, crc, data, n, frame, LONGEST);
}

/* The sides agree on the inputs damaged in some bytes, cut or lengthened, and in less memory too: so on what is refused. */
static void damaged(const struct work *w, size_t least) {
    static uint8_t wrong[LONGEST + 1];
    for (int k = 0; k < 100 * INPUTS; k++) {
        size_t n = inputs[k % INPUTS].n;
        memcpy(wrong, inputs[k % INPUTS].bytes, n);
        for (size_t i = next() % 4; i > 0; i--) wrong[next() % n] = (uint8_t)(next() % 2 ? next() : next() % 2 ? 16 : 253 + next() % 3);
        if (next() % 4 == 0) n = least + next() % (n + 1 - least);
        else if (next() % 4 == 0) wrong[n++] = (uint8_t)next();
        int order = w->entry == display_read_entry;
        if (order && next() % 2) n = near_order(wrong);
        else if ((order || w->entry == pcs_read_entry) && next() % 2) pcs_mended(wrong, n);
        room = next() % 4 ? sizeof out : next() % LONGEST;
        size = next() % 8 ? sizeof store : next() % sizeof store;
        start = (uint16_t)(k * 40503);
        agree(w, &(struct input){wrong, n}, 1);
    }
    room = sizeof out;
    size = sizeof store;
    start = 0;
}

/* The sides agree on values of any size and those beside a power of ten, with any fields, and in less memory: so on what is refused. */
static void other_orders(const struct work *w) {
    for (int k = 0; k < 100 * INPUTS; k++) {
        uint8_t order[7];
        uint32_t value = next() % 2 ? (uint32_t)next() >> next() % 32 : power_of_ten(next() % 10) + (uint32_t)(next() % 3) - 1;
        put_order(order, value, next() % 8 ? 255 : (uint8_t)next(), next() % 8 ? 250 : (uint8_t)next(), next() % 8 ? 4 : (uint8_t)next());
        room = next() % 2 ? sizeof out : next() % (LINEBOX_DISPLAY_LONGEST + 1);
        agree(w, &(struct input){order, sizeof order}, 1);
    }
    room = sizeof out;
}

static void row(const char *name, const struct work *w, size_t n, int byte) {
    payloads(n, byte);
    damaged(w, 0);
    measure(name, w, inputs, INPUTS);
}

static void row_of(const char *name, const struct work *w, const struct work *writer, size_t n, int byte) {
    size_t before = w == &unpack_work ? 8 : 0;
    payloads(n, byte);
    made(writer, before);
    damaged(w, before);
    measure(name, w, inputs, INPUTS);
}

static void noise_row(const char *name, const struct work *w, size_t n) {
    static uint8_t noise[NOISE];
    for (size_t i = 0; i < n; i++) do noise[i] = (uint8_t)next(); while (noise[i] == 253 || noise[i] == 0xE3 || noise[i] == 16);
    measure(name, w, &(struct input){noise, n}, 1);
}

static void order_row(const char *name, const struct work *w, size_t digits) {
    orders(digits);
    other_orders(w);
    measure(name, w, inputs, INPUTS);
}

static void order_row_of(const char *name, const struct work *w, size_t digits) {
    orders(digits);
    made(&display_write_work, 0);
    damaged(w, 0);
    measure(name, w, inputs, INPUTS);
}

static void blocks_row(const char *name, size_t of) {
    static uint8_t run[BODY];
    for (size_t i = 0; i < BODY; i++) run[i] = (uint8_t)(167 * i ^ i >> 8);
    block = of;
    measure(name, &blocks_work, &(struct input){run, BODY}, 1);
}

/* The 32-bit check takes long runs, of 96 bytes and more, in another way. */
static void values(void) {
    static const size_t sizes16[] = {1, 2, 4, 16, 64, 256, 1024}, sizes32[] = {4, 16, 64, 95, 96, 256, 1024};
    for (size_t i = 0; i < sizeof sizes16 / sizeof *sizes16; i++) row("CRC-16", &crc16_work, sizes16[i], ANY);
    payloads(COVERED, ANY);
    at_each_length(&crc16_work, inputs, COVERED);
    blocks_row("CRC-16 in blocks of 64", 64);
    blocks_row("CRC-16 in blocks of 256", 256);
    blocks_row("CRC-16 in blocks of 1024", 1024);
    for (size_t i = 0; i < sizeof sizes32 / sizeof *sizes32; i++) row("CRC-32", &crc32_work, sizes32[i], ANY);
    for (size_t n = 16; n <= 1024; n *= 8) row("PCS sum", &sum_work, n, ANY);
    for (size_t n = 16; n <= 1024; n *= 8) row("PCS packing", &pack_work, n, ANY);
    for (size_t n = 16; n <= 1024; n *= 8) row_of("PCS unpacking", &unpack_work, &pack_work, n, ANY);
}

static void frames(size_t n) {
    row("PCS write", &pcs_write_work, n, ANY);
    row_of("PCS read", &pcs_read_work, &pcs_write_work, n, ANY);
    row("PCS write, CRC", &pcs_write_crc_work, n, ANY);
    row_of("PCS read, CRC", &pcs_read_crc_work, &pcs_write_crc_work, n, ANY);
    row("MDU write", &mdu_write_work, n, ANY);
    row_of("MDU read", &mdu_read_work, &mdu_write_work, n, ANY);
    row("expansion write", &expansion_write_work, n, ANY);
    row_of("expansion read", &expansion_read_work, &expansion_write_work, n, ANY);
}

static void dle_frames(size_t n) {
    row("DLE write", &dle_write_work, n, ANY);
    row_of("DLE read", &dle_read_work, &dle_write_work, n, ANY);
}

static void display(void) {
    static const size_t written[] = {1, 5, 8}, shown[] = {1, 3, 5};
    for (size_t i = 0; i < sizeof written / sizeof *written; i++) {
        order_row("display write", &display_write_work, written[i]);
        order_row_of("display read", &display_read_work, written[i]);
    }
    for (size_t i = 0; i < sizeof shown / sizeof *shown; i++) order_row("display shown", &display_shown_work, shown[i]);
}

int main(int argc, char **argv) {
    for (int c = 0; c < COMPILERS && c + 1 < argc; c++) {
        void *library = dlopen(argv[c + 1], RTLD_NOW);
        for (int k = 0; k < WAYS - 1; k++)
            if (!library || !(opponents[k][c] = dlsym(library, ways[k]))) { printf("%s: %s\n", argv[c + 1], dlerror()); return 1; }
    }
    values();
    for (size_t n = 1; n <= 1024; n *= 4) frames(n);
    for (size_t n = 1; n <= 4; n++) dle_frames(n);
    for (size_t n = 15; n <= 240; n *= 4) dle_frames(n);
    row("DLE write, all hidden", &dle_write_work, 255, 16);
    row_of("DLE read, all hidden", &dle_read_work, &dle_write_work, 255, 16);
    row("expansion write, all hidden", &expansion_write_work, 1024, 0xFF);
    row_of("expansion read, all hidden", &expansion_read_work, &expansion_write_work, 1024, 0xFF);
    for (size_t n = NOISE / 16; n <= NOISE; n *= 16) {
        noise_row("PCS, noise", &pcs_read_work, n);
        noise_row("MDU, noise", &mdu_read_work, n);
        noise_row("DLE, noise", &dle_read_work, n);
        noise_row("expansion, noise", &expansion_read_work, n);
    }
    display();
    print_tables();
    return 0;
}
