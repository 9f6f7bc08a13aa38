/* Times two builds of linebox by turns in one process: of each call the earlier build's time over that of the present one. Each build reads what
 * it wrote itself, so that builds of two rules can be held against each other. EARLIER_VERSION is the LINEBOX_VERSION of the earlier one. */
#include "side.h"
#include <stdio.h>
#include <stdlib.h>
#include <string.h>
#include <time.h>

/* A side whose calls have names that begin with p. Its linebox_pcs_write has a crc of the type behind `write`; or it has none, and `write` is 0.
 * The display's calls are left out, since an earlier build may have none. */
#define BUILD(side_name, p, write, ...) \
    uint16_t p##bench_crc16(uint16_t, const uint8_t *, size_t); \
    uint32_t p##bench_crc32(const uint8_t *, size_t); \
    uint8_t p##bench_sum(const uint8_t *, size_t); \
    size_t p##bench_pack(const uint8_t *, size_t, uint8_t *, size_t); \
    size_t p##bench_unpack(uint8_t *, size_t, size_t, size_t); \
    int32_t p##linebox_pcs_write(uint8_t, uint8_t, uint8_t, uint8_t, uint8_t, uint8_t, __VA_ARGS__ const uint8_t *, size_t, uint8_t *, size_t); \
    int32_t p##linebox_mdu_write(uint8_t, const uint8_t *, size_t, uint8_t *, size_t); \
    int32_t p##linebox_dle_write(uint8_t, uint8_t, const uint8_t *, size_t, uint8_t *, size_t); \
    int32_t p##linebox_expansion_write(uint8_t, uint8_t, uint8_t, uint8_t, const uint8_t *, size_t, uint8_t *, size_t); \
    uint64_t p##linebox_pcs_read(const uint8_t *, size_t, uint8_t *, size_t); \
    uint64_t p##linebox_mdu_read(const uint8_t *, size_t, uint8_t *, size_t); \
    uint64_t p##linebox_dle_read(const uint8_t *, size_t, uint8_t *, size_t); \
    uint64_t p##linebox_expansion_read(const uint8_t *, size_t, uint8_t *, size_t); \
    static const struct side side_name = {#side_name, p##bench_crc16, p##bench_crc32, p##bench_sum, p##bench_pack, p##bench_unpack, \
        write, p##linebox_mdu_write, p##linebox_dle_write, p##linebox_expansion_write, \
        p##linebox_pcs_read, p##linebox_mdu_read, p##linebox_dle_read, p##linebox_expansion_read, 0, 0, 0};
#if EARLIER_VERSION < 3000 /* no crc yet */
BUILD(earlier, earlier_, 0, )
#else
BUILD(earlier, earlier_, earlier_linebox_pcs_write, uint8_t, )
#endif
BUILD(present, , linebox_pcs_write, uint8_t, )

enum { INPUTS = 32, LONGEST = 2100, ROUNDS = 201 };
static uint8_t out[4096], store[2048], inputs[2][INPUTS][LONGEST];
static size_t lengths[2][INPUTS];
static volatile uint64_t sink;

typedef uint64_t run(const struct side *, const uint8_t *, size_t);
#define RUN(f, call) static uint64_t f##_run(const struct side *s, const uint8_t *p, size_t n) { return (uint64_t)(call); }
RUN(crc16, s->crc16(0, p, n))
RUN(crc32, s->crc32(p, n))
RUN(sum, s->sum(p, n))
RUN(pack, s->pack(p, n, out, sizeof out))
RUN(unpack, (memcpy(store + 8, p, n), s->unpack(store, sizeof store, 8, n))) /* behind a header, as in a frame */
RUN(pcs_write_crc, s->pcs_write(2, 250, 0, 4, 1, 1, 1, p, n, out, sizeof out))
RUN(mdu_write, s->mdu_write(13, p, n, out, sizeof out))
RUN(dle_write, s->dle_write(7, 3, p, n, out, sizeof out))
RUN(expansion_write, s->expansion_write(1, 0, 0, 5, p, n, out, sizeof out))
RUN(pcs_read, s->pcs_read(p, n, store, sizeof store))
RUN(mdu_read, s->mdu_read(p, n, store, sizeof store))
RUN(dle_read, s->dle_read(p, n, store, sizeof store))
RUN(expansion_read, s->expansion_read(p, n, store, sizeof store))

/* Each build is called with its own parameters. */
static uint64_t pcs_write_run(const struct side *s, const uint8_t *p, size_t n) {
#if EARLIER_VERSION < 3000
    if (s == &earlier) return (uint64_t)earlier_linebox_pcs_write(2, 250, 0, 4, 1, 1, p, n, out, sizeof out);
#endif
    return (uint64_t)s->pcs_write(2, 250, 0, 4, 1, 1, 0, p, n, out, sizeof out);
}

static double now(void) { struct timespec t; clock_gettime(CLOCK_MONOTONIC, &t); return (double)t.tv_sec * 1e9 + (double)t.tv_nsec; }

static int by_size(const void *a, const void *b) { double x = *(const double *)a, y = *(const double *)b; return (x > y) - (x < y); }

/* The calls stand `lower` bytes further down the stack, another number in each round. */
__attribute__((noinline))
static double batch(run *call, const struct side *s, size_t times, size_t lower) {
    int b = s == &present;
    volatile uint8_t *gap = __builtin_alloca(lower + 1);
    gap[0] = 0;
    double t = now();
    for (size_t i = 0; i < times; i++)
        for (int k = 0; k < INPUTS; k++) sink += call(s, inputs[b][k], lengths[b][k]);
    return (now() - t) / (double)(times * INPUTS);
}

/* The same payloads for both builds, or what the writer of each makes of them. */
static void payloads(size_t n, run *writer) {
    static uint64_t state = 88172645463325252u;
    for (int k = 0; k < INPUTS; k++) {
        for (size_t i = 0; i < n; i++) {
            state ^= state << 13; state ^= state >> 7; state ^= state << 17;
            inputs[0][k][i] = inputs[1][k][i] = (uint8_t)(state >> 16);
        }
        for (int b = 0; b < 2; b++) {
            lengths[b][k] = n;
            if (!writer) continue;
            lengths[b][k] = (size_t)writer(b ? &present : &earlier, inputs[b][k], n);
            if (lengths[b][k] == 0 || lengths[b][k] > LONGEST) { fprintf(stderr, "%zu bytes are not written\n", n); exit(1); }
            memcpy(inputs[b][k], out, lengths[b][k]);
        }
    }
}

static void row(const char *name, run *call, run *writer, size_t n) {
    double ratio[ROUNDS], time[2][ROUNDS];
    payloads(n, writer);
    size_t times = 1 + (size_t)(40000 / (batch(call, &present, 1, 0) * INPUTS));
    for (int k = 0; k < ROUNDS; k++) {
        for (int i = 0; i < 2; i++) {
            int b = (i + k) % 2;
            time[b][k] = batch(call, b ? &present : &earlier, times, (size_t)k * 272 % 4096);
        }
        ratio[k] = time[0][k] / time[1][k];
    }
    qsort(ratio, ROUNDS, sizeof *ratio, by_size);
    for (int b = 0; b < 2; b++) qsort(time[b], ROUNDS, sizeof *time[b], by_size);
    printf("%s | %zu | %.2f (%.2f to %.2f) | %.1f, %.1f\n", name, n, ratio[ROUNDS / 2], ratio[ROUNDS / 4], ratio[ROUNDS * 3 / 4],
        time[0][ROUNDS / 2], time[1][ROUNDS / 2]);
}

int main(void) {
    for (size_t n = 1; n <= 1024; n *= 4) {
        row("CRC-16", crc16_run, 0, n);
        row("CRC-32", crc32_run, 0, n);
        row("PCS sum", sum_run, 0, n);
        row("PCS packing", pack_run, 0, n);
        row("PCS unpacking", unpack_run, pack_run, n);
        row("PCS write", pcs_write_run, 0, n);
        row("PCS read", pcs_read_run, pcs_write_run, n);
        if (EARLIER_VERSION >= 3000) row("PCS write, CRC", pcs_write_crc_run, 0, n);
        if (EARLIER_VERSION >= 3000) row("PCS read, CRC", pcs_read_run, pcs_write_crc_run, n);
        row("MDU write", mdu_write_run, 0, n);
        row("MDU read", mdu_read_run, mdu_write_run, n);
        if (n < 256) row("DLE write", dle_write_run, 0, n);
        if (n < 256) row("DLE read", dle_read_run, dle_write_run, n);
        row("expansion write", expansion_write_run, 0, n);
        row("expansion read", expansion_read_run, expansion_write_run, n);
    }
    return 0;
}
