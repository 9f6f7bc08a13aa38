/* Times the sides of a row by turns, and steps through one call of each. What is kept is printed by tables.c. */
#include "measure.h"
#include "row.h"
#include "steps.h"
#include <stdio.h>
#include <stdlib.h>
#include <string.h>
#include <time.h>

static volatile uint64_t sink;

static double now(void) { struct timespec t; clock_gettime(CLOCK_MONOTONIC, &t); return (double)t.tv_sec * 1e9 + (double)t.tv_nsec; }

static uint64_t call(const struct work *w, const struct side *s, struct input in, uint8_t *memory) {
    memset(out, 0xAA, sizeof out); memset(store, 0x55, sizeof store);
    uint64_t r = w->run(s, in.bytes, in.n);
    memcpy(memory, out, sizeof out); memcpy(memory + sizeof out, store, sizeof store);
    return r;
}

/* Every opponent answers as linebox does on these inputs, and leaves the same memory. */
void agree(const struct work *w, const struct input *in, size_t count) {
    static uint8_t ours[sizeof out + sizeof store], theirs[sizeof ours];
    for (size_t k = 0; k < count; k++) {
        uint64_t r = call(w, &linebox, in[k], ours);
        for (int i = 0; i < WAYS * COMPILERS; i++) {
            const struct side *s = opponents[i / COMPILERS][i % COMPILERS];
            if (!s || !w->entry(s) || (call(w, s, in[k], theirs) == r && !memcmp(ours, theirs, sizeof ours))) continue;
            printf("%s, %s: differs from linebox\n", w->name, s->way);
            exit(1);
        }
    }
}

/* The calls stand so many bytes lower on the stack than another round's: where a stack lies beside the data tells in some calls' time. */
__attribute__((noinline))
static double batch(const struct work *w, const struct side *s, const struct input *in, size_t count, size_t times, size_t lower) {
    volatile uint8_t *gap = __builtin_alloca(lower + 1);
    gap[0] = 0;
    double t = now();
    for (size_t i = 0; i < times; i++)
        for (size_t k = 0; k < count; k++) sink += w->run(s, in[k].bytes, in[k].n);
    return (now() - t) / (double)(times * count);
}

struct sides turns(const struct work *w, const struct input *in, size_t count, int rounds, double *time) {
    struct sides s = {.n = 1, .side = {&linebox}};
    for (int i = 0; i < WAYS * COMPILERS; i++) {
        const struct side *other = opponents[i / COMPILERS][i % COMPILERS];
        if (other && w->entry(other)) { s.side[s.n] = other; s.place[s.n++] = i; }
    }
    double least = 1e9; /* a batch lasts as long as 40 microseconds of linebox's, going by the fastest of a few trials */
    for (int k = 0; k < 5; k++) { double t = batch(w, &linebox, in, count, 1, 0); if (t < least) least = t; }
    size_t times = 1 + (size_t)(40000 / (least * (double)count));
    for (int k = 0; k < rounds; k++)
        for (int i = 0; i < s.n; i++) {
            int turn = (i + k) % s.n;
            time[turn * rounds + k] = batch(w, s.side[turn], in, count, times, (size_t)k * 272 % 4096);
        }
    return s;
}

int by_size(const void *a, const void *b) { double x = *(const double *)a, y = *(const double *)b; return (x > y) - (x < y); }

/* The middle of the values, and the bounds of their middle half. */
static struct spread spread(double *v) {
    qsort(v, ROUNDS, sizeof *v, by_size);
    return (struct spread){v[ROUNDS / 4], v[ROUNDS / 2], v[ROUNDS * 3 / 4]};
}

static const struct work *stepped_work; static const struct side *stepped_side; static struct input stepped_input;
static void stepped(void) { sink += stepped_work->run(stepped_side, stepped_input.bytes, stepped_input.n); }

static struct steps steps_of(const struct work *w, const struct side *s, struct input in) {
    stepped_work = w; stepped_side = s; stepped_input = in;
    return in.n > 4096 ? (struct steps){0} : step_through(w->entry(s), stepped);
}

void measure(const char *name, const struct work *w, const struct input *in, size_t count) {
    static double time[SIDES][ROUNDS], ratio[ROUNDS];
    agree(w, in, count);
    struct sides sides = turns(w, in, count, ROUNDS, time[0]);
    struct measured got[SIDES];
    for (int s = 0; s < sides.n; s++) {
        for (int k = 0; k < ROUNDS; k++) ratio[k] = time[s][k] / time[0][k];
        got[s].ratio = spread(ratio);
        got[s].steps = steps_of(w, sides.side[s], in[0]);
    }
    double bytes = 0, wire = 0;
    for (size_t k = 0; k < count; k++) { bytes += (double)in[k].n; wire += (double)(w->writes ? w->run(&linebox, in[k].bytes, in[k].n) : in[k].n); }
    for (int s = 0; s < sides.n; s++) got[s].time = spread(time[s]).middle;
    for (int s = 1; s < sides.n; s++)
        keep(name, w->name, bytes / (double)count, wire / (double)count, sides.place[s], sides.side[s]->way, got[0], got[s]);
}
