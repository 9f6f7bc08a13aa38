/* What is measured: a call of every side on the same inputs. */
#ifndef MEASURE_H
#define MEASURE_H
#include "side.h"

struct input { const uint8_t *bytes; size_t n; };

/* A call: the function of a side that it enters (null where the side has none), and one call of it. Its answer is compared, with out and store. */
struct work {
    const char *name;
    int writes; /* the answer is how many bytes go to the wire */
    void (*(*entry)(const struct side *))(void);
    uint64_t (*run)(const struct side *, const uint8_t *bytes, size_t n);
};

extern uint8_t out[4096], store[2048];

/* The opponents by their ways, each by two compilers; zlib is Debian's, and stands in the second place alone. */
enum { WAYS = 13, COMPILERS = 2, SIDES = 1 + WAYS * COMPILERS };
extern const struct side linebox, *opponents[WAYS][COMPILERS];

/* The sides that have a call, linebox first, and at which place of the opponents each of the others stands. */
struct sides { int n, place[SIDES]; const struct side *side[SIDES]; };

/* Every side answers the same on these inputs, or the program ends. */
void agree(const struct work *work, const struct input *inputs, size_t count);
/* The time of a call, in nanoseconds, of each side in each of so many rounds, the sides by turns; a side's rounds stand together. */
struct sides turns(const struct work *work, const struct input *inputs, size_t count, int rounds, double *times);
int by_size(const void *a, const void *b);
void measure(const char *name, const struct work *work, const struct input *inputs, size_t count);
void print_tables(void);

/* At every length of the inputs from 1 to the longest: of each opponent that both compilers built, how often linebox is behind, and where most. It is
 * called once. */
void at_each_length(const struct work *work, struct input *inputs, size_t longest);
void print_each_length(void);
#endif
