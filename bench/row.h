/* A row of the tables: linebox and one way of C, by each compiler. */
#ifndef ROW_H
#define ROW_H
#include "steps.h"

enum { ROUNDS = 201 };
#define BEHIND 0.995 /* below this middle ratio linebox is behind: 0.99 and less, in two digits */
struct spread { double low, middle, high; };
struct measured { double time; struct spread ratio; struct steps steps; };

void keep(const char *name, const char *work, double bytes, double wire, int place, const char *way, struct measured ours, struct measured theirs);
#endif
