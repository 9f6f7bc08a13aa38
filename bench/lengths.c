/* Times a call at every length, in fewer rounds than a row's: rows at a few lengths could miss one at which linebox is behind. */
#include "measure.h"
#include "row.h"
#include <stdio.h>
#include <stdlib.h>

enum { TURNS = 21, PAYLOADS = 8 };
static struct { const char *way; size_t behind, at; double least; } found[WAYS * COMPILERS];
static const char *name;
static size_t most;

static void at_length(const struct work *w, const struct input *in) {
    static double time[SIDES][TURNS];
    agree(w, in, PAYLOADS);
    struct sides sides = turns(w, in, PAYLOADS, TURNS, time[0]);
    for (int s = 1; s < sides.n; s++) {
        double ratio[TURNS];
        for (int k = 0; k < TURNS; k++) ratio[k] = time[s][k] / time[0][k];
        qsort(ratio, TURNS, sizeof *ratio, by_size);
        double middle = ratio[TURNS / 2];
        int place = sides.place[s];
        if (middle < BEHIND) found[place].behind++;
        if (!found[place].way || middle < found[place].least) { found[place].least = middle; found[place].at = in[0].n; }
        found[place].way = sides.side[s]->way;
    }
}

void at_each_length(const struct work *w, struct input *in, size_t longest) {
    name = w->name;
    most = longest;
    for (size_t n = 1; n <= longest; n++) {
        for (int k = 0; k < PAYLOADS; k++) in[k].n = n;
        at_length(w, in);
    }
}

void print_each_length(void) {
    printf("## %s at each length from 1 to %zu\n\n| Against | clang, lengths behind | least ratio | at | gcc, lengths behind | least ratio | at |\n"
           "|---|--:|--:|--:|--:|--:|--:|\n", name, most);
    for (int i = 0; i < WAYS * COMPILERS; i += COMPILERS) {
        if (!found[i].way) continue;
        printf("| %s |", found[i].way);
        for (int c = 0; c < COMPILERS; c++) printf(" %zu | %.2f | %zu |", found[i + c].behind, found[i + c].least, found[i + c].at);
        puts("");
    }
    puts("");
}
